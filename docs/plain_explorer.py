#!/usr/bin/env python3
"""A plain explorer of scripts, to compare the program `run_explore` with. It shares no code with it.

    docs/plain_explorer.py PROGRAM [FIRST [COUNT]]   compares PROGRAM on COUNT random scripts, from seed FIRST on
    docs/plain_explorer.py --show SEED               prints the script of a seed, and the ends that this explorer finds
    docs/plain_explorer.py --ends < SCRIPT           prints the ends of a script

It follows docs/SCRIPTS.md: a state is what every coroutine, channel and Job is at, without any history; each poll of each coroutine is tried
in each state that is new. An end is told by its Jobs, its elements without their places, refused sends, and who waits at which line.
It is a model and no program for use: texts are taken to be scripts, and no channel runs out of places.
"""
import copy
import random
import subprocess
import sys

sys.dont_write_bytecode = True
MOST_STATES = 1500
LAUNCHES = ("launch", "async", "lazy")
OPENS = ("repeat", "each", "scope", "supervisor", "select")


# ---- scripts

class Block:
    def __init__(self, name):
        self.name, self.code = name, []


class Script:
    """The channels (name, kind, how many it keeps), the blocks by name, and who is spawned how often."""

    def __init__(self, text):
        self.channels, self.blocks, self.spawns = {}, {}, []
        block, open_lines = None, []
        for number, line in enumerate(text.splitlines(), 1):
            words = line.split("#")[0].split()
            if not words or words[0] == "script":
                continue
            if block is None:
                if words[0] == "channel":
                    keeps = {"rendezvous": 0, "conflated": 1, "unlimited": 10 ** 9, "buffered": 64}.get(words[2], 0)
                    if len(words) > 3 and words[3].isdigit():
                        keeps = int(words[3])
                    self.channels[words[1]] = (words[2], keeps)
                elif words[0] == "coroutine":
                    block = Block(words[1])
                    self.blocks[words[1]] = block
                elif words[0] == "spawn":
                    self.spawns.append((words[1], int(words[2]) if len(words) > 2 else 1))
            elif words[0] == "end":
                if not open_lines:
                    block = None
                    continue
                head = open_lines.pop()
                block.code[head]["close"] = len(block.code)
                block.code.append({"words": ["end"], "line": number, "head": head})
            else:
                if words[0] in OPENS:
                    open_lines.append(len(block.code))
                block.code.append({"words": words, "line": number})
        self.sizes = {}
        for name in self.blocks:
            self.size(name)
        self.block_of = []
        self.place("main")
        for name, count in self.spawns:
            for _ in range(count):
                self.place(name)
        for name in self.launched_by("main"):
            self.place(name)

    def launched_by(self, name):
        return [one["words"][1] for one in self.blocks[name].code if one["words"][0] in LAUNCHES]

    def size(self, name):
        """How many coroutines an instance is, with all that it launches."""
        if name not in self.sizes:
            self.sizes[name] = 1 + sum(self.size(one) for one in self.launched_by(name))
        return self.sizes[name]

    def place(self, name):
        """Gives the next tag to an instance, and those after it to what it launches; main's stand behind all that is spawned."""
        self.block_of.append(name)
        if name != "main":
            for one in self.launched_by(name):
                self.place(one)


# ---- states

class Coroutine:
    def __init__(self, tag):
        self.tag, self.line, self.stage, self.failure = tag, 0, "fresh", None
        self.entered, self.result, self.jobs = [], 0, {}
        self.free, self.it, self.sum, self.wait = tag + 1, 0, 0, None

    def key(self):
        return (self.line, self.stage, self.failure, tuple(map(tuple, self.entered)), self.result, tuple(sorted(self.jobs.items())),
                self.free, self.it, self.sum, self.wait)


class Job:
    def __init__(self, parent, tag, supervisor=False, scoped=False):
        self.parent, self.tag, self.supervisor, self.scoped = parent, tag, supervisor, scoped
        self.state, self.body_ended, self.cause, self.value = "active", False, None, 0
        self.children, self.living = [], 0
        self.closed, self.receivers = None, []

    def key(self):
        return (self.parent, self.state, self.body_ended, self.cause, self.value, tuple(self.children), self.living, self.closed,
                tuple(self.receivers))


class Channel:
    def __init__(self, kind, keeps):
        self.kind, self.keeps = kind, keeps
        self.queue, self.receivers, self.closed, self.voided = [], [], False, False

    def key(self):
        return (tuple(map(tuple, self.queue)), tuple(self.receivers), self.closed, self.voided)


class Run:
    """A run between two polls. A wait is that of its coroutine: `stands`, or how it was resolved."""

    def __init__(self, script):
        self.script = script
        self.coroutines = [Coroutine(tag) for tag in range(len(script.block_of))]
        self.channels = {name: Channel(*what) for name, what in script.channels.items()}
        self.rows = {0: Job(None, 0)}
        self.next_scope = len(script.block_of)
        self.losses = []
        for name, count in script.spawns:
            for _ in range(count):
                self.attach(0, self.coroutines[0].free, self.coroutines[0].free)
                self.coroutines[0].free += script.sizes[name]

    def copy(self):
        other = copy.copy(self)
        other.coroutines = [copy.copy(one) for one in self.coroutines]
        for one in other.coroutines:
            one.entered, one.jobs = [list(e) for e in one.entered], dict(one.jobs)
        other.channels = {name: copy.copy(one) for name, one in self.channels.items()}
        for one in other.channels.values():
            one.queue, one.receivers = [list(e) for e in one.queue], list(one.receivers)
        other.rows = {row: copy.copy(one) for row, one in self.rows.items()}
        for one in other.rows.values():
            one.children, one.receivers = list(one.children), list(one.receivers)
        other.losses = list(self.losses)
        return other

    def key(self):
        return (tuple(one.key() for one in self.coroutines), tuple(one.key() for one in self.channels.values()),
                tuple((row, one.key()) for row, one in sorted(self.rows.items())), self.next_scope, tuple(sorted(self.losses)))

    # ---- Jobs

    def attach(self, parent, row, tag, supervisor=False, scoped=False, lazy=False):
        job = Job(parent, tag, supervisor, scoped)
        above = self.rows[parent]
        if above.state in ("cancelling", "cancelled"):
            job.state, job.cause = "cancelling", "request"
        elif lazy:
            job.state = "new"
        above.children.append(row)
        above.living += 1
        self.rows[row] = job

    def cancel(self, row, cause):
        """Cancels the Job and all below it. The answer says whether it was not cancelled before."""
        job = self.rows[row]
        newly = job.state in ("new", "active", "completing")
        if newly:
            job.state, job.cause, job.value = "cancelling", cause, 0
        for child in job.children:
            self.cancel(child, "request")
        return newly

    def fail_up(self, row):
        while True:
            job = self.rows[row]
            if row == 0 or job.scoped or self.rows[job.parent].supervisor:
                return
            if not self.cancel(job.parent, job.cause):
                return
            row = job.parent

    def end_body(self, row, value):
        job = self.rows[row]
        job.body_ended = True
        if job.state == "active":
            job.state, job.value = "completing", value
        while True:
            job = self.rows[row]
            if not job.body_ended or job.living or job.state in ("completed", "cancelled", "new"):
                return
            job.state = "completed" if job.state == "completing" else "cancelled"
            job.closed = job.value if job.state == "completed" else 0
            for tag in job.receivers:
                self.coroutines[tag].wait = ("closed", job.closed)
            job.receivers = []
            if row == 0:
                return
            row = job.parent
            self.rows[row].living -= 1

    # ---- channels

    def leave(self, tag, but=None):
        """Takes the wait of a coroutine out of all channels; what it offered in a select is withdrawn, but at this channel."""
        for name, channel in self.channels.items():
            kept = []
            for value, holder, clause in channel.queue:
                if holder != tag:
                    kept.append([value, holder, clause])
                elif name != but:
                    self.losses.append(("element", name, value, "withdrawn" if clause else "undelivered"))
            channel.queue = kept
            channel.receivers = [(other, clause) for other, clause in channel.receivers if other != tag]
        for job in self.rows.values():
            job.receivers = [other for other in job.receivers if other != tag]

    def resolve(self, tag, how, name):
        self.coroutines[tag].wait = how
        self.leave(tag, name)

    def try_send(self, name, value):
        """`closed`, `done` or `full`."""
        channel = self.channels[name]
        if channel.closed:
            self.losses.append(("refused", name, value, ""))
            return "closed"
        if channel.receivers:
            tag, clause = channel.receivers[0]
            self.resolve(tag, ("value", clause, value), None)
            return "done"
        if len(channel.queue) < channel.keeps:
            channel.queue.append([value, None, 0])
            return "done"
        if channel.kind in ("rendezvous", "buffered"):
            return "full"
        if channel.kind == "droplatest":
            self.losses.append(("element", name, value, "spurned"))
        else:
            channel.queue.append([value, None, 0])
            self.losses.append(("element", name, channel.queue.pop(0)[0], "dropped"))
        return "done"

    def try_receive(self, name):
        """`closed`, `empty`, or the value in a tuple."""
        channel = self.channels[name]
        if not channel.queue:
            return "closed" if channel.closed else "empty"
        value, holder, clause = channel.queue.pop(0)
        if holder is not None:
            self.resolve(holder, ("sent", clause), name)
        if channel.keeps and len(channel.queue) >= channel.keeps:
            last = channel.queue[channel.keeps - 1]
            if last[1] is not None:
                waiter, clause = last[1], last[2]
                last[1], last[2] = None, 0
                self.resolve(waiter, ("sent", clause), name)
        return (value,)

    def close(self, name):
        channel = self.channels[name]
        channel.closed = True
        while channel.receivers:
            tag, clause = channel.receivers[0]
            self.resolve(tag, ("closed", 0), None)

    def void(self, name):
        self.close(name)
        channel = self.channels[name]
        channel.voided = True
        while channel.queue:
            value, holder, clause = channel.queue.pop(0)
            self.losses.append(("element", name, value, "undelivered"))
            if holder is not None:
                self.resolve(holder, ("voided",), name)

    # ---- polls

    def poll(self, tag):
        """Polls a coroutine. The answer says whether it did anything."""
        one = self.coroutines[tag]
        if one.stage == "fresh":
            job = self.rows.get(tag)
            if job is None or job.state == "new":
                return False
            if job.state == "cancelling":
                one.stage, one.failure = "unwinding", None
                return True
            one.stage = "running"
            self.run_line(one)
            return True
        if one.stage == "running":
            self.run_line(one)
            return True
        if one.stage == "waiting":
            if self.rows[self.innermost(one)].state == "cancelling":
                self.give_up(one)
                return True
            if one.wait == "stands":
                return False
            self.end_wait(one)
            return True
        if one.stage == "unwinding":
            self.unwind(one)
            return True
        if one.stage == "leaving":
            if one.wait == "stands":
                return False
            one.wait = None
            self.see_scope(one)
            return True
        return False

    def innermost(self, one):
        for kind, _, row in reversed(one.entered):
            if kind == "scope":
                return row
        return one.tag

    def is_cancelling(self, one):
        return self.rows[self.innermost(one)].state == "cancelling"

    def code(self, one):
        return self.script.blocks[self.script.block_of[one.tag]].code

    def value(self, one, word):
        return one.it if word == "it" else one.sum if word == "sum" else int(word)

    def breaks(self, one, failure):
        one.stage, one.failure = "unwinding", failure

    def waits(self, one):
        one.stage, one.wait = "waiting", "stands"

    def took(self, one, value):
        one.it, one.sum = value, (one.sum + value) % 2 ** 32

    def run_line(self, one):
        code = self.code(one)
        if one.line == len(code):
            one.stage = "ended"
            self.end_body(one.tag, one.result)
            return
        line = code[one.line]
        getattr(self, "do_" + line["words"][0])(one, line)

    def do_send(self, one, line):
        _, name, word = line["words"]
        if self.try_send(name, self.value(one, word)) == "full":
            self.channels[name].queue.append([self.value(one, word), one.tag, 0])
            self.waits(one)
        else:
            one.line += 1

    def do_trysend(self, one, line):
        self.try_send(line["words"][1], self.value(one, line["words"][2]))
        one.line += 1

    def do_receive(self, one, line):
        self.receives(one, line["words"][1], line)

    def do_each(self, one, line):
        self.receives(one, line["words"][1], line)

    def receives(self, one, name, line):
        got = self.try_receive(name)
        if got == "empty":
            self.channels[name].receivers.append((one.tag, 0))
            self.waits(one)
        elif got == "closed":
            self.met_close(one, line)
        else:
            self.got_value(one, line, got[0])

    def met_close(self, one, line):
        one.line = line["close"] + 1 if "close" in line else one.line + 1

    def got_value(self, one, line, value):
        self.took(one, value)
        if line["words"][0] == "each":
            one.entered.append(["each", one.line, 0])
            one.line += 1
        elif line["words"][0] == "select":
            one.line = line["close"] + 1
        else:
            one.line += 1

    def do_tryreceive(self, one, line):
        got = self.try_receive(line["words"][1])
        if isinstance(got, tuple):
            self.took(one, got[0])
        one.line += 1

    def do_select(self, one, line):
        clauses = [clause["words"] for clause in self.code(one)[one.line + 1:line["close"]]]
        for words in clauses:
            if words[0] == "onsend":
                if self.try_send(words[1], self.value(one, words[2])) != "full":
                    one.line = line["close"] + 1
                    return
            else:
                got = self.try_receive(words[1])
                if got == "closed":
                    one.line = line["close"] + 1
                    return
                if got != "empty":
                    self.got_value(one, line, got[0])
                    return
        for number, words in enumerate(clauses, 1):
            if words[0] == "onsend":
                self.channels[words[1]].queue.append([self.value(one, words[2]), one.tag, number])
            else:
                self.channels[words[1]].receivers.append((one.tag, number))
        self.waits(one)

    def do_close(self, one, line):
        self.close(line["words"][1])
        one.line += 1

    def do_cancelchannel(self, one, line):
        self.void(line["words"][1])
        one.line += 1

    def do_yield(self, one, line):
        if self.is_cancelling(one):
            self.breaks(one, None)
        else:
            one.line += 1

    def do_launch(self, one, line):
        words = line["words"]
        self.attach(self.innermost(one), one.free, one.free, lazy=words[0] == "lazy")
        if len(words) > 3:
            one.jobs[words[3]] = one.free
        one.free += self.script.sizes[words[1]]
        one.line += 1

    do_async = do_lazy = do_launch

    def start_job(self, row):
        if self.rows[row].state == "new":
            self.rows[row].state = "active"

    def do_start(self, one, line):
        self.start_job(one.jobs[line["words"][1]])
        one.line += 1

    def do_join(self, one, line):
        if self.is_cancelling(one):
            return self.breaks(one, None)
        self.done_of(one, line)

    def do_await(self, one, line):
        self.done_of(one, line)

    def done_of(self, one, line):
        row = one.jobs[line["words"][1]]
        self.start_job(row)
        job = self.rows[row]
        if job.closed is None:
            job.receivers.append(one.tag)
            self.waits(one)
        else:
            self.joined(one, line)

    def joined(self, one, line):
        if line["words"][0] == "join":
            one.line += 1
            return
        job = self.rows[one.jobs[line["words"][1]]]
        if job.state == "completed":
            self.took(one, job.value)
            one.line += 1
        else:
            self.breaks(one, job.cause[1] if isinstance(job.cause, tuple) else None)
            one.stage = "unwinding"
        if one.stage == "waiting":
            one.stage = "running"

    def do_cancel(self, one, line):
        self.cancel(one.jobs[line["words"][1]], "request")
        one.line += 1

    def do_fail(self, one, line):
        self.breaks(one, one.tag)

    def do_result(self, one, line):
        one.result = self.value(one, line["words"][1])
        one.line += 1

    def do_repeat(self, one, line):
        one.entered.append(["repeat", one.line, int(line["words"][1]) - 1])
        one.line += 1

    def do_scope(self, one, line):
        row = self.next_scope
        self.next_scope += 1
        self.attach(self.innermost(one), row, one.tag, line["words"][0] == "supervisor", True)
        one.entered.append(["scope", one.line, row])
        one.line += 1

    do_supervisor = do_scope

    def do_end(self, one, line):
        kind, head, rest = one.entered[-1]
        if kind == "repeat":
            if rest:
                one.entered[-1][2] = rest - 1
                one.line = head + 1
            else:
                one.entered.pop()
                one.line += 1
        elif kind == "each":
            one.entered.pop()
            one.line = head
        else:
            self.end_body(rest, 0)
            self.wait_for_scope(one, rest)

    def wait_for_scope(self, one, row):
        if self.rows[row].closed is None:
            self.rows[row].receivers.append(one.tag)
            one.stage, one.wait = "leaving", "stands"
        else:
            self.see_scope(one)

    def see_scope(self, one):
        while True:
            kind, head, row = one.entered.pop()
            if kind == "scope":
                break
        job = self.rows[row]
        if job.state == "completed":
            one.stage, one.line = "running", self.code(one)[head]["close"] + 1
        else:
            self.breaks(one, job.cause[1] if isinstance(job.cause, tuple) else None)

    def unwind(self, one):
        row, failure = self.innermost(one), one.failure
        if self.rows[row].state != "cancelling":
            self.cancel(row, ("failure", failure) if failure is not None else "request")
            if failure is not None and row == one.tag:
                self.fail_up(row)
        if row == one.tag:
            one.stage, one.failure, one.entered = "ended", None, []
            self.end_body(row, 0)
        else:
            self.end_body(row, 0)
            self.wait_for_scope(one, row)

    def give_up(self, one):
        if one.wait == "stands":
            self.leave(one.tag)
        elif one.wait[0] == "value":
            line = self.code(one)[one.line]
            words = line["words"]
            if words[0] == "select":
                words = self.code(one)[one.line + one.wait[1]]["words"]
            self.losses.append(("element", words[1], one.wait[2], "undelivered"))
        one.wait = None
        self.breaks(one, None)

    def end_wait(self, one):
        how, line = one.wait, self.code(one)[one.line]
        one.wait, one.stage = None, "running"
        if how[0] == "voided":
            self.breaks(one, None)
        elif how[0] == "value":
            self.got_value(one, line, how[2])
        elif how[0] == "sent":
            one.line = line["close"] + 1 if line["words"][0] == "select" else one.line + 1
        elif line["words"][0] in ("join", "await"):
            self.joined(one, line)
        else:
            self.met_close(one, line)

    # ---- ends

    def told(self):
        """What is told of an end."""
        lines = []
        for row, job in self.rows.items():
            state = job.state
            if state == "completed":
                state = f"completed {job.value}"
            elif state == "cancelled" and isinstance(job.cause, tuple):
                state = f"failed {job.cause[1]}"
            lines.append(f"job {row} {state}")
        for name, channel in self.channels.items():
            lines += [f"element {name} {value} held" for value, _, _ in channel.queue]
        lines += [" ".join(map(str, loss)).rstrip() for loss in self.losses]
        for one in self.coroutines:
            if one.stage == "waiting":
                lines.append(f"{one.tag} waits at {self.code(one)[one.line]['line']}")
            elif one.stage == "leaving":
                lines.append(f"{one.tag} waits")
        return tuple(sorted(lines))


def ends_of(script, most=MOST_STATES):
    """The ends, each with the number of polls of a shortest order; None if there are too many states."""
    start = Run(script)
    seen, layer, ends, depth = {start.key()}, [start], {}, 0
    while layer:
        following = []
        for state in layer:
            moved = False
            for tag in range(len(script.block_of)):
                other = state.copy()
                if other.poll(tag):
                    moved = True
                    key = other.key()
                    if key not in seen:
                        seen.add(key)
                        following.append(other)
                        if len(seen) > most:
                            return None, len(seen)
            if not moved:
                ends.setdefault(state.told(), depth)
        layer, depth = following, depth + 1
    return ends, len(seen)


# ---- random scripts

class Maker:
    """A random script of three to six coroutines, with every line of the language but those that take places."""

    KINDS = ("rendezvous", "rendezvous", "buffered 1", "buffered 2", "unlimited", "conflated", "dropoldest 1", "droplatest 1")

    def __init__(self, seed):
        self.random = random.Random(seed)
        pick = self.random
        self.channels = [f"c{i}" for i in range(pick.randint(1, 3))]
        self.text = ["script 2"] + [f"channel {name} {pick.choice(self.KINDS)}" for name in self.channels]
        self.sizes, self.left = {}, pick.choice((2, 3, 3, 4, 5))
        names = [f"p{i}" for i in range(pick.randint(1, 3))]
        for i, name in enumerate(names):
            self.block(name, names[:i], 0 if i == 0 else 1)
        self.spawned = []
        if pick.random() < 0.5:
            name = pick.choice(names)
            if self.sizes[name] <= self.left:
                self.left -= self.sizes[name]
                self.spawned.append(f"spawn {name}")
        self.block("main", names, 4)
        self.text += self.spawned

    def block(self, name, below, launches):
        pick = self.random
        self.jobs, self.size, self.below, self.launches, self.in_each = [], 1, below, launches, False
        body = self.lines_of(pick.randint(2, 4 if name != "main" else 5), 0)
        if name == "main":
            spare = [one for one in below if self.sizes[one] <= self.left]
            while launches and spare and (self.size < 3 or pick.random() < 0.6):
                one = pick.choice(spare)
                self.left -= self.sizes[one]
                self.size += self.sizes[one]
                body.insert(0, f"launch {one} as q{len(self.jobs)}")
                self.jobs.append(f"q{len(self.jobs)}")
                spare = [one for one in below if self.sizes[one] <= self.left]
        self.text += [f"coroutine {name}"] + ["  " + line for line in body] + ["end"]
        self.sizes[name] = self.size

    def operand(self):
        return self.random.choice(("1", "2", "3", "it", "sum"))

    def lines_of(self, count, depth):
        lines = []
        for _ in range(count):
            lines += self.line(depth)
        return lines

    def line(self, depth):
        pick, channel = self.random, self.random.choice(self.channels)
        what = pick.choice(("send", "send", "send", "receive", "receive", "receive", "trysend", "tryreceive", "close", "cancelchannel",
                            "launch", "launch", "launch", "job", "job", "job", "fail", "result", "repeat", "each", "scope", "select", "select"))
        if what in ("send", "trysend"):
            return [f"{what} {channel} {self.operand()}"]
        if what in ("receive", "tryreceive"):
            return [f"{what} {channel}"]
        if what in ("close", "cancelchannel"):
            return [f"{what} {channel}"] if pick.random() < 0.6 else ["yield"]
        if what == "fail":
            return ["fail 7"] if pick.random() < 0.4 else ["yield"]
        if what == "yield":
            return ["yield"]
        if what == "result":
            return [f"result {self.operand()}"]
        if what == "launch":
            return self.launch(depth)
        if what == "job":
            return [f"{pick.choice(('start', 'join', 'join', 'await', 'cancel'))} {pick.choice(self.asyncs())}"] if self.asyncs() else ["yield"]
        if what == "select":
            names = pick.sample(self.channels, pick.randint(1, len(self.channels)))
            clauses = [f"  onreceive {name}" if pick.random() < 0.6 else f"  onsend {name} {self.operand()}" for name in names]
            return ["select"] + clauses + ["end"]
        if depth > 1 or what == "scope" and self.in_each:
            return ["yield"]
        launches, self.launches = self.launches, self.launches if what == "scope" else 0
        in_each, self.in_each = self.in_each, self.in_each or what == "each"
        inside = self.lines_of(pick.randint(1, 2), depth + 1)
        self.in_each = in_each
        self.launches = min(launches, self.launches) if what == "scope" else launches
        head = {"repeat": "repeat 2", "each": f"each {channel}", "scope": pick.choice(("scope", "supervisor"))}[what]
        return [head] + ["  " + line for line in inside] + ["end"]

    def asyncs(self):
        return [job for job in self.jobs if job.startswith("j")]

    def launch(self, depth):
        spare = [one for one in self.below if self.sizes[one] <= self.left]
        if not self.launches or not spare:
            return ["yield"]
        name = self.random.choice(spare)
        self.launches -= 1
        self.left -= self.sizes[name]
        self.size += self.sizes[name]
        how = self.random.choice(("async", "async", "lazy"))
        self.jobs.append(f"j{len(self.jobs)}")
        return [f"{how} {name} as {self.jobs[-1]}"]


def made(seed):
    return "\n".join(Maker(seed).text) + "\n"


# ---- the comparison

def told_of_block(lines):
    """What a block of the program tells, as `Run.told`; its number of turns and its order."""
    told, turns, order = [], 0, ""
    for line in lines[1:]:
        words = line.split()
        if words[0] == "job":
            told.append(line)
        elif words[0] == "element":
            told.append(" ".join(("element", words[1], words[3], words[4])))
        elif words[0] == "refused":
            told.append(f"refused {words[1]} {words[2]}")
        elif words[0] == "turns":
            turns, order = int(words[1].rstrip(":")), words[2] if len(words) > 2 else ""
        elif words[2] == "waits":
            at = words[5].rstrip(":") if words[3:5] == ["at", "line"] else None
            is_end = line.endswith(": end")
            told.append(f"{words[1]} waits" if is_end or at is None else f"{words[1]} waits at {at}")
    return tuple(sorted(told)), turns, order


def run(program, script, *words):
    done = subprocess.run([program, *words], input=script.encode(), stdout=subprocess.PIPE, stderr=subprocess.DEVNULL)
    return done.returncode, done.stdout.decode()


def blocks_of(text):
    parts = text.rstrip("\n").split("\n\n")
    return [part.splitlines() for part in parts[:-1]], parts[-1]


def compare(program, script):
    """None if this explorer finds too many states; else what differs."""
    wanted, states = ends_of(Script(script))
    if wanted is None:
        return None
    status, text = run(program, script)
    blocks, last = blocks_of(text)
    if status != 0 or "exhausted: " not in last or "not exhausted" in last:
        return [f"status {status}, {last!r}"]
    found, differs = {}, []
    for block in blocks:
        told, turns, order = told_of_block(block)
        if told in found:
            differs.append(f"twice: {told}")
        found[told] = turns
        if order:
            replayed = run(program, script, "--order", order)[1].splitlines()
            lines = [line for line in block if line.startswith(("job ", "element "))]
            if lines != [line for line in replayed if line.startswith(("job ", "element "))]:
                differs.append(f"the order {order} does not lead to the end that is shown")
    differs += [f"missing: {end}" for end in wanted if end not in found]
    differs += [f"extra: {end}" for end in found if end not in wanted]
    differs += [f"turns {found[end]}, and not {turns}: {end}" for end, turns in wanted.items() if found.get(end, turns) != turns]
    return differs


def are_words(words):
    """Whether the words are those of a call."""
    if words == ["--ends"]:
        return True
    numbers = words[1:]
    return bool(words) and all(number.isascii() and number.isdigit() for number in numbers) and (
        len(numbers) == 1 if words[0] == "--show" else len(numbers) < 3 and words[0][:1] != "-")


def main(words):
    if not are_words(words):
        print("usage: docs/plain_explorer.py PROGRAM [FIRST [COUNT]] | --show SEED | --ends < SCRIPT", file=sys.stderr)
        return 2
    if words[:1] == ["--ends"]:
        ends, states = ends_of(Script(sys.stdin.read()), 10 ** 6)
        for end, turns in ends.items():
            print(turns, *end, sep="\n  ")
        print(f"{len(ends)} ends, {states} states")
        return 0
    if words[:1] == ["--show"]:
        script = made(int(words[1]))
        print(script)
        print(ends_of(Script(script), 10 ** 5))
        return 0
    program, first, count = words[0], int((words + ["0"])[1]), int(words[2]) if len(words) > 2 else 100
    compared, seed, bad = 0, first, 0
    while compared < count:
        differs = compare(program, made(seed))
        if differs is not None:
            compared += 1
            for line in differs:
                bad += 1
                print(f"seed {seed}: {line}")
        seed += 1
    print(f"{compared} scripts of seeds {first} to {seed - 1}: {bad} differences")
    return 1 if bad else 0


if __name__ == "__main__":
    sys.exit(main(sys.argv[1:]))
