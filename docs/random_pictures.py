#!/usr/bin/env python3
"""Draws the reports of random small scripts, and looks for arrows that go down where another does: in one lane, at a common row.

    docs/random_pictures.py PROGRAM DRAWER [COUNT [FIRST]]

PROGRAM runs scripts (coroutine_cli), DRAWER draws reports (run_picture). COUNT scripts are made, by default 200, from the seeds FIRST,
FIRST + 1, .., by default 1; each is run by one worker and by four, and each report of 10 to 400 lines is drawn, without its script and with
it (a seed whose script is refused, or has no such report, is passed over). Of each picture: it is well-formed XML, no two vertical parts of arrows share an x and a row, and each line of the report's books is in
it once; of each trace: it is JSON, with the fields that the trace event format asks for, and slices of a track lie within one another or
apart. Prints one line for each fault, and how much was looked at; the status is 1 if there is a fault, or if no picture had an arrow.
"""
import json
import random
import re
import subprocess
import sys
import xml.etree.ElementTree as xml

ARROW = re.compile(r'<path d="M(\d+) (\d+)H(\d+)V(\d+)H(\d+)l-6-3m6 3l-6 3" class="(\w+)"')
HEAD = re.compile(r'<text x="\d+" y="(\d+)" class="head"')
SVG = "{http://www.w3.org/2000/svg}"


# ---- scripts

def value(rng):
    return rng.choice(["it", "sum", str(rng.randrange(100))])


def call(rng, channels):
    """A line that calls a channel."""
    name = rng.choice(channels)
    kind = rng.choices(["send", "receive", "trysend", "tryreceive", "close", "cancelchannel"], [8, 8, 2, 2, 1, 0.3])[0]
    return f"{kind} {name} {value(rng)}" if kind.endswith("send") else f"{kind} {name}"


def select(rng, channels):
    """A select of one to three clauses, on different channels."""
    some = rng.sample(channels, min(len(channels), rng.randint(1, 3)))
    return ["select"] + [rng.choice([f"onsend {c} {value(rng)}", f"onreceive {c}"]) for c in some] + ["end"]


def lines(rng, channels, children, names, depth, most=5):
    """A few lines, which launch what was declared before."""
    found = []
    for _ in range(rng.randint(1, most)):
        kind = rng.choices(["call", "launch", "job", "repeat", "each", "scope", "select", "yield", "fail"], [9, 4, 2, 2, 1, 1, 1, 1, 0.3])[0]
        if kind == "launch" and children:
            name = f"j{len(names)}"
            names.append(name)
            found.append(f"{rng.choice(['launch', 'launch', 'async', 'lazy'])} {rng.choice(children)} as {name}")
        elif kind == "job" and names:
            found.append(f"{rng.choice(['join', 'cancel', 'start'])} {rng.choice(names)}")
        elif kind == "repeat" and depth < 2:
            found += [f"repeat {rng.randint(2, 4)}"] + lines(rng, channels, children, names, depth + 1) + ["end"]
        elif kind == "each" and depth < 2:
            found += [f"each {rng.choice(channels)}"] + lines(rng, channels, [], names, depth + 1) + ["end"]
        elif kind == "scope" and depth < 2:
            found += [rng.choice(["scope", "supervisor"])] + lines(rng, channels, children, names, depth + 1) + ["end"]
        elif kind == "select":
            found += select(rng, channels)
        elif kind == "yield":
            found.append("yield")
        elif kind == "fail":
            found.append(f"fail {rng.randrange(9)}")
        else:
            found.append(call(rng, channels))
    return found


def script(seed):
    """The script of this seed. Later blocks launch earlier ones."""
    rng = random.Random(seed)
    channels = [chr(97 + i) for i in range(rng.randint(1, 4))]
    kinds = ["rendezvous", "buffered 2", "buffered", "unlimited", "conflated", "dropoldest 2", "droplatest 2"]
    text = ["script 2"] + [f"channel {c} {rng.choice(kinds)}" for c in channels]
    blocks = []
    for i in range(rng.randint(1, 3)):
        text += [f"coroutine w{i}"] + lines(rng, channels, blocks[-1:], [], 0, 8) + ["end"]
        blocks.append(f"w{i}")
    text += ["coroutine main"]
    for _ in range(rng.randint(0, 3)):
        text += [f"repeat {rng.randint(2, 6)}", f"launch {rng.choice(blocks)}", "end"]
    return "\n".join(text + lines(rng, channels, blocks, [], 0, 12) + ["end"]) + "\n"


# ---- what is looked for

def overlaps(picture):
    """How many arrows go down where another does, and how many there are."""
    top = int(HEAD.search(picture).group(1))
    lanes = {}
    count = 0
    for _, level, lane, to, _, _ in ARROW.findall(picture):
        # An arrow of the legend goes straight to the right.
        if level != to:
            rows = sorted((int(y) - top - 40 + 8) // 17 for y in (level, to))
            lanes.setdefault(lane, []).append(rows)
            count += 1
    bad = 0
    for spans in lanes.values():
        spans.sort()
        bad += sum(1 for one, next_one in zip(spans, spans[1:]) if next_one[0] <= one[1])
    return bad, count


def lines_of_books(report):
    return [line for line in report.splitlines() if line and not line.startswith(("job ", "element "))]


def picture_faults(picture, report):
    """What is wrong with a picture; and how many arrows it has."""
    root = xml.fromstring(picture)
    faults = []
    drawn = [(text.find(SVG + "title").text or "").split("\n")[0] for text in root.iter(SVG + "text") if text.get("class") == "line"]
    if sorted(drawn) != sorted(lines_of_books(report)):
        faults.append("has other lines than the report")
    bad, count = overlaps(picture)
    if bad:
        faults.append(f"has {bad} arrows that fall on others")
    return faults, count


WANTED = {"X": {"ts", "dur"}, "i": {"ts", "s"}, "s": {"ts", "id"}, "f": {"ts", "id", "bp"}, "M": set()}


def trace_faults(trace, report):
    """What is wrong with a trace: the fields of each event, arrows with both ends, and slices of a track that cross."""
    events = json.loads(trace)["traceEvents"]
    faults = []
    for event in events:
        missing = (WANTED.get(event["ph"], {"a known ph"}) | {"name", "cat", "ph", "pid", "tid", "args"}) - set(event)
        if missing:
            faults.append(f"has an event without {sorted(missing)}: {event}")
    begun = sorted(event["id"] for event in events if event["ph"] == "s")
    if begun != sorted(event["id"] for event in events if event["ph"] == "f") or len(begun) != len(set(begun)):
        faults.append("has an arrow with one end")
    told = sorted(event["args"]["line"] for event in events if event["cat"] == "line")
    if told != sorted(lines_of_books(report)):
        faults.append("has other lines than the report")
    tracks = {}
    for event in events:
        if event["ph"] == "X":
            tracks.setdefault(event["tid"], []).append((event["ts"], -event["dur"]))
    for slices in tracks.values():
        open_until = []
        for begin, length in sorted(slices):
            while open_until and open_until[-1] <= begin:
                open_until.pop()
            if open_until and begin - length > open_until[-1]:
                faults.append("has slices of a track that cross")
            open_until.append(begin - length)
    return faults


def made(program, text, *words):
    done = subprocess.run([program, *words], input=text, capture_output=True, text=True, check=False)
    return done.returncode, done.stdout, done.stderr


def main():
    program, drawer = sys.argv[1:3]
    count = int(sys.argv[3]) if len(sys.argv) > 3 else 200
    first = int(sys.argv[4]) if len(sys.argv) > 4 else 1
    faults = drawn = arrows = longest = scripts = 0
    seed = first - 1
    while scripts < count:
        seed += 1
        text = script(seed)
        if len(made(program, text, "run", "--workers", "1")[1].splitlines()) not in range(10, 401):
            continue
        scripts += 1
        for workers in ("1", "4"):
            status, report, _ = made(program, text, "run", "--workers", workers)
            if status not in (0, 1, 4) or len(report.splitlines()) > 400:
                continue
            longest = max(longest, len(report.splitlines()))
            for words, given in (((), report), (("--script",), f"{text}report\n{report}")):
                found = []
                for kind in ("svg", "trace"):
                    status, shown, said = made(drawer, given, "--format", kind, *words)
                    if status != 0 or said:
                        found.append(f"{kind}: status {status}, {said.strip()}")
                    elif kind == "svg":
                        more, some = picture_faults(shown, report)
                        found += more
                        arrows += some
                        drawn += 1
                    else:
                        found += trace_faults(shown, report)
                for fault in found:
                    print(f"seed {seed}, {workers} workers, {' '.join(words) or 'no script'}: {fault}")
                faults += len(found)
    print(f"{scripts} scripts up to seed {seed}, {drawn} pictures and traces, {arrows} arrows, the longest report has {longest} lines, {faults} faults")
    return 1 if faults or not arrows else 0


if __name__ == "__main__":
    sys.exit(main())
