#!/usr/bin/env python3
"""Makes a history of acts from a list of events: `fill.py < EVENTS > HISTORY`. The page `adopt/README.md` defines both formats.

All calls were made on one thread, so each took effect where its line stands. What no event shows is worked out: the receiver that an
element was handed to, the place of an element, the waiting senders that were resolved. What a call answered is copied from its event,
whatever the channel here would have answered, so that a wrong answer becomes a line that the checker refuses. Lines of Jobs are copied as
they are.
"""
import sys
from collections import deque

KEEPS = {"buffered": 64}
OF_JOBS = ("attach", "start", "endbody", "cancel", "finish", "gone", "saw", "sawend", "fail", "norow", "used", "parentended")
CLOSED_WITH = 0


class Offer:
    def __init__(self, place, value, wait):
        self.place, self.value, self.wait = place, value, wait


class Channel:
    def __init__(self, words):
        self.name, self.kind = words[1], words[2]
        has_number = len(words) > 3 and words[3].isdigit()
        self.keeps = int(words[3]) if has_number else KEEPS.get(self.kind, 0)
        self.next, self.closed = 0, False
        self.queue, self.receivers = deque(), deque()

    def place(self):
        self.next += 1
        return self.next - 1

    def has_room(self):
        if self.kind == "buffered":
            return len(self.queue) < self.keeps
        return self.kind != "rendezvous"


class Filling:
    def __init__(self, out):
        self.out = out
        self.channels = {}
        self.resolved = {}  # how each wait was resolved, or None
        self.waiting = {}  # the wait of each coroutine's open call, or None

    # ---- steps that no event shows

    def admit(self, who, ch):
        """Resolves the senders whose elements the channel keeps now."""
        if ch.kind != "buffered":
            return
        for offer in list(ch.queue)[: ch.keeps]:
            if offer.wait:
                self.out(f"{who} admit {ch.name} {offer.place}")
                self.resolved[offer.wait] = "sent 0"
                offer.wait = None

    def make_room(self, who, ch):
        """Drops what a channel that keeps its newest elements has too many, or the latest of one that keeps its oldest."""
        limit = {"conflated": 1, "dropoldest": ch.keeps}.get(ch.kind)
        while limit is not None and len(ch.queue) > limit:
            offer = ch.queue.popleft()
            self.out(f"{who} drop {ch.name} {offer.place} {offer.value}")
        if ch.kind == "droplatest" and len(ch.queue) > ch.keeps:
            offer = ch.queue.pop()
            self.out(f"{who} spurn {ch.name} {offer.place} {offer.value}")

    def bring(self, who, ch, value, may_wait):
        """An element comes. The wait of its sender, if that waits."""
        if ch.receivers:
            place, wait = ch.receivers.popleft()
            self.out(f"{who} hand {ch.name} {place} {value}")
            self.resolved[wait] = f"value 0 {value}"
            return None
        place = ch.place()
        if ch.has_room() or not may_wait:
            self.out(f"{who} put {ch.name} {place} {value}")
            ch.queue.append(Offer(place, value, None))
            self.make_room(who, ch)
            return None
        wait = f"{ch.name}.{place}"
        self.out(f"{who} offer {ch.name} {place} {value} {wait} 0")
        ch.queue.append(Offer(place, value, wait))
        self.resolved[wait] = None
        return wait

    def take(self, who, ch, value):
        """The first element is received, with the value that the library gave."""
        offer = ch.queue.popleft() if ch.queue else Offer(ch.next, 0, None)
        self.out(f"{who} take {ch.name} {offer.place} {value}")
        if offer.wait:
            self.resolved[offer.wait] = "sent 0"
        self.admit(who, ch)

    # ---- events

    def call_receive(self, who, ch, answer):
        """`answer` has the words with which the call will return, if it does."""
        self.waiting[who] = None
        if ch.queue or ch.closed:
            if answer[:1] == ["value"]:
                self.take(who, ch, answer[1])
            return
        place = ch.place()
        wait = f"{ch.name}.{place}"
        self.out(f"{who} await {ch.name} {place} {wait} 0")
        ch.receivers.append((place, wait))
        self.resolved[wait] = None
        self.waiting[who] = wait

    def call_send(self, who, ch, value):
        self.waiting[who] = None if ch.closed else self.bring(who, ch, value, True)

    def back_at_once(self, who, ch, verb, answer, value):
        """The return of a call that did not wait."""
        if answer[0] == "closed" and verb == "receive":
            self.out(f"{who} receiveclosed {ch.name} {CLOSED_WITH}")
        elif answer[0] == "closed":
            self.out(f"{who} sendclosed {ch.name} {value} {CLOSED_WITH}")

    def back_cancelled(self, who, ch, wait):
        how = self.resolved[wait]
        if how is None:
            self.out(f"{who} withdraw {wait} cancelled")
            ch.queue = deque(offer for offer in ch.queue if offer.wait != wait)
            ch.receivers = deque(receiver for receiver in ch.receivers if receiver[1] != wait)
        if how is not None and how.startswith("value"):
            self.out(f"{who} settle {wait} undelivered {how.split()[2]}")
        else:
            self.out(f"{who} settle {wait} cancelled")
        self.admit(who, ch)

    def back(self, who, ch, verb, answer, value):
        wait = self.waiting.pop(who, None)
        if wait is None:
            self.back_at_once(who, ch, verb, answer, value)
        elif answer == ["cancelled"]:
            self.back_cancelled(who, ch, wait)
        elif answer[0] == "value":
            self.out(f"{who} settle {wait} value 0 {answer[1]}")
        elif answer[0] == "closed":
            self.out(f"{who} settle {wait} closed 0 {CLOSED_WITH}")
        else:
            self.out(f"{who} settle {wait} sent 0")

    def trysend(self, who, ch, value, answer):
        if answer == "sent":
            self.bring(who, ch, value, False)
        elif answer == "full":
            self.out(f"{who} full {ch.name} {value}")
        else:
            self.out(f"{who} trysendclosed {ch.name} {value} {CLOSED_WITH}")

    def tryreceive(self, who, ch, answer):
        if answer[0] == "value":
            self.take(who, ch, answer[1])
        elif answer[0] == "empty":
            self.out(f"{who} empty {ch.name}")
        else:
            self.out(f"{who} tryreceiveclosed {ch.name} {CLOSED_WITH}")

    def close(self, who, ch, answer):
        if answer != "first":
            self.out(f"{who} alreadyclosed {ch.name} {CLOSED_WITH}")
            return
        self.out(f"{who} close {ch.name} {CLOSED_WITH}")
        ch.closed = True
        while ch.receivers:
            place, wait = ch.receivers.popleft()
            self.out(f"{who} wakeclosed {ch.name} {place}")
            self.resolved[wait] = f"closed 0 {CLOSED_WITH}"

    def event(self, words, answer):
        who, verb = words[0], words[1]
        if verb == "call":
            ch = self.channels[words[3]]
            if words[2] == "send":
                self.call_send(who, ch, words[4])
            else:
                self.call_receive(who, ch, answer)
        elif verb == "back":
            is_send = words[2] == "send"
            self.back(who, self.channels[words[3]], words[2], words[5:] if is_send else words[4:], words[4])
        elif verb == "trysend":
            self.trysend(who, self.channels[words[2]], words[3], words[4])
        elif verb == "tryreceive":
            self.tryreceive(who, self.channels[words[2]], words[3:])
        elif verb == "close":
            self.close(who, self.channels[words[2]], words[3])
        elif verb in OF_JOBS:
            self.out(" ".join(words))
        else:
            sys.exit(f"no event: {' '.join(words)}")


def answers_of(events):
    """The words with which each receive returns, by the number of its call."""
    answers, calls = {}, {}
    for number, words in enumerate(events):
        if words[1] == "call":
            calls[words[0]] = number
        elif words[1] == "back" and words[2] == "receive":
            answers[calls.pop(words[0])] = words[4:]
    return answers


def fill(lines, out):
    filling = Filling(out)
    at = iter(lines)
    numbers = []
    for line in at:
        words = line.split()
        if words[0] == "events":
            numbers = words[1:]
            break
        if words[0] == "channel":
            filling.channels[words[1]] = Channel(words)
        out(line)
    out(" ".join(["history", *numbers]))
    events = [line.split() for line in at]
    answers = answers_of(events)
    for number, words in enumerate(events):
        filling.event(words, answers.get(number, []))


if __name__ == "__main__":
    fill([line.rstrip("\n") for line in sys.stdin if line.strip()], print)
