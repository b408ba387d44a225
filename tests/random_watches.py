#!/usr/bin/env python3
"""Random steps on shared watches, each with what is to come of it by `plain_watches.py`, as the program `core_trial` reads them.

    python3 random_watches.py [--seed N] [--steps N] [--shape NAME] [--counts] > STEPS

The steps are drawn beside a made-up store, mostly as streams and clients bring them about: created messages, batches of what is
new, progress, slow watches, cuts, cancellations. Some are wrong on purpose: batches that fall, or reach below the next revision or
beyond the range, messages on streams that weren't opened yet or are due to be closed, numbers that aren't there. A run is cut into
lives, each of which begins without streams and watches. With --counts, what was drawn is counted on the standard error.
"""
import argparse
import random
import sys
from collections import Counter
from dataclasses import dataclass

from plain_watches import DUE, MOST_QUEUED, SENT, Event, Header, Item, Range, Watches, spelled


def put_text(key, value, create, modified, version, lease):
    return f"{spelled(key)} {spelled(value)} {create} {modified} {version} {lease}"


def made_up_put(revision):
    """The put of `a` that the step `puts` makes at this revision, by `core_trial`'s own store."""
    before = revision - (1 if revision % 3 == 1 else 2)
    return Event(
        revision,
        b"a",
        True,
        "put " + put_text(b"a", b"x", 2, revision, revision, 0),
        "+ " + put_text(b"a", b"x", 2, before, before, 0) if before >= 2 else "-",
    )


class Store:
    """A made-up store, whose every revision changes one key or a few; now and then one key twice."""

    def __init__(self, draw, newest):
        self.draw = draw
        self.newest = newest
        self.events = []  # by rising revisions
        self.records = {}

    def change(self):
        self.newest += 1
        for _ in range(self.draw.choice((1, 1, 1, 2, 3))):
            self.change_key(self.draw.choice(KEYS))

    def change_key(self, key):
        old = self.records.pop(key, None)
        before = "+ " + put_text(key, *old) if old else "-"
        if old and self.draw.random() < 0.3:
            self.events.append(Event(self.newest, key, False, f"delete {spelled(key)} {self.newest}", before))
            return
        value = self.draw.choice((b"x", b"y", b"", b"z z"))
        create, version = (old[1], old[3] + 1) if old else (self.newest, 1)
        record = self.records[key] = (value, create, self.newest, version, self.draw.choice((0, 0, 0, 7)))
        self.events.append(Event(self.newest, key, True, "put " + put_text(key, *record), before))

    def events_from(self, revision, keys):
        found = []
        for event in reversed(self.events):
            if event.revision < revision:
                break
            if keys.has(event.key):
                found.append(event)
        return found[::-1]


KEYS = (b"a", b"a", b"a", b"b", b"ab", b"c", b"\0", b"\xff")
RANGES = (
    (b"a", b""),
    (b"b", b""),
    (b"a", b"b"),
    (b"a", b"c"),
    (b"\0", b"\0"),
    (b"", b"\0"),
    (b"", b""),
    (b"\0", b""),
    (b"b", b"\0"),
    (b"", b"b"),
    (b"c", b"a"),
)
GREATEST = 2**63 - 1  # number of a text
FAR = 2**62  # a revision to which no store comes


@dataclass
class Shape:
    """What a life is like: how often each step is tried, and how large all is."""

    steps: dict
    watches: int = 12
    ranges: int = 3
    slow: float = 0.1  # the part of the watches that are hardly taken from
    batches: tuple = (1, 1, 1, 2, 3, 8)  # revisions
    odd: float = 0.15  # the part of the messages that are wrong on purpose
    length: int = 600  # steps


COMMON = {
    "ask": 9, "send": 13, "created": 9, "events": 22, "progress": 6, "canceled": 2, "cut": 2, "take": 26, "leave": 3, "split": 1,
    "puts": 0.3, "takes": 1.5, "begin": 3, "number": 0.5, "unknown": 2,
}  # fmt: skip

SHAPES = {
    "even": Shape(COMMON),
    "crowded": Shape(
        COMMON | {"ask": 14, "progress": 12, "cut": 4, "send": 16, "created": 14}, watches=40, ranges=1, odd=0.03, length=1000
    ),
    "slow": Shape(
        COMMON | {"puts": 3, "takes": 5, "take": 16, "split": 2, "begin": 2},
        watches=7, ranges=2, slow=0.5, batches=(1, 1, 1, 2, 3, 8, 40, 200, 600), odd=0.02, length=300,
    ),
    "torn": Shape(COMMON | {"cut": 6, "canceled": 7, "send": 16, "created": 14, "unknown": 3}, watches=20, ranges=2, odd=0.25),
}  # fmt: skip


class Life:
    """Steps from no streams and watches on."""

    def __init__(self, draw, shape, write, cases):
        self.draw, self.shape, self.write = draw, shape, write
        self.watches = Watches(cases)
        self.store = Store(draw, draw.choice((1, 1, 5, 1000, 2**40)))
        self.seen = self.header(self.store.newest)
        self.ranges = draw.sample(RANGES, min(shape.ranges, len(RANGES)))
        self.slow = set()
        write(f"seen {self.seen}", None)

    def step(self):
        """One step, of a kind that is possible now."""
        kinds = list(self.shape.steps)
        while True:
            kind = self.draw.choices(kinds, self.shape.steps.values())[0]
            if getattr(self, kind)():
                return

    def tell(self, step, answer):
        self.write(step, answer)
        return True

    def chance(self, part):
        return self.draw.random() < part

    def header(self, revision):
        return Header(1, self.draw.choice((1, 1, 1, 2, 3)), revision, self.draw.choice((1, 1, 2)))

    def see(self, header):
        if header.revision >= self.seen.revision:
            self.seen = header

    def pick_stream(self, is_fit):
        """Mostly one that is fit, if there is one."""
        is_any = self.chance(0.1)
        fit = [s for s in self.watches.streams if is_any or is_fit(s)]
        return self.draw.choice(fit) if fit else None

    # Clients

    def ask(self):
        if len(self.watches.watches) >= self.shape.watches:
            return False
        ticket = self.draw.choice((self.draw.randrange(60), self.draw.randrange(1000), GREATEST))
        if self.watches.watch(ticket):
            return False
        keys = Range(*self.draw.choice(self.ranges))
        start = self.start(keys)
        flags = "".join(flag for flag, part in (("p", 0.5), ("u", 0.12), ("d", 0.12), ("n", 0.4)) if self.chance(part))
        if self.chance(self.shape.slow):
            self.slow.add(ticket)
        else:
            self.slow.discard(ticket)
        answer = self.watches.join(ticket, keys, start, flags, self.seen)
        return self.tell(f"ask {ticket} {keys} {start} {flags or '-'}", answer)

    def start(self, keys):
        """From now on, or from a revision beside a stream's next or the newest."""
        nexts = [s.next for s in self.watches.streams if s.range == keys]
        match self.draw.randrange(16):
            case 0 | 1 | 2:
                return max(0, self.store.newest - self.draw.randrange(12))
            case 3 | 4 | 5:
                return self.store.newest + 1 + self.draw.randrange(9)
            case 6 | 7 | 8 if nexts:
                return max(0, self.draw.choice(nexts) + self.draw.choice((-2, -1, 0, 0, 0, 1, 4)))
            case 9:
                return self.draw.choice((1, 2, FAR))
            case _:
                return 0

    def pick_watch(self):
        """Mostly one whose queue isn't empty. A slow one is left alone, mostly, until it is split off or ends."""
        watches = self.watches.watches
        waiting = [w for w in watches if w.queue and (w.ticket not in self.slow or not w.stream or self.chance(0.02))]
        if not waiting or self.chance(0.1):
            waiting = watches
        return self.draw.choice(waiting) if waiting else None

    def take(self):
        watch = self.pick_watch()
        return watch and self.tell(f"take {watch.ticket}", self.watches.take(watch.ticket, self.seen))

    def takes(self):
        """All of a queue, or all but one, or one more than all."""
        watch = self.pick_watch()
        if not watch:
            return False
        count = max(1, len(watch.queue) + self.draw.choice((-1, 0, 0, 0, 1)))
        for _ in range(count):
            answer = self.watches.take(watch.ticket, self.seen)
        return self.tell(f"takes {watch.ticket} {count}", answer)

    def split(self):
        """A member whose queue isn't empty, with its own next."""
        members = [w for w in self.watches.watches if w.stream and w.queue]
        if not members:
            return False
        watch = self.draw.choice(members)
        own = watch.own_next()
        return self.tell(f"split {watch.ticket} {own}", self.watches.split(watch.ticket, own))

    def leave(self):
        if not self.watches.watches:
            return False
        ticket = self.draw.choice(self.watches.watches).ticket
        return self.tell(f"leave {ticket}", self.watches.leave(ticket))

    # The outside of streams

    def send(self):
        is_due = any(s.phase != SENT for s in self.watches.streams)
        return (is_due or self.chance(0.05)) and self.tell("send", self.watches.send())

    def created(self):
        stream = self.pick_stream(lambda s: s.phase == SENT and not s.created)
        revision = max(1, self.store.newest - self.draw.choice((0, 0, 1, 3)))
        return stream and self.bring(stream.number, Item("created", self.header(revision)))

    def events(self):
        stream = self.pick_stream(lambda s: s.phase == SENT and s.created)
        if not stream:
            return False
        found = self.new_events(stream)
        if self.chance(self.shape.odd):
            found = self.spoiled(stream, found)
        header = self.header(self.draw.choice((self.store.newest, found[-1].revision)) if found else self.store.newest)
        return found and self.bring(stream.number, Item("events", header, tuple(found)))

    def new_events(self, stream):
        """All of some revisions from the stream's next on, or all. Some are made now where there are none."""
        most = self.draw.choice(self.shape.batches)
        if self.chance(0.2) or not self.store.events_from(stream.next, stream.range):
            for _ in range(most):
                self.store.change()
        found = self.store.events_from(stream.next, stream.range)
        last = sorted({e.revision for e in found})[: len(found) if self.chance(0.5) else most][-1:]
        return [e for e in found if e.revision <= last[0]] if last else []

    def spoiled(self, stream, found):
        """A batch that is wrong, mostly, or that tells a part of what it should."""
        match self.draw.randrange(6):
            case 0 | 1:  # from below the next
                return self.store.events_from(stream.next - self.draw.randrange(1, 9), stream.range)[:4]
            case 2:  # in another order
                found = self.store.events_from(stream.next, stream.range)[:5]
                return self.draw.sample(found, len(found))
            case 3:  # with a key that is beyond the range, mostly
                revision, key = (found[-1].revision if found else stream.next), self.draw.choice((b"q", b"", b"a%", b"b"))
                return found + [Event(revision, key, False, f"delete {spelled(key)} {revision}", "-")]
            case 4:  # without the last change, which may be one of several of its revision
                return found[:-1]
            case _:  # without the first
                return found[1:]

    def progress(self):
        """Mostly where all was told, of the newest revision."""
        stream = self.pick_stream(lambda s: s.phase == SENT and s.created and not self.store.events_from(s.next, s.range))
        if not stream:
            return False
        revision = self.store.newest
        if stream.next <= revision + 9 and self.chance(0.3):
            revision = max(1, stream.next + self.draw.choice((-3, -2, -1, 0, 4)))
        return self.bring(stream.number, Item("events", self.header(revision)))

    def canceled(self):
        """Without a compaction, or with one beside a member's next."""
        stream = self.pick_stream(lambda s: s.phase == SENT)
        if not stream:
            return False
        nexts = [w.own_next() for w in self.watches.members(stream)] or [1]
        compact = max(0, self.draw.choice((0, *(self.draw.choice(nexts) + more for more in (-1, 0, 0, 1, 1, 3)))))
        return self.bring(stream.number, Item("canceled", self.header(self.store.newest), (), compact))

    def bring(self, number, item):
        self.see(item.header)
        if item.kind == "created":
            answer = self.watches.created(number, item.header, self.seen)
        elif item.kind == "events":
            answer = self.watches.deliver(number, item.header, item.events)
        else:
            answer = self.watches.cancelled(number, item.header, item.compact, self.seen)
        return self.tell(f"item {number} {item}", answer)

    def puts(self):
        """Many messages with one put each, mostly as many as fill a member's queue just to its limit or by one less or more."""
        stream = self.pick_stream(lambda s: s.phase == SENT and s.created and s.range.has(b"a"))
        members = stream and self.watches.members(stream)
        if not members:
            return False
        room = MOST_QUEUED - self.draw.choice(members).queued() + self.draw.choice((-1, 0, 0, 1, 1))
        count = max(1, room if self.chance(0.6) else self.draw.randrange(1, 60))
        number, first = stream.number, max(stream.next, 2)
        for revision in range(first, first + count):
            event = made_up_put(revision)
            self.see(Header(1, 1, revision, 1))
            answer = self.watches.deliver(number, Header(1, 1, revision, 1), (event,))
            if revision > self.store.newest:
                self.store.events.append(event)
        self.store.newest = max(self.store.newest, first + count - 1)
        return self.tell(f"puts {number} {first} {count}", answer)

    def cut(self):
        stream = self.pick_stream(lambda s: s.phase != DUE)
        return stream and self.tell(f"cut {stream.number}", self.watches.cut(stream.number))

    def begin(self):
        self.watches.step += self.draw.choice((1, 1, 1, 2, 0))
        return self.tell(f"begin {self.watches.step}", "done")

    def number(self):
        return self.tell("number", f"{self.watches.take_number()}")

    # Numbers that aren't there

    def unknown(self):
        known = {s.number for s in self.watches.streams} | {w.ticket for w in self.watches.watches}
        number = self.draw.choice((0, GREATEST, self.watches.given + 1, self.draw.randrange(1, self.watches.given + 2)))
        if number in known:
            return False
        header = self.header(self.draw.choice((1, self.store.newest)))
        match self.draw.randrange(8):
            case 0:
                return self.bring(number, Item("created", header))
            case 1:
                return self.bring(number, Item("events", header, tuple(self.store.events[-1:])))
            case 2:
                return self.bring(number, Item("canceled", header, (), self.draw.randrange(3)))
            case 3:
                return self.tell(f"cut {number}", self.watches.cut(number))
            case 4:
                return self.tell(f"take {number}", self.watches.take(number, self.seen))
            case 5:
                return self.tell(f"takes {number} 2", self.watches.take(number, self.seen))
            case 6:
                return self.tell(f"split {number} 1", self.watches.split(number, 1))
            case _:
                return self.tell(f"leave {number}", self.watches.leave(number))


def kind_of(step, answer):
    """The words of a step and of its answer that aren't its numbers and names."""
    words = step.split()
    name = words[0] if words[0] != "item" else " ".join(words[0:3:2])
    told = answer.split()
    if told[0] == "events":
        told = ["events"] if told[2] != "0" else ["progress"]
    elif told[0].isdigit():
        told = ["a number"]
    return f"{name}: {' '.join(told[:2] if told[0] == 'no' else told[:1])}"


def main():
    parser = argparse.ArgumentParser(description="Random steps on shared watches, with what is to come of each.")
    parser.add_argument("--seed", type=int, default=1)
    parser.add_argument("--steps", type=int, default=1000)
    parser.add_argument("--shape", choices=SHAPES, default="even")
    parser.add_argument("--counts", action="store_true")
    asked = parser.parse_args()

    kinds, cases = Counter(), Counter()

    def write(step, answer):
        if answer is None:
            print(f"\n{step}")
        else:
            kinds[kind_of(step, answer)] += 1
            print(f"{step}\n= {answer}")

    draw, shape = random.Random(f"{asked.shape} {asked.seed}"), SHAPES[asked.shape]
    print("table watches")
    life = None
    for step in range(asked.steps):
        if step % shape.length == 0:
            life = Life(draw, shape, write, cases)
        life.step()
    if asked.counts:
        for name, count in sorted(kinds.items()) + sorted(cases.items()):
            print(f"{count:8} {name}", file=sys.stderr)


if __name__ == "__main__":
    main()
