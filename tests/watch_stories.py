#!/usr/bin/env python3
"""Says of transcripts whether each message that a watch was given is of a story of that watch, by their items alone.

    python3 watch_stories.py TRANSCRIPT ..

The story says of which streams the watch was a member, what these brought to it, and its next revision; crates/watch_stories/specs has
the same rules. Where a step leaves a choice, all are followed. It tests these sentences of docs/PROOFS.md, each at a taken message:

    given      what was taken is a front of what the watch's streams gave to it, with the records before
    start      the created message of a watch whose start was left open shows the start that was decided by then, and is told to a
               member of a stream that stood created
    cancelled  a cancellation was delivered on the stream that the watch was a member of, and its own next revision is below it

The first line of a transcript that breaks one is printed, with the sentence. Ends with 1 where there is one.
"""
import sys
from collections import defaultdict, deque
from typing import NamedTuple

from plain_namespace import Foreign, events_without, range_under, read_message
from plain_store import Store, Words

MOST_QUEUED = 1024  # events in a queue that has some, with the batch that comes to it
JOINS, WAITS, APART = ("joins",), ("waits",), ("apart",)


class Broken(Exception):
    """A line breaks a sentence."""


class Watch(NamedTuple):
    """What is asked of a watch; an empty key is read as one zero byte."""

    key: bytes
    end: bytes
    start: int
    flags: str


class Point(NamedTuple):
    """Where a watch stands in its story."""

    start: int
    next: int
    told: bool
    given: tuple
    spot: tuple


def read_watch(words):
    words.word()
    watch = Watch(words.bytes(), words.bytes(), words.number(), words.word())
    return watch._replace(key=watch.key or b"\0")


def under(namespace, watch):
    """The range as the store has it."""
    return range_under(namespace, watch.key, watch.end)


def without(namespace, events):
    """The events by the clients' keys, or none where a key isn't the namespace's."""
    try:
        return events_without(namespace, events)
    except Foreign:
        return None


def contains(key, end, other):
    return other == key if not end else key <= other if end == b"\0" else key <= other < end


class Stream:
    """What a proxy opened, in which life, and what was pushed into it and isn't delivered."""

    def __init__(self, owner, watch):
        self.owner, self.range, self.next = owner, (watch.key, watch.end), watch.start
        self.created = False
        self.waiting = deque()

    def hear(self, kind, revision, events):
        """Its next revision behind the message."""
        self.created = True
        if kind == "created":
            self.next = self.next or revision + 1
        elif kind == "events":
            self.next = max(self.next, (events[-1].revision if events else revision) + 1)


class Evaluation:
    """A transcript, up to one of its lines."""

    def __init__(self):
        self.store = Store()
        self.namespace = b""
        self.life = defaultdict(int)  # of each proxy, the number of its life
        self.calls, self.streams = {}, {}
        self.asked, self.points, self.taken = {}, {}, defaultdict(tuple)  # by proxy, life and ticket

    def take(self, line):
        words = Words(line)
        match words.word():
            case "world":
                self.namespace = (words.word(), words.bytes())[1]
            case "restarted":
                self.life[words.number()] += 1
            case "asked":
                p, ticket = words.number(), words.number()
                if words.rest[0] == "watch":
                    self.ask((p, self.life[p]), ticket, read_watch(words))
            case "sent":
                _, call, member, _ = (words.number() for _ in range(4))
                self.calls[call] = (member, words.request())
            case "executed":
                member, request = self.calls[words.number()]
                self.store.execute(request, member)
            case "expired":
                self.store.end_lease(words.number())
            case "opened":
                p, number, _ = (words.number() for _ in range(3))
                self.open((p, self.life[p]), number, read_watch(words))
            case "pushed":
                self.streams[words.number()].waiting.append(read_message(words))
            case "delivered":
                self.deliver(words.number())
            case "cut":
                self.cut(words.number())
            case "taken":
                p, ticket = words.number(), words.number()
                self.take_message((p, self.life[p]), ticket, read_message(words))

    # A member's next is the greater of its own and its stream's; a start that was left open is its next, once that is known. By this
    # step it is at most the one behind the newest revision.

    def brought(self, point, next):
        if point.next == 0 and next > self.store.newest() + 1:
            return None
        next = max(point.next, next)
        return point._replace(start=point.start or next, next=next)

    def at_home(self, owner, watch):
        """The numbers of this proxy's streams over the watch's range."""
        return [n for n, s in self.streams.items() if s.owner == owner and s.range == under(self.namespace, watch)]

    def settled(self, owner, watch, points):
        """All ways in which those that are to join have joined, streams have become one, and creation was told."""
        found, new = set(), set(points)
        while new:
            point = new.pop()
            if point.spot == JOINS:
                new |= self.joined(owner, watch, point)
                continue
            if point.spot[0] == "member":
                stream = self.streams[point.spot[1]]
                point = point._replace(told=point.told or stream.created)
                twins = {n for n in self.at_home(owner, watch) if self.streams[n].next == stream.next}
                new |= {p for n in twins if (p := point._replace(spot=("member", n))) not in found and p != point}
            found.add(point)
        return found

    def joined(self, owner, watch, point):
        streams = ((n, self.streams[n].next) for n in self.at_home(owner, watch))
        members = {self.brought(point._replace(spot=("member", n)), next) for n, next in streams if not point.next or next <= point.next}
        starts = [point.next] if point.next else range(self.store.newest() + 2)
        return (members | {self.brought(point._replace(spot=WAITS), start) for start in starts}) - {None}

    def ask(self, owner, ticket, watch):
        key = *owner, ticket
        self.asked[key] = watch
        self.points[key] = self.settled(owner, watch, {Point(watch.start, watch.start, False, (), JOINS)})

    def open(self, owner, number, watch):
        stream = self.streams[number] = Stream(owner, watch)
        for key, asked in self.asked.items():
            if key[:2] == owner and under(self.namespace, asked) == stream.range:
                points = self.points[key]
                behind = {p._replace(spot=("member", number)) for p in points if p.spot == WAITS and stream.next <= p.next}
                self.points[key] = self.settled(owner, asked, points | behind)

    def change(self, number, step):
        """Each member of the stream goes on by the step, which tells what may come of it; the step is told how much was taken."""
        owner = self.streams[number].owner
        for key, points in self.points.items():
            if key[:2] == owner:
                watch = self.asked[key]
                behind = set()
                for point in points:
                    behind |= step(watch, point, len(self.taken[key])) if point.spot == ("member", number) else {point}
                self.points[key] = self.settled(owner, watch, behind - {None})

    def cut(self, number):
        self.change(number, lambda _watch, point, _taken: {point._replace(spot=WAITS)})

    def deliver(self, number):
        stream = self.streams[number]
        before = stream.next
        kind, revision, events, compaction = message = stream.waiting.popleft()
        stream.hear(kind, revision, events)
        self.change(number, lambda watch, point, taken: self.hear(watch, point, taken, stream, before, *message))

    def hear(self, watch, point, taken, stream, before, kind, revision, events, compaction):
        waits = {point._replace(spot=WAITS)}
        if kind == "created":
            return {self.brought(point, stream.next)}
        if kind == "canceled":
            if compaction == 0 or before == 0:
                return waits
            return {point._replace(spot=("over", revision, compaction) if point.next < compaction else JOINS)}
        told = without(self.namespace, events)
        if told is None or before == 0 or not self.is_batch(watch, before, told):
            return waits
        chosen = [e for e in told if e.revision >= point.next and ("u" if e.is_put else "d") not in watch.flags]
        shown = tuple(e if "p" in watch.flags else e._replace(before=None) for e in chosen)
        given = self.brought(point, stream.next)
        stays = {given._replace(given=given.given + shown)} if given else set()
        # a queue with events takes no batch by which it would have too many
        is_slow = chosen and len(point.given) - taken + len(chosen) > MOST_QUEUED
        return stays | ({point._replace(spot=APART)} if is_slow else set())

    def is_batch(self, watch, next, events):
        revisions = [next] + [e.revision for e in events]
        return revisions == sorted(revisions) and all(contains(watch.key, watch.end, e.key) for e in events)

    def take_message(self, owner, ticket, message):
        kind, revision, events, compaction = message
        key = *owner, ticket
        watch, points = self.asked[key], self.points[key]
        self.taken[key] += events
        taken = self.taken[key]
        points = {p for p in points if p.told and p.given[: len(taken)] == taken}
        if not points:
            raise Broken("given: the watch's streams gave it something else")
        if kind == "created" and watch.start == 0:
            points = {p for p in points if p.start == revision + 1}
            if not points:
                raise Broken("start: another was decided")
        if kind == "canceled":
            points = {p for p in points if p.spot == ("over", revision, compaction)}
            if not points:
                raise Broken("cancelled: no cancellation of its stream that it was behind")
        again = {p._replace(spot=JOINS) for p in points if p.spot == APART}
        self.points[key] = self.settled(owner, watch, points | again)


def first_broken(lines):
    evaluation = Evaluation()
    for number, line in enumerate(lines, 1):
        try:
            evaluation.take(line)
        except Broken as broken:
            return f"{number}: {line}\n    {broken}"
    return None


def main(paths):
    status = 0
    for path in paths:
        with open(path, encoding="ascii") as file:
            broken = first_broken(file.read().splitlines())
        if broken:
            print(f"{path}:{broken}")
            status = 1
    return status


if __name__ == "__main__":
    sys.exit(main(sys.argv[1:]))
