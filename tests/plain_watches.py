"""Shared watches by their rules as plain lists: every look-up goes over the whole list, and every queue has its own events. What
a call tells is spelled as the program `core_trial` spells it; `random_watches.py` draws calls. Each rule stands where it is used;
the definitions in crates/watch_model/specs state the same rules, one file each.
"""
from dataclasses import dataclass, field
from typing import NamedTuple, Optional

MOST_QUEUED = 1024  # events in a queue with which another batch may still be queued
DUE, SENT, CLOSING = "due", "sent", "closing"


def spelled(data):
    """Bytes as a word."""
    plain = b"ABCDEFGHIJKLMNOPQRSTUVWXYZabcdefghijklmnopqrstuvwxyz0123456789-._/"
    return "".join(chr(b) if b in plain else "%%%02X" % b for b in data) or "~"


class Header(NamedTuple):
    cluster: int
    member: int
    revision: int
    term: int

    def __str__(self):
        return ".".join(map(str, self))


class Range(NamedTuple):
    key: bytes
    end: bytes

    def has(self, key):
        if not self.end:
            return key == self.key
        if self.end == b"\0":
            return self.key == b"\0" or self.key <= key
        return self.key <= key < self.end

    def __str__(self):
        return f"{spelled(self.key)} {spelled(self.end)}"


class Event(NamedTuple):
    revision: int
    key: bytes
    is_put: bool
    change: str  # the text of the change alone
    before: str  # the text of the record before: `-`, or `+` and a record


class Item(NamedTuple):
    kind: str
    header: Header
    events: tuple = ()
    compact: int = 0

    def is_progress(self):
        return self.kind == "events" and not self.events

    def __str__(self):
        if self.kind == "created":
            return f"created {self.header}"
        if self.kind == "canceled":
            return f"canceled {self.header} {self.compact}"
        return " ".join([f"events {self.header} {len(self.events)}"] + [f"{e.change} {e.before}" for e in self.events])


@dataclass(eq=False)
class Stream:
    number: int
    range: Range
    next: int  # the first revision of which it hasn't told; 0 as long as only its created message can say
    since: int  # the step since when it is due to be opened, or to be closed
    phase: str = DUE
    created: bool = False


@dataclass(eq=False)
class Watch:
    ticket: int
    range: Range
    flags: str
    asked: int  # the start as it was asked for; 0 is from now on
    start: int  # 0 as long as it isn't decided
    next: int  # its own next revision, or where its stream is further, the one that it brought there
    stream: Optional[Stream] = None  # none where it was split off, or was cancelled
    is_cancelled: bool = False
    is_told: bool = False  # of its creation
    queue: list = field(default_factory=list)

    def own_next(self):
        return max(self.next, self.stream.next) if self.stream else self.next

    def wants(self, event):
        return event.revision >= self.own_next() and ("u" if event.is_put else "d") not in self.flags

    def queued(self):
        return sum(len(item.events) for item in self.queue)


class Watches:
    """The streams and watches of one proxy. Each call tells what comes of it as `core_trial` does."""

    def __init__(self, cases):
        self.streams = []  # by rising numbers
        self.watches = []  # by rising tickets
        self.given = 0  # stream numbers
        self.step = 0
        self.cases = cases  # how often the rules' cases came

    def stream(self, number):
        return next((s for s in self.streams if s.number == number), None)

    def watch(self, ticket):
        return next((w for w in self.watches if w.ticket == ticket), None)

    def members(self, stream):
        return [w for w in self.watches if w.stream is stream]

    def take_number(self):
        self.given += 1
        return self.given

    # A watch joins the stream of its range that is furthest ahead and not past it; of equal ones the lowest number. One from now on
    # may begin behind the newest revision seen, and else waits with others for a stream that is being opened from now on.

    def stream_to_join(self, watch, seen):
        alike = [s for s in self.streams if s.range == watch.range and s.phase != CLOSING]
        limit = watch.next or seen.revision + 1
        known = [s for s in alike if 0 < s.next <= limit]
        if known:
            self.cases["joins one of several"] += len(known) > 1
            furthest = [s for s in known if s.next == max(t.next for t in known)]
            self.cases["joins one of several furthest"] += len(furthest) > 1
            return furthest[0]
        return next((s for s in alike if s.next == 0), None) if watch.next == 0 else None

    def seat(self, watch, seen):
        """Tells whether a stream is due for it."""
        stream = self.stream_to_join(watch, seen)
        if stream is None:
            watch.stream = Stream(self.take_number(), watch.range, watch.next, self.step)
            self.streams.append(watch.stream)
            return True
        watch.stream = stream
        self.cases["joins a stream that is being opened"] += not stream.created
        self.decide(watch)
        if stream.created:
            self.tell(watch, seen)
        return False

    def decide(self, watch):
        """A watch from now on starts at its stream's next, once that is known."""
        if watch.next == 0:
            watch.start = watch.next = watch.stream.next

    def tell(self, watch, seen):
        """The created item comes once, with the newest header; to a watch from now on with the revision before its start."""
        if not watch.is_told:
            watch.is_told = True
            header = seen if watch.asked else seen._replace(revision=watch.start - 1)
            watch.queue.append(Item("created", header))

    def join(self, ticket, keys, start, flags, seen):
        """An empty key is read as one zero byte."""
        watch = Watch(ticket, keys._replace(key=keys.key or b"\0"), flags, start, start, start)
        is_new = self.seat(watch, seen)
        self.watches = sorted(self.watches + [watch], key=lambda w: w.ticket)
        return f"{'new' if is_new else 'joins'} {watch.stream.number}"

    # Messages of a stream do something only where its opening was sent and it isn't due to be closed.

    def created(self, number, header, seen):
        stream = self.stream(number)
        if stream is None:
            return f"no stream {number}"
        if stream.phase == SENT and not stream.created:
            stream.created = True
            stream.next = stream.next or header.revision + 1
            for watch in self.members(stream):
                self.decide(watch)
                self.tell(watch, seen)
            self.merge(stream.range)
        else:
            self.cases[f"created message on a stream that is {stream.phase} does nothing"] += 1
        return "done"

    def deliver(self, number, header, events):
        stream = self.stream(number)
        if stream is None:
            return f"no stream {number}"
        if stream.phase != SENT:
            self.cases[f"message on a stream that is {stream.phase} does nothing"] += 1
        elif stream.next == 0 or not self.is_batch(stream, events):
            self.cases["message before the next is known"] += stream.next == 0
            self.due_again(stream)
        else:
            self.cases["message before the created one"] += not stream.created
            if events:
                self.give(stream, header, events)
            else:
                self.progress(stream, header)
            self.merge(stream.range)
        return "done"

    def is_batch(self, stream, events):
        """Revisions from the next on that don't fall, and keys of the range."""
        revisions = [stream.next] + [e.revision for e in events]
        self.cases["batch below the next"] += min(revisions) < stream.next
        self.cases["batch that falls"] += revisions[1:] != sorted(revisions[1:])
        self.cases["batch beyond the range"] += not all(stream.range.has(e.key) for e in events)
        return revisions == sorted(revisions) and all(stream.range.has(e.key) for e in events)

    def give(self, stream, header, events):
        """Each member is given what it wants of a batch, or leaves the stream where its queue would pass what it may hold."""
        for watch in self.members(stream):
            wanted = [e if "p" in watch.flags else e._replace(before="-") for e in events if watch.wants(e)]
            self.cases["member wants nothing of a batch"] += not wanted
            self.cases["member wants a part of a batch"] += 0 < len(wanted) < len(events)
            if not wanted:
                continue
            if watch.queue and watch.queued() + len(wanted) > MOST_QUEUED:
                self.cases["member is split off"] += 1
                watch.next = watch.own_next()
                watch.stream = None
            else:
                self.cases["more than a queue's events in an empty queue"] += len(wanted) > MOST_QUEUED
                watch.queue.append(Item("events", header, tuple(wanted)))
                self.cases["queue is just full"] += watch.queued() == MOST_QUEUED
        stream.next = events[-1].revision + 1
        self.left(stream)

    def progress(self, stream, header):
        """A message without events: all up to its revision was told before. It takes the place of one that is last in a queue."""
        behind = header.revision + 1
        if behind < stream.next:
            self.cases["progress below the next does nothing"] += 1
            return
        for watch in self.members(stream):
            self.cases["progress below a member's next"] += watch.own_next() > behind
            if "n" in watch.flags and watch.own_next() <= behind:
                if watch.queue and watch.queue[-1].is_progress():
                    self.cases["progress takes the place of another"] += 1
                    watch.queue.pop()
                watch.queue.append(Item("events", header))
        stream.next = behind

    def merge(self, keys):
        """Of streams of one range that stand created with equal next the lowest number keeps all members; the others are to be closed."""
        standing = [s for s in self.streams if s.range == keys and s.phase == SENT and s.created]
        for stream in standing:
            keeper = next(s for s in standing if s.next == stream.next)
            if keeper is not stream:
                self.cases["stream is merged"] += 1
                for watch in self.members(stream):
                    watch.stream = keeper
                stream.phase, stream.since = CLOSING, self.step

    def left(self, stream):
        """A stream without members is to be closed, or is gone where it wasn't opened yet."""
        if self.members(stream):
            return
        if stream.phase == DUE:
            self.cases["due stream without members is gone"] += 1
            self.streams.remove(stream)
        else:
            self.cases["stream without members is to be closed"] += 1
            stream.phase, stream.since = CLOSING, self.step

    def due_again(self, stream):
        """From its next on, under a new number."""
        self.streams.remove(stream)
        stream.number, stream.phase, stream.since, stream.created = self.take_number(), DUE, self.step, False
        self.streams.append(stream)

    def cut(self, number):
        stream = self.stream(number)
        if stream is None:
            return "none"
        if stream.phase == CLOSING:
            self.cases["cut of a stream that is to be closed"] += 1
            self.streams.remove(stream)
            return "none"
        self.cases[f"cut of a stream that is {stream.phase}"] += 1
        self.due_again(stream)
        return f"{stream.number}"

    def cancelled(self, number, header, compact, seen):
        """Without a compaction, or before the next is known, it is a cut. Else members behind the compaction end, and the others
        join again, by rising tickets."""
        stream = self.stream(number)
        if stream is None:
            return f"no stream {number}"
        if stream.phase != SENT:
            self.cases[f"message on a stream that is {stream.phase} does nothing"] += 1
        elif compact == 0 or stream.next == 0:
            self.cases["cancellation that is a cut"] += 1
            self.due_again(stream)
        else:
            self.streams.remove(stream)
            members = self.members(stream)
            for watch in members:
                watch.next, watch.stream = watch.own_next(), None
            for watch in members:
                if watch.next < compact:
                    self.cases["member ends by a cancellation"] += 1
                    watch.is_cancelled = True
                    watch.queue.append(Item("canceled", header, (), compact))
                else:
                    is_new = self.seat(watch, seen)
                    self.cases[f"member joins {'a new' if is_new else 'another'} stream by a cancellation"] += 1
        return "done"

    # The client's side, and what is due.

    def take(self, ticket, seen):
        """A watch that was split off joins again with its last item."""
        watch = self.watch(ticket)
        if watch is None:
            return f"no watch {ticket}"
        if not watch.queue:
            return "none"
        item = watch.queue.pop(0)
        if item.kind == "canceled":
            self.watches.remove(watch)
        elif not watch.queue and watch.stream is None and not watch.is_cancelled:
            is_new = self.seat(watch, seen)
            self.cases[f"split watch joins {'a new' if is_new else 'another'} stream"] += 1
        return str(item)

    def split(self, ticket, next):
        watch = self.watch(ticket)
        if watch is None:
            return f"no watch {ticket}"
        stream, watch.stream, watch.next = watch.stream, None, next
        self.left(stream)
        return "done"

    def leave(self, ticket):
        watch = self.watch(ticket)
        if watch is None:
            return "false"
        self.watches.remove(watch)
        if watch.stream:
            self.left(watch.stream)
        return "true"

    def send(self):
        """What is due since the first step; of one step closings before openings, by number."""
        due = [s for s in self.streams if s.phase != SENT]
        if not due:
            return "nothing"
        stream = min(due, key=lambda s: (s.since, s.phase != CLOSING, s.number))
        if stream.phase == CLOSING:
            self.streams.remove(stream)
            return f"close {stream.number}"
        stream.phase = SENT
        return f"open {stream.number} {stream.range} {stream.next}"
