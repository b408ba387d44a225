#!/usr/bin/env python3
"""Audits transcripts by the rules as docs/FORMATS.md has them, with a plain store, and says what `audit` has to say.

    python3 plain_audit.py TRANSCRIPT ..

For each it prints the three counts, or the first line with a refusal and why. What is asked of an item is a walk over all items before it;
nothing is kept but the items and the store. It knows no proxy and no program. `audit` (a function) gives the status and the text.
"""
import re
import sys
from typing import NamedTuple

from plain_namespace import Foreign, body_without, range_under, read_body, request_under
from plain_store import Range, Store, Txn, Words, is_in, spelled, writes

MOST_LINE_BYTES, MOST_LINES, MOST_BYTES = 1_048_576, 1_000_000, 67_108_864
MOST_NUMBER, MOST_CODE = 2**63 - 1, 2**32 - 1
FIRST_SESSION = 2**62
NEST = 128


class BadLine(Exception):
    """A line isn't the text of an item: the place of its first word that is wrong, missing or too many."""


class Breaks(Exception):
    """An item breaks a rule."""


# ---- the grammar


class Line:
    """The words of a line, each read by what may stand there. What is read is kept word for word."""

    def __init__(self, text):
        self.words, self.place = text.split(" "), 0

    def word(self, test=lambda word: True):
        if self.place == len(self.words) or not test(self.words[self.place]):
            raise BadLine(self.place + 1)
        self.place += 1
        return self.words[self.place - 1]

    def number(self, low=0, high=MOST_NUMBER):
        return int(self.word(lambda w: re.fullmatch(r"0|[1-9][0-9]{0,19}", w) and low <= int(w) <= high))

    def bytes(self):
        return self.word(lambda w: w == "~" or re.fullmatch(r"([A-Za-z0-9._/-]|%[0-9A-F]{2})+", w) and spelled(Words(w).bytes()) == w)

    def flags(self, letters):
        return self.word(lambda w: w == "-" or w != "" and w == "".join(c for c in letters if c in w))

    def one_of(self, *words):
        return self.word(lambda w: w in words)

    def list(self, read):
        for _ in range(self.number()):
            read()

    def header(self):
        numbers = lambda w: [re.fullmatch(r"0|[1-9][0-9]{0,19}", n) and int(n) <= MOST_NUMBER for n in w.split(".")]
        return self.word(lambda w: len(numbers(w)) == 4 and all(numbers(w)))

    def record(self):
        self.bytes(), self.bytes()
        for _ in range(4):
            self.number()

    def prev(self):
        if self.one_of("+", "-") == "+":
            self.record()

    def range(self, sorted):
        self.bytes(), self.bytes(), self.number(), self.number(), self.flags("skc")
        if sorted:
            fields = [self.number(0, 2), self.number(0, 4), self.number(), self.number(), self.number()]
            self.number(0 if any(fields) else 1)

    def put(self):
        self.bytes(), self.bytes(), self.number(), self.flags("pi")

    def delete(self):
        self.bytes(), self.bytes(), self.flags("p")

    def compare(self):
        target = self.one_of("version", "create", "mod", "value", "lease")
        self.one_of("eq", "gt", "lt", "ne"), self.bytes(), self.bytes()
        self.bytes() if target == "value" else self.number()

    def txn(self, depth):
        if depth == 0:
            raise BadLine(self.place)
        self.list(self.compare)
        for _ in range(2):
            self.list(lambda: self.operation(depth - 1))

    def operation(self, depth):
        match self.one_of("range", "rangex", "put", "delete", "txn"):
            case "range" | "rangex" as kind:
                self.range(kind == "rangex")
            case "put":
                self.put()
            case "delete":
                self.delete()
            case "txn":
                self.txn(depth)

    def request(self):
        match self.one_of(*"range rangex put delete txn compact grant revoke keepalive timetolive leases watch".split()):
            case "compact":
                self.number(), self.flags("p")
            case "grant":
                self.number(), self.number()
            case "revoke" | "keepalive":
                self.number()
            case "timetolive":
                self.number(), self.flags("k")
            case "watch":
                self.bytes(), self.bytes(), self.number(), self.flags("pudn")
            case "leases":
                pass
            case _:
                self.place -= 1
                self.operation(NEST)

    def body(self, depth=NEST):
        match self.one_of(*"range put delete txn compact grant revoke keepalive timetolive leases".split()):
            case "range":
                self.number(), self.flags("m"), self.list(self.record)
            case "put":
                self.prev()
            case "delete":
                self.number(), self.list(self.record)
            case "txn":
                if depth == 0:
                    raise BadLine(self.place)
                self.one_of("t", "f"), self.list(lambda: self.body(depth - 1))
            case "grant" | "keepalive":
                self.number(), self.number()
            case "timetolive":
                self.number()
                if self.place < len(self.words) and self.words[self.place] == "-1":
                    self.place += 1
                else:
                    self.number()
                self.number(), self.list(self.bytes)
            case "leases":
                self.list(self.number)

    def answer(self):
        if self.one_of("ok", "err") == "ok":
            self.header(), self.body()
        else:
            self.number(0, MOST_CODE), self.bytes()

    def message(self):
        match self.one_of("created", "events", "canceled"):
            case "created":
                self.header()
            case "events":
                self.header(), self.list(self.event)
            case "canceled":
                self.header(), self.number()

    def event(self):
        if self.one_of("put", "delete") == "put":
            self.record()
        else:
            self.bytes(), self.number()
        self.prev()

    def rest(self, read):
        begin = self.place
        read()
        return " ".join(self.words[begin : self.place])

    def item(self):
        """The item's kind and what it has: numbers, and texts of what is longer."""
        kind = self.word(lambda w: w in FORMS)
        found = [kind]
        for part in FORMS[kind].split():
            match part:
                case "members":
                    found.append(self.number(1, 9))
                case "p":
                    found.append(self.number(1, 64))
                case "t":
                    found.append(self.number(1))
                case "n":
                    found.append(self.number())
                case "bytes":
                    found.append(self.bytes())
                case _:
                    found.append(self.rest(getattr(self, part)))
        if self.place < len(self.words):
            raise BadLine(self.place + 1)
        return tuple(found)


FORMS = {
    "world": "members bytes bytes",
    "started": "p",
    "restarted": "p",
    "clock": "p n",
    "asked": "p t request",
    "posted": "p t bytes bytes",
    "ticked": "p",
    "sent": "p n n n request",
    "opened": "p n n request",
    "closed": "p n",
    "taken": "p t message",
    "pending": "p t",
    "left": "p t",
    "reply": "p t answer",
    "body": "p t n bytes",
    "executed": "n answer",
    "answered": "n",
    "lost": "n",
    "pushed": "n message",
    "delivered": "n",
    "cut": "n",
    "expired": "n",
    "applied": "n n",
}
OF_PROXY = {"started", "restarted", "clock", "ticked"}


# ---- values by their texts


def words_of(text):
    return Words(text)


def header_revision(text):
    """The revision of the header of an answer or a message: the second word is the header."""
    return int(text.split(" ")[1].split(".")[2])


class Event(NamedTuple):
    """An event of the history: its text without the record before, and that record's words, or none."""

    revision: int
    key: bytes
    change: tuple
    before: tuple | None


class Watch(NamedTuple):
    key: bytes
    end: bytes
    start: int
    flags: str


def read_watch(text):
    words = words_of(text)
    words.word()
    return Watch(words.bytes(), words.bytes(), words.number(), words.word())


def read_events(text):
    """The events that a message has, by clients' keys."""
    words = words_of(text)
    if words.word() != "events":
        return []
    words.word()
    return words.list(lambda: read_event(words))


def read_event(words):
    if words.word() == "put":
        record = read_record(words)
        key, revision, change = record[0], record[3], ("put", record)
    else:
        key, revision = words.bytes(), words.number()
        change = ("delete", key, revision)
    return Event(revision, key, change, read_record(words) if words.word() == "+" else None)


def read_record(words):
    return words.bytes(), words.bytes(), *(words.number() for _ in range(4))


def stored(namespace, event):
    """The event by the stored key."""
    under = lambda record: record and (namespace + record[0], *record[1:])
    change = ("put", under(event.change[1])) if event.change[0] == "put" else ("delete", namespace + event.key, event.revision)
    return Event(event.revision, namespace + event.key, change, under(event.before))


def event_text(event):
    kind, *rest = event.change
    record = lambda r: " ".join([spelled(r[0]), spelled(r[1]), *map(str, r[2:])])
    change = f"put {record(rest[0])}" if kind == "put" else f"delete {spelled(rest[0])} {rest[1]}"
    return f"{change} + {record(event.before)}" if event.before else f"{change} -"


# ---- the store, with the watches that were opened


class Member(NamedTuple):
    member: int
    watch: Watch


class Watched(Store):
    """A store that serves watches."""

    def __init__(self, members):
        super().__init__()
        self.members, self.opened, self.next = members, [], []

    def open(self, member, watch):
        self.opened.append(Member(member, watch))
        self.next.append(0)

    def history(self, key, end, first=2):
        """All events of the range from a revision on, compacted or not, each with the record before."""
        held, found = {}, []
        for revision, changes in enumerate(self.revisions, 2):
            for name, value, lease in changes:
                old = held.pop(name, None)
                if value is not None:
                    create, version = (old[2], old[4] + 1) if old else (revision, 1)
                    held[name] = (name, value, create, revision, version, lease)
                if revision >= first and is_watched(key, end, name):
                    change = ("put", held[name]) if value is not None else ("delete", name, revision)
                    found.append(Event(revision, name, change, old))
        return found

    def events(self, key, end, flags, first):
        return [e for e in self.history(key, end, first) if ("u" if e.change[0] == "put" else "d") not in flags]

    def is_visible(self, event):
        """The record before the event, at the compaction revision or later."""
        return event.before is not None and (self.compacted < event.revision or self.compacted <= event.before[3])

    def told(self, flags, event):
        return event if "p" in flags and self.is_visible(event) else event._replace(before=None)

    def due(self, stream, text):
        """The message that the stream has where one of this kind is told, or none. It is taken."""
        if not 1 <= stream <= len(self.opened):
            return None
        member, watch = self.opened[stream - 1]
        next, newest = self.next[stream - 1], self.newest()
        header = f"1.{member}.{newest}.1"
        events = self.events(watch.key, watch.end, watch.flags, next) if next else []
        if text.startswith("events ") and text.split(" ")[2] == "0":
            if "n" not in watch.flags or next == 0 or next < self.compacted or events:
                return None
            self.next[stream - 1] = max(next, newest + 1)
            return f"events {header} 0"
        if next == 0:
            self.next[stream - 1] = watch.start or newest + 1
            return f"created {header}"
        if next < self.compacted:
            return f"canceled {header} {self.compacted}"
        if not events:
            return None
        self.next[stream - 1] = events[-1].revision + 1
        texts = [event_text(self.told(watch.flags, event)) for event in events]
        return " ".join([f"events {header} {len(events)}", *texts])


def is_watched(key, end, name):
    return is_in(key, end, name)


# ---- the rules


class Audit:
    """The items so far, and the store that they make."""

    def __init__(self):
        self.items, self.store = [], None

    # what the items tell

    def has_started(self, p):
        return any(i[0] in ("started", "restarted") and i[1] == p for i in self.items)

    def life(self, p):
        """The items since the proxy's last start."""
        begins = [n for n, i in enumerate(self.items) if i[0] in ("started", "restarted") and i[1] == p]
        return self.items[begins[-1] + 1 if begins else 0 :]

    def clock(self, p, items=None):
        return next((i[2] for i in reversed(self.items if items is None else items) if i[:2] == ("clock", p)), 0)

    def asked(self, p, ticket):
        return next((i[3] for i in self.life(p) if i[:3] == ("asked", p, ticket)), None)

    def is_given(self, p, ticket):
        return any(i[0] in ("asked", "posted") and i[1:3] == (p, ticket) for i in self.life(p))

    def is_named(self, p, ticket, items):
        return any(i[0] == "sent" and (i[1], i[4]) == (p, ticket) for i in items)

    def is_watch(self, p, ticket):
        return self.has_started(p) and (self.asked(p, ticket) or "").startswith("watch ")

    def numbered(self, kind):
        return [i for i in self.items if i[0] == kind]

    def owner(self, kind, number):
        """Who sent the call or opened the stream, where that was in the life that the proxy has now; and who did in any life."""
        p = next((i[1] for i in self.numbered(kind) if i[2] == number), None)
        return p, p is not None and any(i[:3] == (kind, p, number) for i in self.life(p))

    def executed(self, call):
        return next((i[2] for i in self.items if i[:2] == ("executed", call)), None)

    def is_settled(self, call):
        return any(i in (("answered", call), ("lost", call)) for i in self.items)

    def has_ended(self, stream):
        return any(i == ("cut", stream) or i[0] == "closed" and i[2] == stream for i in self.items)

    def is_cancelled(self, stream):
        return any(i[:2] == ("pushed", stream) and i[2].startswith("canceled") for i in self.items)

    def waiting(self, stream, items):
        """The message that is delivered next."""
        pushed = [i[2] for i in items if i[:2] == ("pushed", stream)]
        delivered = sum(i == ("delivered", stream) for i in items)
        return pushed[delivered] if delivered < len(pushed) else None

    def namespace(self):
        return words_of(self.items[0][2]).bytes() if self.items else b""

    # the order of items

    def fits(self, item):
        kind, *args = item
        if not self.items:
            return kind == "world"
        match kind, *args:
            case "world", *_:
                return False
            case "started", p:
                return not self.has_started(p)
            case ("restarted" | "ticked"), p:
                return self.has_started(p)
            case "clock", p, now:
                return self.has_started(p) and self.clock(p) <= now
            case "asked", p, ticket, _:
                return self.has_started(p) and self.asked(p, ticket) is None
            case "posted", p, ticket, _, _:
                return self.has_started(p) and not self.is_given(p, ticket)
            case "sent", p, call, member, _, request:
                return self.has_started(p) and call == len(self.numbered("sent")) + 1 and self.is_member(member) and not request.startswith("watch ")
            case "opened", p, stream, member, request:
                return self.has_started(p) and stream == len(self.numbered("opened")) + 1 and self.is_member(member) and request.startswith("watch ")
            case "closed", p, stream:
                return self.has_started(p) and any(i[:3] == ("opened", p, stream) for i in self.life(p)) and not self.has_ended(stream)
            case "executed", call, _:
                return self.owner("sent", call)[0] is not None and self.executed(call) is None
            case "answered", call:
                return self.owner("sent", call)[1] and not self.is_settled(call) and self.executed(call) is not None
            case "lost", call:
                return self.owner("sent", call)[1] and not self.is_settled(call)
            case ("pushed" | "cut"), stream, *_:
                return self.owner("opened", stream)[1] and not self.has_ended(stream) and not self.is_cancelled(stream)
            case "delivered", stream:
                return self.owner("opened", stream)[1] and not self.has_ended(stream) and self.waiting(stream, self.items) is not None
            case ("taken" | "pending"), p, ticket, *_:
                return self.is_watch(p, ticket)
            case ("left" | "body"), p, ticket, *_:
                return self.has_started(p) and self.is_given(p, ticket)
            case "reply", p, ticket, _:
                return self.has_started(p) and self.is_given(p, ticket) and not any(i[:3] == ("reply", p, ticket) for i in self.life(p))
            case "expired", lease:
                return lease in self.store.leases
            case "applied", member, revision:
                return self.is_member(member) and self.store.applied[member] <= revision <= self.store.newest()

    def is_member(self, member):
        return 1 <= member <= self.items[0][1]

    def about(self, item):
        kind, *args = item
        if kind == "world":
            return 0
        if kind in OF_PROXY or kind in ("executed", "answered", "lost", "pushed", "delivered", "cut", "expired", "applied"):
            return args[0]
        return args[1]

    # replies with no call of their own

    def given(self, p):
        """The header revisions that the proxy was given in this life."""
        begins = len(self.items) - len(self.life(p))
        for n in range(begins, len(self.items)):
            before, item = self.items[:n], self.items[n]
            if item[0] == "answered" and any(i[:3] == ("sent", p, item[1]) for i in before):
                answer = next((i[2] for i in before if i[:2] == ("executed", item[1])), "err")
                if answer.startswith("ok"):
                    yield header_revision(answer)
            if item[0] == "delivered" and any(i[:3] == ("opened", p, item[1]) for i in before):
                if message := self.waiting(item[1], before):
                    yield header_revision(message)

    def is_true_reply(self, p, ticket, answer):
        asked = self.asked(p, ticket)
        if not answer.startswith("ok ") or asked is None or self.is_named(p, ticket, self.life(p)):
            return True
        request = words_of(asked).request()
        body = answer.split(" ", 2)[2]
        revision = header_revision(answer)
        in_time = lambda: max(self.given(p), default=0) <= revision <= self.store.newest()
        if isinstance(request, Range):
            plain = not (request.end or request.revision or request.flags != "-" or any(request.sort))
            return plain and body == self.shown(request.key) and in_time()
        if isinstance(request, Txn) and not writes(request):
            return self.is_snapshot(request, body) and in_time()
        return True

    def shown(self, key):
        record = self.store.records(self.store.newest(), (), self.namespace()).get(key)
        return "range 1 - 1 " + " ".join([spelled(key), spelled(record.value), *map(str, record[2:])]) if record else "range 0 - 0"

    def is_snapshot(self, request, body):
        answer = self.store.execute(request_under(self.namespace(), request), 1)
        if not answer.startswith("ok "):
            return False
        try:
            return body_without(self.namespace(), read_body(words_of(answer.split(" ", 2)[2]))) == read_body(words_of(body))
        except Foreign:
            return False

    # what watches take

    def is_true_take(self, p, ticket, message):
        watch = read_watch(self.asked(p, ticket))
        taken = [i[3] for i in self.life(p) if i[:3] == ("taken", p, ticket)]
        is_created = message.startswith("created")
        if not taken or is_created:
            if taken or not is_created:
                return False
        elif any(t.startswith("canceled") for t in taken):
            return False
        first = (taken + [message])[0]
        start = watch.start or header_revision(first) + 1
        got = [e for t in taken for e in read_events(t)]
        store, namespace = self.store, self.namespace()
        key, end = range_under(namespace, watch.key or b"\0", watch.end)
        if is_created:
            return True
        if message.startswith("canceled"):
            compaction = int(message.split(" ")[2])
            pushed = any(i[0] == "pushed" and i[2].startswith("canceled") and int(i[2].split(" ")[2]) == compaction for i in self.items)
            return pushed and self.next_taken(start, taken) < compaction
        due = store.events(key, end, watch.flags, start)
        if not (events := read_events(message)):
            revision = header_revision(message)
            told = [stored(namespace, e).change for e in got]
            return "n" in watch.flags and revision <= store.newest() and told == [e.change for e in due if e.revision <= revision]
        got += events
        return len(got) <= len(due) and all(self.tells(watch.flags, stored(namespace, e), d) for e, d in zip(got, due))

    def tells(self, flags, told, event):
        if told.change != event.change:
            return False
        if told.before is None:
            return "p" not in flags or not self.store.is_visible(event)
        return "p" in flags and told.before == event.before

    def next_taken(self, next, taken):
        for message in taken:
            if message.startswith("events"):
                events = read_events(message)
                next = max([next, *(e.revision + 1 for e in events)] if events else [next, header_revision(message) + 1])
        return next

    # sessions

    def floor(self, lease):
        """Of a session: who sent its grant, and before which reading of its clock it can't have expired."""
        found = None
        for n, item in enumerate(self.items):
            if item[0] != "executed" or not item[2].startswith("ok "):
                continue
            words = item[2].split(" ")[2:]
            if words[0] not in ("grant", "keepalive") or int(words[1]) != lease or lease < FIRST_SESSION or int(words[2]) == 0:
                continue
            m, sent = next((m, i) for m, i in enumerate(self.items[:n]) if i[0] == "sent" and i[2] == item[1])
            if sent[5].split(" ")[0] != words[0]:
                continue
            until = self.clock(sent[1], self.items[:m]) + 1000 * int(words[2])
            if words[0] == "grant":
                found = sent[1], max(until, found[1] if found else 0)
            elif found:
                found = found[0], max(until, found[1])
        return found

    # an item

    def take(self, item):
        """Takes the item, or says which rule it breaks first."""
        kind, *args = item
        if not self.fits(item):
            raise Breaks(f"Order {self.about(item)}")
        match kind, *args:
            case "executed", call, answer:
                _, _, _, member, _, request = next(i for i in self.numbered("sent") if i[2] == call)
                if self.store.execute(words_of(request).request(), member) != answer:
                    raise Breaks(f"Answer {call}")
            case "pushed", stream, message:
                if self.store.due(stream, message) != message:
                    raise Breaks(f"Push {stream}")
            case "reply", p, ticket, answer:
                if not self.is_true_reply(p, ticket, answer):
                    raise Breaks(f"Unsent {ticket}")
            case "taken", p, ticket, message:
                if not self.is_true_take(p, ticket, message):
                    raise Breaks(f"Watch {ticket}")
            case "expired", lease:
                if (found := self.floor(lease)) and self.clock(found[0]) < found[1]:
                    raise Breaks(f"Early {self.clock(found[0])} {found[1]}")
                self.store.end_lease(lease)
            case "applied", member, revision:
                self.store.applied[member] = revision
            case "opened", _, _, member, request:
                self.store.open(member, read_watch(request))
            case "world", members, *_:
                self.store = Watched(members)
        self.items.append(item)

    def counts(self):
        unsent = 0
        items = self.items
        for n, item in enumerate(items):
            if item[0] != "reply" or not item[3].startswith("ok "):
                continue
            p, ticket = item[1:3]
            self.items = items[:n]
            life, asked = self.life(p), self.asked(p, ticket) or ""
            later = items[n + 1 :]
            ends = next((m for m, i in enumerate(later) if i[0] in ("started", "restarted") and i[1] == p), len(later))
            unsent += asked.startswith("range") and not self.is_named(p, ticket, life + later[:ends])
        self.items = items
        watches = sum(i[0] == "asked" and i[3].startswith("watch ") for i in items)
        return f"items {len(items)}\nunsent {unsent}\nwatches {watches}\n"


def audit(data):
    """The status of an audit of these bytes, what it writes, and what it tells."""
    state, taken = Audit(), 0
    lines = data.split(b"\n")
    whole = len(lines) - 1
    for number, line in enumerate(lines, 1):
        if number > whole and not line:
            break
        taken += len(line) + (number <= whole)
        if len(line) > MOST_LINE_BYTES or number > MOST_LINES or taken > MOST_BYTES:
            return 6, "", "limit\n"
        try:
            state.take(Line(line.decode("latin-1")).item())
        except BadLine as bad:
            return 1, "", f"line {number}: BadLine {bad}\n"
        except Breaks as fault:
            return 9, "", f"line {number}: {fault}\n"
    return 0, state.counts(), ""


if __name__ == "__main__":
    for name in sys.argv[1:]:
        with open(name, "rb") as file:
            status, written, told = audit(file.read())
        print(f"{name}: {status} {(written or told).replace(chr(10), ' ').strip()}")
