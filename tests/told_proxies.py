"""What the items of a transcript tell of a proxy, without a look into it: its clock, its session, its leasing stream, and the keys that are
new to it or owned by it. crates/world_model/specs/LiveSessions.antt, crates/cached_laws/specs and crates/owned_laws/specs have the same
rules.
"""
from collections import defaultdict
from dataclasses import dataclass, field
from itertools import takewhile

from plain_leasing import REVOKE, covers, is_session, lease_named, leasing_range, refusal_of, written_ranges
from plain_namespace import Foreign, events_without, range_under
from plain_store import Delete, Put, Range, Txn, is_in

NOT_FOUND = 5
REQUEST_TIME = 5000  # milliseconds


@dataclass
class Session:
    number: int
    deadline: int  # in milliseconds of its proxy's clock
    ended: bool = False


@dataclass
class Stream:
    """A leasing stream, and its next revision: 0 as long as only its created message can tell."""

    number: int
    next: int
    created: bool = False


@dataclass
class Write:
    """A proxy's own write of a key that isn't answered, with its clock as it was asked; its call's number once it was sent."""

    ticket: int
    since: int
    call: int | None = None


@dataclass
class Asked:
    """A write that is served, with its place; whether it began: a call names it, or its client left."""

    place: int
    ticket: int
    since: int
    request: object
    ranges: list
    begun: bool = False


@dataclass
class Owning:
    """How far the acquire of a key came that names a ticket: it is out, or the key is owned since a create revision, or all is over. The
    proxy may write the key from the ticket's request on: its writes go one after the other, once the key is won, and it isn't owned until
    they are done."""

    session: int
    call: int
    create: int = 0
    over: bool = False
    writes: list = field(default_factory=list)

    def is_owned(self):
        return bool(self.create) and not self.over and not self.writes

    def names(self, ticket):
        return any(write.ticket == ticket for write in self.writes)

    def send(self, call, ticket):
        """A call names this ticket: the first write of an owned key is sent, once."""
        if self.names(ticket):
            first = self.writes[0]
            self.over |= not self.create or first.ticket != ticket or first.call is not None
            first.call = call

    def end(self, call, is_settled, clock):
        """A call ended: where it was the first write's, the next one begins."""
        if self.writes and self.writes[0].call == call:
            first = self.writes.pop(0)
            self.over |= not (is_settled and clock < first.since + REQUEST_TIME)


def keeps(request, key):
    """A write of single keys that doesn't put this one with a lease, in a transaction in neither branch."""
    ops = [*request.success, *request.failure] if isinstance(request, Txn) else [request]
    is_leased = any(isinstance(op, Put) and op.key == key and op.lease for op in ops)
    return not is_leased and not any(end for _, end in written_ranges(request))


def puts_under(request, lease):
    """The keys that it puts with this lease where it succeeds; only an acquire puts one under a session."""
    ops = request.success if isinstance(request, Txn) else []
    return [op.key for op in ops if isinstance(op, Put) and op.lease == lease]


@dataclass
class Life:
    """What is told since the proxy's last start. A place is an item's place in the transcript."""

    session: Session | None = None
    stream: Stream | None = None
    asked: dict = field(default_factory=dict)  # each ticket's place and request
    ranges: set = field(default_factory=set)  # of several keys, that were read or written
    keys: set = field(default_factory=set)  # that were read or written, or of whose ownership keys an event came
    writes: list = field(default_factory=list)  # that are served
    unbegun: dict = field(default_factory=dict)  # those that didn't begin, by ticket
    revoked: dict = field(default_factory=dict)  # the place at which the revoking word came for a key
    compacted: int = -1  # the place at which the leasing stream was cancelled for a compaction
    owning: dict = field(default_factory=lambda: defaultdict(dict))  # by key and ticket
    acquires: dict = field(default_factory=lambda: defaultdict(list))  # the keys of each call


class Proxy:
    def __init__(self, namespace, leasing):
        self.namespace, self.leasing = namespace, leasing
        self.clock = 0
        self.given_up = set()  # ownership keys that were compared in a call, each with its create revision
        self.life = Life()

    # ---- what is told behind the items so far

    def is_live(self):
        session = self.life.session
        return session is not None and not session.ended and self.clock < session.deadline

    def is_up(self):
        """Whether the leasing stream was created, and neither cut nor cancelled since."""
        return self.life.stream is not None and self.life.stream.created

    def is_new(self, key):
        return key not in self.life.keys and not covers(self.life.ranges, key)

    def owns(self, key):
        """Under its session."""
        number = self.life.session.number
        return any(o.is_owned() and o.session == number for o in self.life.owning.get(key, {}).values())

    # ---- items

    def step(self):
        """A step at or above the session's deadline ends it."""
        session = self.life.session
        if session and session.deadline <= self.clock:
            session.ended = True

    def ask(self, place, ticket, request):
        life = self.life
        life.asked[ticket] = place, request
        ranges = [(request.key, request.end)] if isinstance(request, Range) else written_ranges(request)
        life.ranges |= {r for r in ranges if r[1]}
        life.keys |= {key for key, end in ranges if not end}
        if not isinstance(request, Range) and ranges and refusal_of(self.leasing, request) is None:
            life.unbegun[ticket] = Asked(place, ticket, self.clock, request, ranges)
            life.writes.append(life.unbegun[ticket])
            self.write_owned(ticket, request, ranges)
        else:
            self.leave(ticket)

    def write_owned(self, ticket, request, ranges):
        """A write is asked: its keys aren't owned until it was done, nor after it where it deletes a range too or one wasn't done."""
        for key, of_tickets in self.life.owning.items():
            for owning in of_tickets.values():
                owning.over |= owning.names(ticket)
                if covers(ranges, key):
                    owning.over |= not (keeps(request, key) and ticket)
                    owning.writes.append(Write(ticket, self.clock))

    def leave(self, ticket):
        """What was asked under this ticket is over."""
        self.begin(ticket)
        for of_tickets in self.life.owning.values():
            for owning in of_tickets.values():
                owning.over |= owning.names(ticket)

    def end_owning(self, test, create=None):
        """Those of such keys are over; where a revision is given, those that were owned before it."""
        for key, of_tickets in self.life.owning.items():
            if test(key):
                for owning in of_tickets.values():
                    owning.over |= create is None or 0 < owning.create < create

    def send(self, call, ticket, request, was_live):
        """A call of the proxy that names the ticket."""
        if isinstance(request, Txn):
            self.given_up |= {(c.key, c.operand) for c in request.compares if c.target != "value"}
        self.send_write(call, ticket)
        if not was_live or ticket not in self.life.asked:
            return
        prefix = self.namespace + self.leasing
        for owner in puts_under(request, self.life.session.number):
            key = owner[len(prefix) :]
            of_tickets = self.life.owning[key]
            writes = self.writes_since(key, self.life.asked[ticket][0])
            if owner.startswith(prefix) and ticket not in of_tickets and writes is not None:
                of_tickets[ticket] = Owning(self.life.session.number, call, writes=writes)
                self.life.acquires[call].append(key)

    def begin(self, ticket):
        write = self.life.unbegun.pop(ticket, None)
        if write:
            write.begun = True

    def send_write(self, call, ticket):
        self.begin(ticket)
        for of_tickets in self.life.owning.values():
            for owning in of_tickets.values():
                owning.send(call, ticket)

    def writes_since(self, key, since):
        """The writes of the key that were served since then; none are known where one began, or the key was to be given up."""
        later = takewhile(lambda write: write.place > since, reversed(self.life.writes))
        writes = [write for write in later if covers(write.ranges, key)][::-1]
        if max(self.life.revoked.get(key, -1), self.life.compacted) > since:
            return None
        if not all(keeps(write.request, key) and write.ticket and not write.begun for write in writes):
            return None
        return [Write(write.ticket, write.since) for write in writes]

    def end_call(self, call, won_at, was_live, is_settled):
        """A call was answered or lost; where it is the acquire of a key, that says at which revision the key was won, or 0. Where it is
        an own write's, that was done or surely wasn't, or else nobody knows."""
        self.end_write(call, is_settled)
        for key in self.life.acquires.pop(call, []):
            create = won_at(key)
            given_up = (self.namespace + self.leasing + key, create) in self.given_up
            for owning in self.life.owning[key].values():
                if owning.call == call and not owning.over:
                    owning.over = not (create and was_live and self.life.session.number == owning.session and not given_up)
                    owning.create = create

    def end_write(self, call, is_settled):
        for of_tickets in self.life.owning.values():
            for owning in of_tickets.values():
                owning.end(call, is_settled, self.clock)

    def hear(self, sent_clock, request, answer):
        """An answer by its code and body: of the grant or a keepalive of its session, or the refusal of an acquire."""
        session = self.life.session
        code, body = answer
        lease = lease_named(request)
        if code:
            if session and code == NOT_FOUND and puts_under(request, session.number):
                session.ended = True
        elif body[0] == "grant" and request.kind == "grant" and is_session(lease):
            self.life.session = Session(int(body[1]), sent_clock + 1000 * int(body[2]))
        elif body[0] == "keepalive" and request.kind == "keepalive" and session and session.number == lease:
            session.ended |= body[2] == "0"
            session.deadline = max(session.deadline, sent_clock + 1000 * int(body[2]))

    # ---- the leasing stream, which is a watch of all ownership keys without the records before

    def open(self, number, key, end, start, flags):
        if (key, end) == range_under(self.namespace, *leasing_range(self.leasing)) and "p" not in flags:
            self.life.stream = Stream(number, start)

    def cut(self, number):
        if self.life.stream and self.life.stream.number == number:
            self.life.stream = None

    def deliver(self, place, number, message):
        kind, revision, events, compaction = message
        try:
            events = events_without(self.namespace, events)
        except Foreign:
            self.cut(number)
            return
        is_leasing = self.life.stream is not None and self.life.stream.number == number
        keys = leasing_range(self.leasing)
        self.life.keys |= {self.owned_key(e) for e in events if is_in(*keys, e.key)}
        if not is_leasing:
            return
        for event in events:
            self.notice(place, event)
        if kind == "canceled" and compaction:
            self.life.compacted = place
            self.end_owning(lambda key: True)
        self.tell(self.life.stream, kind, revision, events)

    def owned_key(self, event):
        return event.key[len(self.leasing) :]

    def notice(self, place, event):
        key = self.owned_key(event)
        if not event.is_put:
            self.end_owning(lambda k: k == key, event.revision)
        elif event.rest[0] == REVOKE:
            self.life.revoked[key] = place
            self.end_owning(lambda k: k == key)

    def tell(self, stream, kind, revision, events):
        if kind == "created":
            if not stream.created:
                stream.next = stream.next or revision + 1
            stream.created = True
        elif kind == "canceled" or not self.goes_on(stream, events):
            self.life.stream = None
        else:
            stream.next = max(stream.next, (events[-1].revision if events else revision) + 1)

    def goes_on(self, stream, events):
        revisions = [stream.next] + [e.revision for e in events]
        return stream.next > 0 and revisions == sorted(revisions) and all(is_in(*leasing_range(self.leasing), e.key) for e in events)
