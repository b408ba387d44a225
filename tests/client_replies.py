#!/usr/bin/env python3
"""Says of transcripts whether clients are replied as they have to be, by their items alone.

    python3 client_replies.py TRANSCRIPT ..

No store is looked at, and no proxy. It tests these sentences of docs/PROOFS.md:

    executed  an ok reply to a request that a call names is what such a call was executed to, which was sent after it was asked and
              answered before; and so is each to a keepalive, whose call clients share
    once      of the calls that name a write's ticket at most one did the write
    ran       where a write is replied ok, one did
    none      where it is replied that nothing was done, none did
    cause     a refusal is that of the request's fields, or of a body that is no request; or its time is over; or a call of it just ended so
    late      one that says that the time is over comes with the first step five seconds after the asking or later; no other reply
              comes then, and no request waits for longer
    acquired  a plain read of a key that is new to its proxy, which is live and hears of ownership keys, is first sent as its acquire
    cached    a plain read of a key that a live proxy owns is replied in its own line, also once own writes of it were done
    answered  so is a transaction that only reads and compares keys that it owns
    shared    of each lease at most one keepalive is out for a proxy's clients

Of a body that is no request only the form of its refusal is tested. The first line of a transcript that breaks a sentence is printed,
with that. Ends with 1 where there is one.
"""
import sys
from collections import defaultdict
from heapq import heappop, heappush
from typing import NamedTuple

from plain_leasing import acquire, claimed, is_guarded, is_keepalive, is_leased_read, is_revoke, is_session, is_snapshot
from plain_leasing import lease_named, refusal_of, reply_to, written_ranges
from plain_namespace import Foreign, body_without, read_body, read_message, request_under
from plain_store import Other, Range, Txn, Words, spelled
from told_proxies import Proxy

REQUEST_TIME = 5000  # milliseconds
STALE_REPLIES = 5  # of each member
NOTHING_DONE = (3, 5, 7, 9, 11, 12)
TIMED_OUT = 4, "proxy: request timed out"
CALL_LOST = 14, "proxy: upstream call lost"
NO_GREATER_REVISION = 9, "etcdclient: no cluster members have a revision higher than the previously received revision"
NO_REQUEST = {"no such path": 5, "unsupported": 12, "not JSON": 3, "wrong kind": 3, "bad number": 3, "bad base64": 3}
NO_REQUEST |= {"unknown field": 3, "field named twice": 3, "bad enum": 3}


class Broken(Exception):
    """A line breaks a sentence."""


class Call(NamedTuple):
    p: int
    ticket: int
    key: tuple  # its proxy, the number of that one's life, and the ticket
    request: object
    place: int
    clock: int
    given: int  # the highest revision that its proxy was given in this life, up to it


class Answer(NamedTuple):
    """A code and a text, or code 0, a header and a body."""

    code: int
    text: str
    body: tuple = ()


class Asked(NamedTuple):
    place: int
    request: object


def read_answer(words):
    if words.word() == "err":
        return Answer(words.number(), words.word())
    return Answer(0, words.word(), read_body(words))


class Evaluation:
    """A transcript, up to one of its lines."""

    def __init__(self, lines):
        self.lines = lines
        self.place = 0
        self.members, self.namespace, self.leasing = 0, b"", b""
        self.proxies, self.lives = {}, defaultdict(int)
        self.last = ()  # of the last item that is no reply: its place and first words
        # by proxy, life and ticket
        self.asked, self.named = {}, defaultdict(list)
        self.runs, self.refused = defaultdict(int), {}
        self.losses, self.stales = defaultdict(int), defaultdict(int)
        self.awaited = {}
        self.first_late, self.ended = {}, set()
        # by proxy and life
        self.waiting, self.overdue, self.given = defaultdict(list), defaultdict(set), defaultdict(int)
        # by number
        self.calls, self.answers, self.answered, self.opened = {}, {}, set(), {}
        self.messages = defaultdict(list)
        # by proxy, life and lease
        self.keepalives, self.keepalive_out = defaultdict(list), {}

    def key(self, p, ticket):
        return p, self.lives[p], ticket

    def take(self, line):
        words = Words(line)
        kind = words.word()
        if kind not in ("reply", "body"):
            self.last = (self.place, kind, *line.split(" ", 3)[1:3])
        take = getattr(self, "take_" + kind, None)
        if take:
            take(words)
        self.place += 1

    # ---- the world

    def take_world(self, words):
        self.members, self.namespace, self.leasing = words.number(), words.bytes(), words.bytes()

    def take_started(self, words):
        self.start(words.number())

    def take_restarted(self, words):
        self.start(words.number())

    def start(self, p):
        self.lives[p] += 1
        before = self.proxies.get(p)
        self.proxies[p] = Proxy(self.namespace, self.leasing)
        if before:
            self.proxies[p].clock, self.proxies[p].given_up = before.clock, before.given_up

    def take_clock(self, words):
        p, millis = words.number(), words.number()
        self.proxies[p].clock = millis

    def step(self, p):
        """A step of the proxy, by this item."""
        proxy, life = self.proxies[p], (p, self.lives[p])
        proxy.step()
        if self.overdue[life]:
            raise Broken(f"late: since a step before, {min(self.overdue[life])} waits for too long")
        waiting = self.waiting[life]
        while waiting and waiting[0][0] <= proxy.clock:
            ticket = heappop(waiting)[1]
            key = self.key(p, ticket)
            self.first_late[key] = self.place
            if key not in self.ended and not is_watch(self.asked[key].request):
                self.overdue[life].add(ticket)

    def ends(self, p, ticket):
        """The client has a reply, or left, or it takes messages."""
        self.ended.add(self.key(p, ticket))
        self.overdue[p, self.lives[p]].discard(ticket)

    def take_ticked(self, words):
        self.step(words.number())

    take_closed = take_ticked

    def take_taken(self, words):
        p, ticket = words.number(), words.number()
        self.step(p)
        self.ends(p, ticket)

    take_pending = take_taken

    def take_left(self, words):
        p, ticket = words.number(), words.number()
        self.step(p)
        self.ends(p, ticket)
        self.proxies[p].leave(ticket)

    # ---- requests

    def take_asked(self, words):
        p, ticket = words.number(), words.number()
        request = words.request()
        proxy, key = self.proxies[p], self.key(p, ticket)
        self.must_be_replied(proxy, p, ticket, request)
        if self.must_acquire(proxy, request):
            self.awaited[key] = request.key, proxy.life.session.number
        self.asked[key] = Asked(self.place, request)
        self.losses[key] = self.stales[key] = 0
        self.step(p)
        heappush(self.waiting[p, self.lives[p]], (proxy.clock + REQUEST_TIME, ticket))
        proxy.ask(self.place, ticket, request)

    def must_acquire(self, proxy, request):
        if not is_leased_read(self.leasing, request) or refusal_of(self.leasing, request):
            return False
        return proxy.is_live() and proxy.is_up() and proxy.is_new(request.key)

    def must_be_replied(self, proxy, p, ticket, request):
        if is_leased_read(self.leasing, request):
            name, keys = "cached", [request.key]
        elif self.leasing and is_snapshot(request):
            name, keys = "answered", [one.key for ones in request for one in ones]
        else:
            return
        if proxy.is_live() and not refusal_of(self.leasing, request) and all(map(proxy.owns, keys)):
            if not self.is_replied_at_once(p, ticket):
                raise Broken(f"{name}: all its keys are owned, and its line has no ok reply to it")

    def is_replied_at_once(self, p, ticket):
        for place in range(self.place + 1, len(self.lines)):
            if self.lines[place].startswith(f"reply {p} {ticket} ok "):
                return True
            if not self.lines[place].startswith((f"reply {p} ", f"body {p} ")):
                break
        return False

    # ---- calls

    def take_sent(self, words):
        p, number, _, ticket = (words.number() for _ in range(4))
        request = words.request()
        proxy, key = self.proxies[p], self.key(p, ticket)
        was_live = proxy.is_live()
        self.calls[number] = Call(p, ticket, key, request, self.place, proxy.clock, self.given[key[:2]])
        if ticket:
            self.must_be_acquire(proxy, key, request, was_live)
        self.named[key].append(number)
        if is_keepalive(request) and not is_session(lease_named(request)):
            self.share(self.key(p, lease_named(request)), number)
        self.step(p)
        proxy.send(number, ticket, request, was_live)

    def must_be_acquire(self, proxy, key, request, was_live):
        read, session = self.awaited.pop(key, (b"", 0))
        if session and was_live and proxy.life.session.number == session:
            if request != request_under(self.namespace, acquire(self.leasing, read, session)):
                raise Broken("acquired: the first call that names it isn't the acquire of its key")

    def share(self, key, number):
        if key in self.keepalive_out:
            raise Broken(f"shared: call {self.keepalive_out[key]} is a keepalive of the lease, and out")
        self.keepalive_out[key] = number
        self.keepalives[key].append(number)

    def take_executed(self, words):
        number = words.number()
        call, answer = self.calls[number], read_answer(words)
        self.answers[number] = answer
        asked = self.asked.get(call.key)
        if call.ticket and asked and written_ranges(asked.request) and self.did(asked.request, call.request, answer):
            self.runs[call.key] += 1
            if self.runs[call.key] > 1:
                raise Broken("once: another call that names it did the write")
            if call.place < self.refused.get(call.key, 0):
                raise Broken("none: it was replied that nothing was done")

    def did(self, asked, sent, answer):
        """What was sent for a write did it: with leasing on, no revoke call does, nor where an ownership key stood otherwise."""
        if answer.code or not self.leasing:
            return not answer.code
        world = self.namespace, self.leasing
        if is_revoke(*world, sent):
            return False
        return not is_guarded(*world, asked, sent) or answer.body[:2] == ("txn", True)

    def take_answered(self, words):
        number = words.number()
        call, answer = self.calls[number], self.answers[number]
        key = self.key(call.p, call.ticket)
        self.answered.add(number)
        self.losses[key] += answer.code not in NOTHING_DONE
        if not answer.code:
            self.stales[key] += revision_of(answer.text) < call.given
            self.give(call.p, revision_of(answer.text))
        self.end(call, number, lambda k: self.won_at(k, answer), self.is_settled(answer))
        self.proxies[call.p].hear(call.clock, call.request, (answer.code, answer.body))

    def take_lost(self, words):
        number = words.number()
        call = self.calls[number]
        self.losses[self.key(call.p, call.ticket)] += 1
        self.end(call, number, lambda k: 0, False)

    def end(self, call, number, won_at, is_settled):
        proxy = self.proxies[call.p]
        was_live = proxy.is_live()
        self.step(call.p)
        proxy.end_call(number, won_at, was_live, is_settled)
        shared = self.key(call.p, lease_named(call.request))
        if self.keepalive_out.get(shared) == number:
            del self.keepalive_out[shared]

    def heard(self, answer):
        """The body of an ok answer as it is heard, or none."""
        try:
            return None if answer.code else body_without(self.namespace, answer.body)
        except Foreign:
            return None

    def is_settled(self, answer):
        """A guarded write was done, or surely wasn't."""
        body = self.heard(answer)
        return answer.code in NOTHING_DONE if answer.code else body is not None and body[:2] == ("txn", True)

    def won_at(self, key, answer):
        body = self.heard(answer)
        claim = body and claimed(self.leasing, key, body)
        return revision_of(answer.text) if claim and claim[0] else 0

    def give(self, p, revision):
        life = p, self.lives[p]
        self.given[life] = max(self.given[life], revision)

    # ---- streams

    def take_opened(self, words):
        p, number, _, _ = words.number(), words.number(), words.number(), words.word()
        key, end, start, flags = words.bytes(), words.bytes(), words.number(), words.word()
        self.opened[number] = p
        self.step(p)
        self.proxies[p].open(number, key, end, start, flags)

    def take_pushed(self, words):
        self.messages[words.number()].append(words)

    def take_delivered(self, words):
        number = words.number()
        p, message = self.opened[number], read_message(self.messages[number].pop(0))
        self.step(p)
        self.give(p, message[1])
        self.proxies[p].deliver(self.place, number, message)

    def take_cut(self, words):
        number = words.number()
        self.step(self.opened[number])
        self.proxies[self.opened[number]].cut(number)

    # ---- replies

    def take_reply(self, words):
        p, ticket = words.number(), words.number()
        key, answer = self.key(p, ticket), read_answer(words)
        asked = self.asked.get(key)
        self.ends(p, ticket)
        if answer.code:
            self.has_cause(key, asked, answer)
        else:
            self.is_executed(key, asked, answer)
        if key in self.first_late and answer.code != TIMED_OUT[0]:
            raise Broken("late: a step since the asking came five seconds after it")
        if asked and written_ranges(asked.request):
            self.ran_so(key, answer)

    def ran_so(self, key, answer):
        if not answer.code and not self.runs[key]:
            raise Broken("ran: no call that names it did the write")
        if answer.code in NOTHING_DONE:
            if self.runs[key]:
                raise Broken("none: a call that names it did the write")
            self.refused[key] = self.place

    def is_executed(self, key, asked, answer):
        if not asked:
            raise Broken("executed: it wasn't asked")
        if is_keepalive(asked.request):
            calls = self.keepalives[self.key(key[0], lease_named(asked.request))]
        else:
            calls = self.named.get(key)
            if calls is None:
                return
        for number in reversed(calls):
            call = self.calls[number]
            if call.place < asked.place:
                break
            if number in self.answered and self.is_source(asked.request, call.request, self.answers[number], answer):
                return
        raise Broken("executed: no call of it was executed to this")

    def is_source(self, asked, sent, executed, answer):
        """What was sent for the request, and is executed to this, makes it be replied so."""
        body = self.heard(executed)
        if body is None or executed.text != answer.text:
            return False
        return reply_to(self.namespace, self.leasing, asked, sent, body) == answer.body

    # ---- refusals

    def has_cause(self, key, asked, answer):
        told = answer.code, answer.text
        in_time = told == as_told(TIMED_OUT) and self.first_late.get(key) == self.last[0]
        if answer.code == TIMED_OUT[0] and not in_time:
            raise Broken("late: the last step isn't the first that comes five seconds after the asking")
        if not (in_time or self.is_refused(key, asked, told) or (asked and self.has_ended(key, asked.request, told))):
            raise Broken("cause: nothing before it makes it be refused so")

    def is_refused(self, key, asked, told):
        """By its fields, in the line that asks it, or for its body."""
        _, kind, *ids = self.last
        if ids != [str(key[0]), str(key[2])]:
            return False
        if kind == "asked":
            refusal = refusal_of(self.leasing, asked.request)
            return refusal is not None and told == as_told(refusal)
        forms = ((code, as_told((code, "proxy: " + why))[1]) for why, code in NO_REQUEST.items())
        return kind == "posted" and any(told[0] == code and told[1].startswith(text) for code, text in forms)

    def has_ended(self, key, request, told):
        is_lost, reads = told == as_told(CALL_LOST), is_read(request)
        if is_lost and reads:
            return self.losses[key] >= self.members
        _, kind, number, *_ = self.last
        if kind not in ("answered", "lost") or not self.is_call_of(self.calls[int(number)], key, request):
            return False
        if kind == "lost":
            return is_lost
        answer = self.answers[int(number)]
        if answer.code in NOTHING_DONE:
            return told == (answer.code, answer.text)
        is_stale = isinstance(request, Range | Txn) and reads and self.stales[key] >= STALE_REPLIES * self.members
        return is_lost or (is_stale and self.heard(answer) is not None and told == as_told(NO_GREATER_REVISION))

    def is_call_of(self, call, key, request):
        """It names the request, or it is the keepalive that clients share."""
        shares = is_keepalive(request) and is_keepalive(call.request) and lease_named(request) == lease_named(call.request)
        return call.p == key[0] and (call.ticket == key[2] or shares)


def is_watch(request):
    return isinstance(request, Other) and request.kind == "watch"


def is_read(request):
    """A request whose lost call may be sent again."""
    if isinstance(request, Other):
        return request.kind in ("timetolive", "leases")
    return not written_ranges(request)


def revision_of(header):
    return int(header.split(".")[2])


def as_told(refusal):
    return refusal[0], spelled(refusal[1].encode())


def first_broken(lines):
    evaluation = Evaluation(lines)
    for number, line in enumerate(lines, 1):
        try:
            evaluation.take(line)
        except Broken as broken:
            return f"{number}: {line}\n    {broken}"
    return None


def main(paths):
    status = 0
    for path in paths:
        with open(path, encoding="ascii") as file:
            broken = first_broken(file.read().splitlines())
        if broken:
            print(f"{path}:{broken}")
            status = 1
    return status


if __name__ == "__main__":
    sys.exit(main(sys.argv[1:]))
