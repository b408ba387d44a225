#!/usr/bin/env python3
"""Says of transcripts whether what they show is what the store has, by their items alone.

    python3 cached_reads.py TRANSCRIPT ..

The items that a call was executed, a lease expired and a member applied revisions move the store of `plain_store.py`, and no proxy
is looked at. It tests these sentences of docs/PROOFS.md:

    answer    each executed answer is the one that the store gives (etcd API reference)
    plain     a range that is replied ok, and whose ticket no call names in that life of its proxy, is a plain read
    read      it shows what the store has of its key at that step: the record, or that there is none
    snapshot  a transaction without writes that is replied so has the body that the store gives to it
    header    the revision of such a reply is at least each that the proxy was given in this life, and at most the newest

The first line of a transcript that breaks one is printed, with the sentence and what the store has. Ends with 1 where there is one.
"""
import sys
from collections import defaultdict, deque

from plain_store import Range, Store, Txn, Words, writes


class Broken(Exception):
    """A line breaks a sentence."""


def revision_of(text):
    """The revision in the header of an ok answer or a message, which is the second word."""
    return int(text.split(" ", 2)[1].split(".")[2])


class Evaluation:
    """A transcript, up to one of its lines."""

    def __init__(self, lines):
        self.store = Store()
        self.namespace = b""
        self.life = defaultdict(int)  # of each proxy, the number of its life
        self.given = defaultdict(int)  # the highest revision given to a proxy in a life
        self.asked, self.calls, self.answers, self.streams = {}, {}, {}, {}
        self.named = named_tickets(lines)

    def take(self, line):
        words = Words(line)
        match words.word():
            case "world":
                self.namespace = (words.word(), words.bytes())[1]
            case "restarted":
                self.life[words.number()] += 1
            case "asked":
                p, ticket = words.number(), words.number()
                self.asked[p, self.life[p], ticket] = words.request()
            case "sent":
                p, call, member, _ = (words.number() for _ in range(4))
                self.calls[call] = (p, member, words.request())
            case "executed":
                call = words.number()
                self.executed(call, " ".join(words.rest))
            case "answered":
                call = words.number()
                self.gives(self.calls[call][0], self.answers[call])
            case "opened":
                p, stream = words.number(), words.number()
                self.streams[stream] = (p, deque())
            case "pushed":
                self.streams[words.number()][1].append(" ".join(words.rest))
            case "delivered":
                p, messages = self.streams[words.number()]
                self.gives(p, messages.popleft())
            case "expired":
                self.store.end_lease(words.number())
            case "applied":
                member, revision = words.number(), words.number()
                self.store.applied[member] = revision
            case "reply":
                p, ticket = words.number(), words.number()
                key = p, self.life[p], ticket
                if words.rest[0] == "ok" and key not in self.named and key in self.asked:
                    self.unsent(p, self.asked[key], " ".join(words.rest))

    def gives(self, p, text):
        if not text.startswith("err "):
            key = p, self.life[p]
            self.given[key] = max(self.given[key], revision_of(text))

    def executed(self, call, answer):
        _, member, request = self.calls[call]
        self.answers[call] = answer
        of_store = self.store.execute(request, member)
        if answer != of_store:
            raise Broken(f"answer: the store gives {of_store}")

    def unsent(self, p, request, answer):
        """An ok reply to a request whose ticket no call names: what is no range and writes, or reads nothing, is of no sentence here."""
        if isinstance(request, Range):
            name = "read"
            if request.end or request.revision or request.sort or request.flags != "-":
                raise Broken("plain: it is a range of another kind")
        elif isinstance(request, Txn) and not writes(request):
            name = "snapshot"
        else:
            return
        body = answer.split(" ", 2)[2]
        of_store = self.store.run(request, [], self.namespace)
        if body != of_store:
            raise Broken(f"{name}: the store has {of_store}")
        least, most = self.given[p, self.life[p]], self.store.newest()
        if not least <= revision_of(answer) <= most:
            raise Broken(f"header: the revision lies between {least} and {most}")


def named_tickets(lines):
    """The tickets that a call names, each with its proxy and the number of that one's life."""
    life, named = defaultdict(int), set()
    for line in lines:
        kind, *rest = line.split(" ", 5)
        if kind == "restarted":
            life[int(rest[0])] += 1
        elif kind == "sent":
            p, _, _, ticket = map(int, rest[:4])
            named.add((p, life[p], ticket))
    return named


def first_broken(lines):
    evaluation = Evaluation(lines)
    for number, line in enumerate(lines, 1):
        try:
            evaluation.take(line)
        except Broken as broken:
            return f"{number}: {line}\n    {broken}"
    return None


def main(paths):
    status = 0
    for path in paths:
        with open(path, encoding="ascii") as file:
            broken = first_broken(file.read().splitlines())
        if broken:
            print(f"{path}:{broken}")
            status = 1
    return status


if __name__ == "__main__":
    sys.exit(main(sys.argv[1:]))
