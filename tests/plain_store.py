"""A store as the etcd API reference and docs/FORMATS.md have it: a list of revisions, each a list of changes, and the leases.

What is asked is read from its text (`Words`), and answers are given as texts (`Store.execute`), since each value has exactly one.
"""
from collections import defaultdict, deque
from typing import NamedTuple
from urllib.parse import unquote_to_bytes

PLAIN_BYTES = frozenset(b"ABCDEFGHIJKLMNOPQRSTUVWXYZabcdefghijklmnopqrstuvwxyz0123456789-._/")
MOST_OPERATIONS = 128
LONGEST_TTL = 9_000_000_000
COMPACTED = 11, "etcdserver: mvcc: required revision has been compacted"
FUTURE = 11, "etcdserver: mvcc: required revision is a future revision"


class Range(NamedTuple):
    key: bytes
    end: bytes
    revision: int
    limit: int
    flags: str
    sort: list[int]


class Put(NamedTuple):
    key: bytes
    value: bytes
    lease: int
    flags: str


class Delete(NamedTuple):
    key: bytes
    end: bytes
    flags: str


class Compare(NamedTuple):
    target: str
    relation: str
    key: bytes
    end: bytes
    operand: bytes | int


class Txn(NamedTuple):
    compares: list[Compare]
    success: list
    failure: list


class Other(NamedTuple):
    kind: str
    words: list[str]


class Record(NamedTuple):
    key: bytes
    value: bytes
    create: int
    mod: int
    version: int
    lease: int


class Change(NamedTuple):
    """A put, or a deletion where there is no value."""

    key: bytes
    value: bytes | None
    lease: int


class Refused(Exception):
    """The store refuses a request, with this code and text."""

    def __init__(self, code, text):
        super().__init__(f"err {code} {spelled(text.encode())}")


class Words:
    """A text, read word by word."""

    def __init__(self, text):
        self.rest = deque(text.split(" "))

    def word(self):
        return self.rest.popleft()

    def number(self):
        return int(self.word())

    def bytes(self):
        word = self.word()
        return b"" if word == "~" else unquote_to_bytes(word)

    def list(self, read):
        return [read() for _ in range(self.number())]

    def compare(self):
        target, relation, key, end = self.word(), self.word(), self.bytes(), self.bytes()
        return Compare(target, relation, key, end, self.bytes() if target == "value" else self.number())

    def request(self):
        match kind := self.word():
            case "range" | "rangex":
                ask = (self.bytes(), self.bytes(), self.number(), self.number(), self.word())
                return Range(*ask, [self.number() for _ in range(6 if kind == "rangex" else 0)])
            case "put":
                return Put(self.bytes(), self.bytes(), self.number(), self.word())
            case "delete":
                return Delete(self.bytes(), self.bytes(), self.word())
            case "txn":
                return Txn(self.list(self.compare), self.list(self.request), self.list(self.request))
        return Other(kind, list(self.rest))


def spelled(data):
    return "".join(chr(b) if b in PLAIN_BYTES else f"%{b:02X}" for b in data) or "~"


def record_text(record):
    return " ".join([spelled(record.key), spelled(record.value), *map(str, record[2:])])


def list_text(texts):
    return " ".join([str(len(texts)), *texts])


def is_in(key, end, other):
    """Whether the range has the key: it is that of one key, of all from the key on, or of those below the end."""
    if end == b"":
        return other == key
    if end == b"\0":
        return other >= key or key == b"\0"
    return key <= other < end


def writes(request):
    if isinstance(request, Txn):
        return any(map(writes, request.success + request.failure))
    return isinstance(request, Put | Delete)


class Store:
    def __init__(self):
        self.revisions = []  # each a list of changes; the first is revision 2
        self.compacted = 0
        self.leases = {}
        self.applied = defaultdict(lambda: 1)

    def newest(self):
        return len(self.revisions) + 1

    def records(self, revision, pending=(), namespace=b""):
        """The records at a revision, with the changes of one that is not yet there, under a namespace, by their keys without it."""
        found = {}
        for number, changes in enumerate([*self.revisions[: revision - 1], pending], 2):
            for key, value, lease in changes:
                old = found.pop(key, None)
                if value is not None:
                    create, version = (old.create, old.version + 1) if old else (number, 1)
                    found[key] = Record(key, value, create, number, version, lease)
        bare = len(namespace)
        return {key[bare:]: found[key]._replace(key=key[bare:]) for key in sorted(found) if key.startswith(namespace)}

    def change(self, changes):
        if changes:
            self.revisions.append(changes)

    def execute(self, request, member):
        """The text of a member's answer. A refusal changes nothing."""
        revision = None
        try:
            if isinstance(request, Other):
                body = self.other(request)
            else:
                refuse_first(request)
                pending = []
                if isinstance(request, Range) and "s" in request.flags:
                    revision = self.applied[member]
                body = self.run(request, pending, revision=revision)
                self.change(pending)
        except Refused as refusal:
            return str(refusal)
        return f"ok 1.{member}.{revision or self.newest()}.1 {body}"

    def run(self, request, pending, namespace=b"", revision=None):
        """The body of an operation, which adds its changes to those of its transaction, as the store stands now or at a revision."""
        newest = revision or self.newest()
        records = self.records(newest, pending, namespace)
        match request:
            case Range():
                # what a transaction changed so far counts as the next revision
                if 0 < request.revision <= newest:
                    records = self.records(request.revision, (), namespace)
                return self.range(request, newest + bool(pending), records)
            case Put(key, value, lease, flags):
                old = records.get(key)
                if lease and lease not in self.leases:
                    raise Refused(5, "etcdserver: requested lease not found")
                if "i" in flags:
                    if old is None:
                        raise Refused(3, "etcdserver: key not found")
                    lease = old.lease
                pending.append(Change(key, value, lease))
                return "put + " + record_text(old) if "p" in flags and old else "put -"
            case Delete(key, end, flags):
                gone = [record for record in records.values() if is_in(key, end, record.key)]
                pending.extend(Change(record.key, None, 0) for record in gone)
                return f"delete {len(gone)} " + list_text([record_text(record) for record in gone if "p" in flags])
            case Txn(compares, success, failure):
                held = all(holds(compare, records) for compare in compares)
                bodies = [self.run(op, pending, namespace) for op in (success if held else failure)]
                return f"txn {'t' if held else 'f'} " + list_text(bodies)

    def range(self, ask, newest, records):
        if newest < self.compacted:
            raise Refused(*COMPACTED)
        if ask.revision > newest:
            raise Refused(*FUTURE)
        if 0 < ask.revision < self.compacted:
            raise Refused(*COMPACTED)
        if ask.sort and (ask.sort[0] == 2 or any(ask.sort[1:])):
            raise Refused(12, "store: unsupported")
        found = [record for record in records.values() if is_in(ask.key, ask.end, record.key)]
        shown = [] if "c" in ask.flags else found[: ask.limit or None]
        more = "m" if shown and len(shown) < len(found) else "-"
        if "k" in ask.flags:
            shown = [record._replace(value=b"") for record in shown]
        return f"range {len(found)} {more} " + list_text([record_text(record) for record in shown])

    def other(self, request):
        numbers = [int(word) for word in request.words if word.isdigit()]
        number = numbers[-1] if numbers else 0
        ttl = self.leases.get(number, 0)
        match request.kind:
            case "grant":
                number = number or next(n for n in range(1, len(self.leases) + 2) if n not in self.leases)
                if number in self.leases:
                    raise Refused(9, "etcdserver: lease already exists")
                self.leases[number] = min(max(numbers[0], 1), LONGEST_TTL)
                return f"grant {number} {self.leases[number]}"
            case "revoke":
                if number not in self.leases:
                    raise Refused(5, "etcdserver: requested lease not found")
                self.end_lease(number)
                return "revoke"
            case "keepalive":
                return f"keepalive {number} {ttl}"
            case "timetolive":
                keys = [spelled(key) for key in self.attached(number)] if request.words[1] == "k" and ttl else []
                return f"timetolive {number} {ttl or -1} {ttl} " + list_text(keys)
            case "leases":
                return "leases " + list_text([str(n) for n in sorted(self.leases)])
            case "compact":
                if number <= self.compacted:
                    raise Refused(*COMPACTED)
                if number > self.newest():
                    raise Refused(*FUTURE)
                self.compacted = number
                return "compact"
        raise ValueError(f"no call: {request.kind}")

    def attached(self, lease):
        return [key for key, record in self.records(self.newest()).items() if record.lease == lease]

    def end_lease(self, number):
        self.change([Change(key, None, 0) for key in self.attached(number)])
        del self.leases[number]


def holds(compare, records):
    """Whether it holds of each key of its range; of a range without keys, of a record of zeros, whose value nothing compares with."""
    found = [record for record in records.values() if is_in(compare.key, compare.end, record.key)]
    if not found and compare.target == "value":
        return False
    return all(
        {"eq": x == compare.operand, "ne": x != compare.operand, "gt": x > compare.operand, "lt": x < compare.operand}[compare.relation]
        for x in (getattr(record, compare.target) for record in found or [Record(b"", b"", 0, 0, 0, 0)])
    )


def refuse_first(request):
    """The refusals of a whole request before anything of it runs, in their order."""
    if exceeds(request, MOST_OPERATIONS):
        raise Refused(3, "etcdserver: too many operations in txn request")
    if lacks_key(request):
        raise Refused(3, "etcdserver: key is not provided")
    if repeats_key(request):
        raise Refused(3, "etcdserver: duplicate key given in txn request")


def exceeds(request, limit):
    if not isinstance(request, Txn):
        return False
    longest = max(map(len, request))
    return longest > limit or any(exceeds(op, limit - longest) for op in request.success + request.failure)


def lacks_key(request):
    if isinstance(request, Txn):
        return any(map(lacks_key, request.compares + request.success + request.failure))
    return request.key == b""


def repeats_key(request):
    if not isinstance(request, Txn):
        return False
    for ops in request.success, request.failure:
        keys = [op.key for op in ops if isinstance(op, Put)]
        if len(set(keys)) < len(keys) or any(isinstance(op, Delete) and any(is_in(*op[:2], k) for k in keys) for op in ops):
            return True
    return any(map(repeats_key, request.success + request.failure))
