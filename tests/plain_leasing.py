"""The calls of a proxy that leases, and what it refuses by itself, as docs/PROTOCOL.md and docs/FORMATS.md have them.

Keys are without the namespace, but in what was sent. Where leasing is off the leasing prefix is empty.
"""
from plain_namespace import prefix_end, range_under, request_under
from plain_store import MOST_OPERATIONS, Compare, Delete, Other, Put, Range, Txn, is_in, lacks_key

FIRST_SESSION = 2**62  # lease numbers from here on are sessions
REVOKE = b"REVOKE"

# ---- kinds of requests


def is_session(lease):
    return lease >= FIRST_SESSION


def lease_named(request):
    """The lease of a call about one, or 0."""
    if not isinstance(request, Other):
        return 0
    words = {"grant": 1, "revoke": 0, "keepalive": 0, "timetolive": 0}
    return int(request.words[words[request.kind]]) if request.kind in words else 0


def is_keepalive(request):
    return isinstance(request, Other) and request.kind == "keepalive"


def written_ranges(request):
    """The distinct ranges that a write writes, rising, in a transaction those of both branches."""
    match request:
        case Put(key):
            return [(key, b"")]
        case Delete(key, end):
            return [(key, end)]
        case Txn(_, success, failure):
            return sorted({r for op in success + failure for r in written_ranges(op)})
    return []


def covers(ranges, key):
    return any(is_in(*r, key) for r in ranges)


def leasing_range(leasing):
    return leasing, prefix_end(leasing)


def is_plain(request):
    """A read of one key as it is now, by which the whole record is shown."""
    return isinstance(request, Range) and request._replace(key=b"", limit=0) == Range(b"", b"", 0, 0, "-", [])


def is_leased_read(leasing, request):
    return is_plain(request) and not is_in(*leasing_range(leasing), request.key)


def is_snapshot(request):
    """A transaction that reads single keys and compares single keys, and names one."""
    if not isinstance(request, Txn) or max(map(len, request)) > MOST_OPERATIONS:
        return False
    return any(request) and all(not c.end for c in request.compares) and all(map(is_plain, request.success + request.failure))


# ---- refusals


def refusal_of(leasing, request):
    """The code and the text with which a proxy refuses the request before it does anything else, or none."""
    operations = request.success + request.failure if isinstance(request, Txn) else [request]
    for op in operations:
        if isinstance(op, Put) and "i" in op.flags:
            return 12, "proxy: unsupported: ignore_lease"
        if isinstance(op, Txn):
            return 12, "proxy: unsupported: request_txn"
    if not isinstance(request, Other) and lacks_key(request):
        return 3, "etcdserver: key is not provided"
    if leasing and touches(leasing_range(leasing), request, operations):
        return 7, "proxy: key is in the leasing range"
    if is_session(lease_named(request)) or any(isinstance(op, Put) and is_session(op.lease) for op in operations):
        return 7, "proxy: lease number is reserved"
    if leasing and isinstance(request, Txn) and len(written_ranges(request)) > MOST_OPERATIONS:
        return 3, "etcdserver: too many operations in txn request"
    return None


def touches(keys, request, operations):
    """Whether it writes there: a delete of a range that is no part of a transaction goes round these keys."""
    written = [op for op in operations if isinstance(op, Put | Delete)]
    if any(is_in(*keys, op.key) for op in written):
        return True
    return isinstance(request, Txn) and any(overlap(op[:2], keys) for op in written if isinstance(op, Delete))


def overlap(one, other):
    """Whether the lowest key of one of them is in both."""
    lowest = [b"" if r == (b"\0", b"\0") else r[0] for r in (one, other)]
    return any(is_in(*one, key) and is_in(*other, key) for key in lowest)


# ---- calls


def read(key, end=b""):
    return Range(key, end, 0, 0, "-", [])


def acquire(leasing, key, session):
    compares = [Compare("create", "eq", leasing + key, b"", 0), Compare("lease", "eq", key, b"", 0)]
    return Txn(compares, [read(key), Put(leasing + key, b"", session, "-")], [read(key), read(leasing + key)])


def guarded(leasing, request, created):
    """The write behind the ownership keys of what it writes; `created` has the revision with which each key's is compared."""
    owners = [(key, range_under(leasing, key, end)) for key, end in written_ranges(request)]
    compares = [Compare("create", "eq", *owner, created.get(key, 0)) for key, owner in owners]
    return Txn(compares, write_operations(leasing, request), [read(*owner) for _, owner in owners])


def write_operations(leasing, request):
    if isinstance(request, Delete):
        return [Delete(*part, request.flags) for part in parts(leasing, request.key, request.end)]
    return [request]


def parts(leasing, key, end):
    """The range, or what it has before and behind the leasing range."""
    start, stop = leasing_range(leasing)
    if not end or not overlap((key, end), (start, stop)):
        return [(key, end)]
    found = []
    before = start if end == b"\0" else min(end, start)
    if key < before and before != b"\0":
        found.append((key, before))
    if stop != b"\0" and (end == b"\0" or max(key, stop) < end):
        found.append((max(key, stop), end))
    return found


def ask_revoke(leasing, key, create):
    owner = leasing + key
    return Txn([Compare("create", "eq", owner, b"", create)], [Put(owner, REVOKE, 0, "i")], [])


# ---- answers, by their bodies


def fits(operation, body):
    """Whether it can be the body of such an operation."""
    match operation, body:
        case Range(key, end), ("range", _, _, records):
            return (end != b"" or len(records) <= 1) and all(is_in(key, end, record.key) for record in records)
        case (Put(), ("put", *_)) | (Delete(), ("delete", *_)):
            return True
        case Txn(_, success, failure), ("txn", succeeded, bodies):
            ops = success if succeeded else failure
            return len(ops) == len(bodies) and all(map(fits, ops, bodies))
    return False


def claimed(leasing, key, body):
    """Of an answer to an acquire: whether the key was won, and the body of its read; none where it can't be one."""
    if not fits(acquire(leasing, key, 0), body):
        return None
    _, succeeded, bodies = body
    records = bodies[0][3]
    return succeeded, ("range", len(records), "-", records)


def written(leasing, request, body):
    """Of an answer to a write behind its ownership keys: what its operations gave; none where it wasn't done or can't be one."""
    if not fits(guarded(leasing, request, {}), body) or not body[1]:
        return None
    if isinstance(request, Delete) and request.end:
        return "delete", sum(part[1] for part in body[2]), [record for part in body[2] for record in part[2]]
    return body[2][0]


# ---- what was sent


def is_revoke(namespace, leasing, sent):
    """It asks the owner of some key to give that up."""
    prefix = namespace + leasing
    if not isinstance(sent, Txn) or len(sent.compares) != 1 or not sent.compares[0].key.startswith(prefix):
        return False
    key = sent.compares[0].key[len(prefix) :]
    return sent == request_under(namespace, ask_revoke(leasing, key, sent.compares[0].operand))


def is_guarded(namespace, leasing, request, sent):
    """It is the write behind its ownership keys, which are compared with whatever revisions."""
    ranges = written_ranges(request)
    if not isinstance(sent, Txn) or not ranges or len(sent.compares) != len(ranges):
        return False
    created = {key: compare.operand for (key, _), compare in zip(ranges, sent.compares)}
    return sent == request_under(namespace, guarded(leasing, request, created))


def is_acquire(namespace, leasing, request, sent):
    """It is the acquire of the key that is read, under some session."""
    if not isinstance(request, Range) or not isinstance(sent, Txn) or len(sent.success) != 2:
        return False
    session = getattr(sent.success[1], "lease", 0)
    return sent == request_under(namespace, acquire(leasing, request.key, session))


def is_passed_on(namespace, request, sent):
    """It is the request itself; one of a grant that leaves its number open has one below the sessions'."""
    if isinstance(request, Other) and request.kind == "grant" and request.words[1] == "0":
        chosen = lease_named(sent)
        return 0 < chosen < FIRST_SESSION and sent == Other("grant", [request.words[0], str(chosen)])
    return sent == request_under(namespace, request)


def reply_to(namespace, leasing, request, sent, body):
    """The body with which it is replied, where this was sent for it and the answer is heard so; none where it is no such call."""
    if is_passed_on(namespace, request, sent):
        return body
    if is_acquire(namespace, leasing, request, sent):
        claim = claimed(leasing, request.key, body)
        return claim and claim[1]
    return written(leasing, request, body) if is_guarded(namespace, leasing, request, sent) else None
