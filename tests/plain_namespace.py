"""What a namespace does to requests, answers and the messages of watches: every key is under its prefix there, and without it here.

Bodies and messages are read from their texts, a body as its kind and what it has.
"""
from typing import NamedTuple

from plain_store import Delete, Put, Range, Record, Txn


class Foreign(Exception):
    """A key isn't the namespace's."""


class Event(NamedTuple):
    is_put: bool
    key: bytes
    rest: tuple  # of the record, or none
    revision: int
    before: tuple | None  # the record before, its key first


def read_record(words):
    return words.bytes(), (words.bytes(), *(words.number() for _ in range(4)))


def read_event(words):
    if is_put := words.word() == "put":
        key, rest = read_record(words)
        revision = rest[2]
    else:
        key, rest, revision = words.bytes(), (), words.number()
    before = read_record(words) if words.word() == "+" else None
    return Event(is_put, key, rest, revision, before)


def read_message(words):
    """Its kind, the revision of its header, its events and its compaction."""
    kind, revision = words.word(), int(words.word().split(".")[2])
    events = tuple(words.list(lambda: read_event(words))) if kind == "events" else ()
    return kind, revision, events, words.number() if kind == "canceled" else 0


def read_body(words):
    kind = words.word()
    match kind:
        case "range":
            return kind, words.number(), words.word(), words.list(lambda: whole_record(words))
        case "put":
            return kind, whole_record(words) if words.word() == "+" else None
        case "delete":
            return kind, words.number(), words.list(lambda: whole_record(words))
        case "txn":
            return kind, words.word() == "t", words.list(lambda: read_body(words))
        case "timetolive":
            return kind, words.word(), words.word(), words.word(), words.list(words.bytes)
    return kind, *words.rest


def whole_record(words):
    key, rest = read_record(words)
    return Record(key, *rest)


# ---- under it


def prefix_end(prefix):
    """The end of the range of all keys with the prefix."""
    prefix = prefix.rstrip(b"\xff")
    return prefix[:-1] + bytes([prefix[-1] + 1]) if prefix else b"\0"


def range_under(prefix, key, end):
    return prefix + key, prefix_end(prefix) if end == b"\0" else end and prefix + end


def request_under(prefix, request):
    match request:
        case Put():
            return request._replace(key=prefix + request.key)
        case Range() | Delete():
            return both_under(prefix, request)
        case Txn(compares, success, failure):
            under = [[request_under(prefix, op) for op in ops] for ops in (success, failure)]
            return Txn([both_under(prefix, compare) for compare in compares], *under)
    return request


def both_under(prefix, asked):
    key, end = range_under(prefix, asked.key, asked.end)
    return asked._replace(key=key, end=end)


# ---- without it


def key_without(prefix, key):
    if not key.startswith(prefix):
        raise Foreign
    return key[len(prefix) :]


def record_without(prefix, record):
    return record._replace(key=key_without(prefix, record.key))


def body_without(prefix, body):
    match body:
        case "range", *counts, records:
            return "range", *counts, [record_without(prefix, record) for record in records]
        case "put", before:
            return "put", before and record_without(prefix, before)
        case "delete", deleted, records:
            return "delete", deleted, [record_without(prefix, record) for record in records]
        case "txn", succeeded, bodies:
            return "txn", succeeded, [body_without(prefix, one) for one in bodies]
        case "timetolive", *numbers, keys:
            # of a lease's keys those of other namespaces are left out
            return "timetolive", *numbers, [key[len(prefix) :] for key in keys if key.startswith(prefix)]
    return body


def events_without(prefix, events):
    told = []
    for event in events:
        before = event.before and (key_without(prefix, event.before[0]), event.before[1])
        told.append(event._replace(key=key_without(prefix, event.key), before=before))
    return tuple(told)
