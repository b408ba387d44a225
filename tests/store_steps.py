#!/usr/bin/env python3
"""Says whether the answers of a table of steps on a store are those of a plain one, which keeps its whole history as a list.

    python3 store_steps.py crates/core_trial/stdin

The table is the file's part from `table stores` to the next table: steps, one a line, and below most a line `= ANSWER`. What a step is
stands at the top of crates/core_trial/src/main.rt. How many versions a store keeps is no question to a plain one, which keeps all. Each
answer that differs is printed; ends with 1 where there is one, or no answer.
"""
import sys
from dataclasses import dataclass
from itertools import takewhile

from plain_store import Record, Store, Words, is_in, list_text, record_text, spelled


@dataclass
class Watch:
    member: int
    key: bytes
    end: bytes
    start: int
    flags: str
    next: int = 0  # the revision from which it goes on, and 0 before it was created

    def concerns(self, change):
        return is_in(self.key, self.end, change.key) and ("d" if change.value is None else "u") not in self.flags


class Steps:
    """A store of several members with its watches, on which steps are taken."""

    def __init__(self):
        self.renew(1)

    def renew(self, members):
        self.store = Store()
        self.members = members
        self.watches = []

    def take(self, line):
        """What comes of a step, and None where that is no question."""
        word, _, rest = line.partition(" ")
        words = Words(rest)
        match word:
            case "store":
                return self.renew(words.number())
            case "kept":
                return None
            case "exec":
                return self.execute(words.number(), words)
            case "compact":
                return self.execute(1, Words(f"{line} -"))
            case "expire":
                return self.expire(words.number())
            case "apply":
                return self.apply(words.number(), words.number())
            case "open":
                self.watches.append(Watch(words.number(), words.bytes(), words.bytes(), words.number(), words.word()))
                return str(len(self.watches))
            case "push" | "progress":
                number = words.number()
                if not 0 < number <= len(self.watches):
                    return f"no watch {number}"
                return (self.push if word == "push" else self.progress)(number, self.watches[number - 1])
            case "times":
                return self.times(words.number(), words.number(), words.number(), " ".join(words.rest))
        raise ValueError(f"no step: {line}")

    def execute(self, member, words):
        return self.store.execute(words.request(), member)

    def times(self, count, number, member, request):
        came = ""
        for _ in range(count):
            self.execute(member, Words(request))
            came = self.push(number, self.watches[number - 1])
        return came

    def expire(self, lease):
        if lease not in self.store.leases:
            return f"no lease {lease}"
        self.store.end_lease(lease)
        return "done"

    def apply(self, member, revision):
        if not 0 < member <= self.members:
            return f"no member {member}"
        applied, newest = self.store.applied[member], self.store.newest()
        if not applied <= revision <= newest:
            return f"applied is {applied} and the newest revision {newest}"
        self.store.applied[member] = revision
        return "done"

    def header(self, watch):
        return f"1.{watch.member}.{self.store.newest()}.1"

    def push(self, number, watch):
        if watch.next == 0:
            watch.next = watch.start or self.store.newest() + 1
            return f"created {self.header(watch)}"
        if watch.next < self.store.compacted:
            return f"canceled {self.header(watch)} {self.store.compacted}"
        events = self.events(watch)
        if not events:
            return f"nothing to push for watch {number}"
        watch.next = events[-1][0] + 1
        return f"events {self.header(watch)} " + list_text([text for _, text in events])

    def progress(self, number, watch):
        if "n" not in watch.flags:
            return f"watch {number} asked for no progress"
        newest = self.store.newest()
        if watch.next < max(self.store.compacted, 1) or self.events(watch):
            return f"watch at {watch.next} is not synced with {newest}"
        watch.next = max(watch.next, newest + 1)
        return f"events {self.header(watch)} 0"

    def events(self, watch):
        """The events that the watch is to be given, each as its revision and its text."""
        found, events = {}, []
        for revision, changes in enumerate(self.store.revisions, 2):
            for change in changes:
                old = found.pop(change.key, None)
                if change.value is not None:
                    create, version = (old.create, old.version + 1) if old else (revision, 1)
                    found[change.key] = Record(change.key, change.value, create, revision, version, change.lease)
                if revision >= watch.next and watch.concerns(change):
                    events.append((revision, self.event_text(watch, revision, change.key, old, found.get(change.key))))
        return events

    def event_text(self, watch, revision, key, old, new):
        is_visible = old and "p" in watch.flags and (self.store.compacted < revision or self.store.compacted <= old.mod)
        change = f"put {record_text(new)}" if new else f"delete {spelled(key)} {revision}"
        return f"{change} + {record_text(old)}" if is_visible else f"{change} -"


def main(path):
    with open(path) as file:
        lines = file.read().splitlines()
    lines = takewhile(lambda line: not line.startswith("table "), lines[lines.index("table stores") + 1 :])
    steps, step, came = Steps(), "", None
    answers = differ = 0
    for line in lines:
        if line.startswith("= "):
            answers += 1
            if came is not None and came.rstrip() != line[2:]:
                differ += 1
                print(f"store steps: {step}\n  has {line[2:]}\n  and not {came}", file=sys.stderr)
        elif line and not line.startswith("#"):
            step, came = line, steps.take(line)
    print(f"store steps: {answers} answers, {differ} differ")
    return 1 if differ or not answers else 0


if __name__ == "__main__":
    sys.exit(main(sys.argv[1]))
