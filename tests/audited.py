#!/usr/bin/env python3
"""Compares `audit` of the command with the plain checker of the same rules (plain_audit.py).

    python3 audited.py [--changed N] [--seed S] [PROGRAM]

Its cases are the rows below, the transcripts of the examples, and of these N changed ones (100 where it isn't said): an item is left out,
told twice, exchanged with the next one or given to another proxy, or a number or a byte is changed. Of each case the status, what is
written and what is told have to be the same. It says how often each rule was the one that refused. Without a program the rows alone are
compared, with the plain checker.

With `--explain` the same has to come, and behind it the refused line as it stands, a rule, what was found, and lines before it, each as it
stands. An item that is said to have been expected has to keep the rules in the refused one's place. Of the rows what was found is worked
out in words below.
"""
import random
import re
import subprocess
import sys
from collections import Counter
from pathlib import Path

from plain_audit import audit

HERE = Path(__file__).resolve().parent
LEASE = 2**62

PUT_GET = (HERE.parent / "examples/put_get.transcript").read_text().splitlines()
WATCH = """world 1 ~ ~
started 1
asked 1 1 watch a ~ 0 n
opened 1 1 1 watch a ~ 0 pn
pushed 1 created 1.1.1.1
delivered 1
asked 1 2 put a x 0 -
sent 1 1 1 2 put a x 0 -
executed 1 ok 1.1.2.1 put -
answered 1
reply 1 2 ok 1.1.2.1 put -
pushed 1 events 1.1.2.1 1 put a x 2 2 1 0 -
delivered 1
taken 1 1 created 1.1.1.1
taken 1 1 events 1.1.2.1 1 put a x 2 2 1 0 -""".splitlines()
CACHED = (HERE.parent / "examples/cached_read.transcript").read_text().splitlines()
UNSENT = PUT_GET[:8] + PUT_GET[11:]
SNAPSHOT = PUT_GET[:7] + ["asked 1 2 txn 1 value eq a ~ x 1 range a ~ 0 0 - 0", "reply 1 2 ok 1.1.2.1 txn t 1 range 1 - 1 a x 2 2 1 0"]
GRANT = ["world 1 ~ ~", "started 1", f"sent 1 1 1 0 grant 60 {LEASE}", f"executed 1 ok 1.1.1.1 grant {LEASE} 60", f"expired {LEASE}"]
BEHIND = (
    WATCH[:6] + WATCH[13:14]
    + """sent 1 1 1 0 put b x 0 -
executed 1 ok 1.1.2.1 put -
pushed 1 events 1.1.2.1 0
delivered 1
taken 1 1 events 1.1.2.1 0
sent 1 2 1 0 put b y 0 -
executed 2 ok 1.1.3.1 put -
sent 1 3 1 0 compact 3 -
executed 3 ok 1.1.3.1 compact
opened 1 2 1 watch a ~ 1 pn
pushed 2 created 1.1.3.1
pushed 2 canceled 1.1.3.1 3
taken 1 1 canceled 1.1.3.1 3""".splitlines()
)


def at(lines, number, text):
    """The lines with this one in place of that of this number, from 1."""
    return lines[: number - 1] + [text] + lines[number:]


# what `--explain` says of a read that was answered without a call
READ = "the read of key `a` was answered without a call; "

# The lines, and what comes: three counts, or what is told, and then what `--explain` says that was found, and the numbers of the lines that
# it rests on.
ROWS = [
    (PUT_GET, "12 0 0"),
    (at(PUT_GET, 10, "executed 2 ok 1.1.2.1 range 1 - 1 a y 2 2 1 0"), "line 10: Answer 2", "the store's answer to call 2 has another body", [5, 9]),
    (at(PUT_GET, 10, "executed 2 ok 1.1.3.1 range 1 - 1 a x 2 2 1 0"), "line 10: Answer 2",
     "the store executed call 2 at revision 2, the answer's header shows 3", [5, 9]),
    (at(PUT_GET, 5, "executed 1 err 5 x"), "line 5: Answer 1", "the store did what call 1 asked, the answer refuses it", [4]),
    (at(CACHED, len(CACHED), re.sub(r"ok \S+", "ok 1.1.1.1", CACHED[-1])), "line 24: Unsent 2",
     READ + "proxy 1 was given revision 2 before in this life, the header shows 1", [21, 23]),
    ([], "0 0 0"),
    (["started 1"], "line 1: Order 1", "no world stands before the item", []),
    (["world 1 ~ ~"] * 2, "line 2: Order 0", "the world is made already", [1]),
    (PUT_GET[:1] + PUT_GET[2:], "line 2: Order 1", "proxy 1 wasn't started", []),
    (PUT_GET[:2] + PUT_GET[1:], "line 3: Order 1", "proxy 1 was started already", [2]),
    (at(PUT_GET, 4, "sent 1 2 1 1 put a x 0 -"), "line 4: Order 2", "the next call is number 1, and this one is 2", []),
    (at(PUT_GET, 4, "sent 1 1 2 1 put a x 0 -"), "line 4: Order 1", "the world has no member 2; its members are numbered up to 1", [1]),
    (at(PUT_GET, 4, "sent 1 1 1 1 watch a ~ 0 -"), "line 4: Order 1", "call 1 opens a watch", []),
    (PUT_GET[:3] + PUT_GET[2:], "line 4: Order 1", "proxy 1 has ticket 1 in this life already", [3]),
    (PUT_GET[:4] + [PUT_GET[5], PUT_GET[4]] + PUT_GET[6:], "line 5: Order 1", "call 1 wasn't executed", [4]),
    (PUT_GET[:3] + PUT_GET[4:], "line 4: Order 1", "call 1 wasn't sent", []),
    (PUT_GET[:5] + PUT_GET[4:], "line 6: Order 1", "call 1 was executed already", [4, 5]),
    (PUT_GET[:6] + ["lost 1"], "line 7: Order 1", "call 1 was answered or lost already", [4, 6]),
    (PUT_GET[:7] + PUT_GET[6:], "line 8: Order 1", "ticket 1 of proxy 1 was replied already", [3, 7]),
    (PUT_GET[:7] + ["left 1 3"], "line 8: Order 3", "proxy 1 has no ticket 3 in this life", [2]),
    (PUT_GET[:7] + ["pending 1 1"], "line 8: Order 1", "ticket 1 of proxy 1 wasn't asked as a watch", [3]),
    (["world 1 ~ ~", "started 1", "clock 1 5", "clock 1 4"], "line 4: Order 1", "the clock of proxy 1 read 5 ms, and now 4 ms", [3]),
    (UNSENT, "9 1 0"),
    (UNSENT + PUT_GET[8:11], "12 0 0"),
    (at(UNSENT, 9, "reply 1 2 ok 1.1.2.1 range 0 - 0"), "line 9: Unsent 2", READ + "the store then held revision 2, the reply shows no record", [5, 8]),
    (at(UNSENT, 9, "reply 1 2 ok 1.1.2.1 range 1 - 1 a x 1 1 1 0"), "line 9: Unsent 2",
     READ + "the store then held revision 2, the reply shows 1", [5, 8]),
    (at(UNSENT, 9, "reply 1 2 ok 1.1.2.1 range 1 - 1 a y 2 2 1 0"), "line 9: Unsent 2",
     READ + "the store then held revision 2, the reply shows another record of it", [5, 8]),
    (at(UNSENT, 9, "reply 1 2 ok 1.1.3.1 range 1 - 1 a x 2 2 1 0"), "line 9: Unsent 2",
     READ + "the store was at revision 2, the header shows 3", [5, 8]),
    (at(UNSENT, 8, "asked 1 2 range a ~ 0 0 s"), "line 9: Unsent 2",
     "the read was answered without a call, and isn't a plain one: of one key, at the newest revision, linearizable, with its whole record", [8]),
    (SNAPSHOT, "9 0 0"),
    (at(SNAPSHOT, 9, "reply 1 2 ok 1.1.2.1 txn f 0"), "line 9: Unsent 2",
     "the transaction was answered without a call; the store answers otherwise to it", [8]),
    (PUT_GET[:5] + ["restarted 1"] + PUT_GET[5:], "line 7: Order 1", "call 1 was sent in an earlier life of proxy 1", [4, 6]),
    (PUT_GET + ["restarted 1", PUT_GET[2]], "14 0 0"),
    (WATCH, "15 0 1"),
    (WATCH[:13] + WATCH[14:], "line 14: Watch 1", "the watch has taken nothing yet, and `created` comes first", [3]),
    (WATCH + WATCH[13:14], "line 16: Watch 1", "the watch has taken `created` already", [3, 14]),
    (WATCH + WATCH[14:], "line 16: Watch 1",
     "the store has no further event for the watch, the message brings one of revision 2", [3, 14, 15]),
    (at(WATCH, 15, "taken 1 1 events 1.1.2.1 1 put a y 2 2 1 0 -"), "line 15: Watch 1",
     "the watch's next event is another one of revision 2", [3, 9, 14]),
    (at(WATCH, 12, "pushed 1 events 1.1.2.1 1 put a y 2 2 1 0 -"), "line 12: Push 1", "the store has another message for stream 1", [4, 5, 9]),
    (at(WATCH, 12, "pushed 1 events 1.1.2.1 0"), "line 12: Push 1", "the store has no such message for stream 1", [4, 5, 9]),
    (WATCH + ["delivered 1"], "line 16: Order 1", "no pushed message of stream 1 waits", [4, 12]),
    (WATCH + ["cut 1", "closed 1 1"], "line 17: Order 1", "stream 1 was cut or closed already", [4, 16]),
    (WATCH + ["taken 1 1 events 1.1.1.1 0"], "line 16: Watch 1",
     "the message tells progress up to revision 1, and an event of a later one was taken", [3, 15]),
    (WATCH + ["taken 1 1 events 1.1.2.1 0"], "16 0 1"),
    (WATCH + ["taken 1 1 events 1.1.3.1 0"], "line 16: Watch 1",
     "the store was at revision 2, the message tells progress up to 3", [3, 9]),
    (at(WATCH, 15, "taken 1 1 events 1.1.2.1 0"), "line 15: Watch 1",
     "the message tells progress up to revision 2, and the event of revision 2 wasn't taken", [3, 9, 14]),
    (at(WATCH, 15, "taken 1 1 events 1.1.2.1 1 put a x 2 2 1 0 + a w 1 1 1 0"), "line 15: Watch 1",
     "the event of revision 2 brings the record before it, which the watch didn't ask for", [3, 9, 14]),
    (WATCH + ["taken 1 1 canceled 1.1.2.1 5"], "line 16: Watch 1", "no cancellation with compaction revision 5 was pushed into a stream", [3]),
    (GRANT, "line 5: Early 0 60000",
     f"the clock of proxy 1 reads 0 ms, and the session of lease {LEASE} lives until 60000 ms at the least", [3, 4]),
    (GRANT[:4] + ["clock 1 60000"] + GRANT[4:], "6 0 0"),
    (["world 1 ~ ~", "expired 7"], "line 2: Order 7", "the store has no lease 7", []),
    (["world 1 ~ ~", "applied 2 1"], "line 2: Order 2", "the world has no member 2; its members are numbered up to 1", [1]),
    (["world 1 ~ ~", "applied 1 2"], "line 2: Order 1", "the store was at revision 1, which is below 2", []),
    (["world 1 ~"], "line 1: BadLine 4", "word 4 is wrong, missing or too many", []),
    (["world 1 ~ ~", "started 1", "sent 1 9 1 0 leases x"], "line 3: BadLine 7", "word 7 is wrong, missing or too many", []),
    (BEHIND, "line 20: Watch 1", "the watch's next revision is 3, which isn't below the compaction revision 3", [3, 7, 12, 19]),
]


def answer(found):
    status, written, told = found
    return " ".join(re.findall(r"\d+", written)) if status == 0 else told.strip()


def bytes_of(lines):
    return "".join(line + "\n" for line in lines).encode()


def changed(lines, draw):
    """The lines with one change."""
    n = draw.randrange(len(lines))
    words = lines[n].split(" ")
    match draw.choice(["left out", "twice", "exchanged", "other proxy", "number", "number", "byte"]):
        case "left out":
            return lines[:n] + lines[n + 1 :]
        case "twice":
            return lines[: n + 1] + lines[n:]
        case "exchanged":
            return lines[:n] + lines[n + 1 : n + 2] + [lines[n]] + lines[n + 2 :]
        case "other proxy" if len(words) > 1 and words[1].isdigit():
            return at(lines, n + 1, " ".join([words[0], str(draw.randint(1, 3)), *words[2:]]))
        case "byte":
            place = draw.randrange(len(lines[n]))
            return at(lines, n + 1, lines[n][:place] + draw.choice("abxk0129 ~%-.") + lines[n][place + 1 :])
    numbers = [k for k, word in enumerate(words) if re.search(r"\d", word)]
    if numbers:
        k = draw.choice(numbers)
        parts = list(re.finditer(r"\d+", words[k]))
        part = draw.choice(parts)
        number = max(0, int(part[0]) + draw.choice([-1, 1, 1, 2]))
        words[k] = words[k][: part.start()] + str(number) + words[k][part.end() :]
    return at(lines, n + 1, " ".join(words))


def run(program, data, *options):
    done = subprocess.run([program, "audit", *options], input=data, capture_output=True, timeout=120)
    return done.returncode, done.stdout.decode(), done.stderr.decode()


def shown(line):
    """A line that isn't the text of an item, as it is shown."""
    shown = "".join(chr(byte) if 0x20 <= byte < 0x7F else "?" for byte in line[:200])
    return shown + (".." if len(line) > 200 else "")


def faults_of(data, due, found):
    """What is wrong with what `--explain` comes to, where a plain audit comes to `due`."""
    if found[:2] != due[:2] or not found[2].startswith(due[2]):
        return [f"it comes to {found[0]}, {found[2]!r}"]
    told = found[2][len(due[2]) :]
    if due[0] not in (1, 9):
        return [f"it says more: {told!r}"] if told else []
    lines = data.split(b"\n")
    number = int(due[2].split(" ")[1].rstrip(":"))
    line = lines[number - 1]
    labels = [part.partition(": ") for part in told.splitlines()]
    kinds = [label for label, _, _ in labels]
    faults = [] if told.endswith("\n") else ["it doesn't end a line"]
    front = ["item", "rule", "expected", "found"] if "expected" in kinds else ["item", "rule", "found"]
    if kinds[: len(front)] != front:
        return faults + [f"its lines are {kinds}"]
    said = {label: text for label, _, text in labels[: len(front)]}
    if said["item"] != (line.decode() if due[0] == 9 else shown(line)):
        faults.append(f"its item is {said['item']!r}")
    if not said["rule"] or not said["found"]:
        faults.append("it names no rule, or nothing that was found")
    places = []
    for label, _, text in labels[len(front) :]:
        place = int(label.removeprefix("rests on line "))
        if not 0 < place < number or lines[place - 1] != text.encode():
            faults.append(f"it rests on {label}: {text}")
        places.append(place)
    if places != sorted(set(places)):
        faults.append(f"it rests on lines {places}")
    if "expected" in said:
        mended = b"\n".join(lines[: number - 1] + [said["expected"].encode()]) + b"\n"
        if audit(mended)[0] != 0:
            faults.append(f"what it expects comes to {audit(mended)}")
    elif due[2].split(" ")[2] == "Answer":
        faults.append("it expects no answer")
    return faults


def is_said(told, found, places):
    """Whether `--explain` tells that this was found, and the lines of these numbers."""
    lines = told.splitlines()
    rests = [int(line.split(" ")[3].rstrip(":")) for line in lines if line.startswith("rests on ")]
    return f"found: {found}" in lines and rests == places


def main(words):
    options = {"--changed": 100, "--seed": 1}
    while words and words[0] in options:
        options[words[0]], words = int(words[1]), words[2:]
    program = words[0] if words else None
    failures, refused = 0, Counter()
    cases = []
    for lines, wanted, *said in ROWS:
        found = answer(audit(bytes_of(lines)))
        if found != wanted:
            print(f"audited: of a row came {found}, and not {wanted}: {lines[-1:]}", file=sys.stderr)
            failures += 1
        cases.append(bytes_of(lines))
        if program and said and not is_said(told := run(program, bytes_of(lines), "--explain")[2], *said):
            print(f"audited: of a row is said {told!r}, and not {said}", file=sys.stderr)
            failures += 1
    if program:
        draw = random.Random(options["--seed"])
        transcripts = [path.read_text().splitlines() for path in sorted((HERE.parent / "examples").glob("*.transcript"))]
        cases += [bytes_of(lines) for lines in transcripts]
        cases += [bytes_of(changed(draw.choice(transcripts), draw)) for _ in range(options["--changed"])]
        cases += [data[:-1] for data in cases[:3]]
    for data in cases:
        due = audit(data)
        refused[due[2].split(" ")[2] if due[0] in (1, 9) else str(due[0])] += 1
        if program and (found := run(program, data)) != due:
            print(f"audited: came {found}, and not {due}:\n{data.decode('latin-1')}", file=sys.stderr)
            failures += 1
        if program and (faults := faults_of(data, due, run(program, data, "--explain"))):
            print(f"audited: explained, {'; '.join(faults)}:\n{data.decode('latin-1')}", file=sys.stderr)
            failures += 1
    print("audited:", ", ".join(f"{why} {count}" for why, count in sorted(refused.items())))
    return failures != 0


if __name__ == "__main__":
    sys.exit(main(sys.argv[1:]))
