#!/usr/bin/env python3
"""Replays each script of replayed_scripts.txt by the built program, and says which comes to another transcript or ending.

    python3 replayed_scripts.py PROGRAM

A row of that file is the lines of a script, each as `> LINE`, with what the transcript gains below it, and ends with `= ENDING`: `ends`,
`limit`, or `line NUMBER: REFUSAL` where the last line is refused. Each row is replayed

    in pieces        with one read for the whole script, and with reads of 7 bytes and of a single byte;
    reads that fail  where the script is cut off after each 64 bytes by a read that fails;
    full outputs     where the output has room for each number of 64 bytes, and no more.

What a failed read or a full output leaves is a prefix of the transcript. Ends with 1 where a row differs.
"""
import os
import resource
import signal
import socket
import subprocess
import sys
import tempfile
from pathlib import Path
from typing import NamedTuple

STEP = 64  # bytes from one cut to the next
READ_FAULT, WRITE_FAULT = (3, "read fault\n"), (4, "write fault\n")


class Row(NamedTuple):
    line: int  # where its ending is in the file
    script: bytes
    transcript: bytes
    ending: tuple  # the exit status, and what the errors have


class Left(NamedTuple):
    ending: tuple
    output: bytes


def ending_of(text):
    if text == "ends":
        return 0, ""
    return (6 if text == "limit" else 1), text + "\n"


def rows_of(path):
    script, transcript = [], []
    for number, line in enumerate(path.read_text().splitlines(), 1):
        if line.startswith("= "):
            yield Row(number, "".join(script).encode(), "".join(transcript).encode(), ending_of(line[2:]))
            script, transcript = [], []
        elif line.startswith("> "):
            script.append(line[2:] + "\n")
        elif line and not line.startswith("#"):
            transcript.append(line + "\n")


def send(end, pieces):
    """Each piece is a read of its own. A program that has ended reads no more."""
    try:
        for piece in pieces:
            end.send(piece)
    except (BrokenPipeError, ConnectionResetError):
        pass
    end.close()


def limit_output(room):
    signal.signal(signal.SIGXFSZ, signal.SIG_IGN)
    resource.setrlimit(resource.RLIMIT_FSIZE, (room, room))


def replay(program, kind, pieces, fails=False, room=None):
    """Replays these pieces by sockets of this kind, where the read behind the last piece fails or finds the end."""
    ours, theirs = socket.socketpair(socket.AF_UNIX, kind)
    if fails:
        theirs.send(b"unread")  # an end that is closed with bytes unread fails the other's next read
    with tempfile.TemporaryFile() as output:
        limit = None if room is None else lambda: limit_output(room)
        running = subprocess.Popen([program, "replay"], stdin=theirs, stdout=output, stderr=subprocess.PIPE, preexec_fn=limit)
        theirs.close()
        send(ours, pieces)
        _, errors = running.communicate(timeout=60)
        output.seek(0)
        return Left((running.returncode, errors.decode()), output.read())


def cut(text, size):
    return [text[at : at + size] for at in range(0, len(text), size)]


def differing(program, row):
    """What came of the row otherwise, if something did."""
    for size in [65536, 7, 1]:
        left = replay(program, socket.SOCK_SEQPACKET, cut(row.script, size))
        if left != (row.ending, row.transcript):
            return f"in pieces of {size} bytes it came to {left.ending}\n{left.output.decode(errors='replace')}"
    for size in range(0, len(row.script), STEP):
        left = replay(program, socket.SOCK_STREAM, [row.script[:size]] if size else [], fails=True)
        if left.ending != READ_FAULT or not row.transcript.startswith(left.output):
            return f"a read that fails after {size} bytes came to {left.ending}"
    for room in range(0, len(row.transcript), STEP):
        left = replay(program, socket.SOCK_SEQPACKET, [row.script] if row.script else [], room=room)
        if left != (WRITE_FAULT, row.transcript[:room]):
            return f"an output of {room} bytes came to {left.ending}"
    return None


def main(program):
    rows = differ = 0
    for row in rows_of(Path(__file__).with_name("replayed_scripts.txt")):
        rows += 1
        came = differing(program, row)
        if came is not None:
            differ += 1
            print(f"replayed scripts: the row that ends at line {row.line}: {came}", file=sys.stderr)
    print(f"replayed scripts: {rows} rows, {differ} differ")
    return 1 if differ or not rows else 0


if __name__ == "__main__":
    sys.exit(main(os.path.abspath(sys.argv[1])))
