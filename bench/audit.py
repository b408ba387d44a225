#!/usr/bin/env python3
"""What bench/audit.sh measures."""
import os, signal, subprocess, sys, tempfile, time

PROGRAM = sys.argv[1]
COUNTS = [int(count) for count in sys.argv[2:]] or [10_000, 100_000, 1_000_000]
# for about 1,000,000 lines an audit may take so many seconds of processor, and so many megabytes
MARK, SECONDS, MEGABYTES = 990_000, 5, 300
# an audit that takes longer is ended
PATIENCE = 120


def call(proxy, ticket, number, request):
    """The lines by which a request is asked, sent, executed and answered: five items."""
    return [f"ask {proxy} {ticket} {request}", f"send {proxy}", f"exec {number}", f"answer {number}"]


def puts_and_gets(lines, proxies):
    """A put and a get of one of 100 keys in turn, which pass through the proxies to the store."""
    yield from ["world 1 ~ ~"] + [f"start {proxy}" for proxy in range(1, proxies + 1)]
    for i in range(1, (lines - proxies) // 10):
        proxy, key = i % proxies + 1, f"key/{i % 100}"
        yield from call(proxy, 2 * i - 1, 2 * i - 1, f"put {key} value{i} 0 -")
        yield from call(proxy, 2 * i, 2 * i, f"range {key} ~ 0 0 -")


def held_reads(lines, keys):
    """Reads of keys that the proxy holds, each once it was read from the store: no call is sent."""
    keys = min(keys, lines // 20)
    yield from ["world 1 ~ L/", "start 1", "tick 1", "send 1", "exec 1", "answer 1", "send 1", "push 1", "deliver 1"]
    for i in range(1, keys + 1):
        yield from call(1, i, i + 1, f"range key/{i} ~ 0 0 -")
    for i in range(keys + 1, (lines - 3 * keys) // 2 - 10):
        yield f"ask 1 {i} range key/{i % keys + 1} ~ 0 0 -"


def watches(lines, count):
    """Watches of one key that each take every change of it."""
    yield from ["world 1 ~ ~", "start 1"] + [f"ask 1 {i} watch k ~ 0 -" for i in range(1, count + 1)]
    takes = [f"take 1 {i}" for i in range(1, count + 1)]
    yield from ["send 1", "push 1", "deliver 1"] + takes
    for i in range(1, lines // (count + 7) - 1):
        yield from call(1, count + i, i, f"put k v{i} 0 -") + ["push 1", "deliver 1"] + takes


KINDS = {
    "puts and gets": lambda lines: puts_and_gets(lines, 1),
    "10,000 held keys": lambda lines: held_reads(lines, 10_000),
    "1,000 watches": lambda lines: watches(lines, 1_000),
    "64 proxies": lambda lines: puts_and_gets(lines, 64),
}


def audit(kind, transcript, lines):
    """Audits the transcript, and says what that took; whether it met the mark, where there is one."""
    begun = time.time()
    transcript.seek(0)
    process = subprocess.Popen([PROGRAM, "audit"], stdin=transcript, stdout=subprocess.DEVNULL, stderr=subprocess.DEVNULL)
    ended = 0
    while not ended:
        ended, status, used = os.wait4(process.pid, os.WNOHANG)
        if not ended:
            time.sleep(0.01)
            if time.time() - begun > PATIENCE:
                os.kill(process.pid, signal.SIGKILL)
    seconds, megabytes = used.ru_utime + used.ru_stime, used.ru_maxrss / 1024
    met = seconds <= SECONDS and megabytes <= MEGABYTES
    how = f"status {os.WEXITSTATUS(status)}" if os.WIFEXITED(status) else f"ended after {PATIENCE} s"
    mark = ("  met" if met else "  missed") if lines >= MARK else ""
    print(f"{kind:<18} {lines:>9} lines {seconds:8.2f} s {megabytes:6.0f} MB  {how}{mark}", flush=True)
    return met or lines < MARK


def replayed(script):
    """The transcript of the script's lines, in a file, and how many lines it has."""
    transcript = tempfile.TemporaryFile()
    with tempfile.TemporaryFile("w+") as lines:
        lines.writelines(line + "\n" for line in script)
        lines.seek(0)
        subprocess.run([PROGRAM, "replay"], stdin=lines, stdout=transcript, check=True)
    transcript.seek(0)
    return transcript, sum(1 for _ in transcript)


def main():
    met = True
    for count in COUNTS:
        for kind, script in KINDS.items():
            transcript, lines = replayed(script(count))
            with transcript:
                met &= audit(kind, transcript, lines)
    with tempfile.TemporaryFile() as line:
        for _ in range(64):
            line.write(b"a" * (1 << 20))
        line.flush()
        audit("one line of 64 MiB", line, 1)
    sys.exit(0 if met else 1)


main()
