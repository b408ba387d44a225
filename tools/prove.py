#!/usr/bin/env python3
"""Proves a program and all the crates that it uses, several side by side, and builds it. ./run --build calls it.

usage: prove.py SOURCES PROGRAM WORK COSTS

SOURCES    a copy of the repository that nobody edits, whose crates.txt lists PROGRAM and what it uses
PROGRAM    the crate to build
WORK       a folder that holds one folder a crate, where that crate is proved over links to the libraries that it uses, since runs of
           rt in one folder wait for each other. The next call goes on from what is proved there
COSTS      a page with table rows `| CRATE | SECONDS | ..`: the longest chain of crates is proved first; and rows `| CRATE | N.N GB |` of
           those that take more memory than others

As many crates are proved at a time as there are processors, or as RT_JOBS says, in what memory is free and 10 GB at most, or in as many GB
as PROVE_MEMORY says.
The status is 0 once the program is built, and 1 where a crate isn't proved, whose errors are then on standard error.
"""
import contextlib
import hashlib
import math
import os
import re
import shutil
import signal
import subprocess
import sys
import time
from dataclasses import dataclass, field

MEMORY_EACH, MEMORY_ALL = 2e9, 10e9  # bytes: of a check for which no other number is known, and of each further job; of all checks
MOST_JOBS = 4  # of one check, which gains little from more
SHOWN_ERRORS = 20
KILLED = (-signal.SIGKILL, 256 - signal.SIGKILL)  # the statuses of a check that was killed, most likely for memory
STOPS = (signal.SIGINT, signal.SIGTERM, signal.SIGHUP)


@dataclass
class Crate:
    name: str
    line: str  # of crates.txt
    uses: list  # the repository's crates on that line
    cost: float  # the seconds of one processor that its proof is expected to take
    memory: float  # the bytes that one job of its proof is expected to take
    folder: str  # of WORK, its own
    made: str  # what its proof leaves in its own out/: the library, or the program
    sources_sum: str = ""  # of all that its proof reads
    chain: float = 0  # the costs of the longest chain from it to the program
    below: list = field(default_factory=list)  # all crates that it uses, also through others, lowest first

    def out(self):
        return f"{self.folder}/crates/{self.name}/out"

    def is_proved(self):
        with contextlib.suppress(OSError), open(f"{self.folder}/proved", encoding="utf-8") as file:
            return file.read() == self.sources_sum and os.path.exists(f"{self.out()}/{self.made}")
        return False

    def note_proved(self):
        """Notes that it is proved, and keeps no more than what was made: what a check could go on from takes as much room again."""
        with open(f"{self.folder}/proved.new", "w", encoding="utf-8") as file:
            file.write(self.sources_sum)
        os.replace(f"{self.folder}/proved.new", f"{self.folder}/proved")
        self.clear()
        shutil.rmtree(f"{self.out()}/incremental", ignore_errors=True)

    def clear(self):
        """Removes the links to the crates that it uses."""
        with contextlib.suppress(FileNotFoundError):
            for name in os.listdir(f"{self.folder}/crates"):
                if name != self.name:
                    remove(f"{self.folder}/crates/{name}")

    def lay_out(self, sources):
        """Makes its folder: its sources, and of each crate that it uses the sources and the library."""
        with contextlib.suppress(FileNotFoundError):
            os.remove(f"{self.folder}/proved")
        self.clear()
        os.makedirs(self.out(), exist_ok=True)
        for name in os.listdir(os.path.dirname(self.out())):
            if name != "out":
                remove(f"{self.folder}/crates/{self.name}/{name}")
        with open(f"{self.folder}/crates.txt", "w", encoding="utf-8") as file:
            file.writelines(it.line for it in [*self.below, self])
        shutil.copyfile(f"{sources}/HANDLES", f"{self.folder}/HANDLES")
        for it in [*self.below, self]:
            link(f"{sources}/crates/{it.name}", f"{self.folder}/crates/{it.name}")
        for it in self.below:
            link(f"{it.out()}/rlib", f"{self.folder}/crates/{it.name}/out/rlib")


@dataclass
class Check:
    crate: Crate
    jobs: int
    begun: float
    process: subprocess.Popen

    def elapsed(self):
        return time.monotonic() - self.begun

    def memory(self):
        return self.crate.memory + (self.jobs - 1) * MEMORY_EACH


def read_crates(sources, program, work, costs):
    """Returns the crates of crates.txt by their names."""
    with open(costs, encoding="utf-8") as page:
        text = page.read()
    known = {name: int(cost) for name, cost in re.findall(r"^\| `(\w+)` \| ([1-9]\d*) \|", text, re.M)}
    large = {name: float(memory) * 1e9 for name, memory in re.findall(r"^\| `(\w+)` \| (\d+\.\d) GB \|", text, re.M)}
    usual = sum(known.values()) / len(known) if known else 60
    rows = {}
    with open(f"{sources}/crates.txt", encoding="utf-8") as lines:
        for line in lines:
            head, colon, uses = line.partition("#")[0].partition(":")
            if colon:
                rows[head.split()[0]] = line, uses.split()
    crates = {}
    for name, (line, uses) in rows.items():
        made = name if name == program else f"rlib/{name}.rlib"
        used = [it for it in uses if it in rows]
        crates[name] = Crate(name, line, used, known.get(name, usual), large.get(name, MEMORY_EACH), f"{work}/{name}", made)
    return crates


def in_order(crates, program):
    """Returns the program and the crates that it uses, lowest first."""
    order = []

    def visit(crate):
        if crate not in order:
            for name in crate.uses:
                visit(crates[name])
            order.append(crate)

    visit(crates[program])
    return order


def work_out(crates, order, sources, toolchain):
    """Sets what follows of each crate from those that it uses, and from those that use it."""
    for crate in order:
        used = [crates[name] for name in crate.uses]
        within = {it.name for one in used for it in [*one.below, one]}
        crate.below = [it for it in order if it.name in within]
        crate.sources_sum = sum_of(f"{sources}/crates/{crate.name}", [toolchain, crate.line, *[it.sources_sum for it in used]])
    for crate in reversed(order):
        crate.chain += crate.cost
        for name in crate.uses:
            crates[name].chain = max(crates[name].chain, crate.chain)


def sum_of(folder, words):
    """Returns a sum of these words and of the files of the folder, by their names and contents."""
    found = hashlib.sha256(repr(words).encode())
    for at, folders, names in os.walk(folder):
        folders[:] = sorted(it for it in folders if it != "out")
        for name in sorted(names):
            with open(f"{at}/{name}", "rb") as file:
                found.update(repr((os.path.relpath(f"{at}/{name}", folder), file.read())).encode())
    return found.hexdigest()


def link(folder, to):
    """Gives the folder's files a second name below another folder, but for what was made of them, in its out/."""
    shutil.copytree(folder, to, copy_function=os.link, ignore=lambda at, _: ["out"] if at == folder else [], dirs_exist_ok=True)


def remove(path):
    if os.path.isdir(path):
        shutil.rmtree(path)
    else:
        os.remove(path)


def jobs_at_once():
    """Returns how many jobs there are processors for, or are asked for."""
    if os.environ.get("RT_JOBS", "").isdigit():
        return max(int(os.environ["RT_JOBS"]), 1)
    return len(os.sched_getaffinity(0))


def memory_at_once():
    """Returns how many bytes there are for checks, or are asked for."""
    if os.environ.get("PROVE_MEMORY", "").isdigit():
        return int(os.environ["PROVE_MEMORY"]) * 1e9
    with open("/proc/meminfo", encoding="utf-8") as file:
        return min(1024 * int(re.search(r"MemAvailable:\s+(\d+)", file.read())[1]), MEMORY_ALL)


class Progress:
    """One line on standard error: rewritten in its place on a terminal, once a minute elsewhere."""

    def __init__(self):
        self.is_terminal, self.text, self.told = sys.stderr.isatty(), None, -math.inf

    def show(self, text):
        if self.is_terminal and text != self.text:
            print(f"\r\033[Krun: {text}", end="", file=sys.stderr, flush=True)
        elif not self.is_terminal and time.monotonic() - self.told >= 60:
            print(f"run: {text}", file=sys.stderr, flush=True)
            self.told = time.monotonic()
        self.text = text

    def end(self):
        if self.is_terminal and self.text is not None:
            print(file=sys.stderr, flush=True)
        self.text = None


def by_chain(crates):
    return sorted(crates, key=lambda it: -it.chain)


class Build:
    def __init__(self, sources, program, work, costs):
        toolchain = subprocess.run(["rt", "version"], stdout=subprocess.PIPE, check=False).stdout.decode(errors="replace")
        self.sources, self.program = sources, program
        crates = read_crates(sources, program, os.path.abspath(work), costs)
        self.order = in_order(crates, program)
        work_out(crates, self.order, sources, toolchain)
        self.at_once, self.memory, self.progress, self.running = jobs_at_once(), memory_at_once(), Progress(), []
        # What crates that were proved in this call took by the clock, and what was expected; begun so that one small crate says little.
        self.seconds = self.expected = 60
        os.makedirs(work, exist_ok=True)
        for name in os.listdir(work):
            if name not in crates:
                remove(f"{work}/{name}")
        self.proved = {it.name for it in self.order if it.is_proved()}
        self.left = by_chain(it for it in self.order if it.name not in self.proved)

    def start(self, crate, jobs):
        crate.lay_out(self.sources)
        words = ["run", "--jobs", str(jobs), "--", "--version"] if crate.name == self.program else ["lib", "--jobs", str(jobs)]
        with open(f"{crate.folder}/log", "w", encoding="utf-8") as log:
            how = {"cwd": os.path.dirname(crate.out()), "stdin": subprocess.DEVNULL, "stdout": log, "stderr": log}
            # What ./run locks stays locked as long as one of these runs, however this process ends.
            process = subprocess.Popen(["rt", *words], close_fds=False, **how)
        self.left.remove(crate)
        self.running.append(Check(crate, jobs, time.monotonic(), process))

    def start_ready(self):
        """Starts the crates that wait for none, the longest chain first; processors that no other crate could use serve its jobs. Where there
        is no memory for the first, it waits for it, and those behind wait too, so that it isn't passed for ever."""
        ready = [it for it in self.left if self.proved.issuperset(it.uses)]
        free = self.at_once - sum(it.jobs for it in self.running)
        memory = self.memory - sum(it.memory() for it in self.running)
        while ready and free > 0 and (ready[0].memory <= memory or not self.running):
            serves = 1 + max(int((memory - ready[0].memory) // MEMORY_EACH), 0)
            jobs = min(math.ceil(free / len(ready)), serves, MOST_JOBS)
            self.start(ready.pop(0), jobs)
            free -= jobs
            memory -= self.running[-1].memory()

    def take_ended(self):
        """Notes what was proved, and returns a crate that isn't, if there is one. One whose check was killed is tried again, with less beside it."""
        for check in [it for it in self.running if it.process.poll() is not None]:
            self.running.remove(check)
            if check.process.returncode in KILLED and self.at_once > 1:
                self.at_once -= 1
                self.left = by_chain([*self.left, check.crate])
                continue
            if check.process.returncode:
                return check.crate
            check.crate.note_proved()
            self.proved.add(check.crate.name)
            self.seconds += check.elapsed()
            self.expected += check.crate.cost
        return None

    def pace(self):
        """Returns the seconds by the clock for a second of what was expected; a check that already takes longer than expected counts too."""
        seconds, expected = self.seconds, self.expected
        for it in self.running:
            if it.elapsed() * expected > it.crate.cost * seconds:
                seconds, expected = seconds + it.elapsed(), expected + it.crate.cost
        return seconds / expected

    def minutes_left(self):
        """Returns the minutes that the longest chain takes, or all that is left, at the pace so far, shared out evenly."""
        pace = self.pace()
        done = {it.crate.name: min(it.elapsed() / pace, it.crate.cost) for it in self.running}
        crates = [*self.left, *[it.crate for it in self.running]]
        work = sum(it.cost - done.get(it.name, 0) for it in crates)
        chain = max(it.chain - done.get(it.name, 0) for it in crates)
        return max(math.ceil(pace * max(work / self.at_once, chain) / 60), 1)

    def run(self):
        """Returns the crate that isn't proved, or none once the program is built."""
        while self.left or self.running:
            self.start_ready()
            minutes = self.minutes_left()
            self.progress.show(f"{len(self.proved)} of {len(self.order)} crates are proved, about {minutes} {'minute' if minutes == 1 else 'minutes'} left")
            time.sleep(0.1)
            failed = self.take_ended()
            if failed:
                return failed
        return None

    def stop(self):
        for number in STOPS:
            signal.signal(number, signal.SIG_IGN)
        for it in self.running:
            it.process.terminate()
        for it in self.running:
            it.process.wait()
        self.progress.end()


def tell_errors(crate):
    """Shows the errors of a crate's log, or the end of it where it names none, and says where it is."""
    with open(f"{crate.folder}/log", encoding="utf-8", errors="replace") as log:
        lines = log.read().splitlines()
    errors = [it for it in lines if re.search(r": error|^error|: not proved", it)]
    print(*(errors[:SHOWN_ERRORS] or lines[-SHOWN_ERRORS:]), sep="\n", file=sys.stderr)
    print(f"run: {crate.name} isn't proved; all that was reported of it is in {crate.folder}/log", file=sys.stderr, flush=True)


def main(words):
    if len(words) != 4:
        print(__doc__, file=sys.stderr)
        return 2
    for number in STOPS:
        signal.signal(number, lambda number, _: sys.exit(128 + number))
    build = Build(*words)
    try:
        failed = build.run()
    finally:
        build.stop()
    if failed:
        tell_errors(failed)
    return 1 if failed else 0


if __name__ == "__main__":
    sys.exit(main(sys.argv[1:]))
