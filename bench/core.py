#!/usr/bin/env python3
"""What bench/core.sh measures."""
import random, re, resource, subprocess, sys, tempfile

PROGRAM, PART, UNIT = sys.argv[1], int(sys.argv[2]), sys.argv[3]
FIRST = ["chrt", "-f", "1"] if subprocess.run(["chrt", "-f", "1", "true"], capture_output=True).returncode == 0 else []
VALUE = "v" * 100
TRIES = 3


def key(number):
    return f"{number:010d}"


def processor_time():
    used = resource.getrusage(resource.RUSAGE_CHILDREN)
    return used.ru_utime + used.ru_stime


def instructions(script):
    script.seek(0)
    told = subprocess.run(["valgrind", "--tool=callgrind", "--callgrind-out-file=/dev/null", PROGRAM], stdin=script, stdout=subprocess.DEVNULL,
                          stderr=subprocess.PIPE, text=True, check=True).stderr
    return int(re.search(r"Collected : (\d+)", told)[1])


class Proxy:
    """What a proxy with a live session and its leasing stream is told, line by line."""

    def __init__(self):
        self.lines = ["new 1 ~ L/ 1000000", "at 1", "do tick 0"]
        self.calls, self.streams, self.revision, self.held, self.new = 0, 1, 2, 0, 0
        self.do(["work", f"answer {self.call()} ok 1.1.1.1 grant {1 << 62} 1000000", "work", "item 1 created 1.1.1.1"])

    def call(self):
        self.calls += 1
        return self.calls

    def do(self, events):
        self.lines += ["do " + event for event in events]

    def some_key(self):
        return key(random.randrange(max(self.held, 1)))

    # what stands beside what is measured

    def held_by(self, key):
        self.revision += 1
        return [f"ask 1 0 range {key} ~ 0 0 -", "work",
                f"answer {self.call()} ok 1.1.{self.revision}.1 txn t 2 range 1 - 1 {key} {VALUE} 2 2 1 0 put -", "take 1"]

    def hold(self, count):
        for number in range(self.held, self.held + count):
            self.do(self.held_by(key(number)))
        self.held += count

    def wait(self, count):
        for number in range(count):
            self.call()
            self.do([f"ask {10_000_000 + number} 0 range {self.some_key()} z 0 0 -", "work"])

    def watch(self, count, ranges):
        for number in range(count):
            self.do([f"ask {20_000_000 + number} 0 watch {key(number % ranges)} ~ 0 -"])
            if number < ranges:
                self.streams += 1
                self.do(["work", f"item {self.streams} created 1.1.{self.revision}.1"])

    # what is measured

    def reading(self):
        return [f"ask 1 0 range {self.some_key()} ~ 0 0 -"]

    def reading_one(self):
        return [f"ask 1 0 range {key(self.held // 3)} ~ 0 0 -"]

    def holding(self):
        self.new += 1
        return self.held_by(f"{self.some_key()}.{self.new}")

    def writing(self):
        self.revision += 1
        return [f"ask 1 0 put {self.some_key()} {VALUE} 0 -", "work", f"answer {self.call()} ok 1.1.{self.revision}.1 txn t 1 put -", "take 1"]

    def passing(self):
        return [f"ask 1 0 range {self.some_key()} z 0 0 -", "work", f"answer {self.call()} ok 1.1.{self.revision}.1 range 0 - 0", "take 1"]

    def cost(self, lines):
        """What the program takes over what stands and these lines: its processor time in ns, the least of several tries, or its instructions."""
        with tempfile.TemporaryFile("w+") as script:
            script.write("".join(line + "\n" for line in ["table proxies", *self.lines, *lines]))
            if UNIT == "instructions":
                return instructions(script)
            took = []
            for _ in range(TRIES):
                script.seek(0)
                before = processor_time()
                subprocess.run([*FIRST, PROGRAM], stdin=script, stdout=subprocess.DEVNULL, check=True)
                took.append(processor_time() - before)
        return min(took) * 1e9

    def each(self, events, rounds):
        """What a round of these events takes over what reading the same lines takes."""
        # each run begins behind what stands, and so do the numbers of its calls and revisions
        stands = self.calls, self.revision, self.new
        lines = [line for _ in range(rounds) for line in events()]
        self.calls, self.revision, self.new = stands
        done = self.cost(["do " + line for line in lines])
        return round((done - self.cost(["read " + line for line in lines])) / rounds)

    def told(self, beside, rounds):
        """A cached read of one key, once all is told."""
        read = self.each(self.reading_one, 10 * rounds)
        print(f"{beside}: a cached read of one key {read} {UNIT}, of keys at random {self.each(self.reading, 10 * rounds)} {UNIT}, a write through "
              f"{self.each(self.writing, rounds)} {UNIT}, a range passed on {self.each(self.passing, rounds)} {UNIT}, a read that takes its key "
              f"{self.each(self.holding, rounds)} {UNIT}", flush=True)
        return read

    def memory(self):
        """The program's bytes in use once it did all this."""
        with subprocess.Popen([PROGRAM], stdin=subprocess.PIPE, stdout=subprocess.PIPE, stderr=subprocess.DEVNULL, text=True) as program:
            # an outcome that differs is told, so one that can't be asks for it
            program.stdin.write("".join(line + "\n" for line in ["table proxies", *self.lines, "due", "= ?"]))
            program.stdin.flush()
            program.stdout.readline()
            program.stdout.readline()
            with open(f"/proc/{program.pid}/status") as told:
                return int(re.search(r"VmRSS:\s+(\d+)", told.read())[1]) * 1024


def bytes_each(proxy, add, count):
    before = proxy.memory()
    add(count)
    return (proxy.memory() - before) // count


HELD, WAITING, WATCHES, RANGES = 100_000 // PART, 1_000 // PART, 10_000 // PART, 1_000 // PART
ROUNDS = 30_000 // PART
MISSED = []


def mark(what, value, most):
    print(f"  mark: {what} {value} {UNIT}, at most {most}: {'met' if value <= most else 'missed'}", flush=True)
    if value > most:
        MISSED.append(what)


proxy = Proxy()
proxy.hold(1)
alone = proxy.told("alone", ROUNDS)
if UNIT == "ns":
    mark("a cached read", alone, 500)
asked = bytes_each(proxy, proxy.wait, 10 * WAITING)

proxy = Proxy()
proxy.hold(RANGES)
watched = bytes_each(proxy, lambda count: proxy.watch(count, RANGES), WATCHES)
mark("a cached read beside watches", proxy.told(f"beside {WATCHES} watches of {RANGES} keys", ROUNDS), 2 * alone)

proxy = Proxy()
held = bytes_each(proxy, proxy.hold, HELD)
proxy.wait(WAITING)
mark("a cached read beside held keys", proxy.told(f"beside {HELD} held keys and {WAITING} waiting requests", ROUNDS), 2 * alone)
print(f"a held key takes {held} bytes, an unanswered request {asked}, a watch {watched}")
sys.exit(1 if MISSED else 0)
