#!/usr/bin/env python3
"""Prints the script that `replay --generate N` replays, line by line.

Which line comes next depends on what is due, and only the program knows that: a line is tried in a replay of those before it. Where it is
refused, another replay begins, so the time grows with the square of N, which may be some hundreds.

Usage: tests/generated.py PROGRAM N
"""
import os
import subprocess
import sys

PROXIES = (1, 2, 3)
MOST = 64  # jobs of a proxy in a turn, and turns until all is settled


class Replay:
    """A replay of the lines taken so far, which waits for the next one."""

    def __init__(self, program):
        self.program = program
        self.lines = []
        self.gained = []
        self.begin()

    def begin(self):
        self.child = subprocess.Popen([self.program, 'replay'], stdin=subprocess.PIPE, stdout=subprocess.PIPE, stderr=subprocess.DEVNULL)
        self.output = self.child.stdout.fileno()
        # A few lines at a time, so that neither pipe is ever full.
        for at in range(0, len(self.lines), 100):
            self.write(''.join(line + '\n' for line in self.lines[at:at + 100]))
            left = sum(map(len, self.gained[at:at + 100]))
            while left > 0:
                left -= len(os.read(self.output, left))

    def write(self, text):
        self.child.stdin.write(text.encode())
        self.child.stdin.flush()

    def take(self, line):
        """The items that the line gains, or nothing where it is refused. The program writes them all before it reads on."""
        self.write(line + '\n')
        gained = os.read(self.output, 1 << 20)
        if gained:
            self.lines.append(line)
            self.gained.append(gained)
            print(line)
            return gained.decode().splitlines()
        self.end(1)
        self.begin()
        return []

    def end(self, status):
        self.child.stdin.close()
        self.child.stdout.close()
        if self.child.wait() != status:
            sys.exit(f'generated: the program ended with {self.child.returncode} and not {status} behind {len(self.lines)} lines')


class Schedule:
    """The script of a number as it is made."""

    def __init__(self, program, number):
        self.replay = Replay(program)
        self.state = number
        self.streams = 0
        # the proxy of each call and of each stream
        self.callers = {}
        self.watchers = {}
        # Proxies with nothing due, and streams with no message: they are tried anew once a line changed something there.
        self.idle = set()
        self.quiet = set()

    def take(self, line, proxy=None):
        """A line that is taken; it may make something due at this proxy."""
        gained = self.replay.take(line)
        if gained and proxy is not None:
            self.idle.discard(proxy)
        return gained

    def send(self, proxy):
        gained = self.take(f'send {proxy}', proxy)
        if not gained:
            self.idle.add(proxy)
            return False
        for item in gained:
            words = item.split(' ')
            if words[0] == 'opened':
                self.streams = int(words[2])
                self.watchers[self.streams] = proxy
            elif words[0] == 'sent':
                call = int(words[2])
                self.take(f'exec {call}')
                # The store may have changed.
                self.quiet.clear()
                self.take(f'answer {call}', proxy)
        return True

    def push(self, stream):
        if not self.take(f'push {stream}'):
            self.quiet.add(stream)
            return
        self.take(f'deliver {stream}', self.watchers[stream])

    def turn(self):
        """Makes a turn, and tells whether it added a line."""
        before = len(self.replay.lines)
        for proxy in PROXIES:
            for _ in range(MOST):
                if proxy in self.idle or not self.send(proxy):
                    break
        for stream in range(1, self.streams + 1):
            if stream not in self.quiet:
                self.push(stream)
        return len(self.replay.lines) > before

    def settle(self):
        for _ in range(MOST):
            if not self.turn():
                break

    def draw(self):
        self.state = (self.state * 6364136223846793005 + 1442695040888963407) % 2 ** 64
        return self.state // 2 ** 33

    def ask(self, number):
        drawn = self.draw()
        proxy, key, choice = 1 + drawn % 3, f'k{drawn // 3 % 8}', drawn // 24 % 4
        request = f'put {key} v{number} 0 -' if choice == 2 else f'delete {key} ~ -' if choice == 3 else f'range {key} ~ 0 0 -'
        self.take(f'ask {proxy} {number} {request}', proxy)

    def make(self, count):
        self.take('world 2 ~ L/')
        for word in 'start', 'tick':
            for proxy in PROXIES:
                self.take(f'{word} {proxy}', proxy)
        self.settle()
        for number in range(1, count + 1):
            if number % 10 == 0:
                for proxy in PROXIES:
                    self.take(f'clock {proxy} {200 * number}', proxy)
                    self.take(f'tick {proxy}', proxy)
            self.ask(number)
            self.settle()
        self.replay.end(0)


def main():
    if len(sys.argv) != 3 or not sys.argv[2].isdecimal():
        sys.exit('usage: tests/generated.py PROGRAM N')
    Schedule(sys.argv[1], int(sys.argv[2])).make(int(sys.argv[2]))


main()
