#!/usr/bin/env python3
"""Draws a transcript of `replay` as a picture (SVG).

    python3 draw.py [--refused N] < TRANSCRIPT > PICTURE.svg

Time runs down. Each proxy has a column and the store has one; beside a proxy's column stands what its clients asked and were
told. An arrow leads from where a call was sent to where the store executed it, and from there to where its answer was
delivered; likewise for the openings of streams and their messages. What was lost, or never came, ends in a cross.
It reads the transcript alone: the grammar of its lines is that of docs/FORMATS.md.

With `--refused N`, where `audit` refuses line N, that line is marked. Those behind it aren't drawn, since nothing is known of them.
"""
import math
import sys
from copy import deepcopy
from dataclasses import dataclass
from urllib.parse import unquote
from xml.sax.saxutils import escape

ROW, SPACING, MARGIN, TOP = 30, 380, 430, 70
LONGEST = 48  # characters of a label; the whole text is its tooltip
STORE = "store"
FAULTS = (ValueError, TypeError, KeyError, IndexError, ZeroDivisionError)  # of a line that is no item, or isn't in order

STYLE = """
text { font: 12px monospace; fill: #222; }
.halo { paint-order: stroke; stroke: white; stroke-width: 4px; }
.head { font-weight: bold; font-size: 14px; text-anchor: middle; }
.life { stroke: #bbb; stroke-width: 2; }
.call { stroke: #1f5fa8; } .answer { stroke: #2a7f3f; } .message { stroke: #8a4fa8; }
.lost { stroke: #b03030; stroke-dasharray: 5 4; }
.arrow { stroke-width: 1.5; fill: none; }
.cross { stroke: #b03030; stroke-width: 2; }
.uncalled { fill: #2a7f3f; font-weight: bold; } .asked { fill: #1f5fa8; } .told, .taken { fill: #222; } .event { fill: #777; }
"""
REFUSED_STYLE = """.refused { fill: #b03030; font-weight: bold; } .band { fill: #f8d7d7; }
"""


@dataclass
class Arrow:
    """From a place to a place; `ends` is false where it never arrives, and then it stops half-way."""

    kind: str
    start: tuple
    end: tuple
    text: str
    ends: bool = True


@dataclass
class Note:
    kind: str
    column: str
    row: int
    text: str


@dataclass
class Call:
    proxy: str
    row: int
    text: str
    executed: int = 0
    answer: str = ""


class Picture:
    """What a transcript's lines add up to: arrows between columns, and notes beside them."""

    def __init__(self):
        self.title = ""
        self.row = 0
        self.proxies, self.arrows, self.notes = [], [], []
        self.calls, self.streams, self.messages = {}, {}, {}
        self.named = set()  # tickets that a sent call names, by proxy
        self.refused = None  # the row of the refused line, and its text

    def note(self, kind, column, text):
        self.notes.append(Note(kind, column, self.row, text))

    def read(self, line):
        kind, *words = line.split(" ")
        take = getattr(self, "on_" + kind, None)
        if take is None:
            raise ValueError(f"no item is called {kind}")
        self.row += 1
        take(*words)

    # the world and its proxies

    def on_world(self, members, namespace, prefix):
        self.title = f"members {members}, namespace {namespace}, leasing prefix {prefix}"
        self.row -= 1

    def on_started(self, proxy):
        if proxy not in self.proxies:
            self.proxies.append(proxy)
        self.note("event", proxy, "starts")

    def on_restarted(self, proxy):
        self.note("event", proxy, "starts again, and forgets all")
        for number in [n for n, (p, _) in self.streams.items() if p == proxy]:
            self.drop_messages(number)

    def on_clock(self, proxy, millis):
        self.note("event", proxy, f"clock at {millis} ms")

    def on_ticked(self, proxy):
        self.note("event", proxy, "tick")

    def on_expired(self, lease):
        self.note("event", STORE, f"lease {lease} ends")

    def on_applied(self, member, revision):
        self.note("event", STORE, f"member {member} has applied {revision}")

    # clients

    def on_asked(self, proxy, ticket, *request):
        self.note("asked", proxy, f"asks {ticket}: {readable(request)}")

    def on_posted(self, proxy, ticket, path, body):
        self.note("asked", proxy, f"posts {ticket}: {path} {readable([body])}")

    def on_reply(self, proxy, ticket, *answer):
        uncalled = answer[0] == "ok" and (proxy, ticket) not in self.named
        self.note("uncalled" if uncalled else "told", proxy, f"reply {ticket}{', no call of its own' if uncalled else ''}: {readable(answer)}")

    def on_body(self, proxy, ticket, status, body):
        self.note("taken", proxy, f"body {ticket}: {status} {readable([body])}")

    def on_taken(self, proxy, ticket, *item):
        self.note("taken", proxy, f"takes {ticket}: {readable(item)}")

    def on_pending(self, proxy, ticket):
        self.note("event", proxy, f"takes {ticket}: nothing yet")

    def on_left(self, proxy, ticket):
        self.note("event", proxy, f"{ticket} leaves")

    # calls

    def on_sent(self, proxy, number, member, ticket, *request):
        self.calls[number] = Call(proxy, self.row, f"{number}: {readable(request)}")
        self.named.add((proxy, ticket))

    def on_executed(self, number, *answer):
        call = self.calls[number]
        self.arrows.append(Arrow("call", (call.proxy, call.row), (STORE, self.row), call.text))
        call.executed, call.answer = self.row, readable(answer)

    def on_answered(self, number):
        call = self.calls[number]
        self.arrows.append(Arrow("answer", (STORE, call.executed), (call.proxy, self.row), f"{number}: {call.answer}"))
        call.answer = ""

    def on_lost(self, number):
        call = self.calls[number]
        self.note("event", call.proxy, f"call {number} is lost")

    # streams

    def on_opened(self, proxy, number, member, *request):
        self.streams[number] = (proxy, [])
        self.arrows.append(Arrow("message", (proxy, self.row), (STORE, self.row + 1), f"stream {number}: {readable(request)}"))
        self.row += 1

    def on_closed(self, proxy, number):
        self.arrows.append(Arrow("message", (proxy, self.row), (STORE, self.row + 1), f"closes stream {number}"))
        self.drop_messages(number)
        self.row += 1

    def on_pushed(self, number, *item):
        self.streams[number][1].append((self.row, f"stream {number}: {readable(item)}"))

    def on_delivered(self, number):
        proxy, waiting = self.streams[number]
        sent, text = waiting.pop(0)
        self.arrows.append(Arrow("message", (STORE, sent), (proxy, self.row), text))

    def on_cut(self, number):
        self.note("event", self.streams[number][0], f"stream {number} is cut")
        self.drop_messages(number)

    def drop_messages(self, number):
        proxy, waiting = self.streams[number]
        for sent, text in waiting:
            self.arrows.append(Arrow("lost", (STORE, sent), (proxy, self.row), text, ends=False))
        waiting.clear()

    def finish(self):
        """What is still on its way when the transcript ends."""
        for number, call in self.calls.items():
            if not call.executed:
                self.arrows.append(Arrow("lost", (call.proxy, call.row), (STORE, call.row + 2), call.text, ends=False))
            elif call.answer:
                self.arrows.append(Arrow("lost", (STORE, call.executed), (call.proxy, call.executed + 2), f"{number}: {call.answer}", ends=False))
        for number in self.streams:
            self.drop_messages(number)


def readable(words):
    """Words with their escapes undone where that prints, and `~` as nothing."""
    shown = []
    for word in words:
        plain = unquote(word, errors="strict") if "%" in word else word
        shown.append(plain if plain.isprintable() else word)
    return " ".join(shown)


def short(text):
    return text if len(text) <= LONGEST else text[: LONGEST - 2] + ".."


class Drawing:
    """Lays a picture out: the store in the middle, proxies to both sides of it."""

    def __init__(self, picture):
        proxies = sorted(picture.proxies, key=int)
        middle = (len(proxies) + 1) // 2
        self.columns = [*proxies[:middle], STORE, *proxies[middle:]]
        self.x = {name: MARGIN + SPACING * at for at, name in enumerate(self.columns)}
        self.width = 2 * MARGIN + SPACING * (len(self.columns) - 1)
        self.height = TOP + ROW * (picture.row + 3)
        self.picture = picture
        self.parts = []

    def y(self, row):
        return TOP + ROW * row

    def text(self, x, y, kind, anchor, text, turn=0):
        turned = f' transform="rotate({turn:.1f} {x:.0f} {y:.0f})"' if turn else ""
        self.parts.append(
            f'<text class="halo {kind}" x="{x:.0f}" y="{y:.0f}" text-anchor="{anchor}"{turned}>'
            f"<title>{escape(text)}</title>{escape(short(text))}</text>"
        )

    def column(self, name):
        x = self.x[name]
        title = name if name == STORE else f"proxy {name}"
        self.parts.append(f'<text class="head" x="{x}" y="{TOP - 14}">{title}</text>')
        self.parts.append(f'<line class="life" x1="{x}" y1="{TOP}" x2="{x}" y2="{self.height - ROW}"/>')

    def arrow(self, arrow):
        x1, y1 = self.x[arrow.start[0]], self.y(arrow.start[1])
        x2, y2 = self.x[arrow.end[0]], self.y(arrow.end[1])
        if not arrow.ends:
            x2, y2 = (x1 + x2) / 2, (y1 + y2) / 2
        tip = ' marker-end="url(#tip)"' if arrow.ends else ""
        self.parts.append(f'<line class="arrow {arrow.kind}" x1="{x1}" y1="{y1}" x2="{x2}" y2="{y2}"{tip}/>')
        if not arrow.ends:
            self.parts.append(f'<path class="cross" d="M{x2 - 5} {y2 - 5}l10 10m0 -10l-10 10"/>')
        # along the arrow and above it, whichever way it leads
        turn = math.degrees(math.atan((y2 - y1) / (x2 - x1)))
        self.text((x1 + x2) / 2, (y1 + y2) / 2 - 4, "told", "middle", arrow.text, turn)

    def note(self, note):
        x, y = self.x[note.column], self.y(note.row)
        left = self.columns.index(note.column) < self.columns.index(STORE)
        self.parts.append(f'<circle class="{note.kind}" cx="{x}" cy="{y}" r="3"/>')
        self.text(x - 10 if left else x + 10, y + 4, note.kind, "end" if left else "start", note.text)

    def band(self, row, text):
        self.parts.append(f'<rect class="band" x="0" y="{self.y(row) - ROW / 2:.0f}" width="{self.width}" height="{ROW}"/>')
        self.text(10, self.y(row) + 4, "refused", "start", text)

    def svg(self):
        if self.picture.refused:
            self.band(*self.picture.refused)
        for name in self.columns:
            self.column(name)
        for arrow in self.picture.arrows:
            self.arrow(arrow)
        for note in self.picture.notes:
            self.note(note)
        style = STYLE + (REFUSED_STYLE if self.picture.refused else "")
        return "\n".join(
            [
                f'<svg xmlns="http://www.w3.org/2000/svg" width="{self.width}" height="{self.height}">',
                f"<title>{escape(self.picture.title)}</title><style>{style}</style>",
                '<marker id="tip" viewBox="0 0 8 8" refX="8" refY="4" markerWidth="8" markerHeight="8" orient="auto">',
                '<path d="M0 0L8 4L0 8z" fill="context-stroke"/></marker>',
                '<rect width="100%" height="100%" fill="white"/>',
                f'<text x="10" y="20">{escape(self.picture.title)}</text>',
                *self.parts,
                "</svg>",
            ]
        )


def with_refused(picture, number, line):
    """The picture with this line marked, which an audit refuses. Where it can be drawn it is; else it has the mark alone."""
    tried = deepcopy(picture)
    try:
        tried.read(line)
        drawn = deepcopy(tried)
        drawn.finish()
        Drawing(drawn).svg()
    except FAULTS:
        tried = picture
        tried.row += 1
    tried.row = max(tried.row, 1)
    tried.refused = (tried.row, f"line {number}: {readable(line.split(' '))}")
    return tried


def main(words):
    refused = None
    if len(words) == 2 and words[0] == "--refused" and words[1].isdecimal():
        refused = int(words[1])
    elif words:
        sys.exit("usage: draw.py [--refused N] < TRANSCRIPT > PICTURE.svg")
    picture = Picture()
    for number, line in enumerate(sys.stdin.read().splitlines(), 1):
        if number == refused:
            picture = with_refused(picture, number, line)
            break
        try:
            picture.read(line)
        except FAULTS as fault:
            sys.exit(f"draw.py: line {number} is no item of a transcript: {line[:80]} ({fault})")
    picture.finish()
    print(Drawing(picture).svg())


if __name__ == "__main__":
    main(sys.argv[1:])
