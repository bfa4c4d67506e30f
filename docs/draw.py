#!/usr/bin/env python3
"""Draws docs/request.svg: a session record by record, with its answers. The widths are not to scale; the times are written out.

    python3 docs/draw.py > docs/request.svg

All in the picture is read from docs/four-arms.txt and its answers. Chosen here are the words, which lines a panel shows and
the board map. A byte that is missing where one came each millisecond is drawn as lost.
"""
from pathlib import Path

DOCS = Path(__file__).resolve().parent
BOARD_MAP = [1, 2, 3, 4]
# a panel: its title, its first line and its last
PANELS = [
    ("1. The plain order: arm 1 is asked, started, and answers with ten bytes", 2, 14),
    ("2. The answer first: the frame of arm 2 is held until its start is acknowledged", 15, 27),
    ("3. A lost byte: nothing is booked to arm 3", 28, 39),
    ("4. What follows the lost byte: timeout, quiet, recovery", 40, 45),
    ("5. Arm 4: the reading of column four", 46, 58),
]
LEGEND = "Blue boxes are bytes from the wire, each a record of kind 05. Bytes and kinds are hexadecimal, all other numbers decimal."
TITLE = "How the unit asks four arms, one after another"
ABOUT = (
    "Each panel has the records fed to the unit from left to right, with their times, its answers below them, and below those what is "
    "open, held or faulted. Before each queue notice the wire is cut. Arms 1 and 2 get their readings, arm 3 loses a byte and gets none, "
    "the unit recovers, and arm 4 gets the reading of column four."
)
WIDTH, LEFT, HEIGHT, FOOT = 960, 108, 194, 30
BYTE, CUT, CALL = 42, 100, 158
BLUE, GREEN, RED, YELLOW = "#d8e8f6", "#bfe3c5", "#f3c6bf", "#f7e6b5"
# where a record has its time; what is said to it, no or yes; what it is called
TIME_AT = {0x01: 1, 0x02: 6, 0x03: 14, 0x04: 1, 0x05: 2, 0x07: 2}
SAID = {0x02: ("no", "yes"), 0x03: ("rejected", "accepted"), 0x04: ("none", ""), 0x05: ("", ""), 0x06: ("done", ""), 0x07: ("no", "yes")}
CALLED = {0x01: "who is next? (01)", 0x02: "queue notice (02)", 0x03: "acknowledged (03)", 0x04: "timeout? (04)", 0x06: "cut (06)", 0x07: "recover? (07)"}


def number(text, start, size):
    return int(text[2 * start:2 * (start + size)], 16)


def arm(text, start):
    lane = number(text, start, 1)
    return f"lane {lane}, arm {BOARD_MAP[lane]}"


class Line:
    """A line of the session: its record, and what its answer says."""

    def __init__(self, record, answer):
        self.record, self.answer, self.kind = record, answer, number(record, 0, 1)
        self.time = number(record, TIME_AT[self.kind], 8) if self.kind in TIME_AT else None
        self.yes = answer == "0001"
        self.sample = self.kind in (0x03, 0x05) and len(answer) > 4
        self.timeout = self.kind == 0x04 and len(answer) > 4

    def fed(self):
        """What a box says, but for a byte."""
        if self.kind in (0x02, 0x03):
            return [CALLED[self.kind], arm(self.record, 5)]
        if self.kind == 0x07:
            return [CALLED[self.kind], "armed" if number(self.record, 1, 1) else "disarmed"]
        return [CALLED[self.kind]]

    def said(self):
        """What stands below it."""
        if self.sample:
            warm, volts, amperes, used, speed = (number(self.answer, at, size) for at, size in ((15, 1), (16, 2), (18, 2), (20, 2), (22, 2)))
            return [f"booked to {arm(self.answer, 2)}, at {number(self.answer, 7, 8)}:",
                    f"{warm} °C, {volts / 100:.2f} V, {amperes / 100:.2f} A, {used} mAh, {speed * 100} eRPM"]
        if self.timeout:
            return [{1: "not started:", 2: "no response:"}[number(self.answer, 1, 1)], arm(self.answer, 6)]
        if self.kind == 0x01:
            return [arm(self.answer, 6) if len(self.answer) > 4 else "nobody"]
        no, yes = SAID[self.kind]
        return [yes if self.yes else no]


def spans(lines):
    """What is open, held or faulted: from line to line, in which row, its colour and its words."""
    asked = fault = heard = None
    for at, line in enumerate(lines):
        if line.kind == 0x02 and line.yes:
            asked = at
        if line.sample or line.timeout:
            yield asked, at, 0, GREEN, f"request open: {arm(lines[asked].record, 5)}"
        if line.sample and line.kind == 0x03:
            ended = next(n for n, other in enumerate(lines) if other.kind == 0x05 and other.time == number(line.answer, 7, 8))
            yield ended, at, 1, BLUE, "frame held"
        if line.timeout:
            fault = at
        if line.timeout or fault is not None and line.kind == 0x05:
            heard = at
        if line.kind == 0x07 and line.yes:
            yield fault, at, 0, RED, "a fault stands: nobody is asked"
            yield heard, at, 1, YELLOW, f"nothing heard for {line.time - lines[heard].time} ms"
            fault = None


def places(lines, first, last):
    """The lines of a panel with left edge and width; None is a lost byte."""
    x, before = LEFT, None
    for at in range(first - 1, last):
        line = lines[at]
        if before and before.kind == line.kind == 0x05 and line.time == before.time + 2:
            yield None, x, BYTE
            x += BYTE
        width = {0x05: BYTE, 0x06: CUT}.get(line.kind, CALL)
        yield at, x, width
        x, before = x + width, line


def rect(x, y, width, height, fill, stroke="none", dash="none"):
    return f'<rect x="{x}" y="{y}" width="{width}" height="{height}" fill="{fill}" stroke="{stroke}" stroke-dasharray="{dash}" rx="3"/>'


def text(x, y, words, size=13, anchor="middle", weight="normal"):
    return f'<text x="{x}" y="{y}" font-size="{size}" text-anchor="{anchor}" font-weight="{weight}">{words}</text>'


def box(line, x, width, top):
    """A record, its time above it and its answer below."""
    middle = x + width / 2
    if line is None:
        yield rect(x + 2, top + 52, width - 4, 38, "white", "#666666", "4 3")
        yield text(middle, top + 75, "lost")
        return
    if line.time is not None:
        yield text(middle, top + 46, line.time, 12)
    yield rect(x + 2, top + 52, width - 4, 38, BLUE if line.kind == 0x05 else "white", "#46607a")
    words = [f"{number(line.record, 1, 1):02x}"] if line.kind == 0x05 else line.fed()
    for at, word in enumerate(words):
        yield text(middle, top + (75 if len(words) == 1 else 68 + 16 * at), word, weight="normal" if at else "bold")
    for at, word in enumerate(line.said()):
        yield text(x + width if line.sample else middle, top + 108 + 16 * at, word, anchor="end" if line.sample else "middle")


def panel(lines, top, title, first, last):
    yield text(8, top + 22, title, 16, "start", "bold")
    for y, words in ((46, "time in ms"), (75, "fed to the unit"), (108, "its answer"), (148, "state")):
        yield text(8, top + y, words, 12, "start")
    placed = list(places(lines, first, last))
    for at, x, width in placed:
        yield from box(None if at is None else lines[at], x, width, top)
    centre = {at: x + width / 2 for at, x, width in placed}
    right = placed[-1][1] + placed[-1][2]
    for start, end, row, fill, words in spans(lines):
        if start < last and end >= first - 1:
            x, x2 = centre.get(start, LEFT), centre.get(end, right)
            yield rect(x, top + 134 + 21 * row, x2 - x, 19, fill)
            yield text((x + x2) / 2, top + 148 + 21 * row, words)


def main():
    texts = ((DOCS / name).read_text().splitlines() for name in ("four-arms.txt", "four-arms-answers.txt"))
    lines = [Line(record, answer) for record, answer in zip(*texts)]
    height = HEIGHT * len(PANELS) + FOOT
    print(f'<svg xmlns="http://www.w3.org/2000/svg" viewBox="0 0 {WIDTH} {height}" width="{WIDTH}" height="{height}" role="img" '
          'aria-labelledby="title about" font-family="DejaVu Sans, Verdana, sans-serif" fill="#1b1b1b">')
    print(f'<title id="title">{TITLE}</title>\n<desc id="about">{ABOUT}</desc>\n{rect(0, 0, WIDTH, height, "white")}')
    for at, shown in enumerate(PANELS):
        print(*panel(lines, HEIGHT * at, *shown), sep="\n")
    print(text(8, height - 12, LEGEND, anchor="start"), "</svg>", sep="\n")


main()
