#!/usr/bin/env python3
"""tools/unitplain, on stored sessions and on bad input.

What it must print is written by hand in tests/plain/*-plain.txt, from docs/RECORDS.md; wire bytes that bring no reading are
left out there and made from their digits. The CSV and the picture are compared with the numbers of the digits. What
docs/OPERATIONS.md shows is printed, and its commands find a broken condition.
tests/plain/every-kind.txt has every kind, every form of answer and every number that refuses a line; its answers are the
Rust reference's.
"""
import re
import sys
import tempfile
from pathlib import Path

sys.dont_write_bytecode = True
sys.path.insert(0, str(Path(__file__).resolve().parent / "plain"))
from bad import bad_files, edges, unfit, usage  # noqa: E402
from conditions import conditions  # noqa: E402
from digits import pairs, silent_bytes  # noqa: E402
from drawing import drawn  # noqa: E402
from table import table  # noqa: E402
from tool import DOCS, REPLAY, SESSIONS, STORED, expect, fail, files, printed  # noqa: E402


def rendered(name):
    silent = silent_bytes(pairs(*files(name)))
    by_hand = iter((STORED / f"{name}-plain.txt").read_text().splitlines())
    for number, line in enumerate(printed(*SESSIONS[name][1], *files(name)).splitlines(), 1):
        expect(silent.get(number) or next(by_hand, None), line, f"{name}: line {number}")
    expect(None, next(by_hand, None), f"{name}: after the last line")


def every_kind():
    """every-kind.txt has what its name says, and the refusals' words are those of docs/RECORDS.md."""
    text = (STORED / "every-kind-plain.txt").read_text()
    rows = re.findall(r"^\| ([1-9]\d*) \| ([^;|]*[^;| ])", (DOCS / "RECORDS.md").read_text(), re.M)
    wanted = [f"({kind:02x})" for kind in range(0x0f)] + [f"refused, {number}: {words}" for number, words in rows[:8]]
    for words in wanted:
        if words not in text:
            fail(f"every-kind-plain.txt has no {words}")


def quoted():
    """The lines of the block in docs/OPERATIONS.md are printed for docs/four-arms.txt, in their order."""
    lines = iter(printed(*SESSIONS["four-arms"][1], *files("four-arms")).splitlines())
    for line in (DOCS / "OPERATIONS.md").read_text().split("\n```\n")[1].splitlines():
        if line not in lines:
            fail(f"docs/OPERATIONS.md: not printed, or not there: {line}")


def main():
    for name in SESSIONS:
        rendered(name)
    every_kind()
    quoted()
    sessions = [*map(files, SESSIONS), REPLAY]
    rows = sum(table(*session) for session in sessions)
    for session in sessions:
        drawn(*session)
    tried = unfit()
    usage()
    with tempfile.TemporaryDirectory() as made:
        bad_files(Path(made))
        edges(Path(made))
        conditions(Path(made))
    print(f"plain: {len(SESSIONS)} sessions in words, {rows} readings as CSV and drawn, {tried} answers that do not fit")


main()
