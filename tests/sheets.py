#!/usr/bin/env python3
"""The paper sheet, by the library and by the program, beside a second writing of it (tests/paper/page.py).

    python3 tests/sheets.py crates/c_calls/out/libc_calls.a crates/flightsheet/out/flightsheet [long]

A dash in the place of either leaves it out. long adds sheets of over a million pages, whose numbers begin again from 0. What both programs
make of docs/four-arms.txt, tests/sessions.py compares with docs/four-arms-sheet.txt.
"""
import sys
from pathlib import Path

sys.dont_write_bytecode = True
sys.path.insert(0, str(Path(__file__).resolve().parent / "paper"))
from answers import DOCS, INPUT, OUTPUT, WORDS, delivered  # noqa: E402
from library import library  # noqa: E402
from page import sheet  # noqa: E402
from program import program  # noqa: E402


def golden():
    """The sheet in docs/ is that of the answers beside it, and what `rt ci` replays that of its input."""
    arms = (DOCS / "four-arms-answers.txt", "4213", "14", DOCS / "four-arms-sheet.txt")
    for answers, motors, magnets, stored in (arms, (INPUT, *WORDS.read_text().split(), OUTPUT)):
        if stored.read_bytes() != sheet(delivered(answers.read_bytes()), [int(motor) for motor in motors], int(magnets)):
            sys.exit(f"sheets: {stored} is not the sheet of {answers}")


def main():
    archive, path, *long = sys.argv[1:]
    golden()
    if archive != "-":
        library(archive, long == ["long"])
    if path != "-":
        program(path, long == ["long"])


main()
