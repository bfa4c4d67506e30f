#!/usr/bin/env python3
"""Each finding of docs/DIFFERENCES.md has its list of calls, each list its finding, and what is quoted stands there.

An entry is its title, which leads to oracle/findings/, then the comment and the code. A comment of the Rust is quoted with
its lines; ` .. ` leaves words out.
"""
import re
import sys
from pathlib import Path

ROOT = Path(__file__).resolve().parent.parent
PAGE = ROOT / "docs/DIFFERENCES.md"
LISTS = ROOT / "oracle/findings"
ENTRY = re.compile(r"^\*\*\[(\w+)\]\(\.\./oracle/findings/(\w+)\.txt\)\. .+\*\*\n- (?:Comment|Document)(.*)\n- Code: .+\n$", re.M)
TITLE = re.compile(r"^\*\*\[?[lmid]\d\d\b", re.M)
LINES = re.compile(r"(\d+)(?:-(\d+))?")


def text(lines):
    """Lines of comments as one, without their marks."""
    return " ".join(" ".join(re.sub(r"^\s*//[/!]?", "", line) for line in lines).split())


def quoted(comment, source):
    """The quotations that do not stand in the lines named before them."""
    heads = " ".join(re.findall(r"\blines? [\d, and-]+", comment))
    named = [text(source[int(first) - 1 : int(last or first)]) for first, last in LINES.findall(heads)]
    for quotation in re.findall(r'"([^"]*)"', comment) if named else []:
        for part in quotation.split(" .. "):
            if not any(part in lines for lines in named):
                yield part


def faults():
    page = PAGE.read_text()
    rust = {name: (ROOT / "oracle/rust" / name).read_text().split("\n") for name in ("lib.rs", "esc_manager.rs")}
    entries = ENTRY.findall(page)
    names = [name for name, _, _ in entries]
    if len(names) != len(TITLE.findall(page)):
        yield "an entry is not a title, a comment and the code"
    for name, leads, comment in entries:
        if name != leads:
            yield f"{name} leads to the list {leads}"
        source = rust["lib.rs" if name[0] == "l" or "`lib.rs`" in comment else "esc_manager.rs"]
        for part in quoted(comment, source):
            yield f"{name}: not in the lines named: {part}"
    lists = {path.stem for path in LISTS.iterdir()}
    for name in lists.symmetric_difference(names):
        yield f"{name} has no entry" if name in lists else f"{name} has no list"
    for name in {name for name in names if names.count(name) > 1}:
        yield f"{name} stands twice"


def main():
    found = [f"docs/DIFFERENCES.md: {fault}" for fault in faults()]
    for fault in sorted(found):
        print(fault)
    sys.exit(1 if found else 0)


main()
