#!/usr/bin/env python3
"""What the documents name exists.

In docs/BOOKING.md, docs/CLAIMS.md and docs/GLOSSARY.md a name stands in back quotes before its file, as in `conserved`,
`booking/proofs/Conserved.antt`; several names may share a file. Each must be declared there: a theorem, definition, record or
list of an .antt file, a function or type of an .rt file. A name with no file must be declared in a file that the document names. A
path is one from the root or from crates/. Anything else in back quotes is a fault, but for the few words below.

In the other documents for readers of the sources a name in back quotes that only a source could have, with an underscore, a dash
or a capital inside it, stands in one.

In every document, links and paths in back quotes lead to something; of what a build makes, in out/ or target/, the folder before.
"""
import re
import sys
from pathlib import Path

ROOT = Path(__file__).resolve().parent.parent
STRICT = ["docs/BOOKING.md", "docs/CLAIMS.md", "docs/GLOSSARY.md"]
WORDS = {"ensures", "requires", ".edit", "N passed, 0 failed"}
NAMED = ["README.md", "docs/DECISIONS.md", "docs/PROVING.md", "docs/RECORDS.md", "docs/OPERATIONS.md", "docs/PERFORMANCE.md"]
SOURCES = ["crates/*/src", "crates/*/specs", "crates/*/proofs", "crates/*/must-fail", "oracle", "bench", "examples", "include", "tools", "tests"]
NAME = re.compile(r"[A-Za-z][\w'-]*(?:::[A-Za-z]\w*)?")
# a name that only a source could have; the toolchain's own is of none
INNER = re.compile(r"(?!rattle-kit-).*(?:[_-]|::|[a-z][A-Z])")
# what a build makes
MADE = re.compile(r"(?:^|(?<=/))(?:out|target)(?:/.*)?$")
SPAN = re.compile(r"`([^`\n]+)`")
LINK = re.compile(r"\]\(([^)#]*)#?([^)]*)\)")
PATH = re.compile(r"[\w.*-]*(?:/[\w.*-]*)+")


def prose(text):
    """A document without its blocks of code."""
    text = re.sub(r"^```.*?^```$", "", text, flags=re.M | re.S)
    return re.sub(r"^    .*$", "", text, flags=re.M)


def places(path, document):
    """What a path may mean: from the root, from crates/, from its document, or in some crate."""
    tries = [(ROOT, path), (ROOT / "crates", path), (document.parent, path), (ROOT / "crates", "*/" + path)]
    return [found for base, pattern in tries for found in base.glob(pattern.rstrip("/"))]


def declares(file, name):
    text = file.read_text()
    if file.suffix == ".antt":
        shape = r"^ *(?:(?:abbrev|unfoldable|pub|record|data) +)*%s(?: +[({][^=\n]*)? :"
        return re.search(shape % re.escape(name), text, re.M)
    if file.suffix == ".rt":
        owner, _, method = name.rpartition("::")
        owned = not owner or re.search(r"^impl %s\b" % re.escape(owner), text, re.M)
        return owned and re.search(r"\b(?:fn|struct|enum) %s\b" % re.escape(method), text)
    return None


def citations(text):
    """Names with the file behind them: a run of back quotes with commas between, ended by a path."""
    names, end = [], None
    for span in SPAN.finditer(text):
        if names and not re.fullmatch(r",\s+", text[end:span.start()]):
            yield names, None
            names = []
        if PATH.fullmatch(span[1]):
            yield names, span[1]
            names = []
        else:
            names.append(span[1])
        end = span.end()
    if names:
        yield names, None


def strict(document):
    alone, files, cited = [], [], 0
    for names, path in citations(prose(document.read_text())):
        found = [place for place in (ROOT / path, ROOT / "crates" / path) if place.exists()] if path else []
        if path and not found:
            yield f"{path} does not exist"
        if found and found[0].is_file():
            files.append(found[0])
            yield from (f"{name} is not declared in {path}" for name in names if not declares(found[0], name))
        else:
            alone += [name for name in names if name not in WORDS]
        cited += len(names) + bool(path)
    for name in alone:
        if not any(declares(file, name) for file in files):
            yield f"{name} is declared in no file that the document names"
    if cited < 40:
        yield f"only {cited} names and paths were found: has the format changed?"


def words():
    """Every word of the sources, what their files and folders are called, and what is declared in a file with a type's name."""
    found = set()
    for source in SOURCES:
        for path in (path for folder in ROOT.glob(source) for path in folder.rglob("*")):
            found |= {path.name, path.stem}
            if path.suffix in {".antt", ".rt", ".edit", ".rs", ".py", ".c", ".h", ""} and path.is_file():
                text = path.read_text()
                found |= {*re.findall(r"[\w'-]+", text), *re.findall(r"\w+", text)}
                owners = re.findall(r"^impl(?:<.*?>)? (\w+)", text, re.M)
                found |= {f"{owner}::{item}" for owner in owners for item in re.findall(r"\b(?:fn|const) (\w+)", text)}
    return found


def named(document, known):
    names = {span for span in SPAN.findall(prose(document.read_text())) if NAME.fullmatch(span) and INNER.match(span)}
    yield from (f"{name} stands in no source" for name in names if name not in known)


def anchors(document):
    """What a link may have behind its #: a heading in small letters, without its marks, a hyphen for each space."""
    headings = re.findall(r"^#+ (.*)$", document.read_text(), re.M)
    return {re.sub(r"[^\w -]", "", heading.lower()).replace(" ", "-") for heading in headings}


def leads(document):
    text = document.read_text()
    for path, anchor in LINK.findall(text):
        if path.startswith("http"):
            continue
        target = document.parent / path if path else document
        if not target.exists() or (anchor and anchor not in anchors(target)):
            yield f"the link {path}#{anchor} leads nowhere"
    for span in SPAN.findall(prose(text)):
        kept = MADE.sub("", span)
        if PATH.fullmatch(span) and kept and not kept.startswith("/") and not places(kept, document):
            yield f"{span} does not exist"


def main():
    documents = sorted([*ROOT.glob("*.md"), *ROOT.glob("docs/*.md"), *ROOT.glob("oracle/*.md")])
    faults = [f"{document.relative_to(ROOT)}: {fault}" for document in documents for fault in leads(document)]
    faults += [f"{name}: {fault}" for name in STRICT for fault in strict(ROOT / name)]
    known = words()
    faults += [f"{name}: {fault}" for name in NAMED for fault in named(ROOT / name, known)]
    for fault in sorted(set(faults)):
        print(fault)
    sys.exit(1 if faults else 0)


main()
