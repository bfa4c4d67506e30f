#!/usr/bin/env python3
"""Every name that a file of a crate imports is used in it.

In .antt files and in the clauses of .rt files a name is a run of characters up to a space or one of ( ) { } . ; , @ " « »; an
operator such as ◌+◌ is used where its symbol stands. A name behind a dot is a field's, and one before `=` behind a brace, a
comma or `let` is a field's, an argument's or a new one: none of these is an import. A module is used where a dot follows it.
What `pub use` passes on is used.
"""
import re
import sys
from pathlib import Path

ROOT = Path(__file__).resolve().parent.parent
USE = re.compile(r"^(?:unfoldable )?(pub )?use ([^\s{;]+?)(?:\.\{([^}]*)\}| as (\S+))?$", re.M)
ANY_USE = re.compile(r"^\s*(?:unfoldable |pub )*use .*", re.M)
TOKEN = re.compile(r'--[^\n]*|\{-.*?-\}|"(?:\\.|[^"\\])*"|«[^»]*»|[^\s(){}.;,@"«»]+|[(){}.;,@]', re.S)
GHOST_USE = re.compile(r"^\s*ghost (use [^;]*);", re.M)
CLAUSE = re.compile(r"\b(?:requires|ensures|ghost)\b[*]?(?:\s+\w+:?)?(?:\s*=)?\s*\{")
BRACKET = re.compile(r"⟦([^⟧]*)⟧")
RUST_USE = re.compile(r"^\s*(pub(?:\(\w+\))? )?use ([^;]*);", re.M)
# comments, texts and characters
RUST_TEXT = re.compile(r"""//[^\n]*|"(?:\\.|[^"\\])*"|'(?:\\.|[^'\\])'""")


def imports(text):
    """The items and the modules that antt's `use` lines bring, and the first names of their paths."""
    items, modules, heads = [], [], set()
    for passed_on, path, group, name in USE.findall(text):
        heads.add(path.split(".")[0])
        if passed_on or path.endswith("*"):
            continue
        if group:
            items += [re.split(r" as |\.", item.strip())[-1] for item in group.split(",")]
        else:
            modules.append(name or path.split(".")[-1])
    return items, modules, heads


def parts(name):
    """What stands in a text where a name is used: itself, or each symbol of an operator or a section."""
    return {name.strip("«»")} if name.startswith("«") else set(name.split("◌")) - {""}


def uses(text):
    """The names in antt's text that may be an item's, and those that a dot follows."""
    tokens = [token for token in TOKEN.finditer(text) if not token[0].startswith(("--", "{-", '"'))]
    names, paths = set(), set()
    for before, token, after in zip([None, *tokens], tokens, [*tokens[1:], None]):
        if before and before[0] == "." and before.end() == token.start():
            continue
        if after and after[0] == "." and after.start() == token.end():
            paths.add(token[0])
        if not (before and before[0] in ("{", ";", ",", "let") and after and after[0] == "="):
            names |= parts(token[0])
    return names, paths


def unused_antt(text):
    items, modules, heads = imports(text)
    body = USE.sub("", text)
    names, paths = uses(body)
    yield from (f"{name} is imported and not used" for name in items if not parts(name) <= names)
    yield from (f"{name} is imported and not used" for name in modules if name not in paths | heads)
    yield from (f"not read: {line.strip()}" for line in ANY_USE.findall(body))


def clauses(text):
    """The clauses of a .rt file, which are antt's text, and the rest; what stands in brackets in a clause is code."""
    ghost, code, at = "", "", 0
    while start := CLAUSE.search(text, at):
        depth, end = 1, start.end()
        while depth:
            depth += {"{": 1, "}": -1}.get(text[end], 0)
            end += 1
        clause = text[start.end() : end - 1]
        ghost += BRACKET.sub(" ", clause) + "\n"
        code += text[at : start.start()] + " ".join(BRACKET.findall(clause))
        at = end
    return ghost, code + text[at:]


def unused_rt(text):
    headers = "\n".join(GHOST_USE.findall(text))
    ghost, code = clauses(GHOST_USE.sub("", RUST_TEXT.sub("", text)))
    yield from unused_antt(headers + "\n" + ghost)
    # a clause names types by the code's imports too
    types = uses(ghost)[0].difference(imports(headers)[0])
    body = RUST_USE.sub("", code)
    for passed_on, path in RUST_USE.findall(code):
        for name in [] if passed_on else re.findall(r"(\w+)\s*(?=,|\}|$)", path):
            # not a field, a part of a path or a binder
            if name not in types and not re.search(rf"(?<!::)(?<![^.]\.)\b{name}\b(?!\s*:[^:])", body):
                yield f"{name} is imported and not used"


def main():
    found = 0
    for part, suffix, unused in (("specs", "antt", unused_antt), ("proofs", "antt", unused_antt), ("src", "rt", unused_rt)):
        for path in sorted(ROOT.glob(f"crates/*/{part}/**/*.{suffix}")):
            for fault in unused(path.read_text()):
                print(f"{path.relative_to(ROOT)}: {fault}")
                found += 1
    sys.exit(1 if found else 0)


main()
