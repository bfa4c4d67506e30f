#!/usr/bin/env python3
"""What the prover does not ask of the text.

Every public function has a comment that says what it is for. In a library it asks nothing by a `requires`, and
states its result by an equation, `result ≡ ..` or of what `result` stands for, and what each lent buffer holds afterwards by
another, `buffer.new ≡ ..`. A conversion to another type, by `From` or `TryFrom`, has a comment too, and its equation in the ghost line of
its trait, which asks for none. A crate that is a part of others is theirs alone: no further crate's code names it, and printing a
line asks for room, which each call of it proves. Every file of specs/ and proofs/ opens with a comment that says what it is or why
it is true, and has no line of more than 160 characters. What specs/ define, they define once: one word, one meaning.
"""
import re
import sys
from pathlib import Path

CRATES = Path(__file__).resolve().parent.parent / "crates"
FUNCTION = re.compile(r'^ *pub (?:const |unsafe |extern "C" )*fn (\w+)', re.M)
CONVERSION = re.compile(r"^impl(?:<[^{]*?>)? (Try)?From<(.+)> for (.+) \{", re.M)
# where a clause begins, or else the body; no type of a parameter has a brace
BRACE = re.compile(r"(?:^\s*(requires|ensures)\b[*]?\s*\w*\s*)?\{", re.M)
DEFINED = re.compile(r"^(?:unfoldable |abbrev )?pub (?:record |data )?(?!use |mod )([^\s:({]+)", re.M)
WIDEST = 160
# crates that are a part of others
PARTS = {"hex_lines": ["answer_lines", "record_lines", "unit_text"], "record_lines": ["unit_text"]}
# what of them has a `requires`
ASKS = {"print_line"}


def closed(text, at):
    """The place behind the brace that closes the one before this place."""
    depth = 1
    while depth:
        depth += {"{": 1, "}": -1}.get(text[at], 0)
        at += 1
    return at


def commented(text, at):
    """Whether a comment stands above what begins at this place."""
    above = [line.strip() for line in text[:at].split("\n")[:-1] if not line.strip().startswith("#[")]
    return bool(above) and above[-1].startswith("//")


def functions(path):
    """Each public function: its name, its parameters and result, its clauses, and whether a comment stands above it."""
    text = path.read_text()
    for found in FUNCTION.finditer(text):
        start = BRACE.search(text, found.end())
        signature, clauses = text[found.end() : start.start()], []
        while start[1]:
            end = closed(text, start.end())
            clauses.append((start[1], text[start.end() : end - 1]))
            start = BRACE.search(text, end)
        yield found[1], signature, clauses, commented(text, found.start())


def facts(clause):
    """The facts that a clause joins by ×."""
    parts, depth, start = [], 0, 0
    for at, letter in enumerate(clause):
        depth += {"(": 1, ")": -1}.get(letter, 0)
        if letter == "×" and not depth:
            parts.append(clause[start:at])
            start = at + 1
    parts = [part.strip() for part in [*parts, clause[start:]]]
    if len(parts) == 1:
        inner = parts[0][1:-1]
        return facts(inner) if parts[0] == f"({inner})" and balanced(inner) else parts
    return [fact for part in parts for fact in facts(part)]


def balanced(text):
    """Whether each bracket closes one that was opened in this text."""
    depth = 0
    for letter in text:
        depth += {"(": 1, ")": -1}.get(letter, 0)
        if depth < 0:
            return False
    return depth == 0


def states(fact):
    """Whether a fact says what the result is, by an equation on it."""
    return re.match(r"[^≡]*(?<![\w.])result(?![\w'])[^≡]*≡", fact)


def demands(path):
    for name, _, clauses, _ in functions(path):
        if name not in ASKS and any(kind == "requires" for kind, _ in clauses):
            yield f"{path}: pub fn {name} has a `requires`"


def contracts(path):
    for name, signature, clauses, _ in functions(path):
        ensured = [fact for kind, clause in clauses if kind == "ensures" for fact in facts(clause)]
        if "->" in signature and not any(map(states, ensured)):
            yield f"{path}: pub fn {name} does not state its result by an equation"
        for lent in re.findall(r"(\w+): &(?:'\w+ )?mut |&(?:'\w+ )?mut (self)", signature):
            buffer = lent[0] or lent[1]
            if not any(fact.startswith(f"{buffer}.new ≡ ") for fact in ensured):
                yield f"{path}: pub fn {name} does not state by an equation what {buffer} holds afterwards"


def conversions(path):
    """Conversions without their comment or their equation."""
    text = path.read_text()
    for found in CONVERSION.finditer(text):
        law = f"{'try_' if found[1] else ''}from_gives"
        body = text[found.end() : closed(text, found.end())]
        if not commented(text, found.start()):
            yield f"{path}: {found[0][:-2]} has no comment"
        if not re.search(rf"ghost {law} = \{{ λ \w+ (\w+)\. [^≡}}]*\b\1\b[^≡}}]*≡ ", body):
            yield f"{path}: {found[0][:-2]} does not state its result by an equation, `{law}`"


def purposes(path):
    for name, *_, told in functions(path):
        if not told:
            yield f"{path}: pub fn {name} has no comment"


def strangers(path):
    """Code that names a part of other crates."""
    crate = path.relative_to(CRATES).parts[0]
    for part, users in PARTS.items():
        if crate not in [part, *users] and re.search(rf"\b{part}::", path.read_text()):
            yield f"{path}: {part} is for {' and '.join(users)} alone"


def layout(path):
    text = path.read_text()
    if not text.startswith("-- "):
        yield f"{path}: no comment at its top"
    if max(map(len, text.split("\n"))) > WIDEST:
        yield f"{path}: a line of more than {WIDEST} characters"


def meanings(paths):
    """Words that two files define."""
    places = {}
    for path in paths:
        for word in DEFINED.findall(path.read_text()):
            places.setdefault(word, set()).add(path)
    for word, files in places.items():
        if len(files) > 1:
            yield f"{word} is defined in {' and in '.join(map(str, sorted(files)))}"


def main():
    libraries = [crate for crate in CRATES.iterdir() if crate.name not in PARTS and not (crate / "src/main.rt").exists()]
    faults = [fault for crate in libraries for path in crate.glob("src/**/*.rt") for fault in [*contracts(path), *conversions(path)]]
    faults += [fault for crate in [*libraries, *(CRATES / part for part in PARTS)] for path in crate.glob("src/**/*.rt") for fault in demands(path)]
    faults += [fault for path in CRATES.glob("*/src/**/*.rt") for fault in [*purposes(path), *strangers(path)]]
    faults += [fault for part in ("specs", "proofs") for path in CRATES.glob(f"*/{part}/**/*.antt") for fault in layout(path)]
    faults += meanings(CRATES.glob("*/specs/**/*.antt"))
    for fault in sorted(faults):
        print(fault)
    sys.exit(1 if faults else 0)


main()
