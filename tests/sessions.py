#!/usr/bin/env python3
"""The sessions in the documents are what the program prints.

Each NAME-answers.txt in docs/ and tests/plain/ is the output for NAME.txt beside it, as it stands, in small letters, in capitals
and in both. docs/capitals.txt is the text that is proved to have its answers; it is cut at each of its places, so that the
program reads it in two parts. docs/four-arms-sheet.txt is the sheet of docs/four-arms.txt. README.md's commands with `tr` and with
`flightsheet` print what it says. The table of README.md and the numbered lines of docs/BOOKING.md are lines of such a session;
docs/request.svg is what docs/draw.py draws.

    python3 tests/sessions.py crates/unitlines/out/unitlines crates/flightsheet/out/flightsheet
"""
import re
import socket
import subprocess
import sys
from pathlib import Path

ROOT = Path(__file__).resolve().parent.parent
DOCS = ROOT / "docs"
# as in: 43  02 00000003 03 0000000000000280  →  00 01
NUMBERED = re.compile(r"^ *(\d+)  ([0-9a-f ]*?) *  →  ([0-9a-f ]+)$", re.M)
CAPITALS = bytes.maketrans(b"abcdef", b"ABCDEF")
SMALL = bytes.maketrans(b"ABCDEF", b"abcdef")


def whole(program, text):
    """What is printed for a text."""
    return told(text, subprocess.run([program], input=text, capture_output=True, timeout=60))


def in_parts(program, *parts):
    """What is printed for a short text that comes in parts: of such a socket each read gets one of them."""
    ours, theirs = socket.socketpair(socket.AF_UNIX, socket.SOCK_SEQPACKET)
    with theirs:
        with ours:
            for part in parts:
                ours.send(part)
        return told(parts[0], subprocess.run([program], stdin=theirs, capture_output=True, timeout=60))


def told(text, done):
    if done.returncode or done.stderr:
        sys.exit(f"sessions: {text[:60]!r} ..: exit {done.returncode}, said {done.stderr!r}")
    return done.stdout


def lines(name):
    return list(zip((DOCS / f"{name}.txt").read_text().splitlines(), (DOCS / f"{name}-answers.txt").read_text().splitlines()))


def mixed(text):
    """A text with capitals at every second place."""
    return bytes(pair[at % 2] for at, pair in enumerate(zip(text, text.translate(CAPITALS))))


def printed(program):
    """How many sessions there are, each printed as it is stored, in whatever letters."""
    stored = sorted([*DOCS.glob("*-answers.txt"), *(ROOT / "tests/plain").glob("*-answers.txt")])
    for answers in stored:
        session = answers.with_name(answers.name.removesuffix("-answers.txt") + ".txt")
        stored_text, wanted = session.read_bytes(), answers.read_bytes()
        small = stored_text.translate(SMALL)
        for text in (stored_text, small, small.translate(CAPITALS), mixed(small)):
            if whole(program, text) != wanted:
                sys.exit(f"sessions: {session.name} does not print {answers.name}: {text[:60]!r} ..")
    return len(stored)


def cut(program):
    """docs/capitals.txt, cut at each of its places: how many there are."""
    text, wanted = ((DOCS / f"{name}.txt").read_bytes() for name in ("capitals", "capitals-answers"))
    places = range(1, len(text))
    for place in places:
        if in_parts(program, text[:place], text[place:]) != wanted:
            sys.exit(f"sessions: docs/capitals.txt, cut behind {text[:place][-30:]!r}, does not print its answers")
    return len(places)


def filed(program, flightsheet):
    """The sheet of docs/four-arms.txt, by both programs."""
    answers = whole(program, (DOCS / "four-arms.txt").read_bytes())
    made = subprocess.run([flightsheet, "4213", "14"], input=answers, capture_output=True, timeout=60)
    if told(answers, made) != (DOCS / "four-arms-sheet.txt").read_bytes():
        sys.exit("sessions: docs/four-arms.txt does not make docs/four-arms-sheet.txt")


def commanded(program, flightsheet):
    """What README.md says to do with capitals, and to make a sheet, of which it shows the first rows."""
    readme = (ROOT / "README.md").read_text()
    (compared,) = re.findall(r"^    (tr a-f A-F .*)$", readme, re.M)
    (shown,) = re.findall(r"^    (.* \| crates/flightsheet/out/flightsheet .*)\n(?:(?!```).*\n)*```\n((?:(?!```).*\n)*)```$", readme, re.M)
    for command, wanted in ((compared, ""), shown):
        places = {"crates/unitlines/out/unitlines": program, "crates/flightsheet/out/flightsheet": flightsheet}
        run = re.sub("|".join(places), lambda found: places[found[0]], command)
        done = subprocess.run(run, shell=True, cwd=ROOT, capture_output=True, text=True, timeout=60)
        # README.md shows no blanks at the ends of rows
        printed = re.sub(" +$", "", done.stdout, flags=re.M)
        if done.returncode or printed != wanted or done.stderr:
            sys.exit(f"sessions: {command}: exit {done.returncode}, said {done.stdout + done.stderr!r}")


def proved():
    """docs/capitals.txt and its answers are those of the proof: the texts in quotes there, two lines of them cut in two."""
    source = (ROOT / "crates/session_rules/proofs/CapitalsLive.antt").read_text()
    definitions = {name: source.split(f"\n{name} =")[1].split("\n\n")[0] for name in ("first", "second", "third", "answers")}
    typed = {name: re.findall('"(.*?)"', text) for name, text in definitions.items()}
    *whole, begun = typed["first"]
    ended, *more, begun_again = typed["second"]
    ended_again, *rest = typed["third"]
    records = [*whole, begun + ended, *more, begun_again + ended_again, *rest]
    if [*zip(records, typed["answers"], strict=True)] != lines("capitals"):
        sys.exit("sessions: docs/capitals.txt or its answers are not what crates/session_rules/proofs/CapitalsLive.antt has")


def drawn():
    made = subprocess.run([sys.executable, DOCS / "draw.py"], capture_output=True, timeout=60, check=True)
    if made.stdout != (DOCS / "request.svg").read_bytes():
        sys.exit("sessions: docs/request.svg is not what docs/draw.py draws")


def numbered():
    """How many lines docs/BOOKING.md shows, each with its number, record and answer."""
    session = lines("four-arms")
    shown = NUMBERED.findall((DOCS / "BOOKING.md").read_text())
    for number, record, answer in shown:
        if session[int(number) - 1] != (record.replace(" ", ""), answer.replace(" ", "")):
            sys.exit(f"sessions: docs/BOOKING.md: line {number} is not line {number} of docs/four-arms.txt")
    return len(shown)


def tabled():
    """The table of README.md, a row for each line."""
    section = (ROOT / "README.md").read_text().split("## A session\n")[1].split("\n## ")[0]
    rows = [row.split("|")[1:] for row in section.splitlines() if row.startswith("|")][2:]
    cells = [("".join(re.findall("`(.*?)`", row[0])), "".join(re.findall("`(.*?)`", row[2]))) for row in rows]
    if cells != lines("session"):
        sys.exit("sessions: the table of README.md is not docs/session.txt with its answers")


def main():
    program, flightsheet = (str(Path(path).resolve()) for path in sys.argv[1:])
    count = printed(program)
    places = cut(program)
    filed(program, flightsheet)
    commanded(program, flightsheet)
    proved()
    drawn()
    tabled()
    shown = numbered()
    if shown < 14:
        sys.exit(f"sessions: docs/BOOKING.md shows {shown} numbered lines, not 14: has their format changed?")
    print(f"sessions: {count} sessions as printed, in small letters, capitals and both, one cut at {places} places, a sheet, the drawing and the {shown} lines shown are theirs")


main()
