"""The commands of docs/OPERATIONS.md that look for a broken condition: nothing on a session in which all hold, the line where
one is broken."""
import re
import subprocess

from tool import DOCS, SESSIONS, expect, files, printed

# of docs/four-arms.txt: the cut before arm 3's request; the time of arm 4's last byte, made a second less
CUT = 28
BYTE, LATE, EARLY = 58, "1621", "1239"


def said(command, folder, records, answers):
    """What a command prints of a session in plain words; the numbers of the lines."""
    pair = folder / "broken.txt", folder / "broken-answers.txt"
    for file, lines in zip(pair, (records, answers)):
        file.write_text("\n".join(lines) + "\n")
    (folder / "flight.plain").write_text(printed(*SESSIONS["four-arms"][1], *pair))
    done = subprocess.run(["sh", "-c", command], cwd=folder, capture_output=True, text=True, timeout=60, check=True)
    return [int(line.split()[0]) for line in done.stdout.splitlines()]


def conditions(folder):
    clock, cuts = re.findall(r"^ +(awk .*)$", (DOCS / "OPERATIONS.md").read_text(), re.M)
    records, answers = (file.read_text().splitlines() for file in files("four-arms"))
    expect("06", records[CUT - 1], "four-arms: a cut")
    for command in (clock, cuts):
        expect([], said(command, folder, records, answers), command)
    uncut = [lines[:CUT - 1] + lines[CUT:] for lines in (records, answers)]
    expect([CUT], said(cuts, folder, *uncut), cuts)
    early = [line.replace(LATE, EARLY) if number == BYTE else line for number, line in enumerate(records, 1)]
    expect([BYTE], said(clock, folder, early, answers), clock)
