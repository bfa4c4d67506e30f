"""Answers that do not fit, files that can't be read, wrong calls: a message that names the place, and a status."""
import subprocess
import sys
import xml.etree.ElementTree as xml

from digits import pairs
from tool import REPLAY, TOOLS, expect, fail, files, printed, run

sys.path.insert(0, str(TOOLS))
from plain.decode import Unfit  # noqa: E402
from plain.session import event  # noqa: E402


def unfit():
    """An answer that is changed does not fit; how many were tried."""
    tried, opened = 0, False
    for number, record, answer in pairs(*files("every-kind")):
        changed = {answer + "00", answer[:-2], answer[:-1], answer + "\r", " " + answer, "ff" + answer[2:], "09" + answer[2:],
                   answer.upper(), "", "00" + "ff" * 42} - {answer}
        for wrong in changed:
            try:
                event(number, record.encode("latin-1"), wrong.encode(), opened)
            except Unfit:
                tried += 1
            else:
                fail(f"{wrong!r} was taken for an answer to {record!r}")
        opened = opened or (record[:2] == "00" and answer == "00")
    return tried


def refuses(status, *words, arguments, output=None, **more):
    """A message with some words on standard error, and this status."""
    done = run(*arguments, **more)
    said = done.stderr.decode()
    if done.returncode != status or "Traceback" in said or not all(word in said for word in words):
        fail(f"{arguments}: exit {done.returncode}, said {said!r}")
    if output is not None:
        expect(output, done.stdout.decode(), f"{arguments}: printed")


def bad_files(folder):
    records, answers = folder / "records.txt", folder / "answers.txt"

    def pair(one, other, *words, output):
        records.write_bytes(one)
        answers.write_bytes(other)
        refuses(1, *words, arguments=[records, answers], output=output)

    refuses(1, f"{records}: No such file", arguments=[records, answers], output="")
    refuses(1, f"{folder}: Is a directory", arguments=[folder, answers], output="")
    first = "     1           -  cut (06) → refused, 8: any kind but 00 before the first accepted 00\n"
    pair(b"06\n06\n", b"08\n", f"{answers}: line 2 is missing", str(records), output=first)
    pair(b"06\n", b"08\n08\n", f"{records}: line 2 is missing", str(answers), output=first)
    pair(b"06\n06\n", b"08\n00\n", f"{answers}: line 2: '00' does not fit", "refused, 8", output=first)
    pair(b"06\n" + b"00" * 29, b"08\n0001\n", f"{answers}: line 2: '0001' does not fit", "opening (00)", output=first)
    pair(b"06\n06\r\n", b"08\n00\n", f"{answers}: line 2: '00' does not fit", "refused, 2", output=first)
    pair(b"06\n06\n", b"08\n\xff\xfe\n", f"{answers}: line 2: '\\xff\\xfe' does not fit", output=first)
    pair(b"06\n", b"0" * 1_000_000 + b"\n", f"{answers}: line 1: '{'0' * 60}' ..", output="")
    for form in ("--csv", "--svg"):
        refuses(1, f"{answers}: line 1", arguments=[form, records, answers])


def usage():
    records, answers = files("session")
    for wrong in ([], ["--frobnicate", records, answers], [records], [records, answers, records], ["-", "-"],
                  ["--csv", "--svg", records, answers], ["--cs", records, answers], ["--map"],
                  *(["--map", text, records, answers] for text in ("1233", "12345", "0123", "")),
                  *(["--magnets", text, records, answers] for text in ("0", "13", "256", "-2", "x", "²", ""))):
        refuses(2, "usage: unitplain", arguments=wrong, output="")
    expect(True, "--magnets" in printed("--help"), "--help")


def edges(folder):
    """Standard input for either file, no lines at all, no last LF, an odd name, an output that can't be written."""
    records, answers = files("session")
    whole = printed(records, answers)
    for arguments, text in ((["-", answers], records), ([records, "-"], answers)):
        done = run(*arguments, input=text.read_bytes())
        expect((0, whole, ""), (done.returncode, done.stdout.decode(), done.stderr.decode()), f"{arguments}")
    empty = folder / "empty.txt"
    empty.write_bytes(b"")
    expect(["", "Summary: 0 lines, 0 openings, 0 recoveries, 0 refused"], printed(empty, empty).splitlines()[:2], "no lines")
    expect(1, len(printed("--csv", empty, empty).splitlines()), "a CSV of no lines")
    xml.fromstring(printed("--svg", empty, empty))
    for text, cut in ((records, folder / "cut.txt"), (answers, folder / "cut-answers.txt")):
        cut.write_bytes(text.read_bytes().removesuffix(b"\n"))
    expect(whole, printed(folder / "cut.txt", folder / "cut-answers.txt"), "no last LF")
    named = folder / "a & b <c> \".txt"
    named.write_bytes(records.read_bytes())
    expect(f"Readings of {named}", xml.fromstring(printed("--svg", named, answers))[0].text, "a name with marks")
    with open("/dev/full", "wb") as full:
        done = subprocess.run([TOOLS / "unitplain", records, answers], stdout=full, stderr=subprocess.PIPE, timeout=60)
    expect((1, b"unitplain: standard output: No space left on device\n"), (done.returncode, done.stderr), "a full disk")
    piped = subprocess.run(f"{TOOLS}/unitplain {REPLAY[0]} {REPLAY[1]} | head -n 1", shell=True, capture_output=True, timeout=60)
    expect((1, b""), (piped.stdout.count(b"\n"), piped.stderr), "a reader that ends early")
