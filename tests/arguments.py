#!/usr/bin/env python3
"""The program's arguments, as README.md has them.

The answers expected are those of the documents' sessions, of the session that rt replays, and of a unit never opened. In the
folder that the program is run in there are a few files more, and names that look like options.

    python3 tests/arguments.py crates/unitlines/out/unitlines
"""
import os
import re
import resource
import subprocess
import sys
import tempfile
from pathlib import Path

ROOT = Path(__file__).resolve().parent.parent
README = (ROOT / "README.md").read_text().split("## Run it\n")[1].split("\n## ")[0]
VERSION = re.search(r"version (\d+\.\d+\.\d+)", README)[1]
SESSION, ANSWERS = ROOT / "docs/session.txt", (ROOT / "docs/session-answers.txt").read_bytes()
ARMS, ARMS_ANSWERS = ROOT / "docs/four-arms.txt", (ROOT / "docs/four-arms-answers.txt").read_bytes()
STORED, STORED_ANSWERS = ROOT / "crates/unitlines/stdin", (ROOT / "crates/unitlines/stdout").read_bytes()
# a 06 with no LF behind it, and how a unit never opened refuses it
CUT, REFUSED = b"06", b"08\n"
FILES = {"cut": CUT, "empty": b"", "--help": CUT, "--": CUT, "-x": CUT, "\udcff": CUT}
# the most characters of a path, and of an argument that is looked at
PATH, HELD = 4095, 4096
STDIN = ARMS.read_bytes()


def said(*messages):
    return "".join(f"unitlines: {message}\n" for message in messages).encode(errors="surrogateescape")


def path_of(length):
    """A path of this many characters to the session that the documents have."""
    end = str(SESSION)
    return "/" * (length - len(end)) + end


def cases():
    """Arguments, what is written to standard output, what to standard error; standard input is the four arms' session."""
    yield [], ARMS_ANSWERS, b""
    yield ["-"], ARMS_ANSWERS, b""
    yield ["--"], ARMS_ANSWERS, b""
    yield ["--", "-"], ARMS_ANSWERS, b""
    yield [SESSION], ANSWERS, b""
    yield [STORED], STORED_ANSWERS, b""
    # in the order of the arguments
    yield [SESSION, ARMS], ANSWERS + ARMS_ANSWERS, b""
    yield [ARMS, SESSION], ARMS_ANSWERS + ANSWERS, b""
    yield [SESSION, "-", SESSION], ANSWERS + ARMS_ANSWERS + ANSWERS, b""
    # standard input is at its end when it is read again
    yield ["-", "-"], ARMS_ANSWERS, b""
    # a session of its own: the unit is not open any more; and no line goes on in the next file
    yield [SESSION, "cut", "cut", "-"], ANSWERS + REFUSED + REFUSED + ARMS_ANSWERS, b""
    yield ["empty"], b"", b""
    yield ["cut", "empty", "cut"], REFUSED + REFUSED, b""
    # names like options
    yield ["--", "--help", "-x", "--"], REFUSED * 3, b""
    yield ["cut", "--", "--help"], REFUSED * 2, b""
    yield ["./-x"], REFUSED, b""
    # what can't be read is named, and the next is answered
    yield ["missing", SESSION], ANSWERS, said("missing: could not be opened")
    yield [SESSION, ".", "cut"], ANSWERS + REFUSED, said(".: could not be read")
    yield ["", "cut/cut", "cut"], REFUSED, said(": could not be opened", "cut/cut: could not be opened")
    yield ["--", "--version"], b"", said("--version: could not be opened")
    # a name that is not UTF-8, the byte ff: the file is there
    yield ["\udcff", "cut"], REFUSED, said("\udcff: could not be opened")
    # the longest path, one more, and one of which the rest is not looked at
    yield [path_of(PATH)], ANSWERS, b""
    yield [path_of(PATH + 1), "cut"], REFUSED, said(path_of(PATH + 1) + ": could not be opened")
    yield [path_of(PATH + 2), "cut"], REFUSED, said(path_of(PATH + 2)[:HELD] + ": could not be opened")
    # the first option decides, wherever it stands, and nothing is read
    yield ["--version"], f"unitlines {VERSION}\n".encode(), b""
    yield [SESSION, "--version", "--wrong"], f"unitlines {VERSION}\n".encode(), b""
    for option in ["--wrong", "-h", "--hel", "--help=", "---", "-" + "x" * HELD]:
        unknown = said(option[:HELD] + ": unknown option; --help lists those there are")
        yield [option], b"", unknown
        yield [SESSION, "missing", option, "--help"], b"", unknown


def run(program, arguments, **how):
    """What is written to standard output and to standard error."""
    how = {"input": STDIN, "stdout": subprocess.PIPE} | how
    done = subprocess.run([program, *map(str, arguments)], stderr=subprocess.PIPE, timeout=60, **how)
    if done.returncode:
        sys.exit(f"arguments: {arguments}: exit {done.returncode}")
    return done.stdout, done.stderr


def expect(arguments, printed, expected):
    if printed != expected:
        sys.exit(f"arguments: {str(arguments)[:200]} gave {str(printed)[:200]}, not {str(expected)[:200]}")


def help_text(program, folder):
    """Help names the options that README.md has, and reads nothing."""
    for arguments in (["--help"], ["missing", "--help", "--wrong"]):
        text, errors = run(program, arguments, cwd=folder)
        named = set(re.findall(r"--[a-z]*", text.decode()))
        expect(arguments, (named, errors), (set(re.findall(r"`(--[a-z]*)`", README)), b""))


def streams(program, folder):
    """A standard input that is closed, an output that can't be written or whose reader has gone, few descriptors for many files."""
    closed = ["-c", 'exec "$0" - cut <&-', program]
    expect(closed, run("sh", closed, cwd=folder), (REFUSED, said("standard input: could not be read")))
    for arguments in ([SESSION, "missing", SESSION], ["--help"], ["--version"]):
        with open("/dev/full", "wb") as full:
            _, errors = run(program, arguments, cwd=folder, stdout=full)
        expect(arguments, errors, said("standard output: could not be written"))
    left, gone = os.pipe()
    os.close(left)
    _, errors = run(program, [SESSION, SESSION], cwd=folder, stdout=gone)
    os.close(gone)
    expect("a reader that has gone", errors, said("standard output: could not be written"))
    few = lambda: resource.setrlimit(resource.RLIMIT_NOFILE, (8, 8))
    many = ["cut", "."] * 100
    expect(many, run(program, many, cwd=folder, preexec_fn=few), (REFUSED * 100, said(".: could not be read") * 100))


def main():
    program = str(Path(sys.argv[1]).resolve())
    with tempfile.TemporaryDirectory() as folder:
        for name, text in FILES.items():
            (Path(folder) / name).write_bytes(text)
        tried = list(cases())
        for arguments, output, errors in tried:
            expect(arguments, run(program, arguments, cwd=folder), (output, errors))
        help_text(program, folder)
        streams(program, folder)
    print(f"arguments: {len(tried)} command lines, help, closed and full streams as README.md has them")


main()
