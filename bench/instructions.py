#!/usr/bin/env python3
"""Instructions by valgrind's callgrind, which other work on the machine does not change.

Usage: instructions.py SMALL CAPITALS BYTES UNITLINES REFERENCE PARSER

Of each program those of a run over nothing are taken off, so that what remains is the work on the lines
or on the bytes. It fails where unitlines takes over 1 % more on a session in capitals than on the same in
small letters.
"""
import os
import re
import subprocess
import sys


def instructions(command, path=os.devnull):
    """Those that the command runs with this file as its input."""
    tool = ["valgrind", "--tool=callgrind", "--callgrind-out-file=/dev/null"]
    with open(path, "rb") as text:
        run = subprocess.run(tool + command, stdin=text, stdout=subprocess.DEVNULL, stderr=subprocess.PIPE, check=True)
    return int(re.search(rb"Collected : (\d+)", run.stderr)[1])


def show(name, of, own, rust):
    print(f"{name:<16}{own:8.1f} a {of}      Rust {rust:8.1f} a {of}      ratio {own / rust:.2f}")


def main():
    small, capitals, size, unitlines, reference, parser = sys.argv[1:]
    with open(small, "rb") as text:
        lines = text.read().count(b"\n")

    def line(program, session):
        return (instructions([program], session) - instructions([program])) / lines

    def byte(which, stream):
        command = [parser, "pass", which, stream, size]
        return (instructions(command + ["1"]) - instructions(command + ["0"])) / int(size)

    own = {session: line(unitlines, session) for session in (small, capitals)}
    show("lines", "line", own[small], line(reference, small))
    show("lines, capitals", "line", own[capitals], line(reference, capitals))
    # capitals keep no line from the way that most lines go
    if own[capitals] > 1.01 * own[small]:
        sys.exit("instructions: lines in capitals go another way than small ones")
    for stream in ["frames", "noise"]:
        show("parser, " + stream, "byte", byte("proved", stream), byte("rust", stream))


main()
