#!/usr/bin/env python3
"""unitlines and the reference on one session, in small letters and in capitals: time, then memory.

Usage: lines.py SMALL CAPITALS ROUNDS UNITLINES REFERENCE

Both read a session's file and write to /dev/null. They are run in turns, who goes first changes, and
the best time of each counts: from its start to its end, on the clock. The file was read before, so it is
in the page cache. First all answers are compared, byte for byte.
"""
import fcntl
import os
import struct
import subprocess
import sys
import termios
import time


def answers(program, session):
    with open(session, "rb") as text:
        return subprocess.run([program], stdin=text, stdout=subprocess.PIPE, check=True).stdout


def seconds(program, session, sink):
    with open(session, "rb") as text:
        start = time.perf_counter()
        status = subprocess.Popen([program], stdin=text, stdout=sink).wait()
        taken = time.perf_counter() - start
    if status:
        sys.exit(f"{program} ended with {status}")
    return taken


def peak_kib(program, session):
    """The most memory that was resident (VmHWM), read while the program waits for more input.

    What wait4 tells would not do: it counts the process from which the program was started, too.
    """
    child = subprocess.Popen([program], stdin=subprocess.PIPE, stdout=subprocess.DEVNULL)
    with open(session, "rb") as text:
        child.stdin.write(text.read())
    child.stdin.flush()
    while True:
        (unread,) = struct.unpack("i", fcntl.ioctl(child.stdin, termios.FIONREAD, bytes(4)))
        with open(f"/proc/{child.pid}/status") as f:
            status = dict(line.split(":", 1) for line in f)
        if unread == 0 and status["State"].split()[0] == "S":
            break
        time.sleep(0.01)
    child.stdin.close()
    child.wait()
    return int(status["VmHWM"].split()[0])


def main():
    small, capitals, rounds, *programs = sys.argv[1:]
    printed, *others = (answers(p, session) for session in (small, capitals) for p in programs)
    if any(other != printed for other in others):
        sys.exit("lines: the answers differ")
    lines = printed.count(b"\n")
    print(f"both print the same, for capitals too: {lines} lines, {len(printed)} characters")

    runs = [(session, p) for session in (small, capitals) for p in programs]
    best = dict.fromkeys(runs, float("inf"))
    with open(os.devnull, "wb") as sink:
        for turn in range(int(rounds)):
            for run in runs[:: 1 - turn % 2 * 2]:
                best[run] = min(best[run], seconds(run[1], run[0], sink))
    for name, session in (("lines", small), ("lines, capitals", capitals)):
        own, rust = (best[session, p] * 1e9 / lines for p in programs)
        print(f"{name:<16}{1e3 / own:8.2f} M lines/s   Rust {1e3 / rust:8.2f} M lines/s   ratio {own / rust:.2f}   ({own:.1f} and {rust:.1f} ns a line)")
    own, rust = (peak_kib(p, small) for p in programs)
    print(f"memory          {own:8} KiB         Rust {rust:8} KiB         ratio {own / rust:.2f}   (peak resident)")


main()
