"""Running `flightsheet`, with whole texts and in parts, and saying what is wrong."""
import socket
import subprocess
import sys
from contextlib import suppress
from pathlib import Path
from threading import Thread


class Given(tuple):
    """What a run gave: exit status, standard output, standard error."""

    def expect(self, what, status, printed, errors):
        for name, got, wanted in zip(("exit status", "standard output", "standard error"), self, (status, printed, errors)):
            expect(f"{what}: {name}", got, wanted)


class Program:
    def __init__(self, path):
        self.path = str(Path(path).resolve())
        self.runs = 0

    def run(self, arguments, **how):
        self.runs += 1
        how = {"stdout": subprocess.PIPE, "stderr": subprocess.PIPE, "timeout": 60} | how
        done = subprocess.run([self.path, *arguments], **how)
        return Given((done.returncode, done.stdout, done.stderr))

    def in_parts(self, arguments, parts):
        """A run in which each read gets one of the parts: so it is with such a socket."""
        ours, theirs = socket.socketpair(socket.AF_UNIX, socket.SOCK_SEQPACKET)
        sender = Thread(target=send, args=(ours, parts))
        sender.start()
        with theirs:
            given = self.run(arguments, stdin=theirs)
        sender.join()
        return given


def send(ours, parts):
    """Sends all parts, or those that come before the program ends."""
    with ours, suppress(OSError):
        for part in parts:
            ours.send(part)


def parts_of(g, text, most):
    """A text in parts of random lengths, none of them longer than this."""
    at, parts = 0, []
    while at < len(text):
        length = g.randint(1, most)
        parts.append(text[at:at + length])
        at += length
    return parts


def text_of(lines, end="\n"):
    return ("\n".join(lines) + end).encode(errors="surrogateescape")


def expect(what, got, wanted):
    if got != wanted:
        sys.exit(f"sheets: flightsheet: {what}: {shown(got, wanted)}")


def shown(got, wanted):
    """Both, texts from the line on that differs first."""
    if not isinstance(got, bytes):
        return f"{got}, not {wanted}"
    at = next((at for at, (one, other) in enumerate(zip(got, wanted)) if one != other), min(len(got), len(wanted)))
    start = got.rfind(b"\n", 0, at) + 1
    return f"{len(got)} characters, not {len(wanted)}; at {start} {got[start:start + 110]}, not {wanted[start:start + 110]}"
