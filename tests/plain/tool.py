"""Running tools/unitplain, the stored sessions, and saying what is wrong."""
import subprocess
import sys
from pathlib import Path

ROOT = Path(__file__).resolve().parent.parent.parent
DOCS, STORED, TOOLS = ROOT / "docs", ROOT / "tests/plain", ROOT / "tools"
# a session's folder, and the options that its words are printed with
SESSIONS = {
    "session": (DOCS, []),
    "four-arms": (DOCS, ["--map", "1234", "--magnets", "14"]),
    "every-kind": (STORED, []),
    "capitals": (DOCS, []),
}
REPLAY = ROOT / "crates/unitlines/stdin", ROOT / "crates/unitlines/stdout"


def fail(message):
    sys.exit(f"plain: {message}")


def expect(wanted, got, what):
    if wanted != got:
        fail(f"{what}: {got!r}, not {wanted!r}")


def files(name):
    folder = SESSIONS[name][0]
    return folder / f"{name}.txt", folder / f"{name}-answers.txt"


def run(*arguments, **more):
    return subprocess.run([TOOLS / "unitplain", *arguments], capture_output=True, timeout=60, **more)


def printed(*arguments):
    done = run(*arguments)
    if done.returncode or done.stderr:
        fail(f"{arguments}: exit {done.returncode}, said {done.stderr.decode()}")
    return done.stdout.decode()
