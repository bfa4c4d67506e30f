"""Answers as `unitlines` prints them: stored ones, the delivered samples of a text, and answers made of samples."""
from pathlib import Path

from page import SAMPLE, samples_of

ROOT = Path(__file__).resolve().parent.parent.parent
DOCS = ROOT / "docs"
# the words, the input and the output of flightsheet that `rt ci` replays
WORDS, INPUT, OUTPUT = (ROOT / "crates/flightsheet" / name for name in ("args", "stdin", "stdout"))
STORED = [
    *sorted(DOCS.glob("*-answers.txt")), *sorted((ROOT / "tests/plain").glob("*-answers.txt")), ROOT / "crates/unitlines/stdout", INPUT,
]
# bytes of an answer that delivers a sample: 00 02, the sample, a status
DELIVERING = (25, 28, 29)
# a status: no check, pending, qualified, settings that are invalid; overspeed of a lane with its eRPM/100; timeout with four counts
STATUSES = ["00", "01", "02", "03", "04031234", "0500010203"]


def delivered(text):
    """The delivered samples in their order. An answer of 24 bytes shows a stored sample again."""
    answers = [bytes.fromhex(line) for line in text.decode().splitlines()]
    return samples_of(b"".join(answer[2:24] for answer in answers if len(answer) in DELIVERING))


def delivering(sample, status):
    return "0002" + SAMPLE.pack(*sample).hex() + status


def showing(sample):
    return "0001" + SAMPLE.pack(*sample).hex()
