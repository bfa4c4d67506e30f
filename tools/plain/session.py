"""A session as events: each record with its answer, in order. One that does not fit ends it with a Fault."""
import sys
from itertools import zip_longest
from typing import NamedTuple

from .decode import Refused, Told, Unfit, kind_of, read_answer, read_record
from .tables import DELIVERED
from .words import kind_words, refusal_words, shown

OPENING, TIMEOUT, RECOVERY = 0x00, 0x04, 0x07


class Fault(Exception):
    """What is wrong with a file, and where."""


class Event(NamedTuple):
    """A line with its answer. Refused, it says nothing and has its number; accepted, it has no number."""
    number: int
    line: bytes
    kind: int | None
    refused: int | None
    fields: Told | None
    answer: Told | None

    @property
    def time(self):
        return self.fields.values.get("now") if self.fields else None

    @property
    def reading(self):
        """The values of a reading that is delivered; a stored one is only shown again."""
        return self.answer.values if self.answer and self.answer.form is DELIVERED else None

    @property
    def timeout(self):
        """The values of the request that timed out, if one did."""
        return self.answer.values if self.kind == TIMEOUT and self.answer else None

    @property
    def recovered(self):
        return self.kind == RECOVERY and bool(self.answer) and self.answer.form.words == "yes"

    @property
    def opens(self):
        return self.kind == OPENING and not self.refused


def lines(name):
    """The lines of a file, or of standard input for -, without their LF."""
    try:
        with sys.stdin.buffer if name == "-" else open(name, "rb") as file:
            for line in file:
                yield line.removesuffix(b"\n")
    except OSError as error:
        raise Fault(f"{called(name)}: {error.strerror}") from error


def called(name):
    return "standard input" if name == "-" else name


def numbered(records, answers):
    """The lines of both files, side by side."""
    for number, (record, answer) in enumerate(zip_longest(lines(records), lines(answers)), 1):
        if record is None or answer is None:
            short, long = (records, answers) if record is None else (answers, records)
            raise Fault(f"{called(short)}: line {number} is missing, {called(long)} has one")
        yield number, record, answer


def event(number, line, answer, opened):
    try:
        kind, fields = read_record(line, opened)
    except Refused as refused:
        if answer != b"%02x" % refused.number:
            raise Unfit(f"its record is {refusal_words(refused.number)}") from None
        return Event(number, line, kind_of(line), refused.number, None, None)
    try:
        return Event(number, line, kind, None, fields, read_answer(kind, answer))
    except Unfit:
        raise Unfit(f"its record is accepted: {kind_words(kind)}") from None


def events(records, answers):
    opened = False
    for number, line, answer in numbered(records, answers):
        try:
            one = event(number, line, answer, opened)
        except Unfit as why:
            raise Fault(f"{called(answers)}: line {number}: {shown(answer)} does not fit, {why}") from None
        opened = opened or one.opens
        yield one
