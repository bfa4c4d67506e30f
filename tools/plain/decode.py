"""A line to its record or its refusal, and an answer to what it says, by the tables."""
from functools import lru_cache
from typing import NamedTuple

from .tables import KINDS, Choice, Form

LONGEST = 58
PRINTED = frozenset(b"0123456789abcdef")
DIGITS = PRINTED | frozenset(b"ABCDEF")


class Unfit(Exception):
    """The bytes are not what the table has."""


class Refused(Exception):
    """A line that is not taken, and the lowest number that fits."""

    def __init__(self, number):
        super().__init__(number)
        self.number = number


class Told(NamedTuple):
    """A form, and the value of each of its parts by name."""
    form: Form
    values: dict


class Reader:
    """Bytes, read front to back."""

    def __init__(self, data):
        self.data, self.at = data, 0

    def number(self, size):
        end = self.at + size
        if end > len(self.data):
            raise Unfit
        taken = int.from_bytes(self.data[self.at:end], "big")
        self.at = end
        return taken

    def field(self, field):
        number = self.number(field.size)
        if field.limit is not None and number > field.limit:
            raise Unfit
        return number

    def form(self, form):
        return Told(form, {part.name: self.part(part) for part in form.parts})

    def choice(self, choice):
        chosen = self.number(1)
        if chosen not in choice.forms:
            raise Unfit
        return self.form(choice.forms[chosen])

    def part(self, part):
        if isinstance(part, Choice):
            return self.choice(part)
        return self.form(part) if isinstance(part, Form) else self.field(part)

    def whole(self, part):
        told = self.part(part)
        if self.at != len(self.data):
            raise Unfit
        return told


def digits(line):
    """The bytes of a line of hexadecimal."""
    if not DIGITS.issuperset(line):
        raise Refused(2)
    if len(line) % 2:
        raise Refused(3)
    return bytes.fromhex(line.decode())


def read_bytes(line):
    """A line's bytes, which begin with a kind."""
    if len(line) > LONGEST:
        raise Refused(1)
    data = digits(line)
    if not data or data[0] not in KINDS:
        raise Refused(4)
    return data


def kind_of(line):
    """The code of a line's kind, or None where it has none."""
    try:
        return read_bytes(line)[0]
    except Refused:
        return None


def read_record(line, opened):
    """A record's kind and fields."""
    data = read_bytes(line)
    form, reader = KINDS[data[0]].record, Reader(data[1:])
    if len(reader.data) != sum(field.size for field in form.parts):
        raise Refused(5)
    values = {field.name: reader.number(field.size) for field in form.parts}
    above = [field.refusal for field in form.parts if field.refusal and values[field.name] > field.limit]
    if above:
        raise Refused(min(above))
    if data[0] and not opened:
        raise Refused(8)
    return data[0], Told(form, values)


# most answers are one of a few
@lru_cache(maxsize=256)
def read_answer(kind, answer):
    """What the answer to an accepted record of a kind says."""
    if not PRINTED.issuperset(answer):
        raise Unfit
    try:
        data = digits(answer)
    except Refused:
        raise Unfit from None
    if data[:1] != b"\0":
        raise Unfit
    return Reader(data[1:]).whole(KINDS[kind].answer)
