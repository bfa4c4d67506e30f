"""The paper sheet written a second time, from document 02's words alone: its characters, and the numbers that refuse it.

Samples are lent as an answer has them, one behind the other, each number highest byte first.
"""
import struct
from typing import NamedTuple

SAMPLE = struct.Struct(">BIQBHHHH")
# samples on a page, characters of a row without its LF, characters of a page
ON_PAGE, WIDE = 40, 53
PAGE = (1 + ON_PAGE) * (WIDE + 1)
COLUMNS = {"sequence": 10, "motor": 1, "observed": 20, "speed": 7, "volts": 6, "temperature": 4}


class Sample(NamedTuple):
    lane: int
    sequence: int
    observed: int
    temperature: int
    voltage: int
    current: int
    consumption: int
    erpm: int


def lent(samples):
    return b"".join(SAMPLE.pack(*sample) for sample in samples)


def samples_of(data):
    return [Sample(*numbers) for numbers in SAMPLE.iter_unpack(data)]


def pages(count):
    """How many pages so many samples take; none take one."""
    return max(1, -(-count // ON_PAGE))


def cells(sample, motors, magnets):
    """What stands in each column, not aligned."""
    volts = f"{sample.voltage // 100}.{sample.voltage % 100:02}"
    numbers = (sample.sequence, motors[sample.lane], sample.observed, sample.erpm * 200 // magnets, volts, sample.temperature)
    return [str(number) for number in numbers]


def row(sample, motors, magnets):
    return " ".join(cell.rjust(wide) for cell, wide in zip(cells(sample, motors, magnets), COLUMNS.values()))


def first_row(number):
    """Row one of a page; pages are numbered from 1."""
    return "PAGE" + str(number % 1_000_000).rjust(6)


def page(number, samples, motors, magnets):
    rows = [first_row(number), *(row(sample, motors, magnets) for sample in samples)]
    rows += [""] * (1 + ON_PAGE - len(rows))
    return "".join(text.ljust(WIDE) + "\n" for text in rows).encode()


def sheet(samples, motors, magnets):
    return b"".join(page(1 + at, samples[ON_PAGE * at:ON_PAGE * (at + 1)], motors, magnets) for at in range(pages(len(samples))))


def refusals(data, motors, magnets, room):
    """Every number that fits what is lent, the lowest first: that one is the answer. None fits where the sheet is written."""
    count, rest = divmod(len(data), SAMPLE.size)
    fits = {
        5: rest != 0 or len(motors) != 4,
        6: any(lane > 3 for lane in data[:SAMPLE.size * count:SAMPLE.size]),
        9: room < PAGE * pages(count),
        11: magnets == 0 or magnets % 2 == 1,
        12: sorted(motors) != [1, 2, 3, 4],
    }
    return [number for number, fit in fits.items() if fit]
