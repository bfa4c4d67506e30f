"""What a run must reach, by name, and what it did reach."""
import sys
from collections import Counter
from itertools import combinations

from page import COLUMNS, cells

COUNTS = (0, 1, 39, 40, 41, 80, 81, 120, 121)
NUMBERS = (5, 6, 9, 11, 12)
# how wide what stands in a column may be
WIDTHS = {"sequence": range(1, 11), "motor": (1,), "observed": range(1, 21), "speed": range(1, 8), "volts": (4, 5, 6),
          "temperature": (1, 2, 3)}
ENDS = {"sequence": ("0", "4294967295"), "observed": ("0", "18446744073709551615"), "speed": ("0", "6553500"),
        "volts": ("0.00", "655.35"), "temperature": ("0", "255")}


def refusing(numbers):
    """The number that answers, and each pair of those that fit."""
    yield f"refused by {numbers[0]}"
    yield from (f"{one} and {other} fit" for one, other in combinations(numbers, 2))


def printing(samples, motors, magnets):
    yield f"a sheet of {len(samples)} samples"
    for sample in samples:
        yield f"lane {sample.lane} is motor {motors[sample.lane]}"
        for column, cell in zip(COLUMNS, cells(sample, motors, magnets)):
            yield f"{column} {len(cell)} wide"
            if cell in ENDS.get(column, ()):
                yield f"{column} is {cell}"


def wanted():
    yield from (f"refused by {number}" for number in NUMBERS)
    yield from (f"{one} and {other} fit" for one, other in combinations(NUMBERS, 2))
    yield from (f"a sheet of {count} samples" for count in COUNTS)
    yield from (f"lane {lane} is motor {motor}" for lane in range(4) for motor in range(1, 5))
    yield from (f"{column} {wide} wide" for column, widths in WIDTHS.items() for wide in widths)
    yield from (f"{column} is {cell}" for column, ends in ENDS.items() for cell in ends)


class Reached(Counter):
    def require(self):
        """How many situations must be reached, each of which was."""
        names = list(wanted())
        missed = [name for name in names if not self[name]]
        if missed:
            sys.exit(f"sheets: never reached: {', '.join(missed)}")
        return len(names)
