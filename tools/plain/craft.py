"""What no record tells: the arm that each lane is wired to, and how many magnets a motor has."""
from typing import NamedTuple


class Craft(NamedTuple):
    # the motors of lanes 0 to 3, and so their arms
    arms: tuple | None = None
    magnets: int | None = None

    def arm(self, lane):
        return self.arms[lane] if self.arms else None

    def place(self, lane):
        """A lane is an arm only where the board map is known."""
        return f"arm {self.arm(lane)} (lane {lane})" if self.arms else f"lane {lane} (column {lane + 1})"

    def rpm(self, speed):
        """Of eRPM/100, rounded down."""
        return speed * 200 // self.magnets if self.magnets else None


def board_map(text):
    """Four digits, each of 1 to 4 once."""
    if sorted(text) != list("1234"):
        raise ValueError("a board map is the motors of lanes 0 to 3, each of 1 to 4 once, as in 1234")
    return tuple(int(digit) for digit in text)


def magnets(text):
    """A byte, even and not 0."""
    if not (text.isascii() and text.isdecimal() and 0 < int(text) < 256 and int(text) % 2 == 0):
        raise ValueError("a number of magnets is even, from 2 to 254")
    return int(text)
