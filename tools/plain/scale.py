"""Round numbers along an axis, and where a value lies between them."""
from math import ceil, floor, log10


def step(span, count):
    """The least of 1, 2, 5, 10, .. times a power of ten that parts a span into at most so many."""
    rough = span / count
    power = 10 ** floor(log10(rough))
    return next(power * n for n in (1, 2, 5, 10) if power * n >= rough)


class Scale:
    """From the round number at or below the least value to the one at or above the greatest."""

    def __init__(self, values, start, end, count=4):
        low, high = (min(values), max(values)) if values else (0, 1)
        width = step((high - low) or 1, count)
        first, last = floor(low / width), ceil(high / width)
        if first == last:
            first, last = first - 1, last + 1
        self.ticks = [tick * width for tick in range(first, last + 1)]
        self.start, self.end = start, end

    def at(self, value):
        low, high = self.ticks[0], self.ticks[-1]
        return round(self.start + (value - low) / (high - low) * (self.end - self.start), 1)
