"""Random samples, maps and magnets, in which each number of digits is as likely as any other."""
from page import SAMPLE, samples_of

MAPS = [bytes((a, b, c, d)) for a in range(1, 5) for b in range(1, 5) for c in range(1, 5) for d in range(1, 5) if len({a, b, c, d}) == 4]
POOL = 4000


def number(g, largest):
    """0, few, any number of digits, or the largest."""
    digits = g.randint(1, len(str(largest)))
    return g.choice((0, g.randint(0, 9), largest, *[min(g.randint(10 ** (digits - 1), 10 ** digits - 1), largest)] * 4))


def sample(g):
    return (g.randrange(4), number(g, 2 ** 32 - 1), number(g, 2 ** 64 - 1), number(g, 255), *(number(g, 65535) for _ in range(4)))


class Drawn:
    """Draws of a seed. Lists are made of a pool of samples, which is faster than to draw each number anew."""

    def __init__(self, g):
        self.g = g
        self.pool = [SAMPLE.pack(*sample(g)) for _ in range(POOL)]

    def lent(self, count):
        return b"".join(self.g.choices(self.pool, k=count))

    def samples(self, count):
        return samples_of(self.lent(count))

    def motors(self):
        return self.g.choice(MAPS)

    def magnets(self):
        return self.g.choice((2, 14, 254, 2 * self.g.randint(1, 127)))
