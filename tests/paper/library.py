"""`esc_sheet` beside the second writing: what it answers, the count, and every entry of what it is lent."""
import random
import sys
import tempfile
from functools import lru_cache
from itertools import chain, combinations, product

from answers import STORED, delivered
from call import GUARD, UNCOUNTED, Sheets
from drawn import MAPS, Drawn
from far import far
from page import PAGE, SAMPLE, WIDE, lent, pages, refusals, samples_of, sheet
from situations import Reached, printing, refusing

FAULTS = ["rest", "short map", "lane", "room", "magnets", "map"]
# characters of a row, its LF included
WIDTH = WIDE + 1


def exact(data):
    return PAGE * pages(len(data) // SAMPLE.size)


def rooms(room):
    """About the length that a sheet has, and about each page of it."""
    ends = range(PAGE, room + PAGE + 1, PAGE)
    return sorted({0, 1, *range(room - 3, room + 4), *(end + off for end in ends for off in (-1, 0, 1))})


def about_rooms(draw):
    """Lists of every length, each with every such room."""
    for count in range(131):
        data, motors, magnets = draw.lent(count), draw.motors(), draw.magnets()
        for room in rooms(exact(data)):
            yield data, motors, magnets, room


def about_maps(draw):
    """Every map of four bytes 0 to 5, and those of any bytes and any length."""
    data = draw.lent(9)
    others = [draw.g.randbytes(draw.g.randrange(9)) for _ in range(300)]
    for motors in chain(map(bytes, product(range(6), repeat=4)), [b"", b"\1\2\3", b"\1\2\3\4\4", bytes(MAPS[0] * 2)], others):
        yield data, motors, draw.magnets(), PAGE
    for motors in chain(MAPS, (b"\0\1\2\3", b"\1\2\3\3", b"\1\2\3")):
        yield b"", motors, 14, PAGE


def about_magnets(draw):
    for magnets in range(256):
        for count in (0, 1, 40, 41):
            data = draw.lent(count)
            yield data, draw.motors(), magnets, exact(data)


def about_lengths(draw):
    """Samples whose last is cut, or is followed by a part of one."""
    for rest in range(1, SAMPLE.size):
        for count in (0, 1, 39, 40, 41, 80):
            data = draw.lent(count) + draw.g.randbytes(rest)
            for room in (0, exact(data), exact(data) + PAGE):
                yield data, draw.motors(), draw.magnets(), room


def with_lane(data, at, lane):
    """A list whose sample at a place has another lane byte."""
    start = SAMPLE.size * at
    return data[:start] + bytes([lane]) + data[start + 1:]


def about_lanes(draw):
    """Every byte that is no lane, in the first sample, in the last and in any."""
    for lane in range(4, 256):
        count = draw.g.randint(1, 130)
        for at in (0, count - 1, draw.g.randrange(count)):
            data = with_lane(draw.lent(count), at, lane)
            yield data, draw.motors(), draw.magnets(), exact(data)


def about_faults(draw):
    """Several faults at once, in every combination, and none."""
    for faults in chain.from_iterable(combinations(FAULTS, most) for most in range(len(FAULTS) + 1)):
        for _ in range(20):
            yield faulty(draw, faults)


def faulty(draw, faults):
    g = draw.g
    data, motors, magnets = draw.lent(g.choice((1, 2, 40, 41, g.randint(1, 130)))), draw.motors(), draw.magnets()
    if "lane" in faults:
        data = with_lane(data, g.randrange(len(data) // SAMPLE.size), g.randint(4, 255))
    if "rest" in faults:
        data += g.randbytes(g.randint(1, SAMPLE.size - 1))
    if "magnets" in faults:
        magnets = g.choice((0, 1, 13, g.randrange(1, 256, 2)))
    if "map" in faults:
        motors = g.choice((b"\0\0\0\0", b"\1\2\3\5", b"\4\3\2\2", motors[:3] + bytes([motors[0]])))
    if "short map" in faults:
        motors = g.choice((b"", motors[:3], motors + b"\1"))
    room = exact(data)
    return data, motors, magnets, g.choice((0, 1, room - 1, g.randrange(room))) if "room" in faults else room


def about_lists(draw):
    """Lists of any length with a room that holds them."""
    for _ in range(2000):
        data = draw.lent(draw.g.randrange(131))
        yield data, draw.motors(), draw.magnets(), exact(data) + draw.g.choice((0, 0, 1, 100))


def about_stored(draw):
    """The samples of stored sessions."""
    for file in STORED:
        data = lent(delivered(file.read_bytes()))
        yield data, b"\4\2\1\3", 14, exact(data)


# the list before, with other rooms, is the most usual one
@lru_cache(maxsize=1)
def wanted_of(data, motors, magnets):
    samples = samples_of(data)
    return sheet(samples, motors, magnets), list(printing(samples, motors, magnets))


def compare(sheets, reached, case):
    data, motors, magnets, room = case
    number, count, found, left = sheets.written(*case)
    numbers = refusals(*case)
    if numbers:
        told, wanted = (numbers[0], UNCOUNTED), found
        reached.update(refusing(numbers))
    else:
        text, names = wanted_of(data, motors, magnets)
        told, wanted = (0, len(text)), found[:GUARD] + text + found[GUARD + len(text):]
        reached.update(names)
    if (number, count) != told or left != wanted:
        differ(case, (number, count), told, left, wanted)


def differ(case, got, told, left, wanted):
    data, motors, magnets, room = case
    of = f"{len(data)} bytes of samples, map {motors.hex(' ') or 'empty'}, {magnets} magnets, room {room}"
    if got != told:
        sys.exit(f"sheets: {of}: answer and count {got}, not {told}")
    place = next(at for at, (one, other) in enumerate(zip(left, wanted)) if one != other) - GUARD
    start = GUARD + place // WIDTH * WIDTH
    rows = [memory[start:start + WIDTH] for memory in (left, wanted)]
    sys.exit(f"sheets: {of}: the lent output first differs at {place}:\n{rows[0]}, not\n{rows[1]}")


def library(archive, long):
    g = random.Random(1)
    draw, reached = Drawn(g), Reached()
    with tempfile.TemporaryDirectory() as folder:
        sheets = Sheets(archive, folder, g)
        for cases in (about_rooms, about_maps, about_magnets, about_lengths, about_lanes, about_faults, about_lists, about_stored):
            for case in cases(draw):
                compare(sheets, reached, case)
        names = reached.require()
        numbers = f", page numbers to {far(sheets.call)}" if long else ""
    print(f"sheets: esc_sheet {sheets.calls} times as document 02 has it, {names} situations reached{numbers}")
