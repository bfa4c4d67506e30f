"""A picture of a session: a column for each lane, in it temperature, voltage and speed over time, a dot for each reading.

Below them are the faults: the lane's timeouts, and the recoveries, which are of the whole unit and so in every column."""
from .flight import Flight, quantities
from .scale import Scale
from .svg import GREEN, GREY, RED, document, dots, element, group, line, text

LEFT, TOP, COLUMN, COLUMN_GAP, ROW, ROW_GAP = 88, 148, 255, 34, 150, 50
WIDTH = LEFT + 4 * COLUMN + 3 * COLUMN_GAP + 22
# the faults: a strip each for timeouts and recoveries
STRIP = 20
FAULTS = TOP + 3 * (ROW + ROW_GAP)
HEIGHT = FAULTS + 2 * STRIP + 40
SMALL = 13


def left_of(lane):
    return LEFT + lane * (COLUMN + COLUMN_GAP)


def top_of(row):
    return TOP + row * (ROW + ROW_GAP)


def number(tick):
    """Without the rounding of a sum of floats."""
    return f"{tick:.10g}"


def times(across, top, bottom):
    """The lines of a panel that go up, with their times below."""
    for tick in across.ticks:
        yield line(across.at(tick), top, across.at(tick), bottom)
        yield text(across.at(tick), bottom + 17, number(tick), text_anchor="middle", font_size=SMALL, fill=GREY)


def across_at(across, heights):
    """The lines of a panel that go across."""
    for height in heights:
        yield line(across.start, height, across.end, height)


def panel(flight, lane, name, value, across, up):
    yield from across_at(across, map(up.at, up.ticks))
    yield from times(across, up.end, up.start)
    points = [(across.at(flight.seconds(reading["observed"])), up.at(value(reading))) for reading in flight.readings[lane]]
    if points:
        yield dots(points, **{"class": name})


def marks(flight, when, across, top, name, colour):
    """A mark for each time; a viewer that is pointed at it says when."""
    for time in when:
        at = across.at(flight.seconds(time))
        said = element("title", f"{name} at {time} ms")
        yield line(at, top + 3, at, top + STRIP - 3, said, stroke=colour, stroke_width=2, **{"class": name})


def faults(flight, lane, across):
    yield from across_at(across, (FAULTS, FAULTS + STRIP, FAULTS + 2 * STRIP))
    yield from times(across, FAULTS, FAULTS + 2 * STRIP)
    yield from marks(flight, flight.timeouts[lane], across, FAULTS, "timeout", RED)
    yield from marks(flight, flight.recoveries, across, FAULTS + STRIP, "recovery", GREEN)


def column(flight, lane, craft, rows):
    """A lane's heading and its panels. `rows` are the quantities, each with its scale."""
    left = left_of(lane)
    across = Scale([flight.seconds(time) for time in flight.times()], left, left + COLUMN)
    yield text(left, TOP - 52, craft.place(lane), font_weight="bold", font_size=16)
    yield text(left, TOP - 32, flight.lane_words(lane))
    for (name, _, value), up in rows:
        yield from panel(flight, lane, name, value, across, up)
    yield from faults(flight, lane, across)


def labels(rows):
    """At the left, what each row shows."""
    for (name, unit, _), up in rows:
        yield text(LEFT, up.end - 9, f"{name}, {unit}", fill=GREY)
        for tick in up.ticks:
            yield text(LEFT - 8, up.at(tick) + 5, number(tick), text_anchor="end", font_size=SMALL)
    yield text(LEFT - 8, FAULTS + 15, "timeouts", text_anchor="end", font_size=SMALL, fill=RED)
    yield text(LEFT - 8, FAULTS + STRIP + 15, "recoveries", text_anchor="end", font_size=SMALL, fill=GREEN)


def scaled(flight, craft):
    """Each quantity with a scale that all lanes share, so that they can be compared."""
    for row, quantity in enumerate(quantities(craft)):
        values = [quantity[2](reading) for lane in flight.readings for reading in lane]
        yield quantity, Scale(values, top_of(row) + ROW, top_of(row))


def described(flight, craft):
    lanes = "; ".join(f"{craft.place(lane)}: {flight.lane_words(lane)}" for lane in range(4))
    return f"Temperature, voltage and speed over time, a column for each lane. {lanes}. {flight.words()}."


def write(events, craft, name, out):
    flight = Flight(events)
    rows = list(scaled(flight, craft))
    title = f"Readings of {name}"
    content = [
        text(LEFT, 34, title, font_size=20),
        text(LEFT, 58, f"{flight.words()}. A dot is a reading; times are in seconds after {flight.start} ms.", fill=GREY),
        *labels(rows),
        *(group(column(flight, lane, craft, rows), id=f"lane-{lane}") for lane in range(4)),
    ]
    print(document(WIDTH, HEIGHT, title, described(flight, craft), content), file=out)
