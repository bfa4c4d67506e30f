"""The picture has a dot for each reading and a mark for each fault, where its own labels put them."""
import re
import xml.etree.ElementTree as xml

from digits import pairs, readings, recoveries, timeouts
from tool import expect, fail, printed

SVG = "{http://www.w3.org/2000/svg}"


def labels(within, anchor):
    """Number and place of each label with an anchor."""
    return [(float(text.text), float(text.get("x")), float(text.get("y")))
            for text in within.findall(f"{SVG}text") if text.get("text-anchor") == anchor and text.text[-1].isdigit()]


def between(marks, value):
    """Where a value lies, by the first and last of a scale's marks, which enclose all that is shown."""
    (low, start), (high, end) = marks[0], marks[-1]
    expect(True, low <= value <= high, f"{value} from {low} to {high}")
    return start + (value - low) / (high - low) * (end - start)


def scales(picture):
    """Values and heights of the three rows, from the labels at the left: each row begins below the one before."""
    rows = []
    for value, _, y in labels(picture, "end"):
        if not rows or value < rows[-1][-1][0] or y > rows[-1][-1][1]:
            rows.append([])
        rows[-1].append((value, y - 5))
    return rows


def dots(group, name):
    """The places of a quantity's dots: M, x, y, and a stroke of no length."""
    path = group.find(f"{SVG}path[@class='{name}']")
    drawn = path.get("d") if path is not None else ""
    return [(float(x), float(y)) for x, y in re.findall(r"M([\d.]+) ([\d.]+)h0", drawn)]


def near(wanted, got, what):
    if len(wanted) != len(got) or any(abs(a - b) > 0.11 for one, other in zip(wanted, got) for a, b in zip(one, other)):
        fail(f"{what}: {got[:5]}, not {wanted[:5]}")


def dots_fit(group, across, rows, own, start, what):
    for name, scale, at, size in zip(("temperature", "voltage", "speed"), rows, (5, 6, 9), (1, 0.01, 100)):
        wanted = [(between(across, (reading[2] - start) / 1000), between(scale, round(reading[at] * size, 2))) for reading in own]
        near(wanted, dots(group, name), f"{what}, {name}")


def marks_fit(group, across, times, start, name, what):
    lines = [(float(line.get("x1")),) for line in group.findall(f"{SVG}line[@class='{name}']")]
    near([(between(across, (time - start) / 1000),) for time in times], lines, f"{what}, {name}")


def drawn(records, answers):
    session = pairs(records, answers)
    picture = xml.fromstring(printed("--svg", records, answers))
    for needed in ("title", "desc"):
        expect(True, bool(picture.findtext(SVG + needed)), f"{records}: has a {needed}")
    start = int(re.search(r"after (\d+) ms", "".join(picture.itertext()))[1])
    rows, booked = scales(picture), list(readings(session))
    expect(3, len(rows), f"{records}: rows")
    for lane in range(4):
        group, what = picture.find(f"{SVG}g[@id='lane-{lane}']"), f"{records}: lane {lane}"
        across = sorted({(seconds, x) for seconds, x, _ in labels(group, "middle")})
        dots_fit(group, across, rows, [reading for reading in booked if reading[3] == lane], start, what)
        marks_fit(group, across, [time for own, time in timeouts(session) if own == lane], start, "timeout", what)
        marks_fit(group, across, recoveries(session), start, "recovery", what)
