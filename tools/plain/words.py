"""Records and answers in words."""
from .decode import Told
from .tables import KINDS, NOW, READING, REFUSALS

# units whose words say what the number is
TELLING = {"lane", "byte", "armed", *(f"on lane {lane}" for lane in range(4))}


def hundredths(number):
    return f"{number // 100}.{number % 100:02}"


def speed(number, craft):
    rpm = craft.rpm(number)
    return f"{number * 100} eRPM" + ("" if rpm is None else f" ({rpm} rpm)")


def on_lane(lane):
    return lambda number, craft: f"{number} on {craft.place(lane)}"


UNITS = {
    "": lambda number, craft: str(number),
    "ms": lambda number, craft: f"{number} ms",
    "time": lambda number, craft: f"{number} ms",
    "lane": lambda number, craft: craft.place(number),
    "byte": lambda number, craft: f"{number:02x}",
    "armed": lambda number, craft: "armed" if number else "disarmed",
    "flag": lambda number, craft: "yes" if number else "no",
    "°C": lambda number, craft: f"{number} °C",
    "0.01 V": lambda number, craft: f"{hundredths(number)} V",
    "0.01 A": lambda number, craft: f"{hundredths(number)} A",
    "mAh": lambda number, craft: f"{number} mAh",
    "100 eRPM": speed,
    **{f"on lane {lane}": on_lane(lane) for lane in range(4)},
}


def part_words(part, value, craft):
    if isinstance(value, Told):
        return told_words(value, craft)
    words = UNITS[part.unit](value, craft)
    return words if part in READING or part.unit in TELLING else f"{part.name} {words}"


def told_words(told, craft, words=None):
    """A form's words, or others, then its parts. A record's time has a column of its own."""
    parts = [part_words(part, told.values[part.name], craft) for part in told.form.parts if part is not NOW]
    return (words or told.form.words) + (": " + ", ".join(parts) if parts else "")


def shown(line):
    """A line's characters, quoted; of a long one the first."""
    return repr(line[:60])[1:] + (" .." if len(line) > 60 else "")


def kind_words(kind):
    return f"{KINDS[kind].record.words} ({kind:02x})"


def refusal_words(number):
    return f"refused, {number}: {REFUSALS[number]}"


def record_words(event, craft):
    """A record's kind and fields; of one that is refused its kind, or the line as it stands."""
    if event.kind is None:
        return shown(event.line) if event.line else "an empty line"
    kind = kind_words(event.kind)
    return kind if event.refused else told_words(event.fields, craft, kind)


def answer_words(event, craft):
    return refusal_words(event.refused) if event.refused else told_words(event.answer, craft)


def plain_line(event, craft):
    time = "-" if event.time is None else f"{event.time} ms"
    return f"{event.number:>6}  {time:>10}  {record_words(event, craft)} → {answer_words(event, craft)}"
