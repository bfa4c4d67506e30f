"""The tables of docs/RECORDS.md: what each kind of record and each answer is made of, and what refuses a line."""
from typing import NamedTuple


class Field(NamedTuple):
    """A number in some bytes, highest first. `unit` says how words are made of it."""
    name: str
    size: int
    unit: str = ""
    # the largest value taken, and the number that refuses a record with a larger one
    limit: int | None = None
    refusal: int | None = None


class Form(NamedTuple):
    """Words, and what follows them."""
    words: str
    parts: tuple = ()


class Choice(NamedTuple):
    """A byte, and the form that each of its values stands for."""
    name: str
    forms: dict


class Kind(NamedTuple):
    # what follows the kind's byte
    record: Form
    # what follows the 00 of an accepted answer
    answer: Form | Choice


def milliseconds(*names):
    return tuple(Field(name, 4, "ms") for name in names)


def counts(*names):
    return tuple(Field(name, 4) for name in names)


NOW = Field("now", 8, "time")
SEQUENCE = Field("sequence", 4)
LANE = Field("lane", 1, "lane", limit=3, refusal=6)
REQUEST = (SEQUENCE, LANE)

READING = (
    Field("temperature", 1, "°C"),
    Field("voltage", 2, "0.01 V"),
    Field("current", 2, "0.01 A"),
    Field("consumption", 2, "mAh"),
    Field("speed", 2, "100 eRPM"),
)
SAMPLE = (LANE, SEQUENCE, Field("observed", 8, "time"), *READING)

STATUS = Choice("status", {
    0: Form("no idle check"),
    1: Form("idle check pending"),
    2: Form("idle check qualified"),
    3: Form("idle check failed, invalid settings"),
    4: Form("idle check failed, overspeed", (LANE, READING[-1])),
    5: Form("idle check failed, timeout", tuple(Field(f"count {lane}", 1, f"on lane {lane}") for lane in range(4))),
})
DELIVERED = Form("reading", (*SAMPLE, STATUS))

ACCEPTED = Form("accepted")
YES_OR_NO = Choice("said", {0: Form("no"), 1: Form("yes")})
REPORT = Form("report", (
    Field("faulted", 1, "flag", limit=1),
    Field("retrying", 1, "flag", limit=1),
    *counts("queued", "started", "acknowledgement timeouts", "response timeouts", "mismatched acknowledgements",
            "unsolicited frames", "recoveries", "valid frames", "CRC failures", "discarded bytes"),
))
FIGURES = Form("figures", (Field("readings", 4), Field("hottest", 1, "°C"), Field("lowest voltage", 2, "0.01 V")))

KINDS = {
    0x00: Kind(Form("opening", (
        *milliseconds("boot delay", "period", "acknowledgement timeout", "response timeout", "quiet"), NOW)), ACCEPTED),
    0x01: Kind(Form("question for the request", (NOW,)), Choice("said", {0: Form("none"), 1: Form("request", REQUEST)})),
    0x02: Kind(Form("queue notice", (*REQUEST, NOW)), YES_OR_NO),
    0x03: Kind(Form("acknowledgement", (*REQUEST, Field("started", 8, "time"), NOW)),
               Choice("said", {0: Form("rejected"), 1: Form("accepted"), 2: DELIVERED})),
    0x04: Kind(Form("look for a timeout", (NOW,)), Choice("said", {
        0: Form("none"),
        1: Form("acknowledgement timeout", REQUEST),
        2: Form("response timeout", REQUEST),
    })),
    0x05: Kind(Form("wire byte", (Field("byte", 1, "byte"), NOW)), Choice("said", {0: Form("no reading"), 2: DELIVERED})),
    0x06: Kind(Form("cut"), ACCEPTED),
    0x07: Kind(Form("try to recover", (Field("armed", 1, "armed", limit=1, refusal=7), NOW)), YES_OR_NO),
    0x08: Kind(Form("question for ended retries"), Choice("said", {0: Form("none"), 1: Form("ended", counts("retries"))})),
    0x09: Kind(Form("renewal of the counts"), ACCEPTED),
    0x0a: Kind(Form("new idle check", (
        Field("min", 2, "100 eRPM"), Field("max", 2, "100 eRPM"), *milliseconds("grace", "timeout", "age"),
        Field("required", 1), NOW)), ACCEPTED),
    0x0b: Kind(Form("question for the idle check", (NOW,)), STATUS),
    0x0c: Kind(Form("question for the report"), REPORT),
    0x0d: Kind(Form("question for the stored reading", (LANE,)),
               Choice("said", {0: Form("none"), 1: Form("stored reading", SAMPLE)})),
    0x0e: Kind(Form("question for the figures", (LANE,)), FIGURES),
}

# the numbers that a line can be refused with
REFUSALS = {
    1: "a line of more than 58 characters",
    2: "a character that is no digit",
    3: "half a byte",
    4: "no kind, or one above 0e",
    5: "a length that is not the kind's",
    6: "a lane above 3",
    7: "an armed byte above 01",
    8: "any kind but 00 before the first accepted 00",
}
