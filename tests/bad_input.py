#!/usr/bin/env python3
"""Input that a reader might stumble on, run through the proved program.

What must be printed is written out here from the specification: its table of numbers, its table of
kinds, and the answers of a unit that was just opened with every setting 0.

    python3 tests/bad_input.py crates/unitlines/out/unitlines
"""
import subprocess
import sys

# the bytes that follow each kind's first byte
FIELDS = [28, 8, 13, 21, 8, 9, 0, 9, 0, 0, 25, 8, 0, 1, 1]
LANE_AT = {0x02: 5, 0x03: 5, 0x0d: 1, 0x0e: 1}
ARMED_AT = {0x07: 1}
OPENING = "00" * 29
# the answer to a record of zeros by a unit whose settings and boot time are 0
ZEROS = [
    "00", "00010000000000", "0001", "0000", "0000", "0000", "00", "0000", "0000", "00", "00", "0000",
    "00" + "00" * 42, "0000", "00" + "00" * 7,
]


def number(line, opened):
    """The lowest number that fits a line, or None where it is accepted."""
    if len(line) > 58:
        return 1
    if any(character not in b"0123456789abcdefABCDEF" for character in line):
        return 2
    if len(line) % 2:
        return 3
    record = bytes.fromhex(line.decode())
    if not record or record[0] > 0x0e:
        return 4
    kind = record[0]
    if len(record) != 1 + FIELDS[kind]:
        return 5
    if kind in LANE_AT and record[LANE_AT[kind]] > 3:
        return 6
    if kind in ARMED_AT and record[ARMED_AT[kind]] > 1:
        return 7
    return None if opened or kind == 0 else 8


def run(program, text):
    done = subprocess.run([program], input=text, capture_output=True, timeout=60)
    if done.returncode or done.stderr:
        sys.exit(f"bad_input: {text[:80]!r}: exit {done.returncode}, said {done.stderr!r}")
    return done.stdout


def compare(program, text, expected):
    printed = run(program, text)
    if printed != expected.encode():
        sys.exit(f"bad_input: {text[:120]!r} printed {printed[:120]!r}, not {expected[:120]!r}")


def whole_texts():
    """What is a line: text in, text out."""
    opening = OPENING.encode()
    yield b"", ""
    yield b"\n", "04\n"
    yield b"\n\n", "04\n04\n"
    yield opening, "00\n"
    yield opening + b"\n", "00\n"
    yield opening + b"\n\n", "00\n04\n"
    yield opening + b"\n06", "00\n00\n"
    # a CR is one character more, and no digit
    yield opening + b"\r\n06\r\n0\r\n\r\n", "01\n02\n02\n02\n"
    yield b"06\n" + opening + b"\n06\n", "08\n00\n00\n"


def spelt(record):
    """A record in small letters, in capitals and in both, where it has letters."""
    small = record.hex()
    both = "".join(character.upper() if place % 2 else character for place, character in enumerate(small))
    return sorted({line.encode() for line in (small, small.upper(), both)})


def lines():
    """Lines of one character and two, wide ones and odd ones, kinds above 0e: `number` says which are refused."""
    yield from (b"0" * 57, b"0" * 59, b"g" * 58, b"g" * 59, b"g" * 57, b"0" * 1_000_000)
    yield from (bytes([character]) for character in range(256) if character != 0x0a)
    yield from (b"0" + bytes([character]) for character in range(256) if character != 0x0a)
    yield from (b"\x00", b"06\x00", b"\xff\xff", b"06A", b"AG", b"@A", b"A" * 59, b"0x06", b" 06", b"06 ", "é".encode())
    yield from (b"%02x" % kind for kind in range(0x0f, 0x100))


def records():
    """Every kind with every length from 0 to 40, and the bytes about the ends of lane and flag."""
    for kind in range(0x11):
        for length in range(41):
            yield from spelt(bytes([kind] + [0] * length))
    for kind, at in (LANE_AT | ARMED_AT).items():
        for value in (1, 2, 3, 4, 0xff):
            record = bytearray([kind] + [0] * FIELDS[kind])
            record[at] = value
            yield from spelt(record)


def refusals(program):
    """Each line before an opening and, alone in a session, after one."""
    tried = [line for source in (lines(), records()) for line in source]
    before = [(line, number(line, False)) for line in tried if number(line, False) is not None]
    compare(
        program,
        b"".join(line + b"\n" for line, _ in before),
        "".join(f"{refused:02x}\n" for _, refused in before),
    )
    after = [(line, number(line, True)) for line in tried if number(line, True) is not None]
    compare(
        program,
        OPENING.encode() + b"\n" + b"".join(line + b"\n" for line, _ in after) + b"0c\n",
        "00\n" + "".join(f"{refused:02x}\n" for _, refused in after) + ZEROS[0x0c] + "\n",
    )
    return len(before) + len(after)


def answers(program):
    """Each kind's record of zeros, taken by a unit just opened."""
    for kind, answer in enumerate(ZEROS):
        for record in spelt(bytes([kind] + [0] * FIELDS[kind])):
            compare(program, f"{OPENING}\n{record.decode()}\n".encode(), f"00\n{answer}\n")
    # lane 3 and armed are taken, and any time, in whatever letters; none of these names what the unit holds
    for line, answer in (("02000000000300" + "00" * 7, "0000"), ("0701" + "00" * 8, "0000"),
                         ("0d03", "0000"), ("0e03", "00" + "00" * 7), ("0D03", "0000"), ("0E03", "00" + "00" * 7),
                         ("01" + "ABCDEF" * 2 + "ABCD", ZEROS[1]), ("04" + "aBcDeF" * 2 + "FfAa", "0000"),
                         ("05E7" + "AbCdEf" * 2 + "0dD0", "0000"), ("0B" + "F" * 16, "0000")):
        compare(program, f"{OPENING}\n{line}\n".encode(), f"00\n{answer}\n")


def main():
    program = sys.argv[1]
    texts = list(whole_texts())
    for text, expected in texts:
        compare(program, text, expected)
    tried = refusals(program)
    answers(program)
    print(f"bad_input: {len(texts)} texts and {tried} refused lines as the specification has them")


main()
