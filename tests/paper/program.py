"""`flightsheet`: answers on standard input, their sheet on standard output, beside the second writing."""
import os
import random
import re
import socket
import subprocess
import sys
import tempfile
from contextlib import suppress
from threading import Thread

from answers import ROOT, STATUSES, STORED, delivered, delivering, showing
from drawn import Drawn
from page import ON_PAGE, PAGE, WIDE, Sample, first_row, page, sheet
from tool import Program, expect, parts_of, text_of

# Its exit status: all went well; something was named on standard error while the sheet was filed; the words are bad.
WELL, NAMED, BAD_WORDS = 0, 1, 2
# What it says on standard error, each with an LF behind it.
NO_ANSWER = "flightsheet: line {}: no answer"
PASSED_OVER = "flightsheet: lines passed over: {}"
NOT_READ = "flightsheet: standard input: could not be read"
NOT_WRITTEN = "flightsheet: standard output: could not be written"
USAGE = "usage: flightsheet MAP MAGNETS"
MAP_LENGTH = "flightsheet: 5: the map is not four motors"
MAGNETS_NOT_EVEN = "flightsheet: 11: the magnets are not an even number from 2 to 254"
MAP_MOTORS = "flightsheet: 12: the map has not each of 1 to 4 once"

# no word is cut to a good one, and one of more than 16 characters is none
NOT_EVEN = ["0", "00", "1", "13", "255", "149", *("0" * zeros + "149" for zeros in range(1, 70)),
            *("0" * zeros + "14" for zeros in range(15, 70))]
NO_NUMBERS = ["", "256", "270", "65550", "4294967310", "18446744073709551630", "9" * 5000, "+14", " 14", "14 ", "1 4", "x", "1x", "0x0e",
              "14.0", "14\n", "/:", "\udcff", "14x", *("0" * zeros + "14x" for zeros in range(1, 70))]
OPTIONS = ["-", "-14", "-x", "--", "---", "--wrong", "--hel", "--helping", "--version=", "-" + "4" * 5000]
BAD_ARGUMENTS = [
    (USAGE, [[], ["4213"], ["4213", "14", "14"], ["4213", "14", ""], ["421", "13", "14"], ["", "", ""]]),
    (USAGE, [words for option in OPTIONS for words in ([option], [option, "14"], ["4213", option], ["4213", "14", option], ["421", option])]),
    (MAP_LENGTH, [["", "14"], ["421", "14"], ["42134", "14"], ["421", "13"], ["4211111111", "0"], ["4" * 5000, "14"], ["", ""]]),
    (MAGNETS_NOT_EVEN, [[motors, magnets] for magnets in NOT_EVEN + NO_NUMBERS for motors in ("4213", "4211")]),
    (MAP_MOTORS, [[motors, "14"] for motors in ("4211", "0213", "5213", "1111", "4210", "421x", "\1\2\3\4", "tqrs", "421\udcff")]),
]
# before, between and behind other words, good and bad
ASKING = [[], ["4213"], ["4213", "14"], ["421", "13"], ["4213", "14", "14"]]

SAMPLE = Sample(3, 7, 5713, 57, 1579, 402, 231, 81)
GOOD = [delivering(SAMPLE, status) for status in STATUSES]
# answers of every other length
OTHERS = ["00", "01", "08", "0000", "0001", "0004030000", "000500010203", "00010000000702", "0000000001ff0000", showing(SAMPLE), "00" * 43]
# lines that are no answers, by their characters
TEXT_BAD = [
    "", "0", "000", "g0", "0g", " 00", "00 ", "0x00", "00\r", "\t", "\0\0", "\x7f\x7f", "@0", "`0", "/0", ":0", "\udcff\udcff", "é",
    GOOD[0][:-1], GOOD[0] + "0", "G" + GOOD[0][1:], GOOD[0][:-1] + "g", GOOD[0] + "\r", " " + GOOD[0],
    "0" * 87, "0" * 88, "0" * 200_000, "g" * 200_000, GOOD[0] * 2, GOOD[0] + "00" * 100,
]
# by their bytes: a sample and no status; no lane; a status of another length, and none that there is; records: an opening, 01, 02, 03, 04,
# 05, 07, 0a, 0b, 0d, 0e
BYTES_BAD = [
    GOOD[0][:-2], *(answer[:4] + lane + answer[6:] for answer in GOOD for lane in ("04", "ff")),
    *(GOOD[0][:-2] + status for status in ("04", "05", "06", "ff", "00000000", "05000000", "04040000", "0000000000", "0403000000")),
    *(place + GOOD[0][4:] for place in ("0000", "0001", "0003", "0102", "0202")),
    "00" * 29, "01" + "00" * 8, "02" + "00" * 13, "03" + "00" * 21, "04" + "00" * 8, "05" + "00" * 9, "07" + "00" * 9, "0a" + "00" * 25,
    "0b" + "00" * 8, "0d03", "0e03",
]
# bytes that are no other answer: a refusal that there is not, and each other length with a first byte, a number or a lane of none
OTHERS_BAD = [
    "0d", "ff", "0004", "00ff", "0100", "000000", "00040300", "0003030000", "0004040000", "0104030000", "000200000000", "000600000000",
    "010100000000", "00000000000000", "00030000000000", "00010000000004", "01010000000000", "0100000000000000", "00" * 9, "00" * 23,
    "0000" + "00" * 22, "0002" + "00" * 22, "000104" + "00" * 21, "0101" + "00" * 22, "00" * 42, "0002" + "00" * 41, "000002" + "00" * 40,
    "01" + "00" * 42,
]
BAD = TEXT_BAD + BYTES_BAD + OTHERS_BAD
# characters of a part of a text: fewer than a read takes
MOST = 1000


def said(*sentences):
    return "".join(sentence + "\n" for sentence in sentences).encode()


def said_of(numbers):
    """The lines that are no answers, and how many they are."""
    if not numbers:
        return b""
    return said(*(NO_ANSWER.format(number) for number in numbers), PASSED_OVER.format(len(numbers)))


def check(program, what, text, samples, motors="4213", magnets=14, bad=(), parts=None):
    """The samples are those of the text, or of its parts; the numbers of its lines that are no answers are bad."""
    arguments = [motors, str(magnets)]
    given = program.in_parts(arguments, parts) if parts else program.run(arguments, input=text)
    status = NAMED if bad else WELL
    given.expect(what, status, sheet(samples, [int(motor) for motor in motors], int(magnets)), said_of(bad))


def mixed(text):
    """Capitals at every second place."""
    return bytes(pair[at % 2] for at, pair in enumerate(zip(text, text.upper())))


def stored(program, g):
    """Stored answers in small letters, in capitals and in both, with several maps and magnets, whole and in parts."""
    for file in STORED:
        text = file.read_bytes()
        samples = delivered(text)
        for spelt in (text, text.upper(), mixed(text), text.removesuffix(b"\n")):
            check(program, file.name, spelt, samples)
        for motors, magnets in (("1234", 2), ("2341", 12), ("3142", 254), ("4321", "014")):
            check(program, file.name, text, samples, motors, magnets)
        for most in (3, 50, MOST):
            check(program, f"{file.name} in parts", text, samples, parts=parts_of(g, text, most))


def counted(program, draw):
    """Lists about the ends of pages, alone and among other answers."""
    g = draw.g
    check(program, "no line", b"", [])
    for end in ("\n", ""):
        check(program, "no sample", text_of(OTHERS, end), [])
    for count in (0, 1, 39, 40, 41, 79, 80, 81, 120, 1000):
        samples = draw.samples(count)
        lines = [delivering(sample, g.choice(STATUSES)) for sample in samples]
        among = [line for own in lines for line in (*g.choices(OTHERS, k=g.randrange(3)), own)] + g.choices(OTHERS, k=2)
        if lines:
            check(program, f"{count} samples", text_of(lines), samples, magnets=2)
            check(program, f"{count} samples, no last LF", text_of(lines, end=""), samples, magnets=2)
        check(program, f"{count} samples among others", text_of(among), samples, magnets=254)
        check(program, f"{count} samples in parts", b"", samples, parts=parts_of(g, text_of(among), 200))


def passed_over(program, draw):
    """Lines that are no answers: each alone, behind an answer and before one; some among many; and all."""
    for line in BAD:
        name = repr(line[:60])
        check(program, f"{name} alone", text_of([line]), [], bad=[1])
        check(program, f"{name} behind an answer", text_of([GOOD[0], line], end="" if line else "\n"), [SAMPLE], bad=[2])
        check(program, f"{name} before an answer", text_of([line, GOOD[5]], end=""), [SAMPLE], bad=[1])
    for count in (10, 100, 1000, 12_000):
        samples = draw.samples(count)
        lines, numbers = strewn(draw.g, samples)
        check(program, f"{len(numbers)} of {len(lines)} lines", text_of(lines), samples, bad=numbers)
    parts = parts_of(draw.g, text_of(["00", *BAD, GOOD[0]]), MOST)
    check(program, "all in parts", b"", [SAMPLE], bad=range(2, 2 + len(BAD)), parts=parts)


def strewn(g, samples):
    """Answers that deliver the samples, with lines among them that are none; the numbers of these."""
    lines, numbers, short = [], [], [line for line in BAD if len(line) < MOST]
    for sample in samples:
        if g.randrange(4) == 0:
            lines.append(g.choice(short))
            numbers.append(len(lines))
        lines.append(delivering(sample, g.choice(STATUSES)))
    return lines, numbers


def bad_arguments(program):
    """A sentence and nothing else."""
    for sentence, tries in BAD_ARGUMENTS:
        for arguments in tries:
            program.run(arguments, input=text_of(GOOD)).expect(str(arguments)[:100], BAD_WORDS, b"", said(sentence))


def texts(program):
    """Help and the version, wherever they are asked for; README.md has the version, and help names what README.md says."""
    readme = (ROOT / "README.md").read_text()
    version = re.search(r"`flightsheet MAP MAGNETS`, version (\d+\.\d+\.\d+)", readme)[1]
    for words in ASKING:
        for at in range(len(words) + 1):
            arguments = [*words[:at], "--version", *words[at:]]
            program.run(arguments, input=text_of(GOOD)).expect(str(arguments), WELL, f"flightsheet {version}\n".encode(), b"")
            arguments = [*words[:at], "--help", *words[at:]]
            status, printed, errors = program.run(arguments, input=text_of(GOOD))
            expect(f"{arguments}: exit status", (status, errors), (WELL, b""))
            wanted = {"flightsheet MAP MAGNETS", "--help", "--version"}
            expect(str(arguments), set(re.findall(r"flightsheet MAP MAGNETS|--[a-z]+", printed.decode())), wanted)


def streams(program):
    """An input that can't be read, at once or behind 41 samples, of which the last is held and not filed; an output that can't be written
    or whose reader has gone."""
    arguments = ["4213", "14"]
    with tempfile.TemporaryDirectory() as folder:
        place = os.open(folder, os.O_RDONLY)
        program.run(arguments, stdin=place).expect("a folder", NAMED, b"", said(NOT_READ))
        os.close(place)
    ours, theirs = socket.socketpair()
    ours.send(text_of([GOOD[0]] * (ON_PAGE + 1)))
    # what is left unread at the other end makes the read behind the text fail
    theirs.send(b"unread")
    ours.close()
    with theirs:
        given = program.run(arguments, stdin=theirs)
    given.expect("an input that breaks", NAMED, page(1, [SAMPLE] * ON_PAGE, [4, 2, 1, 3], 14), said(NOT_READ))
    for text in (b"", text_of(GOOD * 1000)):
        with open("/dev/full", "wb") as full:
            status, _, errors = program.run(arguments, input=text, stdout=full)
        expect("a full disk", (status, errors), (NAMED, said(NOT_WRITTEN)))
        left, gone = os.pipe()
        os.close(left)
        status, _, errors = program.run(arguments, input=text, stdout=gone)
        expect("a reader that has gone", (status, errors), (NAMED, said(NOT_WRITTEN)))
        os.close(gone)


def long_list(program):
    """More than a million pages through pipes: the number of the last."""
    last, sample = 1_000_002, Sample(*[0] * 8)
    answers = text_of([delivering(sample, "00")] * ON_PAGE)
    rows = page(1, [sample] * ON_PAGE, [4, 2, 1, 3], 14)[WIDE + 1:]
    child = subprocess.Popen([program.path, "4213", "14"], stdin=subprocess.PIPE, stdout=subprocess.PIPE)
    feeder = Thread(target=feed, args=(child.stdin, answers, last), daemon=True)
    feeder.start()
    for number in range(1, last + 1):
        printed = child.stdout.read(PAGE)
        if printed[WIDE + 1:] != rows or printed[:WIDE + 1].decode() != first_row(number).ljust(WIDE) + "\n":
            sys.exit(f"sheets: flightsheet: page {number} of {last} is not as wanted: {printed[:WIDE + 1]}")
    feeder.join()
    expect("behind the last page", child.stdout.read(), b"")
    expect("a long list: exit status", child.wait(), WELL)
    return last


def feed(pipe, answers, times):
    """So many times these answers, or those that come before the program ends."""
    many = 1000
    with suppress(OSError), pipe:
        for _ in range(times // many):
            pipe.write(answers * many)
        pipe.write(answers * (times % many))


def program(path, long):
    tried, g = Program(path), random.Random(1)
    draw = Drawn(g)
    stored(tried, g)
    counted(tried, draw)
    passed_over(tried, draw)
    bad_arguments(tried)
    texts(tried)
    streams(tried)
    far = f", page numbers to {long_list(tried)}" if long else ""
    print(f"sheets: flightsheet {tried.runs} times as document 02 has it, {len(STORED)} stored sessions{far}")
