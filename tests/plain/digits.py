"""What a session holds, taken from the places of its digits by the tables of docs/RECORDS.md."""


def pairs(records, answers):
    """Numbered lines of both files. Any byte is a character."""
    texts = [file.read_bytes().decode("latin-1").removesuffix("\n").split("\n") for file in (records, answers)]
    return [(number, *pair) for number, pair in enumerate(zip(*texts, strict=True), 1)]


def silent_bytes(session):
    """The plain line of each wire byte that brings no reading, by its number."""
    return {
        number: f"{number:>6}  {int(record[4:], 16):>7} ms  wire byte (05): {record[2:4].lower()} → no reading"
        for number, record, answer in session if record[:2] == "05" and answer == "0000"
    }


def readings(session):
    """Line, opening, observed time, lane, sequence and the five numbers of each delivery."""
    ends = [4, 6, 14, 30, 32, 36, 40, 44, 48]
    opening = 0
    for number, record, answer in session:
        opening += record[:2] == "00" and answer == "00"
        if record[:2] in ("03", "05") and answer[:4] == "0002":
            lane, sequence, observed, *five = [int(answer[start:end], 16) for start, end in zip(ends, ends[1:])]
            yield number, opening, observed, lane, sequence, *five


def timeouts(session):
    """Lane and time of each timeout."""
    return [(int(answer[-2:]), int(record[2:], 16)) for _, record, answer in session if record[:2] == "04" and len(answer) > 4]


def recoveries(session):
    return [int(record[4:], 16) for _, record, answer in session if record[:2] == "07" and answer == "0001"]
