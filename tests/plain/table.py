"""The CSV holds the numbers of the digits."""
import csv
import io
from decimal import Decimal

from digits import pairs, readings
from tool import expect, printed


def table(records, answers):
    """The CSV, with a board map and magnets and without."""
    session, arms = pairs(records, answers), "2413"
    known = list(csv.reader(io.StringIO(printed("--csv", "--map", arms, "--magnets", "14", records, answers))))
    expect(["line", "opening", "observed (ms)", "lane", "arm", "sequence", "temperature (deg C)", "voltage (V)", "current (A)",
            "consumption (mAh)", "speed (eRPM)", "speed (rpm)"], known[0], f"{records}: the header")
    wanted = [[line, opening, observed, lane, int(arms[lane]), sequence, warm, Decimal(volts) / 100, Decimal(amperes) / 100,
               charge, erpm * 100, erpm * 200 // 14]
              for line, opening, observed, lane, sequence, warm, volts, amperes, charge, erpm in readings(session)]
    expect(wanted, [[Decimal(cell) for cell in row] for row in known[1:]], f"{records}: the CSV")
    unknown = list(csv.reader(io.StringIO(printed("--csv", records, answers))))
    expect([row[:4] + [""] + row[5:11] + [""] for row in known[1:]], unknown[1:], f"{records}: without a map")
    return len(wanted)
