"""The readings that were delivered, as CSV: a row each, numbers in the units of the header. What is not known is empty."""
import csv

from .words import hundredths

# plain ASCII, which every spreadsheet reads alike
HEADER = ["line", "opening", "observed (ms)", "lane", "arm", "sequence", "temperature (deg C)", "voltage (V)", "current (A)",
          "consumption (mAh)", "speed (eRPM)", "speed (rpm)"]


def row(event, opening, craft):
    reading = event.reading
    return [event.number, opening, reading["observed"], reading["lane"], craft.arm(reading["lane"]), reading["sequence"],
            reading["temperature"], hundredths(reading["voltage"]), hundredths(reading["current"]), reading["consumption"],
            reading["speed"] * 100, craft.rpm(reading["speed"])]


def write(events, craft, out):
    rows = csv.writer(out, lineterminator="\n")
    rows.writerow(HEADER)
    opening = 0
    for event in events:
        opening += event.opens
        if event.reading:
            rows.writerow(row(event, opening, craft))
