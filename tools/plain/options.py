"""The command line."""
import argparse
import os
import signal
import sys

from . import lines, picture, readings_csv
from .craft import Craft, board_map, magnets
from .session import Fault, called, events

ABOUT = """A session in plain words: a line for each record with its answer, and at the end a summary for each lane with what
was refused. - is standard input, for one of the two files."""
END = """Ends with 0; with 1 and a message where a file can't be read or an answer does not fit its record; with 2 where it is
called wrongly. See docs/OPERATIONS.md."""


def checked(read):
    """argparse prints what a reading function says."""
    def value(text):
        try:
            return read(text)
        except ValueError as error:
            raise argparse.ArgumentTypeError(str(error)) from None
    return value


def parser():
    made = argparse.ArgumentParser(prog="unitplain", description=ABOUT, epilog=END, allow_abbrev=False)
    made.add_argument("records", metavar="RECORDS", help="the file that unitlines was given")
    made.add_argument("answers", metavar="ANSWERS", help="what it printed")
    form = made.add_mutually_exclusive_group()
    form.add_argument("--csv", action="store_true", help="print the readings alone, as CSV")
    form.add_argument("--svg", action="store_true", help="print a picture of the readings and faults, as SVG")
    made.add_argument("--map", type=checked(board_map), metavar="MAP",
                      help="the motors of lanes 0 to 3, as in 1234: then arms are named")
    made.add_argument("--magnets", type=checked(magnets), metavar="N", help="magnets of a motor: then speed is in rpm too")
    return made


def write(options):
    craft = Craft(options.map, options.magnets)
    session = events(options.records, options.answers)
    if options.csv:
        readings_csv.write(session, craft, sys.stdout)
    elif options.svg:
        picture.write(session, craft, called(options.records), sys.stdout)
    else:
        lines.write(session, craft, sys.stdout)


def main():
    # a reader that has seen enough, such as head, ends this too
    signal.signal(signal.SIGPIPE, signal.SIG_DFL)
    # a file's name may be no text
    sys.stdout.reconfigure(encoding="utf-8", errors="backslashreplace", newline="\n")
    arguments = parser()
    options = arguments.parse_args()
    if options.records == options.answers == "-":
        arguments.error("only one of the two can be standard input")
    try:
        try:
            write(options)
        finally:
            sys.stdout.flush()
    except Fault as fault:
        sys.exit(f"unitplain: {fault}")
    except OSError as error:
        # what can't be written is not tried again at the end
        os.dup2(os.open(os.devnull, os.O_WRONLY), sys.stdout.fileno())
        sys.exit(f"unitplain: standard output: {error.strerror}")
