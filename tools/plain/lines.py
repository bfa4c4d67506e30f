"""A plain line for each record, then the summary."""
from .summary import Summary
from .words import plain_line


def write(events, craft, out):
    summary = Summary()
    for event in events:
        summary.add(event)
        print(plain_line(event, craft), file=out)
    print(file=out)
    for line in summary.text(craft):
        print(line, file=out)
