#!/usr/bin/env python3
"""Asks `live` for pictures by the clock: timer.py [--step=N] [--seconds=SECONDS] | bridge_cli live ..

At each Nth picture time (1,001 / 30,000 seconds; N from 1 to 31, else 1) it writes a line with the picture times that have
passed since the line before. Times are counted from the start, so none is lost by and by; where a line could not be written
in time, the next one tells of all that have passed meanwhile, 31 a line at most. It ends after so many seconds, at an
interrupt or SIGTERM, or where nobody reads any more."""
import fractions
import os
import signal
import sys
import time

from words import number, options, seconds, told

PICTURE_TIME = fractions.Fraction(1001, 30000)

ENDING = (signal.SIGINT, signal.SIGTERM)


class Ended(Exception):
    """A signal says that no line more is to come."""


def end(*_):
    """A second signal changes nothing."""
    for its in ENDING:
        signal.signal(its, signal.SIG_IGN)
    raise Ended


def passed(began):
    """The picture times since a moment."""
    return int((time.monotonic() - began) / PICTURE_TIME)


def steps(step, limit):
    """The steps of all lines, each when its time has come."""
    began, told_of = time.monotonic(), 0
    while limit is None or (told_of + step) * PICTURE_TIME <= limit:
        time.sleep(max(0.0, began + float((told_of + step) * PICTURE_TIME) - time.monotonic()))
        more = min(31, max(step, passed(began) - told_of))
        told_of += more
        yield more


if __name__ == "__main__":
    asked, names = options(sys.argv[1:], {"step": number(1, 31), "seconds": seconds})
    told(__doc__, sys.argv[1:], asked is not None and not names)
    for ending in ENDING:
        signal.signal(ending, end)
    try:
        for its in steps(asked.get("step", 1), asked.get("seconds")):
            os.write(1, b"%d\n" % its)
    except (Ended, BrokenPipeError):
        pass
