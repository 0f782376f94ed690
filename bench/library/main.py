#!/usr/bin/env python3
"""The time of the questions of main.c from Python, by the package of python/: a line for each, its name and nanoseconds.
Usage: main.py DOMAIN FILE

The columns of a million questions are there before they are asked; the week is a schedule, which is one frame.
"""
import sys
from datetime import datetime, timedelta
from pathlib import Path

import numpy

TOP = Path(__file__).resolve().parents[2]
sys.path[:0] = [str(TOP / "bench"), str(TOP / "python")]

import gtd  # noqa: E402
from measuring import nanoseconds  # noqa: E402

ROUNDS, CALLS, SINGLES = 7, 1_000_000, 100_000
MONDAY = datetime(2024, 3, 11)
DIRECTIONS = numpy.array(["positive", "negative"], dtype=object)


def main():
    text, path = sys.argv[1:]
    given = Path(path).read_bytes()
    domain, records = gtd.Domain(text), gtd.Records(given)
    numbers = numpy.arange(CALLS)
    moments = (numpy.datetime64(MONDAY, "s") + numbers * 61 % 31_536_000).astype("datetime64[s]")
    elements = records.elements[numbers * 7919 % len(records.elements)]
    columns = elements, DIRECTIONS[numbers % 2], 1 + numbers % 12, moments
    singles = [MONDAY + timedelta(seconds=at * 61 % 31_536_000) for at in range(SINGLES)]
    asked = list(zip(elements.tolist(), columns[1], (1 + numbers % 12).tolist(), singles))

    def singly():
        contains = domain.contains
        for moment in singles:
            contains(moment)

    def closed():
        closed_at = records.closed_at
        for words in asked:
            closed_at(*words)

    nanoseconds(ROUNDS, "holds", SINGLES, singly)
    nanoseconds(ROUNDS, "holds_many", CALLS, lambda: domain.contains(moments))
    nanoseconds(ROUNDS, "closed_at", SINGLES, closed)
    nanoseconds(ROUNDS, "closed_many", CALLS, lambda: records.closed_at(*columns))
    nanoseconds(ROUNDS, "open", 1, lambda: gtd.Records(given))
    nanoseconds(ROUNDS, "week", 1, lambda: records.schedule("2024-03-11", "2024-03-18", 11))


if __name__ == "__main__":
    main()
