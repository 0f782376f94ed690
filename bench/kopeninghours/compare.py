#!/usr/bin/env python3
"""The texts of tests/hours by KOpeningHours and by the models of this project: prints each text for which the minutes of 2023
to 2026 differ, how many differ, and the first of them. With STEP, only each STEP-th minute is looked at, by itself.

These are the plain hours of texts.csv, by tests/hours_model.py; and of moving.csv, easter.csv, years.csv and remarks.csv those
texts that need no table and no option but the years 2023 to 2026, by tests/wider_model.py, of which each 30th minute is
looked at.

Usage: bench/kopeninghours/compare.py DRIVER [STEP]    (bench/kopeninghours.sh builds the driver)
"""
import os
import subprocess
import sys

TOP = os.path.dirname(os.path.dirname(os.path.dirname(os.path.abspath(__file__))))
sys.path.insert(0, os.path.join(TOP, "tests"))

import hours  # noqa: E402
import hours_model  # noqa: E402
import wider_model  # noqa: E402

ERRORS = ["Null", "NoError", "SyntaxError", "MissingRegion", "MissingLocation", "IncompatibleMode", "UnsupportedFeature",
          "EvaluationError"]
KNOWN = (2023, 2026)
WIDER_STEP = 30


def minutes_of(line):
    """One byte for each minute, from the runs that the driver printed."""
    minutes = bytearray(1440 * hours.DAYS)
    for run in line.split()[1:]:
        first, end = map(int, run.split("-"))
        minutes[first:end] = b"\1" * (end - first)
    return bytes(minutes)


def plain_minutes(text, step):
    """One byte for each such minute of plain hours."""
    return hours_model.open_minutes(hours_model.read(text.encode()), hours.FIRST, hours.DAYS)[::step]


def wider_minutes(text, step):
    """The same of a text that is no plain hours."""
    rules = wider_model.read(text.encode(), None, KNOWN, {})
    start = (hours.FIRST - hours_model.EPOCH).days * 86400
    return bytes(wider_model.state(rules, start + 60 * minute) is True for minute in range(0, 1440 * hours.DAYS, step))


def difference(text, line, minutes, step):
    """What differs, or None."""
    if line.startswith("error"):
        return f"refused: {ERRORS[int(line.split()[1])]}"
    ours = minutes(text, step)
    theirs = minutes_of(line)[::step]
    if ours == theirs:
        return None
    count = sum(pair[0] != pair[1] for pair in zip(ours, theirs))
    at = hours.first_difference(ours, theirs)
    said = "open" if theirs[at] else "closed"
    return f"{count} of {len(ours)} moments, the first at {hours.stamp(at * step)}: {said} there, and not here"


def wider_texts():
    """Texts that are no plain hours, and need nothing but years."""
    rows = [row for name in ("moving", "easter", "years", "remarks") for row in hours.rows_of(f"{name}.csv")]
    return [row["text"] for row in rows if not (row["fault"] or row["table"] or row["options"])]


def compared(words, texts, minutes, step):
    """Prints the texts that differ, and answers how many do."""
    lines = subprocess.run(words, input="\n".join(texts) + "\n", check=True, capture_output=True, text=True).stdout.splitlines()
    found = [(text, difference(text, line, minutes, step)) for text, line in zip(texts, lines, strict=True)]
    for text, what in found:
        if what:
            print(f"{text}: {what}")
    return sum(what is not None for _, what in found)


def main():
    plain, wider = [row["hours"] for row in hours.rows_of("texts.csv")], wider_texts()
    words = [sys.argv[1], hours.FIRST.isoformat(), str(hours.DAYS), *sys.argv[2:]]
    step = int(sys.argv[2]) if len(sys.argv) == 3 else 1
    differ = compared(words, plain, plain_minutes, step), compared(words, wider, wider_minutes, WIDER_STEP)
    print(f"kopeninghours: {len(plain)} texts of plain hours, {differ[0]} differ; {len(wider)} others, {differ[1]} differ")


if __name__ == "__main__":
    main()
