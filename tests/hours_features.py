#!/usr/bin/env python3
"""The table of features in docs/HOURS.md beside the built program `gtdesk hours`: each example is read, read by an option and
refused without it, or refused, with the kind of fault that the table names. Run it after `rt ci`, which builds the programs;
GTDESK in the environment names another one.

Usage: tests/hours_features.py
"""
import html
import os
import re
import sys

import hours
from hours_program import NO_DOMAIN, PROGRAM, line_of, told

TITLE = "## Features of the specification\n"
TABLE = os.path.join(hours.TOP, "holidays", "region.csv")


def rows():
    """The features, with their examples and what is said of them."""
    with open(os.path.join(os.path.dirname(hours.TOP), "docs", "HOURS.md"), encoding="utf-8") as file:
        section = file.read().split(TITLE)[1].split("\n## ")[0]
    for line in section.splitlines():
        if line.startswith("| ") and not line.startswith("| Feature"):
            feature, examples, said = (cell.strip() for cell in line.strip("|").split(" | "))
            found = re.findall(r"`([^`]*)`|<code>(.*?)</code>", examples)
            yield feature, [html.unescape(plain or written) for plain, written in found], said


def answer(text, options):
    """`read`, or the kind of fault."""
    done = told("hours", *options, "--", text)
    if done.returncode == 0:
        return "read"
    line = line_of(done, text)
    return re.sub(r" at .*", "", line.removeprefix(NO_DOMAIN).rstrip("\n"))


def expected(said):
    """What is said: options, the answer with them, and the answer without."""
    by = re.fullmatch(r"by `(.*)`, else `(.*)`", said)
    if by:
        return by[1].replace("FILE", TABLE).split(" "), "read", by[2]
    alone = "read" if said.startswith("read") else said.strip("`")
    return [], alone, alone


def main():
    if not os.path.exists(PROGRAM):
        sys.exit(f"no program at {PROGRAM}: run rt ci first")
    passed = failed = 0
    for feature, examples, said in rows():
        options, with_them, without = expected(said)
        for text in examples:
            found = answer(text, options), answer(text, [])
            if found == (with_them, without):
                passed += 1
            else:
                failed += 1
                print(f"FAILED {feature}: {text}: {found}, and not {(with_them, without)}")
    if passed < 60:
        print(f"FAILED only {passed} examples")
        failed += 1
    print(f"hours_features: {passed} passed, {failed} failed")
    return failed > 0


if __name__ == "__main__":
    sys.exit(main())
