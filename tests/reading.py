#!/usr/bin/env python3
"""Texts of opening hours by `read_hours`, beside `gtdesk mend hours`, which reads them in stages.

The program is reading/main.rattle, built without its proofs. Each text of tests/hours, each drawn text and each damaged one is
accepted by both or by neither, but for the changes below. Where both accept it, the mended texts are the same, or the stages mend
the one as the other: numbers of one weekday stand in one pair of brackets here, and dates of a year that move stay as they are.
Where both refuse it, the faults may differ: here a fault is where the longest beginning of any text ends, and numbers are judged
when their part is complete. How many differ is printed. Run it after `rt ci`, which builds the programs; GTDESK in the
environment names another one, and READING a program of main.rattle that is already built.

Usage: tests/reading.py [COUNT [SEED]]    (COUNT drawn texts, each also damaged and written loosely; the same seed draws the same)
"""
import concurrent.futures
import csv
import glob
import os
import random
import re
import subprocess
import sys

import hours
import trial
import wider_program
from checks import Checks
from hours_program import PROGRAM, line_of

CRATES = "gtd_core gtd_calendar gtd_hours2 gtd_hours_grammar2 gtd_hours_tokens2 gtd_hours_text2 gtd_hours_reading2"

# Texts that are read here and refused there, by the text and by the fault there: such ranges are judged when all rules are read.
CHANGED = [
    ("a range whose order changes from year to year", r".*(?:easter|\[)", "Range at"),
    ("years before dates of a year that move", r".*[0-9]{4}\+? *,? *[0-9]{4} *(?:easter|[A-Z][a-z]{2} *[A-Z][a-z]\[)",
     "Unexpected|Incomplete"),
    ("a colon before `unknown` or a comment", r'.*: *(?:unknown|")', "Unexpected at"),
]


# Texts at which the two differ by design: a fault where the longest beginning ends, and what is written as it is.
NAMED = {
    "PH +1 off": "Unexpected at 6",
    "Mar-Oct Su[1]-Nov 3": "Unexpected at 14",
    "(08:00-01:00)-12:00": "Unexpected at 1",
    "Mo: Tu": "Unexpected at 4",
    "Mar Su[1,2]-Oct 3": "Unexpected at 12",
    "week 54-": "Incomplete at 8",
    "Dec 24-2025": "Incomplete at 11",
    "Mo easter": "Unexpected at 3",
    "2025/2+": "Unexpected at 6",
    "16:00-21:30+12:00": "Unexpected at 12",
    "2030 2031 2026 easter": "Unexpected at 10",
    '(sunset+"x': "BadToken at 8",
    "2023+ 2029 easter -5 days off": "read 2023+ 2029 easter -5 days off",
    "2032+ 2028 Mar Su[1]-Oct Su[1]": "read 2032+ 2028 Mar Su[1]-2028 Oct Su[1]",
    "2026 Mar Su[-1]-Oct Su[1]": "read 2026 Mar Su[-1]-2026 Oct Su[1]",
    "2026 easter -2 days-2026 easter +1 day": "read 2026 easter -2 days-2026 easter +1 day",
    "Mo,,Th 08:00-12:00": "read Mo,Th 08:00-12:00",
    "(sunset+01:00)": "read (sunset+01:00)",
}


def worked():
    """The texts of the worked rows."""
    for name in sorted(glob.glob(f"{hours.TOP}/hours/*.csv")):
        with open(name, encoding="utf-8", newline="") as source:
            for row in csv.DictReader(source):
                yield row.get("text", row.get("hours"))


def loosened(text, chance):
    """The text with one of the forms in which people write it."""
    return chance.choice((
        text.lower(), text.upper(), text.replace(":00", "", 1), text.replace(":", "."), text.replace(" ", ": ", 1),
        text.replace("-", " - ", 1), text.replace("; ", ";;", 1), text.replace(",", ", ", 1), text.replace(",", " ", 1),
        text.replace("08:00", "8:00"), text.replace("off", "closed"), text.replace("Tu", "Tuesday"), text + ";",
        text.replace(":", ""),
    ))


def drawn(chance, count):
    for _ in range(count):
        text = wider_program.drawn_text(chance)
        yield from (text, wider_program.damaged(text, chance), loosened(text, chance))


def by_stages(text):
    done = subprocess.run([PROGRAM, "mend", "hours", "--", text], capture_output=True, text=True, check=False)
    if done.returncode == 0:
        return "read " + done.stdout[:-1]
    return line_of(done, text)[len(wider_program.NO_DOMAIN):-1]


def by_machine(texts):
    given = "".join(text + "\n" for text in texts)
    if "READING" in os.environ:
        done = subprocess.run([os.environ["READING"]], input=given, capture_output=True, text=True, check=True)
        return done.stdout.splitlines()
    return trial.printed("reading", CRATES, given).splitlines()


def main():
    count = int(sys.argv[1]) if sys.argv[1:] else 300
    chance = random.Random(int(sys.argv[2]) if sys.argv[2:] else 80)
    texts = [text for text in [*worked(), *drawn(chance, count)] if text == text.strip("\r\n") and "\n" not in text]
    with concurrent.futures.ThreadPoolExecutor() as pool:
        staged = list(pool.map(by_stages, texts))
    found = by_machine([*texts, *NAMED])
    found, named = found[:len(texts)], found[len(texts):]
    checks = Checks("reading of hours")
    changes = dict.fromkeys(["another fault", "written otherwise", *(row[0] for row in CHANGED)], 0)
    checks(len(found) == len(texts), f"{len(found)} lines for {len(texts)} texts")
    for (text, wanted), new in zip(NAMED.items(), named):
        checks(new == wanted, f"{text!r}: {new!r}, and not {wanted!r}")
    checks(len(named) == len(NAMED), f"{len(named)} lines for {len(NAMED)} named texts")
    for text, old, new in zip(texts, staged, found):
        both = [line.startswith("read ") for line in (old, new)]
        change, same = None, old == new
        if not same and both == [False, False]:
            change, same = "another fault", True
        elif not same and both == [True, True]:
            change, same = "written otherwise", by_stages(new[len("read "):]) == old
        elif both == [False, True]:
            change = next((name for name, form, fault in CHANGED if re.match(form, text) and re.match(fault, old)), None)
            same = change is not None
        if change:
            changes[change] += 1
        checks(same, f"{text!r}: {new!r}, and in stages {old!r}")
    print(f"reading: {len(texts)} texts; " + ", ".join(f"{n} {name}" for name, n in changes.items()))
    return checks.end()


if __name__ == "__main__":
    sys.exit(main())
