#!/usr/bin/env python3
"""A long file is mended in one edit by what `gtdesk faults` prints of it.

A file of 3,000 rows is damaged in ten rows, in ten ways. It is mended from the printed lines alone: the line of the file, the
row, the kind of the fault, the field that is shown and the place of the caret. Which fields are right is known by the row's
number, as people know it from their source. Then `gtdesk faults` must print nothing, and `gtd schedule` what it printed of the
file before.

Usage: tests/mend.py [SEED..]    (tests/desk.sh runs it)
"""
import os
import random
import re
import subprocess
import sys
import tempfile

from checks import Checks

TOP = os.path.dirname(os.path.dirname(os.path.abspath(__file__)))
GTD = os.path.join(TOP, "crates", "gtd", "out", "gtd")
DESK = os.path.join(TOP, "crates", "gtdesk", "out", "gtdesk")
ROWS = 3000
HEADERS = ["element,direction,vehicle,domain", "element,direction,vehicles,domain"]
DIRECTIONS = ["positive", "negative", "both"]
DOMAINS = [
    "[(M4d1){M3}]*[(h10){h4}]", "(h22){h8}", "(t2t3t4t5t6h7m30){h8m30}", "[(h0){h24}]-[(M7){M2}]", "(f12){d1}+(f14){d1}",
    "[(h7){h2}+(h16){h3}]*[(t2){d5}]", "(M12d24h18){d2}", "(l16h20){h6}",
]
FIELDS = ["Element", "Direction", "Vehicle", "Domain"]
FAULT = re.compile(r".+:(\d+): row (\d+): (FieldCount|Element|Direction|Vehicle|Domain)(?: [A-Za-z]+ at \d+)?")

# Each way to damage a row: which field is changed, if only one, and what is made of the fields.
DAMAGES = [
    ("a comma left out", None, lambda fields: [fields[0] + fields[1], *fields[2:]]),
    ("a comma too many", None, lambda fields: [*fields, ""]),
    ("an element with a separator", 0, lambda text: text[:-3] + " " + text[-3:]),
    ("an element that a spreadsheet rounded", 0, lambda text: text[0] + ".2E+05"),
    ("another word for a direction", 1, lambda text: text.capitalize()),
    ("a vehicle type that is too large", 2, lambda text: "100"),
    ("an hour that is too large", 3, lambda text: re.sub(r"\([A-Za-z]\d+", "(h25", text, count=1)),
    ("another dash or sign", 3, lambda text: text.replace("{", "–{", 1)),
    ("an end that is cut off", 3, lambda text: text[:-1]),
    ("a brace for a parenthesis", 3, lambda text: text.replace(")", "}", 1)),
]

check = Checks("mend")


def run(program, *words):
    done = subprocess.run([program, *words], capture_output=True, timeout=60)
    return done.returncode, done.stdout.decode("ascii"), done.stderr.decode("ascii")


def sound_rows(choose):
    """The right fields of each row."""
    return [
        [str(200000 + number), choose.choice(DIRECTIONS), str(choose.randrange(100)), choose.choice(DOMAINS)]
        for number in range(ROWS)
    ]


def lines_of(rows, header, gaps):
    """The lines of a file of these rows. Before the rows of these numbers stands an empty line, which is no row."""
    lines = [header]
    for number, fields in enumerate(rows, 1):
        lines += [""] * (number in gaps) + [",".join(fields)]
    return lines


def damaged(fields, which, damage):
    if which is None:
        return damage(fields)
    return [damage(text) if place == which else text for place, text in enumerate(fields)]


def shown_byte(match):
    return bytes([int(match.group(1), 16)])


def mend(lines, printed, right):
    """Mends the lines by what was printed of them. `right` gives the right fields of a row by its number."""
    printed = printed.split("\n")
    at = mended = 0
    while printed[at]:
        line, row, kind = FAULT.fullmatch(printed[at]).group(1, 2, 3)
        line, fields = int(line) - 1, right(int(row))
        at += 1
        if kind == "FieldCount":
            check(printed[at:at + 2] == [f"    found:    {lines[line]}", f"    fields:   {lines[line].count(',') + 1}"],
                  f"line {line + 1}: the row stands there")
            at += 2
            lines[line] = ",".join(fields)
        else:
            shown, caret = printed[at][4:], printed[at + 1].index("^") - 4
            at += 2
            place = FIELDS.index(kind)
            here = fields[place]
            wrong = re.sub(rb"\\x([0-9a-f]{2})", shown_byte, shown.encode("ascii")).decode("utf-8")
            # What stands before the caret is right and stays.
            good = shown[:caret] + here[caret:]
            cells = lines[line].split(",")
            check(cells[place] == wrong, f"line {line + 1}: the field {shown} stands there")
            cells[place] = good
            lines[line] = ",".join(cells)
        check(printed[at].startswith("    expected: "), f"line {line + 1}: what is accepted there")
        at += 1
        mended += 1
    return mended


def put(path, lines):
    with open(path, "w", encoding="utf-8", newline="") as file:
        file.write("\n".join(lines) + "\n")


def round_of(room, seed):
    choose = random.Random(seed)
    rows, header = sound_rows(choose), HEADERS[seed % 2]
    gaps = set(choose.sample(range(1, ROWS + 1), 20))
    sound, path = lines_of(rows, header, gaps), os.path.join(room, "rows.csv")
    asked = [path, "2024-03-25", "2024-04-08", "11"]
    put(path, sound)
    check(run(DESK, "faults", path) == (0, "", ""), f"seed {seed}: the file is accepted")
    before = run(GTD, "schedule", *asked)
    check(before[0] == 0 and before[1].count("\n") > ROWS, f"seed {seed}: the schedule before")

    bad = sorted(choose.sample(range(ROWS), len(DAMAGES)))
    broken = list(rows)
    for number, (_, which, damage) in zip(bad, choose.sample(DAMAGES, len(DAMAGES))):
        broken[number] = damaged(rows[number], which, damage)
    lines = lines_of(broken, header, gaps)
    put(path, lines)
    status, printed, _ = run(DESK, "faults", path)
    found = [int(match.group(2)) - 1 for match in map(FAULT.fullmatch, printed.split("\n")) if match]
    check(status == 1 and found == bad, f"seed {seed}: the rows at fault: {found} for {bad}")
    check(run(GTD, "schedule", *asked)[0] == 1, f"seed {seed}: the damaged file is refused")

    check(mend(lines, printed, lambda number: rows[number - 1]) == len(DAMAGES), f"seed {seed}: ten faults are mended")
    put(path, lines)
    check(run(DESK, "faults", path) == (0, "", ""), f"seed {seed}: no fault is left")
    check(run(GTD, "schedule", *asked) == before, f"seed {seed}: the schedule is that of before")
    check(lines == sound, f"seed {seed}: the file is that of before")


def main():
    with tempfile.TemporaryDirectory() as room:
        for seed in [int(word) for word in sys.argv[1:]] or [1, 2]:
            round_of(room, seed)
    return check.end()


if __name__ == "__main__":
    sys.exit(main())
