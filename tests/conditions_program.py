#!/usr/bin/env python3
"""`gtdesk conditions` against the plain model of tests/conditional_model.py.

First come the worked rows and files of conditional/, its tables of means at fault, and the hundred values of
examples/conditions; then random files of tags, of which some rows are damaged, read strictly or loosely. The record file is
that of the model, byte for byte, with the warnings of its hours by the models of loose texts and of hidden hours; or each fault
is listed with its row, line and place, and none is missing. Here `--strict` is of hours alone. Then come random tags whose hours
have holidays, moments and comments, with tables, years and clock times, or without them: the rows close when the tags do, at
drawn seconds. Run it after `rt ci`, which builds the program.

Usage: tests/conditions_program.py [COUNT [SEED]]
"""
import csv
import io
import os
import random
import re
import subprocess
import sys
import tempfile
from typing import NamedTuple

import conditional_model
import hidden_model
import holidays_model
import hours_model
import known_model
import known_program
import loose_model
import moments as moments_tests
import wider_model
import wider_program
from checks import Checks

HERE = os.path.dirname(os.path.abspath(__file__))
PROGRAM = os.environ.get("GTDESK", os.path.join(HERE, "..", "crates", "gtdesk", "out", "gtdesk"))
# What damages a value, a key or an element.
BYTES = "()@;,:\"0x><= \u00e9"


class Given(NamedTuple):
    """How hours are read, and with which options: a table of holidays, whose file is at a path, years, and clock times."""
    strict_hours: bool = False
    german: bool = False
    table: tuple = None
    path: str = ""
    years: str = ""
    clocks: dict = {}
    # All else of a value is read the same.
    strict: bool = False

    @property
    def words(self):
        """The options as words of the command."""
        return [*(["--strict"] if self.strict_hours else []), *(["--day-names", "de"] if self.german else []),
                *(["--holidays", self.path] if self.path else []), *(["--years", self.years] if self.years else []),
                *wider_program.words_of(self.clocks)]


class Uncovered(conditional_model.Fault):
    """A day that the table does not cover, at a place in the value."""

    def __str__(self):
        return f"{super().__str__()}: {holidays_model.date(self.args[2])}"


def warnings_of(data, rules, options):
    """The warnings of hours that have these rules; of rules that hide hours only those of plain ones."""
    try:
        return [f"{kind} at {at}" + (f": {form}" if form else "")
                for kind, at, form in hidden_model.warnings(data, options.german)]
    except hours_model.Fault:
        return wider_model.warnings(data, rules, known_program.pair_of(options.years))


def read_hours(text, place, options, warnings):
    """Hours as a term, with the warnings of them."""
    data = text.encode("latin-1")

    def reader(strict):
        return wider_model.read(strict, options.table, known_program.pair_of(options.years), options.clocks)

    try:
        rules = reader(data) if options.strict_hours else loose_model.read(data, options.german, reader)[0]
    except hours_model.Fault as fault:
        raise conditional_model.Fault(f"Hours {fault.args[0]}", place + fault.args[1]) from None
    except known_model.Uncovered as fault:
        raise Uncovered("Hours Uncovered", place + fault.args[0], fault.args[1]) from None
    for warning in warnings_of(data, rules, options):
        found = re.fullmatch(r"([A-Za-z]+) at ([0-9]+)(.*)", warning, re.DOTALL)
        warnings.append(f"warning Hours {found[1]} at {place + int(found[2])}{found[3]}")
    return conditional_model.Term(None, rules, [], text)


def holds(term, vehicle, second):
    """Whether a term holds for a type at a second."""
    return vehicle in term.types if term.types is not None else wider_model.state(term.rules, second) is True


conditional_model.read_hours, conditional_model.holds = read_hours, holds
LOOSE, STRICT, GERMAN = Given(), Given(strict_hours=True), Given(german=True)


def run(tags, means, room, options=LOOSE):
    """Status, output and lines of faults or warnings for the bytes of both files."""
    for name, data in (("tags.csv", tags), ("means.csv", means)):
        with open(os.path.join(room, name), "wb") as file:
            file.write(data)
    done = subprocess.run([PROGRAM, "conditions", *options.words, "tags.csv", "means.csv"], cwd=room, capture_output=True,
                          check=False)
    return done.returncode, done.stdout.decode(), done.stderr.decode("latin-1").splitlines()


def heads(lines, name):
    """The first lines of faults of a file: the line and what is said. A shown line of a file has spaces before it."""
    pattern = re.compile(rf"{re.escape(name)}:([0-9]+): (.*)")
    return [found.groups() for found in map(pattern.fullmatch, lines) if found]


def numbered(faults):
    """The same of faults or warnings of the model, in a file whose rows have one line each, with no empty lines between them."""
    lines = []
    for fault in faults:
        row = re.match(r"row ([0-9]+)", fault)
        lines.append((str(int(row[1]) + 1) if row else "1", fault))
    return lines


def of_hours(warnings):
    """Those of hours alone: of comparisons, `and` and a `;` at the end the program does not warn."""
    return [warning for warning in warnings if ": warning Hours " in warning]


def compare(check, data, means, room, options=LOOSE):
    """Compares the program with the model on the bytes of a file of tags. Hours of which the model writes no domain are left out:
    a damaged value may have them."""
    table, bytes_of_means = means
    try:
        expected, warnings, faults = conditional_model.put(data, table, options)
    except (ValueError, NotImplementedError):
        return
    status, output, errors = run(data, bytes_of_means, room, options)
    told = heads(errors, "tags.csv")
    wanted = "" if faults else "".join(line + "\n" for line in expected)
    lines = faults or of_hours(warnings)
    same_lines = b"\n\n" not in data and not re.search(rb'"[^",]*\n', data)
    right = told == numbered(lines) if same_lines else [what for _, what in told] == lines
    alone = faults or len(errors) == len(told)
    check(status == bool(faults) and output == wanted and right and alone,
          f"{options.words} {data}: {status} {errors} {output!r}, not {lines} {wanted!r}")


def written(rows):
    """Rows as the bytes of a file."""
    text = io.StringIO()
    csv.writer(text, lineterminator="\n").writerows(rows)
    return text.getvalue().encode("latin-1")


def compare_meaning(check, tags, means, room, options, chance):
    """Compares the program with the model on the tags of one element: faults and warnings, and when the rows close at seconds."""
    table, bytes_of_means = means
    says, _, warnings, faults = conditional_model.read_tags(tags, table, options)
    data = written([["element", "key", "value"], *([7, *tag] for tag in tags)])
    status, output, errors = run(data, bytes_of_means, room, options)
    told = [line for _, line in heads(errors, "tags.csv") if " warning Hours Hides " not in line]
    wanted = faults or [line for line in of_hours(warnings) if " warning Hours Hides " not in line]
    if not faults and status == 1 and all(line.endswith(": TooMany at 0") for line in told):
        return
    rows = [row[1:] for row in csv.reader(io.StringIO(output))][1:]
    differ = [] if faults else conditional_model.check_rows(str(tags), says, table, rows, chance, 30)
    check(status == bool(faults) and told == wanted and not (faults and output) and not differ,
          f"{options.words} {tags}: {status} {told}, not {wanted}; {differ}")


def worked(check, means, room, chance):
    """The worked rows and files. Of those with a table of holidays the rows have other bytes than the model writes."""
    with open(f"{HERE}/conditional/rows.csv", newline="") as source:
        for row in csv.DictReader(source):
            tags = [tuple(tag.encode().decode("latin-1").split("=", 1)) for tag in row["tags"].split(" | ")]
            asked = conditional_model.read_options(row["options"])
            if asked.holidays:
                rows, first, last = asked.holidays
                options = Given(table=rows, path=f"{HERE}/holidays/region.csv", years=f"{first}-{last}")
                compare_meaning(check, tags, means, room, options, chance)
            elif not row["options"]:
                compare(check, written([["element", "key", "value"], *([7, *tag] for tag in tags)]), means, room)
    with open(f"{HERE}/conditional/files.csv", newline="") as source:
        for row in csv.DictReader(source):
            compare(check, row["tags"].replace("|", "\n").encode(), means, room)


def faulty_means(check, room):
    """Tables of means that are at fault stop before the tags are read."""
    with open(f"{HERE}/conditional/means_faults.csv", newline="") as source:
        for row in csv.DictReader(source):
            faults = [fault for fault in row["faults"].split("; ") if fault]
            status, output, errors = run(b"element,key\n", row["bytes"].encode(), room)
            if faults:
                found = heads(errors, "means.csv")
                check(status == 1 and output == "" and found == numbered(faults) and not heads(errors, "tags.csv"),
                      f"{row['bytes']!r}: {status} {found}, not {faults}")
            else:
                check(status == 1 and heads(errors, "tags.csv") == [("1", "Header")], f"{row['bytes']!r}: {errors}")


def hundred(check, chance, room):
    """The values of examples/conditions: the rows of each close when its tag does, at drawn seconds; or its fault is told."""
    folder = f"{HERE}/../examples/conditions"
    with open(f"{folder}/means.csv", "rb") as source:
        means = source.read()
    table = conditional_model.read_means(list(csv.reader(io.StringIO(means.decode())))[1:])
    for name in ("values", "refused"):
        with open(f"{folder}/{name}.tags.csv", "rb") as source:
            data = source.read()
        tags = list(csv.reader(io.StringIO(data.decode())))[1:]
        status, output, errors = run(data, means, room)
        rows = list(csv.reader(io.StringIO(output)))[1:]
        faults, warned = [], []
        for number, (element, *tag) in enumerate(tags, 1):
            says, _, warnings, wrong = conditional_model.read_tags([tuple(tag)], table, LOOSE)
            faults += [fault.replace("row 1", f"row {number}") for fault in wrong]
            warned += [warning.replace("row 1", f"row {number}") for warning in of_hours(warnings)]
            own = [row[1:] for row in rows if row[0] == element]
            differ = wrong or conditional_model.check_rows(str(tag), says, table, own, chance, 150)
            check(name == "refused" or not differ, f"{tag}: {differ}")
        told = heads(errors, "tags.csv")
        check(status == int(name == "refused") and told == numbered(faults or warned), f"{name}: {errors}")


def damaged(chance, text):
    """A field with a byte left out, put in or changed."""
    at = chance.randrange(len(text) + 1)
    return text[:at] + chance.choice(["", chance.choice(BYTES)]) + text[at + chance.randrange(2):]


def renamed(chance, value):
    """A value, at times with a short name of a weekday that is read in two ways."""
    return value.replace("Sa,Su", chance.choice(("Sa,Su", "Sa,Su", "Sa,So", "sa, so.")))


def drawn(chance, table):
    """The rows of a random file of tags: of a few elements, in any order."""
    rows = []
    for element in chance.sample(range(1, 40), chance.randint(1, 5)):
        rows += [[f"{element:0{chance.randint(1, 10)}}", key, renamed(chance, value)]
                 for key, value in conditional_model.drawn(chance, table)]
    if chance.random() < 0.5:
        chance.shuffle(rows)
    if rows and chance.random() < 0.5:
        for _ in range(chance.randint(1, 3)):
            row = chance.choice(rows)
            column = chance.choice((0, 1, 2, 2, 2, 2))
            if column < len(row):
                row[column] = damaged(chance, row[column].encode().decode("latin-1"))
            if chance.random() < 0.1:
                row.pop()
    return [["element", "key", "value"], *(row for row in rows if row not in ([], [""]))]


def wide_term(chance):
    """Hours with holidays, moments, comments or rules of other kinds, in parentheses, or a comparison."""
    if chance.random() < 0.2:
        return chance.choice(("weight>7.5", "hazmat", "residents"))
    return f"({chance.choice((known_program.drawn_text, wider_program.drawn_text))(chance)})"


def wide_tags(chance, table):
    """Tags of one element with such hours."""
    keys = [key for mode in table.modes for key in conditional_model.keys_of(mode).values() if not key.startswith("oneway")]
    tags = []
    for key in chance.sample(keys, chance.randint(1, 2)):
        parts = [f"{chance.choice(('no', 'yes', 'destination'))} @ "
                 f"{' AND '.join(wide_term(chance) for _ in range(chance.randint(1, 2)))}"
                 for _ in range(chance.randint(1, 2))]
        tags.append((key + conditional_model.CONDITIONAL, "; ".join(parts).encode().decode("latin-1")))
    return tags


def with_options(check, means, room, chance):
    """Drawn tags with such hours: with all options, and without one of them."""
    rows, years = known_program.drawn_table(chance)
    path = known_program.written_table(rows, room)
    clocks = moments_tests.drawn_options(chance)
    tags = wide_tags(chance, means[0])
    for options in (Given(True, False, rows, path, years, clocks), Given(True), Given(True, False, rows, path, "", clocks)):
        compare_meaning(check, tags, means, room, options, chance)


def main():
    count, seed = int(sys.argv[1]) if sys.argv[1:] else 200, int(sys.argv[2]) if sys.argv[2:] else 1
    chance = random.Random(seed)
    check = Checks("conditions_program")
    with open(f"{HERE}/conditional/means.csv", newline="") as source:
        text = source.read()
    table = conditional_model.read_means(list(csv.reader(io.StringIO(text)))[1:])
    with tempfile.TemporaryDirectory() as room:
        worked(check, (table, text.encode()), room, chance)
        faulty_means(check, room)
        hundred(check, chance, room)
        for _ in range(count):
            options = chance.choice((LOOSE, LOOSE, GERMAN, STRICT))
            compare(check, written(drawn(chance, table)), (table, text.encode()), room, options)
            with_options(check, (table, text.encode()), room, chance)
    return check.end()


if __name__ == "__main__":
    sys.exit(main())
