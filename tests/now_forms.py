#!/usr/bin/env python3
"""The forms of `gtdesk now`, against its lines, on random record files.

JSON as Python reads it, and the columns of the table, say the same as the lines of fields, for all elements and for closed
ones. With `--why`, each row that a line names is told below it: the line of the file on which it begins, its number, the text
that `gtd canon` prints of its domain, and the words of `gtdesk words`. The files have empty lines and line ends of each kind. A
note is told exactly if no row is for the vehicle type. Each element has the lines that it has alone. With `--zone`, the moment
is what `date` prints in that zone. Run it after `rt ci`, which builds the programs.

Usage: tests/now_forms.py [COUNT [SEED]]
"""
import contextlib
import csv
import io
import json
import os
import random
import subprocess
import sys
import tempfile

HERE = os.path.dirname(os.path.abspath(__file__))
CRATES = os.path.join(os.path.dirname(HERE), "crates")
PROGRAMS = {it: os.path.abspath(os.environ.get(it.upper(), os.path.join(CRATES, it, "out", it))) for it in ("gtd", "gtdesk")}
DOMAINS = ["", "(h10){h4}", "[(M4d1){M3}]*[(h10){h4}]", "(h22){h8}", "(t7h5){h10}", "(h0){h24}-(M8){M1}",
           "[(h1){h1}+[(h3){h2}-(h4){h1}]]*[(t2){d1}+(t3){d1}]", "(y2024M3d5){d1}", "(h0){d1}", "(m30){m5}", "(h8){s0}"]
ELEMENTS = [1, 7, 17, 20, 101, 65_536, 4_294_967_295, 4_294_967_296, 9_999_999_999]
ZONES = ["UTC", "Europe/Vienna", "America/Argentina/Buenos_Aires", "Asia/Kathmandu", "Etc/GMT+12", "Pacific/Kiritimati"]


ENDS = ["\n", "\r\n", "\r"]


def run(program, *words, note=""):
    """What a program prints. It may tell this note."""
    done = subprocess.run([PROGRAMS[program], *words], stdout=subprocess.PIPE, stderr=subprocess.PIPE, check=True)
    assert done.stderr.decode() == note, (words, done.stderr)
    return done.stdout.decode()


def rows_of(dice, most=12):
    """The rows of a random file."""
    return [[str(dice.choice(ELEMENTS)), dice.choice(["positive", "negative", "both"]), dice.choice(["0", "11", "12"]),
             dice.choice(DOMAINS)] for _ in range(dice.randint(0, most))]


def moment_of(dice):
    return f"{dice.randint(1901, 2199)}-{dice.randint(1, 12):02}-{dice.randint(1, 28):02}T" \
           f"{dice.randint(0, 23):02}:{dice.choice([0, 30, 59]):02}:{dice.choice([0, 59]):02}"


TOLD = {}


def told(domain):
    """The text and the words of a domain, as other commands print them."""
    if domain not in TOLD:
        TOLD[domain] = ("", "always\n") if not domain else (
            run("gtd", "canon", domain).rstrip("\n"), run("gtdesk", "words", domain))
    return TOLD[domain]


def text_of(dice, rows):
    """The text of a file, and the line on which each row begins: one more than the line feeds before it."""
    text, lines = dice.choice(["", "\ufeff"]), []
    for row in [["element", "direction", "vehicle", "domain"], *rows]:
        text += "".join(dice.choice(ENDS) for _ in range(dice.choice([0, 0, 0, 1, 3])))
        lines.append(text.count("\n") + 1)
        text += ",".join(dice.choice([field, f'"{field}"']) for field in row) + dice.choice(ENDS)
    return text, lines[1:]


def below(rows, places, numbers):
    """The lines below an entry."""
    lines = []
    for number in numbers:
        text, words = told(rows[number - 1][3])
        first, *others = words.splitlines()
        lines.append(f"    line {places[number - 1]}, row {number}: " + (f"{text}: " if text else "") + first)
        lines += ["        " + line for line in others]
    return lines


def numbers_of(column):
    return [int(number) for number in column.split(";") if number]


@contextlib.contextmanager
def asked_of(text, rows, moment, *options):
    """A call that asks a file with this text, which has these rows, with more options."""
    with tempfile.NamedTemporaryFile("w", suffix=".csv", newline="", encoding="utf-8") as file:
        file.write(text)
        file.flush()
        some = any(row[2] in ("0", "11") for row in rows)
        note = "" if some else f"gtdesk: {file.name}: note: no row is for vehicle type 11\n"
        yield lambda *more: run("gtdesk", "now", file.name, moment, "11", *options, *more, note=note)


def check(dice, rows, moment, *options):
    """Compares the forms of one answer."""
    text, places = text_of(dice, rows)
    with asked_of(text, rows, moment, *options) as now:
        lines = list(csv.DictReader(io.StringIO(now())))
        wanted = [{"element": int(line["element"]), "direction": line["direction"], "vehicle": int(line["vehicle"]),
                   "state": line["state"], "until": line["until"] or None, "rows": numbers_of(line["rows"])} for line in lines]
        objects = now("--json").splitlines()
        assert [json.loads(line) for line in objects] == wanted
        assert [list(json.loads(line)) for line in objects] == [list(line) for line in wanted]
        whys = [dict(line, why=[dict(zip(("line", "row", "domain", "words"), (places[row - 1], row, *told(rows[row - 1][3]))))
                                for row in line["rows"]]) for line in wanted]
        assert [json.loads(line) for line in now("--json", "--why").splitlines()] == whys
        columns = [[f'{"element":>10}', f'{"direction":9}', f'{"state":6}', f'{"until":19}', "rows"]]
        columns += [[f'{line["element"]:>10}', f'{line["direction"]:9}', f'{line["state"]:6}', f'{line["until"] or "-":19}',
                     line["rows"] or "-"] for line in lines]
        table = ["  ".join(line) for line in columns]
        assert now("--table").splitlines() == table
        for form, entries in ((["--table"], table), ([], now().splitlines())):
            entries = [[entries[0]]] + [[entry, *below(rows, places, line["rows"])] for entry, line in zip(entries[1:], wanted)]
            assert now("--why", *form).splitlines() == [line for entry in entries for line in entry]


def check_alone(dice, rows, moment):
    """Among many elements, of which some are closed by the same domains, each has the lines that it has alone."""
    text, _ = text_of(dice, rows)
    with asked_of(text, rows, moment) as now:
        lines = lambda *options: now(*options).splitlines()[1:]
        elements = sorted({int(row[0]) for row in rows})
        assert lines() == [line for element in elements for line in lines("--element", str(element))]


def check_zone(zone):
    """The moment of the clock of a zone is what `date` prints, before or after."""
    rows = "element,direction,vehicle,domain\n1,both,0,\n2,both,0,(h0){h12}\n3,both,0,(m30){m30}\n"
    with tempfile.NamedTemporaryFile("w", suffix=".csv") as file:
        file.write(rows)
        file.flush()
        clock = lambda: subprocess.run(["date", "+%FT%T"], env=dict(os.environ, TZ=zone), stdout=subprocess.PIPE,
                                       check=True).stdout.decode().strip()
        for _ in range(3):
            before, found = clock(), run("gtdesk", "now", file.name, "11", "--zone", zone)
            if found in (run("gtdesk", "now", file.name, before, "11"), run("gtdesk", "now", file.name, clock(), "11")):
                return
        raise AssertionError(zone)


def main():
    count = int(sys.argv[1]) if len(sys.argv) > 1 else 100
    dice = random.Random(int(sys.argv[2]) if len(sys.argv) > 2 else 1)
    for _ in range(count):
        rows, moment = rows_of(dice), moment_of(dice)
        for options in ([], ["--closed"], ["--element", "17,9999999999"]):
            check(dice, rows, moment, *options)
        check_alone(dice, rows_of(dice, 40), moment)
    for zone in ZONES:
        check_zone(zone)
    print(f"now_forms: {4 * count + len(ZONES)} passed, 0 failed")


if __name__ == "__main__":
    main()
