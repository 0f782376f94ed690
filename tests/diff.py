#!/usr/bin/env python3
"""`gtdesk diff` on pairs of record files, against the plain model of tests/model.py.

The domains of these files begin and end on quarters of an hour, so the model is asked at each quarter of the days. The pairs are
random files, and files that were shuffled, whose rows were split or rewritten, or in which one hour was changed: of the first
three nothing may be printed but the header, and of the last exactly that hour. Each pair is asked for its intervals, for these
with `--rows`, and with `--summary`. Then come faults of either file and of the words, and an output that fails. Run it after
`rt ci`, which builds the program.

Usage: tests/diff.py [COUNT [SEED]]
"""
import datetime
import os
import random
import subprocess
import sys
import tempfile

import model

TOP = os.path.dirname(os.path.dirname(os.path.abspath(__file__)))
GTDESK = os.path.abspath(os.environ.get("GTDESK", os.path.join(TOP, "crates", "gtdesk", "out", "gtdesk")))
HEADER = "element,direction,vehicle,change,from,until\n"
HEADERS = {
    "": HEADER,
    "--rows": "element,direction,vehicle,change,from,until,old_rows,new_rows\n",
    "--summary": "element,direction,vehicle,old_seconds,new_seconds\n",
}
RECORDS = "element,direction,vehicles,domain\n"
EPOCH = datetime.datetime(1970, 1, 1)
QUARTER = 900


def stamp(second):
    return (EPOCH + datetime.timedelta(seconds=second)).isoformat()


def day_of(text):
    return (datetime.datetime.fromisoformat(text) - EPOCH).days


# ---- what is to be printed

def intervals(seconds):
    """The intervals of quarters of an hour, joined where they touch."""
    found = []
    for second in seconds:
        if found and found[-1][1] == second:
            found[-1][1] = second + QUARTER
        else:
            found.append([second, second + QUARTER])
    return found


def read_domains(rows):
    return [row[:3] + (model.read(row[3].encode()) if row[3] else None,) for row in rows]


def closing_rows(rows, element, direction, vehicle, second):
    """The numbers of the rows that close the element, as a column."""
    return " ".join(str(number) for number, row in enumerate(rows, 1)
                    if int(row[0]) == element and not model.is_open([row], 2, element, direction, vehicle, second))


def expected(form, old, new, first, last, vehicle):
    """The text for two lists of rows, from the first day up to but not including the last."""
    lines = [HEADERS[form]]
    old, new = read_domains(old), read_domains(new)
    quarters = range(day_of(first) * model.DAY, day_of(last) * model.DAY, QUARTER)
    for element in sorted({int(row[0]) for row in old + new}):
        for direction in ("positive", "negative"):
            def open_quarters(rows):
                mine = [row for row in rows if int(row[0]) == element]
                return [model.is_open(mine, 2, element, direction, vehicle, second) for second in quarters]
            was, now = open_quarters(old), open_quarters(new)
            if form == "--summary":
                if was != now:
                    lines.append(f"{element},{direction},{vehicle},{QUARTER * sum(was)},{QUARTER * sum(now)}\n")
                continue
            changes = []
            for word, before, after in (("opened", was, now), ("closed", now, was)):
                spans = intervals([s for s, x, y in zip(quarters, before, after) if y and not x])
                changes += [(begin, end, word) for begin, end in spans]
            for begin, end, word in sorted(changes):
                line = f"{element},{direction},{vehicle},{word},{stamp(begin)},{stamp(end)}"
                if form == "--rows":
                    line += "".join("," + closing_rows(rows, element, direction, vehicle, begin) for rows in (old, new))
                lines.append(line + "\n")
    return "".join(lines)


# ---- random files

def random_domain(rng):
    """A domain of quarters of an hour."""
    def basic():
        day = rng.choice(["", "t2", "t7t1", "d15", "M3d15", "y2024M3", "w11t6", "f26"])
        return f"({day}h{rng.randrange(24)}m{15 * rng.randrange(4)}){{h{rng.randrange(9)}m{15 * rng.randrange(4)}}}"
    domain = basic()
    for _ in range(rng.choice([0, 0, 1, 2])):
        domain = f"[{domain}]{rng.choice('+*-')}{basic()}"
    return domain


def random_row(rng):
    return (str(rng.randrange(1, 5)), rng.choice(["positive", "negative", "both"]), rng.choice(["0", "11", "!11", "11;12"]),
            rng.choice(["", random_domain(rng), random_domain(rng), random_domain(rng)]))


def random_rows(rng):
    return [random_row(rng) for _ in range(rng.randrange(6))]


def changed_rows(rng, rows):
    rows = list(rows)
    for _ in range(rng.randrange(3)):
        if rows and rng.random() < 0.5:
            rows.pop(rng.randrange(len(rows)))
        rows.insert(rng.randrange(len(rows) + 1), random_row(rng))
    return rows


def rewritten(rng, rows):
    """Other rows that say the same: in another order, one for each direction, with other texts of their domains."""
    found = []
    for element, direction, vehicles, domain in rows:
        if direction == "both" and rng.random() < 0.5:
            found += [(element, one, vehicles, domain) for one in ("positive", "negative")]
        elif domain and rng.random() < 0.5:
            found.append((element, direction, vehicles, f"[{domain}]+[{domain}]*[(h0){{h24}}]"))
        elif rng.random() < 0.3:
            found += [(element, direction, vehicles, domain)] * 2
        else:
            found.append((element, direction, vehicles, domain))
    rng.shuffle(found)
    return found


def random_days(rng):
    first = datetime.date(2024, 3, rng.randrange(1, 29))
    return first.isoformat(), (first + datetime.timedelta(days=rng.randrange(1, 4))).isoformat()


def pairs(rng, count):
    """Pairs of files with the days and the vehicle type, and the intervals that are to be printed, if they are known without the
    model.
    """
    for number in range(count):
        old = random_rows(rng)
        first, last = random_days(rng)
        vehicle = rng.choice([11, 12, 13])
        text = None
        if number % 3 == 0:
            new = rewritten(rng, old)
            text = HEADER
        elif number % 3 == 1:
            hour = rng.randrange(23)
            new = old + [("9", "positive", "0", f"(h{hour}){{h1}}")]
            old = old + [("9", "positive", "0", f"(h{hour}){{h1}}-(y2024M3h{hour}){{h1}}")]
            rng.shuffle(new)
            days = range(day_of(first), day_of(last))
            text = HEADER + "".join(
                f"9,positive,{vehicle},closed,"
                f"{stamp(day * model.DAY + hour * 3600)},{stamp(day * model.DAY + (hour + 1) * 3600)}\n"
                for day in days)
        else:
            new = changed_rows(rng, old) if rng.random() < 0.7 else random_rows(rng)
        yield old, new, first, last, vehicle, text


def file_of(rows):
    return RECORDS + "".join(",".join(row) + "\n" for row in rows)


# ---- the program

def run(arguments, **options):
    done = subprocess.run([GTDESK, "diff"] + arguments, stdout=subprocess.PIPE, stderr=subprocess.PIPE, check=False, **options)
    return done.returncode, done.stdout.decode(), done.stderr.decode()


def write(folder, name, text):
    path = os.path.join(folder, name)
    with open(path, "w", encoding="ascii") as file:
        file.write(text)
    return path


FAULTS = [  # old file, new file, words, status, standard error, where OLD and NEW stand for the paths
    ("x\n", "x\n", "2024-03-01 2024-03-02 11", 1, "gtdesk: OLD: Header\n"),
    (RECORDS, "x\n", "2024-03-01 2024-03-02 11", 1, "gtdesk: NEW: Header\n"),
    (RECORDS + "1,positive,0,(h1)\n", RECORDS + "x,positive,0,\n", "2024-03-01 2024-03-02 11", 1, None),
    (RECORDS, RECORDS, "2024-03-1 2024-03-02 11", 1, "gtdesk: FROM: not of the form YYYY-MM-DD\n"),
    (RECORDS, RECORDS, "2024-03-01 2024-02-30 11", 1, "gtdesk: TO: no such date\n"),
    (RECORDS, RECORDS, "2024-03-01 2024-03-01 11", 1, "gtdesk: TO: not after FROM\n"),
    (RECORDS, RECORDS, "1900-03-01 2024-03-01 11", 1, "gtdesk: FROM: not from 1901-01-01 to 2700-01-01\n"),
    (RECORDS, RECORDS, "1901-01-01 2700-01-01 11", 1, "gtdesk: TO: more than 146098 days after FROM\n"),
    (RECORDS, RECORDS, "2024-03-01 2024-03-02 0", 1, "gtdesk: VEHICLE: not a number from 1 to 99\n"),
]


def check_faults(folder):
    failed = 0
    for number, (old, new, words, status, told) in enumerate(FAULTS):
        paths = write(folder, f"old{number}.csv", old), write(folder, f"new{number}.csv", new)
        answer = run(list(paths) + words.split())
        first = answer[2].replace(paths[0], "OLD").replace(paths[1], "NEW")
        right = answer[0] == status and answer[1] == "" and (
            first.startswith("gtdesk: OLD: ") if told is None else first.startswith(told.rstrip("\n")))
        if not right:
            failed += 1
            print("FAILED", words, answer)
    missing = os.path.join(folder, "missing.csv")
    there = write(folder, "there.csv", RECORDS + "1,both,0,\n")
    for paths in ([missing, there], [there, missing]):
        answer = run(paths + ["2024-03-01", "2024-03-02", "11"])
        if answer != (3, "", f"gtdesk: {missing}: cannot be opened\n"):
            failed += 1
            print("FAILED", paths, answer)
    empty = write(folder, "empty.csv", RECORDS)
    with open("/dev/full", "wb") as full:
        done = subprocess.run([GTDESK, "diff", empty, there, "2024-03-01", "2024-03-02", "11"], stdout=full,
                              stderr=subprocess.PIPE, check=False)
    if (done.returncode, done.stderr) != (3, b"gtdesk: standard output: cannot be written\n"):
        failed += 1
        print("FAILED a full output", done)
    for arguments in (["-", there], [there, "-"]):
        answer = run(arguments + ["2024-03-01", "2024-03-02", "11"], input=(RECORDS + "1,both,0,\n").encode())
        if answer != (0, HEADER, ""):
            failed += 1
            print("FAILED standard input", answer)
    return failed


def main():
    count = int(sys.argv[1]) if len(sys.argv) > 1 else 300
    rng = random.Random(int(sys.argv[2]) if len(sys.argv) > 2 else 48)
    with tempfile.TemporaryDirectory() as folder:
        failed = check_faults(folder)
        for old, new, first, last, vehicle, known in pairs(rng, count):
            paths = [write(folder, "old.csv", file_of(old)), write(folder, "new.csv", file_of(new))]
            for form, header in HEADERS.items():
                text = expected(form, old, new, first, last, vehicle) if form or known is None else known
                answer = run(paths + [first, last, str(vehicle)] + form.split())
                if answer != (0 if text == header else 4, text, ""):
                    failed += 1
                    print("FAILED", form, old, new, first, last, vehicle, "expected", text, "found", answer)
    print(f"diff: {len(HEADERS) * count + len(FAULTS) + 5 - failed} passed, {failed} failed")
    return 1 if failed else 0


if __name__ == "__main__":
    sys.exit(main())
