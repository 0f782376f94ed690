#!/usr/bin/env python3
"""A plain model of tables of holidays, of Easter, and of how listed days are written, apart from the crates: short and slow. Run
by itself, it compares what it says with the worked rows in holidays/.

Days are numbered from 1970-01-01. A set of days is a set of their numbers."""
import csv
import datetime
import functools
import io
import os
import re
import sys

HERE = os.path.dirname(os.path.abspath(__file__))
EPOCH = datetime.date(1970, 1, 1)
ONE_DAY = datetime.timedelta(1)
KINDS = {"PH": ("PH", False), "SH": ("SH", False), "PH-covered": ("PH", True), "SH-covered": ("SH", True)}
MOST_BYTES, MOST_ROWS, LONGEST = 16_777_216, 4096, 36_599


def number(year, month, day):
    return (datetime.date(year, month, day) - EPOCH).days


def date(day):
    return EPOCH + day * ONE_DAY


def read_day(text):
    """The day of a text YYYY-MM-DD of the years 1800 to 2799, or None."""
    if not re.fullmatch("[0-9]{4}-[0-9]{2}-[0-9]{2}", text):
        return None
    year, month, day = map(int, text.split("-"))
    try:
        return number(year, month, day) if 1800 <= year <= 2799 else None
    except ValueError:
        return None


def read_row(fields):
    """What a row says, as (first, last, kind, covers), or the name of its first fault."""
    if len(fields) != 4:
        return "FieldCount"
    first = read_day(fields[0])
    if first is None:
        return "First"
    last = first if fields[1] == "" else read_day(fields[1])
    if last is None or not first <= last <= first + LONGEST:
        return "Last"
    if fields[2] not in KINDS:
        return "Kind"
    return (first, last) + KINDS[fields[2]]


def days_of(rows, kind, covers):
    return {day for row in rows if row[2:] == (kind, covers) for day in range(row[0], row[1] + 1)}


def read_table(data):
    """The rows of a table, and all its faults, as lines."""
    if len(data) > MOST_BYTES:
        return [], ["TooLarge"]
    text = data.decode("latin-1").removeprefix("\xef\xbb\xbf")
    records = [fields for fields in csv.reader(io.StringIO(text, newline="")) if fields]
    if not records or records[0] != ["first", "last", "kind", "name"]:
        return [], ["Header"]
    rows, faults = [], []
    for at, fields in enumerate(records[1:MOST_ROWS + 1], 1):
        row = read_row(fields)
        if isinstance(row, str):
            faults.append(f"row {at}: {row}")
        else:
            rows.append(row)
    if len(records) - 1 > MOST_ROWS:
        faults.append(f"row {MOST_ROWS + 1}: TooManyRows")
    if not faults:
        covered = {kind: days_of(rows, kind, True) for kind in ("PH", "SH")}
        faults = [f"row {at}: Outside" for at, row in enumerate(rows, 1)
                  if not row[3] and not covered[row[2]].issuperset(range(row[0], row[1] + 1))]
    return rows, faults


def first_uncovered(rows, kind, first_year, last_year):
    covered = days_of(rows, kind, True)
    return next((day for day in range(number(first_year, 1, 1), number(last_year, 12, 31) + 1) if day not in covered), None)


def holidays(rows, kind, offset, first_year, last_year):
    """The days so many days after a holiday of the years."""
    known = range(number(first_year, 1, 1), number(last_year, 12, 31) + 1)
    return {day + offset for day in days_of(rows, kind, False) if day in known}


@functools.cache
def easter(year):
    """Easter Sunday: the Sunday after the paschal full moon, by the tables of the church rather than by a formula."""
    golden = year % 19 + 1
    century = year // 100 + 1
    solar, lunar = 3 * century // 4 - 12, (8 * century + 5) // 25 - 5
    epact = (11 * golden + 20 + lunar - solar) % 30
    epact += epact == 24 or epact == 25 and golden > 11
    moon = 44 - epact
    moon = number(year, 3, 1) - 1 + (moon if moon >= 21 else moon + 30)
    return moon + 7 - (moon + 4) % 7


def runs_of(days):
    """The maximal runs of days, as (first, last), in order."""
    firsts = sorted(day for day in days if day - 1 not in days)
    lasts = sorted(day for day in days if day + 1 not in days)
    return list(zip(firsts, lasts))


def group(days, first_year, last_year):
    """The yearly groups (month, day, length) in their order, and the other runs."""
    begin, end = number(first_year, 1, 1), number(last_year, 12, 31)

    def key(run):
        first = date(run[0])
        return first.month, first.day, run[1] - run[0] + 1

    def is_yearly(run):
        month, day, length = key(run)
        if not begin <= run[0] <= run[1] <= end or (month, day) == (2, 29) or length > 366:
            return False
        starts = [number(year, month, day) for year in range(first_year - 1, last_year + 1)]
        return all(k in days for start in starts for k in range(start, start + length) if begin <= k <= end)

    runs = runs_of(days)
    yearly = [run for run in runs if is_yearly(run)]
    groups = sorted({key(run) for run in yearly})
    if len(yearly) > len(groups) + 1:
        return groups, [run for run in runs if run not in set(yearly)]
    return [], runs


def cost(grouping):
    groups, dated = grouping
    return max(1, len(dated) + (len(groups) + 1 if groups else 0))


def add(terms):
    text = terms[0]
    for term in terms[1:]:
        text = f"[{text}+{term}]"
    return text


def terms(grouping, first_year, last_year):
    groups, dated = grouping
    found = []
    if groups:
        each = add([f"[(M{month}d{day}h0m0){{d{length}}}]" for month, day, length in groups])
        found.append(f"[[(y{first_year}M1d1h0m0){{y{last_year - first_year + 1}}}]*{each}]")
    for first, last in dated:
        begin = date(first)
        found.append(f"[(y{begin.year}M{begin.month}d{begin.day}h0m0){{d{last - first + 1}}}]")
    return found or ["[(h0m0){s0}]"]


def listed(rows, text, first_year, last_year):
    """The days of a list such as `PH,PH -1,SH,easter +1`."""
    days = set()
    for item in text.split(","):
        name, _, offset = item.partition(" ")
        if name == "easter":
            known = range(number(first_year, 1, 1), number(last_year, 12, 31) + 1)
            days |= {day for year in range(first_year - 2, last_year + 3)
                     if (day := easter(year) + int(offset or 0)) in known}
        else:
            days |= holidays(rows, name, int(offset or 0), first_year, last_year)
    return days


def tables():
    return {name: read_table(open(f"{HERE}/holidays/{name}.csv", "rb").read())[0] for name in ("public", "region")}


def main():
    files, wrong = tables(), 0
    with open(f"{HERE}/holidays/groups.csv", newline="") as source:
        worked = list(csv.DictReader(source))
    for row in worked:
        first, last = int(row["first"]), int(row["last"])
        grouping = group(listed(files.get(row["table"], []), row["days"], first, last), first, last)
        found = str(cost(grouping)), add(terms(grouping, first, last))
        if found != (row["cost"], row["domain"]):
            wrong += 1
            print(f"{row['days']}: {found}, not {row['cost'], row['domain']}", file=sys.stderr)
    with open(f"{HERE}/holidays/faults.csv", newline="") as source:
        faults = list(csv.DictReader(source))
    for row in faults:
        found = read_table(row["bytes"].encode("latin-1"))[1]
        if found != row["faults"].split(";") and (found or row["faults"]):
            wrong += 1
            print(f"{row['bytes']!r}: {found}, not {row['faults']}", file=sys.stderr)
    print(f"holidays: {len(worked) + len(faults) - wrong} passed, {wrong} failed")
    return wrong > 0


if __name__ == "__main__":
    sys.exit(main())
