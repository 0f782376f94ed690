#!/usr/bin/env python3
"""A record file of python/tests/make_records.py as opening hours, for KOpeningHours: hours.py FILE > HOURS

Each row becomes `element,direction,vehicle;hours`. The hours of a night at the end of some months go on into the next month,
where the domain is cut at the month's end: so a few answers differ.
"""
import calendar
import re
import sys
from datetime import date, timedelta

DAYS = ["Su", "Mo", "Tu", "We", "Th", "Fr", "Sa"]  # the weekdays 1 to 7


def clock(hour):
    return f"{hour:02}:00"


def span(first, length):
    return f"{clock(first)}-{clock(first + length if first + length <= 24 else first + length - 24)}"


def months(first, count):
    last = (first + count - 2) % 12 + 1
    names = calendar.month_abbr
    return names[first] if count == 1 else f"{names[first]}-{names[last]}"


def dates(year, month, day, weeks):
    first = date(2000 + year, month, day)
    last = first + timedelta(weeks=weeks, days=-1)
    return f"{first.year} {first:%b} {first.day:02}-{last.year} {last:%b} {last.day:02}"


# Each form of a domain, and its hours by the numbers in it.
FORMS = [
    (r"\[\(h(\d+)\)\{h(\d+)\}\]", span),
    (r"\[\(t2t3t4t5t6h(\d+)\)\{h2\}\]\+\[\(t2t3t4t5t6h(\d+)\)\{h3\}\]", lambda a, b: f"Mo-Fr {span(a, 2)},{span(b, 3)}"),
    (r"\[\(M(\d+)d1\)\{M(\d+)\}\]\*\[\(h22\)\{h8\}\]", lambda a, b: f"{months(a, b)} {span(22, 8)}"),
    (r"\[\(t7h0\)\{d2\}\]", lambda: "Sa-Su"),
    (r"\[\(M11d15\)\{M5\}\]-\[\(t1\)\{d1\}\]", lambda: "Nov 15-Apr 14 Mo-Sa"),
    (r"\[\(f(\d)(\d)h8\)\{h4\}\]", lambda a, b: f"{DAYS[b - 1]}[{a}] {span(8, 4)}"),
    (r"", lambda: "24/7"),
    (r"\[\(y20(\d+)M(\d+)d(\d+)\)\{w(\d+)\}\]", dates),
]


def hours_of(domain):
    for form, hours in FORMS:
        found = re.fullmatch(form, domain)
        if found:
            return hours(*map(int, found.groups()))
    raise ValueError(f"no form of make_records.py: {domain}")


def main():
    with open(sys.argv[1], encoding="ascii") as file:
        next(file)
        for line in file:
            place, _, domain = line.rstrip("\n").rpartition(",")
            print(f"{place};{hours_of(domain)}")


if __name__ == "__main__":
    main()
