#!/usr/bin/env python3
"""The time of the questions of main.c with recurrence rules of `dateutil`: a line for each, its name and nanoseconds. Far fewer
are asked, since each takes longer.
Usage: rules.py FILE    (a record file of python/tests/make_records.py)

A row is two lists of rules, each with the time for which it holds from each of its moments: those that close, and those that do
not.
"""
import os
import re
import sys
from collections import defaultdict
from datetime import datetime, timedelta

from dateutil.relativedelta import relativedelta
from dateutil.rrule import DAILY, FR, MO, MONTHLY, SA, SU, TH, TU, WE, WEEKLY, YEARLY, rrule

sys.path.insert(0, os.path.dirname(os.path.dirname(os.path.abspath(__file__))))

from measuring import nanoseconds  # noqa: E402

ROUNDS, SINGLES, QUESTIONS, EACH = 3, 20_000, 2_000, 256
EVERY_TYPE, LORRY = 0, 11
MONDAY = datetime(2024, 3, 11)
FIRST = datetime(2023, 1, 1)  # no stretch that the questions meet begins before it, but for those of a given year
DAYS = [SU, MO, TU, WE, TH, FR, SA]  # the weekdays 1 to 7
WORKING = (MO, TU, WE, TH, FR)


def daily(hour, hours, **more):
    return rrule(DAILY, dtstart=FIRST, byhour=hour, byminute=0, bysecond=0, cache=True, **more), timedelta(hours=hours)


def whole_days(frequency, length, **more):
    return rrule(frequency, dtstart=FIRST, byhour=0, byminute=0, bysecond=0, cache=True, **more), length


def nights(first, count):
    return [daily(22, 8, bymonth=[(first - 1 + at) % 12 + 1 for at in range(count)])], []


def winter():
    months = whole_days(YEARLY, relativedelta(months=5), bymonth=11, bymonthday=15)
    return [months], [whole_days(WEEKLY, timedelta(days=1), byweekday=SU)]


def weekday_of_month(place, day):
    rule = rrule(MONTHLY, dtstart=FIRST, byweekday=DAYS[day - 1](place), byhour=8, byminute=0, bysecond=0, cache=True)
    return [(rule, timedelta(hours=4))], []


def dates(year, month, day, weeks):
    return [(rrule(DAILY, dtstart=datetime(2000 + year, month, day), count=1, cache=True), timedelta(weeks=weeks))], []


# Each form of a domain, and its rules by the numbers in it.
FORMS = [
    (r"\[\(h(\d+)\)\{h(\d+)\}\]", lambda a, b: ([daily(a, b)], [])),
    (r"\[\(t2t3t4t5t6h(\d+)\)\{h2\}\]\+\[\(t2t3t4t5t6h(\d+)\)\{h3\}\]",
     lambda a, b: ([daily(a, 2, byweekday=WORKING), daily(b, 3, byweekday=WORKING)], [])),
    (r"\[\(M(\d+)d1\)\{M(\d+)\}\]\*\[\(h22\)\{h8\}\]", nights),
    (r"\[\(t7h0\)\{d2\}\]", lambda: ([whole_days(WEEKLY, timedelta(days=2), byweekday=SA)], [])),
    (r"\[\(M11d15\)\{M5\}\]-\[\(t1\)\{d1\}\]", winter),
    (r"\[\(f(\d)(\d)h8\)\{h4\}\]", weekday_of_month),
    (r"", lambda: ([whole_days(DAILY, timedelta(days=1))], [])),
    (r"\[\(y20(\d+)M(\d+)d(\d+)\)\{w(\d+)\}\]", dates),
]


def rules_of(domain):
    for form, rules in FORMS:
        found = re.fullmatch(form, domain)
        if found:
            return rules(*map(int, found.groups()))
    raise ValueError(f"no form of make_records.py: {domain}")


def is_in(rules, moment):
    for rule, length in rules:
        begin = rule.before(moment, inc=True)
        if begin is not None and moment < begin + length:
            return True
    return False


def holds(rules, moment):
    closing, other = rules
    return is_in(closing, moment) and not is_in(other, moment)


def rows_of(lines):
    rows = defaultdict(list)
    for line in lines:
        element, direction, vehicle, domain = line.split(",", 3)
        row = int(vehicle), rules_of(domain)
        for negative in (False, True):
            if direction in ("both", "negative" if negative else "positive"):
                rows[int(element), negative].append(row)
    return rows


def stretches(rules, until):
    """The stretches that begin in the week; those of several rules are not joined."""
    return [(begin, begin + length) for rule, length in rules[0] for begin in rule.between(MONDAY, until, inc=True)]


def main():
    with open(sys.argv[1], encoding="ascii") as file:
        lines = file.read().splitlines()[1:]
    domain = [daily(10, 4, bymonth=[4, 5, 6])], []
    rows = rows_of(lines)
    elements = sorted({element for element, _ in rows})
    moments = [MONDAY + timedelta(seconds=at * 61 % 31_536_000) for at in range(SINGLES)]

    def closed():
        for at in range(QUESTIONS):
            place = elements[at * 7919 % len(elements)], at % 2 == 1
            any(vehicle in (EVERY_TYPE, 1 + at % 12) and holds(rules, moments[at]) for vehicle, rules in rows[place])

    def week():
        """Each 256th element, as if all took as long."""
        for element in elements[::EACH]:
            for negative in (False, True):
                for vehicle, rules in rows[element, negative]:
                    if vehicle in (EVERY_TYPE, LORRY):
                        stretches(rules, MONDAY + timedelta(days=7))

    nanoseconds(ROUNDS, "holds", SINGLES, lambda: [holds(domain, moment) for moment in moments])
    nanoseconds(ROUNDS, "closed_at", QUESTIONS, closed)
    nanoseconds(ROUNDS, "open", 1, lambda: rows_of(lines))
    nanoseconds(ROUNDS, "week", 1 / EACH, week)


if __name__ == "__main__":
    main()
