#!/usr/bin/env python3
"""A plain model of which later rules of opening hours hide hours of an earlier one, of the text with a comma that keeps them, and
of all warnings of a text, over tests/hours_model.py and tests/loose_model.py. Run by itself, it compares what it says with the
worked rows in hours/hidden.csv.

Rules are numbered from 0."""
import csv
import datetime
import os
import re
import sys
from typing import NamedTuple

import hours_model
import loose_model
import wider_model

HERE = os.path.dirname(os.path.abspath(__file__))
# The order of warnings at one place.
ORDER = ["Loose", "WholeDay", "Hides"]
FIRST, DAYS = datetime.date(2024, 1, 1), 800


class Range(NamedTuple):
    """A range of times that is written: of a rule without times the other model says all of the day."""
    begin: int
    end: int


class Reader(hours_model.Reader):
    def time_range(self):
        return [Range(*times) for times in super().time_range()]


def read(text):
    """The rules of a text, as hours_model.read answers them."""
    given = text.encode()
    return Reader(hours_model.tokens(given), len(given)).hours()


def has_times(rule):
    """So the rule is not 24/7, which has none."""
    return all(isinstance(times, Range) for times in rule.times)


def has_hours(rule):
    return rule.opens and has_times(rule)


def weekdays(selectors):
    """The weekdays of plain selectors, or None."""
    if not all(selector[0] == "weekdays" for selector in selectors):
        return None
    return {day for _, first, last in selectors for day in range(1, 8) if hours_model.is_round(first, last, day)}


def same_kind(selectors, others):
    days, other_days = weekdays(selectors), weekdays(others)
    return set(selectors) == set(others) if days is None or other_days is None else days == other_days


def takes_days(later, earlier):
    """The later rule is open, after a semicolon, and has no selectors of days or the same."""
    if later.adds or not later.opens:
        return False
    if not later.kinds:
        return True
    return later.kinds.keys() == earlier.kinds.keys() and all(
        same_kind(selectors, earlier.kinds[kind]) for kind, selectors in later.kinds.items())


def minutes(rule):
    """Those of a day, before 24:00."""
    return {minute for begin, end in rule.times for minute in range(begin, min(end, hours_model.DAY))}


def hides_of(rules, earlier, later):
    one, other = rules[earlier], rules[later]
    between = rules[earlier + 1:later]
    return (has_hours(one) and has_hours(other) and takes_days(other, one) and bool(minutes(one) - minutes(other))
            and not any(takes_days(rule, one) for rule in between))


def hiding_rules(rules):
    return [later for later in range(len(rules)) if any(hides_of(rules, earlier, later) for earlier in range(later))]


def with_comma(text, number):
    """The text with a comma in place of the semicolon before a rule, written strictly. Where the rule before is open and ends
    with selectors, a word keeps the comma from going on with them. Ends on the next day stay as they are written."""
    rules = read(text)
    parts = text.split(";")
    place = sum(not rule.adds for rule in rules[1:number + 1])
    before = rules[number - 1]
    word = " open" if before.opens and not has_times(before) else ""
    joined = ";".join(parts[:place]) + word + "," + ";".join(parts[place:])
    form = hours_model.print_rules(hours_model.read(joined.encode()))
    return re.sub("-([0-9]{2}):", lambda end: end[0] if end[0] in text else f"-{int(end[1]) - 24:02}:", form)


def strict_parts(given, german):
    """The strict text, and the parts of which it is made, if the text is written loosely."""
    try:
        hours_model.read(given)
        return given.decode(), None
    except hours_model.Fault:
        parts = loose_model.mended(given, german)
        return loose_model.strict_text(parts), parts


def written_place(parts, place):
    """The place in the text of the token that begins at this place of the strict text."""
    start = 0
    for part in parts:
        if start == place:
            return part.place
        start += len(part.form) + 1
    raise AssertionError("no token begins there")


def warnings(given, german=False):
    """The warnings of a text in their order: kind, place and form. At one place a loose form comes before a rule."""
    strict, parts = strict_parts(given, german)
    found = loose_model.warnings(parts) if parts else []
    rules = read(strict)
    for number in hiding_rules(rules):
        before = ";".join(strict.split(";")[:sum(not rule.adds for rule in rules[1:number + 1])]) + ";"
        place = len(before) + len(strict[len(before):]) - len(strict[len(before):].lstrip(" "))
        form = with_comma(strict.replace(" - ", "-"), number)
        found.append(("Hides", written_place(parts, place) if parts else place, form))
    days = [written_place(parts, place) if parts else place for place in wider_model.whole_days(strict.encode())]
    found += [("WholeDay", place, "open") for place in days]
    return sorted(found, key=lambda warning: (warning[1], ORDER.index(warning[0])))


def told(given, german=False):
    """The same in words."""
    return [f"{kind} at {place}" + (f": {form}" if form else "") for kind, place, form in warnings(given, german)]


def keeps(text, form):
    """Whether the form is open wherever the text is, on the days of some years."""
    old, new = (hours_model.open_minutes(hours_model.read(given.encode()), FIRST, DAYS) for given in (text, form))
    return all(not was or now for was, now in zip(old, new))


def has_days(text, number):
    return bool(read(text)[number].kinds)


def main():
    wrong = 0
    with open(f"{HERE}/hours/hidden.csv", newline="") as source:
        worked = list(csv.DictReader(source))
    for row in worked:
        text = row["text"]
        forms = {number: with_comma(text, number) for number in hiding_rules(read(text))}
        found = "|".join(f"{number}: {form}" for number, form in forms.items())
        if found != row["hides"]:
            wrong += 1
            print(f"{text}: {found}, not {row['hides']}", file=sys.stderr)
        elif not all(keeps(text, form) for number, form in forms.items() if has_days(text, number)):
            wrong += 1
            print(f"{text}: the text with the comma is not open wherever the text is", file=sys.stderr)
    print(f"hidden: {len(worked) - wrong} passed, {wrong} failed")
    return wrong > 0


if __name__ == "__main__":
    sys.exit(main())
