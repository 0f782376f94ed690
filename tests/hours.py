#!/usr/bin/env python3
"""Opening hours by the plain model of tests/hours_model.py, without any built program.

For each row of tests/hours/texts.csv, the hours and the time domain beside them are open in the same minutes of four years: the
hours by the model of hours, the domain by the plain model of domains, tests/model.py. For each row of tests/hours/faults.csv,
the text has that fault. For each row of tests/hours/loose.csv, by the model of tests/loose_model.py, the text has that mended
text and these warnings, or that fault. A row with both is no plain hours, but by the wider model, tests/wider_model.py, it means
what the mended text means, where the times of the sun are given. Then, for SECONDS, random texts of the grammar: they are read,
what is printed of them is read again and means the same, a damaged text has its fault where the words before it can still become
hours, and with the next one cannot, and a text whose tokens are written loosely means the same, with a warning at each of them.

Usage: tests/hours.py [SECONDS [SEED]]    (without SECONDS no random texts; the same seed makes the same texts)
"""
import csv
import datetime
import os
import random
import re
import sys
import time
from functools import lru_cache

import hours_model
import loose_model
import model
import wider_model

TOP = os.path.dirname(os.path.abspath(__file__))
FIRST = datetime.date(2023, 1, 1)
DAYS = (datetime.date(2027, 1, 1) - FIRST).days
BASE = (FIRST - hours_model.EPOCH).days
RANDOM_DAYS = 200
SAMPLES = 12
FEWEST_TEXTS, FEWEST_FAULTS, FEWEST_LOOSE, MOST_BASIC_DOMAINS = 100, 40, 60, 128
ENDINGS = ["", "off", "Mo", "-10:00", "10:00", "/7", "7", "]", "1]", "5]", "1", "31", "53", "Jan", "Dec 31", "2799"]
ENDINGS += ["2799 Dec 31", "1 day", "5] +1 day", "day"]
SUN = {"sunrise": 390, "sunset": 1200, "dawn": 350, "dusk": 1240}
DATED_RANGE = re.compile(r"[0-9]{4} *[A-Z][a-z]{2} *([0-9]+ *- *[0-9]{4}|-)")


class Failure(Exception):
    """What is not as it should be."""


def expect(holds, what):
    if not holds:
        raise Failure(what)


def rows_of(name):
    with open(os.path.join(TOP, "hours", name), encoding="utf-8", newline="") as file:
        return list(csv.DictReader(file))


def ceiling(second):
    return -(-second // 60)


@lru_cache(maxsize=None)
def basic_minutes(start, duration, offset):
    """One byte for each minute of the four years, as one great number: whether the basic domain contains the minute's second
    `offset`. Its stretches are those of tests/model.py, day by day."""
    minutes = bytearray(1440 * DAYS)
    for day in range(BASE - model.bound(duration) // model.DAY - 2, BASE + DAYS):
        for clock in model.clocks(start) if model.holds_on(start, day) else []:
            begin = day * model.DAY + clock
            first = max(ceiling(begin - offset) - 1440 * BASE, 0)
            last = min(ceiling(model.end_of(begin, duration) - offset) - 1440 * BASE, len(minutes))
            if first < last:
                minutes[first:last] = b"\1" * (last - first)
    return int.from_bytes(minutes, "little")


def domain_minutes(expression, offset):
    """The same for a domain."""
    if expression[0] == "basic":
        return basic_minutes(expression[1], expression[2], offset)
    left, right = (domain_minutes(side, offset) for side in expression[1:])
    return left | right if expression[0] == "+" else left & right if expression[0] == "*" else left & ~right


def stamp(minute):
    return (datetime.datetime.combine(FIRST, datetime.time()) + datetime.timedelta(minutes=minute)).isoformat(" ", "minutes")


def first_difference(left, right):
    return next(at for at, pair in enumerate(zip(left, right)) if pair[0] != pair[1])


def check_text(row, maker):
    """The hours and the domain of a row, in each minute and at some seconds by themselves."""
    text, domain = row["hours"], row["domain"]
    rules, expression = hours_model.read(text.encode()), model.read(domain.encode())
    expect(domain.count("(") <= MOST_BASIC_DOMAINS and row["meaning"].endswith("."), f"{text}: its domain or its sentence")
    opened = hours_model.open_minutes(rules, FIRST, DAYS)
    for offset in (0, 59):
        shown = domain_minutes(expression, offset).to_bytes(len(opened), "little")
        at = None if shown == opened else first_difference(shown, opened)
        expect(at is None, f"{text}: the hours and {domain} differ" + (f" at {stamp(at)}:{offset:02}" if at is not None else ""))
    for _ in range(SAMPLES):
        second = 86400 * BASE + maker.randrange(86400 * DAYS)
        known = opened[second // 60 - 1440 * BASE] == 1
        expect(hours_model.is_open(rules, second) == known, f"{text}: two ways to find second {second} differ")
        expect(model.contains(expression, second) == known, f"{domain}: two ways to find second {second} differ")
    check_printed(text, rules)


def check_printed(text, rules, first=FIRST, days=DAYS):
    """What is printed of rules is read as rules that mean the same on some days."""
    printed = hours_model.print_rules(rules)
    again = hours_model.read(printed.encode())
    expect(hours_model.print_rules(again) == printed, f"{text}: printed as {printed}, and that as something else")
    same = hours_model.open_minutes(rules, first, days) == hours_model.open_minutes(again, first, days)
    expect(same, f"{text}: printed as {printed}, which means something else")


def fault_of(text):
    """The fault of a text, as its kind and place, or None."""
    try:
        hours_model.read(text)
    except hours_model.Fault as fault:
        return fault.args
    return None


def check_fault(row):
    found = fault_of(row["text"].encode())
    expect(found == (row["kind"], int(row["place"])), f"{row['text']!r}: {found}, and not {row['kind']} at {row['place']}")


def shown(warnings):
    return "; ".join(f"{kind} at {place}" + (f": {form}" if form else "") for kind, place, form in warnings)


def read_wider(text):
    return wider_model.read(text, None, None, SUN)


def without_places(rules):
    return [rule._replace(at=0, place=None) for rule in rules]


def check_wider_loose(row):
    """A text that is no plain hours means what its mended text means, and has its warnings of loose forms."""
    rules, warnings = loose_model.read(row["text"].encode(), row["names"] == "de", read_wider)
    expect(without_places(rules) == without_places(read_wider(row["mended"].encode())), f"{row['text']!r}: {rules}")
    told = "; ".join(warning for warning in row["warnings"].split("; ") if warning.startswith("Loose "))
    expect(shown(warnings) == told, f"{row['text']!r}: {shown(warnings)}")


def check_loose(row):
    """The mended text and the warnings of a row, or its fault. Mended again it is the same, without a warning."""
    if row["fault"] and row["mended"]:
        check_wider_loose(row)
        row = row | {"mended": "", "warnings": ""}
    try:
        rules, warnings = loose_model.read(row["text"].encode(), row["names"] == "de")
        found = (hours_model.print_rules(rules), shown(warnings), "")
        again = loose_model.read(found[0].encode())
        expect((hours_model.print_rules(again[0]), again[1]) == (found[0], []), f"{found[0]}: mended again")
    except hours_model.Fault as fault:
        found = ("", "", str(fault))
    expect(found == (row["mended"], row["warnings"], row["fault"]), f"{row['text']!r}: {found}")


class Maker(random.Random):
    """Makes random texts of the grammar, near each other in time."""

    def listed(self, item, most=2):
        return ",".join(item() for _ in range(self.randint(1, most)))

    def span(self, low, high, digits, most_step):
        """A number, a range, or a range with a step."""
        first, last = sorted((self.randint(low, high), self.randint(low, high)))
        step = f"/{self.randint(1, most_step)}" if self.random() < 0.5 else ""
        return self.choice([f"{first:0{digits}}", f"{first:0{digits}}-{last:0{digits}}{step}"])

    def years(self):
        if self.random() < 0.8:
            return self.span(2022, 2028, 4, 3)
        return f"{self.randint(2022, 2028)}{self.choice(['+', f'/{self.randint(7, 99)}'])}"

    def weeks(self):
        if self.random() < 0.8:
            return self.span(1, 53, 1, 9)
        return "-".join(f"{self.randint(1, 53):0{self.randint(1, 2)}}" for _ in range(2))

    def date(self, year=False, leap_day=True):
        month = self.randint(1, 12)
        day = self.randint(1, (29 if leap_day and not year else 28) if month == 2 else 30)
        return f"{self.randint(2022, 2027)} " * year + f"{hours_model.MONTHS[month - 1]} {day:0{self.randint(1, 2)}}"

    def month_day(self):
        kind = self.randrange(6)
        if kind == 0:
            return self.choice(hours_model.MONTHS)
        if kind == 1:
            return "-".join(self.choices(hours_model.MONTHS, k=2))
        if kind == 2:
            return self.date()
        if kind == 3:
            return f"{self.date()}-{self.choice([self.date(), str(self.randint(1, 29))])}"
        if kind == 4:
            return self.date(True)
        return f"{self.date(True)}-{self.choice([self.date(leap_day=False), '2028 ' + self.date()])}"

    def month_days(self):
        """Months and dates, some with days of their month behind them."""
        return self.listed(lambda: self.with_days(self.month_day()))

    def with_days(self, text):
        if not text[-1].isdigit() or self.random() < 0.7:
            return text
        return ",".join([text] + self.choices(["1", "05", "28", "24", "5-7", "27-Mar 3"], k=self.randint(1, 2)))

    def weekday(self):
        first, last = self.choices(hours_model.WEEKDAYS, k=2)
        return self.choice([first, f"{first}-{last}", f"{first}[{self.listed(self.place)}]", self.moved(first)])

    def moved(self, weekday):
        """Days after or before places of a weekday."""
        places = self.choice(["1", "2-4", "-1", "3,-2"])
        offset = self.choice([f"+{self.randint(1, 27)}", f"-{self.randint(1, 14)}"])
        return f"{weekday}[{places}] {offset} {self.choice(['day', 'days'])}"

    def place(self):
        return self.choice(["1-3", f"{self.randint(1, 5)}", f"-{self.randint(1, 5)}"])

    def time_range(self):
        begin = self.randrange(1440)
        end = self.choice([self.randrange(1440), self.randint(begin, begin + 1440)])
        return f"{begin // 60:02}:{begin % 60:02}-{end // 60:02}:{end % 60:02}"

    def rule(self):
        if self.random() < 0.1:
            return self.choice(["24/7", "off", "24/7 off", "open", "08:00-12:00"])
        parts = [
            self.listed(self.years) if self.random() < 0.2 else "",
            self.month_days() if self.random() < 0.4 else "",
            f"week {self.listed(self.weeks)}" if self.random() < 0.2 else "",
            self.listed(self.weekday, 3) if self.random() < 0.6 else "",
            self.listed(self.time_range, 3) if self.random() < 0.6 else "",
        ]
        chosen = [part for part in parts if part] or ["Mo"]
        return " ".join(chosen) + self.choice(["", "", "", " open", " on", " off", " closed"])

    def text(self):
        """Rules. One that begins with a number stands after a semicolon: a comma might go on with a list."""
        text = self.rule()
        for rule in (self.rule() for _ in range(self.randint(0, 3))):
            text += ("; " if rule[0].isdigit() else self.choice(["; ", ", ", " ;", " , "])) + rule
        return text

    def loose_time(self, time):
        hour, minute = int(time[:2]), time[3:]
        forms = [f"{hour}:{minute}", f"{time[:2]}.{minute}", f"{hour}H{minute}", f"{time} uhr"]
        if hour % 12 > 0 and hour < 24:
            forms.append(f"{hour % 12}{self.choice(':.')}{minute}{' ' * self.randrange(2)}{'aP'[hour > 12]}m")
        return self.choice(forms)

    def loose_word(self, word):
        names = [name for name, form in loose_model.NAMES.items() if form == word]
        written = self.choice(names or [word])
        return self.choice([written.upper(), written.title(), written]) + "." * (bool(names) and self.randrange(2))

    def loosened(self, text):
        """A text with some tokens written loosely, and the warnings of them."""
        written, warnings = "", []
        for token in hours_model.tokens(text.encode()):
            form = token.text
            if self.random() < 0.5:
                loose = {"time": self.loose_time, "-": lambda _: self.choice("\u2010\u2013\u2014\u2212")}
                form = loose.get(token.kind, self.loose_word if token.text.isalpha() else lambda text: text)(token.text)
            if form != token.text:
                warnings.append(("Loose", len(written.encode()), token.text))
            written += form + " "
        return written, warnings

    def damaged(self, text):
        """The tokens of a text, some of them removed, doubled, or changed for others."""
        found = [token.text for token in hours_model.tokens(text.encode())]
        others = ("Mo Jan week off 24 / 7 - , ; : [ ] 0 5 40 2024 1700 10:00 25:00 30:00 49:00 PH + || "
                  "day 2026+ 2025/8 2025/2 46-12").split()
        for _ in range(self.randint(1, 2)):
            at = self.randrange(len(found) + 1)
            found[at:at + self.randint(0, 1)] = self.choices(others, k=self.randint(0, 2))
        return " ".join(found)


def can_become_hours(text):
    return any(fault_of(f"{text} {ending}".encode()) is None for ending in ENDINGS)


def check_damaged(text):
    """The fault is at the first token that fits nowhere: the words before it can become hours, and with it they cannot. Left out
    are ranges between two dates or months with years, since only the last one says that a range goes back."""
    fault = fault_of(text.encode())
    if fault is None or DATED_RANGE.search(text):
        return
    kind, place = fault
    expect(kind in ("Unsupported", "Range", "Years", "Unexpected", "Incomplete") and 0 <= place <= len(text),
           f"{text!r}: {fault}")
    expect((kind == "Incomplete") == (place == len(text)), f"{text!r}: {fault}")
    until = place + len((text[place:].split(" ") or [""])[0])
    if kind == "Range" and text[until:until + 2] == " /":
        until += 2  # weeks that go back are refused with a step
    if kind == "Years" or kind == "Range" and text[place] == "-":
        until += 1 + len(text[until + 1:].split(" ")[0])  # the step behind the slash, or the days behind the sign
    expect(kind == "Incomplete" or not can_become_hours(text[:until]), f"{text!r}: {fault}, but that can become hours")
    expect(can_become_hours(text[:place]), f"{text!r}: {fault}, but it should be earlier")


def check_random(maker):
    text = maker.text()
    fault = fault_of(text.encode())
    expect(fault is None, f"{text}: {fault}, but it is a text of the grammar")
    first = datetime.date(maker.randint(2021, 2028), maker.randint(1, 12), 1)
    check_printed(text, hours_model.read(text.encode()), first, RANDOM_DAYS)
    for _ in range(4):
        check_damaged(maker.damaged(text))
        written, warnings = maker.loosened(text)
        rules, found = loose_model.read(written.encode())
        expect(rules == hours_model.read(text.encode()) and found == warnings, f"{text}: {written}: {shown(found)}")


def main():
    if len(sys.argv) > 3:
        sys.exit("usage: tests/hours.py [SECONDS [SEED]]")
    seconds = float(sys.argv[1]) if len(sys.argv) > 1 else 0
    seed = int(sys.argv[2]) if len(sys.argv) == 3 else random.SystemRandom().randrange(10**9)
    maker = Maker(seed)
    texts, faults, loose = rows_of("texts.csv"), rows_of("faults.csv"), rows_of("loose.csv")
    checks = [lambda row=row: check_text(row, maker) for row in texts] + [lambda row=row: check_fault(row) for row in faults]
    checks += [lambda row=row: check_loose(row) for row in loose]
    failed = 0
    for check in checks:
        try:
            check()
        except (Failure, hours_model.Fault, model.Fault) as failure:
            print(f"FAILED {failure}")
            failed += 1
    if len(texts) < FEWEST_TEXTS or len(faults) < FEWEST_FAULTS or len(loose) < FEWEST_LOOSE:
        print(f"FAILED {len(texts)} texts, {len(faults)} faults and {len(loose)} loose texts are too few")
        failed += 1
    end, rounds = time.monotonic() + seconds, 0
    while time.monotonic() < end and not failed:
        try:
            check_random(maker)
            rounds += 1
        except (Failure, hours_model.Fault) as failure:
            print(f"FAILED with seed {seed}, in round {rounds + 1}: {failure}")
            failed += 1
    print(f"{len(texts)} texts, {len(faults)} faults, {len(loose)} loose texts and {rounds} random texts (seed {seed})")
    print(f"hours: {max(0, len(checks) + rounds - failed)} passed, {failed} failed")
    sys.exit(1 if failed else 0)


if __name__ == "__main__":
    main()
