#!/usr/bin/env python3
"""A plain model of opening hours with holidays, written from docs/HOURS.md alone, over tests/hours_model.py and
tests/holidays_model.py: which fault a text has with a table of holidays and some years, and which rules it stands for.

Days are numbered from 1970-01-01. A table is a list of rows of tests/holidays_model.py, or None; years are a pair, or None."""
import calendar
import datetime
from typing import NamedTuple

import holidays_model
import hours_model
from hours_model import Fault, Token

MOST_DAYS = 366
HOLIDAYS = ("PH", "SH", "easter")


class Holiday(NamedTuple):
    """A holiday of a rule: `PH`, `SH` or `easter`, how many days after it, and its place in the text."""
    kind: str
    offset: int
    place: int


class EasterRange(NamedTuple):
    """A range of days without a year, of which one end is `easter`: its ends, whether the last is of the next year, and the place
    of its first `easter`. An end of Easter is `("easter", OFFSET, PLACE)`."""
    first: tuple
    last: tuple
    over: bool
    place: int


class EveryYears(NamedTuple):
    """Every so many years from a first one up to the last that is known: more of the calendar than a domain has. The place is
    that of its slash."""
    first: int
    step: int
    place: int


class Uncovered(Exception):
    """The place of a holiday, and the first day of the years that the table does not cover."""


def tokens(text):
    """The tokens of a text, with holidays and their offsets as one token each."""
    return with_holidays(hours_model.tokens(text))


def with_holidays(plain):
    """The same of the tokens that plain hours have. `easter` is a token by itself."""
    found = []
    while plain:
        token, plain = plain[0], plain[1:]
        if token.text not in HOLIDAYS or token.kind != "not read":
            found.append(token)
        elif token.text == "easter":
            found.append(token._replace(kind="easter"))
        else:
            kinds = [other.kind for other in plain[:3]]
            offset = 0
            if token.text == "PH" and kinds[:1] in (["+"], ["-"]) and kinds[1:] == ["number", "day"]:
                digits = plain[1].text
                if len(digits) <= 3 and 1 <= int(digits) <= MOST_DAYS:
                    offset = int(digits) if kinds[0] == "+" else -int(digits)
                    plain = plain[3:]
            found.append(Token("holiday", Holiday(token.text, offset, token.place), token.place))
    return found


def day_in(end, year):
    """The day of an end of a range in a year."""
    if end[0] == "easter":
        return hours_model.EPOCH + hours_model.ONE_DAY * (holidays_model.easter(year) + end[1])
    return hours_model.end_in(end, year)


class Reader(hours_model.Reader):
    """The reader of plain hours, with holidays where weekdays stand."""

    def refuse(self):
        """What is wrong with an offset behind a holiday, or behind Easter by itself, is told at its number or its weekday."""
        if self.peek() == "easter":
            raise Fault("Unsupported", self.found[self.at].place)
        last = self.found[self.at - 1] if self.at else None
        if last and self.peek() in ("+", "-") and (last.kind == "holiday" or self.at == self.behind_easter):
            if last.kind == "easter" or self.behind_easter == self.at or last.text.kind != "SH":
                if self.peek(1) == "number" and self.peek(2) == "day":
                    raise Fault("Range", self.found[self.at + 1].place)
                if self.peek(1) == "weekday":
                    raise Fault("Unsupported", self.found[self.at + 1].place)
            raise Fault("Unexpected", self.found[self.at].place)
        super().refuse()

    behind_easter = None

    def goes_with_days(self, at):
        """Whether the sign of an offset, a number and `day` follow."""
        return self.peek(at) in ("+", "-") and self.peek(at + 1) == "number" and self.peek(at + 2) == "day"

    def is_moving(self, at, dated):
        """Whether a range that moves begins behind so many tokens: with a place in a month or with Easter, and a dash behind it
        and its offset; or with a date, behind which come a dash, a year if there is one before, and `easter` or
        a month and a weekday."""
        if self.peek(at) == "easter":
            if self.goes_with_days(at + 1):
                return self.peek(at + 4) == "-"
            return self.peek(at + 1) == "-" and self.peek(at + 2) != "weekday"
        if self.peek(at) != "month":
            return False
        if self.peek(at + 1) == "number":
            behind = at + 4 if dated and self.is_year(at + 3) else at + 3
            moves = self.peek(behind) == "easter" or self.peek(behind) == "month" and self.peek(behind + 1) == "weekday"
            return self.peek(at + 2) == "-" and moves
        if (self.peek(at + 1), self.peek(at + 2)) != ("weekday", "["):
            return False
        number = at + 4 if self.peek(at + 3) == "-" else at + 3
        behind = number + 2
        if self.peek(number) != "number" or self.peek(number + 1) != "]":
            return False
        return self.peek(behind + 3 if self.goes_with_days(behind) else behind) == "-"

    def is_dated(self):
        """Whether a year belongs to the date behind it."""
        moves = self.is_year(0) and (self.peek(1) == "easter" or self.is_moving(1, True))
        return super().is_dated() or moves

    DATES = ("month", "number", "easter")

    def month_day(self):
        dated = self.is_year(0)
        if self.is_moving(1 if dated else 0, dated):
            return self.moving_range(self.year() if dated else None)
        if dated and self.peek(1) == "easter":
            year = self.year()
            day = self.end_of_range(year, False)
            return self.moving_range(year, day) if self.peek() == "-" else self.moving_dates(year, day, year, day)
        if self.peek() == "easter":
            return [self.easter()]
        return super().month_day()

    def easter(self):
        """Easter by itself, without a year. An offset is of 1 to 366 days."""
        place, offset = self.found[self.at].place, 0
        self.take("easter")
        if self.goes_with_days(0):
            sign, digits = self.peek(), self.text(1)
            if len(digits) <= 3 and 1 <= int(digits) <= MOST_DAYS:
                offset = int(digits) if sign == "+" else -int(digits)
                self.at += 3
        self.behind_easter = self.at
        return Holiday("easter", offset, place)

    def moving_range(self, year, first=None):
        """A range of which one end moves, in a year or in each."""
        first = first or self.end_of_range(year, False)
        self.take("-")
        given = self.year() if year is not None and self.is_year(0) else None
        last = self.end_of_range(given, True)
        if year is not None:
            return self.moving_dates(year, first, given, last)
        self.check((2, 29) not in (first, last))
        begins = [day_in(first, each) for each in range(1800, hours_model.LAST_YEAR + 1)]
        ends = [day_in(last, each) for each in range(1800, hours_model.LAST_YEAR + 1)]
        over = ends[0] < begins[0]
        self.check(all((end < begin) == over for begin, end in zip(begins, ends)))
        if over:
            self.check(all(begin <= end for begin, end in zip(begins, ends[1:])))
        else:
            self.check(all(end < begin for end, begin in zip(ends, begins[1:])))
        places = [end[2] for end in (first, last) if end[0] == "easter"]
        return [EasterRange(first, last, over, places[0]) if places else ("moving", first, last, over, "months")]

    def moving_dates(self, year, first, given, last):
        """The range of dates in a year. Without a year of its own the last is of the next one if else it would come first."""
        begin = self.day_of(first, year)
        if given is None and len(last) == 2:
            given = year + (last < (begin.month, begin.day))
        elif given is None:
            given = year + (day_in(last, year) < begin)
        self.check(given <= hours_model.LAST_YEAR and (last != (2, 29) or calendar.isleap(given)))
        end = self.day_of(last, given)
        self.check(begin <= end and (end - begin).days < hours_model.LONGEST)
        return [("dated", begin, end, "months")]

    def day_of(self, end, year):
        """The day of an end in a year, both of the years that there are."""
        self.check(1800 <= year <= hours_model.LAST_YEAR)
        day = day_in(end, year)
        self.check(1800 <= day.year <= hours_model.LAST_YEAR)
        return day

    def end_of_range(self, year, is_last):
        """A date, a place of a weekday in a month, or Easter, the last two with their offsets."""
        if self.peek() == "easter":
            place = self.found[self.at].place
            self.take("easter")
            before_weekday = self.peek() == "-" and self.peek(1) == "weekday"
            begins = self.peek() in ("+", "-") if is_last else self.peek() == "+" or before_weekday or self.goes_with_days(0)
            return "easter", self.offset(0, [1, 2, 3], MOST_DAYS) if begins else 0, place
        month = self.month()
        if self.peek() == "number":
            day = self.day(year, month)
            return (day.month, day.day) if year else day
        weekday = self.weekday()
        self.take("[")
        is_back = self.goes("-")
        number = self.number([1], 1, 4)
        self.take("]")
        begins = self.peek() in ("+", "-") if is_last else self.goes_with_days(0)
        return month, weekday, number, is_back, self.offset(is_back and number, [1, 2], 27) if begins else 0

    def offset(self, back, digits, most):
        """The days of an offset."""
        sign, is_before = self.found[self.at], self.take(self.peek()) == "-"
        if self.peek() == "weekday":
            raise Fault("Unsupported", self.found[self.at].place)
        days = self.number(digits, 1, most)
        if is_before and back and 7 * back + days > 28:
            raise Fault("Range", sign.place)
        self.take("day")
        return -days if is_before else days

    def moved(self, items):
        """No offset begins with a dash before a month."""
        if self.peek() == "-" and self.peek(1) == "month":
            self.refuse()
        return super().moved(items)

    def years(self):
        at = self.at
        try:
            return super().years()
        except Fault as fault:
            if fault.args[0] != "Years":
                raise
        self.at = at
        first, place = self.year(), self.found[self.at].place
        self.take("/")
        return [EveryYears(first, self.number([1, 2, 3, 4], 1, 9999), place)]

    def days(self, kinds):
        """Holidays, which restrict weekdays directly behind them; or one list of holidays and weekdays."""
        items = []
        if self.peek() in ("weekday", "holiday"):
            items = self.listed(self.day_item, lambda: self.peek(1) in ("weekday", "holiday"))
        if items and all(isinstance(item, Holiday) for item in items) and self.peek() == "weekday":
            kinds["holidays"] = items
            items = self.listed(self.weekdays, lambda: self.peek(1) in ("weekday", "holiday"), led=True)
        if items:
            kinds["weekdays"] = items
            if self.peek() in ("weekday", "holiday"):
                before = self.found[self.at - 1].kind
                one_is_holiday = "holiday" in (before, self.peek()) and before != self.peek()
                if one_is_holiday:
                    raise Fault("Ambiguous", self.found[self.at].place)

    def listed(self, item, is_next, led=False):
        items = item()
        while self.peek() == "," and is_next():
            self.take(",")
            if led and self.peek() == "holiday":
                raise Fault("Ambiguous", self.found[self.at].place)
            items += item()
        return items

    def day_item(self):
        return [self.take("holiday")] if self.peek() == "holiday" else self.weekdays()


def listed_in(rule):
    """The selectors of a rule that are known in some years alone, from left to right."""
    return [item for items in rule.kinds.values() for item in items if isinstance(item, (EveryYears, Holiday, EasterRange))]


def needs_no_table(item):
    return not isinstance(item, Holiday) or item.kind == "easter"


def read(text, table, years):
    """The rules of a text, whose holidays are dated ranges, or its fault."""
    try:
        return hours_model.read(text)
    except Fault:
        pass
    rules = Reader(tokens(text), len(text)).hours()
    placed = [item for rule in rules for item in listed_in(rule)]
    for item in placed:
        if is_uncovered(item, table):
            raise Fault("Holidays", item.place)
        if years is None:
            raise Fault("Years", item.place)
    for item in placed:
        day = None if needs_no_table(item) else holidays_model.first_uncovered(table, item.kind, *years)
        if day is not None:
            raise Uncovered(item.place, day)
    return [rule._replace(kinds={kind: known(items, table, years) for kind, items in rule.kinds.items()}) for rule in rules]


def is_uncovered(item, table):
    """Whether a table is needed for a holiday, and there is none or it covers no day of the kind."""
    return not needs_no_table(item) and (table is None or (item.kind, True) not in {row[2:] for row in table})


def days_in(item, table, years):
    """The days of the years for a holiday, or of a range with Easter, which may be of a year before or after them."""
    if isinstance(item, EasterRange):
        first, last = (holidays_model.number(year, *date) for year, date in zip(years, ((1, 1), (12, 31))))
        spans = [(day_in(item.first, year), day_in(item.last, year + item.over)) for year in range(years[0] - 3, years[1] + 4)]
        spans = [[(day - hours_model.EPOCH).days for day in span] for span in spans]
        return {day for begin, end in spans for day in range(max(first, begin), min(last, end) + 1)}
    if item.kind == "easter":
        return holidays_model.listed([], f"easter {item.offset}", *years)
    return holidays_model.holidays(table, item.kind, item.offset, *years)


def up_to_last(item, years):
    """A selector, with years up to the last that is known as a range, or none if they begin after it."""
    if not isinstance(item, EveryYears):
        return [item]
    return [("years", item.first, years[1], item.step)] if item.first <= years[1] else []


def known(items, table, years):
    """Selectors, with the days of all holidays in the years as ranges of dates where the first holiday stands."""
    items = [found for item in items for found in up_to_last(item, years)]
    holidays = [item for item in items if isinstance(item, (Holiday, EasterRange))]
    if not holidays:
        return items
    days = set().union(*(days_in(item, table, years) for item in holidays))
    runs = [("dated", holidays_model.date(first), holidays_model.date(last)) for first, last in holidays_model.runs_of(days)]
    before = items[:items.index(holidays[0])]
    return before + runs + [item for item in items[len(before):] if item not in holidays]
