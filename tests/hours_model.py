#!/usr/bin/env python3
"""A plain model of opening hours, written from docs/HOURS.md alone: short, slow, and independent of the crates. It answers which
fault a text has, and at which seconds its hours are open.

Minutes of a day are numbered from 00:00; seconds from 1970-01-01T00:00:00 of the local civil clock, as in tests/model.py."""
import calendar
import datetime
import functools
import re
from typing import NamedTuple

DAY = 1440
EPOCH = datetime.date(1970, 1, 1)
ONE_DAY = datetime.timedelta(1)
MONTHS = "Jan Feb Mar Apr May Jun Jul Aug Sep Oct Nov Dec".split()
WEEKDAYS = "Mo Tu We Th Fr Sa Su".split()
OPENS = {"open": True, "on": True, "closed": False, "off": False}
NOT_READ = "PH SH easter sunrise sunset dawn dusk unknown".split()
LONGEST = 36600
LAST_YEAR, MOST_YEARS = 2799, 128
TOKENS = [
    (rb"[A-Za-z]+", "word"),
    (rb"[0-9]{2}:[0-9]{2}(?![0-9])(?!:[0-9])", "time"),
    (rb"[0-9]{1,4}(?![0-9])(?!:[0-9])", "number"),
    (rb"[,;/:\[\]+-]", "sign"),
    (rb'\|\||"[^"]*"?', "not read"),
]


class Fault(Exception):
    """The fault of a text: its kind, and the number of bytes before it."""

    def __str__(self):
        return f"{self.args[0]} at {self.args[1]}"


class Token(NamedTuple):
    kind: str
    text: str
    place: int


class Rule(NamedTuple):
    """Whether it is additional and whether it opens, its selectors by their kinds, and its ranges of times in minutes."""
    adds: bool
    opens: bool
    kinds: dict
    times: list


def kind_of(word):
    """The kind of token that a word is, or None."""
    if word in MONTHS:
        return "month"
    if word in WEEKDAYS:
        return "weekday"
    if word in OPENS:
        return "modifier"
    if word in ("day", "days"):
        return "day"
    return "week" if word == "week" else "not read" if word in NOT_READ else None


def token_at(text, place):
    """The token that begins at a place, or the fault."""
    for pattern, kind in TOKENS:
        found = re.compile(pattern).match(text, place)
        if found:
            token = found.group().decode("latin-1")
            kind = kind_of(token) if kind == "word" else token if kind == "sign" else kind
            if kind:
                return Token(kind, token, place)
    raise Fault("BadToken", place)


def tokens(text):
    """The tokens of a text, or the fault of the first byte with which none begins."""
    found, place = [], 0
    while place < len(text):
        if text[place:place + 1] == b" ":
            place += 1
        else:
            found.append(token_at(text, place))
            place += len(found[-1].text)
    return found


class Reader:
    """A reader that recurs over the grammar's rules and stops at the first token that fits nowhere."""
    DATES = ("month", "number")

    def __init__(self, found, end):
        self.found, self.end, self.at = found, end, 0

    def peek(self, ahead=0):
        return self.found[self.at + ahead].kind if self.at + ahead < len(self.found) else None

    def text(self, ahead=0):
        return self.found[self.at + ahead].text if self.at + ahead < len(self.found) else ""

    def refuse(self):
        if self.at == len(self.found):
            raise Fault("Incomplete", self.end)
        last = self.found[self.at - 1] if self.at else None
        plain = last is not None and (last.kind in ("+", "weekday") or last.kind == "number" and len(last.text) == 4)
        dated = self.peek() == "day" and [token.kind for token in self.found[max(self.at - 2, 0):self.at]] == ["-", "number"]
        unread = self.peek() == "not read" or self.peek() == "+" and not plain or dated
        raise Fault("Unsupported" if unread else "Unexpected", self.found[self.at].place)

    def check(self, holds):
        """The token that was read last is in its range."""
        if not holds:
            raise Fault("Range", self.found[self.at - 1].place)

    def take(self, kind):
        if self.peek() != kind:
            self.refuse()
        self.at += 1
        return self.found[self.at - 1].text

    def goes(self, kind):
        """Takes a sign if it is there."""
        if self.peek() != kind:
            return False
        self.at += 1
        return True

    def number(self, digits, low, high):
        text = self.take("number")
        self.check(len(text) in digits and low <= int(text) <= high)
        return int(text)

    def year(self):
        return self.number([4], 1800, LAST_YEAR)

    def is_year(self, ahead):
        """Whether a number of four digits follows."""
        return self.peek(ahead) == "number" and len(self.text(ahead)) == 4

    def is_dated(self):
        """Whether a year belongs to the month behind it: a number follows, or a dash and a number."""
        behind = 3 if self.peek(2) == "-" else 2
        return self.peek(1) == "month" and self.peek(behind) == "number"

    def month(self):
        return MONTHS.index(self.take("month")) + 1

    def weekday(self):
        return WEEKDAYS.index(self.take("weekday")) + 1

    def hours(self):
        rules = [self.rule(False)]
        while self.peek() in (";", ","):
            rules.append(self.rule(self.take(self.peek()) == ","))
        if self.peek() is not None:
            self.refuse()
        return rules

    def rule(self, adds):
        kinds, times = {}, []
        if self.peek() == "number" and self.text() == "24":
            self.always()
        elif self.peek() != "modifier":
            kinds, times = self.selectors()
        opens = OPENS[self.take("modifier")] if self.peek() == "modifier" else True
        return Rule(adds, opens, kinds, times or [(0, DAY)])

    def always(self):
        self.take("number")
        self.take("/")
        self.check(self.take("number") == "7")

    def selectors(self):
        kinds, times = {}, []
        if self.peek() == "number" and not self.is_dated():
            kinds["years"] = self.listed(self.years, lambda: self.is_year(1))
        if self.peek() in self.DATES:
            kinds["month days"] = self.month_days()
        if self.goes("week"):
            kinds["weeks"] = self.listed(self.weeks, lambda: self.peek(1) == "number")
        if kinds:
            self.goes(":")
        self.days(kinds)
        if self.is_moment(0):
            times = self.listed(self.time_range, lambda: self.is_moment(1))
        if not kinds and not times:
            self.refuse()
        return kinds, times

    def days(self, kinds):
        if self.peek() == "weekday":
            kinds["weekdays"] = self.listed(self.weekdays, lambda: self.peek(1) == "weekday")

    def is_moment(self, ahead):
        """Whether a range of times begins."""
        return self.peek(ahead) == "time"

    def listed(self, item, is_next):
        """A list. A comma goes on with it if the next token can."""
        items = item()
        while self.peek() == "," and is_next():
            self.take(",")
            items += item()
        return items

    def stepped(self, kind, number):
        """A range that does not go back, with a step."""
        first = last = number()
        step = 1
        if self.goes("-"):
            last = number()
            self.check(first <= last)
            if self.goes("/"):
                step = self.number([1, 2, 3, 4], 1, 9999)
        return [(kind, first, last, step)]

    def years(self):
        """Without a last year, years go on to that of the calendar. There are at most 128 with a step."""
        if self.peek(1) not in ("+", "/"):
            return self.stepped("years", self.year)
        first, sign = self.year(), self.take(self.peek())
        step = self.number([1, 2, 3, 4], 1, 9999) if sign == "/" else 1
        if sign == "/" and len(range(first, LAST_YEAR + 1, step)) > MOST_YEARS:
            raise Fault("Years", self.found[self.at - 2].place)
        return [("years", first, LAST_YEAR, step)]

    def week(self):
        return self.number([1, 2], 1, 53)

    def weeks(self):
        """Ranges of weeks. One without a step may go over New Year."""
        at = self.at
        first = last = self.week()
        if self.goes("-"):
            last = self.week()
            if last < first:
                self.check(self.peek() != "/")
                return [("weeks", first, 53, 1), ("weeks", 1, last, 1)]
        self.at = at
        return self.stepped("weeks", self.week)

    def month_days(self):
        """Months and dates. Behind a date go on days of the month and the year of the last one, but `24/7` is another rule."""
        items = self.month_day()
        while self.peek() == ",":
            dated = items[-1][0] in ("dates", "dated") and "months" not in items[-1]
            dated = dated and self.peek(1) == "number" and not self.is_year(1)
            if dated and (self.peek(2) != "/" or self.text(1) != "24"):
                self.take(",")
                last = items[-1][2]
                year, month = (None, last[0]) if items[-1][0] == "dates" else (last.year, last.month)
                items += self.dates(year, month)
            elif self.peek(1) in self.DATES and (self.peek(1) != "number" or self.is_year(1)):
                self.take(",")
                items += self.month_day()
            else:
                break
        return items

    def month_day(self):
        year = self.year() if self.peek() == "number" else None
        month = self.month()
        if year is not None and self.goes("-"):
            return self.months_of_years(datetime.date(year, month, 1))
        if year is None and self.peek() != "number":
            return [("months", month, self.month() if self.goes("-") else month)]
        return self.dates(year, month)

    def months_of_years(self, first):
        """From the first day of a month of a year to the last day of another one. It is judged at the last month."""
        year = self.year()
        self.check(first.year <= year)
        month = self.month()
        last = datetime.date(year, month, calendar.monthrange(year, month)[1])
        self.check(first <= last and (last - first).days < LONGEST)
        return [("dated", first, last, "months")]

    def dates(self, year, month):
        """A date of this year and month, or a range from it on."""
        first = self.day(year, month)
        last = self.last_date(year, first) if self.goes("-") else first
        return [("dates" if year is None else "dated", first, last)]

    def day(self, year, month):
        """A date. Without a year, its month has the day at least in leap years."""
        day = self.number([1, 2], 1, calendar.monthrange(year or 2000, month)[1])
        return (month, day) if year is None else datetime.date(year, month, day)

    def last_date(self, year, first):
        """The date behind the hyphen. Without a year of its own it is the next one of its month and day."""
        if year is None:
            return self.day(None, self.month() if self.peek() == "month" else first[0])
        given = self.year() if self.is_year(0) else None
        month = self.month() if given or self.peek() == "month" else first.month
        following = (month, int(self.text()) if self.peek() == "number" else 0) < (first.month, first.day)
        last = self.day(given or year + following, month)
        self.check(first <= last and (last - first).days < LONGEST and last.year <= LAST_YEAR)
        return last

    def weekdays(self):
        weekday = self.weekday()
        if self.goes("["):
            items = self.listed(lambda: self.places(weekday), lambda: True)
            self.take("]")
            return self.moved(items)
        return [("weekdays", weekday, self.weekday() if self.goes("-") else weekday)]

    def moved(self, items):
        """Places, with the days after or before them if there are any: not of a fifth place, and not back before the fourth last
        week."""
        if self.peek() not in ("+", "-"):
            return items
        sign, is_before = self.found[self.at], self.peek() == "-"
        weeks_back = 4 - max((number for kind, _, number in items if kind == "back"), default=0)
        if any(number == 5 for _, _, number in items) or is_before and weeks_back == 0:
            raise Fault("Range", sign.place)
        self.at += 1
        if self.peek() == "weekday":
            raise Fault("Unsupported", self.found[self.at].place)
        days = self.number([1, 2], 1, 27)
        if is_before and any(kind == "back" for kind, _, _ in items) and days > 7 * weeks_back:
            raise Fault("Range", sign.place)
        self.take("day")
        return [("moved", weekday, number, kind == "back", -days if is_before else days) for kind, weekday, number in items]

    def places(self, weekday):
        if self.goes("-"):
            return [("back", weekday, self.number([1], 1, 5))]
        first = last = self.number([1], 1, 5)
        if self.goes("-"):
            last = self.number([1], 1, 5)
            self.check(first <= last)
        return [("place", weekday, number) for number in range(first, last + 1)]

    def clock(self, most):
        hour, minute = self.take("time").split(":")
        self.check(int(minute) < 60 and 60 * int(hour) + int(minute) <= most)
        return 60 * int(hour) + int(minute)

    def time_range(self):
        begin = self.clock(DAY - 1)
        self.take("-")
        end = self.clock(2 * DAY)
        self.check(end <= begin + DAY)
        return [(begin, end if begin < end else end + DAY)]


def read(text):
    """The rules of a text, or its fault."""
    return Reader(tokens(text), len(text)).hours()


def is_round(first, last, value):
    """Whether a value is in a range that may go over the end."""
    return first <= value <= last if first <= last else first <= value or value <= last


def holds(selector, date):
    """Whether a selector holds on a day."""
    kind, first, last = selector[:3]
    if kind in ("years", "weeks"):
        number = date.year if kind == "years" else date.isocalendar()[1]
        return first <= number <= last and (number - first) % selector[3] == 0
    if kind == "months":
        return is_round(first, last, date.month)
    if kind == "dates":
        return is_round(first, last, (date.month, date.day))
    if kind == "dated":
        return first <= date <= last
    if kind == "moving":
        years = range(date.year - 2, date.year + 2)
        return any(end_in(first, year) <= date <= end_in(last, year + selector[3]) for year in years)
    if kind == "weekdays":
        return is_round(first, last, date.isoweekday())
    if kind == "moved":
        return holds(("back" if selector[3] else "place", first, last), date - ONE_DAY * selector[4])
    before = date.day if kind == "place" else calendar.monthrange(date.year, date.month)[1] - date.day + 1
    return date.isoweekday() == first and (before + 6) // 7 == last


@functools.cache
def end_in(end, year):
    """The day of an end of a range that moves in a year: a month and a day; or a month, a weekday, its place, whether it is
    counted back, and how many days after it."""
    month = end[0]
    if len(end) == 2:
        return datetime.date(year, *end)
    _, weekday, number, is_back, days = end
    places = [datetime.date(year, month, day) for day in range(1, calendar.monthrange(year, month)[1] + 1)]
    places = [date for date in places if date.isoweekday() == weekday]
    return places[-number if is_back else number - 1] + ONE_DAY * days


def matches(rule, date):
    return all(any(holds(selector, date) for selector in selectors) for selectors in rule.kinds.values())


def is_open(rules, second):
    """Whether the hours are open at a second: looked at from the last rule back, until one decides."""
    minute, today = second // 60 % DAY, EPOCH + ONE_DAY * (second // 60 // DAY)
    for rule in reversed(rules):
        on_today, on_yesterday = matches(rule, today), matches(rule, today - ONE_DAY)
        for begin, end in rule.times:
            if (on_today and begin <= minute < end) or (on_yesterday and begin <= minute + DAY < end):
                return rule.opens
        if rule.opens and not rule.adds and on_today:
            return False
    return False


def open_minutes(rules, first, count):
    """One byte for each minute of `count` days from a date on, 1 if it is open: taken away and added rule by rule. The day
    before the first is worked on too, since its spans may end on the first."""
    minutes = bytearray(DAY * (count + 2))
    days = [first + ONE_DAY * at for at in range(-1, count)]
    for rule in rules:
        matched = [DAY * at for at, date in enumerate(days) if matches(rule, date)]
        for at in matched if rule.opens and not rule.adds else []:
            minutes[at:at + DAY] = bytes(DAY)
        for at in matched:
            for begin, end in rule.times:
                minutes[at + begin:at + end] = bytes([rule.opens]) * (end - begin)
    return bytes(minutes[DAY:DAY * (count + 1)])


def ranged(first, last):
    return first if first == last else f"{first}-{last}"


def years_text(first, last, step, as_range):
    """Years as a text. One year by itself is a range before others, since one before a month with a day would belong to it."""
    if step == 1 and first == last:
        return f"{first}-{last}" if as_range else f"{first}"
    if last == LAST_YEAR and step == 1:
        return f"{first}+"
    is_left_out = last == LAST_YEAR and len(range(first, last + 1, step)) <= MOST_YEARS
    return f"{first}" + ("" if is_left_out else f"-{last}") + (f"/{step}" if step != 1 else "")


def are_one(selector, following):
    """Whether two selectors are written as one: weeks over New Year, and places of one weekday with the same days from them."""
    if selector[0] == following[0] == "weeks":
        return selector[2:] == (53, 1) and following[1] == following[3] == 1 and following[2] < selector[1]
    return selector[0] == following[0] == "moved" and (selector[1], selector[4]) == (following[1], following[4])


def in_one(selectors):
    """Lists of neighbours that are written as one."""
    found = []
    for selector in selectors:
        if found and are_one(found[-1][-1], selector):
            found[-1].append(selector)
        else:
            found.append([selector])
    return found


def text_of(selectors, as_range):
    """Selectors that are written as one, of which there is mostly one, as a text."""
    kind, first, last = selectors[0][:3]
    if kind == "years":
        return years_text(*selectors[0][1:], as_range)
    if kind == "weeks":
        last, step = selectors[-1][2:]
        return str(ranged(first, last)) if step == 1 else f"{first}-{last}/{step}"
    if kind == "months":
        return ranged(MONTHS[first - 1], MONTHS[last - 1])
    if kind == "dates":
        return ranged(*(f"{MONTHS[month - 1]} {day}" for month, day in (first, last)))
    if kind == "dated":
        return ranged(*(f"{date.year} {MONTHS[date.month - 1]} {date.day}" for date in (first, last)))
    if kind == "weekdays":
        return ranged(WEEKDAYS[first - 1], WEEKDAYS[last - 1])
    if kind != "moved":
        return f"{WEEKDAYS[first - 1]}[{'-' if kind == 'back' else ''}{last}]"
    places = ",".join(f"{'-' if is_back else ''}{number}" for _, _, number, is_back, _ in selectors)
    days = selectors[0][4]
    return f"{WEEKDAYS[first - 1]}[{places}] {days:+} {'day' if abs(days) == 1 else 'days'}"


def has_times(rule):
    return rule.times != [(0, DAY)]


def needs_word(rule, following):
    """Whether the comma of the next rule would go on with the times or the selectors that an open rule ends in."""
    if not following or not following[0].adds:
        return False
    goes_on = has_times(following[0]) and not following[0].kinds
    return goes_on if has_times(rule) else bool(rule.kinds)


def text_of_rule(rule, following):
    """A rule as a text, where these follow."""
    words = []
    for kind, selectors in rule.kinds.items():
        as_range = len(selectors) == 1 and len(rule.kinds) > 1
        listed = ",".join(text_of(each, as_range) for each in in_one(selectors))
        words.append("week " + listed if kind == "weeks" else listed)
    if has_times(rule):
        ranges = [(begin, end if end <= 2 * DAY else end - DAY) for begin, end in rule.times]
        words.append(",".join(f"{a // 60:02}:{a % 60:02}-{b // 60:02}:{b % 60:02}" for a, b in ranges))
    words += [] if words else ["24/7"]
    words += ["off"] if not rule.opens else ["open"] if needs_word(rule, following) else []
    return " ".join(words)


def print_rules(rules):
    """A text of rules that means the same."""
    parts = [text_of_rule(rule, rules[at + 1:]) for at, rule in enumerate(rules)]
    return parts[0] + "".join((", " if rule.adds else "; ") + part for rule, part in zip(rules[1:], parts[1:]))
