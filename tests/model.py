#!/usr/bin/env python3
"""A plain model of time domains and record files, written from docs/LANGUAGE.md and docs/FILES.md alone: short, slow, and
independent of the program. It answers which fault a text has, and whether a second is in a domain or closed by a file's rows.

Seconds are numbered from 1970-01-01T00:00:00 of the local civil clock. tests/fuzz.py compares the program with it."""
import calendar
import datetime
import re
from functools import lru_cache

DAY = 86400
EPOCH = datetime.date(1970, 1, 1).toordinal()
START = {"y": (0, 9999), "M": (1, 12), "w": (1, 53), "d": (1, 31), "t": (1, 7), "h": (0, 23), "m": (0, 59), "s": (0, 59)}
PLACES = "fl"
DURATION = "yMwdhms"
LEVELS = {"y": 0, "M": 1, "w": 1, "d": 2, "t": 2, "f": 2, "l": 2, "h": 3, "m": 4, "s": 5}


class Fault(Exception):
    """The fault of a text: its kind, and the number of bytes before it."""

    def __str__(self):
        return f"{self.args[0]} at {self.args[1]}"


def tokens(text):
    """The tokens of a text, each with its place, or the fault of the first byte that does not begin one."""
    found, place = [], 0
    while place < len(text):
        token = re.match(rb" +|[\[\](){}+*-]|[yMwdtflhms]([0-9]{1,6})(?![0-9])", text[place:])
        if not token:
            fuzzy = re.match(rb"z[0-9]{1,6}(?![0-9])", text[place:])
            raise Fault("Fuzzy" if fuzzy else "BadToken", place)
        if not token.group().startswith(b" "):
            found.append((token.group().decode(), place))
        place += token.end()
    return found


def check_limits(found):
    """The limits that are checked before the grammar: open brackets, then parentheses."""
    depth = 0
    for token, place in found:
        depth = depth + 1 if token == "[" else max(depth - 1, 0) if token == "]" else depth
        if depth > 128:
            raise Fault("TooDeep", place)
    opened = [place for token, place in found if token == "("]
    if len(opened) > 128:
        raise Fault("TooMany", opened[128])


def check_start_field(token, before, place):
    letter, digits = token[0], token[1:]
    if letter != "t" and any(field[0] == letter for field in before):
        raise Fault("Repeated", place)
    if letter in PLACES:
        right = len(digits) == 2 and digits[0] in "12345" and digits[1] in "1234567"
    else:
        low, high = START[letter]
        right = low <= int(digits) <= high and (letter != "y" or len(digits) == 4)
    if not right:
        raise Fault("FieldRange", place)


def check_duration_field(token, before, place):
    if token[0] not in DURATION:
        raise Fault("Unexpected", place)
    if any(field[0] == token[0] for field in before):
        raise Fault("Repeated", place)


class Reader:
    """A reader that recurs over the grammar's rules: a sum of products of items."""

    def __init__(self, found, end):
        self.found, self.end, self.at = found, end, 0

    def peek(self):
        return self.found[self.at][0] if self.at < len(self.found) else None

    def unexpected(self):
        if self.at == len(self.found):
            raise Fault("Incomplete", self.end)
        token, place = self.found[self.at]
        behind_brace = token == "-" and self.at > 0 and self.found[self.at - 1][0] == "{"
        raise Fault("Negative" if behind_brace else "Unexpected", place)

    def take(self, token):
        if self.peek() != token:
            self.unexpected()
        self.at += 1

    def chain(self, operators, part):
        left = part()
        while self.peek() is not None and self.peek() in operators:
            operator = self.peek()
            self.at += 1
            left = (operator, left, part())
        return left

    def sum(self):
        return self.chain("+-", self.product)

    def product(self):
        return self.chain("*", self.item)

    def item(self):
        if self.peek() == "[":
            self.take("[")
            inner = self.sum()
            self.take("]")
            return inner
        self.take("(")
        start = self.fields(")", check_start_field)
        self.take("{")
        return ("basic", start, self.fields("}", check_duration_field))

    def fields(self, close, check):
        """One or more fields, and the closing sign."""
        fields = []
        while self.peek() is not None and (self.peek()[0].isalpha() or (fields and self.peek() == close)):
            token, place = self.found[self.at]
            self.at += 1
            if token == close:
                return tuple(fields)
            check(token, fields, place)
            fields.append(token)
        return self.unexpected()


def bound(fields):
    """The most seconds of a stretch: a year counts 366 days, a month 31."""
    unit = {"y": 366 * DAY, "M": 31 * DAY, "w": 7 * DAY, "d": DAY, "h": 3600, "m": 60, "s": 1}
    return sum(unit[field[0]] * int(field[1:]) for field in fields)


def check_bounds(found):
    for at, (token, place) in enumerate(found):
        if token == "{":
            close = next(i for i in range(at, len(found)) if found[i][0] == "}")
            if bound(field for field, _ in found[at + 1:close]) > 36600 * DAY:
                raise Fault("TooLongDuration", place)


def read(text):
    """The expression of a text, or its fault."""
    found = tokens(text)
    check_limits(found)
    reader = Reader(found, len(text))
    expression = reader.sum()
    if reader.peek() is not None:
        reader.unexpected()
    check_bounds(found)
    return expression


def date_of(day):
    return datetime.date.fromordinal(day + EPOCH)


def holds_on(fields, day):
    """Whether the fields of a start down to the day hold on a day. Missing fields below the finest given one are at their first
    value."""
    date = date_of(day)
    length = calendar.monthrange(date.year, date.month)[1]
    weekday = date.isoweekday() % 7 + 1
    week_year, week, _ = date.isocalendar()
    weeks = any(field[0] == "w" for field in fields)
    finest = max(LEVELS[field[0]] for field in fields)
    value = {"y": week_year if weeks else date.year, "M": date.month, "w": week, "d": date.day}
    for field in fields:
        letter, number = field[0], int(field[1:])
        if letter in value and value[letter] != number:
            return False
        if letter in PLACES:
            place = (date.day - 1) // 7 + 1 if letter == "f" else (length - date.day) // 7 + 1
            if (place, weekday) != divmod(number, 10):
                return False
    given = [int(field[1:]) for field in fields if field[0] == "t"]
    if given and weekday not in given:
        return False
    if finest < 2 and (weekday != 2 if weeks else date.day != 1):
        return False
    return finest >= 1 or date.month == 1


@lru_cache(maxsize=4096)
def clocks(fields):
    """The seconds of a day at which the fields of the clock hold."""
    finest = max(LEVELS[field[0]] for field in fields)
    given = {field[0]: int(field[1:]) for field in fields}

    def values(letter, count):
        if letter in given:
            return [given[letter]]
        return range(count) if LEVELS[letter] < finest else [0]

    return [3600 * h + 60 * m + s for h in values("h", 24) for m in values("m", 60) for s in values("s", 60)]


def end_of(begin, fields):
    """The first second after the stretch that begins at a second."""
    number = {letter: 0 for letter in DURATION} | {field[0]: int(field[1:]) for field in fields}
    date = date_of(begin // DAY)
    months = 12 * date.year + date.month - 1 + 12 * number["y"] + number["M"]
    year, month = months // 12, months % 12 + 1
    moved = datetime.date(year, month, min(date.day, calendar.monthrange(year, month)[1]))
    days = moved.toordinal() - EPOCH + 7 * number["w"] + number["d"]
    return days * DAY + begin % DAY + 3600 * number["h"] + 60 * number["m"] + number["s"]


def in_basic(start, duration, second):
    """Whether the stretch of some matching start holds the second. Of one day's starts up to it, the last one ends last."""
    today = second // DAY
    for day in range(today, today - bound(duration) // DAY - 2, -1):
        if holds_on(start, day):
            begins = [clock for clock in clocks(start) if day * DAY + clock <= second]
            if begins and second < end_of(day * DAY + begins[-1], duration):
                return True
    return False


def contains(expression, second):
    """Whether the second is in the domain."""
    if expression[0] == "basic":
        return in_basic(expression[1], expression[2], second)
    operator, left, right = expression
    if operator == "+":
        return contains(left, second) or contains(right, second)
    if operator == "*":
        return contains(left, second) and contains(right, second)
    return contains(left, second) and not contains(right, second)


def serves(column, version, vehicle):
    """Whether a row's third column includes the vehicle type."""
    if version == 1 or column in ("0", "00"):
        return int(column) in (0, vehicle)
    listed = vehicle in [int(code) for code in column.lstrip("!").split(";")]
    return not listed if column.startswith("!") else listed


def is_open(rows, version, element, direction, vehicle, second):
    """Whether no row closes the element in the direction for the vehicle type at the second. A row is its four columns; the
    last is an expression, or None for always."""
    return not any(
        int(row[0]) == element and row[1] in (direction, "both") and serves(row[2], version, vehicle)
        and (row[3] is None or contains(row[3], second))
        for row in rows
    )
