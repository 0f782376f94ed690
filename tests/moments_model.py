#!/usr/bin/env python3
"""A plain model of opening hours with points of time, open ends and times of the sun, written from docs/HOURS.md alone, over
tests/hours_model.py: which fault a text has with some options, and which rules it stands for.

Options are minutes: `open end`, `points`, `sunrise`, `sunset`, `dawn` and `dusk`, each of which may be missing."""
import re
from typing import NamedTuple

import hours_model
from hours_model import DAY, Fault, Token

EVENTS = ("sunrise", "sunset", "dawn", "dusk")
PARENTHESES = re.compile(rb"[()]")


class Moment(NamedTuple):
    """A clock time in minutes, or an event with what is added to it; and its place in the text."""
    event: str
    minutes: int
    place: int


class Times(NamedTuple):
    """Two moments, or one; whether the end is open, and its place; the step of points, and the place of the slash."""
    begin: Moment
    last: Moment
    is_open: bool
    step: int
    sign: int


def tokens(text):
    """The tokens of a text, with parentheses and events."""
    found, place = [], 0
    while place < len(text):
        if text[place:place + 1] == b" ":
            place += 1
        elif PARENTHESES.match(text, place):
            found.append(Token(text[place:place + 1].decode(), text[place:place + 1].decode(), place))
            place += 1
        else:
            token = hours_model.token_at(text, place)
            found.append(token._replace(kind="event") if token.text in EVENTS else token)
            place += len(token.text)
    return found


class Reader(hours_model.Reader):
    """The reader of plain hours, with the wider times."""

    def refuse(self):
        last = self.found[self.at - 1].kind if self.at else None
        if self.peek() == "+" and last in ("+", "step"):
            raise Fault("Unexpected", self.found[self.at].place)
        if self.peek() in ("event", "(", ")"):
            raise Fault("Unexpected", self.found[self.at].place)
        super().refuse()

    def is_moment(self, ahead):
        return self.peek(ahead) in ("time", "event") or self.peek(ahead) == "(" and self.peek(ahead + 1) == "event"

    def moment(self, most):
        place = self.found[self.at].place if self.at < len(self.found) else 0
        if self.peek() == "event":
            return Moment(self.take("event"), 0, place)
        if self.peek() != "(":
            return Moment("", self.clock(most), place)
        self.take("(")
        place = self.found[self.at].place
        event = self.take("event")
        if self.peek() not in ("+", "-"):
            self.refuse()
        sign = -1 if self.take(self.peek()) == "-" else 1
        minutes = self.clock(DAY)
        self.take(")")
        return Moment(event, sign * minutes, place)

    def time_range(self):
        if not self.is_moment(0):
            self.refuse()
        begin = self.moment(DAY - 1)
        if self.peek() == "+":
            self.take("+")
            return [Times(begin, None, True, 0, self.found[self.at - 1].place)]
        if not self.goes("-"):
            return [Times(begin, None, False, 0, 0)]
        if not self.is_moment(0):
            self.refuse()
        at = self.at
        last = self.moment(2 * DAY)
        if not begin.event and not last.event and last.minutes > begin.minutes + DAY:
            raise Fault("Range", self.found[at].place)
        if self.goes("+"):
            return [Times(begin, last, True, 0, self.found[self.at - 1].place)]
        if self.goes("/"):
            sign = self.found[self.at - 1].place
            return [Times(begin, last, False, self.step(), sign)]
        return [Times(begin, last, False, 0, 0)]

    def step(self):
        if self.peek() == "time":
            hour, minute = self.take("time").split(":")
            step = 60 * int(hour) + int(minute)
            self.check(int(minute) < 60 and 1 <= step <= DAY)
        else:
            step = self.number([1, 2, 3, 4], 1, DAY)
        self.found[self.at - 1] = self.found[self.at - 1]._replace(kind="step")
        return step


def value(moment, options):
    return moment.minutes + (options[moment.event] if moment.event else 0)


def need(item, options):
    """The first option that is missing, or an event that is put out of the day."""
    asked = []
    for moment, most in ((item.begin, DAY - 1), (item.last, DAY)):
        if moment is None or not moment.event:
            continue
        if moment.event not in options:
            asked.append((moment.place, "SunTime"))
        elif not 0 <= value(moment, options) <= most:
            asked.append((moment.place, "Range"))
    if item.is_open and "open end" not in options:
        asked.append((item.sign, "OpenEnd"))
    if item.step and "points" not in options:
        asked.append((item.sign, "Point"))
    if item.last is None and not item.is_open and "points" not in options:
        asked.append((item.begin.place, "Point"))
    return min(asked, default=None, key=lambda it: (it[0], it[1] != "Point"))


def length(begin, end):
    """How long a range lasts, which ends on the next day if its end is not after its beginning."""
    return end - begin if begin < end else end + DAY - begin


def ranges(item, options):
    """The ranges of times of an item, as minutes."""
    begin = value(item.begin, options)
    if item.last is None and not item.is_open:
        return [(begin, begin + options["points"])]
    last = value(item.last, options) if item.last else None
    if last is not None and length(begin, last) > DAY:
        raise Fault("Range", item.last.place)
    if item.is_open:
        ends = [end for end in (last, options["open end"]) if end is not None]
        if length(begin, options["open end"]) > DAY:
            raise Fault("OpenEnd", item.sign)
        return [(begin, begin + max(length(begin, end) for end in ends))]
    if item.step:
        whole = length(begin, last)
        points = [begin + at for at in range(0, whole + 1, item.step) if begin + at < DAY]
        return [(point, point + options["points"]) for point in points]
    return [(begin, begin + length(begin, last))]


def read(text, options):
    """The rules of a text, or its fault."""
    try:
        return hours_model.read(text)
    except Fault:
        pass
    rules = Reader(tokens(text), len(text)).hours()
    items = [item for rule in rules for item in rule.times if isinstance(item, Times)]
    for item in items:
        asked = need(item, options)
        if asked:
            raise Fault(asked[1], asked[0])
    return [rule._replace(times=[pair for item in rule.times
                                 for pair in (ranges(item, options) if isinstance(item, Times) else [item])]) for rule in rules]
