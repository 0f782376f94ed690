#!/usr/bin/env python3
"""A plain model of all that is read of opening hours, written from docs/HOURS.md alone, over the models of plain hours, of
holidays and of moments: comments, unknown rules and fallback rules come to these. Which fault a text has with a table, years and
options, which warnings, and in which state a second is."""
import re
from typing import NamedTuple

import holidays_model
import hours_model
import known_model
import moments_model
from hours_model import DAY, Fault
from known_model import Uncovered

COMMENT = re.compile(rb'"[^"\x00-\x1f\x7f]*"')


class Rule(NamedTuple):
    """How a rule is joined (`;`, `,` or `||`) and where that stands, what it says (`open`, `closed` or `unknown`), its selectors
    and its times; and the place of what makes it unknown, or of a remark of an open rule."""
    link: str
    at: int
    says: str
    kinds: dict
    times: list
    place: int

    @property
    def opens(self):
        return self.says == "open"


def with_remarks(found):
    """The tokens of plain hours, with comments, `unknown` and `||` as tokens."""
    made = []
    for token in found:
        if token.kind == "not read" and token.text.startswith('"'):
            if not COMMENT.fullmatch(token.text.encode("latin-1")):
                raise Fault("BadToken", token.place)
            token = token._replace(kind="comment")
        elif token.kind == "not read" and token.text in ("unknown", "||"):
            token = token._replace(kind=token.text)
        made.append(token)
    return made


def tokens(text):
    """The tokens of a text, or the fault of the first byte with which none begins, or of a comment before it that is
    not whole."""
    try:
        found = moments_model.tokens(text)
    except Fault as fault:
        with_remarks(moments_model.tokens(text[:fault.args[1]]))
        raise
    return known_model.with_holidays(with_remarks(found))


class Reader(known_model.Reader, moments_model.Reader):
    """The reader of hours with holidays and moments, with the wider rules. It keeps where those begin that say days alone, and
    behind which a comma begins another rule."""

    def __init__(self, *given):
        super().__init__(*given)
        self.whole_days = []

    def refuse(self):
        if self.peek() in ("comment", "unknown", "||"):
            raise Fault("Unexpected", self.found[self.at].place)
        super().refuse()

    def hours(self):
        rules = [self.wider_rule(";", 0)]
        while self.peek() in (";", ",", "||"):
            at = self.found[self.at].place
            rules.append(self.wider_rule(self.take(self.peek()), at))
        if self.peek() is not None:
            self.refuse()
        return rules

    def wider_rule(self, link, at):
        begin = self.at
        rule = self.any_rule(link, at)
        words = {token.kind for token in self.found[begin:self.at]}
        says_days_alone = rule.kinds and not words & {"modifier", "unknown", "comment", "time"} and rule.times == [(0, DAY)]
        if says_days_alone and self.peek() == ",":
            self.whole_days.append(self.found[begin].place)
        return rule

    def any_rule(self, link, at):
        kinds, times, always = {}, [], False
        if self.peek() == "number" and self.text() == "24":
            self.always()
            always = True
        elif self.peek() not in ("modifier", "unknown", "comment"):
            kinds, times = self.selectors()
        says, place = "open", None
        if self.peek() in ("modifier", "unknown"):
            at_word = self.found[self.at].place
            word = self.take(self.peek())
            says = "unknown" if word == "unknown" else "open" if hours_model.OPENS[word] else "closed"
            place = at_word if says == "unknown" else None
            if self.peek() == "comment":
                self.take("comment")
        elif self.peek() == "comment":
            place = self.found[self.at].place
            self.take("comment")
            says = "open" if times or always else "unknown"
        return Rule(link, at, says, kinds, times or [(0, DAY)], place)


def plain(text):
    """The rules of a text of plain hours, or None."""
    try:
        rules = hours_model.read(text)
    except Fault:
        return None
    return [Rule("," if rule.adds else ";", 0, "open" if rule.opens else "closed", rule.kinds, rule.times, None)
            for rule in rules]


def moments_in(rule):
    return [item for item in rule.times if isinstance(item, moments_model.Times)]


def needs(rules, table, years, options):
    """What is missing, at its place: the first is the fault. Of a range, what is missing first is told."""
    for at, rule in enumerate(rules):
        for item in known_model.listed_in(rule):
            if known_model.is_uncovered(item, table):
                yield item.place, "Holidays"
            elif years is None:
                yield item.place, "Years"
        for item in moments_in(rule):
            asked = moments_model.need(item, options)
            if asked:
                yield asked
        speaks = any(later.link == "||" and later.says != "unknown" for later in rules[at + 1:])
        if rule.says == "unknown" and (rule.link != "||" or speaks):
            yield rule.place, "Unknown"


def read(text, table, years, options):
    """The rules of a text, whose holidays are dated ranges and whose moments are ranges of minutes, or its fault."""
    rules = plain(text)
    if rules is not None:
        return rules
    rules = Reader(tokens(text), len(text)).hours()
    missing = min(needs(rules, table, years, options), default=None, key=lambda need: need[0])
    if missing:
        raise Fault(missing[1], missing[0])
    rules = [rule._replace(times=[pair for item in rule.times for pair in ranges(item, options)]) for rule in rules]
    for rule in rules:
        for item in known_model.listed_in(rule):
            day = None if known_model.needs_no_table(item) else holidays_model.first_uncovered(table, item.kind, *years)
            if day is not None:
                raise Uncovered(item.place, day)
    return [rule._replace(kinds={kind: known_model.known(items, table, years) for kind, items in rule.kinds.items()})
            for rule in rules]


def ranges(item, options):
    return moments_model.ranges(item, options) if isinstance(item, moments_model.Times) else [item]


def first_holiday(text):
    """The place of the first holiday, Easter without a year, or slash of years up to the last that is known, of a text that is no
    plain hours, or None."""
    if plain(text) is not None:
        return None
    rules = Reader(tokens(text), len(text)).hours()
    return min((item.place for rule in rules for item in known_model.listed_in(rule)), default=None)


def whole_days(text):
    """Where the rules begin that say days alone."""
    reader = Reader(tokens(text), len(text))
    reader.hours()
    return reader.whole_days


def warnings(text, rules, years):
    """The warnings of a text that has these rules: of its remarks, of its unknown rules, of its rules that say days alone, and of
    its holidays."""
    told = []
    for rule in rules:
        if rule.place is not None and rule.says == "open":
            comment = COMMENT.match(text, rule.place).group().decode("latin-1")
            told.append((rule.place, 0, f"Remark at {rule.place}: open {comment}"))
        elif rule.place is not None:
            told.append((rule.place, 1, f"NotKnown at {rule.place}"))
    told += [(place, 2, f"WholeDay at {place}: open") for place in whole_days(text)]
    first = first_holiday(text)
    if first is not None:
        told.append((first, 3, f"KnownYears at {first}: {years[0]}-{years[1]}"))
    return [line for _, _, line in sorted(told)]


def state(rules, second):
    """Whether a second is open (True), said to be closed (False), or nothing is said of it (None)."""
    minute, today = second // 60 % DAY, hours_model.EPOCH + hours_model.ONE_DAY * (second // 60 // DAY)
    said = None
    for rule in rules:
        on_today, on_yesterday = (hours_model.matches(rule, day) for day in (today, today - hours_model.ONE_DAY))
        in_spans = any(on_today and begin <= minute < end or on_yesterday and begin <= minute + DAY < end
                       for begin, end in rule.times)
        if rule.says == "unknown" or rule.link == "||" and said is not None:
            continue
        if rule.opens and rule.link == ";" and on_today:
            said = None
        if in_spans:
            said = rule.opens
    return said
