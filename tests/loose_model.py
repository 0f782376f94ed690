#!/usr/bin/env python3
"""A plain model of texts of opening hours that are written loosely, from docs/HOURS.md alone: the strict text, the warnings, and
the first fault, by tests/hours_model.py or a model that reads more."""
import re
from typing import NamedTuple

import hours_model

ENGLISH = "Sunday Monday Tuesday Wednesday Thursday Friday Saturday".split()
GERMAN = "Sonntag Montag Dienstag Mittwoch Donnerstag Freitag Samstag".split()
SHORT = {"Su": "Sun", "Mo": "Mon", "Tu": "Tue Tues", "We": "Wed Mi", "Th": "Thu Thur Thurs", "Fr": "Fri", "Sa": "Sat Sonnabend"}
MONTHS = "January February March April May June July August September October November December".split()
OTHER_MONTHS = {"Jan": "Januar", "Feb": "Februar", "May": "Mai", "Jun": "Juni", "Jul": "Juli", "Sep": "Sept"}
OTHER_MONTHS |= {"Oct": "Oktober Okt", "Dec": "Dezember Dez"}
TWO_WAYS = {"di": "Tu", "do": "Th", "so": "Su"}
WORDS = ["week", "open", "on", "closed", "off", "day", "days", "PH", "SH", *hours_model.NOT_READ]
NAMES = {name.lower(): day for day, others in SHORT.items() for name in [day, *others.split()]}
NAMES |= {name.lower(): name[:2] for name in ENGLISH}
NAMES |= {name.lower(): english[:2] for name, english in zip(GERMAN, ENGLISH)}
NAMES |= {name.lower(): name[:3] for name in MONTHS} | {name[:3].lower(): name[:3] for name in MONTHS}
NAMES |= {name.lower(): month for month, others in OTHER_MONTHS.items() for name in others.split()}

BEGINS_MOMENT = "time sunrise sunset dawn dusk (".split()
BEGINS_HOURS = [*BEGINS_MOMENT, "open", "on", "off", "closed"]
MOMENT = r"(?:time |sunrise |sunset |dawn |dusk |\( (?:(?:sunrise|sunset|dawn|dusk|time|[+-]) )*\) )"
RANGE = re.compile(f".*{MOMENT}- {MOMENT}")
SPACES = re.compile("[\u00a0\u202f\t]")
CLOCK = re.compile(r"([0-9]{1,2})(?:(?::([0-9]{2})(?![0-9])(?!:[0-9]))|(?:\.([0-9]{2})(?![0-9])(?!\.[0-9]))"
                   r"|(?:[hH]([0-9]{2})?(?![0-9A-Za-z])))(?: *([AaPp])[Mm](?![A-Za-z]))?( *[Uu][Hh][Rr](?![A-Za-z]))?")
HALF = re.compile(r"([0-9]{1,2})(?![0-9])()()() *([AaPp])[Mm](?![A-Za-z])( *[Uu][Hh][Rr](?![A-Za-z]))?")
NUMBER = re.compile(r"[0-9]{1,4}(?![0-9])(?!:[0-9])")
WORD = re.compile(r"[A-Za-z]+")
DASH = re.compile("[-\u2010-\u2014\u2212]")
SIGN = re.compile(r'[,;/:\[\]()+]|\|\||"[^"]*"?')
QUOTED = re.compile('[\u201c-\u201e]([^\u201c-\u201e"]*)([\u201c-\u201e"]?)')


class Part(NamedTuple):
    """What is written, where, and its strict form."""
    written: str
    place: int
    form: str


def clock(found, place):
    """The strict form of a time, or the fault."""
    hour, half = int(found[1]), (found[5] or "").lower()
    if half:
        if hour == 12:
            raise hours_model.Fault("Ambiguous", place)
        if not 1 <= hour <= 11:
            raise hours_model.Fault("BadToken", place)
    return f"{hour + 12 * (half == 'p'):02}:{found[2] or found[3] or found[4] or '00'}"


def word_at(text, at, place, german):
    """A word, with the full stop of a name."""
    word = WORD.match(text, at)[0]
    name = NAMES.get(word.lower())
    if word.lower() in TWO_WAYS:
        if not german:
            raise hours_model.Fault("Ambiguous", place)
        name = TWO_WAYS[word.lower()]
    if name:
        stop = "." if text.startswith(".", at + len(word)) else ""
        return Part(word + stop, place, name)
    for known in WORDS:
        if known.lower() == word.lower():
            return Part(word, place, known)
    raise hours_model.Fault("BadToken", place)


def part_at(text, at, place, german):
    """The token at a place, which counts bytes."""
    if WORD.match(text, at):
        return word_at(text, at, place, german)
    for pattern in (CLOCK, HALF):
        found = pattern.match(text, at)
        if found:
            return Part(found[0], place, clock(found, place))
    found = QUOTED.match(text, at)
    if found:
        return Part(found[0], place, '"' + found[1] + '"' * bool(found[2]))
    for pattern, form in ((NUMBER, None), (DASH, "-"), (SIGN, None)):
        found = pattern.match(text, at)
        if found:
            return Part(found[0], place, form or found[0])
    raise hours_model.Fault("BadToken", place)


def parts_of(text, german):
    """The tokens of a text, and the spaces that are not of ASCII."""
    parts, spaces, at, place = [], [], 0, 0
    while at < len(text):
        if text[at] == " ":
            used = " "
        elif SPACES.match(text, at):
            used = text[at]
            spaces.append(Part(used, place, " "))
        else:
            parts.append(part_at(text, at, place, german))
            used = parts[-1].written
        at, place = at + len(used), place + len(used.encode("utf-8", "surrogateescape"))
    return parts, spaces


def kind(part):
    """What a token is: a time, days, or its form."""
    if re.fullmatch("[0-9]{2}:[0-9]{2}", part.form):
        return "time"
    return "days" if part.form in (*hours_model.WEEKDAYS, "]", "PH", "SH") else part.form


def four_digits(part):
    return len(part.form) == 4 and part.form.isdigit() and int(part.form[2:]) < 60 and int(part.form) <= 4800


def paired(parts):
    """Two numbers of four digits are times: the second of a pair is named by its place in the list."""
    read, left, at = set(), [], 0
    while at + 2 < len(parts):
        first, dash, last = parts[at:at + 3]
        if four_digits(first) and dash.form == "-" and four_digits(last):
            if int(first.form) < 1800 or at > 0 and kind(parts[at - 1]) == "days":
                read |= {at, at + 2}
                at += 2
            else:
                left.append(first.place)
        at += 1
    if read and left:
        raise hours_model.Fault("Ambiguous", left[0])
    return [part._replace(form=part.form[:2] + ":" + part.form[2:]) if at in read else part for at, part in enumerate(parts)]


def mended(text, german=False):
    """The parts of a text with their strict forms."""
    parts, spaces = parts_of(text.decode("utf-8", "surrogateescape"), german)
    parts, kept, out = paired(parts), [], []
    for at, part in enumerate(parts):
        here, before = kind(part), [kind(other) for other in kept]
        later = [kind(other) for other in parts[at + 1:]]
        if here in (",", ";") and before and (before[-1] == here or before[-1] not in (",", ";") and set(later) <= {here}):
            out.append(part._replace(form=""))
            continue
        if here == ":" and before and before[-1] == "days" and later:
            if later[0] in BEGINS_HOURS or later[0].startswith('"'):
                out.append(part._replace(form=""))
                continue
        if here in BEGINS_MOMENT and RANGE.fullmatch("".join(f"{other} " for other in before)):
            out.append(Part("", part.place, ","))
        kept.append(part)
        out.append(part)
    return sorted(out + spaces, key=lambda part: (part.place, part.written != ""))


def strict_text(parts):
    return "".join(part.form + " " for part in parts)


def warnings(parts):
    """Kind, place and form of the warnings."""
    return [("Loose", part.place, "a space" if part.form == " " else part.form) for part in parts if part.form != part.written]


def read(text, german=False, reader=hours_model.read):
    """The rules that a text stands for, and its warnings; or its first fault. Strict texts are read by the reader."""
    try:
        return reader(text), []
    except hours_model.Fault:
        pass
    parts = mended(text, german)
    strict = strict_text(parts).encode("utf-8", "surrogateescape")
    try:
        return reader(strict), warnings(parts)
    except hours_model.Fault as fault:
        start = 0
        for part in parts:
            if start == fault.args[1] and part.form not in ("", " "):
                raise hours_model.Fault(fault.args[0], part.place) from None
            start += len((part.form + " ").encode("utf-8", "surrogateescape"))
        raise hours_model.Fault(fault.args[0], len(text)) from None
