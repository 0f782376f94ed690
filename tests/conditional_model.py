#!/usr/bin/env python3
"""A plain model of conditional restrictions, as tags of ways have them: which parts and terms a value has, when an element is
closed, and the rows of a record file that say the same. Short, slow, and independent of the crates. Run by itself, it compares
what it says with the worked rows in conditional/; and for those and for drawn tags whether an element is closed by the meaning
of the tags at one second with whether it is by the rows.

Hours are read by tests/loose_model.py. Of what that does not read yet, only `PH off` as a last rule, ranges of months with
years, and single points are known here. Places count bytes; a text holds a byte in each character.

That rows have at most 128 basic domains (`TooMany`) is not modelled. A value with several faults has the first of these: of its
cutting into parts, from left to right, then part by part of the name before `@` and of the terms. Its warnings are in the order
of their places.

Usage: tests/conditional_model.py [SECONDS [SEED]]
"""
import csv
import io
import os
import random
import re
import sys
import time
from typing import NamedTuple

import holidays_model
import hours_model
import loose_model
import model

HERE = os.path.dirname(os.path.abspath(__file__))
TYPES = range(1, 100)
MOST_BYTES, MOST_ROWS, MOST_LISTED = 16_777_216, 65_536, 49
CONDITIONAL, DIRECTIONS = ":conditional", {"positive": ":forward", "negative": ":backward"}
VALUES = {"no": True, "yes": False, "designated": False, "permissive": False}
ONEWAY = {"yes": ("negative",), "-1": ("positive",), "no": ()}
EACH_DAY = "[(h0m0){d1}]"
COMPARISON = re.compile(r"([A-Za-z_]+) *(>=|<=|>|<|=) *([0-9]+)(?:\.([0-9]+))? *([A-Za-z]*)")
RANGE = r"([0-9]{2}:[0-9]{2})-([0-9]{2}):([0-9]{2})"
OF_HOURS = {"week", "open", "on", "closed", "off", "day", "days", "easter", "sunrise", "sunset", "dawn", "dusk", "unknown"}


class Fault(Exception):
    """A fault of a row: its kind, and its place in the value or None."""

    def __str__(self):
        return self.args[0] if self.args[1] is None else f"{self.args[0]} at {self.args[1]}"


class Means(NamedTuple):
    """What names stand for, each kind in the order of its rows."""
    modes: dict
    conditions: dict
    values: dict
    ignored: set


class Options(NamedTuple):
    """The table of public holidays with its years, or None; whether loose forms are refused; whether those of hours are; and
    whether short names of weekdays are German where they may be."""
    holidays: tuple
    strict: bool
    strict_hours: bool = False
    german: bool = False


class Term(NamedTuple):
    """Types and no hours; or hours: their rules, and the tables whose public holidays are closed. With the mended text."""
    types: set
    rules: list
    closed: list
    mended: str


class Part(NamedTuple):
    """What a value says, where its terms hold."""
    value: str
    terms: list


def types_of(text):
    """The vehicle types of the field `vehicles` of a record."""
    return {vehicle for vehicle in TYPES if model.serves(text, 2, vehicle)}


def read_means(rows):
    means = Means({}, {}, {}, set())
    for kind, name, stands_for in rows:
        if kind == "mode":
            means.modes[name] = types_of(stands_for)
        elif kind == "condition":
            means.conditions[name] = types_of(stands_for)
        elif kind == "value":
            means.values[name] = {"closed": True, "open": False}[stands_for]
        else:
            means.ignored.add(name)
    return means


# Values

def split(text, separator):
    """The pieces of a text between separators that stand in no parenthesis and no comment, each with its place."""
    pieces, depth, quoted, begin, at = [], 0, False, 0, 0
    while at < len(text):
        if text[at] == '"':
            quoted = not quoted
        elif not quoted:
            depth += {"(": 1, ")": -1}.get(text[at], 0)
            if depth < 0:
                raise Fault("Part", at)
            found = separator.match(text, at) if depth == 0 else None
            if found:
                pieces.append((text[begin:at], begin))
                begin = at = found.end()
                continue
        at += 1
    if depth or quoted:
        raise Fault("Part", len(text))
    return pieces + [(text[begin:], begin)]


def trimmed(text, place):
    """A text without the spaces around it, and its place."""
    return text.strip(" "), place + len(text) - len(text.lstrip(" "))


def unwrapped(text, place):
    """What is within the parentheses that enclose all of a text; else the text."""
    short, at = trimmed(text, place)
    if not short.startswith("("):
        return text, place
    depth, quoted = 0, False
    for number, sign in enumerate(short):
        quoted ^= sign == '"'
        depth += 0 if quoted else {"(": 1, ")": -1}.get(sign, 0)
        if depth == 0:
            return (short[1:-1], at + 1) if number == len(short) - 1 else (text, place)
    return text, place


def normal(found):
    """The normal form of a comparison."""
    word, sign, whole, rest, unit = found.groups()
    rest = (rest or "").rstrip("0")
    needless = unit == "t" or unit == "m" and word in ("length", "width", "height")
    return word + sign + (whole.lstrip("0") or "0") + (f".{rest}" if rest else "") + ("" if needless else unit)


def ends_as_written(printed, data):
    """A printed text whose ranges end on the next day as they are written: at 06:00, and not at 30:00."""
    written = re.findall(RANGE, loose_model.strict_text(loose_model.mended(data)).replace(" ", ""))

    def shown(found):
        begin, hour, minute = found.groups()
        return f"{begin}-{int(hour) - 24:02}:{minute}" if found.groups() not in written else found[0]

    return re.sub(RANGE, shown, printed)


def read_hours(text, place, options, warnings):
    """Hours as a term. A text that needs an option is at fault at the first place that does."""
    strict, is_strict = text, options.strict or options.strict_hours
    for year, first, until, last in re.findall(r"([0-9]{4}) ([A-Z][a-z]{2})-([0-9]{4}) ([A-Z][a-z]{2})(?! *[0-9])", text):
        month = hours_model.MONTHS.index(last) + 1
        day = hours_model.calendar.monthrange(int(until), month)[1]
        strict = strict.replace(f"{year} {first}-{until} {last}", f"{year} {first} 1-{until} {last} {day}")
    holiday = re.search(r"; *PH off$", strict)
    if re.search("PH", text):
        if options.holidays is None:
            raise Fault("Hours Holidays", place + text.index("PH"))
        rows, first, last = options.holidays
        warnings.append(f"KnownYears at {place + text.index('PH')}: {first}-{last}")
    point = re.search(r"(?<![-0-9:] )(?<![-0-9:])[0-9]{2}:[0-9]{2}(?! *-)", text)
    if point:
        raise Fault("Hours Point", place + point.start())
    try:
        data = (strict[:holiday.start()] if holiday else strict).encode("latin-1")
        rules, loose = (hours_model.read(data), []) if is_strict else loose_model.read(data, options.german)
    except hours_model.Fault as fault:
        raise Fault(f"Hours {fault.args[0]}", place + fault.args[1]) from None
    warnings += [f"{kind} at {place + at}: {form}" for kind, at, form in loose]
    mended = ends_as_written(hours_model.print_rules(rules), data) + ("; PH off" if holiday else "")
    return Term(None, rules, [options.holidays] if holiday else [], mended)


def read_term(text, place, means, options, warnings):
    short, at = trimmed(text, place)
    found = COMPARISON.fullmatch(short)
    if found:
        form = normal(found)
        if form not in means.conditions or options.strict and form != short:
            raise Fault("Condition", at)
        warnings += [f"Loose at {at}: {form}"] if form != short else []
        return Term(means.conditions[form], None, [], form)
    if short in means.conditions or re.fullmatch("[a-z_]+", short) and short not in OF_HOURS:
        if short not in means.conditions:
            raise Fault("Condition", at)
        return Term(means.conditions[short], None, [], short)
    return read_hours(*unwrapped(short, at), options, warnings)


def read_terms(text, place, means, options, warnings):
    terms = []
    for piece, at in split(text, re.compile(r"(?<![A-Za-z0-9])(?:AND|and)(?![A-Za-z0-9])")):
        joined = text[at - 3:at] if at else "AND"
        if joined != "AND":
            if options.strict:
                raise Fault("Condition", place + at - 3)
            warnings.append(f"Loose at {place + at - 3}: AND")
        terms.append(read_term(piece, place + at, means, options, warnings))
    return terms


def closes(name, key, place, means):
    """What a name closes: of access whether it closes, of `oneway` the directions."""
    known = ONEWAY if key.startswith("oneway") else {**means.values, **VALUES}
    if name not in known:
        raise Fault("Value", place)
    return known[name]


def read_value(key, text, means, options, warnings):
    """The parts of a value with conditions. All of it is cut first, and then part by part its name and its terms are read."""
    pieces, parts = [], []
    whole = split(text, re.compile(";"))
    if len(whole) > 1 and not whole[-1][0].strip(" ") and not options.strict:
        warnings.append(f"Loose at {whole[-1][1] - 1}")
        whole.pop()
    for piece, place in whole:
        name, sign, condition = piece.partition("@")
        if not sign:
            raise Fault("Part", trimmed(piece, place)[1])
        pieces.append((trimmed(name, place), (condition, place + len(name) + 1)))
    for (name, at), condition in pieces:
        value = closes(name, key, at, means)
        parts.append((name, Part(value, read_terms(*unwrapped(*condition), means, options, warnings))))
    forms = [f"{name} @ ({' AND '.join(term.mended for term in part.terms)})" for name, part in parts]
    return [part for _, part in parts], "; ".join(forms)


# The tags of one element

def keys_of(mode):
    """The keys of a mode: those without a direction, which say of both, and those of each."""
    return {"": mode, **({} if mode == "oneway" else {name: mode + end for name, end in DIRECTIONS.items()})}


def read_tags(tags, means, options):
    """What each key says, as parts; a key without a condition has one without terms. With the mended values, the warnings and
    the faults, by rows from 1."""
    says, mended, told, faults, seen = {}, [], [], [], set()
    keys = {key + end for mode in means.modes for key in keys_of(mode).values() for end in ("", CONDITIONAL)}
    for row, (key, text) in enumerate(tags, 1):
        warnings = []
        try:
            if key not in keys:
                name = re.sub("(:forward|:backward)?:conditional$", "", key)
                if key.endswith(CONDITIONAL) and name not in means.ignored:
                    raise Fault("Key", None)
                continue
            if key in seen:
                raise Fault("Repeated", None)
            seen.add(key)
            if key.endswith(CONDITIONAL):
                says[key], form = read_value(key, text, means, options, warnings)
                mended.append(form)
            else:
                says[key] = [Part(closes(text, key, 0, means), [])]
            warnings.sort(key=lambda warning: int(re.search("at ([0-9]+)", warning)[1]))
            told += [f"row {row}: {warning}" for warning in warnings]
        except Fault as fault:
            faults.append(f"row {row}: {fault}")
    return says, mended, told, faults


def parts_for(says, mode, direction):
    """The parts that a mode's keys have for a direction, in their order: later ones take the place of earlier ones."""
    keys = keys_of(mode)
    plain = [keys[""], keys.get(direction)]
    return [part for key in plain if key for end in ("", CONDITIONAL) for part in says.get(key + end, [])]


def parts_of(says, means, direction, vehicle, oneway):
    """The parts that say something of a direction and a type, with whether they close; of access, or of `oneway`."""
    modes = [mode for mode, types in means.modes.items() if vehicle in types and (mode == "oneway") == oneway]
    parts = [part for mode in modes for part in parts_for(says, mode, direction)]
    return [(part, direction in part.value if oneway else part.value) for part in parts]


def holds(term, vehicle, second):
    """Whether a term holds for a type at a second."""
    if term.types is not None:
        return vehicle in term.types
    closed = any(second // 86400 in holidays_model.holidays(rows, "PH", 0, first, last) for rows, first, last in term.closed)
    return hours_model.is_open(term.rules, second) and not closed


def is_closed(says, means, direction, vehicle, second):
    """Whether the element is closed: the last value that matches wins. What `oneway` closes is closed beside that."""
    ends = []
    for oneway in (False, True):
        said = [is_closing for part, is_closing in parts_of(says, means, direction, vehicle, oneway)
                if all(holds(term, vehicle, second) for term in part.terms)]
        ends.append(bool(said) and said[-1])
    return any(ends)


# Rows

def clock(letters, minute):
    return f"{letters}h{minute // 60}m{minute % 60}"


def days_text(selector):
    """The fields of the days of a selector, and how many days each stretch has. Sunday is day 1 of a domain's week."""
    kind, first, last = selector[:3]
    if kind == "weekdays":
        days = sorted(day % 7 + 1 for day in range(first, last + 1 if first <= last else last + 8))
        return "".join(f"t{day}" for day in days), 1
    if kind == "dates" and first == last:
        return f"M{first[0]}d{first[1]}", 1
    if kind == "dated":
        return f"y{first.year}M{first.month}d{first.day}", (last - first).days + 1
    raise NotImplementedError(f"days of {selector}")


def hours_domain(term):
    """The domain of hours of one open rule, whose selectors are of one kind at most, and of holidays that are closed."""
    rule, = term.rules
    selectors, = rule.kinds.values() or [[]]
    days = [days_text(selector) for selector in selectors] or [("", 1)]

    def at_days(minute):
        return holidays_model.add([f"[({clock(fields, minute)}){{d{count}}}]" for fields, count in days])

    def clocks(times):
        return holidays_model.add([f"[({clock('', begin)}){{m{end - begin}}}]" for begin, end in times])

    # Times that end on their day share the days.
    if len(rule.times) > 1 and all(end <= hours_model.DAY for _, end in rule.times):
        domain = f"[{at_days(0)}*{clocks(rule.times)}]"
    else:
        domain = holidays_model.add([
            at_days(0) if end - begin == hours_model.DAY
            else f"[{at_days(begin if end > hours_model.DAY else 0)}*{clocks([(begin, end)])}]"
            for begin, end in rule.times])
    for rows, first, last in term.closed:
        days = holidays_model.holidays(rows, "PH", 0, first, last)
        domain = f"[{domain}-{holidays_model.add(holidays_model.terms(holidays_model.group(days, first, last), first, last))}]"
    return domain


def domain_of(parts, vehicle):
    """The domain in which parts close, as a text: empty for always, None for never."""
    closed = None
    for part, is_closing in parts:
        if any(term.types is not None and vehicle not in term.types for term in part.terms):
            continue
        hours = [hours_domain(term) for term in part.terms if term.types is None]
        product = "" if not hours else hours[0]
        for domain in hours[1:]:
            product = f"[{product}*{domain}]"
        if not product:
            closed = "" if is_closing else None
        elif is_closing:
            closed = product if closed is None else closed and f"[{closed}+{product}]"
        elif closed is not None:
            closed = f"[{closed or EACH_DAY}-{product}]"
    return closed


def types_text(types):
    """Types as the field `vehicles` of a record."""
    if len(types) == len(TYPES):
        return "0"
    if len(types) <= MOST_LISTED:
        return ";".join(map(str, sorted(types)))
    return "!" + ";".join(str(vehicle) for vehicle in TYPES if vehicle not in types)


def rows_of(says, means):
    """The rows of an element: direction, types and domain."""
    rows = []
    for oneway in (False, True):
        sides = {}
        for direction in DIRECTIONS:
            groups = {}
            for vehicle in TYPES:
                domain = domain_of(parts_of(says, means, direction, vehicle, oneway), vehicle)
                if domain is not None:
                    groups.setdefault(domain, set()).add(vehicle)
            ordered = sorted(groups.items(), key=lambda group: min(group[1]))
            sides[direction] = [(types_text(types), domain) for domain, types in ordered]
        positive, negative = sides.values()
        rows += [("both" if row in negative else "positive", *row) for row in positive]
        rows += [("negative", *row) for row in negative if row not in positive]
    return rows


# A file of tags

def put(data, means, options):
    """The record file of a file of tags, as lines, with its warnings; and all its faults. With a fault nothing is put."""
    if len(data) > MOST_BYTES:
        return [], [], ["TooLarge"]
    text = data.decode("latin-1").removeprefix("\xef\xbb\xbf")
    records = [fields for fields in csv.reader(io.StringIO(text, newline="")) if fields]
    if not records or records[0] != ["element", "key", "value"]:
        return [], [], ["Header"]
    elements, told = {}, []
    for at, fields in enumerate(records[1:MOST_ROWS + 1], 1):
        if len(fields) != 3:
            told.append((at, "fault", "FieldCount"))
        elif not re.fullmatch("[0-9]{1,10}", fields[0]):
            told.append((at, "fault", "Element"))
        else:
            elements.setdefault(int(fields[0]), []).append((at, fields[1], fields[2]))
    lines = ["element,direction,vehicles,domain"]
    known = {key + end for mode in means.modes for key in keys_of(mode).values() for end in ("", CONDITIONAL)}

    # Elements stand in the order of their first tags; a tag that is skipped is none.
    def first(element):
        return min((at for at, key, _ in elements[element] if key in known), default=MOST_ROWS)

    for element in sorted(elements, key=first):
        rows = elements[element]
        says, _, warnings, faults = read_tags([row[1:] for row in rows], means, options)
        for kind, many in (("warning", warnings), ("fault", faults)):
            for number, what in (one.removeprefix("row ").split(": ", 1) for one in many):
                told.append((rows[int(number) - 1][0], kind, what))
        lines += [f"{element},{','.join(row)}" for row in ([] if faults else rows_of(says, means))]
    told.sort(key=lambda one: one[0])
    warnings, faults = ([f"row {at}: {what}" for at, kind, what in told if kind == wanted] for wanted in ("warning", "fault"))
    if len(records) - 1 > MOST_ROWS:
        faults.append(f"row {MOST_ROWS + 1}: TooManyRows")
    return [] if faults else lines, warnings, faults


# The worked rows

def read_options(text):
    words = text.split()
    german = "--day-names" in words
    if "--holidays" not in words:
        return Options(None, "--strict" in words, german=german)
    name, years = words[words.index("--holidays") + 1], words[words.index("--years") + 1]
    first, last = map(int, years.split("-"))
    return Options((holidays_model.tables()[name.removesuffix(".csv")], first, last), "--strict" in words, german=german)


def moments(text):
    for moment in text.split():
        direction, vehicle, at = moment.split("/")
        day, clock_time = at.split("T")
        hour, minute, second = map(int, clock_time.split(":"))
        yield direction, int(vehicle), holidays_model.read_day(day) * 86400 + 3600 * hour + 60 * minute + second


def check_rows(name, says, means, rows, chance, count):
    """Differences between the rows and the meaning of the tags, at drawn seconds."""
    read = [("1", direction, types, model.read(domain.encode()) if domain else None) for direction, types, domain in rows]
    begin = holidays_model.number(2024, 12, 20) * 86400
    for _ in range(count):
        second = begin + chance.choice((chance.randrange(900 * 86400), 1800 * chance.randrange(900 * 48) - chance.randrange(2)))
        for direction in DIRECTIONS:
            vehicle = chance.choice((1, 2, 11, 12, 13, 80, 90, chance.choice(TYPES)))
            closed = is_closed(says, means, direction, vehicle, second)
            if closed == model.is_open(read, 2, 1, direction, vehicle, second):
                return [f"{name}: the rows {rows} and the tags differ at {direction}/{vehicle}/{second}"]
    return []


def check_worked(row, means, chance):
    """What is wrong with a worked row."""
    options = read_options(row["options"])
    tags = [tuple(tag.encode().decode("latin-1").split("=", 1)) for tag in row["tags"].split(" | ")]
    says, mended, warnings, faults = read_tags(tags, means, options)
    found = {"faults": "; ".join(faults), "warnings": "; ".join(warnings), "mended": " | ".join(mended)}
    if not row["faults"]:
        rows = rows_of(says, means)
        found["rows"] = " | ".join(",".join(one) for one in rows)
        found["cost"] = str(max((domain.count("(") for *_, domain in rows), default=0))
    wrong = [f"{row['tags']}: {name} {text!r}, not {row[name]!r}" for name, text in found.items()
             if text != row[name] and not (faults and name == "mended")]
    if row["faults"]:
        return wrong
    wrong += [f"{row['tags']}: {name} at {moment}" for name in ("closed", "open") for moment in moments(row[name])
              if is_closed(says, means, *moment) != (name == "closed")]
    return wrong + check_rows(row["tags"], says, means, rows, chance, 25 if options.holidays else 60)


def check_file(row, means):
    """What is wrong with a file of one line in conditional/files.csv. Its fields have no line ends, so `|` stands for them."""
    found = put(row["tags"].replace("|", "\n").encode(), means, Options(None, False))
    shown = {name: "|".join(many) for name, many in zip(("records", "warnings", "faults"), found)}
    return [f"{row['tags']}: {name} {text!r}, not {row[name]!r}" for name, text in shown.items() if text != row[name]]


def drawn(chance, means):
    """Tags of one element."""
    hours = ("Mo-Fr 07:00-09:00", "22:00-06:00", "Sa,Su", "Dec 24,25", "08:00-18:00,20:00-21:00", "Fr-Mo 23:00-01:30", "24/7",
             "mo-fr 7:00-9:00", "Sa 9h-13h30", "Monday – Friday 0800-1745".encode().decode("latin-1"))
    words = ["weight>7.5", "weight > 03.50 t", "hazmat", "residents", "length>12m"]

    def part(names):
        terms = chance.sample(hours + tuple(words), chance.choice((1, 1, 2, 3)))
        terms = [f"({term})" if term in hours and chance.random() < 0.5 else term for term in terms]
        return f"{chance.choice(names)} @ ({chance.choice((' AND ', ' AND ', ' and ')).join(terms)})"

    keys = [key for mode in means.modes for key in keys_of(mode).values()]
    tags = []
    for key in chance.sample(keys, chance.randint(1, 4)):
        names = list(ONEWAY) if key == "oneway" else [*VALUES, "destination"]
        if chance.random() < 0.4:
            tags.append((key, chance.choice(names)))
        if chance.random() < 0.8:
            value = "; ".join(part(names) for _ in range(chance.randint(1, 3)))
            tags.append((key + CONDITIONAL, value + chance.choice(("", ";"))))
    return tags


def check_drawn(chance, means):
    """What is wrong with drawn tags: the rows and the meaning differ, or a mended value means something else."""
    tags = drawn(chance, means)
    options = Options(None, False)
    says, mended, _, faults = read_tags(tags, means, options)
    if faults:
        return [f"{tags}: {faults}"]
    rows = rows_of(says, means)
    ends = iter(mended)
    strict = [(key, next(ends) if key.endswith(CONDITIONAL) else text) for key, text in tags]
    again = read_tags(strict, means, Options(None, True))
    if again[1:] != (mended, [], []) or rows_of(again[0], means) != rows:
        return [f"{tags}: mended as {strict}, which means {again[1:]}"]
    return check_rows(tags, says, means, rows, chance, 6)


def main():
    seconds, seed = float(sys.argv[1]) if sys.argv[1:] else 3, int(sys.argv[2]) if sys.argv[2:] else 1
    chance = random.Random(seed)
    with open(f"{HERE}/conditional/means.csv", newline="") as source:
        means = read_means(list(csv.reader(source))[1:])
    with open(f"{HERE}/conditional/rows.csv", newline="") as source:
        worked = list(csv.DictReader(source))
    with open(f"{HERE}/conditional/files.csv", newline="") as source:
        files = list(csv.DictReader(source))
    wrong = [check_worked(row, means, chance) for row in worked] + [check_file(row, means) for row in files]
    end = time.monotonic() + seconds
    while time.monotonic() < end:
        wrong.append(check_drawn(chance, means))
    for one in filter(None, wrong):
        print("\n".join(one), file=sys.stderr)
    failed = sum(map(bool, wrong))
    print(f"conditional: {len(wrong) - failed} passed, {failed} failed")
    return failed > 0


if __name__ == "__main__":
    sys.exit(main())
