#!/usr/bin/env python3
"""Writes questions to the library, a line for each, and the lines that answer them: of the record files of examples/, and of
random domains and files from the makers of tests/fuzz.py.

Faults, membership and closing rows are those of the plain models of tests/model.py and tests/hours_model.py. Changes, spans and
texts are what the program `gtd` answers (and `gtdesk`, for words, pictures, domains of opening hours, and seconds that one of two
domains has alone); each border of a span, each such second and the hours are held to the models, too. GTD and GTDESK in the
environment name other programs.

A domain or a file is given as x and the hexadecimal digits of its bytes. An answer is the name of what the call answers, and what
it found: `no 6 2` is the fault FieldRange at 2.

Usage: tests/library/questions.py [--random] QUESTIONS ANSWERS COUNT [SEED]
       COUNT domains and as many files, and a tenth as many pairs of domains and opening hours; with --random these alone, and
       no examples
"""
import csv
import datetime
import glob
import io
import os
import random
import re
import subprocess
import sys
import tempfile
from concurrent.futures import ThreadPoolExecutor

TESTS = os.path.dirname(os.path.dirname(os.path.abspath(__file__)))
sys.path.insert(0, TESTS)

import fuzz  # noqa: E402
import hours  # noqa: E402
import hours_model  # noqa: E402
import model  # noqa: E402
import same  # noqa: E402

TOP = os.path.dirname(TESTS)
GTD = os.environ.get("GTD", os.path.join(TOP, "crates", "gtd", "out", "gtd"))
GTDESK = os.environ.get("GTDESK", os.path.join(TOP, "crates", "gtdesk", "out", "gtdesk"))
TEXT_FAULTS = ["BadToken", "Fuzzy", "TooDeep", "TooMany", "Repeated", "FieldRange", "Negative", "Unexpected", "Incomplete",
               "TooLongDuration"]
HOURS_FAULTS = ["BadToken", "Unsupported", "Range", "Unexpected", "Incomplete", "TooMany", "Years"]
RECORD_FAULTS = {"TooLarge": 2, "Header": 3, "FieldCount": 4, "Element": 5, "Direction": 6, "Vehicle": 7, "Domain": 8,
                 "TooManyRows": 9}
DAY = model.DAY
FIRST, END = fuzz.second_of("1901-01-01"), fuzz.second_of("2700-01-01")
LAST_MOMENT = fuzz.second_of("2199-12-31T23:59:59")
MOST_DAYS = 146_098
WORDS = ("no", "yes")


def gtd(*words, program=None):
    """What a program prints, or the line that it refuses with."""
    done = subprocess.run([program or GTD, *map(os.fsencode, map(str, words))], stdin=subprocess.DEVNULL, capture_output=True,
                          timeout=fuzz.LIMIT, check=False)
    return done.returncode, done.stdout if done.returncode == 0 else done.stderr


def hexed(data):
    return "x" + data.hex()


def date(day):
    return fuzz.stamp_of(day * DAY)[:10]


def is_second(second):
    return FIRST <= second < END


def is_horizon(first, last):
    return FIRST <= first * DAY and last * DAY <= END and 0 < last - first <= MOST_DAYS


class Asked:
    """Questions and their answers, in order."""

    def __init__(self):
        self.questions, self.answers = [], []

    def ask(self, question, answer):
        self.questions.append(question)
        self.answers.append(answer)


def outside(maker):
    """A second that may not be asked about, or one of the first and the last that may."""
    return maker.random.choice([FIRST - 1, END, -2**63, 2**63 - 1, FIRST, END - 1])


def answered(values):
    return " ".join(["yes", *map(str, values)])


def complement(spans, low, high):
    """The gaps between spans in order, from one second up to another."""
    ends = [low, *(end for span in spans for end in span), high]
    return [(start, end) for start, end in zip(ends[::2], ends[1::2]) if start < end]


def schedule_of(path, first, last, vehicle):
    """The schedule as the program prints it, and its spans by element and direction."""
    status, text = gtd("schedule", path, date(first), date(last), vehicle)
    assert status == 0, (path, first, last, vehicle, text)
    return text, fuzz.spans_of(text.decode().rstrip("\n").split("\n")[1:], path)


def domain_fault(data):
    """The expression of a text, or its first fault as numbers."""
    try:
        return model.read(data), None
    except model.Fault as fault:
        kind, place = fault.args
        return None, f"{TEXT_FAULTS.index(kind) + 1} {place}"


def ask_many(asked, maker, expression, seconds):
    """Membership of many seconds; of some lists one is out of range, and what comes before it is answered."""
    seconds = list(seconds)
    if maker.random.random() < 0.3:
        seconds.insert(maker.random.randint(0, len(seconds)), maker.random.choice([FIRST - 1, END]))
    good = next((place for place, second in enumerate(seconds) if not is_second(second)), len(seconds))
    answers = "".join(str(int(model.contains(expression, second))) for second in seconds[:good])
    name = "yes" if good == len(seconds) else "range"
    asked.ask(" ".join(map(str, ["holds_many", len(seconds), *seconds])), f"{name} {answers}")


def ask_next(asked, maker, text, second):
    day = second // DAY + maker.random.choice([0, 1, 2, 40, 400, 20_000])
    if not is_horizon(second // DAY, day):
        return asked.ask(f"next {second} {day}", "range")
    _, said = gtd("next", text, fuzz.stamp_of(second), date(day))
    answer = "no" if said == b"none\n" else f"yes {fuzz.second_of(said.decode().split()[0])}"
    return asked.ask(f"next {second} {day}", answer)


def ask_ever(asked, text, second):
    status, said = gtd("ever", text, fuzz.stamp_of(second))
    if status:
        assert said == b"fault HasYear\n", (text, said)
        return asked.ask(f"ever {second}", "year")
    return asked.ask(f"ever {second}", "no" if said == b"never\n" else f"yes {fuzz.second_of(said.decode().split()[0])}")


def ask_spans(asked, maker, room, expression, text):
    """The spans over some days: what the schedule of a file with this one row leaves out. The model is asked at their borders."""
    first = maker.moment(text) // DAY
    last = first + maker.random.choice([1, 7, 30])
    path = fuzz.write(room, "one.csv", 1, [["1", "positive", "0", text]])
    _, spans = schedule_of(path, first, last, 1)
    own = complement(spans.get((1, "positive"), []), first * DAY, last * DAY)
    asked.ask(f"spans {first} {last}", answered(second for span in own for second in span))
    for second in {second for span in own[:3] for end in span for second in (end - 1, end)}:
        asked.ask(f"holds {second}", WORDS[model.contains(expression, second)])
    asked.ask(f"spans {last} {first}", "range")


def ask_texts(asked, maker, text):
    _, canonical = gtd("canon", text)
    canonical = canonical.rstrip(b"\n")
    asked.ask("canon", f"yes {hexed(canonical)}")
    _, words = gtd("words", text, program=GTDESK)
    asked.ask("words", f"yes {hexed(words)}")
    if maker.random.random() < 0.03:
        year = maker.random.choice([1901, 2199, 2024, maker.random.randint(1990, 2030)])
        _, picture = gtd("picture-domain", canonical.decode(), year, program=GTDESK)
        asked.ask(f"picture {year}", f"yes {hexed(picture)}")
    asked.ask(f"picture {maker.random.choice([0, 1900, 2200, 2**32 - 1])}", "range")


def domain_case(seed):
    """A random domain, or a text that may be none, and questions about it."""
    maker, asked = fuzz.Maker(seed), Asked()
    text = maker.loose() if maker.random.random() < 0.15 else maker.domain()
    data = text.encode()
    if maker.random.random() < 0.2:
        data = maker.damaged(text, b"[](){}+*-yMwdtflhmsz0123456789 x")
    expression, fault = domain_fault(data)
    if fault:
        asked.ask(f"domain {hexed(data)}", f"no {fault}")
        return asked
    text = data.decode()
    asked.ask(f"domain {hexed(data)}", "yes")
    seconds = [maker.moment(text) for _ in range(8)]
    for second in seconds[:3]:
        asked.ask(f"holds {second}", WORDS[model.contains(expression, second)])
    second = outside(maker)
    asked.ask(f"holds {second}", WORDS[model.contains(expression, second)] if is_second(second) else "range")
    ask_many(asked, maker, expression, seconds)
    ask_next(asked, maker, text, seconds[0])
    ask_ever(asked, text, seconds[1])
    asked.ask(f"ever {maker.random.choice([FIRST - 1, LAST_MOMENT + 1])}", "range")
    with tempfile.TemporaryDirectory() as room:
        ask_spans(asked, maker, room, expression, text)
    ask_texts(asked, maker, text)
    return asked


def ask_same(asked, first, second, begin):
    """How the domain and the other one compare. A second that one has alone is held to the model."""
    if not FIRST <= begin <= LAST_MOMENT:
        return asked.ask(f"same {begin}", "range")
    said, status = same.run("--from", fuzz.stamp_of(begin), "--", first, second)
    if status == 0:
        return asked.ask(f"same {begin}", {"same": "yes", "same until 2700": "year"}[said])
    assert status == 4, (first, second, begin, said)
    stamp, side = said.split()
    found = fuzz.second_of(stamp)
    has_first, has_second = (model.contains(model.read(text.encode()), found) for text in (first, second))
    assert begin <= found and has_first != has_second and side == ("first" if has_first else "second"), (first, second, said)
    return asked.ask(f"same {begin}", f"no {found} {1 if has_first else 2}")


def pair_case(seed):
    """Two random domains, half of them the same in other words, and how they compare from some seconds on."""
    asked, rng = Asked(), random.Random(seed)
    first = same.domain(rng)
    second = same.rewritten(rng, model.read(first.encode())) if rng.random() < 0.5 else same.domain(rng)
    if max(first.count("("), second.count("(")) > 128:
        return asked
    asked.ask(f"domain {hexed(first.encode())}", "yes")
    asked.ask(f"other {hexed(second.encode())}", "yes")
    for begin in [FIRST, LAST_MOMENT, rng.randint(FIRST, LAST_MOMENT), rng.choice([FIRST - 1, LAST_MOMENT + 1, -2**63])]:
        ask_same(asked, first, second, begin)
    asked.ask(f"holds {FIRST}", WORDS[model.contains(model.read(first.encode()), FIRST)])
    return asked


def ask_hours(asked, text):
    """The domain of opening hours, by its canonical text, or their first fault; returns whether there is a domain."""
    fault = hours.fault_of(text)
    if fault:
        asked.ask(f"hours {hexed(text)}", f"no {HOURS_FAULTS.index(fault[0]) + 1} {fault[1]}")
        return False
    status, said = gtd("hours", "--", text.decode(), program=GTDESK)
    if status:
        assert said.startswith(b"gtdesk: TEXT: TooMany at 0\n"), (text, said)
        asked.ask(f"hours {hexed(text)}", f"no {HOURS_FAULTS.index('TooMany') + 1} 0")
        return False
    asked.ask(f"hours {hexed(text)}", "yes")
    asked.ask("canon", f"yes {hexed(said[:-1])}")
    return True


def hours_case(seed):
    """Random opening hours, some of them damaged, and whether they are open at some seconds."""
    asked, maker = Asked(), hours.Maker(seed)
    text = maker.text()
    for given in [text, maker.damaged(text), text]:
        if not ask_hours(asked, given.encode()):
            continue
        rules = hours_model.read(given.encode())
        for _ in range(8):
            second = maker.randrange(0, 4_000_000_000)
            asked.ask(f"holds {second}", WORDS[hours_model.is_open(rules, second)])
    return asked


def worked_hours_case(name):
    """The opening hours of a file of tests/hours."""
    asked = Asked()
    for row in hours.rows_of(name):
        ask_hours(asked, next(iter(row.values())).encode())
    return asked


class Rows:
    """The rows of a record file, for the model: each with its expression."""

    def __init__(self, version, rows):
        self.version = version
        self.rows = [row[:3] + [model.read(row[3].encode()) if row[3] else None] for row in rows]
        self.elements = sorted({int(row[0]) for row in rows})

    def closers(self, element, direction, vehicle, second):
        return [number for number, row in enumerate(self.rows, 1)
                if not model.is_open([row], self.version, element, direction, vehicle, second)]


def ask_closed(asked, rows, element, negative, vehicle, second):
    """Whether an element is closed, and by which rows; returns the answer."""
    words = f"{element} {int(negative)} {vehicle} {second}"
    closing = rows.closers(element, "negative" if negative else "positive", vehicle, second)
    asked.ask(f"closed {words}", WORDS[bool(closing)])
    asked.ask(f"closers {words}", answered(closing))
    return words, int(bool(closing))


def ask_elements(asked, maker, rows):
    asked.ask("count", f"yes {len(rows.elements)}")
    places = range(len(rows.elements))
    for place in maker.random.sample(places, min(3, len(rows.elements))):
        asked.ask(f"element {place}", f"yes {rows.elements[place]}")
    asked.ask(f"element {len(rows.elements)}", "no")
    asked.ask(f"element {2**64 - 1}", "no")


def ask_out_of_range(asked, maker, element, second):
    vehicle = maker.random.choice([0, 100, 255])
    asked.ask(f"closed {element} 0 {vehicle} {second}", "range")
    asked.ask(f"closed {element} 1 1 {maker.random.choice([FIRST - 1, END])}", "range")
    asked.ask(f"closers {element} 1 {vehicle} {second}", "range")
    asked.ask(f"records_next {element} 0 1 {second} {second // DAY}", "range")
    asked.ask(f"records_next {element} 0 {vehicle} {second} {second // DAY + 1}", "range")
    asked.ask(f"records_spans {element} 0 {vehicle} 1 2", "range")
    asked.ask(f"schedule 1 2 {vehicle}", "range")
    asked.ask(f"schedule 2 2 {maker.random.randint(1, 99)}", "range")


def ask_horizon(asked, maker, rows, path, first, last):
    """The schedule, and the spans and the next change of an element by it; borders by the model."""
    vehicle = maker.random.randint(1, 15)
    text, spans = schedule_of(path, first, last, vehicle)
    asked.ask(f"schedule {first} {last} {vehicle}", f"yes {hexed(text)}")
    for element in [*maker.random.sample(rows.elements, min(2, len(rows.elements))), 10**12]:
        negative = maker.random.random() < 0.5
        words = f"{element} {int(negative)} {vehicle}"
        own = spans.get((element, "negative" if negative else "positive"), [])
        if element == 10**12:
            own = [(first * DAY, last * DAY)]  # no record names it
        asked.ask(f"records_spans {words} {first} {last}", answered(second for span in own for second in span))
        second = maker.random.randrange(first * DAY, (first + 1) * DAY)
        borders = sorted({end for span in own for end in span if second < end < last * DAY})
        asked.ask(f"records_next {words} {second} {last}", f"yes {borders[0]}" if borders else "no")
        for border in borders[:2]:
            ask_closed(asked, rows, element, negative, vehicle, border - 1)
            ask_closed(asked, rows, element, negative, vehicle, border)


def ask_records(asked, maker, rows, path, moments):
    """All questions about the records of a file, of which the second half goes to a second handle."""
    ask_elements(asked, maker, rows)
    many = []
    for second in moments:
        element = maker.random.choice([*rows.elements, 0, 2**64 - 1])
        many.append(ask_closed(asked, rows, element, maker.random.random() < 0.5, maker.random.randint(1, 15), second))
    asked.ask("share", "yes")
    asked.ask(" ".join(["closed_many", str(len(many)), *(words for words, _ in many)]),
              f"yes {''.join(str(answer) for _, answer in many)}")
    many.insert(2, (f"1 0 100 {moments[0]}", None))
    asked.ask(" ".join(["closed_many", str(len(many)), *(words for words, _ in many)]),
              f"range {''.join(str(answer) for _, answer in many[:2])}")
    ask_out_of_range(asked, maker, (rows.elements or [1])[0], moments[0])
    first = moments[1] // DAY
    ask_horizon(asked, maker, rows, path, first, min(first + maker.random.choice([1, 3, 30]), END // DAY))


def file_fault(path):
    """The first fault of a file as numbers, which the program's line names; or nothing."""
    status, said = gtd("migrate", path)
    if status == 0:
        return None
    fault = re.fullmatch(rb"fault (?:row (\d+) )?(\w+)(?: (\w+) at (\d+))?\n", said)
    row, kind, text, place = (part and part.decode() for part in fault.groups())
    return f"{RECORD_FAULTS[kind]} {row or 0} {TEXT_FAULTS.index(text) + 1 if text else 0} {place or 0}"


def file_case(seed):
    """A random record file, or one that may be none, and questions about it."""
    maker, asked = fuzz.Maker(seed), Asked()
    version, rows = maker.file()
    with tempfile.TemporaryDirectory() as room:
        path = fuzz.write(room, "records.csv", version, rows)
        with open(path, "rb") as file:
            data = file.read()
        if maker.random.random() < 0.3:
            data = maker.damaged(data.decode(), b",;!\"\n\r0123456789positvebhngM(){}[]+*- ")
            with open(path, "wb") as file:
                file.write(data)
            fault = file_fault(path)
            asked.ask(f"records {hexed(data)}", f"no {fault}" if fault else "yes")
            return asked
        asked.ask(f"records {hexed(data)}", "yes")
        ask_records(asked, maker, Rows(version, rows), path, [maker.moment() for _ in range(6)])
    return asked


def example_case(path):
    """A file of examples/, with more questions."""
    maker, asked = fuzz.Maker(os.path.basename(path)), Asked()
    with open(path, "rb") as file:
        data = file.read()
    header, *rows = csv.reader(io.StringIO(data.decode()))
    version = 1 if header[2] == "vehicle" else 2
    asked.ask(f"records {hexed(data)}", "yes")
    for _ in range(20):
        ask_records(asked, maker, Rows(version, rows), path, [maker.moment() for _ in range(6)])
    return asked


def names_case():
    """What needs no handle."""
    asked = Asked()
    for kind in [*range(13), 2**32 - 1]:
        names = {number: name for number, name in enumerate(TEXT_FAULTS, 1)}
        asked.ask(f"fault_name {kind}", f"yes {hexed(names[kind].encode())}" if kind in names else "range")
        names = {number: name for name, number in RECORD_FAULTS.items()}
        asked.ask(f"record_fault_name {kind}", f"yes {hexed(names[kind].encode())}" if kind in names else "range")
        names = {number: name for number, name in enumerate(HOURS_FAULTS, 1)}
        asked.ask(f"hours_fault_name {kind}", f"yes {hexed(names[kind].encode())}" if kind in names else "range")
    for when in [(1901, 1, 1, 0, 0, 0), (1970, 1, 1, 0, 0, 1), (2000, 2, 29, 23, 59, 59), (2699, 12, 31, 23, 59, 59)]:
        second = int((datetime.datetime(*when) - fuzz.EPOCH).total_seconds())
        asked.ask("second " + " ".join(map(str, when)), f"yes {second}")
        asked.ask(f"stamp {second}", f"yes {hexed(fuzz.stamp_of(second).encode())}")
    for when in ["1900 12 31 23 59 59", "2700 1 1 0 0 0", "2023 2 29 0 0 0", "2100 2 29 0 0 0", "2024 0 1 0 0 0",
                 "2024 13 1 0 0 0", "2024 4 31 0 0 0", "2024 1 0 0 0 0", "2024 1 1 24 0 0", "2024 1 1 0 60 0",
                 "2024 1 1 0 0 60", "9223372036854775807 1 1 0 0 0", "-9223372036854775808 1 1 0 0 0",
                 "2024 257 1 0 0 0", "2024 1 257 0 0 0"]:
        asked.ask(f"second {when}", "range")
    for second in [FIRST - 1, END, -2**63, 2**63 - 1]:
        asked.ask(f"stamp {second}", "range")
    with open(os.path.join(TOP, "CHANGELOG.md"), encoding="utf-8") as file:
        version = re.search(r"^## \[([0-9.]+)\]", file.read(), re.MULTILINE).group(1)
    asked.ask("version", f"yes {hexed(version.encode())}")
    asked.ask("close", "yes")
    asked.ask("close", "yes")
    for question in ["holds 0", "next 0 1", "ever 0", "spans 0 1", "canon", "words", "picture 2024", "holds_many 0", "count",
                     "element 0", "closed 1 0 1 0", "closed_many 0", "records_next 1 0 1 0 1", "closers 1 0 1 0",
                     "records_spans 1 0 1 0 1", "schedule 0 1 1", "share", "same 0"]:
        asked.ask(question, "kind")
    return asked


def main():
    is_random = sys.argv[1:2] == ["--random"]
    words = sys.argv[1 + is_random:]
    if len(words) not in (3, 4):
        sys.exit("usage: tests/library/questions.py [--random] QUESTIONS ANSWERS COUNT [SEED]")
    count, seed = int(words[2]), words[3] if len(words) > 3 else "1"
    examples = [path for path in sorted(glob.glob(os.path.join(TOP, "examples", "*.csv")))
                if not is_random and not re.search(r"(\.schedule|\.hours|/holidays)\.csv$", path)]
    with ThreadPoolExecutor(os.cpu_count()) as pool:
        cases = [names_case(), *pool.map(example_case, examples)]
        cases += pool.map(domain_case, (f"domain {seed} {number}" for number in range(count)))
        cases += pool.map(file_case, (f"file {seed} {number}" for number in range(count)))
        cases += pool.map(pair_case, (f"pair {seed} {number}" for number in range(count // 10)))
        cases += pool.map(hours_case, (f"hours {seed} {number}" for number in range(count // 10)))
        cases += [] if is_random else pool.map(worked_hours_case, ["texts.csv", "faults.csv"])
    with open(words[0], "w", encoding="ascii") as questions, open(words[1], "w", encoding="ascii") as answers:
        for case in cases:
            questions.writelines(f"{line}\n" for line in case.questions)
            answers.writelines(f"{line}\n" for line in case.answers)


if __name__ == "__main__":
    main()
