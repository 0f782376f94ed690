#!/usr/bin/env python3
"""`gtdesk faults --warn` against docs/WARNINGS.md: its tables, and a plain model of its rules.

Each rule's row of the tables is told and the two close ones are not, with the words that the tables give. Then come random record
files, whose warnings the model finds in the expressions of tests/model.py, by the conditions as the page says them, and in their
seconds. Those of a domain without a year are taken from 35 years, in which the calendar of 28 years comes again; those of one that
ends by its years from the years that it gives and the two after each, since no duration here is longer than a year. With
`--allow` rules are turned off, and with `--at` some rows are over. Of the domains of docs/GALLERY.md and the files of examples/
none is warned of. Run it after `rt ci`, which builds the program.

Usage: tests/warned.py [COUNT [SEED]]
"""
import datetime
import os
import random
import re
import subprocess
import sys
import tempfile

import model
import same
from checks import Checks

PAGE = os.path.join(same.TOP, "docs", "WARNINGS.md")
AT = datetime.date(2025, 7, 1)


def midnight(day):
    return same.number(datetime.datetime.combine(day, datetime.time()))


EARLIEST, FIRST, ASKED, LATER, END = map(midnight, (datetime.date(1901, 1, 1), datetime.date(2020, 1, 1), AT,
                                                    AT + datetime.timedelta(30), datetime.date(2055, 1, 1)))
LAST_SURE_YEAR = 2598
HEADER = "element,direction,vehicles,domain\n"
NEEDED = 20
# Domains whose words the gallery shows: one holds always, and one is easily mistaken.
WORDS_ALONE = {"(h10){h50}", "(M5h10){h2}"}


# ---- the page

def cells(line):
    return [cell.strip() for cell in line.strip().strip("|").split(" | ")]


def quoted(cell):
    return re.findall(r"`([^`]*)`", cell)


def tables():
    """The rows of the tables of the page, by the first cell of their headers."""
    found, head = {}, None
    with open(PAGE) as page:
        for line in page:
            if not line.startswith("|"):
                head = None
            elif head is None:
                head = tuple(cells(line))
                found[head] = []
            elif not line.startswith("|---"):
                found[head].append(cells(line))
    return list(found.values())


DOMAINS, ROWS = tables()
SAYS = {quoted(row[0])[0]: quoted(row[2])[0] for row in DOMAINS + ROWS}
PERHAPS = {quoted(row[0])[0]: quoted(row[3])[0] for row in DOMAINS}
WRITTEN = {quoted(row[0])[0]: quoted(row[1])[0] for row in DOMAINS + ROWS}
CLOSE = {quoted(row[0])[0]: quoted(row[-1]) for row in DOMAINS + ROWS}
NAMES = list(SAYS)


# ---- the conditions of the page, of the fields of a start and the units of a duration

def numbers(fields, letter):
    return [int(field[1:]) for field in fields if field[0] == letter]


class Basic:
    def __init__(self, basic):
        _, self.start, duration = basic
        self.letters = {field[0] for field in self.start}
        self.weekdays = sorted(set(numbers(self.start, "t")))
        unit = {letter: sum(numbers(duration, letter)) for letter in "yMwdhms"}
        self.unit = unit
        self.months, self.days = 12 * unit["y"] + unit["M"], 7 * unit["w"] + unit["d"]
        self.clock = 3600 * unit["h"] + 60 * unit["m"] + unit["s"]
        clocks = model.clocks(self.start)
        self.begin, self.last = min(clocks), max(clocks)

    def has(self, letters):
        return bool(self.letters & set(letters))

    def is_for(self, months=0, days=0, clock=0):
        return (self.months, self.days, self.clock) == (months, days, clock)

    def stays(self):
        return self.months == 0 and self.last + model.DAY * self.days + self.clock <= model.DAY

    def has_one_time(self):
        return self.begin == self.last

    def only_clock(self):
        return self.months == 0 and self.days == 0

    def is_daily(self):
        return self.has("h") and self.letters <= set("hms")

    def is_month(self):
        return self.has("M") and self.letters <= set("yM")

    def is_night(self):
        return (self.is_daily() and self.only_clock() and self.clock <= model.DAY
                and self.begin + self.clock > model.DAY)


def leap(year):
    return year % 4 == 0 and year % 100 != 0 or year % 400 == 0


def of_basic(basic, whole):
    """The rules of a basic domain."""
    b = Basic(basic)
    days_alone = b.has("t") and not b.has("dfl")
    day = numbers(b.start, "d")
    month = numbers(b.start, "M")
    year = numbers(b.start, "y")
    holds = {
        "first-of-month": b.is_month() and b.is_for(days=1),
        "each-day-of-month": b.has("M") and b.has("hms") and not b.has("wdtfl") and b.stays(),
        "each-day-of-year": b.has("y") and b.has("hms") and not b.has("Mwdtfl") and b.stays(),
        "each-hour": whole and b.has("m") and not b.has("h"),
        "sunday-to-thursday": days_alone and (b.weekdays == [1] and not b.has("hms") and b.is_for(days=5)
                                              or b.weekdays == [1, 2, 3, 4, 5] and b.stays()),
        "monday-and-friday": days_alone and b.weekdays == [2, 6] and b.stays(),
        "sunday-and-monday": days_alone and b.weekdays == [1] and not b.has("hms") and b.is_for(days=2),
        "minutes": (b.has("yM") and not b.has("hms") and b.only_clock() and b.unit["m"] > 0
                    and b.unit["h"] == b.unit["s"] == 0),
        "end-as-duration": (whole and b.is_daily() and b.has_one_time() and b.only_clock() and 0 < b.begin < b.clock <= b.begin + 3 * 3600
                            and b.stays()),
        "end-past-midnight": (b.has("h") and b.has_one_time() and b.only_clock() and b.begin < b.clock < model.DAY
                              and b.begin + b.clock > model.DAY),
        "weekday-on-date": bool(day) and day[0] <= 5 and len(b.weekdays) == 1,
        "days-of-year": (bool(year) and b.is_for(days=365 if leap(year[0]) else 366) and b.letters <= set("yMd")
                         and month in ([], [1]) and day in ([], [1])),
        "thirty-first": whole and day == [31] and not b.has("Mw"),
        "no-such-day": bool(day) and bool(month) and day[0] > [31, 29, 31, 30, 31, 30, 31, 31, 30, 31, 30, 31][month[0] - 1],
    }
    return [rule for rule in NAMES if holds.get(rule)]


def is_basic(part):
    return part[0] == "basic"


def one_and_other(one, other, left, right):
    if not (is_basic(left) and is_basic(right)):
        return False
    left, right = Basic(left), Basic(right)
    return one(left) and other(right) or other(left) and one(right)


def are_times(part):
    """Basic domains of times alone, joined by `+`."""
    if is_basic(part):
        return Basic(part).is_daily()
    return part[0] == "+" and are_times(part[1]) and are_times(part[2])


def is_product(part):
    return part[0] == "*" and one_and_other(Basic.is_daily, lambda b: not b.has("hms"), part[1], part[2])


def of_join(part):
    operator, left, right = part
    if operator == "*":
        if one_and_other(Basic.is_night, lambda b: (b.has("t") and not b.has("dflhms") and b.months == 0 and b.days > 0
                                                    and b.clock == 0), left, right):
            return ["days-cut-nights"]
        if one_and_other(Basic.is_night, lambda b: (b.is_month() and b.months > 0 and b.days == 0 and b.clock == 0),
                         left, right):
            return ["season-cuts-nights"]
    if operator == "+" and (are_times(left) and is_product(right) or is_product(left) and are_times(right)):
        return ["product-first"]
    return []


def count(part):
    return 1 if is_basic(part) else count(part[1]) + count(part[2])


def first(part):
    return part if is_basic(part) else first(part[1])


def told(part, before=0, whole=True):
    """What is told of a part of a domain: rules, each with the first basic domain of the part and its number."""
    here = of_basic(part, whole) if is_basic(part) else of_join(part)
    found = [(rule, before, first(part)) for rule in here]
    if not is_basic(part):
        found += told(part[1], before, False) + told(part[2], before + count(part[1]), False)
    return found


def years(part):
    """The years that the starts of an expression give."""
    return set(numbers(part[1], "y")) if is_basic(part) else years(part[1]) | years(part[2])


def ends_by_its_years(part):
    if is_basic(part):
        return any(year <= LAST_SURE_YEAR for year in years(part))
    left, right = map(ends_by_its_years, part[1:])
    return {"+": left and right, "*": left or right, "-": left}[part[0]]


SPANS = {}


def spans(part, begin, end):
    """The seconds of an expression between two."""
    if (part, begin, end) not in SPANS:
        if is_basic(part):
            made = same.merged(same.basic_spans(part[1], part[2], begin, end))
        else:
            made = same.joined(part[0], spans(part[1], begin, end), spans(part[2], begin, end))
        clipped = [(max(first, begin), min(last, end)) for first, last in made]
        SPANS[part, begin, end] = [list(span) for span in clipped if span[0] < span[1]]
    return SPANS[part, begin, end]


def near(year):
    """The seconds from some days before a year to two years after it."""
    return midnight(datetime.date(year, 1, 1)) - 10 * model.DAY, midnight(datetime.date(year + 3, 1, 1))


def of_row(part, dated):
    given = years(part)
    if given and not ends_by_its_years(part):
        return []
    if given:
        ends = [span[1] for year in given for span in spans(part, *near(year))]
        last = max(ends, default=EARLIEST)
        rules = ["never-holds"] if last <= EARLIEST else []
    else:
        found = spans(part, FIRST, END)
        last = END if found else EARLIEST
        rules = ["never-holds"] if not found else ["always-holds"] if found == [[FIRST, END]] else []
    if dated:
        rules += ["past"] if last <= ASKED else ["ends-soon"] if last <= LATER else []
    return rules


# ---- the lines

def clock(second):
    hours, minutes, seconds = second // 3600, second // 60 % 60, second % 60
    return f"{hours:02}:{minutes:02}" + (f":{seconds:02}" if seconds else "")


def words(rule, basic):
    """What a rule says of a part that begins with this basic domain, and what may be meant."""
    b = Basic(basic)
    says, perhaps = SAYS[rule], PERHAPS.get(rule)
    if rule in ("end-as-duration", "end-past-midnight"):
        says = re.sub(r"\d\d:\d\d", clock((b.begin + b.clock) % model.DAY), says)
        perhaps = re.sub(r"\d\d:\d\d", clock(b.clock), perhaps)
    return says, perhaps


def shown(field, place):
    """A field around a place, with a caret."""
    if len(field) > 100:
        before, after = field[:place], field[place:]
        if len(before) > 40:
            before = "..." + before[-40:]
        if len(after) > 50:
            after = after[:50] + "..."
        field, place = before + after, len(before)
    return f"    {field}\n    {' ' * place}^\n"


def lines_of(head, text, off, dated):
    """The lines of a row with this domain."""
    part = model.read(text.encode())
    opened = [at for at, byte in enumerate(text) if byte == "("]
    found = told(part) + [(rule, 0, first(part)) for rule in of_row(part, dated)]
    printed = ""
    for rule, before, basic in found:
        if rule not in off:
            says, perhaps = words(rule, basic)
            printed += f"{head}{rule}: {says}\n{shown(text, opened[before])}"
            printed += f"    perhaps:  {perhaps}\n" if perhaps else ""
    return printed


def codes(column):
    listed = column.lstrip("!")
    return set() if listed == "0" else {int(code) for code in listed.split(";")}


def lone(path, rows, off):
    naming = [codes(row[2]) for row in rows]
    printed = ""
    if "lone-code" in off or sum(map(bool, naming)) < NEEDED:
        return printed
    for code in range(1, 100):
        at = [number for number, named in enumerate(naming) if code in named]
        if len(at) == 1:
            said = SAYS["lone-code"].replace("31", str(code))
            printed += f"{path}:{at[0] + 2}: row {at[0] + 1}: lone-code: {said}\n{shown(rows[at[0]][2], 0)}"
    return printed


def expected(path, rows, off, dated):
    printed = ""
    for at, row in enumerate(rows):
        if row[3]:
            printed += lines_of(f"{path}:{at + 2}: row {at + 1}: ", row[3], off, dated)
    return printed + lone(path, rows, off)


# ---- random files

STARTS = ["M5", "M5h10", "M6h22", "y2025h7", "y2024", "y2023M1d1", "y2025M7d30", "y2025M6d30", "m30", "t1", "t2t6", "t1t2t3t4t5",
          "t2", "t7", "M4d1", "h7", "h16", "h22", "h6m30", "h23m59s30", "d1t2", "d13t6", "d31", "M2d30", "M2d29", "h0", "M7",
          "f12", "l16", "w23", "y2025M7d31", "t1M5", "d5t3h8", "M4d31", "y2024t6", "M5d2h16s5", "y2025h23s5", "M5m30", "y2025M5s10",
          "y2025m45", "y2025t2t6s5", "y2500M1d1", "y2598M12d31", "y2598w52", "y2599", "y2750", "y1850"]
DURATIONS = ["d1", "h2", "h9", "d5", "d2", "m6", "m15", "h18", "h8", "h6", "M1", "M2", "d365", "d366", "y1", "h24", "s0", "m90",
             "w1", "h9m59", "m0s1", "d0h9", "h1m30s15", "M6"]


def random_basic(rng):
    return "(" + rng.choice(STARTS) + "){" + rng.choice(DURATIONS) + "}"


def random_text(rng):
    kind = rng.random()
    if kind < 0.4:
        return random_basic(rng)
    if kind < 0.5:
        return rng.choice(list(WRITTEN.values())[:-1])
    if kind < 0.6:
        return rng.choice(rng.choice(list(CLOSE.values())[:-1])[:1])
    if kind < 0.7:
        days, night = "(" + rng.choice(["t6", "t2", "M7", "y2025M7", "t6h1"]) + "){" + rng.choice(["d1", "d5", "M2"]) + "}", None
        night = "(" + rng.choice(["h22", "h23", "h20"]) + "){" + rng.choice(["h8", "h4", "h24", "h6"]) + "}"
        return rng.choice([f"{days}*{night}", f"[{night}] * [{days}]", f"{night}+{night}*{days}", f"{days}*{night}+{night}"])
    operator = rng.choice("+*-")
    left, right = random_text(rng), random_text(rng)
    text = f"{left}{operator}{right}" if rng.random() < 0.5 else f"[{left}] {operator} [{right}]"
    return text if text.count("(") <= 6 else random_basic(rng)


def random_file(rng):
    listed = rng.sample(["0", "11", "12", "11;12", "!11", "!31", "1;2;31", "99", "!12;99"], rng.randint(1, 5))
    rows = []
    for _ in range(rng.choice([0, 1, 3, 12, NEEDED - 1, NEEDED, NEEDED + 3])):
        again = rows and rng.random() < 0.4
        rows.append(("7", "both", rng.choice(listed), rng.choice(rows)[3] if again else rng.choice(["", random_text(rng)])))
    return rows


def write(path, rows):
    with open(path, "w") as file:
        file.write(HEADER + "".join(",".join(row) + "\n" for row in rows))


def run(path, off=(), dated=False):
    asked = ["--allow", ",".join(off)] if off else []
    asked += ["--at", AT.isoformat()] if dated else []
    done = subprocess.run([same.GTDESK, "faults", "--warn", *asked, path], capture_output=True, timeout=300)
    return done.stdout.decode(), done.stderr.decode(), done.returncode


def rules_in(printed):
    return re.findall(r"^[^ ]*: row \d+: ([a-z-]+): ", printed, re.M)


# ---- the checks

def check_page(checks, path):
    """Each rule's row of the tables is told, as the page says, and its close ones are not."""
    for rule in NAMES[:-1]:
        dated = rule in ("past", "ends-soon")
        rows = [("7", "both", "0", WRITTEN[rule])]
        write(path, rows)
        printed, errors, status = run(path, dated=dated)
        checks(printed == expected(path, rows, (), dated) and rule in rules_in(printed) and (errors, status) == ("", 0),
               f"{rule}: {WRITTEN[rule]}: {printed!r}")
        off = run(path, [rule], dated)[0]
        checks(rules_in(off) == [name for name in rules_in(printed) if name != rule], f"{rule} turned off: {off!r}")
        checks(len(CLOSE[rule]) == 2, f"{rule}: {CLOSE[rule]}")
        for text in CLOSE[rule]:
            rows = [("7", "both", "0", text)]
            write(path, rows)
            printed = run(path, dated=dated)[0]
            checks(rule not in rules_in(printed) and printed == expected(path, rows, (), dated), f"{rule}: {text}: {printed!r}")


def check_codes(checks, path):
    """A code that one row names is told from 20 rows on that name one, and a code of two rows is not."""
    for other, alone, wanted in ((19, 1, True), (18, 1, False), (18, 2, False)):
        rows = [("7", "both", "11", "")] * other + [("7", "both", "31", "")] * alone
        write(path, rows)
        printed = run(path)[0]
        checks(printed == lone(path, rows, ()) and ("lone-code" in rules_in(printed)) == wanted, f"{other}, {alone}: {printed!r}")


def gallery():
    """The domains in the tables of the gallery."""
    found = []
    with open(os.path.join(same.TOP, "docs", "GALLERY.md")) as page:
        for text in quoted("".join(line for line in page if line.startswith("| "))):
            try:
                model.read(text.encode())
                found.append(text)
            except model.Fault:
                pass
    return found


def check_innocent(checks, path):
    """Of the domains of the gallery, but for two whose words it shows, and of the example files, none is warned of."""
    found = gallery()
    checks(len(set(found) - WORDS_ALONE) >= 50 and WORDS_ALONE <= set(found), f"{len(found)} domains")
    for text in found:
        write(path, [("7", "both", "0", text)])
        printed = run(path)
        checks((printed == ("", "", 0)) != (text in WORDS_ALONE), f"{text}: {printed}")
    for name in ("restrictions.csv", "town.csv", "pass.csv", "works.csv"):
        checks(run(os.path.join(same.TOP, "examples", name)) == ("", "", 0), name)


def check_random(checks, path, number, seed):
    for at in range(number):
        rng = random.Random(f"{seed}/{at}")
        rows = random_file(rng)
        off = rng.sample(NAMES, rng.choice([0, 0, 1, 3]))
        dated = rng.random() < 0.5
        write(path, rows)
        printed = run(path, off, dated)
        wanted = (expected(path, rows, off, dated), "", 0)
        checks(printed == wanted, f"{seed}/{at}: {rows}, {off}, {dated}: {printed}; wanted {wanted}")


def main(arguments):
    number, seed = int(arguments[0]) if arguments else 300, int(arguments[1]) if arguments[1:] else 1
    checks = Checks("warned")
    with tempfile.TemporaryDirectory() as folder:
        path = os.path.join(folder, "rows.csv")
        check_page(checks, path)
        check_codes(checks, path)
        check_innocent(checks, path)
        check_random(checks, path, number, seed)
    return checks.end()


if __name__ == "__main__":
    sys.exit(main(sys.argv[1:]))
