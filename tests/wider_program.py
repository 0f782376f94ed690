#!/usr/bin/env python3
"""The built program `gtdesk hours` with all its options beside the plain models of hours and of domains.

For each row of moving.csv, easter.csv, years.csv, remarks.csv and moments.csv in tests/hours, the domain that is printed contains
the same minutes of four years as the hours by tests/wider_model.py, and as the domain beside them, and its warnings are told; or
its fault is. Then, for SECONDS, drawn texts, tables, years and options: rules with holidays, moments and comments, unknown rules
and fallback rules. The domains are compared at the first and the last minutes of stretches and at random seconds, and the
faults of texts that are damaged or for which not all is given. The text that `gtdesk mend hours` prints means the same, and
mended again it is the same. Run it after `rt ci`, which builds the programs; GTDESK in the environment names another one.

Usage: tests/wider_program.py [SECONDS [SEED]]    (without SECONDS no drawn texts; the same seed draws the same)
"""
import datetime
import os
import sys

import holidays_model
import hours
import hours_model
import known_model
import known_program
import model
import moments
import wider_model
from hours import expect
from hours_program import NEEDS, NO_DOMAIN, line_of, told

TABLES = os.path.join(hours.TOP, "holidays")
STATES = ["", "", "", "", " off", " open", ' "by appointment"', ' open "a, b; c"', ' off "a || b"', " unknown", ' unknown "ask"']
LINKS = ["; ", "; ", ";", ", ", " || ", "||"]
WORDS = known_program.WORDS + list(moments.WORDS) + ["unknown", "||", "|", '"x"', '"a; b"', '"', '""']


def words_of(options):
    """Options as words, as the program takes them."""
    found = []
    for name, value in options.items():
        found += ["--" + name.replace(" ", "-"), str(value) if name == "points" else f"{value // 60:02}:{value % 60:02}"]
    return found


def run(text, table, years, options):
    """What the program prints with a table, years and options: the domain, or None, and what it tells."""
    words = (["--holidays", table] if table else []) + (["--years", years] if years else []) + words_of(options)
    done = told("hours", "--strict", *words, "--", text)
    if done.returncode == 0:
        return done.stdout[:-1], done.stderr
    line = line_of(done, text)
    expect(done.returncode == 1 and done.stdout == "" and line.startswith(NO_DOMAIN), f"{text!r}: {done.returncode}, {line!r}")
    return None, line[len(NO_DOMAIN):-1]


def read(text, rows, years, options):
    """The rules of a text by the model, or None, and its fault."""
    try:
        return wider_model.read(text.encode(), rows, known_program.pair_of(years), options), None
    except hours_model.Fault as fault:
        return None, str(fault)
    except known_model.Uncovered as uncovered:
        return None, f"Uncovered at {uncovered.args[0]}: {holidays_model.date(uncovered.args[1])}"


def warned(text, rules, years):
    lines = wider_model.warnings(text.encode(), rules, known_program.pair_of(years))
    return "".join(f"{NO_DOMAIN}warning {line}\n" for line in lines)


def without_hides(lines):
    """Warnings, without those of rules that hide hours, which tests/hours_program.py looks at."""
    return "".join(line for line in lines.splitlines(keepends=True) if " warning Hides at " not in line)


def open_minutes(rules, first, count):
    """One byte for each minute of `count` days, 1 if it is open."""
    start = (first - hours_model.EPOCH).days * 86400
    return bytes(wider_model.state(rules, start + 60 * minute) is True for minute in range(hours_model.DAY * count))


def check_row(row, tables):
    """A worked row: its domain and its warnings, or its fault."""
    text, years, table = row["text"], row.get("years", ""), row.get("table", "")
    options, rows = moments.options_of(row.get("options", "")), tables.get(table)
    domain, said = run(text, os.path.join(TABLES, table + ".csv") if table else "", years, options)
    rules, fault = read(text, rows, years, options)
    if row["fault"]:
        expect(domain is None and said == row["fault"] and said == fault, f"{text!r}: {said}, by the model {fault}")
        return
    expect(domain is not None and without_hides(said) == warned(text, rules, years), f"{text!r}: {domain}, {said!r}")
    if "warnings" in row:
        beside = "".join(f"{NO_DOMAIN}warning {line}\n" for line in filter(None, row["warnings"].split("; ")))
        expect(without_hides(said) == beside, f"{text!r}: {said!r}, and not {beside!r}")
    minutes = hours.domain_minutes(model.read(domain.encode()), 0)
    beside = hours.domain_minutes(model.read(row["domain"].encode()), 0)
    expect(minutes == beside, f"{text}: {domain} and {row['domain']} differ")
    opened = open_minutes(rules, hours.FIRST, 40)
    expect((minutes & ((1 << (8 * len(opened))) - 1)).to_bytes(len(opened), "little") == opened, f"{text}: {domain} differs")


def drawn_rule(chance):
    """A rule with days, holidays or none, with moments or times or none, and with a state."""
    days = known_program.drawn_rule(chance).removesuffix(" off") if chance.random() < 0.5 else chance.choice(moments.DAYS)
    times = ",".join(moments.time_of(chance) for _ in range(chance.choice((0, 0, 1, 1, 2))))
    if times and (days == "24/7" or days[-1:].isdigit() and ":" in days):
        times = ""
    return (" ".join(word for word in (days, times) if word) + chance.choice(STATES)).strip() or "24/7"


def drawn_text(chance):
    text = drawn_rule(chance)
    for _ in range(chance.choice((0, 1, 1, 2))):
        text += chance.choice(LINKS) + drawn_rule(chance)
    return text


def damaged(text, chance):
    at = chance.randrange(len(text) + 1)
    return chance.choice((text[:at], text[:at] + chance.choice(WORDS) + text[at:], text[:at] + " " + chance.choice(WORDS)))


def is_same(found, fault, text):
    """Whether the program has the fault of the model, or none. Where a comment that does not end stands in a range of times, it
    is told behind another fault."""
    if fault is None:
        return found[0] is not None or found[1] == "TooMany at 0"
    in_times = fault.startswith("BadToken at ") and text[int(fault[12:]):][:1] == '"'
    return found == (None, fault) or found[0] is None and in_times


def check_seconds(chance, name, rules, domain, first):
    """The same seconds from a date on, at random and around those of both."""
    start = (first - hours_model.EPOCH).days * 86400
    for _ in range(60):
        second = start + chance.choice((chance.randrange(86400 * 40), 60 * chance.randrange(1440 * 40)))
        opened = wider_model.state(rules, second) is True
        expect(model.contains(domain, second) == opened, f"{name}: second {second} is {'open' if opened else 'closed'}")


def check_mended(chance, text, rules, given):
    """The mended text of a text that is not at fault itself: with what is given it says the same of seconds, or has such a fault,
    too; mended again it is the same. A strict text that is at fault may be written loosely."""
    done, fault = told("mend", "hours", "--", text), read(text, None, "", {})[1]
    if fault and not NEEDS.match(NO_DOMAIN + fault):
        return
    mended = done.stdout[:-1]
    again, (other, kind) = told("mend", "hours", "--", mended), read(mended, *given)
    expect((done.returncode, again.returncode, again.stdout) == (0, 0, done.stdout), f"{text!r}: {done}, again {again}")
    expect((other is None) == (rules is None), f"{text!r}: {mended!r} has {kind}")
    for _ in range(60 if rules else 0):
        second = (datetime.date(int(given[1][:4]), 1, 1) - hours_model.EPOCH).days * 86400 + 60 * chance.randrange(1440 * 800)
        said = wider_model.state(rules, second)
        expect(said == wider_model.state(other, second), f"{text!r}: {mended!r} differs at {second}")


def check_drawn(chance, folder):
    """A drawn text with a table, years and options. Answers whether there is a domain to compare."""
    rows, years = known_program.drawn_table(chance)
    text, path, options = drawn_text(chance), known_program.written_table(rows, folder), moments.drawn_options(chance)
    broken = damaged(text, chance)
    for candidate, table, asked in ((broken, path, years), (text, "", years), (text, path, "")):
        found = run(candidate, table, asked, options)
        rules, fault = read(candidate, rows if table else None, asked, options)
        expect(is_same(found, fault, candidate), f"{candidate!r} {years} {options}: {found}, by the model {fault}")
    domain, said = run(text, path, years, options)
    rules, fault = read(text, rows, years, options)
    expect(is_same((domain, said), fault, text), f"{text!r} {years} {options}: {said}, by the model {fault}")
    check_mended(chance, text, rules, (rows, years, options))
    if domain is None:
        return False
    expect(without_hides(said) == warned(text, rules, years), f"{text!r}: {said!r}, by the model {warned(text, rules, years)!r}")
    first = datetime.date(int(years[:4]) + chance.choice((-1, 0, 0, 1, 3)), chance.randint(1, 12), chance.randint(1, 28))
    check_seconds(chance, f"{text} {years} {options}", rules, model.read(domain.encode()), first)
    return True


if __name__ == "__main__":
    worked_rows = [row for name in ("moving", "easter", "years", "remarks", "moments") for row in hours.rows_of(f"{name}.csv")]
    sys.exit(known_program.tried("wider_program", worked_rows, check_row, check_drawn, 6))
