#!/usr/bin/env python3
"""The built program `gtdesk hours --holidays FILE --years F-L TEXT` beside the plain models of hours with holidays and
of domains.

For each row of tests/hours/holidays.csv, the domain that is printed is the one beside it and contains the same minutes of four
years as the hours by tests/known_model.py, and its warning is told; or its fault is. Then, for SECONDS, drawn texts, tables and
years: the domains are compared at the first and the last minutes of stretches and at random seconds, before, in and after the
years; and the faults of texts that are damaged. Run it after `rt ci`, which builds the programs; GTDESK in the environment names
another one.

Usage: tests/known_program.py [SECONDS [SEED]]    (without SECONDS no drawn texts; the same seed draws the same)
"""
import datetime
import os
import random
import sys
import tempfile
import time

import holidays_model
import hours
import hours_model
import known_model
import model
import wider_model
from hours import Failure, expect
from hours_program import NO_DOMAIN, PROGRAM, check_seconds, line_of, told

TABLES = os.path.join(hours.TOP, "holidays")
WARNING = f"{NO_DOMAIN}warning "
DAYS = ["PH", "SH", "PH +1 day", "PH -3 days", "Mo", "Tu-Fr", "Sa[1,-1]", "Su[2] +1 day", "Th"]
FRONTS = ["", "", "", "Dec", "Dec 24,25", "Jan-Mar,2025 May 1", "2025", "2025,2027", "week 10", "week 10,20-22:"]
FRONTS += ["Mar Su[-1]-Oct Su[1]", "Oct 15-Dec Su[1],Jan 6", "Dec 24,Mar Su[-1] +1 day-Oct 3,2025 May 1:"]
FRONTS += ["2025 Sep Fr[2] -3 days-Apr Mo[1]", "2025-2026 Oct Sa[2]-Jan 3", "easter", "easter -2 days,easter +1 day"]
FRONTS += ["Dec 24,easter +49 days,Jan 6", "2025,2026,easter:", "easter-Oct 31", "Jan 6-easter -47 days,2026 easter",
           "2025,2026 easter"]
FRONTS += ["Nov 1-easter", "Mar Su[-1]-easter +50 days", "2026 easter -2 days-2026 easter +1 day", "2025 easter-Oct 3,Dec 24:"]
FRONTS += ["easter,Dec 24,easter +1 day", "Mar Su[-1]-Oct Su[1],Dec 24,31",
           "Jan,easter,Apr Mo[1]-May 5,2025 Dec 24-Jan 3,easter -2 days"]
FRONTS += ["2025/2", "2025,2026/3:", "2011/2,2024 Dec 24", "2027/6 week 10", "2026/4 easter"]
TIMES = ["", "10:00-12:00", "22:00-04:00", "08:00-09:00,22:00-02:00"]
WORDS = DAYS + ["SH +1 day", "PH +0 days", "PH +Mo", "PH +1", ",", ";", ":", "-", "+", "24/7", "[", "]", "1", "off", "open",
                "easter"]
WORDS += ["Dec", "2025", "10:00-12:00", ",PH", ",SH", "PH,SH", "Mo,"]
WORDS += ["Su[1]", "Su[-1]-", "-Oct", "Mar Su[-1]-Oct Su[1]", "24-Jun Fr[2]", "easter +Mo", "easter +1", "-easter",
          "2026 easter", "easter-", "easter -Mo"]
WORDS += ["2025/2", "/2", "/8", ",2026/3"]


def run(text, table, years):
    """What the program prints with a table and years, either of which may be missing: the domain, or None, and what it tells."""
    words = (["--holidays", table] if table else []) + (["--years", years] if years else [])
    done = told("hours", "--strict", *words, "--", text)
    if done.returncode == 0:
        return done.stdout[:-1], done.stderr
    line = line_of(done, text)
    expect(done.returncode == 1 and done.stdout == "" and line.startswith(NO_DOMAIN), f"{text!r}: {done.returncode}, {line!r}")
    return None, line[len(NO_DOMAIN):-1]


def pair_of(years):
    """The first and the last year of `2025-2026` or `2025`."""
    return (int(years[:4]), int(years[-4:])) if years else None


def fault_of(text, rows, years):
    """The fault of a text by the model, or None."""
    try:
        wider_model.read(text.encode(), rows, pair_of(years), {})
    except hours_model.Fault as fault:
        return str(fault)
    except known_model.Uncovered as uncovered:
        return f"Uncovered at {uncovered.args[0]}: {holidays_model.date(uncovered.args[1])}"
    return None


def check_row(row, tables):
    """A worked row: its domain and its warning, or its fault."""
    text, rows = row["text"], tables.get(row["table"])
    path = os.path.join(TABLES, row["table"] + ".csv") if row["table"] else ""
    if row["fault"] and not path and not row["years"]:
        return
    domain, said = run(text, path, row["years"])
    if row["fault"]:
        expect(domain is None and said.split(": ")[0] == row["fault"], f"{text!r}: {said}")
        expect(said == fault_of(text, rows, row["years"]), f"{text!r}: {said}, by the model {fault_of(text, rows, row['years'])}")
        return
    expect(domain is not None and said == f"{WARNING}{row['warning']}\n", f"{text!r}: {domain}, {said!r}")
    expect(domain == row["domain"], f"{text!r}: {domain}, and not {row['domain']}")
    rules = known_model.read(text.encode(), rows, pair_of(row["years"]))
    opened = hours_model.open_minutes(rules, hours.FIRST, hours.DAYS)
    for offset in (0, 59):
        minutes = hours.domain_minutes(model.read(domain.encode()), offset)
        expect(minutes.to_bytes(len(opened), "little") == opened, f"{text}: {domain} differs from the hours")


def drawn_table(chance):
    """Rows of a table, of which holidays are covered, and its years."""
    first = chance.choice((1802, 2024, 2025))
    last = first + chance.choice((0, 1, 2))
    begin, end = holidays_model.number(first, 1, 1), holidays_model.number(last, 12, 31)
    rows = [(begin, end + chance.choice((0, 0, 0, -1)), kind, True)
            for kind in chance.choice((("PH", "SH"), ("PH", "SH"), ("PH",)))]
    for kind in {row[2] for row in rows}:
        for _ in range(chance.randrange(8)):
            day = chance.choice((begin, chance.randrange(begin, end)))
            length = chance.choice((0, 0, 1, 12))
            if day + length <= min(row[1] for row in rows if row[2] == kind):
                rows.append((day, day + length, kind, False))
    return rows, f"{first}-{last}"


def written_table(rows, folder):
    path = os.path.join(folder, "table.csv")
    with open(path, "w", encoding="ascii") as file:
        file.write("first,last,kind,name\n")
        for first, last, kind, covers in rows:
            file.write(f"{holidays_model.date(first)},{holidays_model.date(last)},{kind}{'-covered' if covers else ''},\n")
    return path


def drawn_rule(chance):
    days = chance.choice(DAYS)
    for _ in range(chance.choice((0, 0, 1, 2))):
        days += chance.choice((",", ",", ",", " ")) + chance.choice(DAYS)
    words = [chance.choice(FRONTS), chance.choice((days, days, days, "")), chance.choice(TIMES), chance.choice(("", "", "off"))]
    return " ".join(word for word in words if word) or "24/7"


def drawn_text(chance):
    text = drawn_rule(chance)
    for _ in range(chance.choice((0, 1, 1, 2))):
        text += chance.choice(("; ", "; ", ", ", ";", ",")) + drawn_rule(chance)
    return text


def damaged(text, chance):
    at = chance.randrange(len(text) + 1)
    return chance.choice((text[:at], text[:at] + chance.choice(WORDS) + text[at:], text[:at] + " " + chance.choice(WORDS)))


def check_drawn(chance, folder):
    """A drawn text, table and years. Answers whether there is a domain to compare."""
    rows, years = drawn_table(chance)
    text, path = drawn_text(chance), written_table(rows, folder)
    broken = damaged(text, chance)
    for candidate, table, asked in ((broken, path, years), (text, "", years), (text, path, "")):
        fault, found = fault_of(candidate, rows if table else None, asked), run(candidate, table, asked)
        same = found[0] is not None or found[1] == "TooMany at 0" if fault is None else found == (None, fault)
        expect(same, f"{candidate!r} {years}: {found}, by the model {fault}")
    domain, said = run(text, path, years)
    fault = fault_of(text, rows, years)
    if domain is None:
        expect(said == (fault or "TooMany at 0"), f"{text!r} {years}: {said}, by the model {fault}")
        return False
    rules, expression = known_model.read(text.encode(), rows, pair_of(years)), model.read(domain.encode())
    first = datetime.date(int(years[:4]) + chance.choice((-1, 0, 0, 1, 3)), chance.randint(1, 12), chance.randint(1, 28))
    check_seconds(chance, f"{text} {years}", rules, expression, first)
    return True


def tried(name, worked, check_row, check_drawn, fewest):
    """Checks the worked rows, and for as many seconds as are asked for drawn texts, of which one in so many at least has a
    domain. Prints what failed, and the counts; answers whether something failed."""
    if not os.path.exists(PROGRAM):
        sys.exit(f"no program at {PROGRAM}: run rt ci first")
    seconds = float(sys.argv[1]) if len(sys.argv) > 1 else 0
    seed = int(sys.argv[2]) if len(sys.argv) == 3 else random.SystemRandom().randrange(10**9)
    chance, tables = random.Random(seed), holidays_model.tables()
    failed, rounds, domains = 0, 0, 0
    for row in worked:
        try:
            check_row(row, tables)
        except (Failure, hours_model.Fault, model.Fault) as failure:
            print(f"FAILED {failure}")
            failed += 1
    end = time.monotonic() + seconds
    with tempfile.TemporaryDirectory() as folder:
        while time.monotonic() < end and not failed:
            try:
                domains += check_drawn(chance, folder)
                rounds += 1
            except (Failure, hours_model.Fault, model.Fault) as failure:
                print(f"FAILED with seed {seed}, in round {rounds + 1}: {failure}")
                failed += 1
    if fewest * domains < rounds:
        print(f"FAILED only {domains} of {rounds} drawn texts have a domain")
        failed += 1
    print(f"{name}: {len(worked) + rounds - failed} passed, {failed} failed")
    return failed > 0


if __name__ == "__main__":
    sys.exit(tried("known_program", hours.rows_of("holidays.csv"), check_row, check_drawn, 3))
