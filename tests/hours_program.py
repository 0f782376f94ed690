#!/usr/bin/env python3
"""The built program `gtdesk hours TEXT` beside the plain models of hours and of domains.

For each row of tests/hours/texts.csv, the domain that is printed contains the same minutes of four years as the hours by the
model of hours, and as the domain beside them. For each row of tests/hours/faults.csv, that fault is printed, and nothing else.
These texts are read with `--strict`, and printed alike without it. For each row of tests/hours/hidden.csv, the rules that hide
hours are told with the hours beside them. For each row of tests/hours/loose.csv, `gtdesk hours` prints the domain of its mended
text and tells its warnings, and `gtdesk mend hours` prints that text; or it is no plain hours, and `gtdesk hours` with the times
of the sun reads the mended text, or has a fault by the wider model, and `gtdesk mend hours` prints a text with the same domain
that stays as it is when it is mended again, or tells that fault. Whatever the text, the warnings that are told of plain hours
are those by the model of hidden hours (tests/hidden_model.py).
For these texts, for those of tests/rows/desk_hour*.rows that have a domain, and for texts of each form (every range of weekdays,
months, weeks and so on that differs in how it is translated), `gtdesk hours --of DOMAIN` answers hours, whose domain is the same
again; but not for those with offsets of days, which it does not look for. Then, for SECONDS, random texts of the grammar, whose
domains are compared at random seconds and around each change and lead back to hours, and damaged ones, whose faults are compared.
Run it after `rt ci`, which builds the programs; GTDESK in the environment names another one.

Usage: tests/hours_program.py [SECONDS [SEED]]    (without SECONDS no random texts; the same seed makes the same texts)
"""
import calendar
import concurrent.futures
import datetime
import glob
import os
import random
import re
import subprocess
import sys
import time

import hidden_model
import hours
import hours_model
import loose_model
import model
import rows
import wider_model
from hours import Failure, expect

PROGRAM = rows.PROGRAMS["gtdesk"]
NO_DOMAIN = "gtdesk: TEXT: "
NEEDS = re.compile(NO_DOMAIN + "(?:Holidays|Years|OpenEnd|Point|SunTime|Unknown) at ")
LEAP_YEAR = 2000
OFFSET = re.compile(r"\bdays?\b", re.I)
SUN = [word for name, at in hours.SUN.items() for word in (f"--{name}", f"{at // 60:02}:{at % 60:02}")]
FEWEST_ROWS, FEWEST_FORMS = 100, 1000
DAYS, CHANGES, SAMPLES = 120, 60, 60


def told(*words):
    return subprocess.run([PROGRAM, *words], capture_output=True, text=True, check=False)


def line_of(done, text):
    """The line on standard error, without the text that stands below with a caret."""
    return rows.without_text(done.stderr.encode(), [text.encode()]).decode()


def warned(text, german=False):
    """The lines of the warnings of a text, by the model."""
    return "".join(f"{NO_DOMAIN}warning {line}\n" for line in hidden_model.told(text.encode(), german))


def run(text):
    """What the program prints for a text that is written strictly: the domain, or None and the fault."""
    done = told("hours", "--strict", "--", text)
    if done.returncode == 0:
        expect(done.stderr == warned(text) and done.stdout.endswith("\n"), f"{text!r}: {done.stdout!r}, {done.stderr!r}")
        return done.stdout[:-1], None
    line = line_of(done, text)
    expect(done.returncode == 1 and done.stdout == "" and line.startswith(NO_DOMAIN), f"{text!r}: {done.returncode}, {line!r}")
    return None, line[len(NO_DOMAIN):-1]


def check_text(row):
    """The domain that is printed, the one beside the hours, and the hours themselves: the same minutes of four years."""
    text = row["hours"]
    domain, fault = run(text)
    expect(fault is None, f"{text}: {fault}")
    loosely = told("hours", "--", text)
    expect((loosely.returncode, loosely.stdout, loosely.stderr) == (0, domain + "\n", warned(text)), f"{text}: {loosely}")
    opened = hours_model.open_minutes(hours_model.read(text.encode()), hours.FIRST, hours.DAYS)
    printed, beside = model.read(domain.encode()), model.read(row["domain"].encode())
    check_back(text, domain)
    for offset in (0, 59):
        minutes = hours.domain_minutes(printed, offset)
        expect(minutes == hours.domain_minutes(beside, offset), f"{text}: {domain} and {row['domain']} differ")
        expect(minutes.to_bytes(len(opened), "little") == opened, f"{text}: {domain} differs from the hours")


def fault_of(text):
    """The fault of a text for which no options are given, or None."""
    try:
        wider_model.read(text.encode(), None, None, {})
    except hours_model.Fault as fault:
        return str(fault)
    return None


def check_fault(row):
    """A text that is no plain hours has the fault by the wider model, if it has one so."""
    wanted = fault_of(row["text"])
    if wanted is not None:
        domain, fault = run(row["text"])
        expect((domain, fault) == (None, wanted), f"{row['text']!r}: {domain}, {fault}, by the model {wanted}")


def check_hidden(row):
    """The numbers of the rules that hide hours, each with the hours that keep them, are told in their order."""
    text = row["text"]
    kept = [hides.split(": ", 1)[1] for hides in row["hides"].split("|") if hides]
    said = told("hours", "--", text).stderr.splitlines()
    expect([line.split(": ", 3)[3] for line in said if ": warning Hides at " in line] == kept, f"{text!r}: {said}")


def listed(lines):
    """Warnings without those of rules that hide hours."""
    found = [line[len(f"{NO_DOMAIN}warning "):] for line in lines.splitlines() if "warning Hides" not in line]
    return "; ".join(found)


def check_wider_loose(row, names):
    """The same of a text that is no plain hours, with the times of the sun."""
    text, read = row["text"], told("hours", *SUN, *names, "--", row["text"])
    if row["mended"]:
        strict = told("hours", "--strict", *SUN, "--", row["mended"])
        expect((read.returncode, strict.returncode, read.stdout) == (0, 0, strict.stdout), f"{text!r}: {read}, {strict}")
        expect(listed(read.stderr) == row["warnings"], f"{text!r}: {read.stderr}")
        return
    try:
        wanted = f"no fault, but {loose_model.read(text.encode(), bool(names), hours.read_wider)}"
    except hours_model.Fault as fault:
        wanted = f"{NO_DOMAIN}{fault}\n"
    expect((read.returncode, read.stdout, line_of(read, text)) == (1, "", wanted), f"{text!r}: {read}, by the model {wanted}")


def check_wider_mended(text, read, mended):
    """The mended text of a text that is no plain hours: it means the same, and mended again it is the same. Or the same fault."""
    if read.returncode and not NEEDS.match(read.stderr):
        expect((mended.returncode, mended.stdout, line_of(mended, text)) == (1, "", line_of(read, text)), f"{text!r}: {mended}")
        return
    strict = mended.stdout.rstrip("\n")
    again, means = told("mend", "hours", "--", strict), told("hours", "--strict", *SUN, "--", strict)
    expect((mended.returncode, again.returncode, again.stdout) == (0, 0, mended.stdout), f"{text!r}: {mended}, again {again}")
    expect((means.returncode, means.stdout) == (read.returncode, read.stdout), f"{text!r}: {means}, mended from {read}")


def check_loose(row):
    """The domain of a text and its warnings, and the text as it is mended; or its fault."""
    text, names = row["text"], ["--day-names", row["names"]] if row["names"] else []
    read, mended = told("hours", *names, "--", text), told("mend", "hours", *names, "--", text)
    if row["fault"]:
        check_wider_loose(row, names)
        check_wider_mended(text, told("hours", *SUN, *names, "--", text), mended)
        return
    warnings = warned(text, bool(row["names"]))
    expect(listed(warnings) == row["warnings"], f"{text!r}: {warnings}")
    domain = (0, f"{run(row['mended'])[0]}\n", warnings)
    expect((read.returncode, read.stdout, read.stderr) == domain, f"{text!r}: {read}")
    expect((mended.returncode, mended.stdout, mended.stderr) == (0, row["mended"] + "\n", ""), f"{text!r}: {mended}")


def check_back(text, domain):
    """Hours are answered for the domain of a text, and they have this domain. Those with offsets of days are not looked for."""
    if OFFSET.search(text):
        return
    done = told("hours", "--of", domain)
    expect(done.returncode == 0 and done.stderr == "", f"{text}: no hours for {domain}: {done.stderr!r}")
    again, fault = run(done.stdout[:-1])
    expect(again == domain, f"{text}: {domain} gives {done.stdout!r}, which gives {again} {fault or ''}")


def check_round(text):
    domain, fault = run(text)
    expect(fault is None, f"{text}: {fault}")
    check_back(text, domain)


def row_texts():
    """The first columns of the rows of hours that have a domain."""
    for path in sorted(glob.glob(os.path.join(hours.TOP, "rows", "desk_hour*.rows"))):
        for case in rows.cases(path):
            text = rows.unescaped(case.columns[0], case.texts).decode(errors="replace")
            if hours.fault_of(text.encode()) is None and run(text)[1] is None:
                yield text


def date_texts():
    """Ranges from each month to each, whose days are translated in one stretch, by months and days, or in pieces."""
    last = [calendar.monthrange(LEAP_YEAR, month)[1] for month in range(1, 13)]
    for first, begin in enumerate(hours_model.MONTHS):
        for second, end in enumerate(hours_model.MONTHS):
            yield f"{begin}-{end}"
            for days in ((20, 4), (10, 9), (5, 25), (1, last[second]), (last[first], 1), (last[first], last[second])):
                yield f"{begin} {days[0]}-{end} {days[1]}"
        for day in {1, 28, 29, 30, 31} & set(range(1, last[first] + 1)):
            yield f"{begin} {day}"


def number_texts():
    """Years and weeks, by themselves and of every so many, and dates with years."""
    for count in (1, 2, 3, 4, 5, 7, 100, 101, 250):
        for step in (1, 2, 3, 9, 100):
            if count // step < 100:
                yield f"{2001}-{2000 + count}/{step}"
    for first, last in ((1, 1), (1, 10), (10, 20), (7, 52), (52, 53), (1, 53), (53, 53)):
        for step in (1, 2, 5, 52):
            yield f"week {first}-{last}/{step}"
    for last in ("2024 Feb 29", "2024 Mar 1", "2024 Dec 31", "2025 Jan 1", "2026 Feb 28", "2123 Jan 1"):
        yield f"2024 Feb 29-{last}"
    yield from ("1800 Jan 1", "2799 Dec 31", "2799 Dec 1-31", "1800", "2799", "1900-1999", "1800-1999")


def list_texts():
    """Lists in which a selector that is translated in pieces stands first, last, or between others."""
    lists = [("Mo; ", "", ("2020", "2030-2040/2", "1800-2000")), ("Mo; week ", " Su", ("1-53", "10-20/5", "3"))]
    lists += [("Mo; ", "", ("Mar 3", "Feb 20-Feb 29", "Jan 30-Mar 5", "2024 Dec 24"))]
    for before, after, names in lists:
        for first in names:
            yield from (f"{before}{first},{second}{after}" for second in names)
            yield f"{before}{names[-1]},{first},{names[0]}{after} 08:00-12:00"


def weekday_texts():
    for first in hours_model.WEEKDAYS:
        yield from (f"{first}-{last}" for last in hours_model.WEEKDAYS)
        yield from (f"{first}[{sign}{place}]" for sign in ("", "-") for place in range(1, 6))


def time_texts():
    """Times that end on their day and later ones, and lists of both."""
    ends = "00:00-00:00 00:00-24:00 00:00-00:01 10:00-10:00 20:00-24:00 20:00-00:00 22:00-04:00 22:00-28:00".split()
    ends += "23:59-47:59 00:01-24:01 00:01-00:01 08:30-09:15".split()
    for first in ends:
        yield first
        yield f"Mo {first}"
        yield from (f"Mo-Fr,Su[1] {first},{second}" for second in ends)


def rule_texts():
    """Up to seven rules, each after a semicolon or a comma, open or off, and one more after them."""
    rules = ["Mo-Fr 08:00-12:00,22:00-02:00", "Sa,Su 10:00-12:00", "Dec 24-26 10:00-13:00", "week 1-53/2 We", "2024-2030"]
    rules += ["Apr-Sep", "Fr 22:00-04:00"]
    ends = ["Mo off", "Mo 09:00-10:00 off", "off", "Mo", "Mo,Tu 23:00-01:00,08:00-09:00", "Jan 1 off, Jan 1 08:00-09:00"]
    yield from ("off", "Mo off", "Mo off; Tu off", "off; 24/7", "Mo off, Tu 08:00-12:00", "24/7 off; Mo 08:00-12:00 off")
    for count in range(1, len(rules) + 1):
        for link in ("; ", ", "):
            yield from ("; ".join(rules[:count]) + link + last for last in ends)
    yield "2024-2026 Dec 20-Feb 29 week 1-10 Mo-Fr,Su[-1] 08:00-09:00,10:00-11:00,23:00-01:00"


def form_texts():
    for texts in (date_texts, number_texts, list_texts, weekday_texts, time_texts, rule_texts):
        yield from texts()
    for text in ("Nov 20-Dec 4", "2024-2030/2", "2024-2030", "week 10-20", "week 53", "Nov 29-30", "Feb 29", "Mo", "We[-1]"):
        yield from (f"{text} 08:00-12:00", f"{text} 22:00-04:00", f"24/7; {text} off")
        yield f"Su 08:00-09:00; {text} 10:00-11:00,22:00-04:00"


def changes(opened):
    return [at for at in range(1, len(opened)) if opened[at] != opened[at - 1]]


def check_seconds(chance, text, rules, expression, first):
    """Rules and a domain agree around changes of the rules, and at drawn seconds, of some days from a date on."""
    base = 1440 * (first - hours_model.EPOCH).days
    found = changes(hours_model.open_minutes(rules, first, DAYS))
    seconds = [60 * (base + at) + by for at in chance.sample(found, min(CHANGES, len(found))) for by in (-1, 0)]
    seconds += [60 * base + chance.randrange(86400 * DAYS) for _ in range(SAMPLES)]
    for second in seconds:
        same = hours_model.is_open(rules, second) == model.contains(expression, second)
        expect(same, f"{text}: the domain differs at second {second}")


def check_random(maker):
    """The domain of a random text, or that it has too many; and the faults of damaged texts. Answers whether it has a domain."""
    text = maker.text()
    for damaged in (maker.damaged(text) for _ in range(3)):
        known = fault_of(damaged)
        if known is None and hours.fault_of(damaged.encode()) is not None:
            continue
        fault = run(damaged)[1]
        same = fault in (None, "TooMany at 0") if known is None else fault == known
        expect(same, f"{damaged!r}: {fault}, and not {known}")
    domain, fault = run(text)
    if fault == "TooMany at 0":
        return False
    expect(fault is None, f"{text}: {fault}")
    rules, expression = hours_model.read(text.encode()), model.read(domain.encode())
    first = datetime.date(maker.randint(2021, 2028), maker.randint(1, 12), maker.randint(1, 28))
    check_seconds(maker, text, rules, expression, first)
    check_back(text, domain)
    return True


def judged(check):
    """What is wrong, if a check fails."""
    try:
        check()
    except (Failure, hours_model.Fault, model.Fault) as failure:
        return failure
    return None


def main():
    if len(sys.argv) > 3:
        sys.exit("usage: tests/hours_program.py [SECONDS [SEED]]")
    if not os.path.exists(PROGRAM):
        sys.exit(f"no program at {PROGRAM}: run rt ci first")
    seconds = float(sys.argv[1]) if len(sys.argv) > 1 else 0
    seed = int(sys.argv[2]) if len(sys.argv) == 3 else random.SystemRandom().randrange(10**9)
    maker = hours.Maker(seed)
    texts, faults = hours.rows_of("texts.csv"), hours.rows_of("faults.csv")
    worked, forms = list(row_texts()), list(form_texts())
    checks = [lambda row=row: check_text(row) for row in texts] + [lambda row=row: check_fault(row) for row in faults]
    checks += [lambda text=text: check_round(text) for text in worked + forms]
    loose, hidden = hours.rows_of("loose.csv"), hours.rows_of("hidden.csv")
    checks += [lambda row=row: check_loose(row) for row in loose] + [lambda row=row: check_hidden(row) for row in hidden]
    failed = 0
    with concurrent.futures.ThreadPoolExecutor(len(os.sched_getaffinity(0))) as pool:
        for failure in pool.map(judged, checks):
            if failure:
                print(f"FAILED {failure}")
                failed += 1
    if len(worked) < FEWEST_ROWS or len(forms) < FEWEST_FORMS:
        print(f"FAILED {len(worked)} texts of rows and {len(forms)} of forms are too few")
        failed += 1
    end, rounds, domains = time.monotonic() + seconds, 0, 0
    while time.monotonic() < end and not failed:
        try:
            domains += check_random(maker)
            rounds += 1
        except (Failure, hours_model.Fault, model.Fault) as failure:
            print(f"FAILED with seed {seed}, in round {rounds + 1}: {failure}")
            failed += 1
    if 2 * domains < rounds:
        print(f"FAILED only {domains} of {rounds} random texts have a domain")
        failed += 1
    known = f"{len(texts)} texts, {len(faults)} faults, {len(hidden)} texts with rules that may hide, {len(loose)} loose texts, "
    known += f"{len(worked)} texts of rows and {len(forms)} of forms"
    print(f"{known}, and {rounds} random texts (seed {seed})")
    print(f"hours_program: {max(0, len(checks) + rounds - failed)} passed, {failed} failed")
    sys.exit(1 if failed else 0)


if __name__ == "__main__":
    main()
