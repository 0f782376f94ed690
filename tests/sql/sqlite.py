#!/usr/bin/python3
"""Asks SQLite the cases of tests/sql/cases.py, and what they do not ask: NULL, errors and what they say, moments in every form,
indexes, constraints, views and generated columns, plans, the table gtd_spans, rows of outer joins.

Usage: tests/sql/sqlite.py EXTENSION CASES
"""
import datetime
import json
import re
import sqlite3
import sys
import threading
import time

from checks import Checks
from long import ANSWERS, NIGHTS, QUESTIONS, nights

MOMENTS = ("YYYY-MM-DDThh:mm:ss, or a space in place of the T, or whole seconds since 1970-01-01T00:00:00; "
           "from 1901-01-01 up to 2700-01-01")
HORIZON = "the second moment must come after the first, by 146,098 days at most"
EVER = "moments of gtd_ever lie from 1901 to 2199"
APART = "moments of gtd_apart lie from 1901 to 2199"
TOO_MANY = "the opening hours would need more than 128 basic domains"
YEAR = "the domain gives a year, and gtd_ever asks about all years: gtd_next asks up to a moment"
EPOCH = datetime.datetime(1970, 1, 1)
SCHOOL = "[(M9){M10}]*[(t2t3t4t5t6h07m30){h8m30}]"
check = Checks("sqlite")


def opened(extension, path=":memory:"):
    base = sqlite3.connect(path, isolation_level=None)
    base.enable_load_extension(True)
    base.load_extension(extension)
    return base


def written(form, second):
    """A moment as it is given: timestamps are texts here."""
    if form == "seconds":
        return second
    stamp = (EPOCH + datetime.timedelta(seconds=second)).isoformat()
    return {"T": stamp, "date": stamp[:10]}.get(form, stamp.replace("T", " "))


def shown(text):
    """A text as an error shows it: a sign for each byte."""
    return "".join(chr(byte) if 32 <= byte < 127 else "?" for byte in text)


def fault_message(text, kind, place, what="a time domain"):
    """What an error says of a text of at most 100 bytes."""
    return f"not {what}: {kind} at {place}\n{shown(text)}\n{' ' * place}^"


def answer_of(base, statement, values=()):
    """The rows of a statement, or what its error says."""
    try:
        return base.execute(statement, values).fetchall()
    except sqlite3.Error as error:
        return str(error)


def one(base, statement, *values):
    found = answer_of(base, statement, values)
    return found[0][0] if isinstance(found, list) and len(found) == 1 else found


def ask(base, case):
    """Puts a case, and compares its answer."""
    moments = [written(*moment) for moment in case["moments"]]
    form = case["moments"][0][0] if moments else None
    right = case["answer"]
    if case["call"] == "closed":
        base.execute("DELETE FROM rows")
        base.executemany("INSERT INTO rows VALUES (?, ?, ?)", case["rows"])
        found = one(base, "SELECT gtd_closed(direction, vehicles, domain, ?, ?, ?) FROM rows", case["direction"], case["vehicle"],
                    moments[0])
        return check(found == right, f"{case}: {found}")
    domain = bytes.fromhex(case["domain"])
    try:
        given = domain.decode()
    except UnicodeDecodeError:
        given = domain
    if case["call"] == "spans":
        found = answer_of(base, "SELECT begins, ends FROM gtd_spans(?, ?, ?)", [given, *moments])
    else:
        words = [given, *([bytes.fromhex(case["other"]).decode()] if "other" in case else []), *moments]
        found = one(base, f"SELECT gtd_{case['call']}({', '.join('?' * len(words))})", *words)
    if isinstance(right, list):
        right = [tuple(written("T" if form == "date" else form, second) for second in span) for span in right]
    elif isinstance(right, dict) and "fault" in right:
        right = fault_message(domain, *right["fault"])
        if len(domain) > 100:
            right, found = right.split("\n")[0], found.split("\n")[0]
    elif isinstance(right, dict) and "hours" in right:
        right = TOO_MANY if right["hours"][0] == "TooMany" else fault_message(domain, *right["hours"], "opening hours")
        if len(domain) > 100:
            right, found = right.split("\n")[0], found.split("\n")[0]
    elif isinstance(right, dict):
        is_told = found in (HORIZON, EVER, APART, YEAR) or re.match("not a moment: '-?[0-9]+' ", str(found))
        return check(is_told, f"{case}: {found}")
    elif case["call"] in ("next", "ever", "apart") and right is not None:
        right = written(form, right)
    return check(found == right, f"{case}: {found}")


def check_columns(base, cases):
    """Domains and moments of a table, in an order that brings each domain again and again."""
    held = [case for case in cases if case["call"] == "holds" and isinstance(case["answer"], bool)]
    base.execute("CREATE TABLE asked(domain TEXT, moment, answer INTEGER)")
    base.executemany("INSERT INTO asked VALUES (?, ?, ?)", [
        (bytes.fromhex(case["domain"]).decode(), written(*case["moments"][0]), case["answer"]) for case in held])
    wrong = one(base, "SELECT count(*) FROM (SELECT * FROM asked ORDER BY random()) WHERE gtd_holds(domain, moment) <> answer")
    check(wrong == 0 and len(held) > 100, f"{wrong} of {len(held)} answers of a table are wrong")
    wrong = one(base, "SELECT count(*) FROM asked a, (SELECT DISTINCT domain FROM asked LIMIT 200) d "
                      "WHERE a.domain = d.domain AND gtd_holds(d.domain, a.moment) <> a.answer")
    check(wrong == 0, f"{wrong} answers of a join are wrong")
    spans = "(SELECT count(*) FROM gtd_spans(domain, moment, moment + 1))"
    wrong = one(base, f"SELECT count(*) FROM asked WHERE typeof(moment) = 'integer' AND {spans} <> answer")
    check(wrong == 0, f"{wrong} spans of one second are wrong")


def check_pairs(base):
    """Two domains of each row: texts that share a slot of what a connection keeps, equal texts, and constants on either side."""
    texts = [f"(h{hour}){{m{minutes}}}" for hour in range(24) for minutes in range(1, 60)]
    base.execute("CREATE TABLE texts(domain TEXT)")
    base.executemany("INSERT INTO texts VALUES (?)", [(text,) for text in texts])
    some = "(SELECT domain FROM texts ORDER BY random() LIMIT 60)"
    wrong = one(base, f"SELECT count(*) FROM {some} a, {some} b WHERE gtd_same(a.domain, b.domain) <> (a.domain = b.domain)")
    check(wrong == 0, f"{wrong} pairs are wrong")
    for call in ["gtd_same('(h1){m1}', domain)", "gtd_same(domain, '(h1){m1}')", "gtd_apart(domain, '(h1){m1}', 0) IS NULL"]:
        found = answer_of(base, f"SELECT domain FROM texts WHERE {call}")
        check(found == [("(h1){m1}",)], f"{call}: {found}")
    found = answer_of(base, "SELECT DISTINCT gtd_apart(domain, domain, '1999-12-31T23:59:59') FROM texts")
    check(found == [(None,)], f"texts that are equal: {found}")
    found = one(base, "SELECT gtd_apart('(h8){h9}', gtd_hours('Mo-Fr 08:00-17:00'), '2024-03-15 12:00:00')")
    check(found == "2024-03-16 08:00:00", f"hours and a domain: {found}")


def check_null(base):
    for call in ["check(NULL)", "canon(NULL)", "words(NULL)", "holds(NULL, 0)", "holds('x', NULL)", "next(NULL, 0, 1)",
                 "next('x', NULL, 1)", "next('x', 0, NULL)", "ever(NULL, 0)", "ever('x', NULL)", "same(NULL, 'x')",
                 "same('x', NULL)", "apart(NULL, 'x', 0)", "apart('x', NULL, 0)", "apart('x', 'x', NULL)", "hours(NULL)"]:
        found = one(base, f"SELECT gtd_{call}")
        check(found is None, f"gtd_{call}: {found}")
    for values in ["NULL, 0, 1", "'(h1){h1}', NULL, 1", "'(h1){h1}', 0, NULL"]:
        found = answer_of(base, f"SELECT * FROM gtd_spans({values})")
        check(found == [], f"gtd_spans({values}): {found}")


def check_errors(base):
    wrong = "[(h25){h1}]"
    fault = f"not a time domain: FieldRange at 2\n{wrong}\n  ^"
    for call in ["canon(?)", "words(?)", "holds(?, 0)", "next(?, 0, 1)", "ever(?, 0)", "same(?, '(h1){h1}')",
                 "same('(h1){h1}', ?)", "apart(?, 'x', 0)", "apart('(h1){h1}', ?, 0)"]:
        found = one(base, f"SELECT gtd_{call}", wrong)
        check(found == fault, f"gtd_{call}: {found}")
    found = answer_of(base, "SELECT * FROM gtd_spans(?, 0, 1)", [wrong])
    check(found == fault, f"gtd_spans: {found}")
    long = "+".join(["(h1){h1}"] * 30) + "+(h25){h1}" + "+(h1){h1}" * 30
    right = f"not a time domain: FieldRange at 271\n...{long[221:321]}...\n{' ' * 53}^"
    found = one(base, "SELECT gtd_canon(?)", long)
    check(found == right, f"a long text: {found}")
    for domain, right in [("", "Incomplete at 0\n\n^"), ("(h1)\n{h1}", "BadToken at 4\n(h1)?{h1}\n    ^"),
                          ("(h1)ä", "BadToken at 4\n(h1)??\n    ^"), (5, "BadToken at 0\n5\n^"),
                          (b"(h1)\0", "BadToken at 4\n(h1)?\n    ^")]:
        found = one(base, "SELECT gtd_canon(?)", domain)
        check(found == f"not a time domain: {right}", f"{domain!r}: {found}")
    for moment in ["", "2024-02-30T00:00:00", "2024-01-01", "2024-01-01T24:00:00", "2024-01-01T00:60:00", "2024-01-01T00:00:60",
                   "2024-01-01T00:00:00Z", "2024-01-01T00:00", "2024-01-01t00:00:00", "1900-12-31T23:59:59",
                   "2700-01-01T00:00:00",
                   "2024-13-01T00:00:00", "2024/01/01T00:00:00", "2024-01-01T00:00:0x", "-024-01-01T00:00:00", "1711929600", 1.5,
                   1711929600.0, 2**62, -2**63, "now"]:
        found = one(base, "SELECT gtd_holds('(h1){h1}', ?)", moment)
        check(found == f"not a moment: '{moment}' ({MOMENTS})", f"{moment!r}: {found}")
    found = one(base, "SELECT gtd_holds('(h1){h1}', ?)", b"2024-01-01T00:00:00")
    check(found == f"not a moment: '2024-01-01T00:00:00' ({MOMENTS})", f"a moment of bytes: {found}")
    for moment in ["2024-02-30", "2700-01-02", "2024-1-1", "24-01-01"]:
        found = one(base, "SELECT gtd_next('(h1){h1}', '1999-01-01 00:00:00', ?)", moment)
        check(found == f"not a moment: '{moment}' (YYYY-MM-DD, {MOMENTS})", f"until {moment!r}: {found}")
    for since, until in [("2024-01-01", "2024-01-01"), ("2024-01-02", "2024-01-01"), ("1901-01-01", "2302-01-01")]:
        found = answer_of(base, "SELECT * FROM gtd_spans('(h1){h1}', ?, ?)", [since, until])
        check(found == HORIZON, f"{since} to {until}: {found}")
    found = one(base, "SELECT gtd_ever('(y2024){d1}', 0)")
    check(found == YEAR, f"gtd_ever of a year: {found}")
    found = one(base, "SELECT gtd_ever('(h1){h1}', '2200-01-01 00:00:00')")
    check(found == EVER, f"gtd_ever in 2200: {found}")
    for other in ["(h1){h1}", "(h1){h2}"]:
        found = one(base, "SELECT gtd_apart('(h1){h1}', ?, '2200-01-01 00:00:00')", other)
        check(found == APART, f"gtd_apart in 2200: {found}")
    for text, right in [("Mo,PH 08:00-17:00", "Unsupported at 3"), ("", "Incomplete at 0"), ("Mo 8:00", "BadToken at 3"),
                        ("Mo-Fr 10:00-25:99", "Range at 12"), ("Mo Mo", "Unexpected at 3")]:
        found = one(base, "SELECT gtd_hours(?)", text)
        kind, place = right.split(" at ")
        check(found == fault_message(text.encode(), kind, int(place), "opening hours"), f"hours {text!r}: {found}")
    for arguments in ["", "'(h1){h1}'", "'(h1){h1}', 0"]:
        found = answer_of(base, f"SELECT * FROM gtd_spans({arguments})")
        check(found == "gtd_spans takes a domain and two moments", f"gtd_spans({arguments}): {found}")


def check_forms(base):
    """Answers have the form of the moment; the last day ends where no text of a moment goes."""
    domain = "(h10){h4}"
    for moment, until, right in [("2024-03-01T09:00:00", "2024-03-02", "2024-03-01T10:00:00"),
                                 ("2024-03-01 09:00:00", "2024-03-02T00:00:00", "2024-03-01 10:00:00"),
                                 ("2024-03-01 09:00:00", "2024-03-01 10:00:00", None),
                                 ("2024-03-01 09:00:00", "2024-03-01 10:00:01", "2024-03-01 10:00:00"),
                                 (1709283600, 1709337600, 1709287200)]:
        found = one(base, "SELECT gtd_next(?, ?, ?)", domain, moment, until)
        check(found == right, f"next {moment} {until}: {found}")
    found = answer_of(base, "SELECT * FROM gtd_spans('(h10){h14}', '2699-12-31', '2700-01-01')")
    check(found == [("2699-12-31T10:00:00", "2700-01-01T00:00:00")], f"the last day: {found}")
    found = answer_of(base, "SELECT * FROM gtd_spans('(h0){h14}', '1901-01-01 00:00:00', '1901-01-01 13:00:00')")
    check(found == [("1901-01-01 00:00:00", "1901-01-01 13:00:00")], f"the first day: {found}")
    found = one(base, "SELECT gtd_ever('(M2d29){d1}', '2096-03-01 00:00:00')")
    check(found == "2104-02-29 00:00:00", f"ever: {found}")


def check_spans(base):
    week = ("2024-03-11", "2024-03-18")
    days = [f"2024-03-{day}" for day in range(11, 16)]
    right = [(f"{day}T07:30:00", f"{day}T16:00:00") for day in days]
    for order, rows in [("", right), ("ORDER BY begins", right), ("ORDER BY begins DESC", right[::-1]), ("LIMIT 2", right[:2]),
                        ("WHERE begins > '2024-03-14'", right[3:]), ("WHERE since_moment = '2024-03-11'", right)]:
        found = answer_of(base, f"SELECT * FROM gtd_spans(?, ?, ?) {order}", [SCHOOL, *week])
        check(found == rows, f"spans {order}: {found}")
    found = answer_of(base, "SELECT rowid, begins FROM gtd_spans WHERE until_moment = ? AND of_domain = ? AND since_moment = ?",
                      [week[1], SCHOOL, week[0]])
    check(found == [(at, span[0]) for at, span in enumerate(right, 1)], f"spans by WHERE: {found}")
    base.execute("CREATE TABLE streets(name, domain)")
    base.execute("INSERT INTO streets VALUES ('school', ?), ('none', NULL), ('market', '(t7h5){h10}')", [SCHOOL])
    found = answer_of(base, "SELECT name, count(*), min(begins) FROM streets JOIN gtd_spans(domain, ?, ?) GROUP BY name", week)
    check(found == [("market", 1, "2024-03-16T05:00:00"), ("school", 5, "2024-03-11T07:30:00")], f"a join: {found}")
    found = answer_of(base, "SELECT name, ends FROM streets LEFT JOIN gtd_spans(domain, '2024-03-16', '2024-03-17') "
                            "ORDER BY name")
    check(found == [("market", "2024-03-16T15:00:00"), ("none", None), ("school", None)], f"an outer join: {found}")


def check_schema(base):
    """Where functions must be deterministic, or innocuous: with untrusted schemas."""
    base.execute("PRAGMA trusted_schema = OFF")
    base.execute("CREATE TABLE checked(domain TEXT CHECK (gtd_check(domain) IS NULL))")
    base.execute("CREATE TABLE r(element INTEGER, domain TEXT, canonical TEXT GENERATED ALWAYS AS (gtd_canon(domain)) STORED)")
    base.execute("CREATE INDEX by_canon ON r(gtd_canon(domain))")
    base.execute("CREATE INDEX by_hours ON r(gtd_hours('10:00-11:00'), element) WHERE NOT gtd_same(domain, '(h2){h1}')")
    base.execute("CREATE INDEX at_night ON r(element) WHERE gtd_holds(domain, '2024-01-01T03:00:00')")
    base.execute("CREATE VIEW night AS SELECT element FROM r WHERE gtd_holds(domain, '2024-01-01 03:00:00')")
    base.execute("CREATE VIEW days AS SELECT element, begins, ends FROM r, gtd_spans(r.domain, '2024-01-01', '2024-01-03')")
    base.execute("CREATE TRIGGER words AFTER INSERT ON r WHEN gtd_words(new.domain) IS NULL AND new.domain IS NOT NULL "
                 "BEGIN SELECT RAISE(ABORT, 'no words'); END")
    base.execute("INSERT INTO r(element, domain) VALUES (1, '[(m30h07){m30h1}]'), (2, '(h3){h1}'), (3, NULL)")
    found = one(base, "INSERT INTO checked VALUES ('(h1){h1}'), (NULL), ('(h25){h1}')")
    check("CHECK constraint failed" in found, f"a constraint: {found}")
    found = answer_of(base, "SELECT canonical FROM r ORDER BY element")
    check(found == [("[(h7m30){h1m30}]",), ("[(h3){h1}]",), (None,)], f"a generated column: {found}")
    query = "SELECT element FROM r WHERE gtd_canon(domain) = '[(h7m30){h1m30}]'"
    check(answer_of(base, query) == [(1,)], "a query by index")
    check("by_canon" in str(answer_of(base, f"EXPLAIN QUERY PLAN {query}")), "an index is not used")
    query = "SELECT element FROM r WHERE element > 0 AND gtd_holds(domain, '2024-01-01T03:00:00')"
    check(answer_of(base, query) == [(2,)], "a query by a partial index")
    check("at_night" in str(answer_of(base, f"EXPLAIN QUERY PLAN {query}")), "a partial index is not used")
    check(answer_of(base, "SELECT * FROM night") == [(2,)], "a view")
    found = answer_of(base, "SELECT element, begins FROM days ORDER BY 1, 2")
    right = [(element, f"2024-01-0{day}T{clock}:00") for element, clock in [(1, "07:30"), (2, "03:00")] for day in (1, 2)]
    check(found == right, f"a view of spans: {found}")
    check(one(base, "PRAGMA integrity_check") == "ok", "the integrity of indexes")


def check_closed(base):
    noon = "2024-01-01T12:00:00"
    asked = f"'positive', 11, '{noon}'"

    def closed(rows, question=asked):
        values = " UNION ALL ".join(f"SELECT {row}" for row in rows) or "SELECT 1, 2, 3 WHERE 0"
        table = f"SELECT * FROM (SELECT 0 a, 0 b, 0 c WHERE 0) UNION ALL {values}"
        return one(base, f"SELECT gtd_closed(a, b, c, {question}) FROM ({table})")

    cases = [([], 0), (["'both', 0, ''"], 1), (["'both', 0, NULL"], 1), (["'negative', 0, NULL"], 0), (["'both', 12, ''"], 0),
             (["'both', '12;11', ''"], 1), (["'both', '!11', ''"], 0), (["'both', '!12', '(h12){h1}'"], 1),
             (["'both', 0, '(h13){h1}'"], 0), (["'both', 0, '(h13){h1}'", "'positive', '11', '(h11){h2}'"], 1),
             (["NULL, NULL, NULL"], 0), (["NULL, NULL, NULL", "'both', 0, ''"], 1)]
    for rows, right in cases:
        check(closed(rows) == right, f"closed {rows}: {closed(rows)}")
    for question, right in [(f"NULL, 11, '{noon}'", None), (f"'positive', NULL, '{noon}'", None), ("'positive', 11, NULL", None)]:
        check(closed(["'both', 0, ''"], question) is right, f"closed {question}")
    errors = [("'up', 0, ''", "not a direction: 'up' (positive, negative or both)"),
              ("NULL, 0, ''", "not a direction: '' (positive, negative or both)"),
              ("'both', 100, ''", "not vehicle types: '100' (0, or codes 1 to 99 joined by ;, or ! and such codes)"),
              ("'both', '11,12', ''", "not vehicle types: '11,12' (0, or codes 1 to 99 joined by ;, or ! and such codes)"),
              ("'both', NULL, ''", "not vehicle types: '' (0, or codes 1 to 99 joined by ;, or ! and such codes)"),
              ("'both', 0, '(h25){h1}'", "not a time domain: FieldRange at 1\n(h25){h1}\n ^"),
              ("'both', 0, '(h1)\"{h1}'", "not a time domain: BadToken at 4\n(h1)\"{h1}\n    ^"),
              ("'both\n1', 0, ''", "not a direction: 'both?1' (positive, negative or both)")]
    for row, right in errors:
        check(closed([row]) == right, f"closed {row}: {closed([row])}")
    vehicle = "the vehicle type that is asked about must be a number from 1 to 99"
    for question, right in [(f"'both', 11, '{noon}'", "not a direction: 'both' (positive or negative)"),
                            (f"'positive', 0, '{noon}'", vehicle), (f"'positive', 100, '{noon}'", vehicle),
                            (f"'positive', 267, '{noon}'", vehicle), (f"'positive', -1, '{noon}'", vehicle),
                            (f"'positive', 'x', '{noon}'", vehicle), (f"'positive', 1.5, '{noon}'", vehicle),
                            ("'positive', 11, '2024'", f"not a moment: '2024' ({MOMENTS})")]:
        found = closed(["'both', 0, ''"], question)
        check(found == right, f"closed {question}: {found}")
    found = answer_of(base, "WITH r(e, t) AS (VALUES (1, '(h12){h1}'), (2, '(h1){h1}'), (1, '(h2){h1}')) "
                            f"SELECT e, gtd_closed('both', 0, t, {asked}) FROM r GROUP BY e")
    check(found == [(1, 1), (2, 0)], f"closed by groups: {found}")


def check_long(base):
    """Answers of many windows."""
    for call, words, right in ANSWERS:
        found = answer_of(base, f"SELECT gtd_{call}({', '.join('?' * len(words))})", words)
        check(found == [(right if right is None or isinstance(right, str) else int(right),)], f"{call} {words}: {found}")
    spans = "SELECT begins, ends FROM gtd_spans(?, ?, ?)"
    found = answer_of(base, spans, [NIGHTS, "2024-01-01 12:00:00", "2024-02-20 12:00:00"])
    check(found == nights(1, 50), f"nights: {found}")
    found = answer_of(base, spans, [NIGHTS, "2024-01-01 23:00:00", "2024-01-03 01:00:00"])
    cut = [("2024-01-01 23:00:00", "2024-01-02 02:00:00"), ("2024-01-02 22:00:00", "2024-01-03 01:00:00")]
    check(found == cut, f"nights that are cut: {found}")
    for call in ("check", "canon", "words", "hours"):
        found = answer_of(base, f"SELECT gtd_{call}(?)", ["(h1)" + " " * 1_048_573])
        check(found == "the text has more than 1,048,576 bytes", f"{call} of a long text: {found}")
    check(one(base, "SELECT gtd_canon(?)", "(h1){h1}" + " " * 1_048_568) == "[(h1){h1}]", "a text of the greatest length")
    found = answer_of(base, spans, ["(h1){h1}" + " " * 1_048_569, 0, 1])
    check(found == "the text has more than 1,048,576 bytes", f"spans of a long text: {found}")


def check_stopped(extension):
    """Long questions end soon after they are interrupted, and after a progress handler says so; then the connection is as it was.
    An authorizer that refuses the statement by which this is found out stops nothing else."""
    for number, (call, words) in enumerate(QUESTIONS):
        query = f"SELECT {'count(*) FROM ' if call == 'spans' else ''}gtd_{call}({', '.join('?' * len(words))})"
        for is_interrupted in (True, False):
            base = sqlite3.connect(":memory:", isolation_level=None, check_same_thread=False)
            base.enable_load_extension(True)
            base.load_extension(extension)
            begin = time.monotonic()
            if is_interrupted:
                timer = threading.Timer(0.3, base.interrupt)
                timer.start()
            else:
                base.set_progress_handler(lambda: time.monotonic() > begin + 0.3, 100_000 if number % 2 else 1_000)
            found = answer_of(base, query, words)
            passed = time.monotonic() - begin
            how = "interrupted" if is_interrupted else "by a progress handler"
            check(found == "interrupted" and 0.3 <= passed < 5, f"question {number} {how}: {found} after {passed:.1f} s")
            if is_interrupted:
                timer.join()
            base.set_progress_handler(None, 0)
            check(one(base, "SELECT gtd_canon('(h1){m60}')") == "[(h1){m60}]", f"after question {number}")
            base.close()
    base = opened(extension)
    base.set_authorizer(lambda action, *_: sqlite3.SQLITE_DENY if action == sqlite3.SQLITE_RECURSIVE else sqlite3.SQLITE_OK)
    check(one(base, "SELECT gtd_next('(s0){s1}*(M2d29){d1}*(M3d1){d1}', '2024-01-01 00:00:00', '2124-01-01')") is None,
          "an authorizer that refuses recursion")
    base.close()


def main():
    extension = sys.argv[1].removesuffix(".so")
    with open(sys.argv[2], encoding="ascii") as file:
        cases = [json.loads(line) for line in file]
    base = opened(extension)
    base.execute("CREATE TABLE rows(direction, vehicles, domain)")
    for case in cases:
        ask(base, case)
    check_columns(base, cases)
    check_pairs(base)
    check_null(base)
    check_errors(base)
    check_forms(base)
    check_spans(base)
    check_schema(base)
    check_closed(base)
    check_long(base)
    base.close()
    check_stopped(extension)
    for _ in range(3):
        opened(extension).close()
    return check.end()


if __name__ == "__main__":
    sys.exit(main())
