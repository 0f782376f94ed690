#!/usr/bin/env python3
"""Starts a PostgreSQL by tests/sql/server.py, and asks it the cases of tests/sql/cases.py; then what they do not ask: NULL,
errors and what they say, columns, parallel plans, indexes, constraints, the type gtd_domain, a backend that is killed, queries
that are stopped, memory, dump and restore.

Usage: tests/sql/postgres.py CASES
"""
import datetime
import json
import os
import re
import signal
import subprocess
import sys
import time

from checks import Checks
from long import ANSWERS, NIGHTS, QUESTIONS, nights
from server import ASKED, Server, quoted

EPOCH = datetime.datetime(1970, 1, 1)
MOMENTS = ("YYYY-MM-DDThh:mm:ss, or a space in place of the T, or whole seconds since 1970-01-01T00:00:00; "
           "from 1901-01-01 up to 2700-01-01")
SCHOOL = "[(M9){M10}]*[(t2t3t4t5t6h07m30){h8m30}]"
check = Checks("postgres")


def stamp(second, form="space"):
    """A moment as a text, which may be asked for the end of the last day, too."""
    if form == "seconds":
        return str(second)
    text = (EPOCH + datetime.timedelta(seconds=second)).isoformat()
    return {"T": text, "date": text[:10]}.get(form, text.replace("T", " "))


def literal(form, second):
    """A moment as it is given; a text without a type is as good as one with it."""
    text = quoted(stamp(second, form))
    return {"seconds": f"{text}::bigint", "timestamp": f"timestamp {text}", "space": f"{text}::text"}.get(form, text)


def shown(text):
    """A text as an error shows it: a sign for each byte."""
    return "".join(chr(byte) if 32 <= byte < 127 else "?" for byte in text.encode())


def fault_error(text, kind, place, what="time domain"):
    """What an error says of a text of at most 100 bytes."""
    return f"error 22P02|invalid {what}: {kind} at {place}|The caret shows the place:\n{shown(text)}\n{' ' * place}^|"


def hours_error(text, kind, place):
    """What an error says of opening hours."""
    if kind == "TooMany":
        return "error 54000|the opening hours would need more than 128 basic domains||"
    return fault_error(text, kind, place, "opening hours")


def query_of(case, number):
    moments = [literal(*moment) for moment in case["moments"]]
    if case["call"] == "closed":
        rows = case["rows"]
        is_number = number % 2 and all(re.fullmatch("[0-9]+", row[1]) for row in rows)
        values = ", ".join(f"({quoted(row[0])}, {row[1] if is_number else quoted(row[1])}, {quoted(row[2])})" for row in rows)
        table = f"(VALUES {values}) r" if rows else "(SELECT NULL::text, NULL::text, NULL::text LIMIT 0) r"
        return f"SELECT gtd_closed(a, b, c, '{case['direction']}', {case['vehicle']}, {moments[0]}) FROM {table}(a, b, c)"
    texts = [quoted(bytes.fromhex(case[name]).decode()) for name in ("domain", "other") if name in case]
    words = ", ".join([*texts, *moments])
    if case["call"] == "spans":
        return f"SELECT coalesce(string_agg(begins || ' until ' || ends, ', '), '') FROM gtd_spans({words})"
    return f"SELECT gtd_{case['call']}({words})"


def answer_of(case):
    """What must be answered to a case, or nothing if it is an error of the moment."""
    right, form = case["answer"], case["moments"][0][0] if case["moments"] else None
    if case["call"] == "spans" and isinstance(right, list):
        form = "T" if form == "date" else form
        return ", ".join(f"{stamp(begin, form)} until {stamp(end, form)}" for begin, end in right)
    if isinstance(right, bool):
        return "true" if right else "false"
    if isinstance(right, int):
        return stamp(right, form)
    return right


def check_cases(server, cases):
    cases = [case for case in cases if case["call"] == "closed" or is_text(case["domain"])]
    found = server.ask([query_of(case, number) for number, case in enumerate(cases)])
    check(len(found) == len(cases), "an answer for each case")
    for case, said in zip(cases, found):
        right = answer_of(case)
        if isinstance(right, dict) and "fault" in right:
            domain = bytes.fromhex(case["domain"]).decode()
            right = fault_error(domain, *right["fault"])
            if len(domain.encode()) > 100:
                right, said = right.split("|")[:2], said.split("|")[:2]
        elif isinstance(right, dict) and "hours" in right:
            right = hours_error(bytes.fromhex(case["domain"]).decode(), *right["hours"])
            right, said = right.split("|")[:2], said.split("|")[:2]
        elif isinstance(right, dict):
            state = "22023|the domain gives a year" if "year" in right else "22008|"
            check(said is not None and said.startswith(f"error {state}"), f"{case}: {said}")
            continue
        check(said == right, f"{case}: {said}")


def is_text(domain):
    try:
        return "\0" not in bytes.fromhex(domain).decode()
    except UnicodeDecodeError:
        return False


def check_columns(server, cases):
    """Domains and moments of a table, in an order that brings each domain again and again; by parallel workers, too."""
    held = [case for case in cases if case["call"] == "holds" and isinstance(case["answer"], bool)]
    rows = [f"({quoted(bytes.fromhex(case['domain']).decode())}, {case['moments'][0][1]}, {answer_of(case)})" for case in held]
    server.psql("CREATE TABLE asked_of(domain text, second bigint, answer boolean);"
                f"INSERT INTO asked_of VALUES {', '.join(rows)}; ALTER TABLE asked_of SET (parallel_workers = 2);"
                "ANALYZE asked_of")
    wrong = server.psql("SELECT count(*) FROM (SELECT * FROM asked_of ORDER BY random()) r "
                        "WHERE gtd_holds(domain, second) <> answer")
    check(wrong == "0" and len(held) > 100, f"{wrong} of {len(held)} answers of a table are wrong")
    parallel = ("SET parallel_setup_cost = 0; SET parallel_tuple_cost = 0; SET min_parallel_table_scan_size = 0;"
                "SET max_parallel_workers_per_gather = 2;")
    query = "SELECT count(*) FROM asked_of WHERE gtd_holds(domain, timestamp '1970-01-01' + second * interval '1 s') <> answer"
    plan, wrong = server.psql(f"{parallel} EXPLAIN {query}"), server.psql(f"{parallel} {query}")
    check("Parallel Seq Scan" in plan and wrong == "0", f"{wrong} answers of parallel workers are wrong: {plan}")
    query = ("SELECT count(*) FROM asked_of, LATERAL (SELECT count(*) AS spans FROM gtd_spans(domain, second, second + 1)) s "
             "WHERE second < 23036572799 AND spans <> answer::int")
    check(server.psql(query) == "0", "spans of one second are wrong")
    query = "SELECT gtd_closed('both', 0, domain, 'positive', 1, second) = bool_or(answer) FROM asked_of"
    plan, right = server.psql(f"{parallel} EXPLAIN {query}"), server.psql(f"{parallel} {query}")
    check("Partial Aggregate" in plan and right == "t", f"gtd_closed of parallel workers: {right} {plan}")
    query = "SELECT count(*) FROM (SELECT second FROM asked_of GROUP BY second HAVING " \
            "gtd_closed('both', '0', domain, 'positive', 1, second) <> bool_or(answer)) s"
    check(server.psql(query) == "0", "gtd_closed of groups")


def check_answers(server, rights):
    """Queries, each with its answer or with what its error says."""
    for (query, right), said in zip(rights, server.ask([query for query, _ in rights])):
        check(said == right, f"{query}: {said}")


def check_null(server):
    calls = ["check(NULL)", "canon(NULL)", "words(NULL)", "same(NULL, 'x')", "same('x', NULL)", "hours(NULL)"]
    for kind in ["bigint", "text", "timestamp"]:
        null = f"NULL::{kind}"
        moment = {"bigint": "0", "text": "'1970-01-01T00:00:00'", "timestamp": "timestamp '1970-01-01'"}[kind]
        calls += [f"holds(NULL, {moment})", f"holds('x', {null})", f"next(NULL, {moment}, {moment})",
                  f"next('x', {null}, {moment})", f"next('x', {moment}, {null})", f"ever(NULL, {moment})", f"ever('x', {null})",
                  f"apart(NULL, 'x', {moment})", f"apart('x', NULL, {moment})", f"apart('x', 'x', {null})"]
        for words in [f"NULL, {moment}, {moment}", f"'x', {null}, {moment}", f"'x', {moment}, {null}"]:
            check_answers(server, [(f"SELECT count(*) FROM gtd_spans({words})", "0")])
    check_answers(server, [(f"SELECT gtd_{call}", None) for call in calls])


def check_errors(server):
    wrong = "'[(h25){h1}]'"
    fault = fault_error("[(h25){h1}]", "FieldRange", 2)
    calls = [f"canon({wrong})", f"words({wrong})", f"holds({wrong}, 0)", f"next({wrong}, 0, 1)", f"ever({wrong}, 0)",
             f"spans({wrong}, 0, 1)", f"same({wrong}, '(h1){{h1}}')", f"same('(h1){{h1}}', {wrong})",
             f"apart({wrong}, '(h1){{h1}}', 0)", f"apart('(h1){{h1}}', {wrong}, 0)"]
    check_answers(server, [(f"SELECT gtd_{call}", fault) for call in calls])
    long = "+".join(["(h1){h1}"] * 30) + "+(h25){h1}" + "+(h1){h1}" * 30
    at = f"...{long[221:321]}...\n{' ' * 53}^"
    check_answers(server, [
        (f"SELECT gtd_canon('{long}')", f"error 22P02|invalid time domain: FieldRange at 271|The caret shows the place:\n{at}|"),
        ("SELECT gtd_canon('')", fault_error("", "Incomplete", 0)),
        ("SELECT gtd_canon(E'(h1)\\n{h1}')", fault_error("(h1)\n{h1}", "BadToken", 4)),
        ("SELECT gtd_canon('(h1)ä')", fault_error("(h1)ä", "BadToken", 4)),
        ("SELECT gtd_check('(h1)ä')", "BadToken at 4"),
    ])
    wrong = ["", "2024-02-30T00:00:00", "2024-01-01", "2024-01-01T24:00:00", "2024-01-01T00:00:60", "2024-01-01T00:00:00Z",
             "2024-01-01T00:00", "1900-12-31T23:59:59", "2700-01-01T00:00:00", "2024-13-01T00:00:00", "1711929600", "now"]
    check_answers(server, [(f"SELECT gtd_holds('(h1){{h1}}', '{text}')",
                            f"error 22007|invalid moment: \"{text}\"||It must be {MOMENTS}.") for text in wrong])
    wrong = ["2024-02-30", "2700-01-02", "2024-1-1"]
    check_answers(server, [(f"SELECT gtd_next('(h1){{h1}}', '1999-01-01T00:00:00', '{text}')",
                            f"error 22007|invalid moment: \"{text}\"||It must be YYYY-MM-DD, {MOMENTS}.") for text in wrong])
    moments = ["timestamp '1900-12-31 23:59:59'", "timestamp '2700-01-01'", "timestamp 'infinity'", "timestamp '-infinity'",
               "timestamp '4000-01-01 BC'", "timestamp '200000-01-01'", "'9223372036854775807'::bigint",
               "'-9223372036854775808'::bigint"]
    right = "error 22008|moment out of range|Moments lie from 1901-01-01 up to 2700-01-01.|"
    check_answers(server, [(f"SELECT gtd_holds('(h1){{h1}}', {moment})", right) for moment in moments])
    days = [("2024-01-01", "2024-01-01"), ("2024-01-02", "2024-01-01"), ("1901-01-01", "2302-01-01")]
    right = "error 22008|second moment out of range|The second moment must come after the first, by 146,098 days at most.|"
    check_answers(server, [(f"SELECT count(*) FROM gtd_spans('(h1){{h1}}', date '{since}', date '{until}')", right)
                           for since, until in days])
    check_answers(server, [
        ("SELECT gtd_ever('(y2024){d1}', 0)",
         "error 22023|the domain gives a year||gtd_next asks up to a moment, gtd_ever about all years."),
        ("SELECT gtd_ever('(h1){h1}', timestamp '2200-01-01')",
         "error 22008|moment out of range|Moments of gtd_ever lie from 1901 to 2199.|"),
        *((f"SELECT gtd_apart('(h1){{h1}}', '{other}', timestamp '2200-01-01')",
           "error 22008|moment out of range|Moments of gtd_apart lie from 1901 to 2199.|") for other in ("(h1){h1}", "(h2){h1}")),
        *((f"SELECT gtd_hours('{text}')", hours_error(text, *fault)) for text, fault in [
            ("Mo,PH 08:00-17:00", ("Unsupported", 3)), ("", ("Incomplete", 0)), ("Mo 8:00", ("BadToken", 3)),
            ("Mo-Fr 10:00-25:99", ("Range", 12)), ("Mo Mo", ("Unexpected", 3))]),
    ])
    said = server.ask(["SELECT gtd_holds('(h1){h1}', now())"])[0]
    check(said.startswith("error 42883|"), f"a moment with a time zone: {said}")


def check_pairs(server):
    """Two domains of each row: texts that share a slot of what a call keeps, equal texts, and constants on either side."""
    server.psql("CREATE TABLE texts AS SELECT '(h' || h || '){m' || m || '}' AS domain "
                "FROM generate_series(0, 23) h, generate_series(1, 59) m")
    some = "(SELECT domain FROM texts ORDER BY random() LIMIT 60)"
    check_answers(server, [
        (f"SELECT count(*) FROM {some} a, {some} b WHERE gtd_same(a.domain, b.domain) <> (a.domain = b.domain)", "0"),
        ("SELECT string_agg(domain, ',') FROM texts WHERE gtd_same('(h1){m1}', domain)", "(h1){m1}"),
        ("SELECT string_agg(domain, ',') FROM texts WHERE gtd_same(domain, '(h1){m1}')", "(h1){m1}"),
        ("SELECT string_agg(domain, ',') FROM texts WHERE gtd_apart(domain, '(h1){m1}', 0) IS NULL", "(h1){m1}"),
        ("SELECT count(gtd_apart(domain, domain, timestamp '1999-12-31')) FROM texts", "0"),
        ("SELECT gtd_apart('(h8){h9}', gtd_hours('Mo-Fr 08:00-17:00'), '2024-03-15T12:00:00')", "2024-03-16T08:00:00"),
        ("SELECT pg_typeof(gtd_apart('(h10){h4}', '(h1){h1}', timestamp '2024-03-01'))", "timestamp without time zone"),
        ("SELECT gtd_hours('Sa 05:00-15:00')::gtd_domain", "[[(t7h0m0){d1}]*[(h5m0){m600}]]"),
    ])


def check_forms(server):
    """Answers have the type of the moment; fractions of a second are dropped; the last day ends where no moment is."""
    check_answers(server, [
        ("SELECT pg_typeof(gtd_next('(h10){h4}', timestamp '2024-03-01', '2024-03-02'))", "timestamp without time zone"),
        ("SELECT pg_typeof(gtd_next('(h10){h4}', 1709283600, 1709337600))", "bigint"),
        ("SELECT pg_typeof(gtd_next('(h10){h4}', '2024-03-01T00:00:00', '2024-03-02'))", "text"),
        ("SELECT pg_typeof(gtd_ever('(h10){h4}', date '2024-03-01'))", "timestamp without time zone"),
        ("SELECT gtd_next('(h10){h4}', '2024-03-01 09:00:00', '2024-03-02')", "2024-03-01 10:00:00"),
        ("SELECT gtd_next('(h10){h4}', '2024-03-01T09:00:00', '2024-03-01 10:00:00')", None),
        ("SELECT gtd_next('(h10){h4}', timestamp '2024-03-01 09:00:00', '2024-03-01 10:00:01')", "2024-03-01 10:00:00"),
        ("SELECT gtd_holds('(h10){h4}', timestamp '2024-03-01 13:59:59.999999')", "true"),
        ("SELECT gtd_holds('(h10){h4}', timestamp '1924-03-01 13:59:59.999999')", "true"),
        ("SELECT gtd_holds('(h10){h4}', timestamp '1924-03-01 09:59:59.999999')", "false"),
        ("SELECT (gtd_spans('(h10){h14}', date '2699-12-31', date '2700-01-01'))::text",
         '("2699-12-31 10:00:00","2700-01-01 00:00:00")'),
        ("SELECT ends FROM gtd_spans('(h10){h14}', '2699-12-31', '2700-01-01')", "2700-01-01T00:00:00"),
        ("SELECT range_agg(tsrange(begins, ends)) "
         "FROM gtd_spans('(h10){h4}', date '2024-03-01', date '2024-03-02' + time '11:00')",
         '{["2024-03-01 10:00:00","2024-03-01 14:00:00"),["2024-03-02 10:00:00","2024-03-02 11:00:00")}'),
    ])


def check_closed(server):
    noon = "timestamp '2024-01-01 12:00'"
    asked = f"'positive', 11, {noon}"

    def closed(rows, question=asked, kind="text"):
        nothing = f"SELECT NULL::text, NULL::{kind}, NULL::text WHERE false"
        values = " UNION ALL ".join([nothing, *(f"SELECT {row}" for row in rows)])
        return f"SELECT gtd_closed(a, b, c, {question}) FROM ({values}) r(a, b, c)"

    check_answers(server, [(closed(rows), right) for rows, right in [
        ([], "false"), (["'both', '0', ''"], "true"), (["'both', '0', NULL"], "true"), (["'negative', '0', NULL"], "false"),
        (["'both', '12', ''"], "false"), (["'both', '12;11', ''"], "true"), (["'both', '!11', ''"], "false"),
        (["'both', '!12', '(h12){h1}'"], "true"), (["'both', '0', '(h13){h1}'"], "false"),
        (["'both', '0', '(h13){h1}'", "'positive', '11', '(h11){h2}'"], "true"), (["NULL, NULL, NULL"], "false"),
        (["NULL, NULL, NULL", "'both', '0', ''"], "true")]])
    check_answers(server, [
        (closed(["'both', 11, ''"], kind="integer"), "true"), (closed(["'both', 12, ''"], kind="integer"), "false"),
        (closed(["'both', 0, ''"], "'positive', 11, 1704110400", "integer"), "true"),
        (closed(["'both', '0', ''"], f"NULL, 11, {noon}"), None),
        (closed(["'both', '0', ''"], f"'positive', NULL, {noon}"), None),
        (closed(["'both', '0', ''"], "'positive', 11, NULL::timestamp"), None),
        (closed(["'up', '0', ''"]), "error 22P02|invalid direction: \"up\"||It must be positive, negative or both."),
        (closed(["NULL, '0', ''"]), "error 22P02|invalid direction: \"\"||It must be positive, negative or both."),
        (closed(["'both', 100, ''"], kind="integer"),
         "error 22P02|invalid vehicle types: \"100\"||It must be 0, or codes 1 to 99 joined by ;, or ! and such codes."),
        (closed(["'both', -1, ''"], kind="integer"),
         "error 22P02|invalid vehicle types: \"-1\"||It must be 0, or codes 1 to 99 joined by ;, or ! and such codes."),
        (closed(["'both', '0', '(h25){h1}'"]), fault_error("(h25){h1}", "FieldRange", 1)),
        (closed(["'both', '0', '(h1)\"{h1}'"]), fault_error('(h1)"{h1}', "BadToken", 4)),
        (closed(["'both', '0', ''"], f"'both', 11, {noon}"),
         "error 22P02|invalid direction: \"both\"||It must be positive or negative."),
        (closed(["'both', '0', ''"], f"'positive', 0, {noon}"),
         "error 22023|vehicle type out of range: 0|The vehicle type that is asked about must be a number from 1 to 99.|"),
        (closed(["'both', '0', ''"], f"'positive', 267, {noon}"),
         "error 22023|vehicle type out of range: 267|The vehicle type that is asked about must be a number from 1 to 99.|"),
    ])


def check_schema(server):
    """The type gtd_domain, constraints, indexes, views and generated columns; all of which a dump must hold."""
    server.psql("""
CREATE TABLE r(element bigint, direction text, vehicle integer, domain gtd_domain,
    canonical text GENERATED ALWAYS AS (gtd_canon(domain)) STORED);
CREATE TABLE plain(domain text CHECK (gtd_check(domain) IS NULL));
CREATE INDEX by_canon ON r(gtd_canon(domain));
CREATE INDEX at_night ON r(element) WHERE gtd_holds(domain, timestamp '2024-01-01 03:00');
CREATE VIEW night AS SELECT element FROM r WHERE gtd_holds(domain, timestamp '2024-01-01 03:00');
CREATE MATERIALIZED VIEW days AS SELECT element, begins FROM r, gtd_spans(r.domain, date '2024-01-01', date '2024-01-03');
INSERT INTO r SELECT n, 'both', 0, '(h4){h1}' FROM generate_series(100, 3000) n;
INSERT INTO r VALUES (1, 'both', 0, '[(m30h07){m30h1}]'), (2, 'both', 0, '(h3){h1}'), (3, 'both', 0, NULL);
REFRESH MATERIALIZED VIEW days;
ANALYZE r;
""")
    check_answers(server, [
        ("INSERT INTO r VALUES (4, 'both', 0, '(h25){h1}')", fault_error("(h25){h1}", "FieldRange", 1)),
        ("SELECT '(h25){h1}'::gtd_domain", fault_error("(h25){h1}", "FieldRange", 1)),
        ("SELECT NULL::gtd_domain", None),
        ("SELECT pg_typeof('(h1){h1}'::gtd_domain)", "gtd_domain"),
        ("SELECT count(*) FROM r WHERE gtd_closed IS NULL", "error 42703|column \"gtd_closed\" does not exist||"),
    ])
    said = server.ask(["INSERT INTO plain VALUES ('(h25){h1}')"])[0]
    check(said.startswith('error 23514|new row for relation "plain" violates check constraint'), f"a constraint: {said}")
    done = subprocess.run(server.client("psql", "roads", "-Xc", "COPY r(element, domain) FROM STDIN"),
                          input="7\t(h1){h1}\n8\t(h25){h1}\n", capture_output=True, text=True)
    shown = "\n(h25){h1}\n ^\n" in done.stderr and "COPY r, line 2, column domain" in done.stderr
    check(done.returncode == 1 and shown, f"COPY: {done.stderr}")
    check_kept(server, "roads")


def check_kept(server, base):
    """What the tables of check_schema answer; in the database that was restored, too."""
    for query, right, index in [
            ("SELECT element FROM r WHERE gtd_canon(domain) = '[(h7m30){h1m30}]'", "1", "by_canon"),
            ("SELECT element FROM r WHERE element < 9 AND gtd_holds(domain, timestamp '2024-01-01 03:00')", "2", "at_night"),
            ("SELECT canonical FROM r WHERE element = 1", "[(h7m30){h1m30}]", None),
            ("SELECT element FROM night", "2", None),
            ("SELECT count(*) FROM days", str(2 * 2903), None), ("SELECT count(*) FROM r", "2904", None),
            ("SELECT string_agg(element::text, ',') FROM r "
             "WHERE gtd_holds(domain, timestamp '2024-01-01 03:30') OR domain IS NULL", "2,3", None)]:
        found = server.psql(query, base)
        check(found == right, f"{query} in {base}: {found}")
        if index:
            plan = server.psql(f"EXPLAIN {query}", base)
            check(index in plan, f"{index} is not used in {base}: {plan}")


def long_query(server, name):
    """Begins a query that takes minutes, and returns its client and the number of its process."""
    client = subprocess.Popen(
        server.client("psql", "roads", "-Xc", f"SET application_name = '{name}'", "-c",
                      "SELECT count(gtd_canon('(h1){h' || n || '}')) FROM generate_series(1, 100000000) n"),
        stdout=subprocess.DEVNULL, stderr=subprocess.PIPE, text=True)
    for _ in range(200):
        found = server.psql(f"SELECT pid FROM pg_stat_activity WHERE application_name = '{name}' AND query LIKE '%count%'")
        if found:
            time.sleep(0.3)
            return client, int(found)
        time.sleep(0.05)
    raise RuntimeError(f"{name} does not begin")


def check_ends(server):
    """Queries that are stopped, and a backend that is killed in the middle; the others go on, and then all is as it was."""
    client, process = long_query(server, "stopped")
    server.psql(f"SELECT pg_cancel_backend({process})")
    said = client.communicate(timeout=30)[1]
    check("canceling statement due to user request" in said, f"stopped: {said}")
    each = "+".join(f"(s{second}){{s1}}" for second in range(0, 60, 2))
    done = subprocess.run(
        server.client("psql", "roads", "-Xc", "SET statement_timeout = '500ms'",
                      "-c", f"SELECT count(*) FROM gtd_spans('{each}', date '1990-01-01', date '2390-01-01')"),
        capture_output=True, text=True, timeout=60)
    check("canceling statement due to statement timeout" in done.stderr, f"timeout: {done.stderr}")
    client, process = long_query(server, "killed")
    os.kill(process, signal.SIGKILL)
    said = client.communicate(timeout=30)[1]
    check("server closed the connection unexpectedly" in said or "terminating connection" in said, f"killed: {said}")
    for _ in range(300):
        if server.is_up():
            break
        time.sleep(0.1)
    check_kept(server, "roads")


def long_call(call, words):
    """A call whose moments are texts."""
    return f"gtd_{call}({', '.join(map(quoted, words))})"


def check_long(server):
    """Answers of many windows; texts that are too long."""
    rights = {True: "true", False: "false"}
    check_answers(server, [(f"SELECT {long_call(call, words)}", rights.get(right, right)) for call, words, right in ANSWERS])
    spans = "SELECT string_agg(begins || ' until ' || ends, ', ') FROM "
    found = ", ".join(f"{begin} until {end}" for begin, end in nights(1, 50))
    asked = [NIGHTS, "2024-01-01 12:00:00", "2024-02-20 12:00:00"]
    check_answers(server, [(f"{spans}{long_call('spans', asked)}", found)])
    many = "'(h1)' || repeat(' ', 1048573)"
    check_answers(server, [(f"SELECT gtd_{call}({many})", "error 54000|the text has more than 1,048,576 bytes||")
                           for call in ("check", "canon", "words", "hours")])
    check_answers(server, [("SELECT gtd_canon('(h1){h1}' || repeat(' ', 1048568))", "[(h1){h1}]")])


def check_stopped(server):
    """Long questions end soon after they are cancelled or their time is over, also while the server plans a query of constants;
    and then the same session goes on."""
    for number, (call, words) in enumerate(QUESTIONS):
        query = f"SELECT {'count(*) FROM ' if call == 'spans' else ''}{long_call(call, words)}"
        for front in ("", "EXPLAIN "):
            if front and call == "spans":
                continue  # a function in FROM is not computed by the planner
            begin = time.monotonic()
            done = subprocess.run(
                server.client("psql", "roads", "-XAtc", "SET statement_timeout = '300ms'", "-c", front + query, "-c",
                              "SELECT gtd_canon('(h1){m60}')"), capture_output=True, text=True, timeout=60)
            passed = time.monotonic() - begin
            check("canceling statement due to statement timeout" in done.stderr and done.stdout.endswith("[(h1){m60}]\n")
                  and passed < 5, f"{front}question {number}: {done.stdout} {done.stderr[:200]} after {passed:.1f} s")
        name = f"long {number}"
        client = subprocess.Popen(server.client("psql", "roads", "-Xc", f"SET application_name = '{name}'", "-c", query),
                                  stdout=subprocess.DEVNULL, stderr=subprocess.PIPE, text=True)
        process = active(server, name)
        server.psql(f"SELECT pg_cancel_backend({process})")
        begin = time.monotonic()
        said = client.communicate(timeout=60)[1]
        passed = time.monotonic() - begin
        is_cancelled = "canceling statement due to user request" in said
        check(is_cancelled and passed < 5, f"cancelled question {number}: {said} after {passed:.1f} s")


def active(server, name):
    """The number of the process in which a session with this name asks a long question."""
    for _ in range(400):
        found = server.psql("SELECT pid FROM pg_stat_activity "
                            f"WHERE application_name = '{name}' AND state = 'active' AND query LIKE '%gtd_%'")
        if found:
            time.sleep(0.2)
            return int(found)
        time.sleep(0.05)
    raise RuntimeError(f"{name} does not begin")


def check_rows(server):
    """The memory of each row of gtd_spans ends with it: three million rows of texts take as much as 300,000."""
    script = """
CREATE FUNCTION pg_temp.peak() RETURNS bigint LANGUAGE sql AS
$$ SELECT (regexp_match(pg_read_file('/proc/self/status'), 'VmHWM:\\s+(\\d+)'))[1]::bigint $$;
SELECT count(*) FROM gtd_spans('(s0){s1}', '2024-01-01', '2024-08-01');
SELECT pg_temp.peak() AS before \\gset
SELECT count(*) FROM gtd_spans('(s0){s1}', '2024-01-01', '2030-01-01');
SELECT pg_temp.peak() - :before;
"""
    few, many, grown = server.psql(script, user="postgres").split("\n")
    check((int(few), int(many)) == (213 * 1440, 2192 * 1440), f"{few} and {many} rows")
    check(int(grown) < 5000, f"rows of gtd_spans: a backend grew by {grown} KiB")


def check_memory(server):
    """A backend that reads many texts, or fails again and again, keeps little."""
    script = """
CREATE FUNCTION pg_temp.resident() RETURNS bigint LANGUAGE sql AS
$$ SELECT (regexp_match(pg_read_file('/proc/self/status'), 'VmRSS:\\s+(\\d+)'))[1]::bigint $$;
CREATE FUNCTION pg_temp.work(n integer) RETURNS void LANGUAGE plpgsql AS $$ BEGIN
    PERFORM count(gtd_words('(h1){m' || i || '}')), count(gtd_next('(h1){m' || i || '}', i, 86400 * 400)),
        gtd_closed('both', i % 99, '(h1){m' || i || '}', 'positive', 1, i) FROM generate_series(1, n) i GROUP BY i % 7;
    FOR i IN 1..n / 10 LOOP
        BEGIN PERFORM count(*), gtd_canon('(h1)') FROM gtd_spans('(h1){m' || i || '}', 0, 864000); EXCEPTION WHEN OTHERS THEN END;
    END LOOP;
END $$;
SELECT pg_temp.work(20000);
SELECT pg_temp.resident() AS before \\gset
SELECT pg_temp.work(20000), pg_temp.work(20000), pg_temp.work(20000);
SELECT pg_temp.resident() - :before;
"""
    grown = int(server.psql(script, user="postgres").split("\n")[-1])
    check(grown < 3000, f"a backend grew by {grown} KiB")


def check_dump(server):
    dump = os.path.join(server.room, "dump")
    for words in [server.client("pg_dump", "roads", "-Fc", "-f", dump), server.client("pg_restore", "again", "-e", dump)]:
        done = subprocess.run(words, capture_output=True, text=True)
        check(done.returncode == 0, f"{words[0]}: {done.stderr}")
    check_kept(server, "again")
    sums = "SELECT md5(string_agg(t::text, E'\\n' ORDER BY t::text)) FROM (TABLE r) t"
    both = [server.psql(sums, base) for base in ("roads", "again")]
    check(both[0] == both[1], "the restored table differs")
    said = server.psql("DROP EXTENSION gtd CASCADE; SELECT count(*) FROM pg_proc WHERE proname LIKE 'gtd%'", "again")
    check(said == "0", f"{said} functions are left")


def main():
    with open(sys.argv[1], encoding="ascii") as file:
        cases = [json.loads(line) for line in file]
    with Server() as server:
        server.psql("CREATE ROLE owner LOGIN; CREATE DATABASE roads OWNER owner; CREATE DATABASE again OWNER owner",
                    "postgres", "postgres")
        server.psql(f"CREATE EXTENSION gtd; {ASKED}")
        check_cases(server, cases)
        check_columns(server, cases)
        check_pairs(server)
        check_null(server)
        check_errors(server)
        check_forms(server)
        check_closed(server)
        check_schema(server)
        check_ends(server)
        check_long(server)
        check_stopped(server)
        check_rows(server)
        check_memory(server)
        check_dump(server)
    return check.end()


if __name__ == "__main__":
    sys.exit(main())
