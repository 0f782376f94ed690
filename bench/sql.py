#!/usr/bin/python3
"""Questions in SQL, in one run: Markdown tables, and status 1 if a goal is missed. A million rows of one domain may take four
times as long as a bare scan of the same columns, and a column of 100,000 different texts 0.3 s in SQLite. The queries take turns,
and each time is the least of several. Run it after bindings/build.sh; it needs what tests/setup.sh installs.

Usage: bench/sql.py
"""
import os
import re
import sqlite3
import subprocess
import sys
import time

TOP = os.path.dirname(os.path.dirname(os.path.abspath(__file__)))
sys.path.insert(0, os.path.join(TOP, "tests", "sql"))

from server import Server  # noqa: E402

DOMAIN = "[(M4d1){M3}]*[(h10){h4}]"
ROWS, TEXTS, RUNS = 1_000_000, 100_000, 9
FACTOR, SECONDS = 4, 0.3
FIRST = 1_711_929_600

# Queries of both databases: what a row of the table says, where it is, and the scan that it is held to.
QUERIES = {
    "scan": ("a bare scan of the moments, `second % 2 = 0`", "second % 2 = 0", None),
    "constant": ("`gtd_holds` of one domain", f"gtd_holds('{DOMAIN}', second)", "scan"),
    "both": ("a bare scan of both columns, `second % 2 = 0 AND domain <> ''`", "second % 2 = 0 AND domain <> ''", None),
    "column": ("`gtd_holds` of the column", "gtd_holds(domain, second)", "both"),
}


def queries(moment):
    """All queries by their names; the moment is one that all texts are asked about."""
    found = {name: f"SELECT count(*) FROM m WHERE {where}" for name, (_, where, _) in QUERIES.items()}
    found["texts"] = f"SELECT count(*) FROM texts WHERE gtd_holds(domain, {moment})"
    found["canon"] = "SELECT count(gtd_canon(domain)) FROM texts"
    return found


def different():
    """So many different domains, those of python/bench/library.py."""
    return [f"(h{at % 24}m{at // 24 % 60}){{h{at // 1440 + 1}}}" for at in range(TEXTS)]


def sqlite():
    """Seconds of each query of SQLite."""
    subprocess.run(["make", "-s", "-C", os.path.join(TOP, "bindings", "sqlite")], check=True)
    base = sqlite3.connect(":memory:")
    base.enable_load_extension(True)
    base.load_extension(os.path.join(TOP, "bindings", "out", "mod_gtd"))
    base.execute("CREATE TABLE m(domain TEXT, second INTEGER)")
    base.execute("WITH RECURSIVE n(i) AS (SELECT 0 UNION ALL SELECT i + 1 FROM n WHERE i < ?) INSERT INTO m "
                 "SELECT ?, ? + i * 37 FROM n", (ROWS - 1, DOMAIN, FIRST))
    base.execute("CREATE TABLE texts(domain TEXT)")
    base.executemany("INSERT INTO texts VALUES (?)", ((text,) for text in different()))
    took = {}
    for _ in range(RUNS):
        for name, query in queries("'2024-05-17T10:59:59'").items():
            begun = time.perf_counter()
            base.execute(query).fetchall()
            took.setdefault(name, []).append(time.perf_counter() - begun)
    return {name: min(times) for name, times in took.items()}


def postgres():
    """Seconds of each query of PostgreSQL, without parallel workers."""
    with Server() as server:
        server.psql(f"""CREATE EXTENSION gtd;
CREATE TABLE m AS SELECT '{DOMAIN}'::text AS domain, {FIRST} + i * 37::bigint AS second FROM generate_series(0, {ROWS - 1}) i;
CREATE TABLE texts(domain text);
INSERT INTO texts VALUES {', '.join(f"('{text}')" for text in different())};
VACUUM ANALYZE m; VACUUM ANALYZE texts;""", "postgres", "postgres")
        asked = queries("timestamp '2024-05-17 10:59:59'")
        explained = "".join(f"EXPLAIN (ANALYZE, TIMING OFF) {query};\n" for query in asked.values())
        said = server.psql(f"SET max_parallel_workers_per_gather = 0; SET jit = off; {explained * RUNS}", "postgres", "postgres")
        times = [float(took) / 1000 for took in re.findall(r"Execution Time: ([0-9.]+) ms", said)]
        return {name: min(times[at::len(asked)]) for at, name in enumerate(asked)}


def main():
    found = {"SQLite": sqlite(), "PostgreSQL": postgres()}
    missed = []
    print("| A million rows | SQLite | to its scan | PostgreSQL | to its scan | Goal |\n|---|---|---|---|---|---|")
    for name, (said, _, scan) in QUERIES.items():
        cells = []
        for base, took in found.items():
            ratio = took[name] / took[scan or name]
            cells.append(f"{took[name]:.2f} s | {f'{ratio:.1f}' if scan else ''}")
            if ratio > FACTOR:
                missed.append(f"{base}, {name}: {ratio:.1f}")
        print(f"| {said} | {' | '.join(cells)} | {FACTOR if scan else ''} |")
    print(f"\n| A column of {TEXTS:,} different texts | SQLite | Goal | PostgreSQL |\n|---|---|---|---|")
    for name, said in [("texts", "`gtd_holds` of one moment"), ("canon", "`gtd_canon`")]:
        goal = f"{SECONDS} s" if name == "texts" else ""
        print(f"| {said} | {found['SQLite'][name]:.2f} s | {goal} | {found['PostgreSQL'][name]:.2f} s |")
    if found["SQLite"]["texts"] > SECONDS:
        missed.append(f"SQLite, texts: {found['SQLite']['texts']:.2f} s")
    if missed:
        print("missed: " + "; ".join(missed), file=sys.stderr)
    return bool(missed)


if __name__ == "__main__":
    sys.exit(main())
