#!/usr/bin/env python3
"""Every command of both programs on damaged inputs: texts and files that are right but for a few bytes. A run must end by itself
within LIMIT seconds with a status that docs/COMMANDS.md has for it, without a signal; if it is refused, standard error says why,
and standard output has nothing but the list of `faults`. GTD and GTDESK in the environment name other programs than those of
`rt ci`.

With a third word, the extension of SQLite that bindings/build.sh has made, the functions of both extensions are asked such texts,
too: each answers, or raises an error that docs/LIBRARY.md has, and the server stays up.

Usage: tests/damaged.py COUNT [SEED [EXTENSION]]    (so many inputs; the same seed makes the same ones)
"""
import concurrent.futures
import itertools
import os
import random
import sqlite3
import subprocess
import sys
import tempfile

TOP = os.path.dirname(os.path.dirname(os.path.abspath(__file__)))
GTD = os.environ.get("GTD") or os.path.join(TOP, "crates", "gtd", "out", "gtd")
GTDESK = os.environ.get("GTDESK") or os.path.join(TOP, "crates", "gtdesk", "out", "gtdesk")
LIMIT = 60
MOMENT = "2024-04-01T09:30:00"
DAYS = ["2024-04-01", "2024-04-03"]

DOMAINS = ["[(M4d1){M3}]*[(h10){h4}]", "(t2t3t4t5t6h7m30){h8m30}", "[(M9){M10}]-[(y2024M12d24){d9}]", "(f11h6){h10}+(l26){d1}",
           "(y2024w10t3){w2}", "[(M11d15){M5}]-[(t1){d1}]"]
HOURS = ["Mo-Fr 08:00-18:00; We off", "Mar 15-Oct 31: Sa,Su 10:00-12:00,14:00-16:00",
         "2024-2026 week 10-20/2 Mo[1] sunrise-sunset", 'PH off || "on request"',
         "easter -2 days-easter +1 day 10:00+", "Dec 24,31 24/7 unknown"]
MOMENTS = [MOMENT, "2024-02-29 23:59:59", "2199-12-31T00:00:00"]
PIECES = (b'"', b",", b"\n", b"\r\n", b"\0", b"\xff", b"0", b"9999999999", b"-", b"(", b"]", b" ", b";")
QUESTIONS = "element,direction,vehicle,moment\n17,positive,12,2024-04-01T09:30:00\n102,negative,11,2024-04-01 09:30\n"


class Command:
    """A form of a command: words, of which those in braces are texts or files that may be damaged."""

    def __init__(self, program, *words, given=None, lists=False):
        self.program, self.words, self.given, self.lists = program, words, given, lists


def commands():
    """Each command with each kind of its inputs."""
    for call in (["check", "{domain}"], ["canon", "{domain}"], ["at", "{domain}", "{moment}"],
                 ["next", "{domain}", "{moment}", "2199-12-31"], ["ever", "{domain}", "{moment}"],
                 ["schedule", "{records}", *DAYS, "11"], ["year", "{records}", "102", "positive", "11", "2024"],
                 ["migrate", "{records}"]):
        yield Command(GTD, *call)
    for call in (["now", "{records}", "{moment}", "11"], ["now", "{records}", MOMENT, "11", "--why", "--json"],
                 ["words", "{domain}"], ["words", "--lang", "de", "{domain}"], ["hours", "{hours}"],
                 ["hours", "--strict", "{hours}"], ["hours", "--holidays", "{holidays}", "{hours}"],
                 ["hours", "--of", "{domain}"], ["same", "{domain}", "{domain}"],
                 ["same", "--hours", "{hours}", "{hours}"], ["same", "--file", "{records}"],
                 ["diff", "{records}", "{records}", *DAYS, "11"], ["diff", "{records}", "{records}", *DAYS, "11", "--rows"],
                 ["records", "{hours_file}"], ["records", "--holidays", "{holidays}", "{hours_file}"],
                 ["conditions", "{tags}", "{means}"], ["mend", "{records}"], ["mend", "hours", "{hours}"],
                 ["picture", "{records}", "102", "positive", "11", "2024"], ["picture-domain", "{domain}", "2024"]):
        yield Command(GTDESK, *call)
    yield Command(GTDESK, "faults", "{records}", lists=True)
    yield Command(GTDESK, "faults", "--warn", "{records}", lists=True)
    yield Command(GTDESK, "ask", "{records}", given="{questions}")


def sources():
    """The right inputs of each kind."""
    def files(*paths):
        found = []
        for path in paths:
            with open(os.path.join(TOP, *path.split("/")), "rb") as file:
                found.append(file.read())
        return found
    texts = {"domain": DOMAINS, "hours": HOURS, "moment": MOMENTS, "questions": [QUESTIONS]}
    found = {kind: [text.encode() for text in of] for kind, of in texts.items()}
    found["records"] = files("examples/restrictions.csv", "examples/town.csv", "examples/pass.csv", "examples/works.csv",
                             "examples/repeats.csv")
    found["hours_file"] = files("examples/town.hours.csv")
    found["holidays"] = files("examples/holidays.csv")
    found["tags"] = files("examples/conditions/ways.tags.csv")
    found["means"] = files("examples/conditions/means.csv")
    return found


def damaged(rng, data, pieces):
    """The bytes with some left out, put in, changed, or moved; pieces are taken from other inputs of the kind."""
    data = bytearray(data)
    for _ in range(rng.choice((1, 1, 1, 2, 3, 8))):
        at = rng.randrange(len(data) + 1)
        until = min(len(data), at + rng.choice((1, 1, 2, 5, 20)))
        how = rng.randrange(7)
        if how == 0:
            del data[at:until]
        elif how == 1:
            data[at:at] = bytes([rng.randrange(256)])
        elif how == 2:
            data[at:until] = rng.choice(PIECES)
        elif how == 3:
            data[at:at] = data[at:until] * rng.choice((1, 2, 50))
        elif how == 4 and at < len(data):
            data[at] ^= 1 << rng.randrange(8)
        elif how == 5:
            other = rng.choice(pieces)
            begin = rng.randrange(len(other))
            data[at:until] = other[begin:begin + rng.choice((1, 4, 16))]
        else:
            del data[at:]
    return bytes(data)


class Run:
    """A command with its inputs, some of them damaged."""

    def __init__(self, rng, command, kinds, folder, number):
        self.command, self.words, self.files, self.given = command, [], [], b""
        for word in command.words:
            kind = word.strip("{}")
            if kind == word:
                self.words.append(word.encode())
                continue
            data = self.input_of(rng, kind, kinds)
            if kind in ("domain", "hours", "moment"):
                self.words.append(data.replace(b"\0", b"?"))
            else:
                path = os.path.join(folder, f"{number}.{len(self.files)}").encode()
                self.files.append((path, data))
                self.words.append(path)
        if command.given:
            self.given = self.input_of(rng, command.given.strip("{}"), kinds)

    @staticmethod
    def input_of(rng, kind, kinds):
        data = rng.choice(kinds[kind])
        return data if rng.random() < 0.2 else damaged(rng, data, kinds[kind])

    def fault(self):
        """What is wrong with the run, or nothing."""
        for path, data in self.files:
            with open(path, "wb") as file:
                file.write(data)
        try:
            ran = subprocess.run([self.command.program, *self.words], input=self.given, capture_output=True, timeout=LIMIT,
                                 check=False)
        except subprocess.TimeoutExpired:
            return f"no end within {LIMIT} seconds"
        finally:
            for path, _ in self.files:
                os.unlink(path)
        return self.judged(ran)

    def judged(self, ran):
        stated = (0, 1, 2) if self.command.program == GTD else (0, 1, 2, 4)
        if ran.returncode not in stated:
            return f"status {ran.returncode}, told {ran.stderr[:200]}"
        if ran.returncode in (1, 2) and not self.command.lists and (ran.stdout or not ran.stderr):
            return f"status {ran.returncode}, printed {ran.stdout[:200]}, told {ran.stderr[:200]}"
        if self.command.program == GTD and bool(ran.stderr) != bool(ran.returncode):
            return f"status {ran.returncode}, told {ran.stderr[:200]}"
        return None


# Calls of both extensions with one text.
CALLS = ["gtd_check({})", "gtd_canon({})", "gtd_words({})", "gtd_hours({})", "gtd_holds({}, '2024-01-01 00:00:00')",
         "gtd_next({}, '2024-01-01 00:00:00', '2024-02-01')", "gtd_holds('(h1){h1}', {})", "gtd_same({}, '(h1){h1}')",
         "gtd_closed('both', '0', {}, 'positive', 1, '2024-01-01 00:00:00')",
         "gtd_closed('both', {}, '', 'positive', 1, '2024-01-01 00:00:00')"]

# The states of errors that PostgreSQL may raise: of a text, a moment, an argument, or too much that is asked for.
STATES = ("22P02", "22007", "22008", "22023", "54000")


def asked(rng, kinds):
    """A call, and a damaged text for it."""
    kind = rng.choice(("domain", "domain", "hours", "moment"))
    return rng.choice(CALLS), damaged(rng, rng.choice(kinds[kind]), kinds[kind])


def check_sqlite(rng, path, kinds, count):
    """Asks the extension of SQLite. Returns how many calls answered or raised an error, and the others."""
    base = sqlite3.connect(":memory:")
    base.enable_load_extension(True)
    base.load_extension(path.removesuffix(".so"))
    good, bad = 0, []
    for _ in range(count):
        call, text = asked(rng, kinds)
        try:
            found = base.execute(f"SELECT {call.replace('{}', '?')}", [text.decode("utf-8", "replace") if rng.random() < 0.8 else text])
            good += len(found.fetchall()) == 1
        except sqlite3.OperationalError as error:
            good += bool(str(error))
        except sqlite3.Error as error:
            bad.append(f"sqlite: {call} of {text!r}: {error!r}")
    return good, bad


def check_postgres(rng, kinds, count):
    """The same of PostgreSQL."""
    sys.path.insert(0, os.path.join(TOP, "tests", "sql"))
    from server import ASKED, Server, quoted
    good, bad = 0, []
    with Server() as server:
        server.psql("CREATE ROLE owner LOGIN; CREATE DATABASE roads OWNER owner", "postgres", "postgres")
        server.psql(f"CREATE EXTENSION gtd; {ASKED}")
        for first in range(0, count, 1000):
            queries = []
            for _ in range(min(1000, count - first)):
                call, text = asked(rng, kinds)
                word = quoted(text.replace(bytes(1), b"?").decode("utf-8", "replace"))
                queries.append(f"SELECT {call.replace('{}', word)}")
            for query, found in zip(queries, server.ask(queries)):
                if found and found.startswith("error ") and not found.startswith(tuple(f"error {state}|" for state in STATES)):
                    bad.append(f"postgres: {query!r}: {found}")
                else:
                    good += 1
        if not server.is_up():
            bad.append("postgres: the server is down")
    return good, bad


def main():
    count, seed = int(sys.argv[1]), int(sys.argv[2]) if len(sys.argv) > 2 else 1
    rng, kinds, forms = random.Random(seed), sources(), list(commands())
    passed, failed = 0, []
    with tempfile.TemporaryDirectory() as folder, concurrent.futures.ThreadPoolExecutor(os.cpu_count()) as pool:
        runs = (Run(rng, forms[number % len(forms)], kinds, folder, number) for number in range(count))
        while True:
            some = list(itertools.islice(runs, 1000))
            if not some:
                break
            for run, fault in zip(some, pool.map(Run.fault, some)):
                passed += fault is None
                if fault is not None:
                    failed.append(f"{os.path.basename(run.command.program)} {run.words} of {run.files} {run.given!r}: {fault}")
    if len(sys.argv) > 3:
        for good, bad in (check_sqlite(rng, sys.argv[3], kinds, count), check_postgres(rng, kinds, count)):
            passed, failed = passed + good, failed + bad
    for line in failed[:20]:
        print(f"FAILED {line[:2000]}")
    print(f"damaged: {passed} passed, {len(failed)} failed")
    sys.exit(bool(failed))


if __name__ == "__main__":
    main()
