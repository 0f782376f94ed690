#!/usr/bin/env python3
"""The built program on random and damaged inputs, for SECONDS, against the plain model of tests/model.py.

Every run must end by itself with a status from 0 to 3, print nothing on standard output if the status is 1 or 2, and write one
line to standard error exactly if the status is not 0. It must answer what the model answers: faults and their places,
membership, changes, schedules at their borders and in between. Run it after `rt ci`, which builds the program.

Usage: tests/fuzz.py SECONDS [SEED]    (the same seed makes the same inputs)
"""
import datetime
import os
import random
import re
import subprocess
import sys
import tempfile
import time

import model

TOP = os.path.dirname(os.path.dirname(os.path.abspath(__file__)))
GTD = os.path.join(TOP, "crates", "gtd", "out", "gtd")
LIMIT = 60
FIRST, LAST = datetime.datetime(1901, 1, 1), datetime.datetime(2199, 12, 31, 23, 59, 59)
EPOCH = datetime.datetime(1970, 1, 1)
HEADERS = {1: "element,direction,vehicle,domain", 2: "element,direction,vehicles,domain"}


class Failure(Exception):
    """What the program did but should not have done."""


def expect(holds, what):
    if not holds:
        raise Failure(what)


def run(*words):
    """One run: its status and its output. It is a failure if it breaks what holds for every run."""
    words = [word if isinstance(word, bytes) else str(word).encode() for word in words]
    try:
        done = subprocess.run([GTD, *words], stdin=subprocess.DEVNULL, capture_output=True, timeout=LIMIT)
    except subprocess.TimeoutExpired:
        raise Failure(f"{words} does not end") from None
    expect(0 <= done.returncode <= 3, f"{words} ends with status {done.returncode}")
    expect(done.returncode not in (1, 2) or not done.stdout, f"{words} prints although it is refused")
    lines = done.stderr.count(b"\n")
    one = lines == 1 and done.stderr.endswith(b"\n")
    expect(one if done.returncode else not done.stderr, f"{words} writes {done.stderr!r} to standard error")
    return done.returncode, (done.stdout or done.stderr).decode(errors="replace").rstrip("\n")


def second_of(stamp):
    return int((datetime.datetime.fromisoformat(stamp) - EPOCH).total_seconds())


def stamp_of(second):
    return (EPOCH + datetime.timedelta(seconds=second)).isoformat()


class Maker:
    """Makes random inputs: mostly valid ones, near each other in time."""

    def __init__(self, seed):
        self.random = random.Random(seed)

    def field(self, letter):
        low, high = model.START[letter]
        if letter == "y":
            return f"y{self.random.randint(1995, 2030):04}"
        if letter == "w" and self.random.random() < 0.4:
            return self.random.choice(["w1", "w52", "w53"])
        return f"{letter}{self.random.randint(low, high)}"

    def start(self):
        letters = self.random.sample("yMwdthms", self.random.choice([1, 1, 2, 2, 3]))
        if self.random.random() < 0.15:
            letters = ["y", "w", *self.random.choice(["", "t", "M"])]
        fields = [self.field(letter) for letter in letters]
        if self.random.random() < 0.2:
            fields.append(self.random.choice("fl") + str(self.random.randint(1, 5)) + str(self.random.randint(1, 7)))
        if "t" in letters and self.random.random() < 0.5:
            fields.append(self.field("t"))
        return "".join(fields)

    def duration(self):
        most = {"y": 2, "M": 14, "w": 6, "d": 40, "h": 60, "m": 200, "s": 90000}
        letters = self.random.sample("yMwdhms", self.random.choice([1, 1, 1, 2]))
        return "".join(f"{letter}{self.random.randint(0, most[letter])}" for letter in letters)

    def domain(self, depth=0):
        if depth > 2 or self.random.random() < 0.5:
            basic = f"({self.start()}){{{self.duration()}}}"
            return f"[{basic}]" if self.random.random() < 0.3 else basic
        text = self.domain(depth + 1) + self.random.choice("+*-") + self.domain(depth + 1)
        return f"[{text}]" if self.random.random() < 0.5 else text

    def loose(self):
        """A text in the form of a domain, whose fields may be anything or that is near a limit."""
        if self.random.random() < 0.1:
            count = self.random.randint(126, 130)
            length = self.random.choice(["d36600", "d36601", "y100", "y100s1", "M1180", "M1181", "w5228", "w5229", "h878400m1"])
            return self.random.choice([
                "[" * count + "(h1){h1}" + "]" * count, "+".join(["(h1){h1}"] * count), f"(h1){{h1}}+(h1){{{length}}}",
            ])

        def fields():
            digits = self.random.choice([1, 1, 2, 2, 4, 6, 7])
            number = self.random.randrange(10 ** digits)
            return "".join(f"{self.random.choice('yMwdtflhms')}{number:0{digits}}" for _ in range(self.random.randint(0, 3)))

        return f"({fields()}){self.random.choice(['{', '{', '[', '+'])}{fields()}}}"

    def damaged(self, text, alphabet):
        """The bytes of a text, with some inserted, removed or changed."""
        data = bytearray(text.encode())
        for _ in range(self.random.choice([0, 1, 1, 2, 4])):
            at = self.random.randint(0, len(data))
            new = self.random.choice(alphabet) if self.random.random() < 0.95 else self.random.randint(1, 255)
            data[at:at + self.random.choice([0, 1])] = [new] if self.random.random() < 0.7 else []
        return bytes(data)

    def moment(self, text=""):
        """A second for a moment: often near New Year, in a year that the text gives if it gives one."""
        years = re.findall(r"y(\d{4})", text)
        if years and self.random.random() < 0.5:
            new_year = second_of(f"{self.random.choice(years)}-01-01")
            return new_year + self.random.choice([0, 366]) * model.DAY + self.random.randint(-5 * model.DAY, 5 * model.DAY)
        if self.random.random() < 0.1:
            return self.random.randint(second_of(FIRST.isoformat()), second_of(LAST.isoformat()))
        if self.random.random() < 0.3:
            new_year = second_of(f"{self.random.randint(1995, 2030)}-01-01")
            return new_year + self.random.randint(-5 * model.DAY, 5 * model.DAY)
        return second_of("2000-01-01T00:00:00") + self.random.randint(0, 25 * 366 * model.DAY)

    def row(self, version):
        codes = self.random.sample(range(1, 16), self.random.randint(1, 3))
        column = str(self.random.choice([0, codes[0]]))
        if version == 2 and self.random.random() < 0.7:
            column = self.random.choice(["", "!"]) + ";".join(map(str, codes))
        domain = self.domain() if self.random.random() < 0.9 else ""
        return [str(self.random.randint(1, 3)), self.random.choice(["positive", "negative", "both"]), column, domain]

    def file(self):
        """A record file of few elements, which may repeat a domain: its version, and its rows as columns of text."""
        version = self.random.choice([1, 2])
        rows = [self.row(version) for _ in range(self.random.randint(0, 6))]
        if rows and self.random.random() < 0.3:
            repeated = self.random.choice(rows)[3]
            for row in self.random.sample(rows, self.random.randint(1, len(rows))):
                row[3] = repeated
        return version, rows


def is_text(data):
    try:
        data.decode()
        return True
    except UnicodeDecodeError:
        return False


def check_fault(maker):
    """The fault of a text that may be damaged."""
    text = maker.loose() if maker.random.random() < 0.5 else maker.domain()
    data = maker.damaged(text, b"[](){}+*-yMwdtflhmsz0123456789 x")
    status, line = run("check", "--", data)
    if not is_text(data):
        return expect(status == 2, f"{data!r} is no text, and answered with {status}")
    try:
        model.read(data)
        answer = (0, "ok")
    except model.Fault as fault:
        answer = (1, f"fault {fault}")
    return expect((status, line) == answer, f"check {data!r}: {line}, and not {answer[1]}")


def check_membership(maker):
    """Membership of a second, in the domain and in that of the canonical text."""
    text = maker.domain()
    second = maker.moment(text)
    state = "in" if model.contains(model.read(text.encode()), second) else "out"
    _, line = run("at", text, stamp_of(second))
    expect(line == state, f"at '{text}' {stamp_of(second)}: {line}, and not {state}")
    _, canonical = run("canon", text)
    expect(run("canon", canonical)[1] == canonical, f"canon '{text}' is not its own canonical text")
    again = "in" if model.contains(model.read(canonical.encode()), second) else "out"
    expect(again == state, f"canon '{text}': {canonical} means something else at {stamp_of(second)}")


def check_change(maker):
    """The first change after a second, before a day: the state changes there, and at no second of a sample before it."""
    text = maker.domain()
    second = maker.moment(text)
    last = min(second // model.DAY + maker.random.choice([1, 2, 40, 400]), 84006)
    words = ["next", text, stamp_of(second), stamp_of(last * model.DAY)[:10]]
    status, line = run(*words)
    if second // model.DAY >= last:
        return expect(status == 1, f"{words}: {line}")
    expression = model.read(text.encode())
    state, end = model.contains(expression, second), last * model.DAY
    if line != "none":
        stamp, shown = line.split()
        end = second_of(stamp)
        expect(second < end < last * model.DAY, f"{words}: {line} is not between them")
        changed = model.contains(expression, end)
        expect(changed != state and shown == ("in" if changed else "out"), f"{words}: {line} is no change")
        expect(model.contains(expression, end - 1) == state, f"{words}: {line} is not the first change")
    for other in [maker.random.randrange(second, end) for _ in range(6)]:
        expect(model.contains(expression, other) == state, f"{words}: {line}, but {stamp_of(other)} is a change")
    return None


def write(room, name, version, rows):
    path = os.path.join(room, name)
    with open(path, "w", encoding="ascii") as file:
        file.write("\n".join([HEADERS[version]] + [",".join(row) for row in rows]) + "\n")
    return path


def spans_of(lines, words):
    """The spans of a schedule by element and direction; they must be in order and not touch."""
    spans, before = {}, None
    for line in lines:
        element, direction, _, start, end = line.split(",")
        here = (int(element), direction == "negative", second_of(start))
        expect(before is None or before < here, f"{words}: {line} is out of order")
        before = here
        own = spans.setdefault((int(element), direction), [])
        expect(here[2] < second_of(end) and (not own or own[-1][1] < here[2]), f"{words}: {line} is empty or touches")
        own.append((here[2], second_of(end)))
    return spans


def check_schedule(maker, room):
    """A schedule at its spans' borders and at some seconds between; that of the migrated file; and days of the table."""
    version, rows = maker.file()
    path, vehicle = write(room, "records.csv", version, rows), maker.random.randint(1, 15)
    first = maker.moment() // model.DAY
    last = min(first + maker.random.choice([1, 3, 30]), 266627)
    days = [stamp_of(day * model.DAY)[:10] for day in (first, last)]
    status, text = run("schedule", path, *days, vehicle)
    words = f"schedule {version} {rows} {days} {vehicle}"
    expect(status == 0 and text.startswith("element,direction,vehicle,from,until"), f"{words}: {text}")
    spans = spans_of(text.split("\n")[1:], words)
    read = [row[:3] + [model.read(row[3].encode()) if row[3] else None] for row in rows]
    low, high = first * model.DAY, last * model.DAY
    for element in {int(row[0]) for row in rows}:
        for direction in ("positive", "negative"):
            own = spans.get((element, direction), [])
            seconds = {second for span in own[:4] for end in span for second in (end - 1, end)}
            seconds |= {low, high - 1} | {maker.random.randrange(low, high) for _ in range(3)}
            for second in (second for second in seconds if low <= second < high):
                shown = any(start <= second < end for start, end in own)
                right = model.is_open(read, version, element, direction, vehicle, second)
                expect(shown == right, f"{words}: {element} {direction} at {stamp_of(second)}")
    migrated = os.path.join(room, "migrated.csv")
    with open(migrated, "w", encoding="ascii") as file:
        file.write(run("migrate", path)[1] + "\n")
    expect(run("schedule", migrated, *days, vehicle)[1] == text, f"{words}: the migrated file has another schedule")


def check_table(maker, room):
    """The table of a year, against the schedule of that year."""
    version, rows = maker.file()
    if not rows:
        return
    path, vehicle, year = write(room, "records.csv", version, rows), maker.random.randint(1, 15), maker.random.randint(1990, 2030)
    element, direction = int(rows[0][0]), maker.random.choice(["positive", "negative"])
    words = f"year {version} {rows} {element} {direction} {vehicle} {year}"
    status, text = run("year", path, element, direction, vehicle, year)
    _, schedule = run("schedule", path, f"{year}-01-01", f"{year + 1}-01-01", vehicle)
    own = spans_of(schedule.split("\n")[1:], words).get((element, direction), [])
    lines = text.split("\n")
    expect(status == 0 and len(lines) == 365 + model.calendar.isleap(year), f"{words}: {text[:80]}")
    for line in maker.random.sample(lines, 20):
        day, count = line.split()
        low = second_of(day)
        right = sum(max(0, min(end, low + model.DAY) - max(start, low)) for start, end in own)
        expect(int(count) == right, f"{words}: {line}, and not {right}")


def check_damage(maker, room):
    """Damaged words and files: only what holds for every run."""
    version, rows = maker.file()
    path = os.path.join(room, "damaged.csv")
    text = "\n".join([HEADERS[version]] + [",".join(row) for row in rows]) + "\n"
    with open(path, "wb") as file:
        file.write(maker.damaged(text, b",;!\"\n\r0123456789positvebhngM(){}[]+*- "))
    domain, moment = maker.domain(), stamp_of(maker.moment())
    words = maker.random.choice([
        ["schedule", path, "2024-01-01", "2024-02-01", "11"], ["year", path, "1", "positive", "11", "2024"], ["migrate", path],
        ["check", domain], ["canon", domain], ["at", domain, moment], ["next", domain, moment, "2030-01-01"],
        ["ever", domain, moment],
    ])
    at = maker.random.randrange(len(words))
    if words[at] != path:
        words[at] = maker.damaged(words[at], b"-:T0123456789abcdefghijklmnopqrstuvwxyz").replace(b"\0", b"")
    if maker.random.random() < 0.1:
        words.append("more")
    run(*words)


def main():
    if len(sys.argv) not in (2, 3):
        sys.exit("usage: tests/fuzz.py SECONDS [SEED]")
    if not os.path.exists(GTD):
        sys.exit(f"no program at {GTD}: run rt ci first")
    seed = int(sys.argv[2]) if len(sys.argv) == 3 else random.SystemRandom().randrange(10**9)
    end, rounds = time.monotonic() + float(sys.argv[1]), 0
    maker = Maker(seed)
    with tempfile.TemporaryDirectory() as room:
        checks = [
            check_fault, check_membership, check_change, lambda maker: check_schedule(maker, room),
            lambda maker: check_table(maker, room), lambda maker: check_damage(maker, room),
        ]
        while time.monotonic() < end:
            for check in checks:
                try:
                    check(maker)
                except Failure as failure:
                    print(f"FAILED with seed {seed}, in round {rounds + 1}: {failure}")
                    print(f"fuzz: {rounds * len(checks)} passed, 1 failed")
                    sys.exit(1)
            rounds += 1
    print(f"seed {seed}, {rounds} rounds of {len(checks)} checks")
    print(f"fuzz: {rounds * len(checks)} passed, 0 failed")


if __name__ == "__main__":
    main()
