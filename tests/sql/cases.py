#!/usr/bin/env python3
"""Writes questions to the databases and what they must answer, a line of JSON for each. They are those that
tests/library/questions.py puts to the library, which says where the answers come from: of the files of examples/, and of random
domains and files. What lies between two moments that are not at midnight is cut out of the answers for whole days.

Usage: tests/sql/cases.py CASES COUNT [SEED]       (COUNT domains, and a fourth as many files, pairs of domains and opening hours)
"""
import csv
import glob
import io
import json
import os
import random
import re
import sys
from concurrent.futures import ThreadPoolExecutor

TESTS = os.path.dirname(os.path.dirname(os.path.abspath(__file__)))
sys.path[:0] = [TESTS, os.path.join(TESTS, "library")]

import questions  # noqa: E402

DAY, FIRST, END = questions.DAY, questions.FIRST, questions.END


def bytes_of(word):
    return bytes.fromhex(word[1:])


def is_text(domain):
    """Whether a text can be stored in PostgreSQL."""
    try:
        return b"\0" not in domain and domain.decode() is not None
    except UnicodeDecodeError:
        return False


class Cases:
    """The cases of one domain or of one file, from the lines that ask about it."""

    def __init__(self, seed, asked):
        self.random, self.found = random.Random(seed), []
        self.domain, self.other, self.hours, self.rows = None, None, None, None
        for question, answer in zip(asked.questions, asked.answers):
            words, told = question.split(), answer.split()
            read = getattr(self, f"read_{words[0]}", None)
            if read:
                read(words[1:], told)

    def given(self, moments):
        """Moments, each with how it is given: numbers if one of them has no text. The first of two may be a date, too."""
        kind = self.random.choice(["text", "text", "seconds", "timestamp"])
        if not all(FIRST <= second <= END - (len(moments) == 1) for second in moments):
            kind = "seconds"
        if kind != "text":
            return [[kind, second] for second in moments]
        forms = [self.random.choice(["T", "space"]) for _ in moments]
        if len(moments) == 2 and moments[1] % DAY == 0 and self.random.random() < 0.5:
            forms[1] = "date"
        return [[form, second] for form, second in zip(forms, moments)]

    def add(self, call, moments, answer, **more):
        self.found.append({"call": call, "domain": self.domain.hex(), "moments": self.given(moments), "answer": answer, **more})

    def read_domain(self, words, told):
        self.domain = bytes_of(words[0])
        fault = None if told[0] == "yes" else [questions.TEXT_FAULTS[int(told[1]) - 1], int(told[2])]
        self.add("check", [], fault and f"{fault[0]} at {fault[1]}")
        if fault:
            self.add(self.random.choice(["canon", "words"]), [], {"fault": fault})

    def read_holds(self, words, told):
        self.add("holds", [int(words[0])], {"range": 0} if told[0] == "range" else told[0] == "yes")

    def read_holds_many(self, words, told):
        for second, answer in zip(words[1:], told[1] if len(told) > 1 else ""):
            self.add("holds", [int(second)], answer == "1")

    def read_next(self, words, told):
        second, until = int(words[0]), int(words[1]) * DAY
        if told[0] == "range":
            return self.add("next", [second, until], {"range": 0})
        change = int(told[1]) if told[0] == "yes" else None
        self.add("next", [second, until], change)
        for other in [self.random.randint(second + 1, until)] + ([] if change is None else [change, change + 1]):
            if other > second:
                self.add("next", [second, other], change if change is not None and change < other else None)
        return None

    def read_ever(self, words, told):
        answers = {"range": {"range": 0}, "year": {"year": 0}, "no": None}
        self.add("ever", [int(words[0])], answers[told[0]] if told[0] in answers else int(told[1]))

    def read_spans(self, words, told):
        since, until = int(words[0]) * DAY, int(words[1]) * DAY
        if told[0] == "range":
            return self.add("spans", [since, until], {"range": 0})
        ends = [int(word) for word in told[1:]]
        for _ in range(2):
            cut = [[max(begin, since), min(end, until)] for begin, end in zip(ends[::2], ends[1::2])]
            self.add("spans", [since, until], [span for span in cut if span[0] < span[1]])
            since += self.random.randrange((until - since) // 2)
            until -= self.random.randrange((until - since) // 2)
        return None

    def read_canon(self, _words, told):
        if self.hours is None:
            return self.add("canon", [], bytes_of(told[1]).decode())
        self.found.append({"call": "hours", "domain": self.hours.hex(), "moments": [], "answer": bytes_of(told[1]).decode()})
        self.domain, self.hours = bytes_of(told[1]), None
        return None

    def read_hours(self, words, told):
        self.domain, self.hours = None, bytes_of(words[0])
        if told[0] == "no":
            fault = [questions.HOURS_FAULTS[int(told[1]) - 1], int(told[2])]
            self.found.append({"call": "hours", "domain": self.hours.hex(), "moments": [], "answer": {"hours": fault}})

    def read_other(self, words, _told):
        self.other = bytes_of(words[0])

    def read_same(self, words, told):
        begin, other = int(words[0]), self.other.hex()
        if begin == FIRST:
            self.add("same", [], told[0] != "no", other=other)
        answers = {"range": {"range": 0}, "yes": None, "year": None}
        self.add("apart", [begin], answers[told[0]] if told[0] in answers else int(told[1]), other=other)

    def read_words(self, _words, told):
        self.add("words", [], bytes_of(told[1]).decode().removesuffix("\n"))

    def read_records(self, words, told):
        self.rows = None
        if told[0] == "yes":
            lines = csv.reader(io.StringIO(bytes_of(words[0]).decode()))
            self.rows = [row for row in lines if row][1:]

    def read_closed(self, words, told):
        element, negative, vehicle, second = map(int, words)
        rows = [row[1:] for row in self.rows or [] if int(row[0]) == element]
        if told[0] != "range" and self.rows is not None:
            self.found.append({"call": "closed", "rows": rows, "direction": "negative" if negative else "positive",
                               "vehicle": vehicle, "moments": self.given([second]), "answer": told[0] == "yes"})


def case(kind, name):
    return Cases(name, getattr(questions, f"{kind}_case")(name)).found


def main():
    if len(sys.argv) not in (3, 4):
        sys.exit("usage: tests/sql/cases.py CASES COUNT [SEED]")
    count, seed = int(sys.argv[2]), sys.argv[3] if len(sys.argv) > 3 else "1"
    examples = [path for path in sorted(glob.glob(os.path.join(os.path.dirname(TESTS), "examples", "*.csv")))
                if not re.search(r"(\.schedule|\.hours|/holidays)\.csv$", path)]
    jobs = [("example", path) for path in examples]
    jobs += [("domain", f"domain {seed} {number}") for number in range(count)]
    jobs += [(kind, f"{kind} {seed} {number}") for kind in ("file", "pair", "hours") for number in range(count // 4)]
    with ThreadPoolExecutor(os.cpu_count()) as pool, open(sys.argv[1], "w", encoding="ascii") as file:
        for found in pool.map(lambda job: case(*job), jobs):
            file.writelines(json.dumps(it) + "\n" for it in found)


if __name__ == "__main__":
    main()
