#!/usr/bin/env python3
"""How long the package takes in process, beside its goals: bench/library.py [REPEATS]

It shows the best of so many runs (by default 5), and ends with status 1 if one misses its goal. It needs the library (LIBGTD).
"""

from __future__ import annotations

import sys
import time
from datetime import datetime
from pathlib import Path
from typing import Callable, List, NamedTuple

import numpy
import pandas

sys.path.insert(0, str(Path(__file__).resolve().parents[1]))

import gtd  # noqa: E402
from tests.make_records import rows  # noqa: E402

MILLION = 1_000_000
FIRST = numpy.datetime64("2024-01-01T00:00:00")


class Bench(NamedTuple):
    """Something that is measured."""

    name: str
    run: Callable[[], object]
    calls: int
    """How many times a run does what the goal is for."""
    goal: float
    """Seconds."""


def singly(domain: gtd.Domain, moment: datetime) -> Callable[[], None]:
    """A hundred thousand questions, one by one."""

    def run() -> None:
        contains = domain.contains
        for _ in range(100_000):
            contains(moment)

    return run


def closed_singly(records: gtd.Records, element: int, moment: datetime) -> Callable[[], None]:
    """The same of an element."""

    def run() -> None:
        closed_at = records.closed_at
        for _ in range(100_000):
            closed_at(element, "positive", 11, moment)

    return run


def benches() -> List[Bench]:
    """What is measured, with its goals."""
    domain = gtd.Domain("[(M4d1){M3}]*[(h10){h4}]")
    numbers = numpy.arange(MILLION)
    moments = (FIRST + numbers * numpy.timedelta64(61, "s")).astype("datetime64[s]")
    few = numbers[:100_000]
    texts = pandas.Series([f"(h{at % 24}m{at // 24 % 60}){{h{at // 1440 + 1}}}" for at in few.tolist()])
    assert texts.nunique() == len(texts)
    given = "".join(rows(65_536, 1)).encode()
    records = gtd.Records(given)
    elements = numpy.random.default_rng(1).choice(records.elements, MILLION)
    moment = datetime(2024, 4, 1, 12)
    return [
        Bench("Domain.contains of one moment", singly(domain, moment), 100_000, 3e-6),
        Bench("Domain.contains of a million moments", lambda: domain.contains(moments), 1, 0.3),
        Bench("100,000 domains with as many moments", lambda: texts.gtd.contains(moments[: len(texts)]), 1, 0.5),
        Bench("Records.closed_at of one question", closed_singly(records, int(elements[0]), moment), 100_000, 10e-6),
        Bench("Records.closed_at of a million", lambda: records.closed_at(elements, "positive", 11, moments), 1, 1.0),
        Bench("Records of 65,536 rows", lambda: gtd.Records(given), 1, 0.5),
        Bench("Records.schedule of a week of them", lambda: records.schedule("2024-04-01", "2024-04-08", 11), 1, 2.0),
    ]


def main(words: List[str]) -> int:
    """Run the command and return its exit status."""
    repeats = int(words[0]) if words else 5
    print(f"the library {gtd.library()}", file=sys.stderr)
    missed = 0
    print("| What | Seconds | Goal |\n|---|---|---|")
    for bench in benches():
        best = float("inf")
        for _ in range(repeats):
            begun = time.perf_counter()
            bench.run()
            best = min(best, (time.perf_counter() - begun) / bench.calls)
        missed += best > bench.goal
        print(f"| {bench.name} | {best:.3g} | {bench.goal:.3g}{'' if best <= bench.goal else ' (missed)'} |")
    return 1 if missed else 0


if __name__ == "__main__":
    sys.exit(main(sys.argv[1:]))
