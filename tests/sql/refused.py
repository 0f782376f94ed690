#!/usr/bin/env python3
"""Refuses each growth of memory of `sqlite3` in turn, while it loads the extension and runs tests/sql/memory.sql. Whatever is
refused, it must end by itself, and print nothing but lines of the full run, in their order. What `sqlite3` takes before is not
refused: it does not survive that.

Usage: tests/sql/refused.py EXTENSION REFUSE.SO DATABASE    (with the table of tests/sql/rows.sql)
"""
import os
import subprocess
import sys
from concurrent.futures import ThreadPoolExecutor

SCRIPT = os.path.join(os.path.dirname(os.path.abspath(__file__)), "memory.sql")
MOST = 20_000


def run(extension, base, **variables):
    """The status of a run, the lines that it printed, and what it wrote to standard error."""
    with open(SCRIPT, encoding="ascii") as script:
        done = subprocess.run(["sqlite3", "-readonly", "-init", "/dev/null", "-cmd", f".load {extension}", base], stdin=script,
                              capture_output=True, text=True, timeout=60, env={**os.environ, **variables})
    return done.returncode, done.stdout.splitlines(), done.stderr


def growths_before(refuse, base):
    """How many growths there are where no extension is loaded and the schema alone is read."""
    low, high = 0, MOST
    while high - low > 1:
        middle = (low + high) // 2
        done = subprocess.run(["sqlite3", "-readonly", "-init", "/dev/null", base], input="", capture_output=True, text=True,
                              env={**os.environ, "LD_PRELOAD": refuse, "REFUSE_GROWTH": str(middle)})
        low, high = (middle, high) if "growth refused" in done.stderr else (low, middle)
    return low


def is_part(lines, of):
    """Whether lines are among others, in their order."""
    rest = iter(of)
    return all(line in rest for line in lines)


def main():
    extension, refuse, base = sys.argv[1:]
    passed = failed = 0
    _, right, said = run(extension, base)
    assert len(right) > 25, said

    def refused(growth):
        return growth, run(extension, base, LD_PRELOAD=refuse, REFUSE_GROWTH=str(growth))

    begin, is_refused = growths_before(refuse, base) + 1, True
    first = begin
    with ThreadPoolExecutor(os.cpu_count()) as pool:
        while is_refused and first < MOST:
            for growth, (status, lines, said) in pool.map(refused, range(first, first + 100)):
                is_refused = "growth refused" in said
                if status in (0, 1) and is_part(lines, right) and (is_refused or lines == right):
                    passed += 1
                else:
                    failed += 1
                    print(f"FAILED growth {growth}: status {status}, {lines[-3:]}, {said[-300:]}")
            first += 100
    if first < begin + 500 or first >= MOST:
        failed += 1
        print(f"FAILED {first - begin} growths were tried")
    print(f"refused: {passed} passed, {failed} failed")
    return failed != 0


if __name__ == "__main__":
    sys.exit(main())
