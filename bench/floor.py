#!/usr/bin/env python3
"""The floor of each job: how long `cat` takes to read the bytes that the job reads, and to write those that it prints.

`floor.py [GTD [GTDESK]]` needs built programs (`rt ci` builds them), and what `measuring.py` says. Prints a table of Markdown: of
each job the bytes that are read and written, and the best of seven times, in turns, of `cat` and of the program. `cat` is called
twice, once for what is read and once for what is written. All files lie in memory where there is a /dev/shm, so that no disk is
measured."""
import os
import sys
import tempfile
import time

import measuring

ROUNDS = 7
VEHICLE, MOMENT, FIRST = "11", "2024-03-16T08:00:00", "2024-01-01"
MAKER = os.path.join(measuring.TOP, "python", "tests", "make_records.py")
MEMORY = "/dev/shm"


def jobs(gtd, gtdesk, made):
    """Each job's name, its command, and the file that it reads."""
    large, small = made(65_536), made(2_000)
    return [
        ("`gtd schedule`, 65,536 rows, 91 days", [gtd, "schedule", large, FIRST, "2024-04-01", VEHICLE], large),
        ("`gtd schedule`, 65,536 rows, a day", [gtd, "schedule", large, FIRST, "2024-01-02", VEHICLE], large),
        ("`gtd schedule`, 2,000 rows, ten years", [gtd, "schedule", small, FIRST, "2034-01-01", VEHICLE], small),
        ("`gtd migrate`, 65,536 rows", [gtd, "migrate", large], large),
        ("`gtdesk faults`, 65,536 rows", [gtdesk, "faults", large], large),
        ("`gtdesk now`, 65,536 rows", [gtdesk, "now", large, MOMENT, VEHICLE], large),
    ]


def writing(command, path):
    """The seconds of a command whose output is written to a file."""
    begun = time.perf_counter()
    measuring.written(command, path)
    return time.perf_counter() - begun


def measure(name, command, records, work):
    """Prints the row of a job."""
    printed, again = measuring.written(command, os.path.join(work, "printed")), os.path.join(work, "again")
    floors, times = [], []
    for _ in range(ROUNDS):
        floors.append(measuring.seconds(["cat", records]) + writing(["cat", printed], again))
        times.append(writing(command, again))
    floor, own = min(floors), min(times)
    sizes = [f"{os.path.getsize(path):,}" for path in (records, printed)]
    measuring.row([name, *sizes, f"{floor:.3f} s", f"{own:.3f} s", f"{own / floor:.0f}"])


def main():
    gtd = measuring.program(sys.argv[1:2])
    gtdesk = measuring.program(sys.argv[2:3], "gtdesk")
    with tempfile.TemporaryDirectory(dir=MEMORY if os.path.isdir(MEMORY) else None) as work:
        def made(rows):
            return measuring.written([sys.executable, MAKER, str(rows), "1"], os.path.join(work, f"records{rows}"))

        measuring.head(["Job", "Bytes read", "Bytes written", "`cat`", "Program", "to `cat`"])
        for name, command, records in jobs(gtd, gtdesk, made):
            measure(name, command, records, work)


if __name__ == "__main__":
    main()
