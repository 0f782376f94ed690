#!/usr/bin/env python3
"""What `gtdesk now` takes beside reading alone: `now.py [GTDESK]`.

`gtdesk faults` of an accepted file reads every row and prints nothing, so it stands for reading. It needs a built `gtdesk`
(`rt ci` builds it), and what `measuring.py` says. Prints two tables of Markdown, one by the number of rows and one by what the
rows hold: the best of five times of each command, taken in turns; the instructions of each, counted with callgrind, which other
work on the machine does not blur; and the peak memory of `now`."""
import os
import random
import sys
import tempfile

import measuring

MOMENT = "2024-03-16T08:00:00"
VEHICLE = "11"
ROUNDS = 5
MOST_ROWS = 65_536
MAKER = os.path.join(measuring.TOP, "python", "tests", "make_records.py")

# What all rows of a file hold, by name.
MIXES = {
    "no domain": lambda rng: "",
    "each day": lambda rng: f"[(h{rng.randint(5, 11)}){{h{rng.randint(1, 5)}}}]",
    "all of each day": lambda rng: "[(h0){h24}]",
    "hours of working days": lambda rng: f"[(h{rng.randint(5, 11)}){{h2}}]*[(t2){{d5}}]",
    "each year": lambda rng: f"[(M{rng.randint(1, 12)}d1){{M3}}]",
    "nights of each year": lambda rng: f"[(M{rng.randint(1, 12)}d1){{M3}}]*[(h22){{h8}}]",
    "years past and to come": lambda rng: f"[(y{rng.randint(2004, 2044)}M{rng.randint(1, 12)}d1){{w{rng.randint(1, 9)}}}]",
}


def write_rows(path, number, domain):
    """A file of rows with these domains, about two for each element."""
    rng = random.Random(1)
    with open(path, "w", encoding="ascii") as file:
        file.write("element,direction,vehicle,domain\n")
        for _ in range(number):
            direction = rng.choice(["positive", "negative", "both"])
            file.write(f"{rng.randint(1, number // 2)},{direction},{rng.choice([0, 11, 12])},{domain(rng)}\n")
    return path


def measure(name, gtdesk, records, report):
    """Prints the row of a file."""
    commands = [gtdesk, "faults", records], [gtdesk, "now", records, MOMENT, VEHICLE]
    times = [[measuring.seconds(command) for command in commands] for _ in range(ROUNDS)]
    reading, now = (min(column) for column in zip(*times))
    cells = [name, f"{reading:.3f} s", f"{now:.3f} s", f"{now / reading:.1f}"]
    if measuring.has_callgrind():
        millions = [measuring.instructions(command) / 1_000_000 for command in commands]
        cells += [f"{millions[0]:,.0f}", f"{millions[1]:,.0f}", f"{millions[1] / millions[0]:.1f}"]
    memory = measuring.run(commands[1], 600, report).mebibytes
    measuring.row([*cells, f"{memory:.1f} MiB"])


def head(first):
    counted = ["Instructions of reading (millions)", "of `now`", "`now` to reading"] if measuring.has_callgrind() else []
    measuring.head([first, "Reading alone", "`now`", "`now` to reading", *counted, "Memory of `now`"])


def main():
    given = sys.argv[1:] or [os.path.join(measuring.TOP, "crates", "gtdesk", "out", "gtdesk")]
    gtdesk = measuring.program(given)
    with tempfile.TemporaryDirectory() as work:
        report, path = os.path.join(work, "report"), os.path.join(work, "records")
        measuring.check_memory(report)
        head("Rows")
        for rows in (1_024, 4_096, 16_384, MOST_ROWS):
            records = measuring.written([sys.executable, MAKER, str(rows), "1"], path)
            measure(f"{rows:,}", gtdesk, records, report)
        print()
        head(f"All of {MOST_ROWS:,} rows")
        for name, domain in MIXES.items():
            measure(name, gtdesk, write_rows(path, MOST_ROWS, domain), report)


if __name__ == "__main__":
    main()
