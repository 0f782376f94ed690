#!/usr/bin/env python3
"""What `gtdesk diff` takes beside reading both files: `diff.py [GTDESK]`.

The new file is the old one with 100 rows changed. `gtdesk faults` of an accepted file reads every row, keeps none and prints
nothing; `gtdesk now` of one element that has no row reads the file into its records, as every report does, and prints a header.
The goal is that `diff` takes at most twice what reading both into records takes. It needs a built `gtdesk` (`rt ci` builds it),
and what `measuring.py` says. Prints a table of Markdown for the mixes of `now.py`: the best of five times of each command, taken
in turns, over one year."""
import os
import random
import sys
import tempfile

import measuring
from now import MIXES, MOST_ROWS, VEHICLE, write_rows

DAYS = ["2024-01-01", "2025-01-01"]
CHANGED = 100
ROUNDS = 5
SAME, DIFFER = 0, 4  # the statuses of `diff`


def changed(path, release):
    """The same file with some of its rows closed at another time."""
    with open(path, encoding="ascii") as file:
        rows = file.read().splitlines()
    for number in random.Random(2).sample(range(1, len(rows)), CHANGED):
        rows[number] = rows[number].rsplit(",", 1)[0] + ",(h3){m30}"
    with open(release, "w", encoding="ascii") as file:
        file.write("\n".join(rows) + "\n")
    return release


def main():
    gtdesk = measuring.program(sys.argv[1:], "gtdesk")
    with tempfile.TemporaryDirectory() as work:
        old, new = os.path.join(work, "old"), os.path.join(work, "new")
        measuring.head([f"All of {MOST_ROWS:,} rows", "`faults` of both", "Reading both", "`diff`", "`diff` to reading"])
        for name, domain in MIXES.items():
            changed(write_rows(old, MOST_ROWS, domain), new)
            commands = ([gtdesk, "faults", old], [gtdesk, "faults", new], measuring.reading(gtdesk, old),
                        measuring.reading(gtdesk, new), [gtdesk, "diff", old, new, *DAYS, VEHICLE])
            times = [[measuring.seconds(command, (SAME, DIFFER)) for command in commands] for _ in range(ROUNDS)]
            *single, both = (min(column) for column in zip(*times))
            faults, reading = sum(single[:2]), sum(single[2:])
            measuring.row([name, f"{faults:.3f} s", f"{reading:.3f} s", f"{both:.3f} s", f"{both / reading:.1f}"])


if __name__ == "__main__":
    main()
