#!/usr/bin/env python3
"""What `gtdesk same --file` takes beside reading the file: `repeats.py [GTDESK]`.

`gtdesk faults` of an accepted file reads every row, keeps none and prints nothing; `gtdesk now` of one element that has no row
reads the file into its records, as every report does, and prints a header. The goal is that `same --file` takes at most three
times what reading into records takes, where texts repeat. It needs a built `gtdesk` (`rt ci` builds it), and what `measuring.py`
says. Prints a table of Markdown for 400 texts that repeat, for the mixes of `now.py`, and for texts that are all different: the
best of five times of each command, taken in turns."""
import itertools
import os
import sys
import tempfile

import measuring
from now import MIXES, MOST_ROWS, write_rows

ROUNDS = 5
SAME, FOUND = 0, 4  # the statuses of `same --file`

# Hours of each day, of working days and of some other days; and the same where every fourth text is of three months alone.
DAYS = ["", "*[(t2){d5}]", "*[(t7){d2}]"]
HOURS = [f"[(h{hour}m{minute}){{h{lasts}}}]" for hour in range(5, 15) for minute in (0, 30) for lasts in range(1, 6)]
OF_WEEKS = [hours + days for hours in HOURS for days in [*DAYS, "*[(t4){d1}]"]]
OF_MONTHS = [hours + days for hours in HOURS for days in [*DAYS, "*[(M4d1){M3}]"]]


def different():
    """Makes a text that no other row has."""
    number = itertools.count()

    def text(_):
        at = next(number)
        return f"[(h{at % 19}m{at // 19 % 60}){{h{1 + at // 1140 % 5}m{at // 5700}}}]"
    return text


FILES = {
    f"{len(OF_WEEKS)} texts of weeks": lambda rng: rng.choice(OF_WEEKS),
    f"{len(OF_MONTHS)} texts, some of months": lambda rng: rng.choice(OF_MONTHS),
    **MIXES,
    "all different": different(),
}


def main():
    gtdesk = measuring.program(sys.argv[1:], "gtdesk")
    with tempfile.TemporaryDirectory() as work:
        path = os.path.join(work, "records")
        measuring.head([f"All of {MOST_ROWS:,} rows", "`faults`", "Reading", "`same --file`", "`same --file` to reading"])
        for name, domain in FILES.items():
            write_rows(path, MOST_ROWS, domain)
            commands = [gtdesk, "faults", path], measuring.reading(gtdesk, path), [gtdesk, "same", "--file", path]
            times = [[measuring.seconds(command, (SAME, FOUND)) for command in commands] for _ in range(ROUNDS)]
            faults, reading, both = (min(column) for column in zip(*times))
            measuring.row([name, f"{faults:.3f} s", f"{reading:.3f} s", f"{both:.3f} s", f"{both / reading:.1f}"])


if __name__ == "__main__":
    main()
