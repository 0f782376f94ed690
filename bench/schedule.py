#!/usr/bin/env python3
"""The main job beside two native programs that are not proved: `schedule.py [PROGRAM]`. All outputs must be the same bytes.

`native.rs` is a plain program; `best.rs` is the fastest one that we know. It reads equal texts once, or with the word
`plain` each time. The script needs a built `gtd` (`rt ci` builds it), rustc, and what `measuring.py` needs; without
valgrind it shows nanoseconds in place of instructions. It prints Markdown tables: for two files, the best of seven times
of each program, run in turns, and its peak memory; then how the cost of a line grows with the rows, the horizon, the
records of one element and the basic domains of one text. Instructions are those of the whole run, counted by callgrind,
so other work on the machine changes only the times."""
import filecmp
import os
import sys
import tempfile

import measuring
from worst_inputs import Folder, clock_starts, joined

VEHICLE = "11"
ROUNDS = 7
FIRST = "2024-01-01"


class Bench:
    """The programs to compare, and a folder for what they read and print."""

    def __init__(self, gtd, work):
        best = measuring.build_native("best", work)
        native = measuring.build_native("native", work)
        self.work = work
        self.report = os.path.join(work, "report")
        self.calls = {
            "`gtd`": lambda job: [gtd, "schedule", *job],
            "best": lambda job: [best, *job],
            "best, plain": lambda job: [best, *job, "plain"],
            "native": lambda job: [native, *job],
        }

    def commands(self, records, last):
        """Each program's command for a file and the days from `FIRST` on."""
        return {name: call([records, FIRST, last, VEHICLE]) for name, call in self.calls.items()}

    def lines(self, commands):
        """The number of lines that all of them print; ends the script if they print different bytes."""
        paths = [measuring.written(command, os.path.join(self.work, f"out{place}"))
                 for place, command in enumerate(commands.values())]
        for name, path in zip(commands, paths):
            if not filecmp.cmp(paths[0], path, shallow=False):
                sys.exit(f"{name}: another output than that of gtd")
        with open(paths[0], "rb") as file:
            return sum(1 for _ in file)

    def memory(self, command):
        return measuring.run(command, 600, self.report).mebibytes

    def made(self, rows):
        """A file of this many rows, such as a map has."""
        maker = [sys.executable, os.path.join(measuring.TOP, "python", "tests", "make_records.py"), str(rows), "1"]
        return measuring.written(maker, os.path.join(self.work, "made"))


def cost(command, lines):
    """The instructions of a line; or its nanoseconds, if there is no callgrind."""
    if measuring.has_callgrind():
        return f"{measuring.instructions(command) / lines:,.0f}"
    return f"{min(measuring.seconds(command) for _ in range(3)) / lines * 1e9:,.0f}"


def unit():
    return "Instructions a line" if measuring.has_callgrind() else "Nanoseconds a line"


def best_times(commands):
    """The least time of each; they run in turns, so that all meet the same conditions."""
    rounds = [{name: measuring.seconds(command) for name, command in commands.items()} for _ in range(ROUNDS)]
    return {name: min(times[name] for times in rounds) for name in commands}


def beside_one_another(bench, rows, last):
    """A row of the table for each program."""
    commands = bench.commands(bench.made(rows), last)
    lines = bench.lines(commands)
    times = best_times(commands)
    for name, command in commands.items():
        ratio = times["`gtd`"] / times[name]
        cells = [f"{times[name]:.3f} s", f"{ratio:.2f}", f"{bench.memory(command):.1f} MiB", cost(command, lines)]
        measuring.row([f"{rows:,}", f"{FIRST} to {last}", f"{lines:,}", name, *cells])


def scaled(bench, what, points):
    """A table of the cost of a line; each of its points is a number, a file and a last day."""
    print(f"\n{unit()}, by {what}:\n")
    measuring.head([what.capitalize(), "Lines", *bench.calls, "Memory of `gtd`"])
    for number, records, last in points:
        commands = bench.commands(records, last)
        lines = bench.lines(commands)
        costs = [cost(command, lines) for command in commands.values()]
        memory = f"{bench.memory(commands['`gtd`']):.1f} MiB"
        measuring.row([f"{number:,}", f"{lines:,}", *costs, memory])


def by_rows(bench):
    for rows in (1_024, 4_096, 16_384, 65_536):
        yield rows, bench.made(rows), "2024-01-15"


def by_years(bench):
    records = bench.made(64)
    for years in (1, 4, 20, 100, 400):
        yield years, records, f"{2024 + years}-01-01"


def by_records(folder):
    for records in (64, 256, 1_024, 4_096):
        yield records, folder.rows("records", clock_starts(records, 20)), "2024-01-09"


def by_basic_domains(folder):
    for count in (1, 4, 16, 64, 128):
        yield count, folder.rows("domains", [joined(clock_starts(count, 600))]), "2026-01-01"


def main():
    gtd = measuring.program(sys.argv[1:])
    with tempfile.TemporaryDirectory() as work:
        bench, folder = Bench(gtd, work), Folder(work)
        measuring.check_memory(bench.report)
        measuring.head(["Rows", "Horizon", "Lines", "Program", "Time", "`gtd` to it", "Memory", unit()])
        beside_one_another(bench, 65_536, "2024-04-01")
        beside_one_another(bench, 2_000, "2034-01-01")
        scaled(bench, "rows", by_rows(bench))
        scaled(bench, "years", by_years(bench))
        scaled(bench, "records of one element", by_records(folder))
        scaled(bench, "basic domains of one text", by_basic_domains(folder))


if __name__ == "__main__":
    main()
