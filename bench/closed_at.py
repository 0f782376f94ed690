#!/usr/bin/env python3
"""What a question takes that asks whether an element is closed: `closed_at.py PROGRAM`, where `closed_at.sh` builds the program.

The program is a small one over the public call `Records::closed_at`; `closed_at.rs` is a plain native table of the same file.
The file has 65,536 elements with one row each, of daily or weekly hours. Both answer the same questions, and must find as many
closed. Prints a Markdown table: the least time of some runs in turns, less that of runs without questions, for each question;
instructions, where there is valgrind; and the peak memory. Ends with status 1 if a question takes more than three times what the
native table takes."""
import os
import random
import subprocess
import sys
import tempfile

import measuring

ELEMENTS = 65_536
QUESTIONS = 2_000_000
TRACED = 100_000  # questions whose instructions are counted
ROUNDS = 7
MOST = 3  # times the native table
HOURS = [
    "[(h7){h2}]", "[(h22){h8}]", "[(h7m30){h1m30}]", "[(t7){d1}]", "[(t2t3t4t5t6h7){h2}]+[(t2t3t4t5t6h16){h3}]",
    "[(t2t3t4t5t6t7h6){h14}]", "[(h0){h24}]-[(t1){d1}]", "[(t2t3t4t5t6h8){h10}]-[(t2t3t4t5t6h12){h1}]",
]


def made(path):
    draw = random.Random(1)
    with open(path, "w", encoding="ascii") as file:
        file.write("element,direction,vehicle,domain\n")
        for element in range(ELEMENTS):
            direction, vehicle = draw.choice(("positive", "negative", "both")), draw.choice((0, 11, 12))
            file.write(f"{element},{direction},{vehicle},{draw.choice(HOURS)}\n")
    return path


def least(commands):
    """The least time of each command, of some rounds in turns."""
    times = {command: float("inf") for command in commands}
    for _ in range(ROUNDS):
        for command in commands:
            times[command] = min(times[command], measuring.seconds(command))
    return times


def main():
    with tempfile.TemporaryDirectory() as work:
        path = made(os.path.join(work, "rows.csv"))
        programs = {"`Records::closed_at`": sys.argv[1], "native": measuring.build_native("closed_at", work)}
        asked = {name: (program, path, str(QUESTIONS)) for name, program in programs.items()}
        empty = {name: (program, path, "0") for name, program in programs.items()}
        found = {subprocess.run(command, stdout=subprocess.PIPE, check=True).stdout for command in asked.values()}
        if len(found) > 1:
            sys.exit(f"they find other numbers closed: {found}")
        times = least([*asked.values(), *empty.values()])
        each = {name: 1e9 * (times[asked[name]] - times[empty[name]]) / QUESTIONS for name in programs}
        measuring.head(["Program", "A question", "to native", "Instructions", "Memory"])
        for name, program in programs.items():
            counts = ["", ""]
            if measuring.has_callgrind():
                counts = [measuring.instructions((program, path, number)) for number in (str(TRACED), "0")]
                counts = [f"{(counts[0] - counts[1]) / TRACED:,.0f}"]
            memory = measuring.run(empty[name], 60, os.path.join(work, "report")).mebibytes
            times_native = each[name] / each["native"]
            measuring.row([name, f"{each[name]:.0f} ns", f"{times_native:.1f}", counts[0], f"{memory:.1f} MiB"])
        sys.exit(each["`Records::closed_at`"] > MOST * each["native"])


if __name__ == "__main__":
    main()
