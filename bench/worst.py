#!/usr/bin/env python3
"""The inputs that cost most: `worst.py [GTD GTDESK [WORD]]`, the paths of the two programs; with a word, only those whose name
contains it.

It needs both programs built (`rt ci` builds them) and what `measuring.py` needs; the files are made in a temporary folder. Each
run has 60 seconds, or its goal if that is longer. The goal is two seconds of the processor, which other work on the
machine blurs less than the clock; if an input has more than 20 million lines, spans or days that are gone over one by
one, it is two seconds for each 20 million. Each input is run once; one that is slow is run up to three times, and the run
that took least counts, since other work on the machine only makes a run longer. Prints both times and the peak memory
of each. Ends with status 1 if one misses its goal, or ends without an answer."""
import sys
import tempfile

import measuring
from worst_inputs import cases

GOAL = 2.0
GOAL_COUNT = 20_000_000
LIMIT = 60
RUNS = 3  # of an input that is slow
ANSWERS = (0, 1, 2, 4)  # done, refused, usage, something was found


def goal(case):
    return GOAL * max(1.0, case.counted / GOAL_COUNT)


def ending(case, run):
    """How the run ended, in a word: empty if it met its goal."""
    if run.status == measuring.STOPPED:
        return "stopped"
    if run.status not in ANSWERS:
        return f"status {run.status}"
    return "slow" if run.processor > goal(case) else ""


def least(case, program, report):
    """The run of a case that took least, of up to `RUNS` while it is slow."""
    best = measuring.run([program, *case.words], max(LIMIT, goal(case)), report, case.given)
    for _ in range(RUNS - 1):
        if ending(case, best) != "slow":
            break
        again = measuring.run([program, *case.words], max(LIMIT, goal(case)), report, case.given)
        best = min(best, again, key=lambda run: run.processor)
    return best


def measured(case, programs, report):
    """Runs a case, prints its row, and returns whether it missed its goal."""
    run = least(case, programs[case.program], report)
    ended = ending(case, run)
    times = [f"{run.processor:.2f} s", f"{run.elapsed:.2f} s", f"{goal(case):.0f} s"]
    counted = f"{case.counted / 1e6:,.0f} million {case.what}" if case.counted > GOAL_COUNT else ""
    measuring.row([case.name, *times, f"{run.mebibytes:,.0f} MiB", counted, ended])
    return ended != ""


def main():
    programs = {name: measuring.program(sys.argv[place:place + 1], name) for place, name in ((1, "gtd"), (2, "gtdesk"))}
    word = sys.argv[3] if len(sys.argv) > 3 else ""
    with tempfile.TemporaryDirectory() as work, tempfile.NamedTemporaryFile() as report:
        measuring.check_memory(report.name)
        measuring.head(["Input", "Processor", "Elapsed", "Goal", "Memory", "Linear in", "Missed"])
        missed = [measured(case, programs, report.name) for case in cases(work) if word in case.name]
    print(f"{len(missed)} inputs, {sum(missed)} missed")
    return 1 if any(missed) else 0


if __name__ == "__main__":
    sys.exit(main())
