"""What the benchmarks share: the program that is measured, its time, its memory and its instructions, and tables.

It needs /usr/bin/time (the package `time`), and `timeout` of the GNU core utilities; `instructions` needs valgrind, and
`build_native` needs rustc."""
import os
import re
import shutil
import subprocess
import sys
import time
from typing import NamedTuple

TOP = os.path.dirname(os.path.dirname(os.path.abspath(__file__)))
BENCH = os.path.join(TOP, "bench")
STOPPED = 124  # the status by which `timeout` says that it ended the program
KIBIBYTES = 1024  # of a mebibyte


class Run(NamedTuple):
    elapsed: float
    processor: float
    mebibytes: float
    status: int


def program(words, name="gtd"):
    """The path of a program: the first word, or where `rt run` and `rt ci` put it."""
    path = words[0] if words else os.path.join(TOP, "crates", name, "out", name)
    if not os.access(path, os.X_OK):
        sys.exit(f"no program at {path}: run rt ci first, or give the program's path")
    return os.path.abspath(path)


def run(command, limit, report, given=os.devnull):
    """One run whose output is discarded, with a file as its input: its seconds by the clock and of the processor, its peak memory,
    its status.

    Until a new process becomes another program, the kernel charges it with the pages of the process that started it, and
    Python has 14 MiB of them. So /usr/bin/time, which has 2 MiB, measures the peak and writes it to the file `report`."""
    timed = ["/usr/bin/time", "-q", "-f", "%U %S %M", "-o", report, "timeout", str(limit), *command]
    begun = time.perf_counter()
    with open(given, "rb") as asked:
        ended = subprocess.run(timed, stdin=asked, stdout=subprocess.DEVNULL, stderr=subprocess.DEVNULL, check=False)
    status = ended.returncode
    elapsed = time.perf_counter() - begun
    with open(report, encoding="ascii") as file:
        user, system, kibibytes = file.read().split()
    return Run(elapsed, float(user) + float(system), int(kibibytes) / KIBIBYTES, status)


def check_memory(report):
    """Ends the script if the peak memory is measured wrongly: `dd` fills a buffer of a known size."""
    if not os.path.exists("/usr/bin/time"):
        sys.exit("no /usr/bin/time: install the package time")
    for mebibytes in (1, 64):
        dd = ["dd", "if=/dev/zero", "of=/dev/null", f"bs={mebibytes}M", "count=1"]
        measured = run(dd, 60, report).mebibytes
        if not mebibytes <= measured <= mebibytes + 4:
            sys.exit(f"memory is measured wrongly: {measured:.1f} MiB of a program that uses {mebibytes} MiB")


def seconds(command, statuses=(0,)):
    """The seconds of one run whose output is discarded, with nothing between it and this script; it ends with one of these
    statuses."""
    begun = time.perf_counter()
    status = subprocess.run(command, stdout=subprocess.DEVNULL, check=False).returncode
    if status not in statuses:
        sys.exit(f"{command} ended with status {status}")
    return time.perf_counter() - begun


def reading(gtdesk, path):
    """A command that reads a file into its records, and prints a header: no row of the benches has this element."""
    return [gtdesk, "now", path, "2024-01-01T00:00:00", "11", "--element", "9999999999"]


def nanoseconds(rounds, name, number, calls):
    """Prints what a call takes, by the shortest of some rounds, each of so many calls."""
    least = float("inf")
    for _ in range(rounds):
        begun = time.perf_counter_ns()
        calls()
        least = min(least, time.perf_counter_ns() - begun)
    print(f"{name} {least / number:.1f}", flush=True)


def written(command, path):
    """The path, once the command's output has been written there."""
    with open(path, "wb") as file:
        subprocess.run(command, stdout=file, check=True)
    return path


def has_callgrind():
    return shutil.which("valgrind") is not None


def instructions(command):
    """The instructions of one run; other work on the machine does not change them."""
    traced = ["valgrind", "--tool=callgrind", "--callgrind-out-file=/dev/null", *command]
    done = subprocess.run(traced, stdout=subprocess.DEVNULL, stderr=subprocess.PIPE, text=True, check=True)
    return int(re.search(r"Collected : (\d+)", done.stderr).group(1))


def build_native(name, work):
    """Builds bench/NAME.rs as fast as rustc can make it, and returns the program's path."""
    path = os.path.join(work, name)
    best = ["-C", "opt-level=3", "-C", "codegen-units=1", "-C", "panic=abort"]
    source = os.path.join(BENCH, f"{name}.rs")
    subprocess.run(["rustc", "--edition", "2021", *best, source, "-o", path], check=True)
    return path


def row(cells):
    """Prints one row of a Markdown table, at once."""
    print("| " + " | ".join(str(cell) for cell in cells) + " |", flush=True)


def head(names):
    """Prints the head of a Markdown table."""
    row(names)
    print("|" + "---|" * len(names), flush=True)
