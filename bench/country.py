#!/usr/bin/env python3
"""A country's run by 1, 2 and 4 workers: bench/country.py [ROWS [WORKERS..]], a million rows over 91 days by default.

Prints, for each number of workers, the seconds of the run, the rows per second and the speed relative to the first run; the
processor seconds of the workers and of what they ran; the largest memory of a worker; and what the workers' seconds went to. The
bytes of all runs are compared. It runs the built program, or the one that the environment variable GTD names, and needs
python3-distributed. Its folder is below TMPDIR, and takes 2.7 GB for a million rows.
"""

import collections
import filecmp
import os
import resource
import shutil
import sys
import tempfile
import time
from pathlib import Path

TOP = Path(__file__).resolve().parents[1]
sys.path.insert(0, str(TOP / "python"))
os.environ.setdefault("GTD", str(TOP / "crates" / "gtd" / "out" / "gtd"))
os.environ["PYTHONPATH"] = str(TOP / "python")

from distributed import get_task_stream  # noqa: E402

from gtd import country  # noqa: E402
from tests.make_records import rows  # noqa: E402

DAYS = ("2024-01-01", "2024-04-01")


def largest() -> int:
    """The largest memory that this process has had, in KiB."""
    return resource.getrusage(resource.RUSAGE_SELF).ru_maxrss


def seconds_of(usage: resource.struct_rusage) -> float:
    return usage.ru_utime + usage.ru_stime


def spent(tasks: list) -> collections.Counter:
    """The workers' seconds by task and action."""
    names = collections.Counter()
    for task in tasks:
        name = str(task["key"]).strip("('").split("-")[0]
        for part in task["startstops"]:
            names[f"{name} {part['action']}"] += part["stop"] - part["start"]
    return names


def measure(records: Path, count: int, out: Path, first_seconds: list) -> None:
    """One run, and what it took."""
    before = seconds_of(resource.getrusage(resource.RUSAGE_CHILDREN))
    with country.local(count) as client:
        client.wait_for_workers(count)
        with get_task_stream(client) as stream:
            begin = time.perf_counter()
            done = country.schedule(records, *DAYS, 11, out, client=client)
            seconds = time.perf_counter() - begin
        memory = list(client.run(largest).values())
    processors = seconds_of(resource.getrusage(resource.RUSAGE_CHILDREN)) - before
    first_seconds.append(seconds)
    print(
        f"{count} workers: {seconds:.1f} s, {done.rows / seconds:,.0f} rows/s, {first_seconds[0] / seconds:.2f} times as fast; "
        f"{len(done.parts)} parts, {done.size:,} bytes; {processors:.1f} s of processors; "
        f"{max(memory) / 1024:.0f} MiB a worker; "
        f"load {os.getloadavg()[0]:.1f}",
        flush=True,
    )
    for name, total in spent(stream.data).most_common(8):
        print(f"    {name}: {total:.2f} s of workers", flush=True)


def main() -> None:
    number = int(sys.argv[1]) if len(sys.argv) > 1 else 1_000_000
    workers = list(map(int, sys.argv[2:])) or [1, 2, 4]
    free = shutil.disk_usage(tempfile.gettempdir()).free
    if free < number * 2_700:
        sys.exit(f"{tempfile.gettempdir()} has {free:,} bytes, and {number * 2_700:,} are needed: set TMPDIR")
    folder = Path(tempfile.mkdtemp(prefix="gtd-bench-"))
    try:
        records = folder / "records.csv"
        with open(records, "w") as file:
            file.writelines(rows(number, 1))
        print(f"{number:,} rows, {records.stat().st_size:,} bytes, {os.cpu_count()} cores", flush=True)
        seconds: list = []
        for count in workers:
            out = folder / f"out-{count}"
            measure(records, count, out, seconds)
            if count != workers[0]:
                names = sorted(os.listdir(folder / f"out-{workers[0]}"))
                same = filecmp.cmpfiles(folder / f"out-{workers[0]}", out, names, shallow=False)[0]
                if names != sorted(os.listdir(out)) or same != names:
                    sys.exit("the bytes differ")
                shutil.rmtree(out)
        print("the bytes are the same")
    finally:
        shutil.rmtree(folder)


if __name__ == "__main__":
    main()
