"""What the tests share: schedules made by hand, and clusters of processes that can be killed."""

import contextlib
import csv
import importlib
import io
import os
import signal
import subprocess
import sys
import time
from pathlib import Path

import pytest

import gtd
from gtd import _library

def is_within(ends, second):
    """Whether a second lies in one of some spans."""
    return any(begin <= second < end for begin, end in ends.tolist())


def samples(maker, ends, first, last):
    """Seconds from ``first`` up to ``last``: some at random, and those beside the ends of some spans, which are checked, too."""
    flat = ends.reshape(-1)
    assert (flat[1:] > flat[:-1]).all() and (flat >= first).all() and (flat <= last).all()
    some = maker.random.sample(flat.tolist(), min(10, len(flat)))
    beside = [second for end in some for second in (end - 1, end) if first <= second < last]
    return [maker.random.randrange(first, last) for _ in range(20)] + beside


FIRST, UNTIL, VEHICLE = "2024-01-01", "2024-04-01", 11


def pytest_configure(config):
    try:
        gtd.program()
        gtd.program("gtdesk")
    except gtd.ProgramNotFound as missing:
        pytest.exit(str(missing), 2)
    if gtd.library() is None:
        config.issue_config_time_warning(pytest.PytestWarning("no library libgtd.so.0: what it answers is not tested"), 2)


def without_library(monkeypatch):
    """From here on the programs answer."""
    monkeypatch.setattr(_library, "_loaded", lambda named: None)


@pytest.fixture(params=["library", "programs"])
def answering(request, monkeypatch):
    """Each test that names this fixture is run twice: the library answers, and then the programs do."""
    if request.param == "programs":
        without_library(monkeypatch)
    elif gtd.library() is None:
        pytest.skip("no library libgtd.so.0: set the environment variable LIBGTD to its path")
    return request.param


@pytest.fixture
def no_program(monkeypatch):
    """No program may be started."""

    def started(*words, **more):
        raise AssertionError(f"a program is started: {words}")

    monkeypatch.setattr(subprocess, "Popen", started)


def model_of(name):
    """A module of the repository's own tests: ``model``, a plain model of the documents, or ``fuzz``, a maker of inputs."""
    folder = str(Path(gtd.__file__).parents[2] / "tests")
    if folder not in sys.path:
        sys.path.append(folder)
    return importlib.import_module(name)


def by_hand(paths, first, until, vehicle, size):
    """The schedule of record files of version 1, made without gtd.country."""
    elements = {}
    for path in paths:
        with open(path, newline="") as file:
            for row in list(csv.reader(file))[1:]:
                elements.setdefault(int(row[0]), []).append(row)
    groups = [[]]
    for element in sorted(elements):
        if len(groups[-1]) + len(elements[element]) > size:
            groups.append([])
        groups[-1] += elements[element]
    printed = []
    for group in groups:
        text = io.StringIO()
        csv.writer(text, lineterminator="\n").writerows([["element", "direction", "vehicle", "domain"], *group])
        words = [gtd.program(), "schedule", "/dev/stdin", first, until, str(vehicle)]
        done = subprocess.run(words, input=text.getvalue().encode(), stdout=subprocess.PIPE, check=True)
        printed.append(done.stdout)
    return b"".join([printed[0], *(part.split(b"\n", 1)[1] for part in printed[1:])])


def joined(folder):
    """The parts of a folder as one schedule."""
    parts = [path.read_bytes() for path in sorted(Path(folder).iterdir())]
    return b"".join([parts[0], *(part.split(b"\n", 1)[1] for part in parts[1:])])


def environment(**more):
    """The environment of a process that finds this package."""
    path = str(Path(gtd.__file__).parents[1])
    return dict(os.environ, PYTHONPATH=path, **{name: str(value) for name, value in more.items()})


def command(*words, **more):
    """A run of the command, its output as text."""
    words = [sys.executable, "-m", "gtd.country", *map(str, words)]
    more.setdefault("env", environment())
    return subprocess.run(words, stdout=subprocess.PIPE, stderr=subprocess.PIPE, text=True, timeout=300, **more)


class Cluster:
    """A scheduler and workers on 127.0.0.1, each in its own process."""

    def __init__(self, folder, workers, *words):
        folder.mkdir(exist_ok=True)
        self.folder, self.words, self.processes = folder, words, []
        self.file = str(folder / "scheduler.json")
        here = ("--host", "127.0.0.1", "--port", "0", "--no-dashboard", "--scheduler-file", self.file)
        self.scheduler = self._start("dask_scheduler", *here)
        self.workers = []
        for _ in range(workers):
            self.add_worker()

    def add_worker(self):
        """Start one more worker."""
        words = ("--scheduler-file", self.file, "--no-nanny", "--nthreads", "1", "--no-dashboard", "--host", "127.0.0.1")
        room = ("--local-directory", str(self.folder), "--memory-limit", "1GB")
        self.workers.append(self._start("dask_worker", *words, *room))

    def _start(self, module, *words):
        with open(self.folder / f"log-{len(self.processes)}", "wb") as log:
            command = [sys.executable, "-m", f"distributed.cli.{module}", *words, *self.words]
            process = subprocess.Popen(command, env=environment(), stdout=log, stderr=log)
        self.processes.append(process)
        return process

    def close(self):
        for process in self.processes:
            process.kill()
        for process in self.processes:
            with contextlib.suppress(subprocess.TimeoutExpired):
                process.wait(20)


def kill(process):
    """End a process at once, as a system does that has run out of memory."""
    os.kill(process.pid, signal.SIGKILL)
    process.wait()


def until(true, seconds=120):
    end = time.monotonic() + seconds
    while not true():
        assert time.monotonic() < end, "waited in vain"
        time.sleep(0.01)


@contextlib.contextmanager
def small_disk(folder, size):
    """A folder with room for so much, while the context lasts."""
    folder.mkdir()
    subprocess.run(["mount", "-t", "tmpfs", "-o", f"size={size}", "tmpfs", folder], check=True)
    try:
        yield folder
    finally:
        until(lambda: subprocess.run(["umount", folder]).returncode == 0)


@pytest.fixture(scope="session")
def many(tmp_path_factory):
    """20,000 rows in three files of both versions, with quotes and every kind of line end; and the same in one file."""
    from tests.make_records import rows

    folder = tmp_path_factory.mktemp("many")
    head, *lines = rows(20_000, 3)
    (folder / "plain.csv").write_text(head + "".join(lines))
    (folder / "a.csv").write_text("\ufeff" + (head + "".join(lines[:7_000])).replace("\n", "\r\n"), newline="")
    quoted = "".join('"' + line.rstrip("\n").replace(",", '","') + '"\n\n' for line in lines[7_000:13_000])
    (folder / "b.csv").write_text("\n\n" + head.replace("vehicle", "vehicles") + quoted.rstrip("\n"))
    (folder / "c.csv").write_text((head + "".join("000" + line for line in lines[13_000:])).replace("\n", "\r"), newline="")
    return folder
