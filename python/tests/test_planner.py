"""The planner of the examples, against a search over every second at which each wait may end."""

import importlib.util
import random
import subprocess
import sys
from datetime import datetime, timedelta
from pathlib import Path

import pytest

import gtd
from tests.conftest import environment, model_of

model = model_of("model")
TOP = Path(gtd.__file__).parents[2]
FOLDER = TOP / "examples" / "planner"
EPOCH = datetime(1970, 1, 1)
WAYS = (FOLDER / "ways.txt").read_text().split("\n\n")  # of a lorry, from the depot to the works


@pytest.fixture(scope="module")
def planner():
    spec = importlib.util.spec_from_file_location("planner", TOP / "examples" / "planner.py")
    module = importlib.util.module_from_spec(spec)
    sys.modules["planner"] = module
    spec.loader.exec_module(module)
    return module


def command(*words):
    run = [sys.executable, TOP / "examples" / "planner.py", *words]
    return subprocess.run(run, env=environment(), stdout=subprocess.PIPE, stderr=subprocess.PIPE, text=True)


@pytest.mark.parametrize("printed", WAYS, ids=[way.split(" ")[0] for way in WAYS])
def test_what_it_prints(printed):
    start = printed.split(" ")[0]
    done = command(FOLDER / "network.csv", FOLDER / "restrictions.csv", "depot", "works", start, "11")
    assert (done.returncode, done.stdout, done.stderr) == (0, printed.rstrip("\n") + "\n", "")


def test_no_way_and_usage(tmp_path):
    (tmp_path / "shut.csv").write_text("element,direction,vehicle,domain\n201,both,0,\n")
    done = command(FOLDER / "network.csv", tmp_path / "shut.csv", "depot", "works", "2024-03-19T06:50:00", "11")
    assert (done.returncode, done.stdout) == (1, "no way\n")
    assert command().returncode == 2 and command().stderr.startswith("usage: planner.py NETWORK")


def by_brute_force(ways, is_open, ends, start, last):
    """The earliest arrival, second by second: who is at a node may wait there, or enter a way that is open in each of its
    seconds. ``is_open`` says it of an element, a direction and a second."""
    begin, end = ends
    at = {second: set() for second in range(start, last + 1)}
    at[start].add(begin)
    open_for = {}
    for second in range(last, start - 1, -1):
        for way in ways:
            place = way[2], way[3]
            run = open_for.get((place, second + 1), 0)
            open_for[place, second] = run + 1 if is_open(*place, second) else 0
    for second in range(start, last + 1):
        if end in at[second]:
            return second
        if second < last:
            at[second + 1] |= at[second]
        for begins, ends_at, element, direction, time in ways:
            arrives = second + time
            if begins in at[second] and arrives <= last and open_for[(element, direction), second] >= time:
                at[arrives].add(ends_at)
    return None


@pytest.mark.parametrize("seed", range(12))
def test_random_networks(planner, seed, tmp_path):
    rng = random.Random(seed)
    nodes = "abcdef"
    ways = [
        (*rng.sample(nodes, 2), rng.randint(1, 6), rng.choice(["positive", "negative"]), rng.choice([1, 30, 60, 200, 400]))
        for _ in range(12)
    ]
    shapes = [
        lambda: f"(h7m{rng.randint(0, 40)}){{m{rng.randint(1, 20)}}}",
        lambda: f"(m{rng.randint(0, 59)}){{m{rng.randint(1, 9)}}}",
        lambda: f"(h6m{rng.randint(0, 59)}s{rng.randint(0, 59)}){{h1}}",
        lambda: "(h0){h24}",
        lambda: "(t3h7){m20}",
    ]
    directions = ["positive", "negative", "both"]
    rows = [(rng.randint(1, 6), rng.choice(directions), rng.choice([0, 11]), rng.choice(shapes)()) for _ in range(8)]
    (tmp_path / "network.csv").write_text(
        "from,to,element,direction,seconds\n" + "".join(",".join(map(str, way)) + "\n" for way in ways)
    )
    (tmp_path / "rows.csv").write_text(
        "element,direction,vehicle,domain\n" + "".join(",".join(map(str, row)) + "\n" for row in rows)
    )
    expressions = [(str(row[0]), row[1], str(row[2]), model.read(row[3].encode())) for row in rows]
    states = {}

    def is_open(element, direction, second):
        key = element, direction, second
        if key not in states:
            states[key] = model.is_open(expressions, 1, element, direction, 11, second)
        return states[key]

    moment = datetime(2024, 3, 19, 6, 50)
    start = int((moment - EPOCH).total_seconds())
    last = start + 3_600
    network, streets = planner.read_network(tmp_path / "network.csv"), gtd.Records(tmp_path / "rows.csv")
    for ends in [("a", "b"), ("a", "f"), ("c", "d")]:
        expected = by_brute_force(ways, is_open, ends, start, last)
        drives = planner.plan(network, streets, 11, ends, moment)
        arrival = None if drives is None else drives[-1].enters + drives[-1].way.time
        if expected is None:
            assert arrival is None or arrival > EPOCH + timedelta(seconds=last)
            continue
        assert arrival == EPOCH + timedelta(seconds=expected)
        node, ready = ends[0], moment
        for way, enters in drives:  # each drive begins where and after the one before ended, on an open way
            assert way.begin == node and enters >= ready
            entered = int((enters - EPOCH).total_seconds())
            time = int(way.time.total_seconds())
            assert all(is_open(way.element, way.direction, second) for second in range(entered, entered + time))
            node, ready = way.end, enters + way.time
        assert node == ends[1]
