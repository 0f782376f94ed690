#!/usr/bin/env python3
"""The planner of bindings/cpp/planner.cpp against a search by brute force, which knows from the plain model of tests/model.py at
which seconds an edge is open, and tries to enter every edge at every second from the departure on.

Usage: tests/library/planner.py PLANNER [MOMENTS [SEED]]    (the two mornings of the example, and as many random moments)
"""
import csv
import os
import random
import re
import subprocess
import sys

TESTS = os.path.dirname(os.path.dirname(os.path.abspath(__file__)))
sys.path.insert(0, TESTS)

import fuzz  # noqa: E402
import model  # noqa: E402

FOLDER = os.path.join(os.path.dirname(TESTS), "examples", "planner")
NETWORK, RESTRICTIONS = os.path.join(FOLDER, "network.csv"), os.path.join(FOLDER, "restrictions.csv")
DAYS = 7
WINDOW = 3 * 3600  # the brute force looks as far as this, and further as long as it must
LINE = re.compile(r"(\S+) (\w+)(?:: (?:wait (\d+) s|drive on (\d+) to (\w+), (\d+) s))?")


def read_ways():
    """What the planner prints of the way of a lorry from the depot to the works, by the moment of its departure."""
    with open(os.path.join(FOLDER, "ways.txt"), encoding="ascii") as file:
        return {text.split(" ")[0]: text.rstrip("\n") + "\n" for text in file.read().split("\n\n")}


def read_edges():
    with open(NETWORK, encoding="ascii", newline="") as file:
        return [(row["from"], row["to"], row["element"], row["direction"], int(row["seconds"])) for row in csv.DictReader(file)]


def read_rows():
    with open(RESTRICTIONS, encoding="ascii", newline="") as file:
        _, *rows = csv.reader(file)
    return [row[:3] + [model.read(row[3].encode()) if row[3] else None] for row in rows]


EDGES, ROWS, WAYS = read_edges(), read_rows(), read_ways()


def entries(edge, vehicle, first, last):
    """Of each second from `first` up to `last`: whether the edge may be entered, since all its seconds from there on are open."""
    _, _, element, direction, seconds = edge
    may, run = [False] * (last - first), 0
    for second in range(last + seconds - 1, first - 1, -1):
        run = run + 1 if model.is_open(ROWS, 1, int(element), direction, vehicle, second) else 0
        if second < last:
            may[second - first] = run >= seconds
    return may


def earliest(start, goal, moment, vehicle, last):
    """The earliest arrival before `last`, or nothing: each second, each edge is tried from each node that is reached by then."""
    may = {edge: entries(edge, vehicle, moment, last) for edge in EDGES}
    reached = {start: moment}
    for second in range(moment, last):
        for edge in EDGES:
            there, at, seconds = edge[1], reached.get(edge[0]), edge[4]
            if at is not None and at <= second and may[edge][second - moment]:
                reached[there] = min(reached.get(there, second + seconds), second + seconds)
    found = reached.get(goal)
    return found if found is not None and found < last else None


def check_way(lines, start, goal, moment, vehicle):
    """Each line goes on where the last one ended, and each drive is on an edge that is open for all its seconds; the arrival."""
    now, node = moment, start
    for line in lines[:-1]:
        stamp, place, wait, element, there, seconds = LINE.fullmatch(line).groups()
        assert (fuzz.second_of(stamp), place) == (now, node), line
        if wait:
            now += int(wait)
            continue
        edge = next(edge for edge in EDGES if edge[:3] == (node, there, element) and edge[4] == int(seconds))
        assert entries(edge, vehicle, now, now + 1) == [True], line
        now, node = now + edge[4], there
    assert lines[-1] == f"{fuzz.stamp_of(now)} {goal}" and node == goal, lines
    return now


def check(planner, start, goal, moment, vehicle):
    words = [planner, NETWORK, RESTRICTIONS, start, goal, fuzz.stamp_of(moment), str(vehicle)]
    done = subprocess.run(words, capture_output=True, text=True, check=False)
    end = (moment // model.DAY + DAYS) * model.DAY
    if done.stdout == "no way\n" and done.returncode == 1:
        assert earliest(start, goal, moment, vehicle, min(moment + WINDOW, end)) is None, words
        return
    assert done.returncode == 0, (words, done)
    arrival = check_way(done.stdout.splitlines(), start, goal, moment, vehicle)
    assert earliest(start, goal, moment, vehicle, min(arrival + 1, end)) == arrival, (words, done.stdout)


def main():
    if len(sys.argv) not in (2, 3, 4):
        sys.exit("usage: tests/library/planner.py PLANNER [MOMENTS [SEED]]")
    planner = sys.argv[1]
    count = int(sys.argv[2]) if len(sys.argv) > 2 else 12
    chance = random.Random(sys.argv[3] if len(sys.argv) > 3 else "1")
    nodes = sorted({edge[0] for edge in EDGES})
    cases = [("depot", "works", fuzz.second_of(moment), 11) for moment in WAYS]
    for _ in range(count):
        moment = fuzz.second_of("2024-03-18") + chance.randrange(7 * model.DAY)
        if chance.random() < 0.5:  # in the morning, when streets close and open
            moment += 6 * 3600 - moment % model.DAY + chance.randrange(4 * 3600)
        cases.append((*chance.sample(nodes, 2), moment, chance.choice([1, 11])))
    passed, failed = 0, 0
    for case in cases:
        try:
            check(planner, *case)
            passed += 1
        except AssertionError as wrong:
            failed += 1
            print(f"FAILED planner {case}: {wrong}")
    for moment, text in WAYS.items():
        words = [planner, NETWORK, RESTRICTIONS, "depot", "works", moment, "11"]
        if subprocess.run(words, capture_output=True, text=True, check=False).stdout == text:
            passed += 1
        else:
            failed += 1
            print(f"FAILED planner at {moment}: another way than {text}")
    print(f"planner: {passed} passed, {failed} failed")
    sys.exit(failed != 0)


if __name__ == "__main__":
    main()
