#!/usr/bin/env python3
"""Earliest arrival on a network whose streets have restrictions: planner.py NETWORK RESTRICTIONS FROM TO MOMENT VEHICLE

NETWORK has a line ``from,to,element,direction,seconds`` for each way from one node to another: the road element that it is, the
direction in which it is passed, and for how long. RESTRICTIONS is a record file. A vehicle may enter a way only if its element
stays open until it has passed, and may wait at a node for as long as it likes.

It prints the drives and the waits of a way that arrives earliest, or ``no way`` with status 1 if none arrives within a week.

    planner.py planner/network.csv planner/restrictions.csv depot works 2024-03-19T06:50:00 11
"""

from __future__ import annotations

import csv
import heapq
import sys
from collections import defaultdict
from datetime import datetime, timedelta
from typing import DefaultDict, Dict, Iterator, List, NamedTuple, Optional, Tuple

import gtd

PATIENCE = timedelta(days=7)


class Way(NamedTuple):
    """A way between two nodes, along one element in one direction."""

    begin: str
    end: str
    element: int
    direction: str
    time: timedelta


class Drive(NamedTuple):
    """A way that is entered at a moment."""

    way: Way
    enters: datetime


Network = DefaultDict[str, List[Way]]


def read_network(path: str) -> Network:
    """The ways out of each node, in the order of the file."""
    network: Network = defaultdict(list)
    with open(path, newline="") as file:
        for row in csv.DictReader(file):
            time = timedelta(seconds=int(row["seconds"]))
            network[row["from"]].append(Way(row["from"], row["to"], int(row["element"]), row["direction"], time))
    return network


def entry(streets: gtd.Records, way: Way, vehicle: int, ready: datetime) -> Optional[datetime]:
    """The first moment from ``ready`` on at which the way can be entered: it is open then, and until it has been passed."""
    moment, last = ready, (ready + PATIENCE).date() + timedelta(days=1)
    is_open = not streets.closed_at(way.element, way.direction, vehicle, moment)
    while moment <= ready + PATIENCE:
        change = streets.next_change(way.element, way.direction, vehicle, moment, last)
        if is_open and (change is None or moment + way.time <= change.moment):
            return moment
        if change is None:
            return None
        moment, is_open = change
    return None


def plan(
    network: Network, streets: gtd.Records, vehicle: int, ends: Tuple[str, str], start: datetime
) -> Optional[List[Drive]]:
    """The drives of a way that arrives earliest, or None if none arrives within a week.

    Since waiting is allowed, who is at a node earlier is never later at the next one. So Dijkstra's search over moments is right.
    """
    begin, end = ends
    arrival: Dict[str, datetime] = {begin: start}
    drive_to: Dict[str, Drive] = {}
    waiting, done = [(start, begin)], set()
    while waiting:
        moment, node = heapq.heappop(waiting)
        if node == end:
            return list(drives_back(drive_to, end))[::-1]
        if node in done:
            continue
        done.add(node)
        for way in network[node]:
            enters = entry(streets, way, vehicle, moment)
            if enters is None or enters + way.time > start + PATIENCE:
                continue
            if way.end not in arrival or enters + way.time < arrival[way.end]:
                arrival[way.end] = enters + way.time
                drive_to[way.end] = Drive(way, enters)
                heapq.heappush(waiting, (arrival[way.end], way.end))
    return None


def drives_back(drive_to: Dict[str, Drive], node: str) -> Iterator[Drive]:
    """The drives that lead to a node, the last one first."""
    while node in drive_to:
        yield drive_to[node]
        node = drive_to[node].way.begin


def lines(drives: List[Drive], node: str, moment: datetime) -> Iterator[str]:
    """Drives and waits from a node and a moment on, line by line, and then the arrival."""
    for way, enters in drives:
        if enters > moment:
            yield f"{moment.isoformat()} {node}: wait {(enters - moment) // timedelta(seconds=1)} s"
        yield f"{enters.isoformat()} {node}: drive on {way.element} to {way.end}, {way.time // timedelta(seconds=1)} s"
        node, moment = way.end, enters + way.time
    yield f"{moment.isoformat()} {node}"


def main(words: List[str]) -> int:
    """Run the command and return its exit status."""
    if len(words) != 6:
        print(f"usage: {__doc__.splitlines()[0].split(': ')[1]}", file=sys.stderr)
        return 2
    network, streets = read_network(words[0]), gtd.Records(words[1])
    begin, end, start, vehicle = words[2], words[3], datetime.fromisoformat(words[4]), int(words[5])
    drives = plan(network, streets, vehicle, (begin, end), start)
    if drives is None:
        print("no way")
        return 1
    print("\n".join(lines(drives, begin, start)))
    return 0


if __name__ == "__main__":
    sys.exit(main(sys.argv[1:]))
