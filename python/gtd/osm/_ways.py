"""The ways of an extract, one after another: which become elements, and with which tags."""

from __future__ import annotations

from collections import Counter
from typing import Any, Dict, List, NamedTuple, Optional, Tuple

from gtd._fault import Fault
from gtd.osm._means import CONDITIONAL, Names
from gtd.osm._tables import Tables

_MOST_UNKNOWN = 1000  # keys that are counted, so that the memory does not grow with the extract


class Done(NamedTuple):
    """What was read, written and left out."""

    ways: int
    """How many ways the extract has."""
    elements: int
    """How many of them have become elements."""
    tags: int
    """How many rows the tables of tags have."""
    parts: List[str]
    """The names of the tables of tags, in order."""
    left_out: Dict[str, int]
    """How many were left out for each reason: ``'deleted ways'``; of those with a tag that matters ``'ways with fewer than two
    nodes'`` and ``'areas'``; and ``'ignored tags'``."""
    unknown: Dict[str, int]
    """Keys with conditions that are kept although the means have no name of theirs, and how many tags have each: the most
    frequent first, of the first 1,000 such keys."""
    records: List[str] = []
    """The names of the record files, in order."""
    rows: int = 0
    """How many rows these have."""
    at_fault: Dict[str, int] = {}
    """How many elements were left out of the record files, by the kind of the first fault of their tags, the most frequent
    first."""


class Ways:
    """The ways of an extract; each is handed to :meth:`take`.

    Parameters
    ----------
    path : str
        What faults call the extract.
    names : Names
        Which keys matter.
    tables : Tables
        Where the elements go.
    """

    def __init__(self, path: str, names: Names, tables: Tables) -> None:
        self._path, self._names, self._tables = path, names, tables
        self._before: Optional[Tuple[bool, int]] = None
        self.ways, self._deleted, self._short, self._areas, self._ignored = 0, 0, 0, 0, 0
        self._unknown: Counter[str] = Counter()

    def take(self, way: Any) -> None:
        """Look at the next way.

        Raises
        ------
        Fault
            It comes again, or out of order; or its element does not fit into the tables.
        """
        self._check_order(way.id)
        self.ways += 1
        if way.deleted:
            self._deleted += 1
            return
        tags = self._tags(way)
        if not tags:
            return
        nodes = way.nodes
        count = len(nodes)
        if count < 2:
            self._short += 1
            return
        ends = nodes[0].ref, nodes[count - 1].ref
        if ends[0] == ends[1] and _is_area(way.tags):
            self._areas += 1
            return
        self._tables.add(way.id, ends, tags)
        for key, _ in tags:
            if key not in self._names.keys and (key in self._unknown or len(self._unknown) < _MOST_UNKNOWN):
                self._unknown[key] += 1

    def done(self, tables: Tables) -> Done:
        """What all of it was."""
        left_out = {
            "deleted ways": self._deleted,
            "ways with fewer than two nodes": self._short,
            "areas": self._areas,
            "ignored tags": self._ignored,
        }
        return Done(self.ways, tables.elements, tables.tags, tables.parts, left_out, dict(self._unknown.most_common()))

    def _check_order(self, way: int) -> None:
        """Ways are in the order of ``osmium sort``: first those without a number of the database's, then from low to high."""
        place = way > 0, abs(way)
        if self._before is not None and place <= self._before:
            if place == self._before:
                note = f"way {way} comes again: an extract holds each way once, and no history"
                raise Fault("Repeated", file=self._path, note=note)
            raise Fault("Order", file=self._path, note=f"way {way} comes too late: osmium sort puts an extract in order")
        self._before = place

    def _tags(self, way: Any) -> List[Tuple[str, str]]:
        """The tags of a way that matter."""
        found: List[Tuple[str, str]] = []
        try:
            for tag in way.tags:
                key = tag.k
                if self._names.matters(key):
                    found.append((key, tag.v))
                elif key.endswith(CONDITIONAL):
                    self._ignored += 1
        except UnicodeDecodeError:
            raise Fault("Extract", file=self._path, note=f"a tag of way {way.id} is not UTF-8") from None
        return found


def _is_area(tags: Any) -> bool:
    """Whether a closed way encloses an area in place of being a road."""
    return "highway" not in tags and tags.get("area") != "no"
