"""A whole run on a cluster: blocks are read, parts are cut, their schedules are written."""

from __future__ import annotations

import contextlib
import itertools
import sys
from concurrent.futures import CancelledError
from functools import partial
from typing import Any, Callable, Dict, Iterable, Iterator, List, NamedTuple, Sequence, Set, Tuple, Union

import dask
import dask.dataframe
from distributed import Client, Future, progress
from distributed.comm.core import CommClosedError

from gtd._cutting import Beyond, Cuts, Refused
from gtd._fault import Fault
from gtd._staging import Staging
from gtd.country import _blocks, _parts
from gtd.country._blocks import Accepted
from gtd.country._files import Block, File, Source, blocks, open_file, unpack

_RETRIES = 3  # of a task that raised: want of memory, a file system that falters. Dask itself runs a lost worker's tasks again


# How many pieces go into the shuffle and come out of it: as many as two stages of 32 each can take.
_MOST_PIECES = 1024
_ROWS_PER_RANGE = 1 << 20  # whose elements one task counts; it needs 150 bytes for each
# Dask's shuffle by tasks, in stages if there are many parts; under the names that its versions have for it.
_SHUFFLE: Dict[str, Any] = {
    "shuffle": "tasks",
    "dataframe.shuffle.algorithm": "tasks",
    "dataframe.shuffle.method": "tasks",
    "dataframe.convert-string": False,
}


class Done(NamedTuple):
    """What was written."""

    rows: int
    """How many rows all files have."""
    parts: List[str]
    """The names of the files, in order, relative to the output; for an output that is a file itself, its own name."""
    size: int
    """How many bytes the output has."""


class Compared(NamedTuple):
    """What was written of two sets."""

    rows: int
    """How many rows all files of both have."""
    parts: List[str]
    """As in :class:`Done`."""
    size: int
    """How many bytes the output has."""
    differs: bool
    """Whether the two sets say anything differently."""


class Asked(NamedTuple):
    """What is asked for."""

    first: str
    until: str
    vehicles: Tuple[str, ...]
    joined: bool
    block_size: int
    rows_per_part: int


class Run:
    """One run."""

    def __init__(self, client: Client, asked: Asked, staging: Staging, show: bool) -> None:
        self.client, self.asked, self.staging, self.show = client, asked, staging, show
        self.has_lines = False
        """Whether some part that was written has a line behind its header."""

    def whole(self, sets: Sequence[List[Source]]) -> Done:
        """Write the output: of one set the schedule, and of two what they say differently. See :func:`gtd.country.schedule` and
        :func:`gtd.country.diff`.
        """
        sources = [source for one in sets for source in one]
        opened = iter(self._files(sources))
        files = [list(itertools.islice(opened, len(one))) for one in sets]
        sides = [[block for file in one for block in blocks(file, self.asked.block_size)] for one in files]
        every = [block for side in sides for block in side]
        read = self._map(_blocks.read_rows, every)
        accepted = self._accepted(every, self._gathered("reading", self._map(_blocks.report, read)))
        bounds = list(itertools.accumulate(map(len, sides), initial=0))
        by_side = [read[begin:end] for begin, end in zip(bounds, bounds[1:])]
        cuts = self._cuts(by_side)
        if isinstance(cuts, Beyond):
            at = 1 if cuts.side == "new" else 0
            mine = slice(bounds[at], bounds[at + 1])
            raise self._fault_beyond(cuts, every[mine], read[mine], accepted[mine])
        plan = self._plan(cuts, len(sets))
        bundles = self._bundles(by_side, cuts, plan)
        del read, by_side  # from here on the scheduler keeps what the parts need
        written = [part for bundle in self._gathered("scheduling", bundles) for part in bundle]
        _check_same({report.engine for report in accepted} | {part.engine for part in written}, {part.desk for part in written})
        changed = [source.path for source in sources if source.is_changed()]
        if changed:
            raise RuntimeError(f"changed while they were read: {', '.join(changed)}")
        self.has_lines = any(part.size > len(plan.header) for part in written)
        return self._kept(plan, written, sum(report.rows for report in accepted))

    def _files(self, sources: List[Source]) -> List[File]:
        """The record files of the input; those that were packed are in the staging folder."""
        places = [
            self.staging.unpacked / f"{number}.csv" if source.is_packed else None for number, source in enumerate(sources)
        ]
        packed = [(source, place) for source, place in zip(sources, places) if place is not None]
        if packed:
            made = self.client.map(unpack, *zip(*packed), retries=_RETRIES, pure=False)
            self._gathered("unpacking", made)
        return [open_file(source, place) for source, place in zip(sources, places)]

    def _accepted(self, every: List[Block], reports: Sequence[Union[Accepted, Refused]]) -> List[Accepted]:
        """The reports, if all rows are accepted; otherwise the first fault is raised."""
        accepted: List[Accepted] = []
        for (block, lines, rows), report in zip(_counted(every, accepted), reports):
            if isinstance(report, Refused):
                raise self.client.submit(_blocks.fault_at, block, report, lines, rows, pure=False).result()
            accepted.append(report)
        return accepted

    def _cuts(self, by_side: List[List[Future]]) -> Union[Cuts, Beyond]:
        """The parts of all rows: their elements are counted range by range."""
        every = [one for side in by_side for one in side]
        total = dask.dataframe.from_delayed(self._map(_parts.bins, every), meta=_parts.BINS, verify_meta=False)
        total = total.groupby("bin").sum(split_every=8).to_delayed()[0]
        firsts = self.client.compute(dask.delayed(_parts.ranges)(total, _ROWS_PER_RANGE)).result()
        counts = self._map_sides(partial(_parts.counts, firsts=firsts), by_side)
        ranges = _shuffled(counts, _parts.COUNTS, "range", len(firsts))
        cut = dask.delayed(_parts.cut_range)
        cuts = self.client.compute(
            [cut(one, self.asked.rows_per_part, len(by_side)) for one in ranges], retries=_RETRIES
        )
        return _parts.join_cuts(self._gathered("counting", cuts))

    def _fault_beyond(self, beyond: Beyond, every: List[Block], read: List[Future], accepted: List[Accepted]) -> Exception:
        """The fault of the row with which an element becomes too large for a file."""
        held = self._gathered("looking", self._map(partial(_blocks.size_of, element=beyond.element), read))
        rows, size = 0, 0
        for (block, lines, before), (more_rows, more_size) in zip(_counted(every, accepted), held):
            if beyond.is_passed(rows + more_rows, size + more_size):
                place = (block, beyond, (rows, size), lines, before)
                fault = self.client.submit(_blocks.fault_beyond, *place, pure=False).result()
                return fault or RuntimeError(f"{block.file.name} was changed while it was read")
            rows, size = rows + more_rows, size + more_size
        return Fault(beyond.kind, note=beyond.note)

    def _plan(self, cuts: Cuts, sides: int) -> _parts.Plan:
        vehicles = self.asked.vehicles
        if len(vehicles) > 1:
            for vehicle in vehicles:
                (self.staging.parts / _parts.vehicle_name(vehicle)).mkdir()
        folders = self.staging.attempts, self.staging.parts
        return _parts.Plan(self.asked.first, self.asked.until, vehicles, *folders, len(cuts.rows), sides)

    def _bundles(self, by_side: List[List[Future]], cuts: Cuts, plan: _parts.Plan) -> List[Future]:
        """The tasks that write the parts, each some consecutive ones."""
        size = -(-plan.count // _MOST_PIECES)
        begins = range(0, plan.count, size)
        pieces = self._map_sides(partial(_parts.pieces, cuts=cuts, bundle_size=size), by_side)
        bundles = _shuffled(pieces, _parts.PIECES, "bundle", len(begins))
        write = dask.delayed(partial(_parts.write_bundle, plan=plan))
        rows = [[int(number) for number in cuts.rows[begin : begin + size]] for begin in begins]
        tasks = [write(bundle, begin, many) for bundle, begin, many in zip(bundles, begins, rows)]
        futures: List[Future] = self.client.compute(tasks, retries=_RETRIES)
        return futures

    def _kept(self, plan: _parts.Plan, written: List[_parts.Written], rows: int) -> Done:
        """Give the output its name."""
        groups = [[plan.name(vehicle, part) for part in range(plan.count)] for vehicle in plan.vehicles]
        size = sum(part.size for part in written)
        names = [name for group in groups for name in group]
        if self.asked.joined:
            size -= len(plan.header) * (len(names) - len(groups))
            names = [f"{_parts.vehicle_name(vehicle)}.csv" for vehicle in plan.vehicles]
        if self.staging.is_file:
            names = [self.staging.out.name]
        self.staging.keep(groups, names, self.asked.joined)
        return Done(rows, names, size)

    def _map(self, function: Callable[..., Any], many: Iterable[Any]) -> List[Future]:
        futures: List[Future] = self.client.map(function, many, retries=_RETRIES, pure=False)
        return futures

    def _map_sides(self, function: Callable[..., Any], by_side: List[List[Future]]) -> List[Future]:
        """A function of blocks that go into the shuffle together, of each set by itself."""
        futures: List[Future] = []
        for side, read in enumerate(by_side):
            futures += self.client.map(partial(function, side=side), _grouped(read), retries=_RETRIES, pure=False)
        return futures

    def _gathered(self, what: str, futures: List[Future]) -> List[Any]:
        """The results of tasks, with a bar on standard error that shows how many are done."""
        try:
            if self.show:
                with contextlib.redirect_stdout(sys.stderr):
                    print(what)
                    progress(futures, notebook=False)
                    print()
            return list(self.client.gather(futures))
        except BaseException:
            with contextlib.suppress(Exception):
                if self.client.status == "running":
                    self.client.cancel(futures)
            raise


def _check_same(engines: Set[str], desks: Set[str]) -> None:
    """Raise RuntimeError if the workers have different programs."""
    if len(engines) > 1:
        raise RuntimeError("the workers have different programs gtd, or different libraries")
    if len(desks) > 1:
        raise RuntimeError("the workers have different programs gtdesk")


def _grouped(read: List[Future]) -> List[List[Future]]:
    """Blocks that go into the shuffle together."""
    step = -(-len(read) // _MOST_PIECES)
    return [read[at : at + step] for at in range(0, len(read), step)]


def _shuffled(frames: List[Future], meta: Any, column: str, count: int) -> List[Any]:
    """The rows of frames, by a column that has the values from 0 up to ``count``: a lazy frame for each value."""
    with dask.config.set(_SHUFFLE):
        frame = dask.dataframe.from_delayed(frames, meta=meta, verify_meta=False)
        return list(frame.set_index(column, divisions=list(range(count + 1))).to_delayed())


def _counted(every: List[Block], accepted: List[Accepted]) -> Iterator[Tuple[Block, int, int]]:
    """Each block, with the lines and the rows of its file before it; ``accepted`` has the reports of the blocks before it."""
    file, lines, rows = None, 0, 0
    for number, block in enumerate(every):
        if block.file is not file:
            file, lines, rows = block.file, block.file.lines_before, 0
        yield block, lines, rows
        lines, rows = lines + accepted[number].lines, rows + accepted[number].rows


@contextlib.contextmanager
def told_plainly(client: Client) -> Iterator[None]:
    """Turns a lost scheduler into one error, whatever call met it."""
    try:
        yield
    except (CancelledError, CommClosedError) as lost:
        address = client.scheduler.address if client.scheduler is not None else "its address"
        raise ConnectionError(f"the scheduler at {address} has gone away, or has dropped the run's tasks") from lost
