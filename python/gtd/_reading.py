"""Record files as they are given, and schedules as the program prints them."""

from __future__ import annotations

import csv
import gzip
import operator
import os
from typing import IO, Any, Dict, Union

import numpy
import pandas

from gtd._by_program import RecordsByProgram
from gtd._fault import Fault, in_row
from gtd._in_process import RecordsInProcess
from gtd._library import load
from gtd._program import LARGEST_FILE, MOST_ROWS

Path = Union[str, "os.PathLike[str]"]
RecordsLike = Union[Path, bytes, IO[bytes], "pandas.DataFrame"]
Engine = Union[RecordsInProcess, RecordsByProgram]

DIRECTION = pandas.CategoricalDtype(["positive", "negative"])
CHANGE = pandas.CategoricalDtype(["opened", "closed"])
HAS_SECONDS = bool(pandas.Series(numpy.zeros(1, "datetime64[s]")).dtype == "datetime64[s]")
_LAST_NANOSECOND = "2262-04-11"


def engine_of(given: bytes) -> Engine:
    """What answers for the records of a file.

    Raises
    ------
    Fault
        The first fault of the file, with the text of its row.
    """
    library = load("records_open")
    try:
        if library is not None:
            return RecordsInProcess(library, given)
        program = RecordsByProgram(given)
        program.elements()
        return program
    except Fault as fault:
        raise with_row(fault, given) from None


def with_row(fault: Fault, given: bytes) -> Fault:
    """The same fault, with the text of its row in the file."""
    if fault.kind == "TooManyRows":
        return Fault(fault.kind, row=fault.row, note=f"a file has at most {MOST_ROWS:,} rows; see gtd.country")
    return fault if fault.row is None else in_row(fault, row_of(given, fault.row), fault.row)


def check_last(last: str) -> None:
    """Raise OutOfBoundsDatetime if pandas cannot hold the moments before a day."""
    if not HAS_SECONDS and len(last) == 10 and last > _LAST_NANOSECOND:
        raise pandas.errors.OutOfBoundsDatetime(f"until {last}: moments after {_LAST_NANOSECOND} need pandas 2")


def as_bytes(records: RecordsLike) -> bytes:
    """The bytes of a record file; if it is too large, one byte more than it may have. Of a frame, all bytes."""
    if isinstance(records, pandas.DataFrame):
        return _as_file(records)
    if isinstance(records, (bytes, bytearray, memoryview)):
        return bytes(records)
    if isinstance(records, (str, os.PathLike)):
        is_packed = os.fspath(records).endswith(".gz")
        with gzip.open(records) if is_packed else open(records, "rb") as file:
            return file.read(LARGEST_FILE + 1)
    read = records.read(LARGEST_FILE + 1)
    if not isinstance(read, bytes):
        raise TypeError("a file of records is opened in binary mode: its bytes are what is read")
    return read


def number(given: int, kind: str) -> str:
    """The word for a number; a number that has no word is out of range."""
    value = operator.index(given)
    if not 0 <= value <= 9_999_999_999:
        raise Fault(kind, text=str(value))
    return str(value)


def _as_file(frame: pandas.DataFrame) -> bytes:
    vehicles = [name for name in ("vehicle", "vehicles") if name in frame.columns]
    missing = [name for name in ("element", "direction", "domain") if name not in frame.columns]
    if missing or len(vehicles) != 1:
        raise ValueError(
            "records have the columns element, direction, domain and either vehicle or vehicles; "
            f"there are {', '.join(map(str, frame.columns))}"
        )
    rows = pandas.DataFrame(frame.loc[:, ["element", "direction", vehicles[0], "domain"]])
    for name in ("element", vehicles[0]):
        rows[name] = _numbers_of(rows[name])
    text: str = rows.to_csv(index=False, lineterminator="\n")
    if "\r" in text:  # an end of a line, too, which Python does not put in quotes by itself
        text = rows.to_csv(index=False, lineterminator="\n", quoting=csv.QUOTE_ALL)
    return text.encode("utf-8", "replace")


def _numbers_of(column: pandas.Series) -> pandas.Series:
    """A column of elements or of vehicle types, as a record file has it: several types in one field, and no decimals.

    A missing value has pandas keep whole numbers as floating-point ones. Only the row that lacks one is at fault for that.
    """
    if column.dtype.kind == "f" and column.isna().any() and (column.dropna() % 1 == 0).all():
        return column.astype("Int64")
    if column.dtype == object:
        return column.map(lambda value: ";".join(map(str, value)) if isinstance(value, (list, tuple, numpy.ndarray)) else value)
    return column


def row_of(file: bytes, row: int) -> bytes:
    """The text of a row, if the rows before it are accepted: none of these runs over the end of its line."""
    lines = [line for line in file.removeprefix(b"\xef\xbb\xbf").splitlines() if line]
    return lines[row] if row < len(lines) else b""


def is_large(records: RecordsLike, given: bytes) -> bool:
    """Whether the records are a frame that no file can hold."""
    return isinstance(records, pandas.DataFrame) and (len(records) > MOST_ROWS or len(given) > LARGEST_FILE)


def read_schedule(file: Union[Path, IO[bytes]]) -> pandas.DataFrame:
    """A schedule that the program printed, as :func:`schedule` gives it."""
    return _read_spans(file, {})


def read_changes(file: Union[Path, IO[bytes]]) -> pandas.DataFrame:
    """Changes that the program printed, as :func:`diff` gives them."""
    return _read_spans(file, {"change": CHANGE})


def _read_spans(file: Union[Path, IO[bytes]], more: Dict[str, Any]) -> pandas.DataFrame:
    """Lines that the program printed, each of a span of an element; and the types of the columns that not all of these have."""
    types = {"element": "int64", "direction": DIRECTION, "vehicle": "int64", "from": "category", "until": "category", **more}
    frame = pandas.read_csv(file, dtype=types)
    for name in ("from", "until"):
        moments = frame[name].cat
        frame[name] = moments.categories.to_numpy(dtype="datetime64[s]")[moments.codes]
    return frame
