"""One domain: the language, faults, moments, and where the program is."""

import os
import pickle
from datetime import date, datetime, timezone

import numpy
import pandas
import pytest

import gtd
from tests.conftest import without_library


def test_rows_of_the_language():
    assert gtd.check("[(h1){y100}]") is None
    assert gtd.canon("[(m30h07){m30h1}]") == "[(h7m30){h1m30}]"
    assert gtd.canon(" ( t4 t2 t4 h07 ) { m30 h1 }") == "[(t2t4h7){h1m30}]"
    assert gtd.contains("[(M5h10){h1}]", datetime(2024, 5, 17, 10, 59, 59)) is True
    assert gtd.contains("[(M5h10){h1}]", datetime(2024, 5, 17, 11)) is False


@pytest.mark.parametrize(
    "moment",
    [
        datetime(2024, 5, 17, 10, 59, 59, 999_999),
        pandas.Timestamp("2024-05-17T10:59:59.999999999"),
        numpy.datetime64("2024-05-17T10:59:59.999"),
        "2024-05-17T10:59:59",
    ],
)
def test_moments_are_seconds(moment):
    assert gtd.contains("[(M5h10){h1}]", moment)


def test_next_changes():
    first = gtd.next_change("[(t2){d5}]", datetime(2024, 1, 5, 12), date(2024, 2, 1))
    assert first == gtd.Change(datetime(2024, 1, 6), False) == (datetime(2024, 1, 6), False)
    assert first.moment == datetime(2024, 1, 6) and not first.inside
    assert gtd.next_change("[(t2){d5}]", datetime(2024, 1, 5, 12), pandas.Timestamp("2024-01-06")) is None
    assert gtd.next_change_ever("[(M2d29){d1}]", datetime(2199, 12, 31)) == (datetime(2204, 2, 29), True)
    assert gtd.next_change_ever("(M2d30){d1}", datetime(2024, 1, 1)) is None


@pytest.mark.parametrize(
    "text, kind, place",
    [
        ("[(h25){h1}]", "FieldRange", 2),
        ("-(h1){h1}", "Unexpected", 0),
        ("-", "Unexpected", 0),
        ("--", "Unexpected", 0),
        ("--help", "BadToken", 2),
        ("", "Incomplete", 0),
        ("(h1)\0", "BadToken", 4),
        ("(h1)é", "BadToken", 4),
        ("(h1)\ud800", "BadToken", 4),
        (" " * 200_000 + "x", "BadToken", 200_000),
    ],
    ids=lambda given: str(ascii(given))[-20:],
)
def test_faults(text, kind, place):
    for ask in (gtd.check, gtd.canon, lambda text: gtd.contains(text, datetime(2024, 1, 1))):
        with pytest.raises(gtd.Fault) as caught:
            ask(text)
        fault = caught.value
        assert (fault.kind, fault.place, fault.row) == (kind, place, None)
        said = str(fault).split("\n")
        assert said[0] == f"{kind} at {place}"
        if text.isprintable() and len(text) < 100:
            assert said[1:] == ["  " + text, "  " + " " * place + "^"]
        again = pickle.loads(pickle.dumps(fault))
        assert vars(again) == vars(fault) and str(again) == str(fault)


def test_a_long_text_is_read():
    long = " " * 200_000 + "(h1){h1}"
    assert gtd.canon(long) == "[(h1){h1}]"
    assert gtd.contains(long, datetime(2024, 1, 1, 1))


@pytest.mark.parametrize(
    "moment, kind",
    [
        (datetime(1900, 12, 31, 23, 59, 59), "moment Range"),
        (datetime(2200, 1, 1), "moment Range"),
        (datetime(1, 1, 1), "moment Range"),
        ("2024-02-30T00:00:00", "moment NoSuchDate"),
        ("2024-02-03", "moment Shape"),
        (numpy.datetime64("-0500-01-01"), "moment Shape"),
    ],
)
def test_moments_out_of_range(moment, kind):
    with pytest.raises(gtd.Fault) as caught:
        gtd.contains("(h1){h1}", moment)
    assert (caught.value.kind, caught.value.text) == (kind, None)


def test_what_no_moment_is():
    for moment in (datetime(2024, 1, 1, tzinfo=timezone.utc), pandas.NaT, numpy.datetime64("NaT")):
        with pytest.raises(ValueError):
            gtd.contains("(h1){h1}", moment)
    for moment in (None, 3, date(2024, 1, 1)):
        with pytest.raises(TypeError):
            gtd.contains("(h1){h1}", moment)
    with pytest.raises(ValueError, match="a day is asked for"):
        gtd.next_change("(h1){h1}", datetime(2024, 1, 1), datetime(2024, 1, 2, 1))


def test_a_year_is_refused_for_ever():
    with pytest.raises(gtd.Fault) as caught:
        gtd.next_change_ever("(y2024){d1}", datetime(2024, 1, 1))
    assert caught.value.kind == "HasYear"


def test_where_the_program_is(monkeypatch, tmp_path):
    without_library(monkeypatch)
    path = gtd.program()
    monkeypatch.setenv("PATH", os.path.dirname(path) if os.path.basename(path) == "gtd" else "")
    monkeypatch.delenv("GTD")
    if os.path.basename(path) == "gtd":
        assert gtd.program() == path
    monkeypatch.setenv("PATH", str(tmp_path))
    with pytest.raises(gtd.ProgramNotFound, match="GTD"):
        gtd.check("(h1){h1}")
    monkeypatch.setenv("GTD", str(tmp_path / "none"))
    with pytest.raises(FileNotFoundError, match="none"):
        gtd.check("(h1){h1}")
    other = tmp_path / "other"
    monkeypatch.setenv("GTD", str(other))
    for ends, error, said in [
        ("echo to do: nothing >&2; exit 7", RuntimeError, "ended with status 7: to do: nothing"),
        ("kill -9 $$", RuntimeError, "was ended by signal 9: it said nothing"),
        ("echo fault NoMemory >&2; exit 3", MemoryError, "NoMemory"),
        ("echo fault WriteFault >&2; exit 3", OSError, "WriteFault"),
    ]:
        other.write_text(f"#!/bin/sh\n{ends}\n")
        other.chmod(0o755)
        with pytest.raises(error, match=said):
            gtd.check("(h1){h1}")
