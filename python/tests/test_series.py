"""Columns of domains: the accessor against the functions for one domain."""

import random

import numpy
import pandas
import pytest

import gtd
from gtd import _by_program, _series
from tests.conftest import model_of, without_library
from tests.make_records import rows

model, Maker = model_of("model"), model_of("fuzz").Maker

SHAPES = sorted({line.rstrip("\n").split(",", 3)[3] for line in rows(300, 5)} - {"", "domain"})
MOMENTS = ["2024-01-06T00:00:00", "2024-03-31T23:59:59", "2024-06-03T08:15:59", "2199-12-31T12:00:00", "1901-01-01T00:00:01"]


def test_each_text_as_by_itself():
    column = pandas.Series(SHAPES, index=[f"road {at}" for at in range(len(SHAPES))], name="domain")
    assert column.gtd.check() is None
    expected = pandas.Series([gtd.canon(text) for text in SHAPES], column.index, name="domain", dtype=object)
    pandas.testing.assert_series_equal(column.gtd.canon(), expected)
    for moment in MOMENTS:
        expected = pandas.Series([gtd.contains(text, moment) for text in SHAPES], column.index, name="domain")
        pandas.testing.assert_series_equal(column.gtd.contains(moment), expected)


@pytest.mark.parametrize("second", [0, 1, 59, 60, 3599, 3600, 43200, 86398, 86399])
def test_a_second_of_the_day(second):
    text = f"(h{second // 3600}m{second // 60 % 60}s{second % 60}){{s1}}"
    day = pandas.Timestamp("2024-02-29")
    column = pandas.Series([text, "[(h0){h24}]", f"[(h0){{h24}}]-{text}"])
    assert column.gtd.contains(day + pandas.Timedelta(seconds=second)).tolist() == [True, True, False]
    assert column.gtd.contains(day + pandas.Timedelta(seconds=(second + 1) % 86400)).tolist() == [False, True, True]


def test_empty_and_missing_texts_always_hold():
    for column in [
        pandas.Series(["(h1){h1}", "", None, numpy.nan, "(h1){h1}"]),
        pandas.Series(["(h1){h1}", "", None, pandas.NA, "(h1){h1}"], dtype="string"),
        pandas.Series(["(h1){h1}", "", None, None, "(h1){h1}"], dtype="category"),
    ]:
        canonical = column.gtd.canon()
        assert canonical[0] == canonical[4] == "[(h1){h1}]" and canonical[1] == ""
        assert canonical.isna().tolist() == [False, False, True, True, False]
        assert column.gtd.contains("2024-01-01T05:00:00").tolist() == [False, True, True, True, False]
    for column in (pandas.Series([], dtype=object), pandas.Series([None, None], dtype=object)):
        assert column.gtd.contains("2024-01-01T05:00:00").tolist() == [True] * len(column)
        assert len(column.gtd.canon()) == len(column)


def test_row_by_row(answering):
    """A column of domains with a column of moments, against the model."""
    maker = Maker(11)
    texts = [maker.domain() for _ in range(8)] * 5 + ["", None]
    seconds = [maker.moment(text or "") for text in texts[: 10 if answering == "programs" else 40]]
    texts = texts[: len(seconds)] + ["", None]
    seconds += [0, 0]
    expected = [not text or model.contains(model.read(text.encode()), second) for text, second in zip(texts, seconds)]
    column = pandas.Series(texts, index=[f"road {at}" for at in range(len(texts))], name="domain")
    moments = numpy.array(seconds).astype("datetime64[s]")
    for given in (moments, pandas.Series(moments, index=column.index), moments.tolist()):
        found = column.gtd.contains(given)
        pandas.testing.assert_series_equal(found, pandas.Series(expected, column.index, name="domain"))


def test_moments_of_a_column_that_are_refused(answering):
    column = pandas.Series(["(h1){h1}", "(h25){h1}"])
    with pytest.raises(ValueError, match="2 domains and 1 moments"):
        column.gtd.contains(["2024-01-01T00:00:00"])
    with pytest.raises(ValueError, match="another index"):
        column.gtd.contains(pandas.Series(["2024-01-01T00:00:00"] * 2, index=[1, 2]))
    for moments, kind, row in [
        (["2024-01-01T00:00:00", "2200-01-01T00:00:00"], "moment Range", 2),
        (["2024-01-01T00:00:00", "2199-12-31T23:59:59"], "FieldRange", 2),
    ]:
        with pytest.raises(gtd.Fault) as caught:
            column.gtd.contains(moments)
        assert (caught.value.kind, caught.value.row) == (kind, row)


def watched(monkeypatch, module, name):
    """The first words of the commands that a module runs by one of its functions, as they are run."""
    asked, run = [], getattr(module, name)

    def watching(*words, **more):
        asked.append(words[0])
        return run(*words, **more)

    monkeypatch.setattr(module, name, watching)
    return asked


def test_the_program_is_asked_once(monkeypatch):
    """Where there is no library."""
    without_library(monkeypatch)
    asked = watched(monkeypatch, _series, "run")
    column = pandas.Series([f"(h{at % 24}){{s{at % 3000 + 1}}}" for at in range(50_000)])
    assert column.gtd.canon()[49_999] == gtd.canon(column[49_999])
    assert asked == ["migrate"]
    held = column.gtd.contains("2024-01-01T05:10:00")
    assert asked[1:] == ["schedule"]  # 24,000 texts differ
    sample = random.Random(2).sample(range(50_000), 20)
    assert [held[at] for at in sample] == [gtd.contains(column[at], "2024-01-01T05:10:00") for at in sample]


def test_many_moments_are_asked_by_one_program(monkeypatch):
    """Where there is no library. A text lasts an hour from its own hour on, so the hour of a moment tells what it contains."""
    without_library(monkeypatch)
    asked = watched(monkeypatch, _by_program, "run_desk")
    maker = numpy.random.default_rng(5)
    hours, begin = maker.integers(0, 24, 20_000), numpy.datetime64("1950-01-01T00:00:00")
    moments = begin + maker.integers(0, 240 * 365 * 86_400, 20_000).astype("timedelta64[s]")
    column = pandas.Series([f"(h{hour}){{h1}}" for hour in hours], index=range(20_000, 40_000))
    column.iloc[::7] = None
    column.iloc[3::7] = ""
    expected = (moments.astype("datetime64[h]").astype("int64") % 24 == hours) | (numpy.arange(20_000) % 7 == 0)
    expected |= numpy.arange(20_000) % 7 == 3
    pandas.testing.assert_series_equal(column.gtd.contains(moments), pandas.Series(expected, column.index))
    assert asked == ["ask"]
    monkeypatch.setattr(_by_program, "_MOST_QUESTIONS", 4_000)
    assert column.gtd.contains(moments).tolist() == expected.tolist() and asked == ["ask"] * 6
    assert column[:0].gtd.contains(moments[:0]).tolist() == []


def test_texts_that_one_file_cannot_hold():
    column = pandas.Series([f"(h{at % 24}){{h{at // 24 % 24}m{at // 576 % 60}s{at // 34560 + 1}}}" for at in range(70_000)])
    assert column.nunique() == 70_000
    canonical = column.gtd.canon()
    held = column.gtd.contains("2024-01-01T05:10:00")
    for at in (0, 32_767, 32_768, 65_535, 65_536, 69_999):
        assert canonical[at] == gtd.canon(column[at]) and held[at] == gtd.contains(column[at], "2024-01-01T05:10:00")


@pytest.mark.parametrize(
    "text, kind, place", [("(h25){h1}", "FieldRange", 1), ('(h1)"', "BadToken", 4), ("(h1)\n{h1}", "BadToken", 4)]
)
def test_the_first_fault(text, kind, place):
    column = pandas.Series(["(h1){h1}", None, "(h1){h1}", text, "(h1){h1}", text, "x"], index=list("abcdefg"))
    for ask in (column.gtd.check, column.gtd.canon, lambda: column.gtd.contains("2024-01-01T00:00:00")):
        with pytest.raises(gtd.Fault) as caught:
            ask()
        fault = caught.value
        assert (fault.kind, fault.place, fault.row, fault.text, fault.caret) == (kind, place, 4, text, place)
        assert str(fault).startswith(f"row 4: {kind} at {place} (label 'd')\n")


def test_a_text_beside_others_changes_none():
    column = pandas.Series(['(h1){h1}"\n2,both,0,"', "(h2){h2}"])
    with pytest.raises(gtd.Fault) as caught:
        column.gtd.contains("2024-01-01T00:00:00")
    assert (caught.value.kind, caught.value.row) == ("BadToken", 1)


def test_the_moment_is_looked_at_first():
    column = pandas.Series(["(h25){h1}"])
    moments = [("2200-01-01T00:00:00", "moment Range"), ("2024-02-30T00:00:00", "moment NoSuchDate"), ("x", "moment Shape")]
    for moment, kind in moments:
        with pytest.raises(gtd.Fault) as caught:
            column.gtd.contains(moment)
        assert caught.value.kind == kind
    with pytest.raises(ValueError, match="NaT"):
        column.gtd.contains(pandas.NaT)


def test_columns_of_something_else():
    for column in (pandas.Series([1, 2]), pandas.Series(["(h1){h1}", 3]), pandas.Series([b"(h1){h1}"])):
        with pytest.raises(AttributeError, match="texts"):
            column.gtd
