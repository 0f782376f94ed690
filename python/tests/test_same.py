"""Two domains, and two opening hours: whether they have the same seconds."""

from datetime import datetime

import numpy
import pytest

import gtd


def test_domains():
    assert gtd.same("(h22){h8}", " (h22){h2} + (h0){h6} ")
    assert gtd.first_difference("(h22){h8}", "(h22){h2}+(h0){h6}") is None
    assert not gtd.same("(h8){h9}", "(h8){h8}")
    assert gtd.first_difference("(h8){h9}", "(h8){h8}") == (datetime(1901, 1, 1, 16), "first")
    assert gtd.same(gtd.Domain("(t1){d7}"), gtd.Domain("(h0){d1}"))
    assert gtd.first_difference(gtd.Domain("(t1){d6}"), "(h0){d1}", from_="2024-03-15T12:00:00").side == "second"


@pytest.mark.parametrize("moment", [datetime(2025, 1, 6), numpy.datetime64("2025-01-06"), "2025-01-06T00:00:00"])
def test_from_a_moment(moment):
    assert gtd.same("(y2024M12d23){d14}", "(y2024M12d23){d13}", from_=moment)
    assert gtd.first_difference("(y2024M12d23){d14}", "(y2024M12d23){d13}") == (datetime(2025, 1, 5), "first")


def test_hours():
    assert gtd.same("Mo-Fr 08:00-17:00", "Mo-Fr 08:00-12:00,12:00-17:00", hours=True)
    apart = gtd.first_difference("Mo[1-4]", "Mo", hours=True, from_="2024-03-15T12:00:00")
    assert apart == gtd.Difference(datetime(2024, 4, 29), "second")
    assert apart.moment == datetime(2024, 4, 29) and apart.side == "second"


@pytest.mark.parametrize(
    "first, second, hours, kind, place",
    [
        ("(h25){h1}", "x", False, "FieldRange", 1),
        ("(h1){h1}", "[(h25){h1}]", False, "FieldRange", 2),
        ("Mo 25:00-26:00", "x", True, "Range", 3),
        ("Mo", "Mo-Fr 08:00-18:00; PH off", True, "Unsupported", 19),
        ("Mo", "", True, "Incomplete", 0),
        ("Mo", "Mo\0", True, "BadToken", 2),
        ("Mo", "--from", True, "BadToken", 2),
        ("Mo", "1800-2056/2", True, "TooMany", 0),
    ],
)
def test_faults(first, second, hours, kind, place):
    with pytest.raises(gtd.Fault) as refused:
        gtd.same(first, second, hours=hours)
    at_fault = second if first in ("Mo", "(h1){h1}") else first
    assert (refused.value.kind, refused.value.place, refused.value.text) == (kind, place, at_fault)
    assert refused.value.note == (("second" if first == "Mo" else "first") if hours else None)


@pytest.mark.parametrize(
    "moment, kind",
    [("today", "Shape"), ("2023-02-29T00:00:00", "NoSuchDate"), ("2200-01-01T00:00:00", "Range")],
)
def test_moments_that_are_refused(moment, kind):
    with pytest.raises(gtd.Fault, match=f"moment {kind}"):
        gtd.same("(h1){h1}", "(h1){h1}", from_=moment)


def test_what_is_no_text():
    with pytest.raises(TypeError):
        gtd.same("(h1){h1}", 7)
    with pytest.raises(TypeError):
        gtd.same("Mo", gtd.Domain("(h1){h1}"), hours=True)
    with pytest.raises(ValueError, match="more than 100000 bytes"):
        gtd.same("Mo", "Mo," * 50_000 + "Mo", hours=True)
