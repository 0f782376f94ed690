"""Columns of opening hours, with holidays, options and loose forms."""

import subprocess

import numpy
import pandas
import pytest

import gtd

TABLE = "first,last,kind,name\n2025-01-01,2026-12-31,PH-covered,\n2025-12-25,,PH,\n"


@pytest.fixture
def table(tmp_path):
    (tmp_path / "at.csv").write_text(TABLE)
    return {"holidays": tmp_path / "at.csv", "years": "2025-2026"}


def by_desk(text, *words):
    """The domain that the program prints of one text."""
    command = [gtd.program("gtdesk"), "hours", *words, "--", text]
    printed = subprocess.run(command, stdout=subprocess.PIPE, stderr=subprocess.DEVNULL, check=True).stdout
    return printed.decode().splitlines()[-1]


def test_each_text_is_as_the_program_reads_it(table):
    texts = ["Mo-Fr 08:00-18:00; PH off", "PH 10:00-12:00", "24/7", "Mo-Fr 8:00-18:00", "Sa 05:00-15:00 \"Markt\""]
    words = ["--holidays", str(table["holidays"]), "--years", table["years"]]
    found = gtd.domains_of_hours(texts, options=table)
    assert found.tolist() == [by_desk(text, *words) for text in texts]
    assert [gtd.Domain.of_hours(text, options=table, strict=False).text for text in texts] == found.tolist()


def test_a_column_keeps_its_index_and_what_is_missing():
    column = pandas.Series(["Mo 08:00-09:00", None, numpy.nan, "", "Mo 08:00-09:00"], index=list("abcde"), name="opening_hours")
    found = gtd.domains_of_hours(column)
    assert list(found.index) == list("abcde") and found.name == "opening_hours"
    assert found.isna().tolist() == [False, True, True, False, False]
    assert found["d"] == "" and found["a"] == found["e"] == gtd.Domain.of_hours("Mo 08:00-09:00").text
    assert found.gtd.contains("2025-12-01T08:30:00").tolist() == [True] * 5
    assert len(gtd.domains_of_hours([])) == 0


def test_more_texts_than_a_file_has_rows():
    texts = [f"Mo {at // 3600:02}:{at // 60 % 60:02}-{23 - at % 7:02}:59" for at in range(0, 36_000, 60)]
    many = [f'{text} "{number}"' for number in range(120) for text in texts]
    found = gtd.domains_of_hours(many)
    assert len(many) > 65_536
    assert found.tolist() == gtd.domains_of_hours(texts).tolist() * 120


def test_options():
    assert gtd.Domain.of_hours("Mo sunrise-sunset", options={"sunrise": "06:00", "sunset": "20:00"}) == gtd.Domain.of_hours(
        "Mo 06:00-20:00")
    assert gtd.domains_of_hours(["Mo 17:00+"], options={"open-end": "22:00"}).tolist() == gtd.domains_of_hours(
        ["Mo 17:00-22:00"]).tolist()
    with pytest.raises(ValueError, match="the options of hours are"):
        gtd.domains_of_hours(["Mo 08:00-09:00"], options={"dusks": "20:00"})
    with pytest.raises(ValueError, match="SUNSET"):
        gtd.domains_of_hours(["Mo 08:00-09:00"], options={"sunset": "25:00"})


def test_loose_texts():
    assert gtd.domains_of_hours(["Mo 8:00-9:00"]).tolist() == [gtd.Domain.of_hours("Mo 08:00-09:00").text]
    with pytest.raises(gtd.Fault, match="hours BadToken at 3") as raised:
        gtd.domains_of_hours(["Mo 08:00-09:00", "Mo 8:00-9:00"], strict=True)
    assert raised.value.row == 2


@pytest.mark.parametrize("text, kind, place", [("Mo 25:00", "hours Range", 3), ("Mo 08:00-", "hours Incomplete", 9),
                                               ("é Mo", "hours BadToken", 0), ("PH off", "hours Holidays", 0)])
def test_faults(text, kind, place):
    with pytest.raises(gtd.Fault) as raised:
        gtd.domains_of_hours(pandas.Series(["24/7", "24/7", text, "Mo 26:00"]))
    fault = raised.value
    assert (fault.kind, fault.place, fault.row, fault.text) == (kind, place, 3, text)
    assert fault.note and fault.note.startswith("expected: ")
    with pytest.raises(gtd.Fault) as raised:
        gtd.Domain.of_hours(text, strict=False)
    assert (raised.value.kind, raised.value.place, raised.value.row, raised.value.text) == (kind, place, None, text)


def test_faults_of_the_table(tmp_path, table):
    table["holidays"].write_text(TABLE + "2025-13-01,,PH,\n")
    with pytest.raises(gtd.Fault) as raised:
        gtd.domains_of_hours(["PH off"], options=table)
    assert raised.value.row == 3 and str(table["holidays"]) in (raised.value.file or "")


def test_what_is_no_text():
    with pytest.raises(TypeError, match="opening hours are a str, not int"):
        gtd.domains_of_hours(["24/7", 5])
