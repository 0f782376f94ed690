"""Faults, warnings, mended files and records of tags, as the documents show them; and values that are missing."""

import shutil
from pathlib import Path

import numpy
import pandas
import pytest

import gtd
from gtd import _desk

EXAMPLES = Path(gtd.__file__).parents[2] / "examples"
HEADER = b"element,direction,vehicle,domain\n"


def test_faults_of_a_file():
    """The lines of docs/COMMANDS.md."""
    town = (EXAMPLES / "town.csv").read_bytes().replace(b"\n102,both", b"\n102,closed").replace(b"(M8)", b"(M13)")
    found = gtd.faults(town)
    assert found["line"].tolist() == [3, 7] and found["row"].tolist() == [2, 6]
    assert found["kind"].tolist() == ["Direction", "Domain FieldRange"]
    assert found["place"].isna().tolist() == [True, False] and found["place"][1] == 14
    assert found["text"].tolist() == ["closed", "[(h0){h24}]-[(M13){M1}]"]
    assert found["expected"].tolist() == ["positive, negative or both", "1 to 12 for a month"]
    assert found["warning"].tolist() == [None, None]
    header = gtd.faults(b"Element;Direction;Vehicle;Domain\n17;both;0;\n")
    assert header[["line", "kind", "text"]].values.tolist() == [[1, "Header", "Element;Direction;Vehicle;Domain"]]
    assert header["row"].isna().all() and header["hint"][0] == "the fields are separated by semicolons; use commas"
    assert gtd.faults(EXAMPLES / "town.csv").empty and str(gtd.faults(HEADER)["row"].dtype) == "Int64"


def test_warnings_of_a_file():
    town = (EXAMPLES / "town.csv").read_bytes().replace(b"{h10}", b"{h0}").replace(b"(h22){h8}", b"(h7){h9}")
    found = gtd.faults(town, warn=True)
    assert found[["line", "row", "kind", "text"]].values.tolist() == [
        [2, 1, "never-holds", "(t7h5){h0}"],
        [3, 2, "end-as-duration", "(h7){h9}"],
    ]
    assert found["warning"].tolist() == ["at no second from 1901 on", "until 16:00; a duration is no end"]
    assert found["hint"].tolist() == [None, "until 09:00"]
    assert gtd.faults(town, warn=True, allow=["never-holds", "end-as-duration"]).empty
    assert gtd.faults(town).empty
    past = HEADER + b"1,both,0,(y2020M1d1){d1}\n"
    assert gtd.faults(past, warn=True, at="2024-01-01")["kind"].tolist() == ["past"]
    assert "past" not in gtd.faults(past, warn=True, at="2019-06-01")["kind"].tolist()
    with pytest.raises(ValueError, match="RULE: not names of rules"):
        gtd.faults(town, warn=True, allow=["never"])
    with pytest.raises(gtd.Fault, match="date NoSuchDate"):
        gtd.faults(town, warn=True, at="2024-02-30")
    with pytest.raises(ValueError, match="warn=True"):
        gtd.faults(town, allow=["never-holds"])


def test_a_frame_whose_rows_are_at_fault():
    frame = pandas.DataFrame({"element": [17, 18], "direction": ["both", "up"], "vehicle": [0, 100], "domain": [None, "x"]})
    found = gtd.faults(frame)
    assert found[["row", "kind", "text"]].values.tolist() == [[2, "Direction", "up"]]


def test_a_mended_file():
    mended = gtd.mend(b"element;direction;vehicle;domain\n17.0; Both;0;\n")
    assert mended.file == b"element,direction,vehicle,domain\n17,both,0,\n"
    changes = [(1, None, "separators"), (2, 1, "decimals"), (2, 2, "spaces"), (2, 2, "capitals")]
    assert [(line, None if field is pandas.NA else field, change) for line, field, change in mended.changes.values] == changes
    town = (EXAMPLES / "town.csv").read_bytes()
    assert gtd.mend(town).file == town and gtd.mend(town).changes.empty


def test_records_of_tags():
    folder = EXAMPLES / "conditions"
    expected = pandas.read_csv(folder / "ways.records.csv", keep_default_na=False, dtype=str)
    for tags in (folder / "ways.tags.csv", (folder / "ways.tags.csv").read_bytes(), pandas.read_csv(folder / "ways.tags.csv")):
        assert gtd.conditions(tags, folder / "means.csv").astype(str).values.tolist() == expected.values.tolist()


def test_tags_at_fault(tmp_path):
    means = EXAMPLES / "conditions" / "means.csv"
    tags = pandas.DataFrame([[1, "hgv:conditional", "no @ (Mo 25:00)"], [1, "hgv", "maybe"]], columns=["element", "key", "value"])
    with pytest.raises(gtd.Fault) as caught:
        gtd.conditions(tags, means)
    fault = caught.value
    assert (fault.kind, fault.place, fault.row, fault.line, fault.text) == ("Hours Range", 9, 1, 2, "no @ (Mo 25:00)")
    assert fault.note == "expected: a number or a time in its range, such as 08:00 or Apr 30"
    with pytest.raises(ValueError, match="element, key and value"):
        gtd.conditions(tags.drop(columns="key"), means)
    wrong = tmp_path / "means.csv"
    wrong.write_text("kind,name,means\nmode,hgv\n")
    for options, table in [({}, wrong), ({"holidays": wrong, "years": "2024"}, means)]:
        with pytest.raises(gtd.Fault) as caught:
            gtd.conditions(tags, table, hours=options)
        assert caught.value.kind == ("Header" if options else "FieldCount") and caught.value.file == str(wrong)
    with pytest.raises(ValueError, match="the options of hours are"):
        gtd.conditions(tags, means, hours={"sun": "08:00"})
    with pytest.raises(ValueError, match="YEARS"):
        gtd.conditions(tags, means, hours={"years": "x"})


def test_words_in_other_languages(answering):
    """The words of docs/COMMANDS.md."""
    domain = gtd.Domain("(M10d15){M7d17}")
    assert domain.words("de") == "vom 15. Oktober jedes Jahres bis zum 31. Mai (einschließlich)"
    assert domain.words("fr") == "du 15 octobre de chaque année jusqu'au 31 mai (inclus)"
    assert domain.words() == domain.words("en") == "from 15 October every year until 31 May (included)"
    with pytest.raises(ValueError, match="en, de, fr"):
        domain.words("nl")


@pytest.mark.parametrize(
    "ask, expected",
    [
        (lambda: gtd.Domain("[(h25){h1}]"), "0 to 23 for an hour"),
        (lambda: gtd.migrate(HEADER + b"17,up,0,\n"), "positive, negative or both"),
        (lambda: gtd.migrate(HEADER + b"17,both,0,(M13){M1}\n"), "1 to 12 for a month"),
        (lambda: gtd.migrate(HEADER + b"17,both\n"), "4 fields, with commas between them"),
        (lambda: gtd.Domain.of_hours("Mo 25:00-26:00"), "a number or a time in its range, such as 08:00 or Apr 30"),
        (lambda: gtd.Domain("(h1){h1}").contains("today"), None),
    ],
)
def test_what_was_expected(ask, expected, answering, monkeypatch):
    with pytest.raises(gtd.Fault) as caught:
        ask()
    assert caught.value.expected == expected
    monkeypatch.setenv("GTDESK", "/nowhere/gtdesk")
    assert caught.value.expected is None


def test_vehicle_types_as_lists():
    frame = pandas.DataFrame({"element": [17, 18], "direction": "both", "vehicles": [[11, 12], (1,)], "domain": ["", None]})
    assert gtd.migrate(frame)["vehicles"].tolist() == ["11;12", "1"]
    texts = gtd.Records(frame.assign(vehicles=["11;12", "1"]))
    for vehicle in (1, 11, 12, 13):
        for element in (17, 18):
            asked = element, "positive", vehicle, "2024-01-01T00:00:00"
            assert gtd.Records(frame).closed_at(*asked) == texts.closed_at(*asked) == (vehicle in ([11, 12], [1])[element - 17])


def test_a_missing_value_is_named_by_its_row():
    frame = pandas.DataFrame({"element": [17, 18, 19], "direction": "both", "vehicle": [1, 2, 3], "domain": "(h1){h1}"})
    for change, kind in [
        ({"element": [17, 18, numpy.nan]}, "Element"),
        ({"vehicle": [1, 2, None]}, "Vehicle"),
        ({"vehicle": pandas.array([1, 2, None], dtype="Int64")}, "Vehicle"),
        ({"direction": ["both", "both", None]}, "Direction"),
    ]:
        with pytest.raises(gtd.Fault) as caught:
            gtd.migrate(frame.assign(**change))
        assert (caught.value.kind, caught.value.row) == (kind, 3)


@pytest.mark.parametrize(
    "asked, kind",
    [
        (([17, 18, None], "positive", 1), "Element"),
        ((pandas.array([17, 18, None], dtype="Int64"), "positive", 1), "Element"),
        ((17, ["positive", "negative", None], 1), "Direction"),
        ((17, "positive", pandas.Series([1, 2, numpy.nan])), "VehicleRange"),
    ],
)
def test_a_missing_question_is_named_by_its_row(asked, kind):
    records = gtd.Records(HEADER + b"17,both,0,(h1){h1}\n")
    if kind == "VehicleRange":
        asked = (*asked[:2], asked[2].astype(object).where(asked[2].notna(), None))
    with pytest.raises(gtd.Fault, match="the value is missing") as caught:
        records.closed_at(*asked, "2024-01-01T00:00:00")
    assert (caught.value.kind, caught.value.row) == (kind, 3)
    with pytest.raises(TypeError, match="row 2"):
        records.closed_at([17, "18"], "positive", 1, "2024-01-01T00:00:00")


def test_moments_with_a_space(answering):
    domain = gtd.Domain("(h8){h1}")
    assert domain.contains("2024-03-16 08:59:59") and not domain.contains("2024-03-16 09:00:00")
    assert domain.contains(["2024-03-16 08:00:00", "2024-03-16T09:00:00"]).tolist() == [True, False]
    assert gtd.contains("(h8){h1}", "2024-03-16 08:00:00")
    assert domain.next_change("2024-03-16 08:00:00") == domain.next_change("2024-03-16T08:00:00")
    for wrong in ("2024-03-16  08:00:00", "2024-03-16 08:00", "2024-03-16_08:00:00"):
        with pytest.raises(gtd.Fault, match="moment Shape"):
            domain.contains(wrong)


def test_examples(tmp_path, monkeypatch):
    import doctest

    shutil.copytree(EXAMPLES / "conditions", tmp_path / "conditions")
    monkeypatch.chdir(tmp_path)
    found = doctest.testmod(_desk)
    assert found.attempted and not found.failed
