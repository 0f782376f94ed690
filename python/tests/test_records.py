"""Record files and frames: schedules, years, migrated files and each fault."""

import gzip
import io
import subprocess

import numpy
import pandas
import pytest

import gtd

FILE = b"element,direction,vehicle,domain\n17,positive,0,[(M4d1){M3}]*[(h10){h4}]\n17,negative,11,\n"
FRAME = pandas.DataFrame(
    {
        "name": ["High Street", "High Street"],
        "element": [17, 17],
        "direction": ["positive", "negative"],
        "vehicle": [0, 11],
        "domain": ["[(M4d1){M3}]*[(h10){h4}]", numpy.nan],
    },
    index=["a", "b"],
)
SECONDS = "datetime64[s]" if pandas.__version__ >= "2" else "datetime64[ns]"


def every_form(tmp_path):
    path = tmp_path / "restrictions.csv"
    path.write_bytes(FILE)
    (tmp_path / "packed.csv.gz").write_bytes(gzip.compress(FILE))
    return [str(path), path, tmp_path / "packed.csv.gz", FILE, bytearray(FILE), io.BytesIO(FILE), FRAME, FRAME.convert_dtypes()]


def test_schedule_of_every_form_of_records(tmp_path):
    for records in every_form(tmp_path):
        schedule = gtd.schedule(records, "2024-04-01", "2024-04-02", 12)
        expected = pandas.DataFrame(
            {
                "element": numpy.array([17, 17, 17], "int64"),
                "direction": pandas.Categorical(["positive", "positive", "negative"], ["positive", "negative"]),
                "vehicle": numpy.array([12, 12, 12], "int64"),
                "from": numpy.array(["2024-04-01T00", "2024-04-01T14", "2024-04-01T00"], "datetime64[s]"),
                "until": numpy.array(["2024-04-01T10", "2024-04-02T00", "2024-04-02T00"], "datetime64[s]"),
            }
        )
        pandas.testing.assert_frame_equal(schedule, expected)
        assert schedule["from"].dtype == schedule["until"].dtype == SECONDS


def test_a_written_schedule_is_what_the_program_prints(tmp_path):
    schedule = gtd.schedule(FILE, "2024-04-01", "2024-04-02", 12)
    written = schedule.to_csv(index=False, lineterminator="\n", date_format="%Y-%m-%dT%H:%M:%S")
    command = [gtd.program(), "schedule", "/dev/stdin", "2024-04-01", "2024-04-02", "12"]
    assert written.encode() == subprocess.run(command, input=FILE, stdout=subprocess.PIPE, check=True).stdout


def test_schedule_without_a_line():
    schedule = gtd.schedule(b"element,direction,vehicle,domain\n1,both,0,\n", "2024-01-01", "2024-01-02", 1)
    assert len(schedule) == 0
    assert list(schedule.dtypes.astype(str)) == ["int64", "category", "int64", SECONDS, SECONDS]
    assert list(schedule["direction"].cat.categories) == ["positive", "negative"]


def test_far_days():
    one = b"element,direction,vehicle,domain\n1,positive,0,[(y2500){d1}]\n"
    if SECONDS == "datetime64[s]":
        schedule = gtd.schedule(one, "2400-01-01", "2700-01-01", 1)
        assert schedule["until"].max() == numpy.datetime64("2700-01-01")
    else:
        with pytest.raises(pandas.errors.OutOfBoundsDatetime, match="2262-04-11"):
            gtd.schedule(one, "2400-01-01", "2700-01-01", 1)
        assert len(gtd.schedule(one, "2200-01-01", "2262-04-11", 1)) == 2


def test_year():
    seconds = gtd.year(FILE, 17, "positive", 11, 2024)
    assert seconds.name == "open_seconds" and seconds.dtype == "int64" and len(seconds) == 366
    assert isinstance(seconds.index, pandas.DatetimeIndex) and seconds.index.name == "date"
    assert seconds["2024-03-31"] == 86400 and seconds["2024-04-01"] == 72000
    assert gtd.year(FRAME, 17, "negative", 11, 1901).sum() == 0
    assert len(gtd.year(FRAME, 17, "negative", 12, 2199)) == 365


def test_migrate(tmp_path):
    for records in every_form(tmp_path):
        migrated = gtd.migrate(records)
        assert list(migrated.columns) == ["element", "direction", "vehicles", "domain"]
        assert list(migrated.dtypes.astype(str)) == ["int64", "category", "object", "object"]
        assert list(migrated["domain"]) == ["[[(M4d1){M3}]*[(h10){h4}]]", ""]
        again = gtd.migrate(migrated)
        pandas.testing.assert_frame_equal(migrated, again)
        written = migrated.to_csv(index=False, lineterminator="\n").encode()
        printed = subprocess.run([gtd.program(), "migrate", "/dev/stdin"], input=FILE, stdout=subprocess.PIPE, check=True)
        assert written == printed.stdout


@pytest.mark.parametrize(
    "row, kind, place, caret",
    [
        ('1,both,0,[(h25){h1}]', "Domain FieldRange", 2, 11),
        ('1,both,0,"[(h25){h1}]"', "Domain FieldRange", 2, 12),
        ('"1","both","0","[(h25){h1}]"', "Domain FieldRange", 2, 18),
        ('1,both,0,"[(h1)""{h1}]"', "Domain BadToken", 5, 15),
        ('1,both,0,"[(h1)"{x1}]', "Domain BadToken", 6, 17),
        ("x,both,0,", "Element", None, None),
        ("1,bot,0,", "Direction", None, None),
        ("1,both,,", "Vehicle", None, None),
        ("1,both,0", "FieldCount", None, None),
    ],
)
def test_faults_of_rows(row, kind, place, caret):
    for end in ("\n", "\r\n", "\r", "\n\n"):
        file = "\ufeff" + end + end.join(["element,direction,vehicle,domain", "7,both,0,(h1){h1}", row, "y"])
        with pytest.raises(gtd.Fault) as caught:
            gtd.schedule(file.encode(), "2024-01-01", "2024-01-02", 1)
        fault = caught.value
        assert (fault.kind, fault.place, fault.row, fault.text, fault.caret) == (kind, place, 2, row, caret)
        if caret is not None:
            assert str(fault).split("\n")[1:] == ["  " + row, "  " + " " * caret + "^"]


@pytest.mark.parametrize(
    "words, kind",
    [
        ((FILE, "2024-04-02", "2024-04-01", 12), "horizon Empty"),
        ((FILE, "1900-01-01", "2024-04-01", 12), "date Range"),
        ((FILE, "2024-02-30", "2024-04-01", 12), "date NoSuchDate"),
        ((FILE, "2024-04-01", "2024-04-02", 0), "VehicleRange"),
        ((FILE, "2024-04-01", "2024-04-02", -1), "VehicleRange"),
        ((FILE, "2024-04-01", "2024-04-02", 10**30), "VehicleRange"),
        ((b"", "2024-04-01", "2024-04-02", 12), "Header"),
        ((b"\n" * 16_777_217, "2024-04-01", "2024-04-02", 12), "TooLarge"),
    ],
)
def test_other_faults(words, kind):
    with pytest.raises(gtd.Fault) as caught:
        gtd.schedule(*words)
    assert (caught.value.kind, caught.value.row) == (kind, None)


def test_faults_of_years():
    for words, kind in [
        ((18, "positive", 1, 2024), "NoElement"),
        ((17, "positive", 1, 1900), "YearRange"),
        ((17, "both", 1, 2024), "Direction"),
        ((-1, "positive", 1, 2024), "Element"),
    ]:
        with pytest.raises(gtd.Fault) as caught:
            gtd.year(FILE, *words)
        assert caught.value.kind == kind


def test_too_many_rows():
    with pytest.raises(gtd.Fault, match="gtd.country") as caught:
        gtd.migrate(b"element,direction,vehicle,domain\n" + b"1,both,0,\n" * 65_537)
    assert (caught.value.kind, caught.value.row) == ("TooManyRows", 65_537)


def test_frames_that_are_no_records():
    with pytest.raises(ValueError, match="vehicle or vehicles"):
        gtd.migrate(FRAME.drop(columns="vehicle"))
    with pytest.raises(ValueError, match="vehicle or vehicles"):
        gtd.migrate(FRAME.assign(vehicles="0"))
    with pytest.raises(gtd.Fault) as caught:
        gtd.migrate(FRAME.assign(element=[17, numpy.nan]))
    assert (caught.value.kind, caught.value.row) == ("Element", 2) and caught.value.text.startswith(",")


def test_files_that_are_not_there(tmp_path):
    with pytest.raises(FileNotFoundError):
        gtd.migrate(tmp_path / "none.csv")
    with pytest.raises(IsADirectoryError):
        gtd.migrate(tmp_path)
    with pytest.raises(TypeError, match="binary"):
        gtd.migrate(io.StringIO("element"))


def test_a_line_end_in_a_field_is_no_row():
    for end in ("\r", "\n", "\r\n"):
        with pytest.raises(gtd.Fault) as caught:
            gtd.migrate(FRAME.assign(domain=["", f"(h1){{h1}}{end}5,both,0,"]))
        assert (caught.value.kind, caught.value.place, caught.value.row) == ("Domain BadToken", 8, 2)


def large(number):
    """A frame of ``number`` rows over 20,000 elements."""
    numbers = numpy.arange(number)
    return pandas.DataFrame(
        {
            "element": numbers * 7919 % 20_000,
            "direction": numpy.where(numbers % 3, "positive", "both"),
            "vehicle": numbers % 2 * 11,
            "domain": [f"(h{at % 24}){{m{at % 59 + 1}}}" for at in numbers],
        }
    )


def test_large_frames_are_cut():
    frame = large(150_000)
    schedule = gtd.schedule(frame, "2024-01-01", "2024-01-02", 11)
    pieces = [frame[frame["element"] % 4 == rest] for rest in range(4)]
    assert all(len(piece) < 65_536 for piece in pieces)
    expected = pandas.concat([gtd.schedule(piece, "2024-01-01", "2024-01-02", 11) for piece in pieces])
    expected = expected.sort_values(["element", "direction", "from"], ignore_index=True)
    pandas.testing.assert_frame_equal(schedule, expected)
    migrated = gtd.migrate(frame)
    assert len(migrated) == 150_000 and migrated.loc[149_999, "domain"] == gtd.canon(frame.loc[149_999, "domain"])
    assert (migrated["element"] == frame["element"]).all()
    seconds = gtd.year(frame, 77, "positive", 11, 2024)
    pandas.testing.assert_series_equal(seconds, gtd.year(frame[frame["element"] == 77], 77, "positive", 11, 2024))


def test_large_frames_of_long_rows():
    frame = large(40_000).assign(domain=lambda frame: ("+" + frame["domain"]).str.repeat(40).str[1:])
    assert len(frame) < 65_536 < 16_777_216 < len(frame.to_csv())
    schedule = gtd.schedule(frame, "2024-01-01", "2024-01-02", 11)
    short = gtd.schedule(large(40_000), "2024-01-01", "2024-01-02", 11)
    pandas.testing.assert_frame_equal(schedule, short)


def test_faults_of_large_frames():
    frame = large(70_000)
    frame.loc[69_000, "domain"] = "(h25){h1}"
    for ask in (
        lambda: gtd.migrate(frame),
        lambda: gtd.schedule(frame, "2024-01-01", "2024-01-02", 11),
        lambda: gtd.year(frame, 1, "positive", 11, 2024),
    ):
        with pytest.raises(gtd.Fault) as caught:
            ask()
        fault = caught.value
        assert (fault.kind, fault.place, fault.row) == ("Domain FieldRange", 1, 69_001)
        assert fault.text.endswith(",(h25){h1}") and fault.file is None
    for ask, kind in (
        (lambda: gtd.schedule(frame, "2024-01-01", "2024-01-02", 100), "VehicleRange"),
        (lambda: gtd.schedule(frame, "2024-01-01", "2024-01-01", 11), "horizon Empty"),
        (lambda: gtd.year(frame, 1, "positive", 100, 1900), "VehicleRange"),
        (lambda: gtd.year(frame, 1, "positive", 11, 1900), "YearRange"),
        (lambda: gtd.year(large(70_000), 20_000, "positive", 11, 2024), "NoElement"),
        (lambda: gtd.schedule(large(70_000).assign(element=7), "2024-01-01", "2024-01-02", 11), "TooManyRows"),
    ):
        with pytest.raises(gtd.Fault) as caught:
            ask()
        assert (caught.value.kind, caught.value.row) == (kind, None)
