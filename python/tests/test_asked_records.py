"""The records of a file that is read once: against a plain model of the documents, by the library and by the programs."""

import io
import pickle
import subprocess
import threading
from datetime import date, datetime, timedelta, timezone

import numpy
import pandas
import pytest

import gtd
from gtd import _library
from tests.conftest import is_within, model_of, samples, without_library
from tests.make_records import rows

model, Maker = model_of("model"), model_of("fuzz").Maker
EPOCH = datetime(1970, 1, 1)
HEADS = {1: "element,direction,vehicle,domain\n", 2: "element,direction,vehicles,domain\n"}
TOWN = """element,direction,vehicle,domain
101,both,0,(t7h5){h10}
102,both,0,(h22){h8}
103,positive,0,[(M9){M10}]*[(t2t3t4t5t6h07m30){h8m30}]
104,negative,0,
104,positive,11,[(h7){h2}+(h16){h3}]*[(t2){d5}]
105,both,0,[(h0){h24}]-[(M8){M1}]
""".encode()


def moment_of(second):
    return EPOCH + timedelta(seconds=second)


def made(maker):
    """A random file: its bytes, and its rows and version as the model takes them."""
    version, columns = maker.file()
    text = HEADS[version] + "".join(",".join(row) + "\n" for row in columns)
    return text.encode(), [(*row[:3], model.read(row[3].encode()) if row[3] else None) for row in columns], version


@pytest.mark.parametrize("seed", range(20))
def test_random_files(answering, seed):
    maker = Maker(seed)
    randint = maker.random.randint
    for _ in range(10 if answering == "library" else seed < 4):
        given, restrictions, version = made(maker)
        records = gtd.Records(given)
        asked = [
            (randint(1, 4), maker.random.choice(["positive", "negative"]), randint(1, 16), maker.moment()) for _ in range(8)
        ]
        expected = [not model.is_open(restrictions, version, *question) for question in asked]
        columns = [list(column) for column in zip(*asked)]
        columns[3] = [moment_of(second) for second in columns[3]]
        assert records.closed_at(*columns).tolist() == expected, given
        one = tuple(column[0] for column in columns)
        assert records.closed_at(*one) is expected[0]
        closing = [
            number
            for number, row in enumerate(restrictions, 1)
            if not model.is_open([row], version, *asked[0])
        ]
        assert records.closers(*one) == closing, given
        assert records.elements.tolist() == sorted({int(row[0]) for row in restrictions})


@pytest.mark.parametrize("seed", range(6))
def test_random_spans_and_changes(answering, seed):
    maker = Maker(200 + seed)
    given, restrictions, version = made(maker)
    first = maker.moment() // 86_400
    days = moment_of(first * 86_400), moment_of((first + 3) * 86_400)
    records = gtd.Records(given)
    for place in [(1, "positive", 5), (2, "negative", 5), (4, "positive", 5)]:
        ends = records.spans(*place, *days).to_numpy(dtype="datetime64[s]").astype("int64")
        asked = samples(maker, ends, first * 86_400, (first + 3) * 86_400)
        expected = [model.is_open(restrictions, version, *place, second) for second in asked]
        assert [is_within(ends, second) for second in asked] == expected, given
        change = records.next_change(*place, moment_of(asked[0]), days[1])
        later = [end for end in ends.reshape(-1).tolist() if asked[0] < end < (first + 3) * 86_400]
        assert change == ((moment_of(later[0]), not expected[0]) if later else None), given


def test_columns_of_questions(answering):
    records = gtd.Records(TOWN)
    frame = pandas.DataFrame(
        {
            "element": [101, 101, 104, 104, 999],
            "direction": ["positive", "negative", "negative", "positive", "positive"],
            "at": pandas.to_datetime(["2024-03-16T05:00:00", "2024-03-16T15:00:00", *["2024-03-18T07:00:00"] * 3]),
            "type": [1, 1, 11, 12, 11],
        },
        index=list("abcde"),
    )
    expected = pandas.Series([True, False, True, False, False], index=list("abcde"), name="closed")
    for column in (frame["direction"], frame["direction"].astype("category"), frame["direction"].astype("string")):
        found = records.closed_at(frame["element"], column, frame["type"], frame["at"])
        pandas.testing.assert_series_equal(found, expected)
    plain = frame["element"].to_numpy(), list(frame["direction"]), frame["type"].to_numpy(), frame["at"].tolist()
    found = records.closed_at(*plain)
    assert isinstance(found, numpy.ndarray) and found.tolist() == expected.tolist()
    found = records.closed_at(frame["element"].convert_dtypes(), "positive", 11, "2024-03-18T07:00:00")
    assert found.tolist() == [False, False, True, True, False]
    assert records.closed_at([], "positive", 11, "2024-03-18T07:00:00").tolist() == []


@pytest.mark.parametrize(
    "question, kind, row",
    [
        ((-1, "positive", 11, "2024-03-18T07:00:00"), "Element", None),
        ((10_000_000_000, "positive", 11, "2024-03-18T07:00:00"), "Element", None),
        ((101, "both", 11, "2024-03-18T07:00:00"), "Direction", None),
        ((101, "positive", 0, "2024-03-18T07:00:00"), "VehicleRange", None),
        ((101, "positive", 100, "2024-03-18T07:00:00"), "VehicleRange", None),
        ((101, "positive", 11, "2700-01-01T00:00:00"), "moment Range", None),
        (([101, 10_000_000_000], "positive", 11, "2024-03-18T07:00:00"), "Element", 2),
        ((101, ["positive", "both"], 11, "2024-03-18T07:00:00"), "Direction", 2),
        ((101, ["positive", None], 11, "2024-03-18T07:00:00"), "Direction", 2),
        ((101, "positive", [11, 256 + 11], "2024-03-18T07:00:00"), "VehicleRange", 2),
        ((101, "positive", 11, ["2024-03-18T07:00:00", "2024-02-30T07:00:00"]), "moment NoSuchDate", 2),
    ],
)
def test_questions_that_are_refused(answering, question, kind, row):
    with pytest.raises(gtd.Fault) as caught:
        gtd.Records(TOWN).closed_at(*question)
    assert (caught.value.kind, caught.value.row) == (kind, row)


def test_questions_that_are_none(answering):
    records = gtd.Records(TOWN)
    with pytest.raises(ValueError, match="different lengths: 1, 2"):
        records.closed_at([101], ["positive", "negative"], 11, "2024-03-18T07:00:00")
    with pytest.raises(ValueError, match="different indexes"):
        records.closed_at(pandas.Series([101], index=["a"]), pandas.Series(["positive"]), 11, "2024-03-18T07:00:00")
    with pytest.raises(ValueError, match="no time zone"):
        records.closed_at(101, "positive", 11, datetime(2024, 1, 1, tzinfo=timezone.utc))
    for wrong in ((1.5, "positive", 11), ([1.5], "positive", 11), (101, "positive", "11"), (None, "positive", 11)):
        with pytest.raises(TypeError):
            records.closed_at(*wrong, "2024-03-18T07:00:00")


def test_closers_and_changes(answering):
    records = gtd.Records(TOWN)
    assert records.closers(104, "negative", 11, "2024-03-18T07:00:00") == [4]
    assert records.closers(104, "positive", 11, datetime(2024, 3, 18, 7)) == [5]
    assert records.closers(104, "positive", 12, datetime(2024, 3, 18, 7)) == []
    assert records.closers(7, "positive", 1, "2024-01-01T00:00:00") == []
    now = "2024-03-16T08:00:00"
    assert records.next_change(103, "positive", 11, now, "2024-04-01") == (datetime(2024, 3, 18, 7, 30), False)
    assert records.next_change(105, "negative", 11, now, date(2024, 9, 1)) == (datetime(2024, 8, 1), True)
    assert records.next_change(104, "negative", 11, now, "2034-03-15") is None
    assert records.next_change(999, "negative", 11, now, "2034-03-15") is None
    for until, kind in [("2024-03-16", "horizon Empty"), ("2424-03-18", "horizon TooLong"), ("2424-03-32", "date NoSuchDate")]:
        with pytest.raises(gtd.Fault) as caught:
            records.next_change(101, "negative", 11, "2024-03-16T08:00:00", until)
        assert caught.value.kind == kind


def test_many_rows_close(answering):
    """More rows than are asked for at first."""
    given = b"element,direction,vehicle,domain\n" + b"".join(b"%d,both,%d,\n" % (at % 2, at % 3 % 2 * 11) for at in range(3_000))
    records = gtd.Records(given)
    for vehicle in (11, 12):
        expected = [at + 1 for at in range(0, 3_000, 2) if at % 3 % 2 * 11 in (0, vehicle)]
        assert records.closers(0, "positive", vehicle, "2024-01-01T00:00:00") == expected


def test_the_state_now(answering):
    found = gtd.Records(TOWN).now("2024-03-16T08:00:00", 11)
    words = [gtd.program("gtdesk"), "now", "/dev/stdin", "2024-03-16T08:00:00", "11"]
    printed = subprocess.run(words, input=TOWN, stdout=subprocess.PIPE, check=True).stdout
    expected = pandas.read_csv(io.BytesIO(printed), keep_default_na=False, dtype=str)
    assert list(found.columns) == list(expected.columns)
    for name in ("element", "direction", "vehicle", "state"):
        assert found[name].astype(str).tolist() == expected[name].tolist()
    assert found["until"].dt.strftime("%Y-%m-%dT%H:%M:%S").fillna("").tolist() == expected["until"].tolist()
    assert [";".join(map(str, row)) for row in found["rows"]] == expected["rows"].tolist()
    assert len(gtd.Records(TOWN[:33]).now("2024-03-16T08:00:00", 11)) == 0


def test_schedules(answering):
    records = gtd.Records(TOWN)
    days = "2024-03-15", "2024-03-18", 11
    pandas.testing.assert_frame_equal(records.schedule(*days), gtd.schedule(TOWN, *days))
    for words, kind in [(("2024-03-15", "2024-03-15", 11), "horizon Empty"), (("2024-03-15", "2024-03-18", 100), "VehicleRange")]:
        with pytest.raises(gtd.Fault) as caught:
            records.schedule(*words)
        assert caught.value.kind == kind


def test_open_seconds(answering):
    records = gtd.Records(TOWN)
    found = records.open_seconds("2024-03-16", "2024-03-18", 11)
    expected = pandas.DataFrame(
        {"positive": [38, 32, 48, 48, 0], "negative": [38, 32, 48, 0, 0]},
        index=pandas.Index([101, 102, 103, 104, 105], name="element"),
    )
    pandas.testing.assert_frame_equal(found, expected * 3600)
    found = records.open_seconds("2024-03-16", "2024-03-18", 11, [106, 105, 101, 7])
    assert found.index.tolist() == [106, 105, 101, 7]
    assert (found["positive"] // 3600).tolist() == [48, 0, 38, 48] and (found["negative"] // 3600).tolist() == [48, 0, 38, 48]
    roads = pandas.Series([106, 101], name="road")
    assert records.open_seconds("2024-03-16", "2024-03-18", 11, roads)["positive"].tolist() == [48 * 3600, 38 * 3600]
    nothing = gtd.Records(b"element,direction,vehicle,domain\n").open_seconds("2024-03-16", "2024-03-18", 11, [5])
    assert nothing.loc[5].tolist() == [172_800, 172_800]
    assert len(gtd.Records(b"element,direction,vehicle,domain\n").open_seconds("2024-03-16", "2024-03-18", 11)) == 0
    with pytest.raises(gtd.Fault, match="Element"):
        records.open_seconds("2024-03-16", "2024-03-18", 11, [-1])


def test_a_year_of_each_day(answering):
    """The seconds of each day, against the table that the program prints."""
    given = "".join(rows(60, 3)).encode()
    for element in gtd.Records(given).elements[:4 if answering == "programs" else None]:
        for direction in ("positive", "negative"):
            words = [gtd.program(), "year", "/dev/stdin", str(element), direction, "11", "2024"]
            printed = subprocess.run(words, input=given, stdout=subprocess.PIPE, check=True).stdout.decode()
            seconds = gtd.year(given, int(element), direction, 11, 2024)
            assert "".join(f"{day:%Y-%m-%d} {number:5}\n" for day, number in seconds.items()) == printed


def test_frames_and_files(answering, tmp_path):
    frame = pandas.read_csv(io.BytesIO(TOWN))
    (tmp_path / "town.csv").write_bytes(TOWN)
    for records in (frame, tmp_path / "town.csv", str(tmp_path / "town.csv"), io.BytesIO(TOWN), TOWN):
        assert gtd.Records(records).closers(104, "positive", 11, "2024-03-18T07:00:00") == [5]
    again = pickle.loads(pickle.dumps(gtd.Records(frame)))
    assert again.elements.tolist() == [101, 102, 103, 104, 105]
    with pytest.raises(FileNotFoundError):
        gtd.Records(tmp_path / "none.csv")


@pytest.mark.parametrize(
    "given, kind, row, place",
    [
        (b"", "Header", None, None),
        (b"\n" * 16_777_217, "TooLarge", None, None),
        (TOWN + b"1,both,0\n", "FieldCount", 7, None),
        (TOWN + b"x,both,0,\n", "Element", 7, None),
        (TOWN + b"1,bot,0,\n", "Direction", 7, None),
        (TOWN + b"1,both,100,\n", "Vehicle", 7, None),
        (TOWN + b"1,both,0,(h25){h1}\n", "Domain FieldRange", 7, 1),
        (b"element,direction,vehicle,domain\n" + b"1,both,0,\n" * 65_537, "TooManyRows", 65_537, None),
    ],
    ids=lambda value: str(value)[:20],
)
def test_faults_of_records(answering, given, kind, row, place):
    with pytest.raises(gtd.Fault) as caught:
        gtd.Records(given)
    assert (caught.value.kind, caught.value.row, caught.value.place) == (kind, row, place)


def test_no_program_is_started(no_program):
    records = gtd.Records(TOWN)
    assert records.closed_at(105, "positive", 11, "2024-03-16T08:00:00")
    assert records.closed_at([105], "positive", 11, "2024-03-16T08:00:00").all()
    assert records.closers(105, "positive", 11, "2024-03-16T08:00:00") == [6]
    assert records.next_change(105, "positive", 11, "2024-03-16T08:00:00", "2025-01-01")
    assert len(records.now("2024-03-16T08:00:00", 11)) == 10 and len(records.elements) == 5
    assert len(records.open_seconds("2024-03-16", "2024-03-18", 11)) == 5
    assert len(gtd.schedule(TOWN, "2024-03-16", "2024-03-18", 11)) == len(records.schedule("2024-03-16", "2024-03-18", 11))
    assert gtd.year(TOWN, 105, "positive", 11, 2024).sum() == 31 * 86_400
    column = pandas.Series(["(h1){h1}", "", None])
    assert column.gtd.contains("2024-01-01T00:00:00").tolist() == [False, True, True] and column.gtd.canon()[0] == "[(h1){h1}]"
    assert column.gtd.check() is None


def test_a_call_that_the_library_lacks(monkeypatch):
    """The programs answer for it."""
    where = (104, "positive", 11)
    asked = {
        "records_count": lambda records: records.elements.tolist(),
        "records_closed_at": lambda records: records.closed_at(*where, "2024-03-18T07:00:00"),
        "records_closed_many": lambda records: records.closed_at([101, 104], *where[1:], "2024-03-18T07:00:00").tolist(),
        "records_closers": lambda records: records.closers(*where, "2024-03-18T07:00:00"),
        "records_next": lambda records: records.next_change(*where, "2024-03-18T07:00:00", "2025-01-01"),
        "records_spans": lambda records: records.spans(*where, "2024-03-18", "2024-03-20").to_numpy().tolist(),
        "records_schedule": lambda records: records.schedule("2024-03-18", "2024-03-20", 11).to_numpy().tolist(),
        "share": lambda records: records.closed_at([101, 104], *where[1:], "2024-03-18T07:00:00").tolist(),
    }
    library = _library.load()
    expected = {name: ask(gtd.Records(TOWN)) for name, ask in asked.items()}
    for name, ask in asked.items():
        with monkeypatch.context() as patch:
            patch.setattr(library.held, name, None)
            assert ask(gtd.Records(TOWN)) == expected[name]
    without_library(monkeypatch)
    assert {name: ask(gtd.Records(TOWN)) for name, ask in asked.items()} == expected


def test_threads_share_records():
    """Four threads ask one object, scalars and columns at the same time: each gets what one alone gets."""
    records = gtd.Records("".join(rows(2_000, 9)).encode())
    elements = numpy.arange(200_000) % 1_200
    moments = (numpy.datetime64("2024-01-01") + numpy.arange(200_000) * numpy.timedelta64(613, "s")).astype("datetime64[s]")
    expected = records.closed_at(elements, "positive", 11, moments)
    schedule = records.schedule("2024-01-01", "2024-02-01", 11)
    wrong = []

    def ask(number):
        for _ in range(3):
            if not (records.closed_at(elements, "positive", 11, moments) == expected).all():
                wrong.append("columns")
            for at in range(number, 2_000, 4):
                if records.closed_at(int(elements[at]), "positive", 11, moments[at]) != expected[at]:
                    wrong.append(at)
            if not records.schedule("2024-01-01", "2024-02-01", 11).equals(schedule):
                wrong.append("schedule")

    threads = [threading.Thread(target=ask, args=(number,)) for number in range(4)]
    for thread in threads:
        thread.start()
    for thread in threads:
        thread.join()
    assert wrong == []
