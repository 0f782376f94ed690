"""Closed spans, and open seconds by bins of time, beside sums over the schedule line by line."""

import io

import numpy
import pandas
import pytest

import gtd
from tests.make_records import rows

FILE = b"element,direction,vehicle,domain\n17,positive,0,(h10){m90}\n17,negative,11,\n19,positive,12,\n"
FIRST, UNTIL, VEHICLE = "2024-03-30", "2024-04-06", 11


def some_rows(number, seed):
    return "".join(rows(number, seed)).encode()


def frame_of(file):
    return pandas.read_csv(io.BytesIO(file), keep_default_na=False)


def opened_by_lines(file, edges):
    """The open seconds of each element, direction and bin, by a loop over the lines of the schedule."""
    elements = sorted({int(line.split(b",")[0]) for line in file.splitlines()[1:]})
    table = {(element, direction): [0] * (len(edges) - 1) for element in elements for direction in ("positive", "negative")}
    schedule = gtd.schedule(file, FIRST, UNTIL, VEHICLE)
    for line in schedule.itertuples(index=False, name=None):
        for at, (begin, end) in enumerate(zip(edges, edges[1:])):
            inside = min(line[4], end) - max(line[3], begin)
            table[line[0], line[1]][at] += max(int(inside.total_seconds()), 0)
    return table


@pytest.mark.parametrize("freq", ["h", "7h", "D", "MS", "13min", pandas.Timedelta(seconds=86_399), "W-MON"])
def test_bins_have_the_seconds_of_the_lines(freq):
    file = some_rows(40, 3)
    found = gtd.open_seconds(file, FIRST, UNTIL, VEHICLE, freq=freq)
    edges = [*found.columns, pandas.Timestamp(UNTIL)]
    assert edges[0] == pandas.Timestamp(FIRST) and found.columns.name == "begin"
    assert (found.dtypes == "int32").all()
    expected = opened_by_lines(file, edges)
    assert list(found.index) == list(expected)
    assert found.to_numpy().tolist() == list(expected.values())


def test_closed_spans_are_the_rest_of_the_schedule():
    file = some_rows(2_000, 5)
    records = gtd.Records(file)
    opened = records.schedule(FIRST, UNTIL, VEHICLE)
    closed = gtd.closed_spans(file, FIRST, UNTIL, VEHICLE)
    assert list(closed.columns) == list(opened.columns) and list(closed.dtypes) == list(opened.dtypes)
    both = pandas.concat([opened.assign(closed=False), closed.assign(closed=True)])
    both = both.sort_values(["element", "direction", "from"], kind="stable", ignore_index=True)
    lines = both.groupby(["element", "direction"], observed=True)
    assert (lines["from"].first() == pandas.Timestamp(FIRST)).all()
    assert (lines["until"].last() == pandas.Timestamp(UNTIL)).all()
    goes_on = both["element"].eq(both["element"].shift()) & both["direction"].eq(both["direction"].shift())
    assert (both["from"][goes_on] == both["until"].shift()[goes_on]).all()
    assert (both["closed"][goes_on] != both["closed"].shift()[goes_on]).all()
    assert len(lines) == 2 * len(records.elements)
    order = closed.sort_values(["element", "direction", "from"], kind="stable")
    assert order.index.equals(closed.index)


def test_large_frames_are_cut():
    file = some_rows(70_000, 9)
    frame = frame_of(file)
    elements = numpy.unique(frame["element"])[::5_000]
    mine = frame[frame["element"].isin(elements)]
    seconds = gtd.open_seconds(frame, "2024-04-01", "2024-04-02", VEHICLE, freq="6h")
    assert len(seconds) == 2 * frame["element"].nunique()
    few = gtd.open_seconds(mine, "2024-04-01", "2024-04-02", VEHICLE, freq="6h")
    pandas.testing.assert_frame_equal(seconds.loc[list(elements)], few)
    closed = gtd.closed_spans(frame, "2024-04-01", "2024-04-02", VEHICLE)
    expected = gtd.closed_spans(mine, "2024-04-01", "2024-04-02", VEHICLE)
    kept = closed[closed["element"].isin(elements)].reset_index(drop=True)
    pandas.testing.assert_frame_equal(kept, expected)
    assert closed["element"].is_monotonic_increasing


def test_elements_that_no_row_names():
    asked = [18, 17, 19, 18]
    open_ = gtd.open_seconds(FILE, "2024-04-01", "2024-04-02", VEHICLE, freq="12h", elements=asked)
    assert open_.index.get_level_values(0).tolist() == [18, 18, 17, 17, 19, 19, 18, 18]
    assert open_.to_numpy().reshape(4, 2, 2).tolist() == [
        [[43_200, 43_200], [43_200, 43_200]], [[37_800, 43_200], [0, 0]],
        [[43_200, 43_200], [43_200, 43_200]], [[43_200, 43_200], [43_200, 43_200]],
    ]
    apart = gtd.open_seconds(FILE, "2024-04-01", "2024-04-02", VEHICLE, freq="D", elements=pandas.Series(asked), fill=-1)
    assert (apart.dtypes == "int32").all()
    assert apart.to_numpy().reshape(4, 2).tolist() == [[-1, -1], [81_000, 0], [86_400, 86_400], [-1, -1]]
    missing = gtd.open_seconds(FILE, "2024-04-01", "2024-04-02", VEHICLE, freq="D", elements=asked, fill=numpy.nan)
    assert missing.isna().to_numpy().reshape(4, 2).tolist() == [[True, True], [False, False], [False, False], [True, True]]
    wide = gtd.open_seconds(FILE, "2024-04-01", "2024-04-02", VEHICLE, freq="D", elements=[18], fill=1 << 40)
    assert (wide.dtypes == "int64").all() and wide.to_numpy().tolist() == [[1 << 40], [1 << 40]]
    day = gtd.open_seconds(FILE, "2024-04-01", "2024-04-02", VEHICLE, freq="D", elements=asked)
    assert (day.dtypes == "int32").all() and day.loc[18].to_numpy().tolist() == [[86_400], [86_400]] * 2
    assert (missing.dtypes == "float64").all()
    assert gtd.open_seconds(FILE, "2024-04-01", "2024-04-02", VEHICLE, elements=[]).shape == (0, 24)


def test_no_rows_at_all():
    header = b"element,direction,vehicle,domain\n"
    assert len(gtd.closed_spans(header, FIRST, UNTIL, VEHICLE)) == 0
    assert gtd.open_seconds(header, FIRST, UNTIL, VEHICLE, freq="D").shape == (0, 7)
    filled = gtd.open_seconds(header, FIRST, UNTIL, VEHICLE, freq="D", elements=[5])
    assert (filled == 86_400).all().all()


def test_the_array_is_that_of_the_frame():
    seconds = gtd.open_seconds(FILE, "2024-04-01", "2024-04-03", VEHICLE)
    array = seconds.to_numpy().reshape(-1, 2, 48)
    assert array.shape == (2, 2, 48) and numpy.shares_memory(array, seconds.to_numpy())
    assert array[0, 0, 10:12].tolist() == [0, 1_800]


def test_long_bins_are_wide_numbers():
    seconds = gtd.open_seconds(FILE, "1901-01-01", "2199-01-01", VEHICLE, freq=pandas.Timedelta(days=40_000))
    assert (seconds.dtypes == "int64").all()
    assert seconds.to_numpy()[1].tolist() == [0] * seconds.shape[1]


@pytest.mark.parametrize("freq, said", [
    ("5ms", "whole seconds"), ("1500ms", "whole seconds"), ("never", "never"), ("-1h", "longer than nothing"),
    ("0h", "longer than nothing"), (None, "longer than nothing"), ("-1MS", "longer than nothing"),
])
def test_bins_that_are_refused(freq, said):
    with pytest.raises(ValueError, match=said):
        gtd.open_seconds(FILE, "2024-04-01", "2024-04-02", VEHICLE, freq=freq)


def test_bins_that_are_too_many():
    with pytest.raises(ValueError, match="1,000,000 are the most"):
        gtd.open_seconds(FILE, "1901-01-01", "2262-01-01", VEHICLE, freq="s")


def test_faults_come_in_the_order_of_the_words():
    with pytest.raises(gtd.Fault, match="horizon Empty"):
        gtd.open_seconds(b"", UNTIL, FIRST, 0)
    with pytest.raises(gtd.Fault, match="VehicleRange"):
        gtd.closed_spans(b"", FIRST, UNTIL, 0)
    with pytest.raises(gtd.Fault, match="Header"):
        gtd.closed_spans(b"", FIRST, UNTIL, 1)
    with pytest.raises(gtd.Fault, match="Element"):
        gtd.open_seconds(FILE, FIRST, UNTIL, VEHICLE, elements=[-1])
    with pytest.raises(gtd.Fault, match="Domain BadToken") as raised:
        gtd.closed_spans(FILE + b"20,both,0,(h\n", FIRST, UNTIL, VEHICLE)
    assert raised.value.row == 4
