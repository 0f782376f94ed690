"""One domain that is read once: against a plain model of the documents, by the library and by the programs."""

import copy
import datetime as clock
import pickle
import subprocess
from datetime import date, datetime, timezone

import numpy
import pandas
import pytest

import gtd
from gtd import _library
from tests.conftest import is_within, model_of, samples, without_library

model, Maker = model_of("model"), model_of("fuzz").Maker
EPOCH = datetime(1970, 1, 1)
SCHOOL = "[(M9){M10}]*[(t2t3t4t5t6h07m30){h8m30}]"


def moment_of(second):
    return EPOCH + clock.timedelta(seconds=second)


def in_domain(text, seconds):
    expression = model.read(text.encode())
    return [model.contains(expression, second) for second in seconds]


@pytest.mark.parametrize("seed", range(20))
def test_random_domains(answering, seed):
    maker = Maker(seed)
    for _ in range(20 if answering == "library" else seed < 4):
        text = maker.domain()
        seconds = [maker.moment(text) for _ in range(10)]
        domain, moments = gtd.Domain(text), [moment_of(second) for second in seconds]
        expected = in_domain(text, seconds)
        assert domain.contains(moments).tolist() == expected, text
        assert [domain.contains(moment) for moment in moments[:2]] == expected[:2], text
        assert domain.canon() == gtd.canon(text)


@pytest.mark.parametrize("seed", range(8))
def test_random_spans_and_changes(answering, seed):
    maker = Maker(100 + seed)
    text = maker.domain()
    first = maker.moment(text) // 86_400
    days = moment_of(first * 86_400), moment_of((first + 3) * 86_400)
    domain = gtd.Domain(text)
    ends = domain.spans(*days).to_numpy(dtype="datetime64[s]").astype("int64")
    asked = samples(maker, ends, first * 86_400, (first + 3) * 86_400)
    assert [is_within(ends, second) for second in asked] == in_domain(text, asked), text
    change = domain.next_change(moment_of(asked[0]), days[1])
    later = [end for end in ends.reshape(-1).tolist() if asked[0] < end < (first + 3) * 86_400]
    assert change == ((moment_of(later[0]), not is_within(ends, asked[0])) if later else None), text


@pytest.mark.parametrize("seed", range(8))
def test_random_pairs(answering, seed):
    maker = Maker(200 + seed)
    for _ in range(10 if answering == "library" else 1):
        texts = maker.domain(), maker.domain()
        one, other = (gtd.Domain(text) for text in texts)
        moment = moment_of(maker.random.randint(-2_177_452_800, 7_258_118_399))
        found, turned = one.apart(other, moment), other.apart(one, moment)
        if found is None:
            assert turned is None, texts
            continue
        second = int((found.moment - EPOCH).total_seconds())
        assert found.moment >= moment and turned == (found.moment, not found.inside), texts
        assert [in_domain(text, [second]) for text in texts] == [[found.inside], [not found.inside]], texts


def test_two_domains(answering):
    week, hours = gtd.Domain("[(t2t3t4t5t6h8){h9}]"), gtd.Domain.of_hours("Mo-Fr 08:00-17:00")
    assert week.same(hours) and week.same(week) and week.apart(hours, "2199-12-31T23:59:59") is None
    other = gtd.Domain("[(h8){h9}]")
    assert week.apart(other, "2024-03-15T12:00:00") == gtd.Apart(datetime(2024, 3, 16, 8), False)
    assert other.apart(week, datetime(2024, 3, 16, 8, 1)) == (datetime(2024, 3, 16, 8, 1), True)
    assert not week.same(other) and gtd.Domain("(y2024){d1}").same(gtd.Domain("(y2024){h24}"))
    for asked in week, hours:
        with pytest.raises(gtd.Fault) as caught:
            week.apart(asked, "2200-01-01T00:00:00")
        assert caught.value.kind == "moment Range"


@pytest.mark.parametrize(
    "hours, kind, place",
    [
        ("Mo,PH 08:00-17:00", "hours Unsupported", 3),
        ("", "hours Incomplete", 0),
        ("Mo 8:00", "hours BadToken", 3),
        ("Mo-Fr 10:00-25:99", "hours Range", 12),
        ("Mo Mo", "hours Unexpected", 3),
    ],
)
def test_faults_of_hours(answering, hours, kind, place):
    with pytest.raises(gtd.Fault) as caught:
        gtd.Domain.of_hours(hours)
    assert (caught.value.kind, caught.value.place, caught.value.text) == (kind, place, hours)


FORMS = [
    [datetime(2024, 9, 2, 7, 30), datetime(2024, 9, 2, 16, 0, 0, 999_999)],
    (pandas.Timestamp("2024-09-02T07:30:00.9"), "2024-09-02T16:00:00"),
    ["2024-09-02T07:30:00", "2024-09-02T16:00:00"],
    numpy.array(["2024-09-02T07:30:00", "2024-09-02T16:00:00"]),
    numpy.array(["2024-09-02T07:30:00.999", "2024-09-02T16:00:00.1"], dtype="datetime64[ms]"),
    numpy.array(["2024-09-02T07:30", "2024-09-02T16:00"], dtype="datetime64[m]"),
    pandas.DatetimeIndex(["2024-09-02T07:30:00", "2024-09-02T16:00:00"]),
    pandas.array(["2024-09-02T07:30:00", "2024-09-02T16:00:00"], dtype="datetime64[ns]"),
    pandas.Series(["2024-09-02T07:30:00", "2024-09-02T16:00:00"], dtype="string"),
]


@pytest.mark.parametrize("moments", FORMS, ids=lambda moments: type(moments).__name__)
def test_every_form_of_moments(answering, moments):
    held = gtd.Domain(SCHOOL).contains(moments)
    assert held.dtype == bool and held.tolist() == [True, False]


def test_a_column_keeps_its_index(answering):
    column = pandas.Series(pandas.to_datetime(["2024-09-02T07:30:00", "2024-09-02T16:00:00"]), index=["a", "b"], name="at")
    expected = pandas.Series([True, False], index=["a", "b"], name="at")
    pandas.testing.assert_series_equal(gtd.Domain(SCHOOL).contains(column), expected)
    assert gtd.Domain(SCHOOL).contains(column[:0]).tolist() == [] == gtd.Domain(SCHOOL).contains([]).tolist()


def test_many_moments_are_answered_piece_by_piece(no_program):
    seconds = numpy.arange(200_000) * 60 + 1_700_000_000
    held = gtd.Domain("(h7){h2}").contains(seconds.astype("datetime64[s]"))
    assert (held == (seconds // 3600 % 24 // 2 * 2 + seconds // 3600 % 2 >= 7) & (seconds // 3600 % 24 < 9)).all()


@pytest.mark.parametrize(
    "moment, inside",
    [("1901-01-01T00:00:00", True), ("2699-12-31T23:59:59", True), ("2200-01-01T00:00:00", True)],
)
def test_the_first_and_the_last_second(answering, moment, inside):
    domain = gtd.Domain("(h0){h24}")
    assert domain.contains(moment) is inside
    assert domain.contains([moment, moment]).tolist() == [inside, inside]
    assert domain.contains(numpy.datetime64(moment)) is inside and domain.contains(datetime.fromisoformat(moment)) is inside


@pytest.mark.parametrize(
    "moment, kind",
    [
        (datetime(1900, 12, 31, 23, 59, 59), "moment Range"),
        (datetime(2700, 1, 1), "moment Range"),
        ("0000-02-29T00:00:00", "moment Range"),
        ("0000-02-30T00:00:00", "moment NoSuchDate"),
        ("2023-02-29T00:00:00", "moment NoSuchDate"),
        ("2024-02-29T24:00:00", "moment NoSuchDate"),
        ("2024-02-29T23:60:00", "moment NoSuchDate"),
        ("2024-02-29T23:59:60", "moment NoSuchDate"),
        ("2024-02-29", "moment Shape"),
        ("2024-02-29_00:00:00", "moment Shape"),
        ("2024-02-29T00:00:00\n", "moment Shape"),
        ("2024-02-29T00:00:0\N{ARABIC-INDIC DIGIT ONE}", "moment Shape"),
    ],
)
def test_moments_that_are_refused(answering, moment, kind):
    domain = gtd.Domain("(h1){h1}")
    with pytest.raises(gtd.Fault) as caught:
        domain.contains(moment)
    assert (caught.value.kind, caught.value.row) == (kind, None)
    with pytest.raises(gtd.Fault) as caught:
        domain.contains([datetime(2024, 1, 1), moment, moment])
    assert (caught.value.kind, caught.value.row) == (kind, 2)


@pytest.mark.parametrize("word", ["0000-02-29", "0000-02-30", "2023-02-29", "2024-2-3", "1900-12-31", "2700-01-01", "2700-01-02"])
@pytest.mark.parametrize("time", ["T00:00:00", "T23:59:60", "T24:00:00", ""])
def test_words_are_refused_as_by_the_program(monkeypatch, word, time):
    """Moments and days are read here; the program reads them in the same way."""
    asks = [
        lambda: gtd.contains("(h1){h1}", word + time),
        lambda: gtd.next_change("(h1){h1}", "2199-12-31T00:00:00", word + time),
        lambda: gtd.schedule(b"element,direction,vehicle,domain\n", word + time, "2024-01-01", 11),
    ]
    by_library = [_kind(ask) for ask in asks]
    without_library(monkeypatch)
    assert [_kind(ask) for ask in asks] == by_library


def _kind(ask):
    try:
        ask()
    except gtd.Fault as fault:
        return fault.kind
    return None


def test_moments_with_a_time_zone(answering):
    domain = gtd.Domain("(h1){h1}")
    aware = pandas.DatetimeIndex(["2024-01-01"], tz="Europe/Vienna")
    for moments in (
        datetime(2024, 1, 1, tzinfo=timezone.utc),
        aware[0],
        aware,
        pandas.Series(aware),
        [datetime(2024, 1, 1, tzinfo=timezone.utc)],
    ):
        with pytest.raises(ValueError, match="no time zone"):
            domain.contains(moments)
    with pytest.raises(ValueError, match="row 2.*NaT"):
        domain.contains(pandas.to_datetime(["2024-01-01", None]))
    with pytest.raises(ValueError, match="NaT"):
        domain.contains([pandas.NaT])
    for wrong in (None, 3, date(2024, 1, 1), [3], numpy.array([3])):
        with pytest.raises(TypeError):
            domain.contains(wrong)
    with pytest.raises(ValueError, match="dimension"):
        domain.contains(numpy.zeros((2, 2), "datetime64[s]"))


def test_next_changes(answering):
    week = gtd.Domain("[(t2){d5}]")
    assert week.next_change(datetime(2024, 1, 5, 12), date(2024, 2, 1)) == gtd.Change(datetime(2024, 1, 6), False)
    assert week.next_change("2024-01-05T12:00:00", "2024-01-06") is None
    assert week.next_change("2024-01-05T12:00:00") == (datetime(2024, 1, 6), False)
    assert week.next_change("2600-01-01T12:00:00", "2600-02-01").moment == datetime(2600, 1, 4)
    assert gtd.Domain("[(M2d29){d1}]").next_change(datetime(2199, 12, 31)) == (datetime(2204, 2, 29), True)
    assert gtd.Domain("(M2d30){d1}").next_change(datetime(2024, 1, 1)) is None


@pytest.mark.parametrize(
    "ask, kind",
    [
        (lambda domain: domain.next_change("2024-01-02T00:00:00", "2024-01-02"), "horizon Empty"),
        (lambda domain: domain.next_change("2024-01-02T00:00:00", "2500-01-02"), "horizon TooLong"),
        (lambda domain: domain.next_change("2024-01-02T00:00:00", "2700-01-02"), "date Range"),
        (lambda domain: domain.next_change("2024-01-02T00:00:00", "2024-02-30"), "date NoSuchDate"),
        (lambda domain: domain.next_change("2024-01-02T00:00:00", "2024-2-3"), "date Shape"),
        (lambda domain: domain.next_change("2200-01-01T00:00:00"), "moment Range"),
        (lambda domain: domain.spans("2024-01-02", "2024-01-02"), "horizon Empty"),
        (lambda domain: domain.spans("1901-01-01", "2301-01-02"), None),
        (lambda domain: domain.spans("1901-01-01", "2301-01-03"), "horizon TooLong"),
        (lambda domain: domain.picture(1900), "YearRange"),
        (lambda domain: gtd.Domain("(y2024){d1}").next_change("2024-01-02T00:00:00"), "HasYear"),
    ],
)
def test_what_is_refused(answering, ask, kind):
    domain = gtd.Domain("(M2d30){d1}")
    if kind is None:
        assert len(ask(domain)) == 0
        return
    with pytest.raises(gtd.Fault) as caught:
        ask(domain)
    assert caught.value.kind == kind


def test_spans(answering):
    spans = gtd.Domain("[(M4d1){M3}]*[(h10){h4}]").spans("2024-03-31", date(2024, 4, 3))
    begins = ["2024-04-01T10:00:00", "2024-04-02T10:00:00"]
    ends = ["2024-04-01T14:00:00", "2024-04-02T14:00:00"]
    expected = pandas.DataFrame({"from": numpy.array(begins, "datetime64[s]"), "until": numpy.array(ends, "datetime64[s]")})
    pandas.testing.assert_frame_equal(spans, expected)
    pandas.testing.assert_frame_equal(gtd.Domain("(M2d30){d1}").spans("2024-03-31", "2024-04-03"), expected[:0])


def test_words_and_pictures(answering):
    domain = gtd.Domain("[(M4d1){M3}]*[(h10){h4}]")
    for ask, words in [
        (domain.words(), ("words", domain.text)),
        (domain.picture(2024), ("picture-domain", domain.canon(), "2024")),
        (domain._repr_svg_(), ("picture-domain", domain.canon(), str(date.today().year))),
    ]:
        printed = subprocess.run([gtd.program("gtdesk"), *words], stdout=subprocess.PIPE, check=True).stdout.decode()
        assert ask.rstrip("\n") == printed.rstrip("\n")
    assert gtd.Domain("(t7h5){h10}").words() == "every Saturday from 05:00 until 15:00"


def test_a_domain_is_a_value(answering):
    domain = gtd.Domain("[(m30h07){m30h1}]")
    assert domain == gtd.Domain("[(h7m30){h1m30}]") != gtd.Domain("(h7){h1}") and domain != "[(h7m30){h1m30}]"
    assert len({domain, gtd.Domain("[(h7m30){h1m30}]")}) == 1
    assert (str(domain), repr(domain)) == ("[(m30h07){m30h1}]", "gtd.Domain('[(m30h07){m30h1}]')")
    for again in (pickle.loads(pickle.dumps(domain)), copy.deepcopy(domain)):
        assert again == domain and again.text == domain.text


def test_faults_of_texts(answering):
    for text, kind, place in [("[(h25){h1}]", "FieldRange", 2), ("", "Incomplete", 0), ("(h1)é", "BadToken", 4)]:
        with pytest.raises(gtd.Fault) as caught:
            gtd.Domain(text)
        assert (caught.value.kind, caught.value.place, caught.value.text) == (kind, place, text)
    with pytest.raises(TypeError):
        gtd.Domain(None)


def test_each_fault_of_a_text(no_program):
    """The library's numbers of faults have the names that the model gives."""
    maker, met = Maker(7), set()
    for _ in range(3_000):
        whole = maker.loose() if maker.random.random() < 0.5 else maker.domain()
        text = maker.damaged(whole, b"[](){}+*-yMwdtflhmsz0123456789 x")
        if not model_of("fuzz").is_text(text):
            continue
        try:
            model.read(text)
            gtd.check(text.decode())
        except model.Fault as fault:
            with pytest.raises(gtd.Fault) as caught:
                gtd.check(text.decode())
            assert (caught.value.kind, caught.value.place) == fault.args, text
            met.add(caught.value.kind)
    assert len(met) >= 9, met


def test_no_program_is_started(no_program):
    domain = gtd.Domain(SCHOOL)
    assert domain.contains("2024-09-02T07:30:00") and gtd.contains(SCHOOL, "2024-09-02T07:30:00")
    days = "2024-09-02T07:30:00", "2025-01-01"
    assert domain.next_change(*days) == gtd.next_change(SCHOOL, *days)
    assert domain.next_change(days[0]) == gtd.next_change_ever(SCHOOL, days[0])
    assert domain.canon() == gtd.canon(SCHOOL) and domain.words() and domain.picture(2024)
    assert len(domain.spans("2024-09-02", "2024-09-03")) == 1
    assert gtd.Domain.of_hours("10:00-14:00").apart(domain) is not None


def test_where_the_library_is(monkeypatch, tmp_path):
    path = gtd.library()
    assert path is not None
    if path.startswith(str(_library.BUNDLED)):
        pytest.skip("a wheel's own library comes first")
    monkeypatch.setenv("LIBGTD", str(tmp_path / "none"))
    with pytest.raises(gtd.LibraryNotFound, match="LIBGTD names .*none"):
        gtd.library()
    with pytest.raises(FileNotFoundError):
        gtd.Domain("(h1){h1}")


def test_a_call_that_the_library_lacks(monkeypatch):
    """The programs answer for it."""
    whole = gtd.Domain(SCHOOL)
    asked = {
        "domain_holds_many": lambda domain: domain.contains(["2024-09-02T07:30:00", "2024-09-02T16:00:00"]).tolist(),
        "domain_next": lambda domain: domain.next_change("2024-09-02T07:30:00", "2025-01-01"),
        "domain_ever": lambda domain: domain.next_change("2024-09-02T07:30:00"),
        "domain_spans": lambda domain: domain.spans("2024-09-02", "2024-09-05").to_numpy().tolist(),
        "domain_canon": lambda domain: (domain.canon(), gtd.canon(SCHOOL)),
        "domain_words": lambda domain: domain.words(),
        "same": lambda domain: domain.apart(gtd.Domain("(h8){h9}"), "2024-09-02T12:00:00"),
        "domain_from_hours": lambda domain: str(gtd.Domain.of_hours("Mo-Fr 08:00-17:00")),
        "domain_picture": lambda domain: domain.picture(2024).rstrip("\n"),
    }
    library = _library.load()
    expected = {name: ask(whole) for name, ask in asked.items()}
    for name, ask in asked.items():
        with monkeypatch.context() as patch:
            patch.setattr(library.held, name, None)
            assert ask(gtd.Domain(SCHOOL)) == expected[name]
    without_library(monkeypatch)
    assert {name: ask(gtd.Domain(SCHOOL)) for name, ask in asked.items()} == expected
