"""Random specifications of DATEX II, second by second against a literal reading of the standard's words; and the way back."""

import io
import random
from datetime import datetime, timedelta, timezone
from zoneinfo import ZoneInfo

import pytest

import gtd
from gtd import datex
from tests import model_spans as spans
from tests.exchange_inputs import document, moment, random_specification, read, reference

ROUNDS = 300
VIENNA = ZoneInfo("Europe/Vienna")
OPEN = "<validityTimeSpecification><overallStartTime>2025-03-10T07:00:00</overallStartTime></validityTimeSpecification>"
ZONES = ["Europe/Vienna", "America/New_York", "Australia/Lord_Howe", "Africa/Cairo", "America/Havana", "UTC"]


def test_random_specifications():
    maker = random.Random(20250620)
    accepted, refused = 0, {}
    first, until = datetime(2024, 12, 1), datetime(2026, 6, 1)
    while accepted < ROUNDS:
        night = maker.choice(["begins", "within"])
        text = document(random_specification(maker))
        found = read(text, datex.Choices(night=night))
        if found.fault is not None:
            assert found.fault.kind != "Never" or not reference(text, night, first, until)
            refused[found.fault.kind] = refused.get(found.fault.kind, 0) + 1
            continue
        accepted += 1
        assert spans.of_texts(found.domains, first, until) == reference(text, night, first, until), (text, night, found.domains)
    assert set(refused) <= {"Never", "TooMany"} and sum(refused.values()) <= ROUNDS // 10, refused


def random_spans(maker, first, until):
    """Spans that recur in various steps, of which some are left out; as numbers of seconds."""
    found = []
    for _ in range(maker.randint(1, 4)):
        begin = moment(maker, first, 300)
        length = timedelta(seconds=maker.choice([3600, 36000, 8 * 3600, 86400, 60 * 3600, 40 * 86400, 1]))
        step = maker.choice([1, 7, 7, 14, 2])
        found += [
            (begin + timedelta(days=step * n), begin + timedelta(days=step * n) + length)
            for n in range(maker.randint(1, 30))
            if maker.random() < 0.9
        ]
    return spans.within(spans.seconds_of(found), spans.second(first), spans.second(until))


def test_written():
    """Random closed spans, written as a specification, mean the same to the reference and to the reader."""
    maker = random.Random(7)
    first, until = datetime(2025, 1, 1), datetime(2026, 3, 1)
    for _ in range(ROUNDS):
        wanted = random_spans(maker, first, until)
        if not wanted:
            continue
        exact = [(spans.moment(a), spans.moment(b)) for a, b in wanted]
        text = document(datex.written(exact, first, until))
        assert reference(text, "within", first, until) == wanted, text
        for night in ("begins", None):
            again = read(text, datex.Choices(night=night))
            assert again.fault is None and spans.of_texts(again.domains, first, until) == wanted, (text, again)
        for version in (2, 3):
            text = document(datex.written(exact, first, until, version, VIENNA))
            again = read(text, datex.Choices(zone=VIENNA))
            assert again.fault is None and spans.of_texts(again.domains, first, until) == wanted, (text, again)


def near_changes(maker, zone):
    """Some spans of the civil clock whose ends are near a change of the zone's clock in 2025."""
    changes = []
    at = datetime(2025, 1, 2, tzinfo=timezone.utc)
    while at.year == 2025:
        if (at + timedelta(hours=1)).astimezone(zone).utcoffset() != at.astimezone(zone).utcoffset():
            changes.append(at.astimezone(zone).replace(tzinfo=None, minute=0, second=0))
        at += timedelta(hours=1)
    ends = set()
    for change in changes or [datetime(2025, 5, 5)]:
        ends |= {change + timedelta(minutes=15 * maker.randint(-12, 12)) for _ in range(4)}
        ends |= {change + timedelta(days=maker.randint(-9, 9), minutes=15 * maker.randint(-12, 12)) for _ in range(2)}
    ends = sorted(ends)
    return list(zip(ends[::2], ends[1::2]))


def is_shown(number, zone):
    """Whether a zone's clock shows a civil second."""
    there = spans.moment(number).replace(tzinfo=zone)
    return there.astimezone(timezone.utc).astimezone(zone).replace(tzinfo=None) == spans.moment(number)


@pytest.mark.parametrize("name", ZONES)
def test_written_near_changes_of_the_clock(name):
    """The seconds that the clock shows are the same; those that it passes over may be said otherwise."""
    maker, zone = random.Random(name), ZoneInfo(name)
    first, until = datetime(2025, 1, 1), datetime(2026, 1, 1)
    for _ in range(40):
        wanted = near_changes(maker, zone)
        text = document(datex.written(wanted, first, until, 3, zone))
        (again,) = datex.validities(io.BytesIO(text.encode()), datex.Choices(zone=zone))
        assert again.fault is None, (wanted, text, again)
        found, exact = spans.of_texts(again.domains, first, until), spans.seconds_of(wanted)
        ends = spans.second(first), spans.second(until)
        for one, other in ((found, exact), (exact, found)):
            for begin, end in spans.without(one, other, *ends):
                assert not any(is_shown(second, zone) for second in range(begin, end, 60)), (wanted, text)


def test_what_is_never_valid():
    with pytest.raises(gtd.Fault) as raised:
        datex.written([], datetime(2025, 1, 1), datetime(2025, 2, 1))
    assert raised.value.kind == "Never"
    passed_over = [(datetime(2025, 3, 30, 2, 15), datetime(2025, 3, 30, 2, 45))]
    with pytest.raises(gtd.Fault, match="Never"):
        datex.written(passed_over, datetime(2025, 1, 1), datetime(2025, 6, 1), 3, VIENNA)
    ends = datetime(2025, 1, 1), datetime(2025, 10, 26, 2, 30)
    with pytest.raises(gtd.Fault, match="Twice"):
        datex.written([(datetime(2025, 3, 1), datetime(2025, 3, 2))], *ends, zone=VIENNA)


def test_what_is_no_choice():
    for choices in (datex.Choices(night="begin"), datex.Choices(weeks="seven"), datex.Choices(last_minute="23:59")):
        with pytest.raises(ValueError):
            list(datex.validities(io.BytesIO(b""), choices))
    with pytest.raises(ValueError, match="version"):
        datex.written([], datetime(2025, 1, 1), datetime(2025, 2, 1), 1)


def test_versions_of_one_record():
    """A record that comes in two versions is refused; one that comes twice in one version has both."""
    text = document(OPEN)
    record = text[text.index("<situationRecord") : text.index("</situation>")]
    again = text.replace("</situation>", record + "\n" + record.replace('version="1"', 'version="2"') + "</situation>")
    found = list(datex.validities(io.BytesIO(again.encode())))
    assert [one.fault and one.fault.kind for one in found] == [None, None, "Repeated"]
    assert (found[0].id, found[0].kind, found[0].version) == ("r1", "situationRecord", "1")


def test_names_of_other_namespaces():
    """Elements of another namespace, or of none, are not those of the standard."""
    text = document(OPEN)
    for other in ("http://example.org", ""):
        assert not list(datex.validities(io.BytesIO(text.replace("http://datex2.eu/schema/3/common", other).encode())))
    mixed = text.replace("<overallStartTime>", '<overallStartTime xmlns="http://example.org">')
    (found,) = datex.validities(io.BytesIO(mixed.encode()))
    assert found.fault is not None and found.fault.kind == "Unknown"
    older = text.replace("3/common", "2/2_0")
    assert [one.domains for one in datex.validities(io.BytesIO(older.encode()))] == [("(y2025M3d10h7){y100}",)]


def test_types_of_records():
    text = document(OPEN)
    schema = "http://www.w3.org/2001/XMLSchema-instance"
    typed = text.replace("<situationRecord ", f'<situationRecord xmlns:x="{schema}" x:type="s:Works" ')
    (found,) = datex.validities(io.BytesIO(typed.encode()))
    assert found.kind == "Works"
    (found,) = datex.validities(io.BytesIO(text.replace(' id="r1"', "").encode()))
    assert found.fault is not None and found.fault.kind == "Missing"
