"""Random events, span by span against dateutil; calendars that are written, read back by three readers.

Peers: dateutil, icalendar with recurring_ical_events, and libical. The first and the last must agree on what rules mean.
"""

import random
from datetime import datetime, timedelta, timezone
from zoneinfo import ZoneInfo

import gi
import icalendar
import pytest
import recurring_ical_events
from dateutil.rrule import rruleset, rrulestr

import gtd
from gtd import ical
from tests import model_spans as spans
from tests.exchange_inputs import event, first_instance, random_rule

gi.require_version("ICalGLib", "3.0")
from gi.repository import ICalGLib  # noqa: E402

RULES, REFERENCES, CALENDARS = 1500, 1000, 60
STAMP = datetime(2025, 1, 1, tzinfo=timezone.utc)
FIRST, UNTIL = datetime(2025, 1, 1), datetime(2026, 1, 1)
VIENNA = ZoneInfo("Europe/Vienna")


# Reading


def is_left_by_libical(text):
    """Whether libical leaves the RFC: it takes no day from the end of a month in a daily rule, and does not expand a yearly rule
    to each month. The RFC is plain about the first; rules of the second kind are refused."""
    if "BYMONTHDAY" not in text:
        return False
    return ("FREQ=DAILY" in text and "-" in text) or ("FREQ=YEARLY" in text and "BYMONTH=" not in text)


def with_changes(maker, rule, start, horizon):
    """A set of instances with some taken out and perhaps one added, and the lines that say so."""
    some = rruleset()
    some.rrule(rule)
    instances = list(rule.between(start, horizon, inc=True))
    gone = maker.sample(instances, min(len(instances), maker.choice([0, 0, 1, 3])))
    for one in gone:
        some.exdate(one)
    lines = [f"EXDATE:{one:%Y%m%dT%H%M%S}" for one in gone]
    if maker.random() < 0.2:
        one = start + timedelta(days=maker.randint(1, 500), hours=1)
        lines.append(f"RDATE:{one:%Y%m%dT%H%M%S}")
        some.rdate(one)
    return some, lines


def test_random_rules():
    maker = random.Random(20250310)
    accepted, listed, refused = 0, 0, {}
    while accepted < RULES:
        day = maker.randint(2023, 2026), maker.randint(1, 12), maker.randint(1, 28)
        near = datetime(*day, maker.randint(0, 23), maker.choice([0, 30]))
        text = random_rule(maker, near)
        start = first_instance(text, near)
        if start is None:
            continue
        seconds = maker.choice([3600, 5400, 36000, 86400, 4 * 86400 + 1, 40 * 86400])
        horizon = datetime(start.year, start.month, start.day) + timedelta(days=1200)
        some, lines = with_changes(maker, rrulestr(text, dtstart=start), start, horizon - timedelta(seconds=1))
        data = event("UID:a", f"DTSTART:{start:%Y%m%dT%H%M%S}", f"DURATION:PT{seconds}S", f"RRULE:{text}", *lines)
        (found,) = ical.closures(data, ical.Choices(until=horizon.date()))
        if found.fault is not None:
            refused.setdefault(found.fault.kind, []).append((text, str(found.fault)))
            continue
        accepted += 1
        listed += not any("{y100}" in domain or "*" in domain for domain in found.domains)
        assert found.listed_until in (None, horizon.date())
        first, until = start - timedelta(days=60), start + timedelta(days=1100)
        wanted = [(one, one + timedelta(seconds=seconds)) for one in some.between(first, until, inc=True)]
        wanted = spans.within(spans.seconds_of(wanted), spans.second(first), spans.second(until))
        assert spans.of_texts(found.domains, first, until) == wanted, (text, start, seconds, lines, found.domains)
    assert RULES // 4 < listed < RULES // 2
    assert set(refused) <= {"Rule", "TooLong"}, refused
    assert all("COUNT" in text for text, _ in refused.get("TooLong", [])), refused  # rare days, not so often in 100 years
    rules = refused.get("Rule", [])
    assert all("FREQ=YEARLY" in why and "BYMONTHDAY" in text and "BYMONTH=" not in text for text, why in rules), rules


def by_libical_rule(text, start, until):
    """The instances of a rule up to a moment, by libical; None if it has no iterator for some parts together."""
    rule, begin = ICalGLib.Recurrence.new_from_string(text), ICalGLib.Time.new_from_string(f"{start:%Y%m%dT%H%M%S}")
    try:
        steps = ICalGLib.RecurIterator.new(rule, begin)
    except TypeError:
        return None
    found, step = [], steps.next()
    while not step.is_null_time() and datetime.strptime(step.as_ical_string(), "%Y%m%dT%H%M%S") <= until:
        found.append(datetime.strptime(step.as_ical_string(), "%Y%m%dT%H%M%S"))
        step = steps.next()
    return found


def test_the_references_agree():
    """dateutil and libical have the same instances, except of rules that are refused, and where libical leaves the RFC."""
    maker = random.Random(5)
    same = 0
    for _ in range(REFERENCES):
        near = datetime(maker.randint(2023, 2026), maker.randint(1, 12), maker.randint(1, 28), 7)
        text = random_rule(maker, near)
        start = first_instance(text, near)
        if start is None:
            continue
        if is_left_by_libical(text):
            continue
        until = start + timedelta(days=1200)
        found = by_libical_rule(text, start, until)
        if found is not None:
            assert found == rrulestr(text, dtstart=start).between(start, until, inc=True), (text, start)
            same += 1
    assert same > REFERENCES // 2


def test_dates_that_are_listed():
    """Every second Saturday has no domain: its dates are listed before a day that is asked for, and this is said."""
    lines = ("UID:a", "DTSTART:20250301T050000", "DURATION:PT10H", "RRULE:FREQ=WEEKLY;INTERVAL=2")
    (found,) = ical.closures(event(*lines))
    assert found.fault is not None and found.fault.kind == "Rule"
    year = datetime(2026, 3, 1).date()
    (found,) = ical.closures(event(*lines), ical.Choices(until=year))
    wanted = [(FIRST + timedelta(days=59 + 14 * n, hours=5), FIRST + timedelta(days=59 + 14 * n, hours=15)) for n in range(27)]
    assert wanted[-1][1] < datetime(2026, 3, 1) < wanted[-1][1] + timedelta(days=14)
    assert spans.of_texts(found.domains, FIRST, datetime(2027, 1, 1)) == spans.seconds_of(wanted)
    assert found.listed_until == year
    ended = (*lines[:3], lines[3] + ";UNTIL=20250601T000000")
    (found,) = ical.closures(event(*ended), ical.Choices(until=year))
    assert found.listed_until is None and found.domains[0].count("(") == 7
    (found,) = ical.closures(event(*lines[:3], "RRULE:FREQ=DAILY;INTERVAL=2"), ical.Choices(until=datetime(2026, 3, 1)))
    assert [domain.count("(") for domain in found.domains] == [128, 55]


# Writing


def random_spans(maker):
    found = []
    for _ in range(maker.randint(1, 4)):
        begin = FIRST + timedelta(days=maker.randint(0, 200), minutes=30 * maker.randint(0, 47))
        length = timedelta(seconds=maker.choice([1800, 36000, 8 * 3600, 86400, 60 * 3600, 20 * 86400]))
        step = maker.choice([1, 7, 7, 14, 2])
        found += [
            (begin + timedelta(days=step * n), begin + timedelta(days=step * n) + length)
            for n in range(maker.randint(1, 40))
            if maker.random() < 0.9
        ]
    wanted = spans.within(spans.seconds_of(found), spans.second(FIRST), spans.second(UNTIL))
    return [(spans.moment(a), spans.moment(b)) for a, b in wanted]


def by_this_reader(data, choices):
    """The spans of a calendar, as this package reads it."""
    domains = []
    for one in ical.closures(data, choices):
        assert one.fault is None, one
        domains += one.domains
    return spans.of_texts(domains, FIRST, UNTIL)


def by_recurring(data):
    events = recurring_ical_events.of(icalendar.Calendar.from_ical(data)).between(FIRST - timedelta(days=40), UNTIL)
    return [(one["DTSTART"].dt, one["DTEND"].dt) for one in events]


def by_libical(data):
    """The spans of a calendar with floating times, by libical's recurrences."""
    found = []
    whole = ICalGLib.Component.new_from_string(data.decode())
    one = whole.get_first_component(ICalGLib.ComponentKind.VEVENT_COMPONENT)
    while one is not None:
        start, length = one.get_dtstart(), one.get_dtend().subtract(one.get_dtstart()).as_int()
        rule = one.get_first_property(ICalGLib.PropertyKind.RRULE_PROPERTY)
        gone, exception = set(), one.get_first_property(ICalGLib.PropertyKind.EXDATE_PROPERTY)
        while exception is not None:
            gone.add(exception.get_exdate().as_ical_string())
            exception = one.get_next_property(ICalGLib.PropertyKind.EXDATE_PROPERTY)
        moments = [start.as_ical_string()]
        if rule is not None:
            steps = ICalGLib.RecurIterator.new(rule.get_rrule(), start)
            moments, step = [], steps.next()
            while not step.is_null_time():
                moments.append(step.as_ical_string())
                step = steps.next()
        begins = [datetime.strptime(text, "%Y%m%dT%H%M%S") for text in moments if text not in gone]
        found += [(begin, begin + timedelta(seconds=length)) for begin in begins]
        one = whole.get_next_component(ICalGLib.ComponentKind.VEVENT_COMPONENT)
    return found


def uids(data):
    return [line for line in data.split(b"\r\n") if line.startswith(b"UID:")]


def test_floating_times():
    maker = random.Random(11)
    for _ in range(CALENDARS):
        wanted = random_spans(maker)
        data = ical.calendar([ical.Closed("17-both", "Market, 17 closed", wanted)], "Closures", STAMP)
        assert all(len(line) <= 75 for line in data.split(b"\r\n"))
        assert len(set(uids(data))) == len(uids(data)) == data.count(b"BEGIN:VEVENT")
        exact = spans.seconds_of(wanted)
        assert by_this_reader(data, ical.Choices()) == exact
        assert spans.seconds_of(by_libical(data)) == exact
        assert spans.seconds_of((a.replace(tzinfo=None), b.replace(tzinfo=None)) for a, b in by_recurring(data)) == exact


def utc(moment):
    return moment.astimezone(timezone.utc).replace(tzinfo=None)


def instant(moment, zone, fold):
    """The instant at which the clock shows a civil second, in its first or second pass; after a leap, the instant of the leap."""
    there = moment.replace(tzinfo=zone, fold=fold)
    while utc(there).replace(tzinfo=timezone.utc).astimezone(zone).replace(tzinfo=None) != there.replace(tzinfo=None):
        moment = moment.replace(second=0) + timedelta(minutes=1)
        there = moment.replace(tzinfo=zone, fold=0)
    return utc(there)


def real_spans(wanted, zone):
    """From the first instant at which the clock shows a second of a span up to the last."""
    for first, until in wanted:
        begin, last = instant(first, zone, 0), until - timedelta(seconds=1)
        shown = utc(last.replace(tzinfo=zone, fold=1)).replace(tzinfo=timezone.utc).astimezone(zone).replace(tzinfo=None)
        end = instant(last, zone, 1) + timedelta(seconds=shown == last)
        if begin < end:
            yield spans.second(begin), spans.second(end)


@pytest.mark.parametrize("name", ["Europe/Vienna", "America/New_York", "Australia/Lord_Howe", "UTC"])
def test_times_of_a_zone(name):
    """A peer reads the real seconds at which the clock shows a closed one; where it shows a time twice, from the first pass of a
    start to the second pass of an end."""
    maker = random.Random(13)
    zone = ZoneInfo(name)
    for _ in range(CALENDARS // 4):
        wanted = random_spans(maker)
        data = ical.calendar([ical.Closed("17-both", "17 closed", wanted)], "Closures", STAMP, zone)
        found = spans.seconds_of((utc(a), utc(b)) for a, b in by_recurring(data))
        assert found == spans.united(real_spans(wanted, zone)), (name, wanted)
        assert len(set(uids(data))) == len(uids(data))


@pytest.mark.parametrize("until, found", [(2, "20251026T000000Z"), (2.5, "20251026T013000Z"), (3, "20251026T030000")])
def test_ends_that_the_clock_shows_twice(until, found):
    """What ends when the clock is about to show an hour twice ends with the first pass; what ends in it, in the second."""
    midnight = datetime(2025, 10, 26)
    data = ical.calendar([ical.Closed("a", "a", [(midnight, midnight + timedelta(hours=until))])], "a", STAMP, VIENNA)
    assert f"DTEND:{found}\r\n".encode() in data or f"DTEND;TZID=Europe/Vienna:{found}\r\n".encode() in data


def test_a_market():
    """A market on Saturdays, except over Christmas, is one event."""
    days = [datetime(2025, 3, 1, 5) + timedelta(weeks=n) for n in range(50)]
    wanted = [(day, day + timedelta(hours=10)) for day in days if day.month != 12 or day.day < 20]
    data = ical.calendar([ical.Closed("17-both", "Market Street closed", wanted)], "Markets", STAMP, VIENNA)
    assert data.count(b"BEGIN:VEVENT") == 1 and b"RRULE:FREQ=WEEKLY;BYDAY=SA;COUNT=50\r\n" in data
    assert data.count(b"EXDATE;TZID=Europe/Vienna:") == 2 and b"UNTIL" not in data
    assert by_this_reader(data, ical.Choices(VIENNA)) == spans.within(
        spans.seconds_of(wanted), spans.second(FIRST), spans.second(UNTIL)
    )


def test_a_night_in_which_the_clock_is_changed():
    """It is no instance of the rule: its real length is another."""
    days = [datetime(2025, 3, 1, 22) + timedelta(weeks=n) for n in range(8)]
    wanted = [(day, day + timedelta(hours=8)) for day in days]
    data = ical.calendar([ical.Closed("17-both", "17 closed", wanted)], "Nights", STAMP, VIENNA)
    assert data.count(b"BEGIN:VEVENT") == 2 and data.count(b"EXDATE;TZID=Europe/Vienna:20250329T220000") == 1
    assert b"DTSTART;TZID=Europe/Vienna:20250329T220000\r\nDTEND;TZID=Europe/Vienna:20250330T060000\r\nSUMMARY" in data
    found = spans.seconds_of((utc(a), utc(b)) for a, b in by_recurring(data))
    assert found == spans.united(real_spans(wanted, VIENNA))
    assert by_this_reader(data, ical.Choices(VIENNA)) == spans.seconds_of(wanted)


def test_uids_from_a_fixed_day():
    """Spans that are listed from the same day for longer have the same events, whose rules go on."""
    days = [datetime(2025, 3, 1, 5) + timedelta(weeks=n) for n in range(80)]
    wanted = [(day, day + timedelta(hours=10)) for day in days]
    one, other = (ical.calendar([ical.Closed("17-both", "a", wanted[:n])], "a", STAMP, VIENNA) for n in (40, 80))
    assert uids(one) == uids(other) == [b"UID:17-both-20250301T050000-36000@gtd.invalid"]


def test_texts():
    summary = "Grüner Markt; 5, 6\\7\r\nund " + "sehr " * 30
    data = ical.calendar([ical.Closed("a", summary, [(FIRST, FIRST + timedelta(hours=1))])], "T", STAMP, None, "example.org")
    assert all(len(line) <= 75 for line in data.split(b"\r\n"))
    (found,) = icalendar.Calendar.from_ical(data).walk("VEVENT")
    assert str(found["SUMMARY"]) == summary.replace("\r\n", "\n") and found["UID"].endswith("@example.org")
    with pytest.raises(gtd.Fault, match="Text"):
        ical.calendar([], "a\0b", STAMP)
    with pytest.raises(ValueError, match="host"):
        ical.calendar([], "a", STAMP, None, "example.org\r\nX:1")
    assert ical.calendar([], "a", STAMP, VIENNA).count(b"\r\n") == 5
