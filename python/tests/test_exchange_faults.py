"""Damaged files: each is read right, or refused by a fault with a line. What takes long, and what takes much memory."""

import io
import random
import re
import subprocess
import sys
import time
from datetime import date, datetime, timedelta
from zoneinfo import ZoneInfo

import pytest
from dateutil.parser import isoparse
from dateutil.rrule import rruleset, rrulestr

import gtd
from gtd import datex, ical
from gtd._exchange.tables import Closure, read_names, read_places, write_records
from tests import model_spans as spans
from tests.conftest import environment
from tests.exchange_inputs import document, event, first_instance, random_rule, random_specification, reference

ROUNDS, COMPARED = 2000, 200
FIRST, UNTIL = datetime(2025, 1, 1), datetime(2027, 1, 1)
LARGE = 20_000_000  # bytes
READING = datex.Choices(ZoneInfo("Europe/Vienna"), "begins", "sevens", "written", "midnight")
EVENTS = ical.Choices(ZoneInfo("Europe/Vienna"), (), date(2027, 1, 1))


def damaged(maker, data):
    """A file of which some bytes are others, are missing, or come again."""
    data = bytearray(data)
    for _ in range(maker.choice([0, 1, 1, 1, 2, 4])):
        digits = [n for n, byte in enumerate(data) if chr(byte).isdigit()] or [0]
        at = maker.choice(digits) if maker.random() < 0.6 else maker.randrange(len(data))
        what = maker.choice([0, 1, 2, 3, 3])
        if what == 0:
            data[at] = maker.choice(b'0123456789:;,=-+TZ<>/&"\r\n \t\xff\x00aM')
        elif what == 1:
            del data[at : at + maker.randint(1, 12)]
        elif what == 2:
            data[at:at] = data[at - maker.randint(0, at) : at][:80]
        else:
            data[at:at] = bytes([maker.choice(b"0123456789")])
    return bytes(data)


def domains_of(read, data):
    """The domains that are read; each is one, and a fault has a line of the file."""
    lines = len(data.splitlines()) + 1
    try:
        found = list(read(data))
    except gtd.Fault as fault:
        assert 1 <= fault.line <= lines and fault.note, (fault, data)
        return []
    for one in found:
        assert one.fault is None or 1 <= one.fault.line <= lines and one.fault.note, (one, data)
        for domain in one.domains:
            spans.model.read(domain.encode())
    return [domain for one in found for domain in one.domains]


def test_damaged_specifications():
    maker = random.Random(3)
    compared = 0
    for _ in range(ROUNDS):
        data = damaged(maker, document(random_specification(maker)).encode())
        domains_of(lambda data: datex.validities(io.BytesIO(data), READING), data)
        read = domains_of(lambda data: datex.validities(io.BytesIO(data), datex.Choices(night="begins")), data)
        if read and compared < COMPARED:
            compared += 1
            assert spans.of_texts(read, FIRST, UNTIL) == reference(data, "begins", FIRST, UNTIL), data
    assert compared == COMPARED


def literal_spans(data):
    """The spans of an event of local times, of which each line means what it says."""
    start, seconds, some = None, 0, rruleset()
    for line in data.decode().replace("\r\n", "\n").replace("\n ", "").replace("\n\t", "").split("\n"):
        name, _, value = line.partition(":")
        name = name.partition(";")[0].upper()
        if name == "DTSTART":
            start = isoparse(value)
        elif name == "DURATION":
            days, hours, minutes = (re.search(rf"(\d+){unit}", value.upper()) for unit in "DHM")
            units = (days, 86_400), (hours, 3600), (minutes, 60)
            seconds = sum(int(found[1]) * length for found, length in units if found)
    for line in data.decode().replace("\r\n", "\n").split("\n"):
        if line.upper().startswith("RRULE"):
            some.rrule(rrulestr(line.partition(":")[2], dtstart=start))
        elif line.upper().startswith("EXDATE"):
            for value in line.partition(":")[2].split(","):
                some.exdate(isoparse(value))
    some.rdate(start)
    begins = some.between(FIRST - timedelta(days=40_000), UNTIL, inc=True)
    found = [(one, one + timedelta(seconds=seconds)) for one in begins]
    return spans.within(spans.seconds_of(found), spans.second(FIRST), spans.second(UNTIL))


def test_damaged_calendars():
    maker = random.Random(4)
    compared = 0
    for _ in range(ROUNDS):
        start, rule = None, ""
        while start is None:
            near = datetime(2025, maker.randint(1, 12), maker.randint(1, 28), 5)
            rule = random_rule(maker, near)
            start = first_instance(rule, near)
        lines = [f"DTSTART;TZID=Europe/Vienna:{start:%Y%m%dT%H%M%S}", "DURATION:P1DT2H", f"RRULE:{rule}"]
        data = damaged(maker, event("UID:a", *lines, f"EXDATE;TZID=Europe/Vienna:{start:%Y%m%dT%H%M%S}"))
        read = domains_of(lambda data: ical.closures(data, EVENTS), data)
        if read and b"Z\r\n" not in data and b"\n " not in data and not re.search(rb"UNTIL=\d{8}\W", data):
            compared += 1
            assert spans.of_texts(read, FIRST, UNTIL) == literal_spans(data), data
    assert compared > ROUNDS // 8


MISTAKES = ["20250229T050000", "2025-03-01T05:00:00", "20250301T0500", "20250301 050000", "20250301T050000X"]


@pytest.mark.parametrize("value", MISTAKES)
def test_moments_with_a_mistake(value):
    (found,) = ical.closures(event("UID:a", f"DTSTART:{value}", "DURATION:PT1H"))
    assert found.fault is not None and (found.fault.kind, found.fault.line) == ("Value", 4)


RULES = [
    "FREQ=DAILY;UNTIL=99991231T000000",
    "FREQ=DAILY;COUNT=999999",
    "FREQ=MONTHLY;BYDAY=MO;BYSETPOS=300",
    "FREQ=YEARLY;BYWEEKNO=1;BYMONTH=6",
    "FREQ=YEARLY;INTERVAL=999999",
    "FREQ=MONTHLY;BYMONTH=2;BYMONTHDAY=1,2;INTERVAL=5000",
    "FREQ=DAILY;UNTIL=21241231T000000;INTERVAL=2",
    "FREQ=YEARLY;BYYEARDAY=60,61;BYMONTHDAY=1;BYDAY=MO;BYSETPOS=9",
]


@pytest.mark.parametrize("rule", RULES)
def test_rules_that_take_long(rule):
    data = event("UID:a", "DTSTART:20250303T050000", "DURATION:PT1H", f"RRULE:{rule}")
    begun = time.process_time()
    domains_of(lambda data: ical.closures(data, EVENTS._replace(zone=None)), data)
    assert time.process_time() - begun < 5, rule


def test_many_exceptions():
    """As many EXDATEs as instances, and a property that is folded into many lines."""
    days = [(year, month, day) for year in range(2025, 2099) for month in range(1, 13) for day in range(1, 29)]
    dates = ",".join(f"{date(*day):%Y%m%d}T050000" for day in days)
    lines = ["UID:a", "DTSTART:20250101T050000", "DURATION:PT1H", "RRULE:FREQ=DAILY", f"EXDATE:{dates}"]
    data = event(*lines, "ATTACH:" + "\r\n ".join(["x" * 73] * 200_000))
    left = (date(2099, 1, 1) - date(2025, 1, 1)).days - len(dates.split(","))
    begun = time.process_time()
    (found,) = ical.closures(data, ical.Choices(until=date(2099, 1, 1)))
    assert time.process_time() - begun < 10
    assert found.fault is None and sum(domain.count("(") for domain in found.domains) == left


def large(size):
    """A publication of a size, in which one record has the id ``r1``."""
    one = document(random_specification(random.Random(1))).encode()
    record = one[one.index(b"<situationRecord") : one.index(b"</situation>")].replace(b'"r1"', b'"other"')
    return one.replace(b"</situation>", (record + b"\n  ") * (size // len(record)) + b"</situation>")


def test_a_large_publication():
    """20 MB, of which one record is wanted, in two seconds of an idle core; a busy one gets five times as long here."""
    data = large(LARGE)
    begun = time.process_time()
    assert [found.id for found in datex.validities(io.BytesIO(data), READING, ["r1"])] == ["r1"]
    assert time.process_time() - begun < 10


def test_a_larger_publication_needs_no_more_memory(tmp_path):
    code = "import resource, sys; from gtd import datex\nwith open(sys.argv[1], 'rb') as file:\n"
    code += "    assert [one.id for one in datex.validities(file, ids=['r1'])] == ['r1']\n"
    code += "print(resource.getrusage(resource.RUSAGE_SELF).ru_maxrss)"
    needed = []
    for size in (LARGE // 10, LARGE):
        path = tmp_path / f"{size}.xml"
        path.write_bytes(large(size))
        done = subprocess.run([sys.executable, "-c", code, path], capture_output=True, text=True, env=environment())
        assert done.returncode == 0, done.stderr
        needed.append(int(done.stdout))
    assert needed[1] < needed[0] + 4_000, needed  # KiB


def test_records_that_are_too_large():
    """Ten thousand elements of one specification are kept, and no deep nesting."""
    period = "<validPeriod><startOfPeriod>2025-03-10T07:00:00</startOfPeriod></validPeriod>"
    text = "<validityTimeSpecification><overallStartTime>2025-01-01T00:00:00</overallStartTime>{}</validityTimeSpecification>"
    (found,) = datex.validities(io.BytesIO(document(text.format(period * 4_000)).encode()))
    assert found.fault is None and len(found.domains) == 32
    (found,) = datex.validities(io.BytesIO(document(text.format(period * 6_000)).encode()))
    assert found.fault is not None and found.fault.kind == "TooMany"
    with pytest.raises(gtd.Fault, match="levels") as raised:
        list(datex.validities(io.BytesIO(b"<a>\n" * 1_000_000)))
    assert (raised.value.kind, raised.value.line) == ("Xml", 129)


@pytest.mark.parametrize(
    "text, fault",
    [
        (b"", "Xml 1"),
        (b"<a>", "Xml 1"),
        (b"<!DOCTYPE a [<!ENTITY b 'c'>]><a>&b;</a>", "Doctype 1"),
        (b"<?xml version='1.0'?>\n<!DOCTYPE a SYSTEM 'http://example.org/a.dtd'>\n<a/>", "Doctype 2"),
        (b"<a>\n&b;</a>", "Xml 2"),
        (b"<a>\n<b></a>", "Xml 2"),
        (b"\xff\xfe<\x00a", "Xml 1"),
    ],
)
def test_what_is_no_publication(text, fault, monkeypatch):
    monkeypatch.setattr("socket.socket", None)  # nothing is fetched
    with pytest.raises(gtd.Fault) as refused:
        list(datex.validities(io.BytesIO(text), READING))
    assert f"{refused.value.kind} {refused.value.line}" == fault


@pytest.mark.parametrize(
    "text, fault",
    [
        (b"BEGIN:VCALENDAR\nMETHOD:CANCEL\nEND:VCALENDAR\n", "Method 2"),
        (b"BEGIN:VCALENDAR\nBEGIN:VEVENT\n", "Nesting 2"),
        (b"DTSTART:1\n", "Nesting 1"),
        (b"BEGIN:VEVENT\nEND:VEVENT\n", "Nesting 1"),
        (b"BEGIN:VCALENDAR\nBEGIN:VCALENDAR\n", "Nesting 2"),
        (b"BEGIN:VCALENDAR\nBEGIN:VEVENT\nBEGIN:VEVENT\n", "Nesting 3"),
        (b"BEGIN:VCALENDAR\n\xff\n", "Text 2"),
        (b"BEGIN:VCALENDAR\nhallo\n", "Line 2"),
        (b"BEGIN:VCALENDAR\nEND:VEVENT\n", "Nesting 2"),
    ],
)
def test_what_is_no_calendar(text, fault):
    with pytest.raises(gtd.Fault) as refused:
        list(ical.closures(text, EVENTS))
    assert f"{refused.value.kind} {refused.value.line}" == fault


PLACES = b"id,element,direction,vehicles\n"


@pytest.mark.parametrize(
    "data, fault",
    [
        (b"", "Header 1"),
        (b"id,element\n", "Header 1"),
        (PLACES + b"\na,1,both\n", "FieldCount 3"),
        (PLACES + b"a,1,both,0\n\xff,1,both,0\n", "Text 3"),
        (PLACES + b'a,1,both,0\n"a"b,1,both,0\n', "FieldCount 3"),
        (PLACES + b'"a\nb",1,both,0\na,1,both\n', "FieldCount 4"),
    ],
)
def test_what_is_no_table_of_places(data, fault):
    with pytest.raises(gtd.Fault) as refused:
        read_places(data, "places.csv")
    assert f"{refused.value.kind} {refused.value.line}" == fault and refused.value.file == "places.csv"


@pytest.mark.parametrize("row, fault", [("x,both,0", "Element"), ("7,forwards,0", "Direction"), ("7,both,lorries", "Vehicle")])
def test_places_that_no_record_file_has(row, fault):
    places = read_places(PLACES + f"a,7,both,0\n\na,{row}\n".encode(), "places.csv")
    with pytest.raises(gtd.Fault) as refused:
        write_records([Closure("a", ("(h5){h1}",))], places, "places.csv")
    assert (refused.value.kind, refused.value.line, refused.value.file) == (fault, 4, "places.csv")
    many = {"a": places["a"][:1] * 40_000}
    with pytest.raises(gtd.Fault, match="TooManyRows"):
        write_records([Closure("a", ("(h5){h1}", "(h6){h1}"))], many, "places.csv")


def test_names():
    assert read_names("element,name\r\n007,Grüner Markt\r\n".encode(), "names.csv") == {7: "Grüner Markt"}
    for row, fault in (("x,a\n", "Element 2"), ("7,a\n07,b\n", "Repeated 3"), ("\u0667,a\n", "Element 2")):
        with pytest.raises(gtd.Fault) as refused:
            read_names(f"element,name\n{row}".encode(), "names.csv")
        assert f"{refused.value.kind} {refused.value.line}" == fault
