"""Worked rows: a fragment and its domains, or its fault and line. Each row of domains is also compared with a reference."""

import io
from datetime import date, datetime, timedelta
from zoneinfo import ZoneInfo

import pytest
from dateutil.rrule import rrulestr

from gtd import datex, ical
from tests import model_spans as spans
from tests.exchange_inputs import MONTHS as NAMES
from tests.exchange_inputs import SPACE, event, reference

VIENNA = ZoneInfo("Europe/Vienna")
SHORT = {"O": "overall", "V": "validPeriod", "X": "exceptionPeriod"}
DAYS = dict(zip("mo tu we th fr sa su".split(), "monday tuesday wednesday thursday friday saturday sunday".split()))
MONTHS = {name[:3]: name for name in NAMES}


def document(text):
    """The XML of a row: ``O a b`` the overall period; ``V`` or ``X`` a valid or exception period with ``a..b``,
    ``T 20:00-05:00``, ``D mo,fr``, ``M apr``, ``I first``, ``W first``; anything in angle brackets as it is."""
    status, validity, lines = "definedByValidityTimeSpec", "", []
    for part in text.split("; "):
        kind, *words = part.split(" ")
        if kind == "status":
            status = words[0]
        elif kind == "validity":
            validity += words[0]
        elif kind == "O":
            lines += [f"<overall{name}Time>{word}</overall{name}Time>" for name, word in zip(("Start", "End"), words)]
        elif kind.startswith("<"):
            lines.append(part)
        else:
            lines.append(f"<{SHORT[kind]}>{period(words)}</{SHORT[kind]}>")
    return (f'<d2 xmlns="{SPACE}"><situationRecord id="r" version="1"><validity>\n'
            f"<validityStatus>{status}</validityStatus>\n"
            f"{validity}<validityTimeSpecification>\n" + "\n".join(lines)
            + "\n</validityTimeSpecification></validity></situationRecord></d2>")


def period(words):
    made, dates = "", ""
    for word, value in zip([*words, ""], [*words[1:], ""]):
        if ".." in word:
            first, until = word.split("..")
            made += f"<startOfPeriod>{first}</startOfPeriod>" if first else ""
            made += f"<endOfPeriod>{until}</endOfPeriod>" if until else ""
        elif word == "T":
            clocks = [clock if clock.count(":") > 1 else clock + ":00" for clock in value.split("-")]
            made += ("<recurringTimePeriodOfDay><startTimeOfPeriod>{}</startTimeOfPeriod>"
                     "<endTimeOfPeriod>{}</endTimeOfPeriod></recurringTimePeriodOfDay>").format(*clocks)
        elif word == "D":
            dates += "".join(f"<applicableDay>{DAYS[day]}</applicableDay>" for day in value.split(","))
        elif word == "M":
            dates += "".join(f"<applicableMonth>{MONTHS[month]}</applicableMonth>" for month in value.split(","))
        elif word == "W":
            dates += f"<applicableWeek>{value}WeekOfMonth</applicableWeek>"
        elif word == "I":
            name = "applicableInstanceOfDayWithinMonth"
            dates += "".join(f"<{name}>{nth}Instance</{name}>" for nth in value.split(","))
        elif word.startswith("<"):
            made += word
    return made + (f"<recurringDayWeekMonthPeriod>{dates}</recurringDayWeekMonthPeriod>" if dates else "")


ALL_DAYS, ALL_MONTHS = ",".join(DAYS), ",".join(MONTHS)
WEEK = "O 2025-03-10T00:00:00 2025-03-15T00:00:00; "
YEAR = "O 2025-01-01T00:00:00 2026-01-01T00:00:00; "
W, Y = "(y2025M3d10){d5}", "(y2025M1d1){d365}"
DATEX = [
    ("O 2025-03-10T07:00:00 2025-06-20T17:00:00", {}, "(y2025M3d10h7){d102h10}"),
    ("O 2025-03-10T07:00:00", {}, "(y2025M3d10h7){y100}"),
    ("O 2025-03-10T06:00:00Z 2025-06-20T15:00:00Z", {"zone": VIENNA}, "(y2025M3d10h7){d102h10}"),
    ("O 2025-03-10T07:00:00+01:00", {}, "Zone 4"),
    ("O 2025-03-10T07:00:00+02:00 2025-03-11T00:00:00", {"zone": VIENNA}, "(y2025M3d10h6){h18}"),
    ("O 2025-10-26T00:30:00Z", {"zone": VIENNA}, "Twice 4"),
    ("O 2025-10-26T00:00:00Z 2025-10-26T02:00:00Z", {"zone": VIENNA}, "(y2025M10d26h2){h1}"),
    ("O 2025-03-30T02:30:00 2025-03-30T04:00:00", {"zone": VIENNA}, "(y2025M3d30h2m30){h1m30}"),
    ("O 2025-03-10T24:00:00 2025-03-12T00:00:00.000", {}, "(y2025M3d11){d1}"),
    (WEEK + "V T 20:00-05:00", {}, W + "*(h20){h9}"),
    (WEEK + "V D mo,tu,we,th,fr T 07:00-17:00", {}, W + "*(t2t3t4t5t6h7){h10}"),
    (WEEK + "V D fr T 22:00-05:00", {}, "Night 6"),
    (WEEK + "V D fr T 22:00-05:00", {"night": "begins"}, W + "*(t6h22){h7}"),
    (WEEK + "V D fr T 22:00-05:00", {"night": "within"}, W + "*(t6){d1}*(h22){h7}"),
    (YEAR + "V M apr T 22:00-05:00", {"night": "begins"}, Y + "*(M4h22){h7}"),
    (YEAR + "V M jan,nov,mar,dec,feb", {}, Y + "*(M11){M5}"),
    (YEAR + "V M apr,jun", {}, Y + "*[(M4){M1}+(M6){M1}]"),
    (YEAR + f"V D {ALL_DAYS} M {ALL_MONTHS}", {}, Y),
    (YEAR + "V D mo I first", {}, Y + "*(f12){d1}"),
    (YEAR + "V D fr I last T 22:00-24:00", {}, Y + "*(l16h22){h2}"),
    (YEAR + "V D mo W first", {}, "Week 6"),
    (YEAR + "V D mo W first", {"weeks": "sevens"}, Y + "*(f12){d1}"),
    (YEAR + "V <recurringSpecialDay/>", {}, "SpecialDay 6"),
    (YEAR + "V 2025-03-10T07:00:00..2025-03-12T17:00:00; V 2025-04-01T07:00:00..2025-04-02T07:00:00", {},
     "(y2025M3d10h7){d2h10}+(y2025M4d1h7){d1}"),
    (WEEK + "V 2025-03-09T07:00:00..2025-03-12T17:00:00", {}, W + "*(y2025M3d9h7){d3h10}"),
    (WEEK + "V ..2025-03-12T00:00:00 T 08:00-09:00", {}, W + "*(y2025M3d10){d2}*(h8){h1}"),
    (YEAR + "X 2025-12-24T00:00:00..2025-12-27T00:00:00", {}, Y + "-(y2025M12d24){d3}"),
    (WEEK + "V 2025-04-01T00:00:00..2025-04-02T00:00:00; V T 08:00-09:00; X 2025-05-01T00:00:00..2025-05-02T00:00:00", {},
     W + "*(h8){h1}"),
    (WEEK + "V 2025-04-01T00:00:00..2025-04-02T00:00:00", {}, "Never 3"),
    (WEEK + "V 2025-03-12T00:00:00..2025-03-11T00:00:00", {}, "Order 6"),
    (YEAR + "X D su", {}, Y + "-(t1){d1}"),
    ("O 2025-03-10T07:00:00 2025-03-10T07:00:00", {}, "Order 3"),
    (WEEK + "V T 07:00-07:00", {}, "Order 6"),
    (WEEK + "V T 00:00-00:00", {}, W + "*(h0){d1}"),
    (WEEK + "V T 06:00-23:59:59", {}, W + "*(h6){h17m59s59}"),
    (WEEK + "V T 06:00-23:59:59", {"last_minute": "midnight"}, W + "*(h6){h18}"),
    (WEEK + "V T 22:00:00.000+01:00-23:00:00.000+01:00", {}, "Zone 6"),
    (WEEK + "V T 22:00:00.000+01:00-23:00:00.000+01:00", {"times": "written"}, W + "*(h22){h1}"),
    (WEEK + "V T 22:00:00.5-23:00", {}, "Fraction 6"),
    (WEEK + "status suspended", {}, "Status 2"),
    (WEEK + "status active", {}, W),
    (WEEK + "status active; V T 08:00-09:00", {}, "Status 2"),
    (WEEK + "V <periodExtension/>", {}, "Unknown 6"),
    (WEEK + "validity <overrunning>true</overrunning>", {}, "Overrunning 3"),
    (WEEK + "validity <overrunning>false</overrunning>", {}, W),
    (WEEK + "validity <validityExtension><a/></validityExtension>", {}, "Unknown 3"),
    ("V T 08:00-09:00", {}, "Missing 3"),
    (WEEK + "<overallEndTime>2025-03-11T00:00:00</overallEndTime>", {}, "Repeated 6"),
    ("O 1850-01-01T00:00:00", {}, "Range 4"),
    ("O 2025-01-01T00:00:00 2126-01-01T00:00:00", {}, "TooLong 3"),
    ("O 2025-02-29T00:00:00", {}, "Value 4"),
    (WEEK + "V <recurringDayWeekMonthPeriod><applicableDay>Monday</applicableDay></recurringDayWeekMonthPeriod>", {}, "Value 6"),
    (WEEK + "validity <validityStatus>planned</validityStatus>", {}, "Repeated 3"),
    (WEEK + "validity <overrunning>maybe</overrunning>", {}, "Value 3"),
    (WEEK + "V D mo W first I last", {"weeks": "sevens"}, "Week 6"),
    ("O 2025-03-10T07:00:00+01:99", {"zone": VIENNA}, "Value 4"),
    ("O 2025-03-10T07:00:00+14:30 2025-03-11T07:00:00", {"zone": VIENNA}, "(y2025M3d9h17m30){d1h13m30}"),
    ("O \u0662025-03-10T07:00:00", {}, "Value 4"),
    ("O 1901-01-01T00:00:00+14:00", {"zone": VIENNA}, "Range 4"),
    (WEEK + "V T 24:00-05:00", {}, "Value 6"),
    (WEEK + "X <recurringTimePeriodOfDay/>", {}, "Missing 6"),
    (WEEK + "V <startOfPeriod>2025-03-11T00:00:00<a/></startOfPeriod>", {}, "Value 6"),
    (YEAR + "V D mo I first,second,third,fourth,fifth", {}, Y + "*(t2){d1}"),
]


@pytest.mark.parametrize("text,choices,expected", DATEX)
def test_datex(text, choices, expected):
    (found,) = datex.validities(io.BytesIO(document(text).encode()), datex.Choices(**choices))
    said = " and ".join(found.domains) if found.fault is None else f"{found.fault.kind} {found.fault.line}"
    assert said == expected, found
    is_literal = not choices.keys() - {"night"} and "24:00:00 2025" not in text
    if found.fault is None and is_literal:
        first, until = datetime(2025, 1, 1), datetime(2026, 2, 1)
        wanted = reference(document(text), choices.get("night", "within"), first, until)
        assert spans.of_texts(found.domains, first, until) == wanted


SATURDAY = "DTSTART:20250301T050000; DURATION:PT10H; "
A = "(y2025M3d1h5){y100}"
ICAL = [
    (SATURDAY + "RRULE:FREQ=WEEKLY;BYDAY=SA", {}, [A + "*(t7h5){h10}"]),
    (SATURDAY + "RRULE:FREQ=WEEKLY", {}, [A + "*(t7h5){h10}"]),
    ("DTSTART:20250303T220000; DTEND:20250304T060000; RRULE:FREQ=DAILY;UNTIL=20250307T220000", {},
     ["(y2025M3d3h22){d4h8}*(h22){h8}"]),
    ("DTSTART:20250303T220000; DTEND:20250304T060000; RRULE:FREQ=DAILY;COUNT=5", {}, ["(y2025M3d3h22){d4h8}*(h22){h8}"]),
    ("DTSTART:20250303T070000; DURATION:PT2H; RRULE:FREQ=WEEKLY;BYDAY=MO,TU,WE,TH,FR", {},
     ["(y2025M3d3h7){y100}*(t2t3t4t5t6h7){h2}"]),
    ("DTSTART:20250407T090000; DURATION:PT3H; RRULE:FREQ=MONTHLY;BYDAY=1MO", {}, ["(y2025M4d7h9){y100}*(f12h9){h3}"]),
    ("DTSTART:20250407T090000; DURATION:PT3H; RRULE:FREQ=MONTHLY;BYDAY=MO;BYSETPOS=1", {}, ["(y2025M4d7h9){y100}*(f12h9){h3}"]),
    ("DTSTART:20250425T220000; DURATION:PT2H; RRULE:FREQ=MONTHLY;BYDAY=-1FR", {}, ["(y2025M4d25h22){y100}*(l16h22){h2}"]),
    ("DTSTART:20250131T080000; DURATION:PT1H; RRULE:FREQ=MONTHLY", {}, ["(y2025M1d31h8){y100}*(d31h8){h1}"]),
    ("DTSTART;VALUE=DATE:20250131; RRULE:FREQ=MONTHLY;BYMONTHDAY=-1;UNTIL=20250401", {},
     ["(y2025M1d31){d1}+(y2025M2d28){d1}+(y2025M3d31){d1}"]),
    ("DTSTART;VALUE=DATE:20250131; RRULE:FREQ=MONTHLY;BYMONTHDAY=-1", {}, "Rule 5"),
    ("DTSTART;VALUE=DATE:20250131; RRULE:FREQ=MONTHLY;BYMONTHDAY=-1", {"until": date(2025, 3, 1)},
     ["(y2025M1d31){d1}+(y2025M2d28){d1}"]),
    ("DTSTART;VALUE=DATE:20251224; DTEND;VALUE=DATE:20251227; RRULE:FREQ=YEARLY", {}, ["(y2025M12d24){y100}*(M12d24){d3}"]),
    ("DTSTART:20250615T100000; DURATION:PT8H; RRULE:FREQ=YEARLY;BYMONTH=6;BYDAY=3SU", {},
     ["(y2025M6d15h10){y100}*(M6f31h10){h8}"]),
    ("DTSTART:20250519T100000; DURATION:PT8H; RRULE:FREQ=YEARLY;BYDAY=20MO", {}, "Rule 6"),
    (SATURDAY + "RRULE:FREQ=WEEKLY;INTERVAL=2;BYDAY=SA;COUNT=3", {},
     ["(y2025M3d1h5){h10}+(y2025M3d15h5){h10}+(y2025M3d29h5){h10}"]),
    ("DTSTART:20250501T100000; DURATION:PT1H; RRULE:FREQ=DAILY;BYMONTH=5", {}, ["(y2025M5d1h10){y100}*(M5h10){h1}"]),
    ("DTSTART:20250501T000000; DURATION:PT1H; RRULE:FREQ=DAILY;BYMONTH=5", {}, ["(y2025M5d1){y100}*(M5h0){h1}"]),
    ("DTSTART;VALUE=DATE:20250613; RRULE:FREQ=MONTHLY;BYMONTHDAY=13;BYDAY=FR", {}, ["(y2025M6d13){y100}*(d13t6){d1}"]),
    (SATURDAY + "RRULE:FREQ=WEEKLY; EXDATE:20251227T050000", {}, [A + "*(t7h5){h10}-(y2025M12d27h5){h10}"]),
    (SATURDAY + "RRULE:FREQ=WEEKLY; EXDATE:20251228T050000", {}, [A + "*(t7h5){h10}"]),
    (SATURDAY + "RRULE:FREQ=WEEKLY; EXDATE;VALUE=DATE:20251227", {}, "Value 7"),
    (SATURDAY + "RRULE:FREQ=WEEKLY; RDATE:20250305T050000", {}, [A + "*(t7h5){h10}", "(y2025M3d5h5){h10}"]),
    (SATURDAY + "RRULE:FREQ=WEEKLY; END:VEVENT; BEGIN:VEVENT; UID:a; RECURRENCE-ID:20250308T050000; DTSTART:20250307T060000;"
     " DTEND:20250307T160000", {}, [A + "*(t7h5){h10}-(y2025M3d8h5){h10}", "(y2025M3d7h6){h10}"]),
    (SATURDAY + "RRULE:FREQ=WEEKLY; END:VEVENT; BEGIN:VEVENT; UID:a; RECURRENCE-ID:20250308T050000; DTSTART:20250308T050000;"
     " STATUS:CANCELLED", {}, [A + "*(t7h5){h10}-(y2025M3d8h5){h10}"]),
    (SATURDAY + "RRULE:FREQ=WEEKLY; END:VEVENT; BEGIN:VEVENT; UID:a; RECURRENCE-ID;RANGE=THISANDFUTURE:20250308T050000;"
     " DTSTART:20250307T060000", {}, "Range 10"),
    ("DTSTART;TZID=Europe/Vienna:20250301T050000; DURATION:PT10H; RRULE:FREQ=WEEKLY", {"zone": VIENNA}, [A + "*(t7h5){h10}"]),
    ("DTSTART;TZID=Europe/London:20250301T050000; DURATION:PT10H; RRULE:FREQ=WEEKLY", {"zone": VIENNA}, "Zone 4"),
    ("DTSTART;TZID=W. Europe Standard Time:20250301T050000; DURATION:PT10H",
     {"zone": VIENNA, "zone_names": ("W. Europe Standard Time",)},
     ["(y2025M3d1h5){h10}"]),
    ("DTSTART:20250310T060000Z; DTEND:20250620T150000Z", {"zone": VIENNA}, ["(y2025M3d10h7){d102h10}"]),
    ("DTSTART:20250310T060000Z; DURATION:PT1H; RRULE:FREQ=DAILY", {"zone": VIENNA}, "Zone 6"),
    ("DTSTART;TZID=Europe/Vienna:20250303T220000; DURATION:PT8H; RRULE:FREQ=DAILY;UNTIL=20250307T210000Z", {"zone": VIENNA},
     ["(y2025M3d3h22){d4h8}*(h22){h8}"]),
    ("DTSTART:20250302T050000; DURATION:PT10H; RRULE:FREQ=WEEKLY;BYDAY=SA", {}, "Start 6"),
    ("DTSTART:20250302T050000; DURATION:PT1H; RRULE:FREQ=HOURLY", {}, "Rule 6"),
    ("DTSTART:20250302T050000; DURATION:PT1H; RRULE:FREQ=DAILY;BYHOUR=5,9", {}, "Rule 6"),
    ("DTSTART:20250313T050000; DURATION:PT1H; RRULE:FREQ=YEARLY;BYMONTHDAY=13", {}, "Rule 6"),
    ("DTSTART:20250303T050000; DURATION:PT1H; RRULE:FREQ=YEARLY;BYWEEKNO=10", {}, "Rule 6"),
    ("DTSTART:20250302T050000", {}, "Length 4"),
    ("DTSTART:20250302T050000; DTEND:20250302T060000; DURATION:PT1H", {}, "Repeated 6"),
    ("DTSTART;VALUE=DATE:20250301; DURATION:P3D; RRULE:FREQ=DAILY;COUNT=4; EXDATE;VALUE=DATE:20250302", {},
     ["(y2025M3d1){d3}+(y2025M3d3){d3}+(y2025M3d4){d3}"]),
    ("DTSTART:20250301T05\n 0000; DURATION:PT; RRULE:FREQ=WEEKLY", {}, "Length 6"),
    ("DTSTART:20250301T250000; DURATION:PT1H", {}, "Value 4"),
    (SATURDAY + "RRULE:FREQ=WEEKLY;INTERVAL=2", {"until": date(2025, 3, 29)}, ["(y2025M3d1h5){h10}+(y2025M3d15h5){h10}"]),
    (SATURDAY + "RRULE:FREQ=WEEKLY;INTERVAL=2", {"until": date(2025, 3, 30)},
     ["(y2025M3d1h5){h10}+(y2025M3d15h5){h10}+(y2025M3d29h5){h10}"]),
    (SATURDAY + "RRULE:FREQ=WEEKLY;INTERVAL=2", {"until": date(2125, 6, 1)}, "TooLong 6"),
    (SATURDAY + "RRULE:FREQ=WEEKLY;INTERVAL=2", {"until": date(2025, 1, 1)}, []),
    (SATURDAY + "RRULE:FREQ=WEEKLY;UNTIL=20250222T050000", {}, "Start 6"),
    (SATURDAY + "RRULE:FREQ=WEEKLY;UNTIL=20250308", {}, ["(y2025M3d1h5){d7h10}*(t7h5){h10}"]),
    (SATURDAY + "RRULE:FREQ=WEEKLY; STATUS:CANCELLED", {}, []),
    (SATURDAY + "EXRULE:FREQ=WEEKLY", {}, "Rule 6"),
    ("DTSTART;VALUE=DATE:20250301T050000; DURATION:PT1H", {}, "Value 4"),
    ("DTSTART;VALUE=DATE:20250301; DTEND:20250302T050000", {}, "Value 5"),
    ("DTSTART;TZID=Europe/Vienna:20250301T050000Z; DURATION:PT1H", {"zone": VIENNA}, "Value 4"),
    ("DTSTART:20250330T000000Z; DURATION:PT3H", {"zone": VIENNA}, ["(y2025M3d30h1){h4}"]),
    ("DTSTART:20250301T050000Z; DURATION:PT3H; RDATE:20250302T050000Z", {"zone": VIENNA}, "Zone 6"),
    ("DTSTART:20250301T050000; DURATION:P999999999W", {}, "Length 5"),
    ("DTSTART:\u0662025301T050000; DURATION:PT1H", {}, "Value 4"),
    (SATURDAY + "RRULE:FREQ=WEEKLY;COUNT=2;UNTIL=20250401T000000", {}, "Rule 6"),
    (SATURDAY + "RRULE:FREQ=WEEKLY;BYDAY=1SA", {}, "Rule 6"),
    ("DTSTART:20251006T050000; DURATION:PT1H; RRULE:FREQ=MONTHLY;BYDAY=53MO", {}, "Rule 6"),
    ("DTSTART:20251006T050000; DURATION:PT1H; RRULE:FREQ=YEARLY;BYMONTH=10;BYDAY=-6MO", {}, "Rule 6"),
    ("DTSTART:20251006T050000; DURATION:PT1H; RRULE:FREQ=YEARLY;BYDAY=54MO", {}, "Rule 6"),
    (SATURDAY + "RRULE:FREQ=WEEKLY; END:VEVENT; BEGIN:VEVENT; UID:a; RECURRENCE-ID:20250308T050000; DTSTART:20250307T060000;"
     " DURATION:PT1H; END:VEVENT; BEGIN:VEVENT; UID:a; RECURRENCE-ID:20250308T050000; DTSTART:20250309T060000; DURATION:PT1H",
     {}, "Repeated 16"),
]


@pytest.mark.parametrize("text,choices,expected", ICAL)
def test_ical(text, choices, expected):
    data = event("UID:a", *text.split("; ")).replace(b"T05\n ", b"T05\r\n ")
    (found,) = ical.closures(data, ical.Choices(**choices))
    said = list(found.domains) if found.fault is None else f"{found.fault.kind} {found.fault.line}"
    assert said == expected, found
    rule = next((part[6:] for part in text.split("; ") if part.startswith("RRULE")), None)
    # To dateutil, an UNTIL that is a date is its midnight.
    is_plain = all(word not in text for word in ("EXDATE", "RECURRENCE", "Z", "UNTIL=20250308"))
    if found.domains and rule and is_plain:
        check_with_dateutil(found.domains, text, rule, choices.get("until", date(2029, 1, 1)))


def check_with_dateutil(domains, text, rule, until):
    """Compare domains with the instances of their rule, each of which lasts as long as the first."""
    value = text.split("; ")[0].split(":")[1]
    start = datetime.strptime(value if "T" in value else value + "T000000", "%Y%m%dT%H%M%S")
    until = datetime(until.year, until.month, until.day)
    begins = rrulestr(rule, dtstart=start).between(start, until - timedelta(seconds=1), inc=True)
    begins += [datetime(2025, 3, 5, 5)] * ("RDATE" in text)
    first, end = spans.of_texts(["(y2025M1d1){y100}*" + domains[0].split("+")[0]], start, start + timedelta(days=9))[0]
    wanted = spans.united((spans.second(one), spans.second(one) + end - first) for one in begins)
    ends = spans.second(start), spans.second(until)
    assert spans.of_texts(domains, start, until) == spans.within(wanted, *ends)
