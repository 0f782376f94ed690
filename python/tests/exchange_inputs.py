"""Random specifications of DATEX II, with a literal reading of the standard's words; random rules and calendars of iCalendar."""

import io
import xml.etree.ElementTree as tree
from calendar import isleap, monthrange
from collections import Counter
from datetime import datetime, timedelta
from typing import Dict, List, NamedTuple, Optional, Tuple

from dateutil.rrule import rrulestr

from gtd import datex
from tests import model_spans as spans

SPACE = "http://datex2.eu/schema/3/common"
NAMES = ["monday", "tuesday", "wednesday", "thursday", "friday", "saturday", "sunday"]
MONTHS = "january february march april may june july august september october november december".split()
NTHS = ["first", "second", "third", "fourth", "fifth", "last"]
CLOCKS = ["00:00:00", "05:00:00", "06:30:00", "09:00:00", "15:59:59", "20:00:00", "22:00:00", "24:00:00"]
DAYS = ["MO", "TU", "WE", "TH", "FR", "SA", "SU"]


# The reference: whether a second is valid, by the words of the standard.


class Period(NamedTuple):
    """A period, as it is written."""

    begin: Optional[datetime]
    end: Optional[datetime]
    times: List[Tuple[str, str]]
    dates: List[Dict[str, List[str]]]


def texts_of(node, name):
    return [child.text.strip() for child in node if child.tag.endswith("}" + name)]


def moment_in(node, name):
    return next(map(moment_of, texts_of(node, name)), None)


def moment_of(text):
    """A moment, whose clock time may be the end of the day."""
    day, clock = text.split("T")
    return datetime.fromisoformat(day) + timedelta(seconds=seconds_of(clock))


def seconds_of(clock):
    hour, minute, second = map(int, clock.split(":"))
    return hour * 3600 + minute * 60 + second


def period_of(node):
    times = [tuple(child.text.strip() for child in one) for one in node if one.tag.endswith("}recurringTimePeriodOfDay")]
    dates = [
        {name: texts_of(one, name) for name in ("applicableDay", "applicableMonth", "applicableInstanceOfDayWithinMonth")}
        for one in node
        if one.tag.endswith("}recurringDayWeekMonthPeriod")
    ]
    return Period(moment_in(node, "startOfPeriod"), moment_in(node, "endOfPeriod"), times, dates)


def is_day(dates, day):
    """Whether a day has one of the days, one of the months and one of the instances, where each is given."""
    is_last = (day + timedelta(days=7)).month != day.month
    here = {
        "applicableDay": {NAMES[day.weekday()]},
        "applicableMonth": {MONTHS[day.month - 1]},
        "applicableInstanceOfDayWithinMonth": {f"{NTHS[(day.day - 1) // 7]}Instance", "lastInstance" if is_last else ""},
    }
    return not dates or any(all(not one[name] or values & set(one[name]) for name, values in here.items()) for one in dates)


def in_period(period, at, night):
    """Whether a second is between start and end, at one of the times of day, and on one of the days."""
    if (period.begin and at < period.begin) or (period.end and at >= period.end):
        return False
    if not period.times:
        return is_day(period.dates, at)
    clock = at.strftime("%H:%M:%S")
    for first, until in period.times:
        until = "24:00:00" if until == "00:00:00" else until
        if first < until:
            if first <= clock < until and is_day(period.dates, at):
                return True
        elif clock >= first and is_day(period.dates, at):
            return True
        elif clock < until and is_day(period.dates, at if night == "within" else at - timedelta(days=1)):
            return True
    return False


def reference(text, night, first, until):
    """The valid spans. Validity changes only at the clock times and moments that are written, and at midnight."""
    specification = next(node for node in tree.fromstring(text).iter() if node.tag.endswith("}validityTimeSpecification"))
    start, end = moment_in(specification, "overallStartTime"), moment_in(specification, "overallEndTime")
    names = ("validPeriod", "exceptionPeriod")
    valid, exceptions = ([period_of(node) for node in specification if node.tag.endswith("}" + name)] for name in names)

    def is_valid(at):
        if at < start or (end and at >= end) or (valid and not any(in_period(period, at, night) for period in valid)):
            return False
        return not any(in_period(period, at, night) for period in exceptions)

    marks = sorted(mark for mark in marks_of(specification, first, until) if first <= mark <= until)
    return spans.united((spans.second(a), spans.second(b)) for a, b in zip(marks, marks[1:]) if is_valid(a))


def marks_of(specification, first, until):
    """Each moment that is written, and each clock time on each day."""
    values = [node.text.strip() for node in specification.iter() if node.text]
    clocks = {seconds_of(value) for value in values if ":" in value and "T" not in value} | {0}
    days = [first + timedelta(days=number) for number in range((until - first).days)]
    marks = {day + timedelta(seconds=clock) for day in days for clock in clocks}
    return marks | {first, until} | {moment_of(value) for value in values if "T" in value}


# Random specifications


def moment(maker, first, days):
    return first + timedelta(days=maker.randint(0, days), hours=maker.choice([0, 5, 7, 22]), minutes=maker.choice([0, 30]))


def period(maker, name, first, days):
    lines = [f"<{name}>"]
    begin = moment(maker, first, days)
    if maker.random() < 0.4:
        lines.append(f"<startOfPeriod>{begin.isoformat()}</startOfPeriod>")
        if maker.random() < 0.8:
            end = begin + timedelta(days=maker.randint(0, 90), hours=5)
            lines.append(f"<endOfPeriod>{end.isoformat()}</endOfPeriod>")
    for _ in range(maker.choice([0, 1, 1, 2])):
        clocks = maker.sample(CLOCKS, 2)
        if clocks[0] == "24:00:00":
            clocks.reverse()
        lines.append(
            f"<recurringTimePeriodOfDay><startTimeOfPeriod>{clocks[0]}</startTimeOfPeriod>"
            f"<endTimeOfPeriod>{clocks[1]}</endTimeOfPeriod></recurringTimePeriodOfDay>"
        )
    for _ in range(maker.choice([0, 0, 1, 1, 2])):
        parts = [
            ("applicableDay", maker.sample(NAMES, maker.choice([0, 1, 3, 5, 7]))),
            ("applicableMonth", maker.sample(MONTHS, maker.choice([0, 0, 1, 3, 6, 12]))),
            (
                "applicableInstanceOfDayWithinMonth",
                [f"{nth}Instance" for nth in maker.sample(NTHS, maker.choice([0, 0, 0, 1, 2, 5]))],
            ),
        ]
        dates = "".join(f"<{part}>{value}</{part}>" for part, values in parts for value in values)
        lines.append(f"<recurringDayWeekMonthPeriod>{dates}</recurringDayWeekMonthPeriod>")
    return "\n".join([*lines, f"</{name}>"])


def document(specification):
    return (
        f'<situation xmlns="{SPACE}"><situationRecord id="r1" version="1"><validity>'
        f"<validityStatus>definedByValidityTimeSpec</validityStatus>\n{specification}\n"
        "</validity></situationRecord></situation>"
    )


def random_specification(maker):
    first = datetime(2025, 1, 1) + timedelta(days=maker.randint(0, 200), hours=maker.choice([0, 7, 22]))
    lines = ["<validityTimeSpecification>", f"<overallStartTime>{first.isoformat()}</overallStartTime>"]
    if maker.random() < 0.8:
        end = first + timedelta(days=maker.randint(1, 300), hours=3)
        lines.append(f"<overallEndTime>{end.isoformat()}</overallEndTime>")
    lines += [period(maker, "validPeriod", first, 200) for _ in range(maker.choice([0, 1, 1, 2, 3]))]
    lines += [period(maker, "exceptionPeriod", first, 200) for _ in range(maker.choice([0, 0, 1, 2]))]
    return "\n".join([*lines, "</validityTimeSpecification>"])


def read(text, choices):
    """The one record of a document."""
    (found,) = datex.validities(io.BytesIO(text.encode()), choices)
    return found


# Random rules


def random_rule(maker, start):
    frequency = maker.choice(["DAILY", "WEEKLY", "WEEKLY", "MONTHLY", "MONTHLY", "YEARLY"])
    parts = [f"FREQ={frequency}"]

    def pick(some, most):
        return maker.sample(some, maker.randint(1, most))

    if maker.random() < 0.25:
        parts.append(f"INTERVAL={maker.choice([1, 2, 3, 4])}")
    if maker.random() < 0.35:
        parts.append("BYMONTH=" + ",".join(map(str, pick(range(1, 13), 5))))
    if frequency != "WEEKLY" and maker.random() < 0.4:
        parts.append("BYMONTHDAY=" + ",".join(map(str, pick([1, 2, 13, 15, 28, 29, 30, 31, -1, -2], 3))))
    if maker.random() < 0.6:
        days = pick(DAYS, 4)
        if frequency in ("MONTHLY", "YEARLY") and maker.random() < 0.5:
            days = [f"{maker.choice([1, 2, 3, 4, 5, -1, -2])}{day}" for day in days]
        parts.append("BYDAY=" + ",".join(days))
        if frequency in ("MONTHLY", "YEARLY") and maker.random() < 0.2:
            parts.append(f"BYSETPOS={maker.choice([1, 2, -1, 3])}")
    if frequency == "YEARLY" and maker.random() < 0.1:
        parts.append(f"BYYEARDAY={maker.choice([1, 60, 366, -1])}")
    if maker.random() < 0.3:
        parts.append(f"COUNT={maker.randint(1, 40)}")
    elif maker.random() < 0.5:
        parts.append(f"UNTIL={start + timedelta(days=maker.randint(0, 900)):%Y%m%dT%H%M%S}")
    maker.shuffle(parts)
    return ";".join(parts)


def may_have_instances(text, near):
    """Whether some day within eight years meets the parts of a rule."""
    parts = dict(part.split("=") for part in text.split(";"))
    wanted = abs(int(parts.get("BYSETPOS", "1")))
    met = Counter()
    for number in range(3000):
        day = near + timedelta(days=number)
        period = {"YEARLY": day.year - near.year, "MONTHLY": (day.year - near.year) * 12 + day.month - near.month}
        at = period.get(parts["FREQ"], 0)
        if at % int(parts.get("INTERVAL", "1")) == 0 and _meets(parts, day):
            met[at] += 1
            if met[at] >= wanted:
                return True
    return False


def _meets(parts, day):
    length, of_year = monthrange(day.year, day.month)[1], day.timetuple().tm_yday
    days_of_year = 365 + isleap(day.year)
    for name, here in (
        ("BYMONTH", {day.month}),
        ("BYMONTHDAY", {day.day, day.day - length - 1}),
        ("BYYEARDAY", {of_year, of_year - days_of_year - 1}),
    ):
        if name in parts and not here & set(map(int, parts[name].split(","))):
            return False
    in_month = parts["FREQ"] == "MONTHLY" or "BYMONTH" in parts
    at, last = (day.day, length) if in_month else (of_year, days_of_year)
    name = DAYS[day.weekday()]
    here = {name, f"{(at - 1) // 7 + 1}{name}", f"-{(last - at) // 7 + 1}{name}"}
    return "BYDAY" not in parts or bool(here & set(parts["BYDAY"].split(",")))


def first_instance(text, near):
    """The first instance of a rule from a moment on, if its series can begin there; else None."""
    if not may_have_instances(text, near):
        return None  # dateutil would look for one up to the year 9999
    start = next(iter(rrulestr(text, dtstart=near).xafter(near, count=1, inc=True)), None)
    if start is None or start.year > 2032 or next(iter(rrulestr(text, dtstart=start)), None) != start:
        return None
    return start


def event(*lines):
    """A calendar with one event."""
    return "\r\n".join(["BEGIN:VCALENDAR", "BEGIN:VEVENT", *lines, "END:VEVENT", "END:VCALENDAR", ""]).encode()
