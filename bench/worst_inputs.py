"""The inputs that cost `gtd` and `gtdesk` most, each for a loop of the programs: commands, and files made in a temporary
folder."""
import datetime
import os
from typing import NamedTuple

MOST_BYTES = 16_777_216
MOST_ROWS = 65_536
MOST_BASIC = 128
MOST_BRACKETS = 128
MOST_WORD = 131_071  # bytes of one word of a command line, in Linux
HEADER = "element,direction,vehicle,domain\n"
LISTS = "element,direction,vehicles,domain\n"
MOMENT = "2024-01-01T00:00:30"
DAY = ("2024-01-01", "2024-01-02")
WEEK = ("2024-01-01", "2024-01-08")
YEAR = ("2024-01-01", "2025-01-01")
DECADE = ("2024-01-01", "2034-01-01")
LONGEST = ("2024-01-01", "2424-01-02")
DAYS = {DAY: 1, YEAR: 366, DECADE: 3_653, LONGEST: 146_098}
LOOKBACK = 36_600  # the days of the longest duration
FULL = "(s0){y100}"
NEVER = "(f11d8){y100}"  # the first Sunday of a month is never its eighth day


class Case(NamedTuple):
    """A command; what it goes over one by one and how many, if these are so many that they decide its time; its program; and a
    file that it reads from standard input."""
    name: str
    words: list
    counted: int = 0
    what: str = ""
    program: str = "gtd"
    given: str = os.devnull


def desk(name, words, counted=0, what=""):
    """A command of the program for people."""
    return Case(f"gtdesk {words[0]}, {name}", words, counted, what, "gtdesk")


class Folder:
    """Where the files are made."""

    def __init__(self, path):
        self.path = path

    def file(self, name, text):
        path = os.path.join(self.path, name)
        with open(path, "w", encoding="ascii", newline="") as file:
            file.write(text)
        return path

    def rows(self, name, domains):
        """Version 1: one row for each domain, all of one element."""
        return self.file(name, HEADER + "".join(f"1,both,0,{domain}\n" for domain in domains))

    def elements(self, name, domains):
        """Version 1: one element for each domain."""
        return self.file(name, HEADER + "".join(f"{n},both,0,{domain}\n" for n, domain in enumerate(domains)))

    def field(self, name, front, unit, head=HEADER):
        """A file of the greatest size: a head, a front, and as many units as fit."""
        count = (MOST_BYTES - len(head) - len(front)) // len(unit)
        return self.file(name, head + front + unit * count)


def joined(parts, signs="+"):
    """The parts with the signs between them in turn, taken from left to right."""
    text = parts[0]
    for place, part in enumerate(parts[1:]):
        text += signs[place % len(signs)] + part
    return text


def nested(parts, signs="+"):
    """The same with each right side in brackets."""
    text = parts[-1]
    for place, part in enumerate(reversed(parts[:-1])):
        text = f"{part}{signs[place % len(signs)]}[{text}]"
    return text


def clock_starts(count, step):
    """Basic domains of one second each, `step` seconds apart, by clock time."""
    clocks = [step * n for n in range(count)]
    return [f"(h{c // 3600}m{c // 60 % 60}s{c % 60}){{s1}}" for c in clocks]


def hour_starts(count):
    """Basic domains of one second of each hour, none touching another."""
    return [f"(m{2 * n // 60}s{2 * n % 60}){{s1}}" for n in range(count)]


def minute_starts(count):
    """Basic domains of one second of each minute: thirty that do not touch, and then the same again."""
    return [f"(s{2 * n % 60}){{s1}}" for n in range(count)]


def schedule(file, days):
    return ["schedule", file, *days, "11"]


def year(file):
    return ["year", file, "1", "positive", "11", "2024"]


def asked(text, name, counted=0, what=""):
    """The commands that look for a change, and the one that asks about a moment."""
    yield Case(f"next, {name}", ["next", text, MOMENT, LONGEST[1]], counted, what)
    yield Case(f"ever, {name}", ["ever", text, MOMENT], counted, what)
    yield Case(f"at, {name}", ["at", text, MOMENT])


def domains():
    """Commands whose work is that of one domain."""
    yield from asked(f"[{FULL}]", "each minute begins a century")
    yield from asked(joined([FULL] * MOST_BASIC, "+*-"), "128 of these joined by + * - in turn")
    yield from asked(nested([FULL] * MOST_BASIC, "+*-"), "128 of these nested by + * - in turn")
    looked = MOST_BASIC * (DAYS[LONGEST] + LOOKBACK)
    yield from asked(joined([NEVER] * MOST_BASIC), "128 that begin on no day", looked, "days")
    yield from asked(joined(["(M2d30){y100}"] * MOST_BASIC), "128 on 30 February")
    yield from asked(joined(["(M2d29t1){d1}"] * MOST_BASIC), "128 on a Sunday that is 29 February")
    always = DAYS[LONGEST] * MOST_BASIC
    for start in ("(h0){h24}", "(m0){h1}", "(s0){m1}"):
        yield Case(f"next, 128 of {start}", ["next", joined([start] * MOST_BASIC), MOMENT, LONGEST[1]], always, "days")
    yield from taken_away()


def taken_away():
    """Domains of which nothing remains, so that each span is looked at."""
    yield Case("ever, each minute's first second less itself", ["ever", "[(s0){s1}]-[(s0){s1}]", MOMENT])
    yield from taken_on_few_days()
    seconds = [f"(s{n % 60}){{s1}}" for n in range(MOST_BASIC - 1)]
    for name, text in (
        ("their union", f"(s0){{m1}}-[{joined(seconds)}]"),
        ("each in turn", joined(["(s0){m1}", *seconds], "-")),
    ):
        yield Case(f"ever, a minute less 127 seconds, {name}", ["ever", text, MOMENT])
        spans = (MOST_BASIC - 1) * 1440 * DAYS[YEAR]
        yield Case(f"next, a minute less 127 seconds, {name}, a year", ["next", text, MOMENT, YEAR[1]], spans, "spans")


def taken_on_few_days():
    """The same with a part that gives a date, so that 400 years are looked at and not a week."""
    spans = 2 * 1440 * DAYS[LONGEST]
    for name, text in (
        ("less itself", "[(s0){s1}]-[(s0){s1}]-[(M2d29){d1}]"),
        ("and its second one", "[(s0){s1}]*[(s1){s1}]*[(M2d29){d1}]"),
    ):
        yield Case(f"ever, each minute's first second {name}, on 29 February", ["ever", text, MOMENT], spans, "spans")
    for name, date in (("29 February", "(M2d29){d1}"), ("February", "(M2){M1}")):
        between = f"[[{joined(minute_starts(30))}]*[{date}]]*[(s1){{s1}}]"
        yield Case(f"ever, even seconds of a {name} that are odd", ["ever", between, MOMENT])
    for name, text in (
        ("even seconds", joined(minute_starts(30))),
        ("two hours of each day", "(h5){h1}+(h7){h1}"),
    ):
        never = f"[{text}]*[(M2d29){{d1}}]*[(M3d1){{d1}}]"
        yield Case(f"ever, {name} of a 29 February that is 1 March", ["ever", never, MOMENT])


def compared():
    """Pairs of domains that are the same, or nearly so, for 400 years."""
    second, never, often = "(s0){s1}", "(M2d30){d1}", "(M5d1){d1}"
    seconds = joined([f"(s{n}){{s1}}" for n in range(60)])
    minutes = joined([f"(m{n}){{m1}}" for n in range(60)])
    dates = joined([f"(M{1 + n % 12}d{1 + n % 28}h{n % 24}){{h2}}" for n in range(40)])
    for name, text, taken in (
        ("each minute's first second", second, ""),
        ("each minute's first second less a date", second, often),
        ("each minute's first second less one of each month", second, "(d1){d1}"),
        ("60 seconds of each minute", seconds, ""),
        ("60 seconds of each minute less a date", seconds, often),
        ("60 minutes of each hour", minutes, ""),
        ("60 minutes of each hour less a date", minutes, often),
        ("40 dates", dates, ""),
        ("half hours in May", "(M5m0){m30}", ""),
        ("each minute's first second in February", "(M2s0){s1}", ""),
        ("each minute's first second on a Monday less a date", "(t2s0){s1}", often),
    ):
        one, other = f"[{text}]", f"[{text}]-{never}"
        if taken:
            one, other = f"{one}-{taken}", f"[{other}]-{taken}"
        yield desk(f"{name}, and less 30 February", ["same", one, other])
    for name, parts in (
        ("64 seconds of each minute in February", [f"(M2s{n % 60}){{s1}}" for n in range(64)]),
        ("64 dates with a second of each minute", [f"(M{1 + n % 12}d{1 + 7 * n % 28}s0){{s1}}" for n in range(64)]),
        ("64 days of the month with a second of each minute", [f"(d{1 + n % 31}s{7 * n % 60}){{s1}}" for n in range(64)]),
        ("64 weekdays with a second of each minute", [f"(t{1 + n % 7}s{7 * n % 60}){{s1}}" for n in range(64)]),
        ("64 weekdays of a month with a second of each minute",
         [f"(t{1 + n % 7}M{1 + n % 12}s{7 * n % 60}){{s1}}" for n in range(64)]),
        ("64 months with a minute of each hour", [f"(M{1 + n % 12}m{7 * n % 60}){{m1}}" for n in range(64)]),
    ):
        one = f"[{joined(parts)}]"
        yield desk(f"{name}, and less 30 February", ["same", one, f"{one}-{never}"])


def words():
    """Long words, and many."""
    for sign in "+[( 9":
        yield Case(f"check, {MOST_WORD:,} bytes of '{sign}'", ["check", sign * MOST_WORD])
    weekdays = "(" + "t1" * (MOST_WORD // 2 - 4) + "){h1}"
    yield Case("canon, a weekday given 65,531 times", ["canon", weekdays])
    for name, form in (("joined", joined), ("nested", nested)):
        yield Case(f"canon, 128 {name}", ["canon", form([FULL] * MOST_BASIC, "+*-")])
    yield Case("100,000 words", ["check", *["a"] * 100_000])
    yield Case("a file that never ends", schedule("/dev/zero", DAY))


def one_row(folder):
    """Files of one or a few rows, whose domains have many starts."""
    few = folder.rows("few", [FULL] * 20)
    yield Case("20 rows that each minute begin a century, a day", schedule(few, DAY))
    many = folder.rows("many", [joined([FULL] * MOST_BASIC)])
    yield Case("128 of these in one row, a day", schedule(many, DAY))
    yield Case("128 of these in one row, the year's table", year(many))
    yield from seconds_apart(folder)


def seconds_apart(folder):
    """Files of one row with 128 basic domains of one second each. Each direction has a line for each second."""
    for name, starts, daily in (
        ("day", clock_starts(MOST_BASIC, 600), 1),
        ("hour", hour_starts(MOST_BASIC), 24),
        ("minute", minute_starts(MOST_BASIC), 1440),
    ):
        file = folder.rows(name, [joined(starts)])
        spans = MOST_BASIC * daily
        yield Case(f"128 seconds of each {name}, the year's table", year(file), spans * DAYS[YEAR], "spans")
        for span, days in (("ten years", DECADE), ("400 years", LONGEST)):
            if name != "minute" or days == DECADE:
                counted = 2 * spans * DAYS[days]
                yield Case(f"128 seconds of each {name}, {span}", schedule(file, days), counted, "spans")


def one_element(folder):
    """Files with all rows of one element."""
    apart = folder.rows("apart", clock_starts(43_200, 2))
    yield Case("one element, 43,200 rows, each a second, a day", schedule(apart, DAY))
    yield Case("one element, 43,200 rows, each a second, the year's table", year(apart), 43_200 * DAYS[YEAR], "spans")
    yield Case("one element, 65,536 rows without a domain, a day", schedule(folder.rows("always", [""] * MOST_ROWS), DAY))
    yield Case("one element, 65,536 rows of one domain, a day", schedule(folder.rows("same", ["(h7){h2}"] * MOST_ROWS), DAY))
    last = folder.rows("last", ["(h7){h2}"] * (MOST_ROWS - 1) + [""])
    yield Case("one element, 65,535 rows of one domain and the last without, a day", schedule(last, DAY))
    leap = folder.rows("leap_rows", ["(M2d29){y8}"] * MOST_ROWS)
    yield Case("one element, 65,536 rows from 29 February on, a day", schedule(leap, DAY))
    yield Case("one element, 65,536 rows from 29 February on, the year's table", year(leap))


    dense = ["(s0){s1}"] * (MOST_ROWS - 1) + ["(M5d1){d1}"]
    all_dense = folder.rows("dense", dense)
    yield Case("one element, 65,535 rows of each minute's first second and a date, a day", schedule(all_dense, DAY))
    fewer = folder.rows("fewer_dense", dense[-16_385:])
    yield Case("one element, 16,384 of these and a date, a week", schedule(fewer, WEEK))
    minutes = folder.rows("minutes", [f"(s{n % 60}){{s1}}" for n in range(MOST_ROWS)])
    yield Case("one element, 65,536 rows, each a second of each minute, a day", schedule(minutes, DAY))
    packed = folder.rows("packed_rows", [joined(["(f11d8){y99}"] * 89)] * 14_000)
    yield Case("one element, 14,000 rows of 89 basic domains that begin on no day, a day", schedule(packed, DAY))


def hashed(state, text):
    """The hash of a text after others, as `gtd` counts it (that of FNV, from 0)."""
    for byte in text.encode("ascii"):
        state = (state ^ byte) * 16_777_619 & 0xFFFF_FFFF
    return state


def pair_of_one_hash(state):
    """Two basic domains that have one hash after a text of this hash."""
    found = {}
    for day in range(1, 32):
        for minute in range(1_440):
            front = f"(d{day}h{minute // 60}m{minute % 60}s"
            before = hashed(state, front)
            for second in range(60):
                end = hashed(before, str(second))
                piece = front + f"{second}){{h1}}"
                if end in found:
                    return found[end], piece
                found[end] = piece
    raise ValueError("no two basic domains have one hash")


def texts_of_one_hash(count):
    """2^count domain texts that all have one hash, of so many basic domains and one more."""
    texts, state = [""], 0
    for _ in range(count):
        pair = pair_of_one_hash(state)
        texts = [f"{text}{basic}+" for text in texts for basic in pair]
        state = hashed(state, pair[0] + "+")
    return [text + "(h5){h1}" for text in texts]


def cursors(folder):
    """Files whose elements are closed alike, or nearly so: a schedule opens a cursor again for them, or not."""
    clocks = [f"(h{n // 3600}m{n // 60 % 60}s{n % 60}){{h2}}" for n in range(MOST_ROWS)]
    alike = folder.elements("alike", ["(h7){h2}"] * MOST_ROWS)
    yield Case("65,536 elements closed alike, a week", schedule(alike, WEEK))
    yield Case("65,536 elements closed unlike all others, a week", schedule(folder.elements("none_alike", clocks), WEEK))
    for turns in (2, 1_024, 1_025):
        text = folder.elements(f"turns_{turns}", [clocks[n % turns] for n in range(MOST_ROWS)])
        yield Case(f"65,536 elements closed in {turns:,} ways by turns, a week", schedule(text, WEEK))
    texts = texts_of_one_hash(4)
    one_hash = folder.elements("one_hash", [texts[n % len(texts)] for n in range(MOST_ROWS)])
    yield Case("65,536 elements, 16 texts of one hash by turns, a day", schedule(one_hash, DAY))
    for count in (32, 33):
        rows = [joined(clock_starts(count, 600 + n % 2)) for n in range(16_384)]
        yield Case(f"16,384 elements of {2 * count} nodes, closed in two ways by turns, a day",
                   schedule(folder.elements(f"nodes_{count}", rows), DAY))
    rows = [(0, clock) for clock in clocks[:MOST_ROWS // 2]] + [(n + 1, "(h7){h2}") for n in range(MOST_ROWS // 2)]
    text = HEADER + "".join(f"{element},both,0,{domain}\n" for element, domain in rows)
    yield Case("32,768 rows of one element beside 32,768 elements, a week", schedule(folder.file("beside", text), WEEK))
    text = HEADER + "".join(f"{n},positive,0,{clocks[n % 7]}\n{n},negative,0,{clocks[n % 5]}\n" for n in range(MOST_ROWS // 2))
    yield Case("32,768 elements closed otherwise in each direction, a week", schedule(folder.file("otherwise", text), WEEK))


def many_elements(folder):
    """Files with one row for each element, whose starts are rare.

    If the days looked at decide the time, there are fewer rows than a file can have, since the time is linear in them."""
    leap = folder.elements("leap", ["(M2d29){y8}"] * MOST_ROWS)
    yield Case("65,536 elements from 29 February on, a day", schedule(leap, DAY))
    full = folder.elements("full", [FULL] * MOST_ROWS)
    yield Case("65,536 elements that each minute begin a century, a day", schedule(full, DAY))
    never = folder.elements("never", [NEVER] * 4096)
    yield Case("4,096 elements that begin on no day, a day", schedule(never, DAY), 2 * 4096 * LOOKBACK, "days")
    weeks = folder.elements("weeks", [f"(y{2024 + n % 100}w{1 + n % 52}){{d1}}" for n in range(MOST_ROWS)])
    yield Case("65,536 elements with a week of a year, 400 years", schedule(weeks, LONGEST))
    dates = folder.elements("dates", [f"(y{2024 + n % 400}M5d1){{d1}}" for n in range(MOST_ROWS)])
    yield Case("65,536 elements with a date, 400 years", schedule(dates, LONGEST))
    always = folder.elements("always_day", ["(h0){h24}"] * 512)
    joins = 2 * 512 * DAYS[LONGEST]
    yield Case("512 elements that are always closed, day by day, 400 years", schedule(always, LONGEST), joins, "days")
    packed = folder.elements("packed", [joined(["(f11d8){y9}"] * 20)] * 4096)
    looked = 2 * 20 * 4096 * 9 * 366
    yield Case("4,096 elements, each with 20 of these, a day", schedule(packed, DAY), looked, "days")
    yearly = folder.elements("yearly", [joined(["(M5d1){y1}"] * 20)] * 4096)
    looked = 2 * 20 * 4096 * 245
    yield Case("4,096 elements, each with 20 stretches of a year, a day", schedule(yearly, DAY), looked, "days")
    hours = folder.elements("hours", [joined(["(h7){h2}"] * 26)] * MOST_ROWS)
    yield Case("65,536 elements, 26 basic domains in each row, a day", schedule(hours, DAY))
    yield Case("65,536 elements, 26 basic domains in each row, migrated", ["migrate", hours])
    clocks = [f"(h{n // 3600}m{n // 60 % 60}s{n % 60}){{h2}}" for n in range(MOST_ROWS)]
    unlike = folder.elements("unlike", [joined(["(h7){h2}"] * 25 + [clock]) for clock in clocks])
    yield Case("65,536 elements, 26 basic domains in each row, no row like another, a day", schedule(unlike, DAY))
    deep = folder.elements("deep", ["[" * 110 + "(h7){h2}" + "]" * 110] * MOST_ROWS)
    yield Case("65,536 elements, 110 brackets in each row, migrated", ["migrate", deep])


def states(folder):
    """Files of which the state at a moment is asked, and its next change."""
    never = "[(h5){h1}]*[(h7){h1}]*[(M2d29){d1}]"
    texts = {
        "never": [never] * MOST_ROWS,
        "seconds": ["[(s0){s1}]*[(s1){s1}]*[(M2d29){d1}]"] * MOST_ROWS,
        "weekday": ["(f57){y100}"] * MOST_ROWS,
        "february": ["(M2f51){y100}"] * MOST_ROWS,
        "quarters": ["(f57){d92}"] * MOST_ROWS,
        "minutes": ["(M2s0){m1}"] * MOST_ROWS,
    }
    for name, domains_of in texts.items():
        file = folder.elements(f"now_{name}", domains_of)
        yield desk(f"65,536 elements of {domains_of[0]}", ["now", file, MOMENT, "11"])
    month = "(d1){M1}"
    yield desk(f"65,536 elements of {month}, one month after the other",
               ["now", folder.elements("now_months", [month] * MOST_ROWS), MOMENT, "11"])
    turns = [month, f"{month}+(M2d30){{h1}}", f"{month}+(h5){{h1}}"]
    yield desk("65,536 elements of (d1){M1} and two more, by turns",
               ["now", folder.elements("now_turns", [turns[n % 3] for n in range(MOST_ROWS)]), MOMENT, "11"])
    pairs = [(n // 2, turns[n // 2 % 2 * (1 + n % 2)]) for n in range(MOST_ROWS)]
    text = HEADER + "".join(f"{element},both,0,{domain}\n" for element, domain in pairs)
    yield desk("32,768 elements of (d1){M1} and another of these, by turns",
               ["now", folder.file("now_pairs", text), MOMENT, "11"])
    yield desk(f"65,536 elements of {never}", ["faults", "--warn", folder.elements("warned", [never] * MOST_ROWS)])
    dated = never.replace("M2", "y2096M2")
    yield desk(f"65,536 elements of {dated}", ["faults", "--warn", folder.elements("warned_year", [dated] * MOST_ROWS)])
    yield desk(f"65,536 elements of {dated}, over or not",
               ["faults", "--warn", "--at", DAY[0], folder.elements("warned_day", [dated] * MOST_ROWS)])
    centuries = "+".join(f"(y{year}){{y100}}" for year in (2025, 2125, 2225, 2325, 2425, 2525, 2598))
    ahead = f"[{centuries}]*[(s0){{s1}}]*[(s1){{s1}}]"
    minutes = 674 * 365 * 24 * 60
    for began in ("(y1950){d1}", "(y2025M7d2){d1}"):
        yield desk(f"{began}, and nothing in each minute up to 2699", ["faults", "--warn", "--at", "2025-07-01",
                   folder.file(f"warned_{began[2:6]}", f"{HEADER}1,both,0,{began}+{ahead}\n")], minutes, "minutes")
    hands = [(n // 16, n % 16) for n in range(MOST_ROWS)]
    text = HEADER + "".join(f"{element},both,0,(M5d1h{row}){{h1}}+(h{row}){{h1}}\n" for element, row in hands)
    yield desk("4,096 elements of 16 rows that hand over to one another",
               ["now", folder.file("now_hands", text), MOMENT, "11"])
    row = joined(["(w9){y9}"] * 52)
    text = HEADER + "".join(f"{n},both,0,{row}\n{n},positive,0,(h1){{h1}}\n" for n in range(MOST_ROWS // 2))
    yield Case("32,768 elements, 52 (w9){y9} both ways and (h1){h1} one way, a day",
               schedule(folder.file("one_way", text), DAY))


def changes(folder):
    """Files of which the next change is asked, that comes late or never, though parts change all the time."""
    halves = "[(s0){s30}+(s30){s30}]*[(M2d29){d1}]*[(M3d1){d1}]"
    late = "[(s0){s20}+(s20){s40}]*[(M2d29){d1}]*[(M3d1){d1}]"
    for name, rows in (("halves of minutes of a 29 February that is 1 March", [halves]), ("two rows of such", [halves, late])):
        yield desk(name, ["now", folder.rows(f"changes_{len(rows)}", rows), MOMENT, "11"])
    hours = [f"[(m0){{m30}}+(m30){{m30}}]*[(M2d29h{n % 24}m{n // 24}){{h1}}]*[(M3d1){{d1}}]" for n in range(1_000)]
    days = len(hours) * DAYS[LONGEST]
    yield desk("1,000 elements of half hours of such a day",
               ["now", folder.elements("changes_hours", hours), MOMENT, "11"], days, "days")


def questions(folder):
    """Questions about one element with the most rows: in a year, and in three centuries."""
    dated = [f"(M{n % 12 + 1}d{n // 12 % 28 + 1}h{n // 336 % 24}m{n // 8_064 % 60}){{h2}}" for n in range(MOST_ROWS)]
    joined_rows = [f"[(M{n % 12 + 1}){{M1}}]*[(d{n // 12 % 28 + 1}h{n // 336 % 24}m{n // 8_064 % 60}){{h1}}]"
                   for n in range(MOST_ROWS)]
    always = [f"(t{n % 7 + 1}h{n // 7 % 24}m{n // 168 % 60}s{n // 10_080 % 60}){{m1}}" for n in range(MOST_ROWS)]
    for name, rows in (("dates", dated), ("days of months", joined_rows), ("minutes of weeks", always)):
        file = folder.rows(f"asked_{name.replace(' ', '_')}", rows)
        for count, first, days in ((20, 2024, 366), (1_000, 2024, 366), (20, 1901, 109_000)):
            begin = datetime.datetime(first, 1, 1)
            moments = [begin + datetime.timedelta(seconds=(n * 7_919 % count * days * 86_400) // count) for n in range(count)]
            text = "element,direction,vehicle,moment\n" + "".join(f"1,positive,11,{it:%Y-%m-%dT%H:%M:%S}\n" for it in moments)
            given = folder.file(f"questions_{count}_{days}", text)
            case = desk(f"{count:,} questions in {days:,} days about one element of 65,536 rows, {name}", ["ask", file])
            yield case._replace(given=given)


def covered(folder):
    """Files of one element whose rows leave no second of a period open."""
    minute = [f"(s{n}){{s1}}" for n in range(60)]
    hour = [f"(m{n // 60}s{n % 60}){{s1}}" for n in range(3_600)]
    for name, rows in (("60 rows, each a second of each minute", minute), ("3,600 rows, each a second of each hour", hour),
                       ("60 rows, each a second of each minute, and a date", [*minute, "(M5d1){d1}"])):
        file = folder.rows(f"covered_{len(rows)}", rows)
        yield Case(f"one element, {name}, 400 years", schedule(file, LONGEST))
        yield Case(f"one element, {name}, the year's table", year(file))
        yield desk(name, ["picture", file, "1", "positive", "11", "2024"])


def pictures(folder):
    """Pictures of more rectangles than an eye can see."""
    text = joined(hour_starts(MOST_BASIC))
    yield desk("128 seconds of each hour", ["picture-domain", text, "2024"])
    yield desk("128 seconds of each minute", ["picture-domain", joined(minute_starts(MOST_BASIC)), "2024"])
    rows = ["(s0){s1}"] * 4_095 + ["(M5d1){d1}"]
    yield desk("4,096 rows of each minute's first second and a date",
               ["picture", folder.rows("picture", rows), "1", "positive", "11", "2024"])


def rows_in_order(folder):
    """Rows whose elements come in an order that is hard to sort."""
    half = MOST_ROWS // 2
    orders = {
        "downwards": range(MOST_ROWS, 0, -1),
        "up and down": [*range(half), *range(half, 0, -1)],
        "as saw teeth": [n % 256 for n in range(MOST_ROWS)],
        "by turns": [n if n % 2 else MOST_ROWS - n for n in range(MOST_ROWS)],
    }
    for name, elements in orders.items():
        text = HEADER + "".join(f"{n},both,0,\n" for n in elements)
        yield Case(f"65,536 rows, elements {name}, a day", schedule(folder.file(name.replace(" ", "_"), text), DAY))


def one_field(folder):
    """Files of the greatest size that are almost one field."""
    front = "1,both,0,"
    units = {
        "plus": "+", "brackets": "[", "spaces": " ", "digits": "1", "parentheses": "(", "closed": "]", "quotes": '""',
        "basic": "(h1){h1}+", "hours": "(h1", "letters": "h", "high": "z1",
    }
    for name, unit in units.items():
        yield Case(f"16 MiB of '{unit}'", schedule(folder.field(name, front, unit), DAY))
    yield Case("16 MiB of '(t1t1..'", schedule(folder.field("weekdays", front + "(", "t1"), DAY))
    closing = "){h1}\n"
    text = folder.field("weekdays", front + "(", "t1")
    with open(text, "r+b") as file:
        file.seek(-len(closing), os.SEEK_END)
        file.write(closing.encode("ascii"))
    yield Case("16 MiB of '(t1t1..', accepted", schedule(text, DAY))
    yield Case("16 MiB of ','", schedule(folder.field("commas", "", ","), DAY))
    yield Case("16 MiB of empty lines", schedule(folder.field("lines", "", "\n"), DAY))
    yield Case("16 MiB of quoted spaces", schedule(folder.field("quoted", front + '"', " "), DAY))
    yield Case("16 MiB of an element's digits", schedule(folder.field("element", "", "1"), DAY))


def texts_twice(folder):
    """Files in which each text comes twice, of basic domains that begin each minute, always or for an hour a day, and are never
    in force together: whoever keeps their spans of a week looks for them long."""
    for name, front in (("each minute", ""), ("each minute of an hour", "h7")):
        texts = [joined([f"[({front}s{first}){{s1}}*({front}s{(first + 1 + (number // 60 + pair) % 59) % 60}){{s1}}]"
                         for pair in range(9) for first in [(number + pair) % 60]]) for number in range(3_500)]
        yield Case(f"7,000 elements, 3,500 texts of what begins {name}, the year of one",
                   year(folder.elements(f"twice{front}", texts * 2)))


def vehicle_lists(folder):
    """Files of the greatest size whose lists of vehicle types are long."""
    mixed = ";".join(str(1 + 37 * n % 99) for n in range(99)) + ";"
    for name, front, unit in (("equal", "1,both,", "1;"), ("mixed", "1,both,!", mixed)):
        path = folder.field(f"types_{name}", front, unit, LISTS)
        yield Case(f"16 MiB of {name} vehicle types, refused", schedule(path, DAY))
        with open(path, "r+b") as file:
            file.seek(-4, os.SEEK_END)
            file.write(b";1,\n")
        yield Case(f"16 MiB of {name} vehicle types", schedule(path, DAY))


def modes(count):
    """So many names of modes, in small letters."""
    return ["".join(chr(97 + number // 26 ** place % 26) for place in range(3)) for number in range(count)]


def tags_of_ways(folder):
    """Files of tags: of many elements, of one element, by many modes, and of one long value."""
    head, mean = "element,key,value\n", "kind,name,means\n"
    names = modes(4_000)
    few = folder.file("few_means", mean + "mode,access,0\nmode,hgv,11;12\ncondition,hazmat,13\n")
    many = folder.file("many_means", mean + "".join(f"mode,{name},{n % 99 + 1}\n" for n, name in enumerate(names)))
    night, last = "no @ (Mo-Fr 22:00-06:00)", f"{names[-1]}:conditional"

    def case(name, means, rows):
        return desk(name, ["conditions", folder.file(name.replace(" ", "_").replace(",", ""), head + "".join(rows)), means])

    yield case("65,536 elements", few, (f"{n},access:conditional,{night}\n" for n in range(MOST_ROWS)))
    forward = (f"{n},access:forward:conditional,{night}\n" for n in range(MOST_ROWS))
    yield case("65,536 elements, each in one direction", few, forward)
    yield case("65,536 elements by 4,000 modes", many, (f"{n},{last},{night}\n" for n in range(MOST_ROWS)))
    keys = [name + side for name in names for side in ("", ":forward", ":backward")]
    yield case("an element of 12,000 keys", many, (f"1,{key},no\n" for key in keys))
    yield case("an element of 12,000 conditional keys", many, (f"1,{key}:conditional,no @ (24/7)\n" for key in keys))
    both = [(key + end, value) for key in keys for end, value in (("", "no"), (":conditional", "no @ (24/7)"))]
    three = [f"{element},{key},{value}\n" for element in (1, 2, 3) for key, value in both[:MOST_ROWS // 3]]
    yield case("65,535 keys of three elements by 4,000 modes", many, three)
    alike = ["a" * 4_000 + name for name in names]
    ignored = folder.file("alike_means", mean + "mode,access,0\n" + "".join(f"ignore,{name},\n" for name in alike))
    rows = MOST_BYTES // (len(alike[0]) + 30)
    tags = (f"{n},{alike[n * 7 % 4_000]}:conditional,no\n" for n in range(rows))
    yield case("4,000 ignored names that begin alike", ignored, tags)
    value = (MOST_BYTES - 100) // len("no @ (hazmat);")
    yield case("a value of 16 MiB", few, ["1,access:conditional,", "no @ (hazmat);" * value, "\n"])
    kinds = [(name, f"condition,{name},{n + 1}\n") for n, name in enumerate(modes(99))]
    apart = folder.file("apart_means", mean + "mode,access,0\n" + "".join(row for _, row in kinds))
    each = "".join(f"no @ ({name});" for name, _ in kinds)
    value = each * ((MOST_BYTES - 100) // len(each))
    yield case("a value of 16 MiB that tells 99 types apart", apart, ["1,access:conditional,", value, "\n"])
    times = [f"{n // 10:02}:{n % 6}0-{n // 10 + 1:02}:00" for n in range(99)]
    parts = ";".join(f"no @ ({name} AND Mo {time})" for (name, _), time in zip(kinds, times))
    yield case("4,800 elements of 99 parts", apart, (f"{n},access:conditional,{parts}\n" for n in range(4_800)))
    front = "".join(f"no @ ({name} AND Mo 10:00-11:00);" for name, _ in kinds[1:])
    last = f"no @ ({kinds[0][0]});"
    value = front + last * ((MOST_BYTES - 100 - len(front)) // len(last))
    yield case("a value of 16 MiB whose first parts have hours for 98 types", apart, ["1,access:conditional,", value, "\n"])
    terms = (MOST_BYTES - 100) // len("hazmat AND ")
    yield case("a condition of 16 MiB", few, ["1,access:conditional,no @ (", "hazmat AND " * terms, "hazmat)\n"])
    yield case("a value of 16 MiB of parentheses", few, ["1,access:conditional,no @ ", "(" * (MOST_BYTES - 200), "\n"])
    yield case("a value of 16 MiB of semicolons", few, ["1,access:conditional,", ";" * (MOST_BYTES - 200), "\n"])
    for name, rule in (("with times", "Mo 08:00-09:00, "), ("without times", "week 1-3,")):
        rules = rule * ((MOST_BYTES - 200) // len(rule))
        yield case(f"a value of 16 MiB of rules {name}", few, ['1,access:conditional,"no @ (', rules, 'Sa 08:00-09:00)"\n'])
    yield case("65,536 faulty values", few, (f"{n},access:conditional,no @ (8:00\n" for n in range(MOST_ROWS)))


def rows_alike(folder):
    """`same --file`, which compares the rows that have the same number."""
    days = [f"M{1 + n % 12}d{1 + n // 12 % 28}" for n in range(336)]
    off = [(days[n % 336], days[n * 47 % 336 - 1]) for n in range(1_000)]
    streets = [f"[[(t2){{d5}}]*[(h7){{h9}}]]-[[({first}){{d1}}]+[({second}){{d1}}]]" for first, second in off]
    yield desk("1,000 streets, at school hours but for two days", ["same", "--file", folder.elements("streets", streets)])
    seconds = [f"[(h{n % 24}m{n // 24 % 60}s{n // 1440 % 60}){{h2}}]" for n in range(MOST_ROWS)]
    file = folder.file("multiples", HEADER + "".join(f"{4093 * (n + 1)},both,0,{text}\n" for n, text in enumerate(seconds)))
    yield desk("65,536 elements in steps of 4,093, with unlike domains", ["same", "--file", file],
               MOST_ROWS * 512, "spans of which 512 of each row are looked at")
    dated = [f"[(h8){{h2}}]-[(y2026M{1 + n % 12}d{1 + n // 12 % 28}){{d{1 + n // 336}}}]" for n in range(1_000)]
    yield desk("1,000 streets, each day but for some days of 2026", ["same", "--file", folder.elements("dated_streets", dated)],
               1_000 * 10_227, "spans")
    late = [f"[(y{2300 + n}M3d{1 + n % 28}){{d1}}]+[(M5d1){{d1}}]" for n in range(64)]
    yield desk("64 rows that differ after 2300 alone", ["same", "--file", folder.elements("late", late)])


def hours_rows(folder):
    """Files of opening hours with public holidays, whose days are looked for anew for each row."""
    rows = MOST_ROWS - 1
    texts = folder.file("holiday_rows", "element,direction,vehicles,hours\n"
                        + "".join(f"{n},both,0,Mo-Fr 08:00-18:00; PH off\n" for n in range(rows)))
    first, days = datetime.date(2020, 1, 1), 4_018
    each_day = [f"{first + datetime.timedelta(day)},,PH-covered,\n" for day in range(days)]

    def case(name, years, days, table):
        head = "first,last,kind,name\n"
        path = folder.file(name.replace(" ", "_").replace(",", ""), head + "".join(table))
        words = ["records", "--holidays", path, "--years", years, texts]
        return desk(f"{rows:,} rows, {name}", words, rows * days, "days of the years")

    yield case("two years covered by a row", "2025-2026", 730,
               ["2025-01-01,2026-12-31,PH-covered,\n", *(f"{year}-12-25,,PH,\n" for year in (2025, 2026))])
    yield case("eleven years covered day by day, the last first", "2020-2030", days,
               [*reversed(each_day), *(f"{year}-12-25,,PH,\n" for year in range(2020, 2031))])
    spans = (f"1990-{n % 12 + 1:02}-{n % 28 + 1:02},2087-{n % 12 + 1:02}-{n % 28 + 1:02},PH,\n" for n in range(4_000))
    table = folder.file("long_holidays", "first,last,kind,name\n1990-01-01,2087-12-31,PH-covered,\n" + "".join(spans))
    for rows, off in ((1, "; PH off" * 60), (2_000, "; PH off")):
        text = folder.file(f"long_holidays_{rows}", "element,direction,vehicles,hours\n"
                           + "".join(f"{n},both,0,Mo-Fr 08:00-18:00{off}\n" for n in range(rows)))
        words = ["records", "--holidays", table, "--years", "1990-2087", text]
        counted = rows * off.count("PH") * 35_793
        yield desk(f"{rows:,} rows, 4,000 rows of holidays of 98 years", words, counted, "days of the years")


def hours_texts(folder):
    """Files of opening hours with one long text."""
    table = folder.file("holiday_table", "first,last,kind,name\n2025-01-01,2025-12-31,PH,\n2025-01-01,2025-12-31,SH,\n"
                        "2025-01-01,2025-12-31,PH-covered,\n2025-01-01,2025-12-31,SH-covered,\n")

    def case(name, front, unit, end="", words=()):
        text = front + unit * ((MOST_BYTES - 200) // len(unit)) + end
        path = folder.file(name.replace(" ", "_"), f'element,direction,vehicles,hours\n1,both,0,"{text}"\n')
        return desk(f"a text of 16 MiB of {name}", ["records", *words, path])

    holidays = ("--holidays", table, "--years", "2025-2025")
    yield case("rules that are unknown", "Mo 08:00-09:00", " || unknown")
    yield case("rules that are unknown in capitals", "Mo 08:00-09:00", " || UNKNOWN")
    yield case("rules that are off", "", "off; ", "Mo 08:00-09:00")
    yield case("times in rules that are off", "Mo ", "08:00-09:00,", "10:00-11:00 off; Mo 08:00-09:00")
    yield case("weekdays in rules that are off", "", "Mo,Tu[1],", "We off; Mo 08:00-09:00")
    yield case("dates in rules that are off", "", "Jan 1,Feb 2-3,", "Mar 3 off; Mo 08:00-09:00")
    yield case("ranges that move in rules that are off", "", "Mar Su[-1]-Oct Su[1],", "Jan 1 off; Mo 08:00-09:00")
    yield case("years in rules that are off", "", "2025,2027-2029,", "2031 off; Mo 08:00-09:00")
    yield case("holidays", "", "PH,SH,PH +1 day,", "PH off; Mo 08:00-09:00", holidays)
    yield case("days of Easter", "", "easter,easter +1 day,", "easter off; Mo 08:00-09:00", holidays)
    yield case("loose tokens", "", "mo,tu,", "we OFF; Mo 8:00-9:00")
    yield case("spaces", "", " ", "Mo 08:00-09:00")
    yield case("a comment", "Mo off \"\"", "a", "\"\"; Mo 08:00-09:00")


def cases(path):
    """Every case. A file is made when its case is asked for."""
    folder = Folder(path)
    yield from domains()
    yield from compared()
    yield from words()
    for group in (one_row, one_element, cursors, many_elements, states, questions, covered, changes, pictures, rows_in_order, one_field,
                  texts_twice, vehicle_lists, rows_alike, tags_of_ways, hours_rows, hours_texts):
        yield from group(folder)
