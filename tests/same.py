#!/usr/bin/env python3
"""`gtdesk same` on worked and on random pairs of time domains, and of opening hours, against the plain models of tests/model.py
and tests/hours_model.py.

The worked pairs are rows of tests/rows/desk_same.rows; with --table, this prints the answers that the model gives for each of
their pairs, over all time for domains without years. Of the random pairs, half are made the same by rewriting: the program must
say so. Of the others, the second that it answers must be the first in the model that is in one of the domains alone; and if it
says that they are the same, random years of the model must be the same, too. A quarter as many pairs are opening hours. Run it
after `rt ci`, which builds the program.

Usage: tests/same.py [COUNT [SEED]]    tests/same.py [--hours] --table < PAIRS
"""
import datetime
import os
import random
import re
import subprocess
import sys

import hours
import hours_model
import model

TOP = os.path.dirname(os.path.dirname(os.path.abspath(__file__)))
GTDESK = os.path.abspath(os.environ.get("GTDESK", os.path.join(TOP, "crates", "gtdesk", "out", "gtdesk")))
EPOCH = datetime.datetime(1970, 1, 1)
FIRST = datetime.datetime(1901, 1, 1)
END = datetime.datetime(2700, 1, 1)
CYCLE = 146097 * model.DAY


def number(moment):
    return (moment - EPOCH) // datetime.timedelta(seconds=1)


def stamp(second):
    return (EPOCH + datetime.timedelta(seconds=second)).isoformat()


# ---- the model: the seconds of a domain between two seconds, as a list of spans in order that do not touch

def merged(spans):
    """The spans in order, joined where they touch."""
    found = []
    for begin, end in sorted(spans):
        if found and begin <= found[-1][1]:
            found[-1][1] = max(found[-1][1], end)
        elif begin < end:
            found.append([begin, end])
    return found


def basic_spans(start, duration, begin, end):
    """The stretches of the starts that may reach the seconds from `begin` to `end`."""
    spans = []
    clocks = model.clocks(start)
    for day in range(begin // model.DAY - model.bound(duration) // model.DAY - 1, (end - 1) // model.DAY + 1):
        if model.holds_on(start, day):
            # All starts of a day have stretches of one length, but for clock times behind a move to a shorter month.
            spans += [(day * model.DAY + clock, model.end_of(day * model.DAY + clock, duration)) for clock in clocks]
    return spans


def joined(operator, left, right):
    """What an operator makes of two lists of spans."""
    edges = sorted({edge for span in left + right for edge in span})
    found, at, other = [], 0, 0
    for begin, end in zip(edges, edges[1:]):
        while at < len(left) and left[at][1] <= begin:
            at += 1
        while other < len(right) and right[other][1] <= begin:
            other += 1
        in_left = at < len(left) and left[at][0] <= begin
        in_right = other < len(right) and right[other][0] <= begin
        made = {"+": in_left or in_right, "*": in_left and in_right, "-": in_left and not in_right, "/": in_left != in_right}
        if made[operator]:
            found.append((begin, end))
    return merged(found)


def spans_of(expression, begin, end):
    """The seconds of the domain from `begin` to `end`, and maybe some before and after them."""
    if expression[0] == "basic":
        return merged(basic_spans(expression[1], expression[2], begin, end))
    operator, left, right = expression
    return joined(operator, spans_of(left, begin, end), spans_of(right, begin, end))


def first_apart(left, right, begin, end):
    """The first second from `begin` to `end` that is in one of the domains alone, and which, in steps of some years."""
    step = 4000 * model.DAY
    for at in range(begin, end, step):
        until = min(at + step, end)
        for from_, to in joined("/", spans_of(left, at, until), spans_of(right, at, until)):
            if max(from_, at) < min(to, until):
                second = max(from_, at)
                return second, "first" if model.contains(left, second) else "second"
    return None


def gives_year(expression):
    if expression[0] == "basic":
        return any(field[0] == "y" for field in expression[1])
    return gives_year(expression[1]) or gives_year(expression[2])


# ---- the same of opening hours, whose state changes at whole minutes

def hours_apart(left, right, begin, end):
    """The first second from `begin` to `end` at which exactly one of the hours is open, and which, in steps of some days."""
    day, step = begin // model.DAY, 400
    while day * model.DAY < end:
        first = hours_model.EPOCH + datetime.timedelta(days=day)
        count = min(step, -(-end // model.DAY) - day)
        open_left, open_right = (hours_model.open_minutes(rules, first, count) for rules in (left, right))
        if open_left != open_right:
            for at in range(max(0, begin - day * model.DAY) // 60, len(open_left)):
                second = max(begin, day * model.DAY + 60 * at)
                if open_left[at] != open_right[at] and second < end:
                    return second, "first" if open_left[at] else "second"
        day += step
    return None


def names_year(rules):
    return any(selector[0] in ("years", "dated") for rule in rules for listed in rule.kinds.values() for selector in listed)


# How the words of a kind are read, which of them give years, and the first second at which they differ.
DOMAINS = (model.read, gives_year, first_apart)
HOURS = (hours_model.read, names_year, hours_apart)


def answer(first, second, begin, of=DOMAINS):
    """What the program is to print, and its status."""
    read, has_years, apart = of
    left, right = read(first.encode()), read(second.encode())
    years = has_years(left) or has_years(right)
    found = apart(left, right, begin, number(END) if years else begin + CYCLE)
    if found:
        return f"{stamp(found[0])} {found[1]}", 4
    return ("same until 2700" if years else "same"), 0


# ---- random pairs

def field(rng, letter, high, low=0):
    return f"{letter}{rng.randint(low, high)}"


def basic(rng):
    """A start and a duration. Most repeat each day or week."""
    kind = rng.randrange(8)
    if kind < 3:
        start = "".join(f"t{day}" for day in sorted(rng.sample(range(1, 8), rng.randint(1, 3)))) + field(rng, "h", 23)
    elif kind < 5:
        start = field(rng, "h", 23) + (field(rng, "m", 59) if rng.random() < 0.5 else "")
    elif kind == 5:
        start = field(rng, "M", 12, 1) + field(rng, "d", 28, 1)
    elif kind == 6:
        start = rng.choice("fl") + f"{rng.randint(1, 4)}{rng.randint(1, 7)}" + field(rng, "h", 23)
    else:
        start = f"y{rng.randint(1950, 2150)}" + field(rng, "M", 12, 1) + field(rng, "d", 28, 1)
    duration = rng.choice([field(rng, "h", 30, 1), field(rng, "m", 300, 1), "d1", field(rng, "d", 40, 1), "M1", "h24"])
    return f"({start}){{{duration}}}"


def domain(rng, depth=2):
    if not depth or rng.random() < 0.4:
        return basic(rng)
    return f"[{domain(rng, depth - 1)}{rng.choice('+*-')}{domain(rng, depth - 1)}]"


def rewritten(rng, expression):
    """Another text for the same seconds."""
    if expression[0] != "basic":
        operator, left, right = expression
        left, right = rewritten(rng, left), rewritten(rng, right)
        choice = rng.randrange(3)
        if choice == 0 and operator in "+*":
            return f"[{right}{operator}{left}]"
        if choice == 1 and operator == "*":
            return f"[{left}-[{left}-{right}]]"
        if choice == 1 and operator == "-":
            return f"[[{left}+{right}]-{right}]"
        return f"[{left}{operator}{right}]"
    start, duration = "".join(expression[1]), "".join(expression[2])
    same = f"({start}){{{duration}}}"
    if duration in ("d1", "h24"):
        return f"({start}){{{'h24' if duration == 'd1' else 'd1'}}}"
    if len(expression[2]) == 1 and duration[0] == "h":
        return f"({start}){{m{60 * int(duration[1:])}}}"
    if len(expression[2]) == 1 and duration[0] == "d" and int(duration[1:]) > 1:
        # A stretch of days and its first day.
        return rng.choice([f"[{same}+({start}){{d1}}]", f"({start}){{h{24 * int(duration[1:])}}}"])
    return rng.choice([f"[{same}+{same}]", f"[{same}*{same}]"])


def run(*words):
    done = subprocess.run([GTDESK, "same", *words], stdin=subprocess.DEVNULL, capture_output=True, timeout=120)
    return done.stdout.decode().rstrip("\n"), done.returncode


def why_wrong(rng, at):
    """What is wrong with the answer for a random pair of domains, if anything."""
    first = domain(rng)
    made_same = at % 2 == 0
    second = rewritten(rng, model.read(first.encode())) if made_same else domain(rng)
    if first.count("(") > 128 or second.count("(") > 128:
        return None
    return why_of(rng, first, second, made_same, DOMAINS)


def rewritten_hours(rng, rules):
    """Another text for the same hours: their times or selectors the other way round, one of them twice, or a range cut in two."""
    changed = []
    for rule in rules:
        times = list(rule.times)
        if hours_model.has_times(rule):
            begin, end = times.pop(rng.randrange(len(times)))
            cut = rng.randint(begin, min(end, model.DAY // 60))
            times += [(begin, cut), (cut, end)] if begin < cut < min(end, model.DAY // 60) else [(begin, end)] * 2
            rng.shuffle(times)
        kinds = {kind: rng.sample(listed, len(listed)) for kind, listed in rule.kinds.items()}
        changed.append(rule._replace(kinds=kinds, times=times))
    return hours_model.print_rules(changed)


def why_wrong_hours(at, seed):
    """What is wrong with the answer for a random pair of opening hours, if anything."""
    rng = hours.Maker(f"{seed}/hours/{at}")
    first, made_same = rng.text(), at % 2 == 0
    second = rewritten_hours(rng, hours_model.read(first.encode())) if made_same else rng.text()
    printed, status = run("--hours", first, second)
    if status == 1 and printed == "":
        return None  # one of them has too many basic domains, which tests/hours_program.py checks
    return why_of(rng, first, second, made_same, HOURS)


def domain_gives_year(text):
    """Whether the domain of opening hours gives a year. A rule that another hides may name one, and is left out of the domain."""
    printed = subprocess.run([GTDESK, "hours", text], check=True, capture_output=True, text=True).stdout
    return re.search(r"\([^)]*y", printed) is not None


def why_of(rng, first, second, made_same, of):
    """What is wrong with the answer for a pair of this kind, if anything."""
    read, has_years, apart = of
    begin = number(FIRST) + rng.randrange(200 * 365 * model.DAY)
    left, right = read(first.encode()), read(second.encode())
    years = has_years(left) or has_years(right)
    if years and of is HOURS:
        years = domain_gives_year(first) or domain_gives_year(second)
    printed, status = run(*["--hours"] * (of is HOURS), first, second, "--from", stamp(begin))
    shown = f"same {first!r} {second!r} --from {stamp(begin)}: {printed!r}, status {status}"
    same = "same until 2700" if years else "same"
    if made_same or printed == same:
        if (printed, status) != (same, 0):
            return f"{shown}; wanted {same!r}"
        some = rng.randrange(begin, number(datetime.datetime(2600, 1, 1)))
        found = apart(left, right, some, some + 700 * model.DAY)
        return f"{shown}; the model has {found}" if found else None
    try:
        when, which = printed.split(" ")
        told = number(datetime.datetime.fromisoformat(when))
    except ValueError:
        return shown
    if status != 4 or apart(left, right, max(begin, told - 12000 * model.DAY), told + 1) != (told, which):
        return f"{shown}; the model has {answer(first, second, begin, of)}"
    return None


def table(of):
    """The rows of pairs, with the model's answers."""
    for line in sys.stdin:
        columns = line.rstrip("\n").split("\t")
        if line.startswith("#") or len(columns) < 3:
            print(line, end="")
            continue
        printed, status = answer(columns[0], columns[1], number(datetime.datetime.fromisoformat(columns[2])), of)
        print("\t".join([*columns[:3], printed]), flush=True)
        if status != (0 if printed.startswith("same") else 4):
            sys.exit(f"{line}: {status}")


def main(words):
    if words[-1:] == ["--table"]:
        table(HOURS if words[0] == "--hours" else DOMAINS)
        return 0
    count, seed = int(words[0]) if words else 1000, int(words[1]) if words[1:] else 1
    failed = 0
    of_hours = -(-count // 4)
    for at in range(count + of_hours):
        why = why_wrong(random.Random(f"{seed}/{at}"), at) if at < count else why_wrong_hours(at, seed)
        if why:
            failed += 1
            print(f"FAILED {seed}/{at}: {why}")
    print(f"same: {count + of_hours - failed} passed, {failed} failed")
    return 1 if failed or not count else 0


if __name__ == "__main__":
    sys.exit(main(sys.argv[1:]))
