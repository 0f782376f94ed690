"""The spans of a domain by the repository's plain model: lists of stretches, joined by operations on sets."""

from datetime import datetime, timedelta
from functools import lru_cache, reduce

from tests.conftest import model_of

EPOCH = datetime(1970, 1, 1)
DAY = 86_400
model = model_of("model")


def second(moment):
    """The number of a civil second."""
    return int((moment - EPOCH).total_seconds())


def moment(number):
    """The civil second of a number."""
    return EPOCH + timedelta(seconds=number)


def seconds_of(spans):
    """Spans of moments as a normal list of spans of numbers."""
    return united((second(first), second(until)) for first, until in spans)


def united(spans):
    """A normal list with the same seconds."""
    joined = []
    for first, until in sorted(spans):
        if joined and first <= joined[-1][1]:
            joined[-1] = (joined[-1][0], max(joined[-1][1], until))
        elif first < until:
            joined.append((first, until))
    return joined


def within(spans, first, until):
    """The seconds from one up to another."""
    return united((max(first, a), min(until, b)) for a, b in spans if a < until and b > first)


def both(left, right):
    """The seconds of two normal lists that both contain."""
    found, i, j = [], 0, 0
    while i < len(left) and j < len(right):
        a, b = max(left[i][0], right[j][0]), min(left[i][1], right[j][1])
        if a < b:
            found.append((a, b))
        if left[i][1] < right[j][1]:
            i += 1
        else:
            j += 1
    return united(found)


def without(left, right, first, until):
    """The seconds from one up to another that the left list alone contains."""
    gaps, at = [], first
    for a, b in right:
        gaps.append((at, a))
        at = b
    return both(left, united([*gaps, (at, until)]))


def of_basic(start, duration, first, until):
    """The spans of a basic domain, day by day."""
    low, high = first // DAY - model.bound(duration) // DAY - 2, until // DAY
    given = {field[0]: int(field[1:]) for field in start}
    if "y" in given and "w" not in given:  # other days are not looked at
        begin = datetime(given["y"], given.get("M", 1), 1)
        low = max(low, second(begin) // DAY - 1)
        high = min(high, second(begin) // DAY + (32 if "M" in given else 367))
    clocks = model.clocks(start)
    # Which clock time it is makes no difference to the days, so that all share what is known of these.
    fields = (*(field for field in start if field[0] not in "hms"), *("h0" for field in start[-1:] if field[0] in "hms"))
    begins = [day * DAY + clock for day in range(low, high + 1) if _holds_on(fields, day) for clock in clocks]
    return within([(begin, model.end_of(begin, duration)) for begin in begins], first, until)


@lru_cache(maxsize=1 << 20)
def _holds_on(fields, day):
    return model.holds_on(fields, day)


def of_expression(expression, first, until):
    """The spans of an expression, as the model reads it."""
    if expression[0] == "basic":
        return of_basic(expression[1], expression[2], first, until)
    left, right = of_expression(expression[1], first, until), of_expression(expression[2], first, until)
    if expression[0] == "+":
        return united(left + right)
    return both(left, right) if expression[0] == "*" else without(left, right, first, until)


def of_texts(texts, first, until):
    """The spans of the seconds that some of the texts contain."""
    return _of_texts(tuple(texts), second(first), second(until))


@lru_cache(maxsize=64)
def _of_texts(texts, first, until):
    each = (of_expression(model.read(text.encode()), first, until) for text in texts)
    return reduce(lambda left, right: united(left + right), each, [])
