#!/usr/bin/env python3
"""The words of domains by a plain model of the wording in crates/gtd_words/README.md: ends are looked up in the calendar, over
twelve years of starts. The rows of tests/rows/desk_words.rows, those in three
languages of desk_words_in.rows, and the tables of docs/GALLERY.md must say what the model says.

Usage: tests/words.py                 compares them
       tests/words.py [de] DOMAIN..   prints the words of domains
"""
import calendar
import os
import re
import sys

import model
from checks import Checks

TOP = os.path.dirname(os.path.dirname(os.path.abspath(__file__)))
YEARS = range(2000, 2012)


def time_of(second):
    return f"{second // 3600:02}:{second // 60 % 60:02}" + (f":{second % 60:02}" if second % 60 else "")


def run_of(numbers):
    """Three or more neighbouring weekdays: the first and the last of them."""
    for first in [2, 1, 3, 4, 5, 6, 7]:
        run = [(first - 1 + more) % 7 + 1 for more in range(len(numbers))]
        if len(numbers) > 2 and set(run) == set(numbers):
            return run[0], run[-1]
    return None


def listed(names, last):
    return ", ".join(names[:-1]) + last + names[-1] if names[1:] else names[0]


class English:
    """The words of English. A role is `on`, `from` or `if`."""

    WEEKDAYS = "Sunday Monday Tuesday Wednesday Thursday Friday Saturday".split()
    MONTHS = "January February March April May June July August September October November December".split()
    PLACES = "first second third fourth fifth".split()
    BACK = ["", " but one", " but two", " but three", " but four"]
    UNITS = {"y": "year", "M": "month", "w": "week", "d": "day", "h": "hour", "m": "minute", "s": "second"}
    LINES = {"+": "or:", "*": "and all this only in:", "-": "and all this except in:"}
    EACH_DAY, ALL_DAY = "each day", "all day"
    OF_EACH_MONTH, EVERY_YEAR = "of every month", "every year"
    LEADS = {"on": "on", "from": "from"}
    SHARP, COMMA = " sharp", ", "

    def ordinal(self, number):
        return f"{number}" + ("th" if number // 10 == 1 else {1: "st", 2: "nd", 3: "rd"}.get(number % 10, "th"))

    def date(self, role, day, month):
        return f"{role} {day} {self.MONTHS[month - 1]}"

    def each_date(self, role, day):
        return f"{role} the {self.ordinal(day)} of every month"

    def place(self, role, place, weekday):
        words = f"the {self.PLACES[place - 1]} {self.WEEKDAYS[weekday - 1]}"
        return f"if it is {words} of the month" if role == "if" else f"{role} {words}"

    def back(self, role, place, weekday):
        words = f"the last {self.WEEKDAYS[weekday - 1]}{self.BACK[place - 1]}"
        return f"if it is also {words} of the month" if role == "if" else f"{role} {words}"

    def weekdays(self, role, numbers):
        lead = {"on": "every ", "from": "from every ", "if": "if it falls on "}[role]
        run = run_of(numbers)
        if run:
            return f"{lead}{self.WEEKDAYS[run[0] - 1]} to {self.WEEKDAYS[run[1] - 1]}"
        return lead + listed([self.WEEKDAYS[number - 1] for number in numbers], " or " if role == "if" else " and ")

    def monday(self, role):
        return f"{role} the Monday"

    def beginning(self, month):
        return "from the beginning" + (f" of {self.MONTHS[month - 1]}" if month else "")

    def of_month(self, month):
        return f"of {self.MONTHS[month - 1]}"

    def week(self, week):
        return f"in week {week}"

    def of_year(self, year):
        return f"of the year {year:04}"

    def clock(self, time):
        return f"from {time}"

    def second_of_minutes(self, second, hour):
        return f"from second {second} of every minute of " + ("every hour" if hour is None else f"hour {hour}")

    def minute_of_hours(self, minute, second):
        return f"from minute {minute}" + ("" if second is None else f" and second {second}") + " of every hour"

    def count(self, number, letter):
        return f"{number} {self.UNITS[letter]}" + ("" if number == 1 else "s")

    def lasts(self, parts):
        return "for " + " and ".join(self.count(number, letter) for number, letter in parts)

    def until(self, day, time):
        """Until a time of a day: nothing, a number of days later, a weekday or a date; or until a day is over."""
        kind, *what = day
        if kind == "february":
            return "until the end of February"
        if kind == "later":
            days = what[0]
            return f"until {time}" + ["", " the next day"][days] if days < 2 else f"until {time}, {days} days later"
        name = self.WEEKDAYS[what[0] - 1] if kind == "weekday" else f"{what[1]} {self.MONTHS[what[0] - 1]}"
        return f"until {name} {time}" if time else f"until {name} (included)"


class German(English):
    """The words of German."""

    WEEKDAYS = "Sonntag Montag Dienstag Mittwoch Donnerstag Freitag Samstag".split()
    MONTHS = "Januar Februar März April Mai Juni Juli August September Oktober November Dezember".split()
    PLACES = "erste zweite dritte vierte fünfte".split()
    BACK = "letzte vorletzte drittletzte viertletzte fünftletzte".split()
    UNITS = {"y": ("Jahr", "Jahre"), "M": ("Monat", "Monate"), "w": ("Woche", "Wochen"), "d": ("Tag", "Tage"),
             "h": ("Stunde", "Stunden"), "m": ("Minute", "Minuten"), "s": ("Sekunde", "Sekunden")}
    LINES = {"+": "oder:", "*": "und all dies nur:", "-": "und all dies außer:"}
    EACH_DAY, ALL_DAY = "täglich", "ganztägig"
    OF_EACH_MONTH, EVERY_YEAR = "jedes Monats", "jedes Jahres"
    LEADS = {"on": "am", "from": "vom"}
    SHARP = " genau"

    def date(self, role, day, month):
        return f"{self.LEADS[role]} {day}. {self.MONTHS[month - 1]}"

    def each_date(self, role, day):
        return f"{self.LEADS[role]} {day}. jedes Monats"

    def place(self, role, place, weekday):
        name, day = self.PLACES[place - 1], self.WEEKDAYS[weekday - 1]
        return f"(wenn es der {name} {day} im Monat ist)" if role == "if" else f"{self.LEADS[role]} {name}n {day}"

    def back(self, role, place, weekday):
        name, day = self.BACK[place - 1], self.WEEKDAYS[weekday - 1]
        return f"(wenn es auch der {name} {day} im Monat ist)" if role == "if" else f"{self.LEADS[role]} {name}n {day}"

    def weekdays(self, role, numbers):
        names = [name.lower() + "s" for name in self.WEEKDAYS] if role == "on" else self.WEEKDAYS
        run = run_of(numbers)
        words = f"{names[run[0] - 1]} bis {names[run[1] - 1]}" if run else \
            listed([names[number - 1] for number in numbers], " oder " if role == "if" else " und ")
        lead = {"on": "", "from": "von jedem Tag von " if run else "von jedem ", "if": "(wenn er auf "}[role]
        return lead + words + (" fällt)" if role == "if" else "")

    def monday(self, role):
        return f"{self.LEADS[role]} Montag"

    def beginning(self, month):
        return f"von Anfang {self.MONTHS[month - 1]}" if month else "von Jahresbeginn"

    def of_month(self, month):
        return f"im {self.MONTHS[month - 1]}"

    def week(self, week):
        return f"in Woche {week}"

    def of_year(self, year):
        return f"im Jahr {year:04}"

    def clock(self, time):
        return f"von {time}"

    def second_of_minutes(self, second, hour):
        return f"von Sekunde {second} jeder Minute " + ("jeder Stunde" if hour is None else f"der Stunde {hour}")

    def minute_of_hours(self, minute, second):
        return f"von Minute {minute}" + ("" if second is None else f" und Sekunde {second}") + " jeder Stunde"

    def count(self, number, letter):
        return f"{number} {self.UNITS[letter][number != 1]}"

    def lasts(self, parts):
        return "an für " + " und ".join(self.count(number, letter) for number, letter in parts)

    def until(self, day, time):
        kind, *what = day
        if kind == "february":
            return "bis Ende Februar"
        if kind == "later":
            days = what[0]
            return f"bis {time}" + ["", " des Folgetags"][days] if days < 2 else f"bis {time}, {days} Tage später"
        name = self.WEEKDAYS[what[0] - 1] if kind == "weekday" else f"zum {what[1]}. {self.MONTHS[what[0] - 1]}"
        return f"bis {name} {time}" if time else f"bis {name} (einschließlich)"


class French(English):
    """The words of French."""

    WEEKDAYS = "dimanche lundi mardi mercredi jeudi vendredi samedi".split()
    MONTHS = "janvier février mars avril mai juin juillet août septembre octobre novembre décembre".split()
    PLACES = "premier deuxième troisième quatrième cinquième".split()
    BACK = ["dernier", "avant-dernier", "antépénultième", "quatrième", "cinquième"]
    UNITS = {"y": "an", "M": "mois", "w": "semaine", "d": "jour", "h": "heure", "m": "minute", "s": "seconde"}
    LINES = {"+": "ou :", "*": "et tout cela seulement :", "-": "et tout cela sauf :"}
    EACH_DAY, ALL_DAY = "chaque jour", "toute la journée"
    OF_EACH_MONTH, EVERY_YEAR = "de chaque mois", "de chaque année"
    LEADS = {"on": "le", "from": "du"}
    SHARP, COMMA = " précises", ", "

    def of(self, name):
        return f"d'{name}" if name[0] in "ao" else f"de {name}"

    def day(self, day):
        return "1er" if day == 1 else f"{day}"

    def date(self, role, day, month):
        return f"{self.LEADS[role]} {self.day(day)} {self.MONTHS[month - 1]}"

    def each_date(self, role, day):
        return f"{self.LEADS[role]} {self.day(day)} de chaque mois"

    def place(self, role, place, weekday):
        words = f"{self.PLACES[place - 1]} {self.WEEKDAYS[weekday - 1]}"
        return f"(si c'est le {words} du mois)" if role == "if" else f"{self.LEADS[role]} {words}"

    def back(self, role, place, weekday):
        vowel = place in (2, 3)
        the, of_the = ("l'", "de l'") if vowel else ("le ", "du ")
        article = {"on": the, "from": of_the, "if": "(si c'est aussi " + the}[role]
        words = f"{article}{self.BACK[place - 1]} {self.WEEKDAYS[weekday - 1]}" + (" en partant de la fin" if place > 3 else "")
        return words + (" du mois)" if role == "if" else "")

    def weekdays(self, role, numbers):
        run, end = run_of(numbers), ")" if role == "if" else ""
        if run:
            lead = {"on": "du ", "from": "de chaque jour du ", "if": "(s'il tombe du "}[role]
            return f"{lead}{self.WEEKDAYS[run[0] - 1]} au {self.WEEKDAYS[run[1] - 1]}" + end
        lead = {"on": "chaque ", "from": "de chaque ", "if": "(s'il tombe un "}[role]
        return lead + listed([self.WEEKDAYS[number - 1] for number in numbers], " ou " if role == "if" else " et ") + end

    def monday(self, role):
        return "le lundi" if role == "on" else "à partir du lundi"

    def beginning(self, month):
        return "du début" + (f" {self.of(self.MONTHS[month - 1])}" if month else "")

    def of_month(self, month):
        return self.of(self.MONTHS[month - 1])

    def week(self, week):
        return f"de la semaine {week}"

    def of_year(self, year):
        return f"de l'année {year:04}"

    def clock(self, time):
        return f"de {time}"

    def second_of_minutes(self, second, hour):
        return f"de la seconde {second} de chaque minute de " + ("chaque heure" if hour is None else f"l'heure {hour}")

    def minute_of_hours(self, minute, second):
        return f"de la minute {minute}" + ("" if second is None else f" et de la seconde {second}") + " de chaque heure"

    def count(self, number, letter):
        return f"{number} {self.UNITS[letter]}" + ("s" if number > 1 and letter != "M" else "")

    def lasts(self, parts):
        return "pour une durée de " + " et ".join(self.count(number, letter) for number, letter in parts)

    def until(self, day, time):
        kind, *what = day
        if kind == "february":
            return "jusqu'à la fin de février"
        if kind == "later":
            days = what[0]
            return f"jusqu'à {time}" + ["", " le lendemain"][days] if days < 2 else f"jusqu'à {time}, {days} jours plus tard"
        name = self.WEEKDAYS[what[0] - 1] if kind == "weekday" else f"{self.day(what[1])} {self.MONTHS[what[0] - 1]}"
        return f"jusqu'au {name} {time}" if time else f"jusqu'au {name} (inclus)"


LANGUAGES = {"en": English(), "de": German(), "fr": French()}


class Start:
    """The fields of a start."""

    def __init__(self, fields):
        self.fields = fields
        self.given = {field[0]: int(field[1:]) for field in fields if field[0] != "t"}
        self.weekdays = sorted({int(field[1:]) for field in fields if field[0] == "t"})
        self.clock = any(letter in self.given for letter in "hms")
        self.kind = next((letter for letter in "dfl" if letter in self.given), "t" if self.weekdays else "")

    def day(self, say, role):
        """The day and its month."""
        given, month = self.given, self.given.get("M")
        if self.kind == "d":
            return [say.date(role, given["d"], month) if month else say.each_date(role, given["d"])]
        if self.kind in ("f", "l"):
            words = (say.place if self.kind == "f" else say.back)(role, given[self.kind] // 10, given[self.kind] % 10)
            return [words, say.of_month(month) if month else say.OF_EACH_MONTH]
        if not self.kind and not self.clock and "w" not in given:
            return [say.beginning(month)]
        words = say.weekdays(role, self.weekdays) if self.kind else say.EACH_DAY if self.clock else say.monday(role)
        return [words] + ([say.of_month(month)] if month else [])

    def period(self, say):
        given, parts = self.given, []
        if "w" in given:
            parts.append(say.week(given["w"]))
        if "y" in given:
            parts.append(f"{given['y']:04}" if "M" in given and "w" not in given else say.of_year(given["y"]))
        elif "M" in given or "w" in given:
            parts.append(say.EVERY_YEAR)
        return parts

    def conditions(self, say):
        given, parts = self.given, []
        if self.kind == "d" and "f" in given:
            parts.append(say.place("if", given["f"] // 10, given["f"] % 10))
        if self.kind in ("d", "f") and "l" in given:
            parts.append(say.back("if", given["l"] // 10, given["l"] % 10))
        if self.kind in ("d", "f", "l") and self.weekdays:
            parts.append(say.weekdays("if", self.weekdays))
        return parts

    def clock_words(self, say):
        h, m, s = (self.given.get(letter) for letter in "hms")
        if h is not None and m is not None:
            return [say.clock(f"{h:02}:{m:02}" + (f":{s:02}" if s is not None else "" if m else say.SHARP))]
        if h is not None and s is None:
            return [say.clock(f"{h:02}:00")]
        if s is not None and m is None:
            return [say.second_of_minutes(s, h)]
        return [say.minute_of_hours(m, s)] if m is not None else []

    def words(self, say, named):
        day = self.day(say, "on" if named else "from")
        return " ".join([*day, *self.period(say), *self.conditions(say), *self.clock_words(say)])

    def second(self):
        """The second of the day at which stretches begin, if it is said."""
        h, m, s = (self.given.get(letter) for letter in "hms")
        if (h is None or m is None and s is not None) and self.clock:
            return None
        return 3600 * (h or 0) + 60 * (m or 0) + (s or 0)

    def weekday(self):
        if self.kind in ("f", "l"):
            return self.given[self.kind] % 10
        if self.kind == "t" and len(self.weekdays) == 1:
            return self.weekdays[0]
        return 2 if not self.kind and not self.clock and "w" in self.given else None

    def date(self):
        if self.kind == "d" and "M" in self.given:
            return self.given["M"], self.given["d"]
        return (self.given.get("M", 1), 1) if not self.kind and not self.clock and "w" not in self.given else None


LETTERS = "yMwdhms"


def length(say, fields):
    number = {field[0]: int(field[1:]) for field in fields}
    return say.lasts([(number[letter], letter) for letter in LETTERS if number.get(letter)] or [(0, "s")])


def numbers(fields):
    number = dict.fromkeys(LETTERS, 0) | {field[0]: int(field[1:]) for field in fields}
    return tuple(number[letter] for letter in LETTERS)


def days_and_clock(seconds):
    days, rest = divmod(seconds, model.DAY)
    return 0, 0, 0, days, rest // 3600, rest // 60 % 60, rest % 60


def dates_of(start, fields):
    """From which date to which, of all years: the begin, the end, and the years between, or nothing for a date that
    no year has."""
    month, day = start.date()
    for year in YEARS:
        if day <= calendar.monthrange(year, month)[1]:
            begin = (model.datetime.date(year, month, day).toordinal() - model.EPOCH) * model.DAY + start.second()
            yield year, model.end_of(begin, fields)


def date_end(say, start, fields, whole):
    """The end by a date, if it is the same from every year, with the usual duration; else nothing."""
    ends = [(year, end) for year, end in dates_of(start, fields)]
    lasts = [(year, model.date_of(end // model.DAY - whole)) for year, end in ends]
    found = {(last.year - year, last.month, last.day, end % model.DAY) for (year, last), (_, end) in zip(lasts, ends)}
    february = len(found) != 1 and whole and all((last.month, last.day) in ((2, 28), (2, 29)) for _, last in lasts) \
        and all(model.date_of(end // model.DAY).day == 1 for _, end in ends)
    if february:
        found = {(last.year - year, 2, 29, 0) for year, last in lasts}
    if len(found) != 1:
        return None
    years, month, day, second = found.pop()
    if years != ((month, day) < start.date()):
        return None
    words = say.until(("february",) if february else ("date", month, day), None if whole else time_of(second))
    # The usual duration: the most months, and the days after them.
    begin = model.datetime.date(2001, *start.date()) if start.date() != (2, 29) else model.datetime.date(2000, 2, 29)
    for months in range(12, -1, -1):
        for days in range(31):
            usual = (1, 0, 0, 0, 0, 0, 0) if months == 12 and not days else (0, months, 0, days, 0, 0, 0)
            if usual == numbers(fields):
                reached = (begin.month + months - 1) % 12 + 1
                until_28 = not february and whole and (month, day) == (2, 28) and reached == 2 and begin.day + days == 29
                length = calendar.monthrange(2001, reached)[1]
                return words, begin.day <= length + 3 * (reached == 2) and days < length or until_28
    return words, False


def end_of(say, start, fields):
    """The words of the end, and whether the duration is the usual one."""
    second, number = start.second(), numbers(fields)
    if second is None or not any(number):
        return None
    months, days = 12 * number[0] + number[1], 7 * number[2] + number[3]
    clock = second + 3600 * number[4] + 60 * number[5] + number[6]
    days, clock = days + clock // model.DAY, clock % model.DAY
    whole = not start.clock and clock == 0
    if months:
        return date_end(say, start, fields, whole) if start.date() else None
    usual = number == days_and_clock(days * model.DAY + clock - second)
    if not whole and days < 2:
        return say.until(("later", days), time_of(clock)), usual
    if start.weekday() and days < 7 + whole:
        weekday = (start.weekday() - 1 + days - whole) % 7 + 1
        return say.until(("weekday", weekday), None if whole else time_of(clock)), usual
    if start.date():
        found = date_end(say, start, fields, whole)
        if found:
            return found
    return None if whole else (say.until(("later", days), time_of(clock)), usual)


def basic(say, fields, duration):
    start = Start(fields)
    if numbers(duration) == (0, 0, 0, 1, 0, 0, 0) and not start.clock and (start.kind or "w" in start.given):
        return f"{start.words(say, True)} {say.ALL_DAY}"
    found, lasts = end_of(say, start, duration), length(say, duration)
    tail = lasts if not found else ("" if found[1] else lasts + say.COMMA) + found[0]
    return f"{start.words(say, start.clock)} {tail}"


def lines(say, expression, depth=0, lead=""):
    indent = "    " * depth
    if expression[0] == "basic":
        return [indent + lead + basic(say, expression[1], expression[2])]
    operator, left, right = expression
    below = say.LINES[operator] + " "
    if not lead:
        return lines(say, left, depth) + lines(say, right, depth, below)
    return [indent + lead[:-1]] + lines(say, left, depth + 1) + lines(say, right, depth + 1, below)


def words(text, language="en"):
    return "\n".join(lines(LANGUAGES[language], model.read(text.encode())))


def rows():
    """Each domain with the words that stand beside it."""
    with open(os.path.join(TOP, "tests", "rows", "desk_words.rows"), encoding="utf-8") as file:
        for line in file:
            if "\t" in line and "DOMAIN:" not in line:
                cells = line.rstrip("\n").split("\t")
                for domain, said in zip(cells[::2], cells[1::2]):
                    yield domain, "en", said.replace("\\n", "\n")
    with open(os.path.join(TOP, "tests", "rows", "desk_words_in.rows"), encoding="utf-8") as file:
        for line in file:
            if "\t" in line:
                domain, *said = line.rstrip("\n").split("\t")
                for language, text in zip(("en", "de", "fr"), said):
                    yield domain, language, text.replace("\\n", "\n")
    with open(os.path.join(TOP, "docs", "GALLERY.md"), encoding="utf-8") as file:
        text = file.read()
        for domain, *said in re.findall(r"^\| `([^`]+)` \| ([^|]+) \| ([^|]+) \| ([^|]+) \|$", text, re.M):
            yield from ((domain, language, words) for language, words in zip(("en", "de", "fr"), said))
        for domain, said in re.findall(r'^\| `([^`]+)` \| (.*) \| <img src="?pictures/words/', text, re.M):
            yield domain, "en", said.replace("<br>", "\n").replace("&emsp;", "    ")


def main():
    if sys.argv[1:]:
        language = sys.argv[1] if sys.argv[1] in LANGUAGES else "en"
        print("\n\n".join(words(text, language) for text in sys.argv[1:] if text not in LANGUAGES))
        return 0
    check = Checks("words")
    for domain, language, said in rows():
        wanted = words(domain, language)
        check(said == wanted, f"{domain}: {said!r}, and not {wanted!r}")
    return check.end()


if __name__ == "__main__":
    sys.exit(main())
