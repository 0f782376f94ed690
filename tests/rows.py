#!/usr/bin/env python3
r"""Runs the built programs on worked rows, which are data: the files of tests/rows/.

A file is made of tables. A table begins with lines `each: COMMAND LINE => WANTED`. Each row below them is put into each of these
lines; tabs stand between its columns. In the lines

    {0}         is column 0, or a part of a word
    {0*}        is column 0, split into words as a shell does
    {0*39}      is column 0, 39 times
    {0^}        is the name of a file, `r.csv`, that holds column 0
    {0^NAME}    is the same for a file called NAME
    ^TEXT       is the name of a file that holds a text of that name
    ^(WORD)     is the name of a file, `r.csv`, that holds WORD, which may have columns and texts in it
    < FILE      among the words: what standard input holds. Otherwise it is empty
    | FILTER    before the `=>`: a command of the shell that the output is passed through. It is run in tests/

An empty file `roads.csv` is there, too. What is wanted:

    => TEXT             the status 0, this text and a line end on standard output, and nothing on standard error
    =>                  the same, and nothing on standard output
    =>1 LINE            the status 1, nothing on standard output, and this line on standard error
    =>1 TEXT !! LINE    the status 1, the text on standard output, and the line on standard error
    =>4 TEXT !!         the status 4, the text on standard output, and nothing on standard error

Below a line `gtdesk: WORD: KIND at PLACE` of a text, one of the words must stand with a caret at that place, and then a line that
says what is accepted there. They are not among what is wanted.

A text has a name in capitals, and is used as `$NAME` in rows and in the lines of tables:

    text NAME:
        each line of it indented by four spaces; it may have none

In texts, rows, names of files and what is wanted, `\t`, `\n`, `\r`, `\\`, `\uXXXX` and `\xXX` (a byte) stand for what they
name, and `\39{{TEXT}}` for 39 times the text, also before a column is split. It ends at the first `}}` that no brace follows.
Empty lines, and lines that begin with `#`, are left out.

Run it after `rt ci`, which builds the programs. GTD and GTDESK in the environment name others. Usage: tests/rows.py [FILE..]
"""
import concurrent.futures
import glob
import os
import re
import shlex
import subprocess
import sys
import tempfile

HERE = os.path.dirname(os.path.abspath(__file__))
CRATES = os.path.join(os.path.dirname(HERE), "crates")
PROGRAMS = {it: os.path.abspath(os.environ.get(it.upper(), os.path.join(CRATES, it, "out", it))) for it in ("gtd", "gtdesk")}
OF_TEXT = re.compile(rb"gtdesk: (?:DOMAIN|TEXT|FIRST|SECOND): \w+ at (\d+)(?:: [0-9-]+)?\n")
ACCEPTED = re.compile(rb"    expected: .+\n")
LETTERS = {b"t": b"\t", b"n": b"\n", b"r": b"\r", b"\\": b"\\"}
REPEATED = re.compile(r"\\(\d+)\{\{(.*?)\}\}(?!\})")


class Malformed(Exception):
    """A file of rows that cannot be read."""


def unescaped(text, texts):
    """The bytes of a column, or of a part of a table's line."""
    def named(name):
        if name.decode() not in texts:
            raise Malformed(f"no text {name.decode()}")
        return texts[name.decode()]

    def one(found):
        if found[1]:
            return LETTERS[found[1]]
        return chr(int(found[2], 16)).encode() if found[2] else bytes([int(found[3], 16)])

    def plain(part):
        # Odd pieces are names of texts.
        pieces = re.split(rb"\$([A-Z][A-Z0-9_]*)", part.encode())
        return b"".join(named(it) if at % 2 else re.sub(rb"\\(?:([tnr\\])|u([0-9a-f]{4})|x([0-9a-f]{2}))", one, it)
                        for at, it in enumerate(pieces))

    first, *rest = REPEATED.split(text)
    return plain(first) + b"".join(int(times) * plain(it) + plain(after)
                                   for times, it, after in zip(rest[::3], rest[1::3], rest[2::3]))


def keep(room, name, content):
    """Writes a file into the room, and gives its name."""
    with open(os.path.join(room, name), "wb") as file:
        file.write(content)
    return name.encode()


def filled(word, columns, texts, room):
    """The words that a word of a table's line stands for."""
    if many := re.fullmatch(r"\{(\d+)\*\}", word):
        whole = REPEATED.sub(lambda found: int(found[1]) * found[2], columns[int(many[1])])
        return [unescaped(it, texts) for it in shlex.split(whole)]
    if text := re.fullmatch(r"\^([A-Z][A-Z0-9_]*)", word):
        return [keep(room, text[1].lower() + ".csv", unescaped("$" + text[1], texts))]
    if held := re.fullmatch(r"\^\((.*)\)", word):
        return [keep(room, "r.csv", *filled(held[1], columns, texts, room))]
    made = b""
    for plain, number, times, is_file, name in re.findall(r"([^{]+|\{(?!\d))|\{(\d+)(?:\*(\d+)|(\^)([^}]*))?\}", word):
        content = unescaped(columns[int(number)] if number else plain, texts) * int(times or 1)
        made += keep(room, unescaped(name, texts).decode() or "r.csv", content) if is_file else content
    return [made]


def with_caret(text, place):
    """A text as it is shown around a place, and a caret below the byte there."""
    shown = [bytes([it]) if 32 <= it <= 126 and it != 92 else b"\\x%02x" % it for it in text]
    begin, end = 0, len(shown)
    if sum(map(len, shown)) > 100:
        begin = end = place
        while begin > 0 and sum(map(len, shown[begin - 1:place])) <= 40:
            begin -= 1
        while end < len(shown) and sum(map(len, shown[place:end + 1])) <= 50:
            end += 1
    before = b"..." * (begin > 0) + b"".join(shown[begin:place])
    return b"    " + before + b"".join(shown[place:end]) + b"..." * (end < len(shown)) + b"\n    " + b" " * len(before) + b"^\n"


def without_text(told, words):
    """What was told, without the lines below a line that refuses one of these words as a text."""
    found = OF_TEXT.match(told)
    if not found:
        return told
    below = told[found.end():]
    for word in [*words, *(it.partition(b"=")[2] for it in words)]:
        shown = with_caret(word, int(found[1])) if int(found[1]) <= len(word) else None
        if shown and below.startswith(shown) and ACCEPTED.fullmatch(below[len(shown):]):
            return found[0]
    return told + b"(no word of the line is shown below)"


class Case:
    """One command line, and what it must answer."""

    def __init__(self, place, line, columns, texts):
        self.place, self.columns, self.texts = place, columns, texts
        found = re.fullmatch(r"(gtd|gtdesk)(?: (.*?))?(?: \| (.*))? =>(\d?)(?: (.*?))?(?: (!!.*))?", line)
        if not found:
            raise Malformed(f"no line of a table: {line}")
        self.program, self.words, self.filter, status, text, told = found.groups()
        told = told and told[len("!!"):].strip()
        self.status = int(status or 0)
        self.out, self.err = (None, text) if self.status and told is None else (text or None, told)

    def wanted(self, text, room):
        if text is None:
            return b""
        words = [b" ".join(filled(it, self.columns, self.texts, room)) for it in text.split(" ")]
        made = b" ".join(words)
        return made if made.endswith(b"\n") or not made else made + b"\n"

    def why_not(self, room):
        """What is wrong with the answer, if anything."""
        words = [it for word in (self.words or "").split(" ") if word for it in filled(word, self.columns, self.texts, room)]
        given = b""
        if b"<" in words:
            at = words.index(b"<")
            with open(os.path.join(room, words[at + 1].decode()), "rb") as file:
                given = file.read()
            words = words[:at] + words[at + 2:]
        done = subprocess.run([PROGRAMS[self.program], *words], cwd=room, input=given, capture_output=True, timeout=120,
                              check=False)
        out = done.stdout
        if self.filter:
            out = subprocess.run(["bash", "-c", self.filter], cwd=HERE, input=out, capture_output=True, timeout=120,
                                 check=False).stdout
        wanted = (self.status, self.wanted(self.out, room), self.wanted(self.err, room))
        if (done.returncode, out, without_text(done.stderr, words)) == wanted:
            return None
        shown = f"{self.program} {[it[:60] for it in words]}: status {done.returncode}"
        return f"{shown}, wrote {out[:300]!r} and {done.stderr[:200]!r}; wanted {wanted!r}"[:2000]


def cases(path):
    """The cases of a file, one for each row and each line of its table."""
    lines, in_head, texts, text = [], False, {}, None
    with open(path, encoding="utf-8") as file:
        for number, line in enumerate(file, 1):
            line = line.rstrip("\n")
            if text and line.startswith("    "):
                texts[text] += unescaped(line[4:] + "\\n", texts)
                continue
            text = None
            if found := re.fullmatch(r"text ([A-Z][A-Z0-9_]*):", line):
                text = found[1]
                texts[text] = b""
            elif line.startswith("each: "):
                lines, in_head = [*(lines if in_head else []), line[len("each: "):]], True
            elif line and not line.startswith("#"):
                in_head = False
                for each in lines:
                    yield Case(f"{os.path.basename(path)}:{number}", each, line.split("\t"), texts)


def judged(rooms, case):
    """What is wrong with a case, tried in a room that nobody else is in."""
    room = rooms.pop()
    try:
        why = case.why_not(room)
    except (Malformed, IndexError, subprocess.TimeoutExpired) as fault:
        why = f"not tried: {fault!r}"
    finally:
        rooms.append(room)
    return f"FAILED {case.place}: {why}" if why else None


def main(files):
    """Tries all rows of these files, or of all."""
    files = files or sorted(glob.glob(os.path.join(HERE, "rows", "*.rows")))
    for program in PROGRAMS.values():
        if not os.path.exists(program):
            sys.exit(f"no program at {program}: run rt ci first")
    lanes = len(os.sched_getaffinity(0))
    passed = failed = 0
    with tempfile.TemporaryDirectory() as top, concurrent.futures.ThreadPoolExecutor(lanes) as pool:
        rooms = [tempfile.mkdtemp(dir=top) for _ in range(lanes)]
        for room in rooms:
            keep(room, "roads.csv", b"")
        for path in files:
            try:
                for why in pool.map(lambda case: judged(rooms, case), cases(path)):
                    passed, failed = passed + (not why), failed + bool(why)
                    if why:
                        print(why)
            except Malformed as fault:
                failed += 1
                print(f"FAILED {os.path.basename(path)}: {fault}")
    print(f"rows: {passed} passed, {failed} failed")
    return 1 if failed or not passed else 0


if __name__ == "__main__":
    sys.exit(main(sys.argv[1:]))
