#!/usr/bin/env python3
"""Man pages and completions of both programs, made of packaging/commands.txt.

The man pages gtd.1 and gtdesk.1 are packaging/gtd.1.in and packaging/gtdesk.1.in, with the commands put in where a line is
`@synopsis@`, `@commands@` or `@words@`. The completions are made whole.

Usage: packaging/pages.py FOLDER               writes gtd.1, gtdesk.1, gtd.bash, gtdesk.bash, _gtd and _gtdesk into the folder
       packaging/pages.py --commands NAME      prints the commands of the program of this name, in order
       packaging/pages.py --help-of GTDESK     compares the commands of gtdesk with what that program's help says of them
"""
import os
import re
import subprocess
import sys

HERE = os.path.dirname(os.path.abspath(__file__))


class Command:
    """A command, and each way of taking words: its words, what completions say, and its text in the man page."""

    def __init__(self, name, heading):
        self.name, self.heading, self.ways = name, heading, []


class Program:
    """What commands.txt says of a program."""

    def __init__(self, name):
        self.name, self.options, self.commands, self.words = name, [], [], {}

    def command(self, name, heading):
        """The command of this name, which is made if it is not there."""
        found = next((it for it in self.commands if it.name == name), None)
        if not found:
            found = Command(name, heading)
            self.commands.append(found)
        return found


def programs():
    """The programs of commands.txt, by name."""
    made, heading, below = {}, None, None
    with open(os.path.join(HERE, "commands.txt"), encoding="utf-8") as file:
        for line in map(str.rstrip, file):
            if line.startswith("    "):
                below.append(line[4:])
                continue
            kind, _, rest = line.partition(" ")
            if kind == "program":
                now = made[rest] = Program(rest)
            elif kind == "options":
                now.options = rest.split()
            elif kind == "list":
                heading = rest
            elif kind == "command":
                name, *words = re.findall(r"\[[^]]*\]|\S+", rest)
                below = []
                now.command(name, heading).ways.append((words, below))
            elif kind == "word":
                name, _, what = rest.partition(": ")
                below = []
                now.words[name] = (what, below)
            elif line and kind[0] != "#":
                sys.exit(f"packaging/commands.txt: no line of a description: {line}")
    return made


# How many words of its kind completions offer for a word that may be followed by more.
MORE = 8


def parts_of(word):
    """The words that a word of a command stands for: two for an option that is given with a word."""
    return word.strip("[]").split()


def name_of(word):
    """The name of a word, which may be followed by more of its kind, and whether it may."""
    return word.removesuffix(".."), word.endswith("..")


def kind_of(program, word):
    """What a shell completes for a word. One in small letters stands for itself."""
    return f"one of {word}" if word.islower() else program.words[name_of(word)[0]][0]


def mdoc(words):
    """Words in the language of man pages, as `Oo Fl Fl warn Oc Ar file`."""
    made, in_words = [], False
    for word in words:
        shown = []
        for name in parts_of(word):
            is_option, follows = name.startswith("--"), in_words and word == name
            text = name_of(name)[0].lower() + " ..." * name_of(name)[1]
            shown.append(f"Fl Fl {name[2:]}" if is_option else f"Cm {name}" if name.islower() else
                         text if follows else f"Ar {text}")
            in_words = not is_option and word == name and not name.islower()
        made.append(" ".join(["Oo", *shown, "Oc"] if word[0] == "[" else shown))
    return " ".join(made)


def synopsis(program):
    for command in program.commands:
        for words, _ in command.ways:
            yield from (".Nm", f".Cm {command.name}", f".{mdoc(words)}")


def listed_commands(program):
    heading = None
    for command in program.commands:
        if command.heading != heading:
            if heading:
                yield from (".El", ".Pp")
            heading = command.heading
            yield from (heading, ".Bl -tag -width Ds")
        for words, text in command.ways:
            yield f".It Cm {command.name} {mdoc(words)}"
            yield from text[1:]
    yield ".El"


def listed_words(program):
    yield ".Bl -tag -width direction"
    for name, (_, text) in program.words.items():
        yield f".It Ar {name.lower()}"
        yield from text
    yield ".El"


def man_page(program):
    made = []
    with open(os.path.join(HERE, f"{program.name}.1.in"), encoding="utf-8") as file:
        for line in map(str.rstrip, file):
            parts = {"@synopsis@": synopsis, "@commands@": listed_commands, "@words@": listed_words}
            made += parts[line](program) if line in parts else [line]
    return "\n".join(made) + "\n"


def places(program):
    """What may stand where: triples of a command, the number of a word after it, from 1, and the word. An option that is given
    with a word may stand before any other."""
    for command in program.commands:
        for words, _ in command.ways:
            left_out, at = 0, 1
            for word in words:
                name, *given = parts_of(word)
                for place in range(1 if given else at - left_out, at + 1):
                    yield command.name, place, name
                yield from ((command.name, at + 1, it) for it in given)
                left_out += word.startswith("[--") and not given
                at += 1 + len(given)


def patterns(program, first, kinds):
    """What a shell completes: for each kind of what is due, the patterns of the places where it is. All options of a place are
    one kind. They come first, since they begin with a sign of their own."""
    found, options = {}, {}
    for command, place, word in places(program):
        if word.startswith("--"):
            options.setdefault(f"{command}:{place + first}:-*", []).append(word)
        elif kinds(kind_of(program, word)):
            for more in range(MORE if name_of(word)[1] else 1):
                found.setdefault(kind_of(program, word), []).append(f"{command}:{place + first + more}:*")
    for where, names in options.items():
        found.setdefault(" ".join(sorted(set(names))), []).append(where)
    found = {kind: list(dict.fromkeys(where)) for kind, where in found.items()}
    return sorted(found.items(), key=lambda it: not it[0].startswith("--"))


BASH = """# Completion of {name} for bash, made of the description of its commands.
_{name}() {{
    local word=${{COMP_WORDS[COMP_CWORD]}} commands='{commands}'
    COMPREPLY=()
    if [ "$COMP_CWORD" = 1 ]; then
        mapfile -t COMPREPLY < <(compgen -W "{first}" -- "$word")
        return
    fi
    case ${{COMP_WORDS[1]}}:$COMP_CWORD:$word in
{cases}
    esac
}}
complete -F _{name} {name}
"""


def bash(program):
    cases = []
    for kind, where in patterns(program, 1, lambda it: it in ("files", "commands") or it.startswith(("one of ", "--"))):
        words = {"commands": '"$commands"'}.get(kind, "'%s'" % kind.replace("one of ", ""))
        offered = "-f" if kind == "files" else f"-W {words}"
        cases.append(f"        {' | '.join(where)})")
        cases += ["            compopt -o filenames 2> /dev/null"] if kind == "files" else []
        cases += [f"            mapfile -t COMPREPLY < <(compgen {offered} -- \"$word\")", "            ;;"]
    names = [it.name for it in program.commands]
    return BASH.format(name=program.name, commands=" ".join(it for it in names if it != "help"), cases="\n".join(cases),
                       first=" ".join(["$commands", *(it for it in names if it == "help"), *program.options]))


ZSH = """#compdef {name}
# Completion of {name} for zsh, made of the description of its commands. Where no word can be completed, it says what is due.
_{name}_commands() {{
    local -a commands=(
{commands}
    )
    _describe -t commands command commands
}}

_{name}() {{
    if ((CURRENT == 2)); then
        _{name}_commands
        return
    fi
    case $words[2]:$CURRENT:$PREFIX in
{cases}
    esac
}}

_{name} "$@"
"""


def zsh_action(program, kind):
    if kind == "files":
        return "_files"
    if kind == "commands":
        return f"_{program.name}_commands"
    if kind.startswith("--"):
        return f"compadd -- {kind}"
    if kind.startswith("one of "):
        return f"local expl; _wanted words expl word compadd {kind[len('one of '):]}"
    return f"_message '{kind}'"


def zsh(program):
    commands = [f"        '{it.name}:{it.ways[0][1][0]}'" for it in program.commands]
    cases = [f"        {' | '.join(where)}) {zsh_action(program, kind)} ;;"
             for kind, where in patterns(program, 2, lambda _: True)]
    return ZSH.format(name=program.name, commands="\n".join(commands), cases="\n".join(cases))


def usage_of(program, command):
    """The words of a command as the help of a program shows them."""
    def shown_as(word):
        return word if word.islower() else f"<{name_of(word)[0]}>" + "..." * name_of(word)[1]

    if len(command.ways) == 1:
        words = command.ways[0][0]
        shown = ["[OPTIONS]"] * any(it.startswith("[--") for it in words) + [shown_as(it) for it in words if it[0] != "["]
        return " ".join([program.name, command.name, *shown])
    def way(words):
        needed = [it for it in words if not it.startswith("[--")]
        shown = [it if it.startswith("--") or len(words) == 1 else shown_as(it) for it in needed]
        return " ".join(["[OPTIONS]"] * (needed != words) + shown)

    return f"{program.name} {command.name} <{'|'.join(way(words) for words, _ in command.ways)}>"


def compare_help(program, path):
    """Compares the commands with what the program itself says of them."""
    def told(*words):
        return subprocess.run([path, *words], check=True, capture_output=True, text=True).stdout

    failed = []
    listed = re.findall(r"^  ([a-z-]+) ", told("--help").partition("Commands:\n")[2].partition("\n\n")[0], re.M)
    names = [it.name for it in program.commands]
    if listed != names:
        failed.append(f"help lists {listed}, and commands.txt {names}")
    for command in program.commands:
        if command.name == "help":
            continue
        text = told("help", command.name)
        usage = re.search(r"^Usage: (.*)$", text, re.M)[1]
        if usage != usage_of(program, command):
            failed.append(f"help says {usage!r}, and commands.txt {usage_of(program, command)!r}")
        options = {it for it in re.findall(r"(--[a-z-]+)", text.partition("Options:\n")[2]) if it not in ("--help",)}
        given = {parts_of(word)[0] for words, _ in command.ways for word in words if "--" in word}
        if options - {"--"} != given:
            failed.append(f"{command.name}: help has the options {options}, and commands.txt {given}")
    return failed


def main(words):
    made = programs()
    if words[:1] == ["--commands"]:
        print(" ".join(it.name for it in made[words[1]].commands if it.name != "help"))
    elif words[:1] == ["--help-of"]:
        failed = compare_help(made["gtdesk"], words[1])
        print("\n".join(failed), end="\n" if failed else "")
        return 1 if failed else 0
    else:
        for program in made.values():
            for name, text in ((f"{program.name}.1", man_page(program)), (f"{program.name}.bash", bash(program)),
                               (f"_{program.name}", zsh(program))):
                with open(os.path.join(words[0], name), "w", encoding="utf-8") as file:
                    file.write(text)
    return 0


if __name__ == "__main__":
    sys.exit(main(sys.argv[1:]))
