"""Reads the definitions of this repository and follows the names that they use: what tests/statement.py counts and prints.

From a clause of a function it goes on to each name that the clause uses, to where that name is defined: in a crate's specs/, or
as a type of its sources; from a type to the types of its fields, and to its model: what a value of it is in contracts. Of a
trait's ghost member, such as the bytes that an output has taken, it takes those clauses of the trait that name it.
"""
import glob
import os
import re

TOP = os.path.dirname(os.path.dirname(os.path.abspath(__file__)))
CRATES = os.path.join(TOP, "crates")

# How many characters a line of the print of definitions has at most.
PRINT_WIDTH = 130

WORD = re.compile(r"[^\s(){}\[\],;.λ]+(?:\.[^\s(){}\[\],;.λ]+)*")
HEADER = re.compile(r"^(?P<indent> *)(?:abbrev |unfoldable )?(?:pub )?(?:record |data )?(?P<name>[^\s(){}:]+)(?P<rest>.*)$")
KEYWORDS = {"use", "module", "where", "infix", "infixl", "infixr", "open", "ruleset", "syntax", "mutual", "deriving"}


class Definition:
    """One definition: its place and its lines, the comment above it, and the line of the parameters that it shares with others.
    The names that it uses are those of its lines and of these parameters."""

    def __init__(self, name, path, first, lines, comment=(), shared=None):
        self.name, self.path, self.first, self.lines = name, path, first, lines
        self.comment, self.shared = list(comment), shared

    def key(self):
        return self.path, self.name

    def is_text(self):
        """Whether it stands in specs/, and not as a type, a model or a trait in sources."""
        return "/specs/" in self.path

    def text(self):
        return "\n".join(([self.shared] if self.shared else []) + self.lines)

    def believed(self):
        return sum(1 for line in self.lines if line.strip() and not line.strip().startswith(("--", "//", "#[", "ghost use")))

    def last(self):
        return self.first + len(self.lines) - 1


class Module:
    """A file of definitions: what it defines, and what each of its names and short module names stands for."""

    def __init__(self, path):
        self.path = path
        self.definitions, self.names, self.modules = {}, {}, {}

    def defined(self, name):
        """The definition of this name, or the one that has a variant of this name, or None."""
        variant = re.compile(r"^\s+(?:[^\s:()]+ )*%s(?: [^\s:()]+)* :" % re.escape(name), re.M)
        having = (it for it in self.definitions.values() if " data " in " " + it.lines[0] and variant.search(it.text()))
        return self.definitions.get(name) or next(having, None)


def imports(text):
    """Each import of a text, as (module, names with what they are called here, or None; what the module is called here)."""
    for line in re.findall(r"^\s*(?:pub |ghost )?use (Rattle\.[^\n;]+?);?\s*$", text, re.M):
        names = re.match(r"^(.*)\.\{(.*)\}$", line)
        if names:
            pairs = [part.strip().split(" as ") for part in names.group(2).split(",") if part.strip()]
            yield names.group(1), [(pair[0], pair[-1]) for pair in pairs], None
        else:
            module = line.split(" as ")
            yield module[0], None, module[1] if len(module) > 1 else module[0].split(".")[-1]


def comment_above(lines, first):
    """The comment that ends right above this line, the first of which is line 1."""
    begin = first - 1
    while begin > 0 and lines[begin - 1].strip().startswith("--"):
        begin -= 1
    return lines[begin:first - 1]


def read_definitions(module, text):
    """The definitions of a file of specs/: each begins at a header line, and ends before the next, its comments aside."""
    lines = text.split("\n")
    current, depth, shared, around = None, 0, None, []
    for number, line in enumerate(lines, 1):
        bare = line.strip()
        if not bare or bare.startswith("--"):
            continue
        indent = len(line) - len(line.lstrip())
        while indent < depth:
            depth, shared = around.pop()
            current = None
        if bare.startswith("module "):
            around.append((depth, shared))
            depth, current, shared = indent + 2, None, "\n".join([shared, line] if shared else [line])
            continue
        header = HEADER.match(line)
        if indent == depth and header and header.group("name") not in KEYWORDS:
            name = header.group("name")
            marked = re.match(r"^\s*(abbrev|unfoldable|pub|record|data)\b", line)
            declared = marked or re.match(r"^\s*[^\s(){}:]+(\s*:)\s", line)
            if current is not None and name == current.name:
                current.lines += lines[current.last():number]
            elif declared:
                current = Definition(name, module.path, number, [line], comment_above(lines, number), shared)
                module.definitions[name] = current
            continue
        if indent == depth and bare.split()[0] in KEYWORDS | {"pub"}:
            current = None
            continue
        if current is not None:
            current.lines += lines[current.last():number]


def read_source(path):
    """What the names of a file stand for, by its imports."""
    text = open(path, encoding="utf-8").read()
    module = Module(os.path.relpath(path, TOP))
    for target, names, short in imports(text):
        if names is None:
            module.modules[short] = target
        else:
            for name, here in names:
                module.names[here] = (target, name)
    return module


def read_module(path):
    """A file of specs/: its imports and its definitions."""
    module = read_source(path)
    read_definitions(module, open(path, encoding="utf-8").read())
    return module


def handed_on(crate, name):
    """The module of a crate below that this crate's specs/Lib.antt hands on under this name, or None."""
    text = open(os.path.join(CRATES, crate, "specs", "Lib.antt"), encoding="utf-8").read()
    found = re.search(r"^pub use (Rattle\.gtd\w*\.specs\.(?:\w+\.)*%s)$" % name, text, re.M)
    return found.group(1) if found else None


def module_file(name):
    """The file of a module of specs/, or None for one that the check generates or that is not in this repository."""
    parts = name.split(".")
    path = os.path.join(CRATES, parts[1], *parts[2:]) + ".antt"
    if not parts[1].startswith("gtd") or os.path.exists(path):
        return path if parts[1].startswith("gtd") else None
    below = handed_on(parts[1], parts[-1]) if parts[2:-1] == ["specs"] else None
    return module_file(below) if below else None


def declared_in(path, name, head):
    """The item of a source file that begins with a line like this, as a definition, or None."""
    lines = open(path, encoding="utf-8").read().split("\n")
    for first, line in enumerate(lines):
        if re.match(head, line):
            last = first
            while not re.match(r"^(\}|\S.*[;}]$)", lines[last]):
                last += 1
            return Definition(name, os.path.relpath(path, TOP), first + 1, lines[first:last + 1])
    return None


def type_in(path, name):
    """The struct or enum of this name that a source file declares, or None."""
    return declared_in(path, name, r"^(pub(\(crate\))? )?(struct|enum) %s\b" % name)


def declared_type(name):
    """The struct or enum that a generated module is made from, as a definition of its source file, or None."""
    found = re.match(r"^Rattle\.(gtd\w*)\.specs\.declared\.(?P<path>.*?)(?:\.TheVariants)?$", name)
    if not found:
        return None
    parts = found.group("path").split(".")
    path = os.path.join(CRATES, found.group(1), "src", *parts[:-1]) + ".rt"
    return type_in(path, parts[-1]) if os.path.exists(path) else None


def declared_constant(module, name):
    """The constant of a source file that a generated module has by its name, as a definition, or None."""
    found = re.match(r"^Rattle\.(gtd\w*)\.specs\.declared\.(?P<path>.*)\.TheConstants$", module)
    if not found:
        return None
    path = os.path.join(CRATES, found.group(1), "src", *found.group("path").split(".")) + ".rt"
    return declared_in(path, name, r"^pub(\(crate\))? const %s\b" % name)


def crate_of(path):
    """The crate that a file is of."""
    return os.path.relpath(path, CRATES).split(os.sep)[0]


def used_types(path):
    """The names that a source file takes from the crates of this repository, each with its crate."""
    text = open(path, encoding="utf-8").read()
    for crate, names in re.findall(r"^(?:pub )?use (crate|gtd\w*)::(?:\w+::)*(\w+|\{[^}]*\});", text, re.M):
        for name in re.findall(r"\w+", names):
            yield name, crate_of(path) if crate == "crate" else crate


def types_named(definition):
    """The types of this repository that a declared type names, each as a definition of its source file."""
    path = os.path.join(TOP, definition.path)
    used = dict(used_types(path))
    code = "\n".join(line for line in definition.lines if not line.strip().startswith(("//", "#[")))
    for name in set(re.findall(r"\b[A-Z]\w*", code)) - {definition.name}:
        files = [path]
        if name in used:
            files += sorted(glob.glob(os.path.join(CRATES, used[name], "src", "**", "*.rt"), recursive=True))
        found = next(filter(None, (type_in(file, name) for file in files)), None)
        if found:
            yield found


def model_of(definition):
    """What says which value stands for one of a declared type in contracts, if the type has such a model of its own."""
    head = r"^impl(<.*>)? Model for %s\b" % definition.name
    return declared_in(os.path.join(TOP, definition.path), "Model for " + definition.name, head)


class Statement:
    """The definitions that are reached and the names that each of them uses, in order; the names of std and of the kit's crates
    at which the walk ends; and the names of this repository that it did not find."""

    def __init__(self):
        self.modules, self.reached, self.named, self.ends, self.todo, self.unfound = {}, {}, {}, {}, [], set()
        self.user = None

    def module(self, name):
        if name not in self.modules:
            path = module_file(name)
            self.modules[name] = read_module(path) if path else None
        return self.modules[name]

    def reach(self, target, name):
        """The definition that a name of a module stands for."""
        kind = declared_constant(target, name) or declared_type(target)
        if kind:
            self.add(kind, None)
            return
        module = self.module(target)
        if module is None:
            crate = target.split(".")[1]
            if crate.startswith("gtd"):
                self.unfound.add("%s.%s" % (target, name))
            else:
                self.ends.setdefault(crate, set()).add(name)
            return
        definition = module.defined(name)
        if definition:
            self.add(definition, module)
        elif name in module.names:
            self.reach(*module.names[name])
        else:
            self.unfound.add("%s.%s" % (target, name))

    def add(self, definition, module):
        key = definition.key()
        self.named.setdefault(self.user, {})[key] = True
        if key not in self.reached:
            self.reached[key] = definition
            self.todo.append((definition, module))

    def follow(self, text, module):
        """Every definition that a text names."""
        text = re.sub(r"--.*", "", text)
        for word in dict.fromkeys(WORD.findall(text)):
            head, _, rest = word.partition(".")
            if head in module.definitions:
                self.add(module.definitions[head], module)
            elif head in module.names:
                self.reach(*module.names[head])
            elif rest and head in module.modules:
                self.reach(module.modules[head], rest.split(".")[0])

    def walk(self):
        while self.todo:
            definition, module = self.todo.pop()
            self.user = definition.key()
            if module:
                self.follow(definition.text(), module)
            else:
                self.follow_type(definition)

    def follow_type(self, definition):
        """The types of a type's fields and its model; and what a type, a model or a trait says in its ghost fields and clauses,
        over the imports of its file, where the names of its own fields come first."""
        for named in types_named(definition):
            self.add(named, None)
        model = model_of(definition)
        if model:
            self.add(model, None)
        ghost = "\n".join(line for line in definition.lines if not line.strip().startswith("//"))
        if "ghost" in ghost:
            module = read_source(os.path.join(TOP, definition.path))
            for field in re.findall(r"^\s+(?:pub(?:\(crate\))? )?(?:ghost )?(\w+):", ghost, re.M):
                module.names.pop(field, None)
            self.follow(ghost, module)


def clause(path, function, name):
    """The lines of a clause of a function, with the comment above it."""
    lines = open(path, encoding="utf-8").read().split("\n")
    head = next(at for at, line in enumerate(lines) if re.match(r"^pub(\(crate\))? fn %s\b" % function, line))
    first = next(at for at in range(head, len(lines)) if lines[at].strip().startswith("ensures %s " % name))
    last = first
    while not re.match(r"^(\{| {4}(ensures|requires|//))", lines[last + 1]):
        last += 1
    begin = first
    while lines[begin - 1].strip().startswith("//"):
        begin -= 1
    return lines[begin:last + 1]


def bounds(path, function):
    """The trait that each type parameter of a function must have."""
    text = open(path, encoding="utf-8").read()
    head = re.search(r"^pub(?:\(crate\))? fn %s<(.*?)>\(" % function, text, re.S | re.M)
    return dict(re.findall(r"(\w+): (\w+)", head.group(1))) if head else {}


def clauses_that_name(item, members):
    """A function of a trait with those of its clauses that name one of the ghost members, or nothing if none does."""
    at = [number for number, line in enumerate(item) if re.match(r"^\s+(requires|ensures)\b", line)]
    parts = [item[begin:end] for begin, end in zip(at, at[1:] + [len(item)])]
    naming = [part for part in parts if re.search(r"\b(?:%s)\b" % members, "\n".join(part))]
    return item[:at[0]] + [line for part in naming for line in on_one_line(part)] if naming else []


def on_one_line(part):
    """The lines of a clause; one line, if it fits into a line of the print."""
    joined = part[0] + "".join(" " + line.strip() for line in part[1:])
    return [joined] if len(joined) <= PRINT_WIDTH else part


def trait_members(trait, names):
    """These ghost members of a trait of this repository, with those clauses of the trait's functions that name one; or None."""
    members = "|".join(names)
    for path in sorted(glob.glob(os.path.join(CRATES, "*", "src", "*.rt"))):
        lines = open(path, encoding="utf-8").read().split("\n")
        for first, line in enumerate(lines):
            if not line.startswith("pub trait %s " % trait):
                continue
            body = "\n".join(lines[first + 1:lines.index("}", first)])
            found = [line]
            for item in (part.split("\n") for part in body.split("\n\n")):
                if re.search(r"^\s+ghost (?:%s):" % members, "\n".join(item), re.M):
                    found += item
                elif re.search(r"^\s+fn ", "\n".join(item), re.M):
                    found += clauses_that_name(item, members)
            return Definition(trait, os.path.relpath(path, TOP), first + 1, found + ["}"])
    return None


def statement_of(crate, file, function, clauses):
    """What these clauses of a function rest on."""
    statement = Statement()
    path = os.path.join(CRATES, crate, file)
    text = "\n".join(line for name in clauses for line in clause(path, function, name) if not line.strip().startswith("//"))
    traits = bounds(path, function)
    members = {}
    for parameter, member in dict.fromkeys(re.findall(r"\b([A-Z])\.(\w+)", text)):
        members.setdefault(traits[parameter], []).append(member)
    for trait, names in members.items():
        definition = trait_members(trait, names)
        if definition:
            statement.add(definition, None)
    statement.follow(text, read_source(path))
    statement.walk()
    return statement


# Files that make values of types with a range, which take the fact that a value is in it. They may name facts of their own crate.
MAKING_VALUES = ["gtd_hours_items/specs/Offsets.antt", "gtd_hours_known/specs/Until.antt"]


def citing_lemmas():
    """The files of definitions that import a proof or a lemma."""
    for path in sorted(glob.glob(os.path.join(CRATES, "*", "specs", "*.antt"))):
        if os.path.basename(path) == "facts.antt" or os.path.relpath(path, CRATES) in MAKING_VALUES:
            continue
        text = open(path, encoding="utf-8").read()
        if any(".proofs." in target or ".facts." in target for target, _, _ in imports(text)):
            yield os.path.relpath(path, TOP)
