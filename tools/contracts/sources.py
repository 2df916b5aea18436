"""Reads definitions and contracts out of the sources: which items a file has, what it brings in, and where each stands."""
import collections
import dataclasses
import glob
import os
import re

TOP = os.path.dirname(os.path.dirname(os.path.dirname(os.path.abspath(__file__))))

# Values of std that may stand in a pattern. Code has them with no import.
STD_VALUES = frozenset("[] ∷ Some None Ok Err true false zero suc pos negsuc".split())
STD_HOME = "Rattle.std.specs.Prelude"

TOKEN = re.compile(r'"[^"]*"|[(){};,]|[^\s(){};,"]+')
COMMENT = re.compile(r"(?:^|(?<=\s))--(?=\s|$).*")
CODE_COMMENT = re.compile(r"(?:^|(?<=\s))//.*")
USE = re.compile(r"use\s+([\w.]+)(?:\.\{([^}]*)\})?(?:\s+as\s+(\w+))?\s*;?$", re.S)
HEAD = re.compile(r"(?:(?:abbrev|unfoldable) )?(?:pub )?(?:(data|record) (\S+)|(\S+) :(?: |$))")


class Unreadable(Exception):
    """A source that is not followed: where, and what is not understood."""


@dataclasses.dataclass(eq=False)
class Definition:
    """A definition: its name, its file, its kind, the heads of the blocks around it, and its pieces of numbered lines."""
    name: str
    source: object
    kind: str
    around: tuple
    chunks: list = dataclasses.field(default_factory=list)
    cited: list = None

    def numbers(self):
        """The numbers of its lines."""
        return [number for chunk in self.chunks for number, _ in chunk]

    def place(self):
        """Its lines, from the first to the last."""
        first, last = min(self.numbers()), max(self.numbers())
        return str(first) if first == last else f"{first}-{last}"

    def to_read(self):
        """Its lines and the heads around it, each as a file and a number."""
        heads = [number for number, _ in self.around]
        return {(self.source.path, number) for number in self.numbers() + heads}


@dataclasses.dataclass(frozen=True)
class StdWord:
    """A word of a library that is trusted."""
    module: str
    name: str
    kind = "word"


class Imports:
    """What `use` lines bring into a file."""

    def __init__(self):
        self.names, self.modules = {}, {}

    def add(self, text, place):
        """One `use`, with its words."""
        found = USE.match(text.strip())
        if not found:
            raise Unreadable(f"{place}: a `use` that is not understood")
        path, names, alias = found.groups()
        if names is None:
            self.modules[alias or path.split(".")[-1]] = path
            return
        for item in filter(None, (item.strip() for item in names.split(","))):
            name, _, other = item.partition(" as ")
            for piece in filter(None, (other or name).split("◌")):
                self.names[piece] = (path, name)


def code_lines(path):
    """The lines of a definitions file with their numbers, without comments and empty lines."""
    with open(os.path.join(TOP, path), encoding="utf-8") as file:
        lines = [(number, COMMENT.sub("", line.rstrip("\n")).rstrip()) for number, line in enumerate(file, 1)]
    return [(number, line) for number, line in lines if line.strip()]


def indent_of(line):
    """How far a line is indented."""
    return len(line) - len(line.lstrip())


def tokens_of(lines):
    """The tokens of numbered lines. A name in quotes is the name."""
    return TOKEN.findall(re.sub("[«»]", "", "\n".join(line for _, line in lines)))


def closing(tokens, place):
    """The place of the bracket that closes the one at a place."""
    depth = 0
    for at in range(place, len(tokens)):
        depth += (tokens[at] in "({") - (tokens[at] in ")}")
        if depth == 0:
            return at
    raise Unreadable("a bracket that is not closed: " + " ".join(tokens[place:place + 8]))


class Source:
    """A file of definitions: what it brings in, its definitions and operators, and the values that its data have."""

    def __init__(self, path):
        self.path, self.imports = path, Imports()
        self.definitions, self.constructors, self.operators = collections.OrderedDict(), {}, {}
        self.modules = []
        self.read(code_lines(path), 0, ())

    def named(self, name):
        """The definition of a name, or the data that have a value of that name."""
        for own in (self.definitions, self.operators):
            if name in own:
                return [own[name]]
        return self.constructors.get(name, [])

    def read(self, lines, indent, around):
        """The items of a block, which begin at one indent."""
        current, place = None, 0
        while place < len(lines):
            end = place + 1
            while end < len(lines) and (indent_of(lines[end][1]) > indent or lines[end][1].strip()[0] in "})"):
                end += 1
            current = self.item(lines[place:end], current, around)
            place = end

    def item(self, lines, current, around):
        """One item or clause; the definition that a clause after it may go on with."""
        number, first = lines[0]
        text = first.strip()
        if re.match(r"(pub )?use ", text):
            self.imports.add("\n".join(line for _, line in lines), f"{self.path}:{number}")
        elif text.startswith("module _ ") or text.endswith("mutual"):
            self.read(lines[1:], indent_of(lines[1][1]), around + (lines[0],))
        elif re.match(r"(pub )?mod ", text):
            self.modules.append(text.split()[-1])
        elif not text.startswith("infix"):
            return self.part(lines, text, current, around)
        return current

    def part(self, lines, text, current, around):
        """A head of a definition, or a clause of one."""
        head = HEAD.match(text)
        if head:
            kind, name = head.group(1) or "value", head.group(2) or head.group(3)
            current = self.definitions[name] = Definition(name, self, kind, around)
            for piece in filter(None, name.split("◌") if "◌" in name else ()):
                self.operators[piece] = current
        else:
            words = text.split()
            current = self.definitions.get(words[0]) or next((self.operators[word] for word in words if word in self.operators), None)
            if current is None or current.kind != "value":
                raise Unreadable(f"{self.path}:{lines[0][0]}: neither a definition nor a clause of one")
        current.chunks.append(lines)
        if current.kind == "data":
            self.values(lines, current)
        return current

    def values(self, lines, data):
        """The values that a data type names."""
        inner = min((indent_of(line) for _, line in lines[1:]), default=0)
        for _, line in lines[1:]:
            if indent_of(line) == inner and " : " in line:
                for name in line.strip().split(" : ")[0].split():
                    self.constructors.setdefault(name, []).append(data)


class RustSource:
    """A file of code: its ghost imports, what it uses of other crates, and its lines without comments."""

    def __init__(self, path):
        self.path, self.imports, self.uses, self.items = path, Imports(), {}, {}
        with open(os.path.join(TOP, path), encoding="utf-8") as file:
            self.lines = [CODE_COMMENT.sub("", line).rstrip() for line in file]
        text = "\n".join(self.lines)
        for found in re.finditer(r"^ghost (use [^;]*);", text, re.M):
            self.imports.add(found.group(1), path)
        for found in re.finditer(r"^(?:pub )?use (\w+)::\{?([^;]*);", text, re.M):
            for name in re.findall(r"\w+", found.group(2)):
                self.uses[name] = found.group(1)

    @staticmethod
    def named(name):
        """What a name is that no `use` brings in."""
        return [StdWord(STD_HOME, name)] if name in STD_VALUES else []

    def item(self, pattern):
        """The numbered lines of an item at the margin, from the line that matches up to the brace that ends it."""
        for start, line in enumerate(self.lines):
            if re.match(pattern, line):
                end = next(at for at in range(start, len(self.lines)) if re.match(r"\{?\}$", self.lines[at]))
                return [(at + 1, self.lines[at]) for at in range(start, end + 1) if self.lines[at].strip()]
        return None

    def definition(self, kind, name):
        """A type or trait of the file, or None."""
        if name not in self.items:
            lines = self.item(rf"pub(?:\([^)]*\))? (?:{kind}) {name}\b")
            self.items[name] = Definition(name, self, kind, (), [lines]) if lines else None
        return self.items[name]


def ghost_clauses(lines):
    """The clauses among lines of code: the word, the name, the line and the text of each."""
    text = "\n".join(line for _, line in lines)
    clauses = []
    for found in re.finditer(r"\b(requires|ensures|ghost)\b *(\w*):? *\{", text):
        depth, end = 1, found.end()
        while depth:
            depth += (text[end] == "{") - (text[end] == "}")
            end += 1
        number = lines[text.count("\n", 0, found.start())][0]
        clauses.append((found.group(1), found.group(2), number, text[found.start():end]))
    return clauses


class Library:
    """All sources, read as they are asked for."""

    def __init__(self):
        self.sources, self.code = {}, {}
        self.crates, self.subjects = [], {}
        above = ""
        with open(os.path.join(TOP, "crates.txt"), encoding="utf-8") as file:
            for line in file:
                if line.startswith("#"):
                    above = line[1:].strip()
                elif ":" in line:
                    self.crates.append(line.split(":")[0].split()[0])
                    self.subjects[self.crates[-1]], above = above, ""

    def source(self, path):
        """A file of definitions by its path."""
        if path not in self.sources:
            self.sources[path] = Source(path)
        return self.sources[path]

    def rust(self, path):
        """A file of code by its path."""
        if path not in self.code:
            self.code[path] = RustSource(path)
        return self.code[path]

    def files(self, crate, folder, ending):
        """The files of a folder of a crate, in the order in which its modules are named, then by name."""
        top = os.path.join(TOP, "crates", crate, folder)
        paths = glob.glob(os.path.join(top, "**", "*" + ending), recursive=True)
        found = {os.path.relpath(path, top)[:-len(ending)] for path in paths}

        def rank(name):
            ranks, parts = [], name.split("/")
            for depth in range(len(parts)):
                above = "/".join(parts[:depth]) or "Lib"
                named = self.source(f"crates/{crate}/{folder}/{above}{ending}").modules if above in found and ending == ".antt" else []
                ranks.append((named.index(parts[depth]) if parts[depth] in named else len(named), parts[depth]))
            return ranks

        return [f"crates/{crate}/{folder}/{name}{ending}" for name in sorted(found, key=rank)]

    def find(self, module, name):
        """What a name of a module is: a definition, the data that have a value of the name, or a word of a trusted library."""
        parts = module.split(".")
        if parts[0] != "Rattle" or len(parts) < 3:
            raise Unreadable(f"{module}: no module of a crate")
        if parts[1] not in self.crates:
            return [StdWord(module, name)]
        if parts[2:4] == ["specs", "declared"]:
            return [self.rust_item(parts[1], "struct|enum", next(part for part in parts[4:] if part[0].isupper()))]
        path = "/".join(["crates", parts[1], "specs"] + parts[3:]) + ".antt"
        if parts[2] != "specs" or not os.path.exists(os.path.join(TOP, path)):
            raise Unreadable(f"{module}: no file of definitions")
        found = self.source(path).named(name)
        if not found:
            raise Unreadable(f"{path}: no {name}")
        return found

    def rust_item(self, crate, kind, name):
        """A public type or trait of a crate of code."""
        for path in self.files(crate, "src", ".rt"):
            found = self.rust(path).definition(kind, name)
            if found:
                return found
        raise Unreadable(f"crates/{crate}: no {kind} {name}")

    def trait(self, source, name):
        """The trait that a bound in a file of code names."""
        crate = source.uses.get(name, "crate")
        own = source.definition("trait", name)
        return own or self.rust_item(source.path.split("/")[1] if crate in ("crate", "super", "self") else crate, "trait", name)
