"""Finds what the names in definitions and clauses are, and all that is reached from them."""
import collections
import re

from .sources import STD_VALUES, StdWord, TOKEN, Unreadable, closing, ghost_clauses, indent_of, tokens_of

# Words of antt itself, and those that are not read.
BUILT_IN = frozenset(": = → × λ _ ⊥ ⊤ Type Unit tt absurd record where".split())
UNREAD = frozenset("elim let open unfolding ?".split())


def top_place(tokens, wanted):
    """The place of a token outside all brackets, or None."""
    place = 0
    while place < len(tokens):
        if tokens[place] == wanted:
            return place
        place = closing(tokens, place) + 1 if tokens[place] in "({" else place + 1
    return None


def split_binder(tokens):
    """The names and the type of `(x y : T)`; no names if it is none."""
    place = tokens.index(":") if ":" in tokens else 0
    if not place or any(token in "(){};," for token in tokens[:place]):
        return [], tokens
    return tokens[:place], tokens[place + 1:]


class Reader:
    """Goes through pieces of one file, and notes what is named there. A name that is bound there is no definition's."""

    def __init__(self, library, source, traits=None):
        self.library, self.source, self.traits = library, source, traits or {}
        self.found = []

    def resolve(self, token):
        """What a name is; nothing if the file knows no such name. An operator that is named whole, as `◌==◌`, goes by its first piece."""
        head, _, rest = next(filter(None, token.split("◌")), token).partition(".")
        if head in self.traits:
            return [self.traits[head]]
        if head in self.source.imports.modules and rest:
            return self.library.find(self.source.imports.modules[head], rest.split(".")[0])
        own = self.source.named(head)
        if not own and head in self.source.imports.names:
            return self.library.find(*self.source.imports.names[head])
        return own

    def name(self, token, bound):
        """A name that is used."""
        if token in BUILT_IN or token[0] in '".0123456789;,' or token.split(".")[0] in bound:
            return
        if token in UNREAD:
            raise Unreadable(f"{self.source.path}: `{token}` is not read")
        found = self.resolve(token)
        if not found:
            raise Unreadable(f"{self.source.path}: no name {token}")
        self.found.extend(found)

    def term(self, tokens, bound):
        """A term or type. What it binds is bound to the end of the level around it; all that is bound at its end."""
        bound, place = set(bound), 0
        while place < len(tokens):
            token = tokens[place]
            if token in "({":
                end = closing(tokens, place)
                bound |= self.group(token, tokens[place + 1:end], bound)
                place = end + 1
            elif token == "λ":
                place = self.binders(tokens, place + 1, bound)
            elif tokens[place + 1:place + 2] == ["←"]:
                bound.add(token)
                place += 2
            else:
                self.name(">>=" if token == "do" else token, bound)
                place += 1
        return bound

    def group(self, bracket, inside, bound):
        """What stands in brackets; the names that it binds after it."""
        names, rest = split_binder(inside)
        if bracket == "(" or names:
            self.term(rest, bound)
            return set(names)
        while inside:
            end = top_place(inside, ";")
            part, inside = (inside, []) if end is None else (inside[:end], inside[end + 1:])
            self.term(part[2:] if part[1:2] == ["="] else part, bound)
        return set()

    def binders(self, tokens, place, bound):
        """The names after a `λ`, which are bound from there on; the place after the dot."""
        while True:
            token = tokens[place]
            if token in "({":
                end = closing(tokens, place)
                names, rest = split_binder(tokens[place + 1:end])
                self.term(rest if names else [], bound)
                bound |= set(names or rest)
                place = end + 1
                continue
            bound.add(token.rstrip("."))
            place += 1
            if token.endswith("."):
                return place

    def pattern(self, tokens, bound):
        """The left side of a clause: values are used, and all other names are bound."""
        bound = set(bound)
        for token in tokens:
            if token in BUILT_IN or token in "(){};,":
                continue
            value = token.split(".")[-1]
            values_of = [item for item in self.resolve(token) if item.kind == "data" and item in item.source.constructors.get(value, ())]
            if token in STD_VALUES or values_of:
                self.name(token, ())
            else:
                bound.add(token)
        return bound

    def clause(self, lines, bound):
        """A clause of a definition, with the definitions of its own after `where`."""
        place = next((at for at, (_, line) in enumerate(lines) if line.strip() == "where"), len(lines))
        tokens, inner = tokens_of(lines[:place]), lines[place + 1:]
        equals = top_place(tokens, "=")
        bound = self.pattern(tokens[tokens[0] not in "({":equals], bound)
        bound |= {line.split()[0] for _, line in inner if re.match(r"\s*\S+ : ", line)}
        self.term(tokens[equals + 1:], bound)
        for line in inner:
            parts = tokens_of([line])
            if parts[1] == ":":
                self.term(parts[2:], bound)
            else:
                self.clause([line], bound)

    def fields(self, lines, bound, binds):
        """The fields of a record, each bound after it, or the values of a data type."""
        inner = min((indent_of(line) for _, line in lines), default=0)
        parts = []
        for number, line in lines:
            if indent_of(line) == inner:
                parts.append([])
            parts[-1].append((number, line))
        for part in parts:
            tokens = [token for token in tokens_of(part) if token != "pub"]
            place = tokens.index(":")
            self.term(tokens[place + 1:], bound)
            if binds:
                bound |= set(tokens[:place])

    def type_of(self, item, lines, bound):
        """The head of a data type or a record, and what it holds."""
        last = next(at for at, (_, line) in enumerate(lines) if line.endswith("where"))
        tokens = tokens_of(lines[:last + 1])
        head = tokens[tokens.index(item.kind) + 2:-1]
        colon = top_place(head, ":")
        # What comes after the colon is bound in the head alone.
        bound = self.term(head[:colon], bound)
        self.term(head[colon + 1:], bound)
        self.fields(lines[last + 1:], bound, item.kind == "record")

    def definition(self, item):
        """A definition with all its clauses."""
        bound = set()
        for head in item.around:
            tokens = tokens_of([head])
            if tokens[0] == "module":
                bound = self.term(tokens[2:-1], bound)
        for lines in item.chunks:
            tokens = tokens_of(lines)
            names = [token for token in tokens[:4] if token not in ("abbrev", "unfoldable", "pub")]
            if item.kind in ("data", "record"):
                self.type_of(item, lines, bound)
            elif names[1:2] == [":"]:
                self.term(tokens[tokens.index(":") + 1:], bound)
            else:
                self.clause(lines, bound)

    def trait(self, item):
        """The contracts of a trait."""
        text = "\n".join(line for _, line in item.chunks[0])
        bound = set(re.findall(r"(\w+)\s*:", text)) | {"self", "Self", "result"}
        for clause in ghost_clauses(item.chunks[0]):
            self.clause_of_code(clause[3], bound)

    def clause_of_code(self, text, bound):
        """A clause of a function or trait, between its braces."""
        self.term(TOKEN.findall(text[text.index("{") + 1:-1]), bound)


def citations(library, item):
    """What a definition names: definitions and words of libraries."""
    if item.cited is None:
        reader = Reader(library, item.source)
        if item.kind == "trait":
            reader.trait(item)
        elif item.kind in ("data", "record", "value"):
            reader.definition(item)
        item.cited = list(collections.OrderedDict.fromkeys(reader.found))
    return item.cited


def case_citations(library, item, value):
    """What the clauses of a definition name whose first argument is this value with its fields."""
    reader = Reader(library, item.source)
    for lines in item.chunks:
        if re.match(rf"\s*{item.name} \({value} ", lines[0][1]):
            reader.clause(lines, set())
    if not reader.found:
        raise Unreadable(f"{item.source.path}: {item.name} has no case of `{value}`")
    return reader.found


def reach(library, roots):
    """All definitions that are reached from here, and the words of libraries that they use."""
    seen, words, left = set(), set(), list(roots)
    while left:
        item = left.pop()
        if isinstance(item, StdWord):
            words.add(item)
        elif item not in seen:
            seen.add(item)
            left.extend(citations(library, item))
    return seen, words


Clause = collections.namedtuple("Clause", "word name line text cited")


def function_clauses(library, path, name):
    """The clauses of a public function, each with what it names."""
    source = library.rust(path)
    lines = source.item(rf"pub fn {name}\b")
    if lines is None:
        raise Unreadable(f"{path}: no public function {name}")
    end = next((at for at, (_, line) in enumerate(lines) if line.startswith("{")), len(lines))
    head = re.split(r"\b(?:requires|ensures)\b", "\n".join(line for _, line in lines[:end]))[0]
    generics = re.search(r"<(.*?)>\(", head, re.S)
    generics = generics.group(1) if generics else ""
    traits = {kind: library.trait(source, bound) for kind, bound in re.findall(r"(\w+): (\w+)", generics)}
    bound = (set(re.findall(r"(\w+)\s*:", head)) | set(re.findall(r"\w+", generics)) | {"result"}) - set(traits)
    clauses = []
    for word, clause, number, text in ghost_clauses(lines[:end]):
        reader = Reader(library, source, traits)
        reader.clause_of_code(text, bound)
        clauses.append(Clause(word, clause, number, text, reader.found))
    return clauses


Law = collections.namedtuple("Law", "path name line clauses")


def laws_of(library, crates):
    """The public functions of these crates that have an empty body."""
    laws = []
    for crate in crates:
        for path in library.files(crate, "src", ".rt"):
            source = library.rust(path)
            for number, line in enumerate(source.lines, 1):
                found = re.match(r"pub fn (\w+)", line)
                if found and source.item(rf"pub fn {found.group(1)}\b")[-1][1] == "{}":
                    laws.append(Law(path, found.group(1), number, function_clauses(library, path, found.group(1))))
    return laws
