"""Names with wildcards, as C's `fnmatch` matches them without a flag: in a bypass they stand for classes."""
import itertools
import re

MARKS = "*?["
STEPS, ROOM = 4194304, 2097152
KINDS = {"alpha": str.isalpha, "digit": str.isdigit, "alnum": str.isalnum, "upper": str.isupper, "lower": str.islower,
         "space": str.isspace, "blank": lambda mark: mark in " \t", "punct": lambda mark: mark.isprintable() and not mark.isalnum() and mark != " ",
         "print": str.isprintable, "graph": lambda mark: mark.isprintable() and mark != " ",
         "cntrl": lambda mark: not mark.isprintable(), "xdigit": lambda mark: mark in "0123456789abcdefABCDEF"}
KIND = re.compile(r"\[:([a-z]*):\]")
CHARACTER = re.compile(r"\[(?:\.(?=.\.)|=(?=.=))(.)[.=]\]", re.S)
BYTES = [chr(number) for number in range(1, 128)]


class Never(Exception):
    """A pattern that matches nothing."""


class Unclear(Exception):
    """A pattern that POSIX leaves open: in a set a `[:`, `[.` or `[=` that names nothing."""


class Set:
    """Reads what follows `[`: the characters that it stands for."""

    def __init__(self, pattern, at):
        self.pattern, self.at, self.found = pattern, at, set()

    def next(self):
        """The next character; the end of the pattern is an empty one."""
        return self.pattern[self.at:self.at + 1]

    def whole(self):
        """The characters, or None if no `]` ends the set: then `[` is a character as any other."""
        negated = self.next() in ("!", "^") and self.next() != ""
        self.at += negated
        first = True
        while first or self.next() != "]":
            if self.next() == "":
                return None
            self.take()
            first = False
        self.at += 1
        return set(BYTES) - self.found if negated else self.found

    def take(self):
        """Takes a character, a range or a kind of characters."""
        if self.pattern.startswith("[:", self.at):
            self.take_kind()
            return
        low = self.character()
        if self.next() == "-" and self.pattern[self.at + 1:self.at + 2] not in ("]", ""):
            self.at += 1
            high = self.character()
            self.found.update(mark for mark in BYTES if low <= mark <= high)
        else:
            self.found.add(low)

    def named(self, expression):
        """What `[:`, `[.` or `[=` names."""
        found = expression.match(self.pattern, self.at)
        if not found:
            raise Unclear
        self.at = found.end()
        return found[1]

    def take_kind(self):
        """Takes `[:kind:]`."""
        kind = KINDS.get(self.named(KIND))
        if not kind:
            raise Unclear
        self.found.update(mark for mark in BYTES if kind(mark))

    def character(self):
        """One character, in `[.` or `[=` too, or after a backslash."""
        if self.next() == "[" and self.pattern[self.at + 1:self.at + 2] in (":", ".", "="):
            return self.named(CHARACTER)
        self.at += self.next() == "\\"
        if self.next() == "":
            raise Never
        self.at += 1
        return self.pattern[self.at - 1]


def parts_of(pattern):
    """The parts of a pattern: `*`, or the set of characters that stand at one place."""
    at, parts = 0, []
    while at < len(pattern):
        mark = pattern[at]
        at += 1
        if mark == "*":
            parts.append("*")
        elif mark == "?":
            parts.append(set(BYTES))
        elif mark == "[":
            read = Set(pattern, at)
            found = read.whole()
            at = at if found is None else read.at
            parts.append({"["} if found is None else found)
        elif mark == "\\":
            if at == len(pattern):
                raise Never
            parts.append({pattern[at]})
            at += 1
        else:
            parts.append({mark})
    return parts


def front_of(parts):
    """The characters that each name has to begin with."""
    fixed = itertools.takewhile(lambda part: part != "*" and len(part) == 1, parts)
    return "".join(next(iter(part)) for part in fixed)


class TooMuch(Exception):
    """All patterns take more steps, or stand for more bytes, than is allowed."""


class Matcher:
    """Which names patterns match. All together they take a bounded number of steps, and stand for a bounded number of bytes."""

    def __init__(self, names):
        self.names, self.known, self.steps, self.room = list(names), {}, STEPS, ROOM

    def matching(self, pattern):
        """The names that a pattern matches, in their order."""
        if pattern not in self.known:
            try:
                parts = parts_of(pattern)
                front = front_of(parts)
                self.steps -= len(self.names)
                self.known[pattern] = [name for name in self.names if name.startswith(front) and self.matches(parts, name)]
            except Never:
                self.known[pattern] = []
        self.room -= sum(len(name) + 1 for name in self.known[pattern])
        if self.steps <= 0 or self.room <= 0:
            raise TooMuch
        return self.known[pattern]

    def matches(self, parts, name):
        """Whether parts match a whole name. Only the last `*` is ever tried anew."""
        part = place = 0
        star = tried = None
        while place < len(name) and self.steps > 0:
            self.steps -= 1
            wanted = parts[part] if part < len(parts) else ()
            if wanted == "*":
                star, tried, part = part, place, part + 1
            elif name[place] in wanted:
                part, place = part + 1, place + 1
            elif star is not None:
                tried += 1
                part, place = star + 1, tried
            else:
                return False
        self.steps -= 1
        return all(other == "*" for other in parts[part:])
