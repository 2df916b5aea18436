"""Expressions of reservations, of a description that `hz` accepts, and the alternatives that they stand for.

A unit is a bit. An alternative is a tuple of numbers, the units of each cycle."""
import re

TOKEN = re.compile(r"[^\s,|+*()]+|[,|+*()]")
MARKS = ",|+"


class Parser:
    """Reads an expression as nested tuples: a mark and its parts, `name` and a name, `*` with a part and a number."""

    def __init__(self, text):
        self.tokens, self.at = TOKEN.findall(text), 0

    def next_is(self, mark):
        return self.at < len(self.tokens) and self.tokens[self.at] == mark

    def parts(self, level=0):
        """Parts with a mark of this level, or of a later one, between them."""
        if level == len(MARKS):
            return self.repeat()
        found = [self.parts(level + 1)]
        while self.next_is(MARKS[level]):
            self.at += 1
            found.append(self.parts(level + 1))
        return found[0] if len(found) == 1 else (MARKS[level], found)

    def repeat(self):
        found = self.element()
        while self.next_is("*"):
            found = ("*", [found], int(self.tokens[self.at + 1]))
            self.at += 2
        return found

    def element(self):
        token = self.tokens[self.at]
        self.at += 1
        if token != "(":
            return ("name", token)
        found = self.parts()
        self.at += 1
        return found


def parse(text):
    """The tree of an expression."""
    return Parser(text).parts()


def names_in(tree):
    """The names in a tree, from left to right."""
    if tree[0] == "name":
        return [] if tree[1] == "nothing" else [tree[1]]
    return [name for part in tree[1] for name in names_in(part)]


def followed_by(first, second):
    return first + second


def beside(first, second):
    longer, shorter = (first, second) if len(first) >= len(second) else (second, first)
    return tuple(one | other for one, other in zip(longer, shorter)) + longer[len(shorter):]


def joined(join, lists):
    """One alternative for each choice, the first part most significant."""
    found = [()]
    for alternatives in lists:
        found = [join(first, second) for first in found for second in alternatives]
    return found


class Expander:
    """The alternatives of expressions over units and reservations."""

    def __init__(self, bits, reservations):
        """`bits` has the bit of each unit, `reservations` the text of each reservation."""
        self.known = {unit: [(bit,)] for unit, bit in bits.items()}
        self.known["nothing"] = [(0,)]
        self.trees = {name: parse(text) for name, text in reservations.items()}

    def prepare(self, tree):
        """Makes known all that a tree leads to, without recursion over reservations."""
        waiting = [name for name in names_in(tree) if name not in self.known]
        while waiting:
            missing = [name for name in names_in(self.trees[waiting[-1]]) if name not in self.known]
            if missing:
                waiting += missing
            else:
                name = waiting.pop()
                self.known.setdefault(name, None)
                self.known[name] = self.expanded(self.trees[name])

    def of(self, text):
        """The alternatives of an expression, in their order."""
        tree = parse(text)
        self.prepare(tree)
        return self.expanded(tree)

    def expanded(self, tree):
        if tree[0] == "name":
            return self.known[tree[1]]
        if tree[0] == "*":
            return joined(followed_by, [self.expanded(tree[1][0])] * tree[2])
        lists = [self.expanded(part) for part in tree[1]]
        if tree[0] == "|":
            return [one for alternatives in lists for one in alternatives]
        return joined(followed_by if tree[0] == "," else beside, lists)
