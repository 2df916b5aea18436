"""Expressions as trees, and the alternatives that they stand for."""
import collections
import dataclasses
import functools
import itertools
import re
import typing

from .forms import Fault
from .names import BLANKS, NAME_BYTES, brief, is_name

TOKEN = re.compile(f"[{NAME_BYTES}]+|[^{BLANKS}]")
MARKS = {",", "|", "+"}
DEPTH = 64
TIMES = 65535
ALTERNATIVES = 4096
CYCLES = 512
SIZES = 2097152
UNITS = 4096


@dataclasses.dataclass(frozen=True)
class Node:
    """A name, or parts with a mark between them; of `*` one part and a number."""
    mark: str
    name: str = ""
    parts: typing.Tuple["Node", ...] = ()
    times: int = 1

    def walk(self):
        """It and all nodes below, from the left."""
        waiting = [self]
        while waiting:
            node = waiting.pop()
            yield node
            waiting += reversed(node.parts)

    def names(self):
        """The units and reservations that it names, from the left, each once."""
        return list(dict.fromkeys(node.name for node in self.walk() if node.mark == "name"))


NOTHING = Node("nothing")


@functools.lru_cache(maxsize=65536)
def named(name):
    """The node of a name."""
    return Node("name", name)


def marked(mark, parts):
    """A node of parts; one part is itself."""
    return parts[0] if len(parts) == 1 else Node(mark, parts=tuple(parts))


class Wrong(Exception):
    """What is wrong with an expression."""


def is_above(digits, most):
    """Whether digits say more than a number; they may be many."""
    digits = digits.lstrip("0")
    return len(digits) > len(str(most)) or int(digits or "0") > most


class Parser:
    """Reads an expression. As in genautomata several repeats may follow an element; `doubled` has the places of such tokens: where the
    element begins, and where each repeat ends that another follows."""

    def __init__(self, text):
        self.tokens, self.at, self.open, self.doubled = TOKEN.findall(text), 0, 0, []

    def whole(self):
        found = self.parts()
        if self.at < len(self.tokens):
            raise self.unexpected()
        return found

    def next(self):
        """The next token, or None."""
        return self.tokens[self.at] if self.at < len(self.tokens) else None

    def unexpected(self):
        token = self.next()
        return Wrong("the expression ends too early" if token is None else f"`{brief(token)}` continues no expression")

    def parts(self):
        """Parts with marks between them: `+` binds more than `|`, and `|` more than `,`."""
        sequence, choices, together = [], [], []
        while True:
            together.append(self.repeat())
            mark = self.next()
            self.at += mark in MARKS
            if mark == "+":
                continue
            choices.append(marked("+", together))
            together = []
            if mark == "|":
                continue
            sequence.append(marked("|", choices))
            choices = []
            if mark != ",":
                return marked(",", sequence)

    def repeat(self):
        start, found = self.at, self.element()
        while self.next() == "*":
            if found.mark == "*" and self.tokens[self.at - 1] != ")":
                self.doubled.append((start, self.at))
            self.at += 1
            found = Node("*", parts=(found,), times=self.times())
        return found

    def times(self):
        """The number after `*`."""
        token = self.next()
        if token is None:
            raise self.unexpected()
        if not (token.isascii() and token.isdecimal()) or not token.strip("0"):
            raise Wrong(f"`{brief(token)}` is no number of times")
        if is_above(token, TIMES):
            raise Wrong(f"`{brief(token)}` times is more than {TIMES}")
        self.at += 1
        return int(token)

    def element(self):
        """A name or an expression in parentheses."""
        token = self.next()
        if token == "(":
            self.open += 1
            if self.open > DEPTH:
                raise Wrong(f"more than {DEPTH} parentheses are open")
            self.at += 1
            found = self.parts()
            if self.next() != ")":
                raise self.unexpected()
            self.at += 1
            self.open -= 1
            return found
        if token is None or not is_name(token):
            raise self.unexpected()
        self.at += 1
        return NOTHING if token == "nothing" else named(token)


@functools.lru_cache(maxsize=65536)
def parsed(text):
    """The tree of an expression, and the parser that read it."""
    parser = Parser(text)
    return parser.whole(), parser


def is_doubled(text):
    """Whether an expression has two repeats after one element."""
    return bool(parsed(text)[1].doubled)


def tree_of(item):
    """The expression of a reservation or of a class."""
    try:
        return parsed(item.expression)[0]
    except Wrong as wrong:
        raise Fault(item.place, str(wrong)) from wrong


def with_single_repeats(text):
    """An expression with at most one repeat after an element, by parentheses round what is repeated again; None if it is one already."""
    if not is_doubled(text):
        return None
    parser = parsed(text)[1]
    before, after = collections.Counter(start for start, _ in parser.doubled), {end for _, end in parser.doubled}
    return "".join("(" * before[at] + token + ")" * (at + 1 in after) + " " * (token == ",") for at, token in enumerate(parser.tokens))


def names_in(text):
    """The units and reservations that an expression names; it may be wrong."""
    tokens = TOKEN.findall(text)
    return [token for before, token in zip([""] + tokens, tokens) if before != "*" and token != "nothing" and is_name(token)]


class Unexpanded(Exception):
    """Why an expression has no alternatives here."""


class Measure(typing.NamedTuple):
    """What is known of alternatives before they are there: how many there are, their least and greatest number of cycles, the automata
    of their units, and which of the two rules on several automata are broken. Numbers stop soon after the limits."""
    count: int
    shortest: int
    longest: int
    automata: frozenset
    mixed: bool = False
    uneven: bool = False


def capped(count, shortest, longest):
    return min(count, ALTERNATIVES + 1), min(shortest, CYCLES + 1), min(longest, CYCLES + 1)


def power(count, times):
    """So many factors that are alike, up to where it is too much."""
    return 1 if count == 1 else ALTERNATIVES + 1 if times > 12 else count ** times


def measure_of_parts(node, parts):
    """The measure of parts with a mark between them."""
    automata = frozenset().union(*(part.automata for part in parts))
    mixed, uneven = any(part.mixed for part in parts), any(part.uneven for part in parts)
    counts = [part.count for part in parts]
    if node.mark == "|":
        numbers = sum(counts), min(part.shortest for part in parts), max(part.longest for part in parts)
        return Measure(*capped(*numbers), automata, mixed or len(automata) > 1, uneven)
    if node.mark == "+":
        numbers = product(counts), max(part.shortest for part in parts), max(part.longest for part in parts)
        return Measure(*capped(*numbers), automata, mixed, uneven)
    if node.mark == "*":
        part, times = parts[0], node.times
        varies = times > 1 and part.shortest < part.longest
        return Measure(*capped(power(part.count, times), part.shortest * times, part.longest * times), automata, mixed, uneven or varies)
    varies = any(part.shortest < part.longest for part in parts[:-1])
    numbers = product(counts), sum(part.shortest for part in parts), sum(part.longest for part in parts)
    return Measure(*capped(*numbers), automata, mixed, uneven or varies)


def product(counts):
    """Of numbers from 1 on, up to where it is too much."""
    found = 1
    for count in counts:
        found = min(found * count, ALTERNATIVES + 1)
    return found


def followed_by(first, second):
    return first + second


def beside(first, second):
    longer, shorter = (first, second) if len(first) >= len(second) else (second, first)
    return tuple(map(int.__or__, longer, shorter)) + longer[len(shorter):]


def count_bits(bits):
    return bin(bits).count("1")


if hasattr(int, "bit_count"):
    count_bits = int.bit_count


def size_of(rows):
    """The size of an alternative: its cycles and its pairs."""
    return len(rows) + sum(map(count_bits, rows))


@dataclasses.dataclass(frozen=True)
class Alternative:
    """The units of each cycle as bits, by their places in `units`."""
    rows: tuple
    units: tuple = dataclasses.field(repr=False, compare=False)

    @property
    def cycles(self):
        return len(self.rows)

    @property
    def pairs(self):
        """The pairs of a cycle and a unit."""
        return frozenset((cycle, self.units[place]) for cycle, row in enumerate(self.rows) for place in places(row))


def places(bits):
    """The places of the bits that are set, from the least on."""
    while bits:
        least = bits & -bits
        yield least.bit_length() - 1
        bits ^= least


class Expander:
    """The alternatives of expressions over units and reservations, with their two rules on several automata.

    An alternative is made as a tuple with the bits of the units of each cycle. Nothing is expanded before its measure is known to be
    within the limits of hz; what has been counted keeps the sum of all sizes within its limit.
    """

    def __init__(self, automaton, trees):
        """`automaton` has the units and the automaton of each, `trees` the expressions of reservations."""
        self.automaton, self.trees = automaton, trees
        self.units = tuple(automaton)
        self.bit = {unit: 1 << place for place, unit in enumerate(self.units[:UNITS])}
        self.of_units = {name: Measure(1, 1, 1, frozenset([name])) for name in automaton.values()}
        self.measured, self.known, self.room = {}, {}, SIZES

    def of(self, tree):
        """The alternatives of an expression, in their order."""
        return [Alternative(rows, self.units) for rows in self.rows_of(tree)]

    def rows_of(self, tree):
        """The same as tuples of bits."""
        self.measure(tree)
        for name in tree.names():
            self.expand_name(name)
        return self.expanded(tree)

    def count(self, tree):
        """The alternatives of a class, the sizes of which are counted among all."""
        rows = self.rows_of(tree)
        self.take_room(rows)
        return rows

    def count_name(self, name):
        """Counts the sizes of a reservation, if it has alternatives."""
        try:
            self.rows_of(Node("name", name))
        except Unexpanded:
            pass

    def take_room(self, rows):
        sizes = sum(map(size_of, rows))
        if sizes > self.room:
            self.room = 0
            raise Unexpanded(f"the sizes of all alternatives sum to more than {SIZES}")
        self.room -= sizes

    def in_order(self, name):
        """The reservations to which a name leads that are not measured, each after those that it names; circles are reported."""
        waiting, is_open = [(name, iter([name]))], {None}
        while waiting:
            holder, others = waiting[-1]
            other = next((one for one in others if one in self.trees and one not in self.measured), None)
            if other is None:
                waiting.pop()
                if waiting:
                    is_open.discard(holder)
                    yield holder
            elif other in is_open:
                self.measured[other] = Unexpanded(f"{other} reaches itself")
            else:
                is_open.add(other)
                waiting.append((other, iter(self.trees[other].names())))

    def measure_name(self, name):
        """The measure of a unit or of a reservation."""
        if name in self.automaton:
            return self.of_units[self.automaton[name]]
        if name not in self.trees:
            raise Unexpanded(f"{name} is not defined")
        if isinstance(self.measured[name], Unexpanded):
            raise self.measured[name]
        return self.measured[name]

    def resolve(self, name):
        """Measures a name after all to which it leads."""
        for one in self.in_order(name):
            if one not in self.measured:
                try:
                    self.measured[one] = self.within(self.trees[one])
                except Unexpanded as why:
                    self.measured[one] = why

    def measure(self, tree):
        """The measure of an expression, which is within the limits."""
        if len(self.units) > UNITS:
            raise Unexpanded(f"more than {UNITS} units are defined")
        for name in tree.names():
            if name in self.trees and name not in self.automaton:
                self.resolve(name)
        return self.within(tree)

    def within(self, tree):
        """The same, if all names are measured."""
        found = self.measure_node(tree)
        if found.count > ALTERNATIVES:
            raise Unexpanded(f"more than {ALTERNATIVES} alternatives")
        if found.longest > CYCLES:
            raise Unexpanded(f"more than {CYCLES} cycles")
        return found

    def measure_node(self, node):
        if node.mark == "name":
            return self.measure_name(node.name)
        if node.mark == "nothing":
            return Measure(1, 1, 1, frozenset())
        return measure_of_parts(node, [self.measure_node(part) for part in node.parts])

    def expand_name(self, name):
        """Expands a reservation after all to which it leads, and counts the sizes of each."""
        waiting = [(name, iter([name]))]
        while waiting:
            holder, others = waiting[-1]
            other = next((one for one in others if one in self.trees and one not in self.automaton and one not in self.known), None)
            if other is not None:
                waiting.append((other, iter(self.trees[other].names())))
                continue
            waiting.pop()
            if waiting and holder not in self.known:
                self.known[holder] = self.expanded(self.trees[holder])
                self.take_room(self.known[holder])

    def expanded(self, node):
        """The alternatives of an expression whose names are expanded."""
        if node.mark == "name":
            return [(self.bit[node.name],)] if node.name in self.bit else self.known[node.name]
        if node.mark == "nothing":
            return [(0,)]
        if node.mark == "*":
            return self.repeated(self.expanded(node.parts[0]), node.times)
        lists = [self.expanded(part) for part in node.parts]
        if node.mark == "|":
            return [one for alternatives in lists for one in alternatives]
        return self.joined(followed_by if node.mark == "," else beside, lists)

    def repeated(self, part, times):
        """So many copies, each of which chooses by itself."""
        if times == 1:
            return part
        half = self.repeated(part, times // 2)
        whole = self.each_choice(followed_by, half, half)
        return self.each_choice(followed_by, whole, part) if times % 2 else whole

    def joined(self, join, lists):
        """One for each choice; halves are joined, so that no long front is made anew for each part."""
        if len(lists) == 1:
            return lists[0]
        if join is followed_by and all(len(one) == 1 for one in lists):
            return self.each_choice(lambda rows, _: rows, [tuple(itertools.chain.from_iterable(one[0] for one in lists))], [()])
        half = len(lists) // 2
        return self.each_choice(join, self.joined(join, lists[:half]), self.joined(join, lists[half:]))

    def each_choice(self, join, firsts, seconds):
        """One for each choice, the first most significant. What is too large in a part is too large in the whole."""
        found, room = [], self.room
        for first, second in itertools.product(firsts, seconds):
            found.append(join(first, second))
            room -= size_of(found[-1])
            if room < 0:
                self.room = 0
                raise Unexpanded(f"the sizes of all alternatives sum to more than {SIZES}")
        return found

    def reached(self, tree):
        """The nodes of an expression and of all reservations that it leads to."""
        seen, waiting = set(), [tree]
        while waiting:
            for node in waiting.pop().walk():
                yield node
                if node.name in self.trees and node.name not in seen:
                    seen.add(node.name)
                    waiting.append(self.trees[node.name])

    def fault(self, tree):
        """Which of the two rules on several automata an expression breaks, or None."""
        measure = self.measure(tree)
        if len(measure.automata) < 2:
            return None
        if measure.mixed:
            return "an alternation has units of two automata"
        return "a part before a comma has two lengths" if measure.uneven else None
