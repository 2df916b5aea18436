"""Writes a pipeline so that hz accepts what genautomata accepts, where it reads otherwise than docs/RULES.md.

- The patterns of all `presence_set` statements on a unit are joined, and one of them suffices; so are those of `final_presence_set`.
- Two exclusive units may be in one cycle of an alternative: they become one unit, excluded from what both are.
- Each automaton chooses by itself, also in an alternation of units of two automata.
- Of classes with the same alternatives in an automaton all try them in the order of the first, unless there is `ndfa`.
"""
import itertools
import math

from .changes import of_kind
from .expressions import Expander, Unexpanded, tree_of
from .forms import Fault
from .items import Class, Options, Reservation, Units, UnitSet

VARIANTS = 4096


def pattern_of(units):
    return " ".join(units)


def join_presences(items, reported):
    """One statement for each unit that is in several of one kind, with the patterns of all."""
    for head in ("presence_set", "final_presence_set"):
        statements = [item for item in of_kind(items, UnitSet) if item.head == head]
        by_unit = {}
        for item in statements:
            for unit in dict.fromkeys(item.units):
                by_unit.setdefault(unit, []).append(item)
        for unit, own in by_unit.items():
            if len(own) > 1:
                items = join_own(items, unit, own, reported)
    return [item for item in items if not isinstance(item, UnitSet) or item.units]


def join_own(items, unit, own, reported):
    """The items with one statement for a unit in place of several, after the first of them."""
    patterns = dict.fromkeys(pattern_of(pattern.split()) for item in own for pattern in item.patterns)
    joined = UnitSet(own[0].place, own[0].head, [unit], list(patterns))
    lines = ", ".join(str(item.place.line) for item in own)
    reported.tell(joined, "gcc", f"one pattern of {unit} suffices, of those of the lines {lines}")
    for item in own:
        item.units = [name for name in item.units if name != unit]
    at = next(place for place, item in enumerate(items) if item is own[0])
    return items[:at + 1] + [joined] + items[at + 1:]


class Exclusions:
    """Which units exclude each other, and the units that are made for several that one alternative takes in a cycle."""

    def __init__(self, items):
        self.others, self.made = {}, {}
        for item in of_kind(items, UnitSet):
            if item.head == "exclusion_set":
                for one, other in itertools.product(item.units, " ".join(item.patterns).split()):
                    self.others.setdefault(one, set()).add(other)
                    self.others.setdefault(other, set()).add(one)
        self.asked = {name for item in of_kind(items, Units) if item.query for name in item.names}
        self.order = {name: place for place, name in enumerate(name for item in of_kind(items, Units) for name in item.names)}
        self.used = set(self.order) | {item.name for item in of_kind(items, Reservation)}

    def excluded(self, units):
        """All that units exclude."""
        return set().union(*(self.others.get(unit, set()) for unit in units))

    def groups(self, units):
        """The units of a cycle that exclude each other, directly or by others."""
        left = [unit for unit in sorted(units, key=self.order.get) if self.others.get(unit, set()) & units]
        while left:
            group, waiting = set(), [left[0]]
            while waiting:
                unit = waiting.pop()
                if unit not in group:
                    group.add(unit)
                    waiting += self.others[unit] & units
            left = [unit for unit in left if unit not in group]
            yield frozenset(group)

    def unit_for(self, group):
        """The unit that stands for a group, in the name of which all are."""
        if group not in self.made:
            name = ".and.".join(sorted(group, key=self.order.get))
            while name in self.used:
                name += "."
            self.used.add(name)
            self.made[group] = name
        return self.made[group]

    def replaced(self, pairs, left):
        """Pairs with one unit for each group; a group with a unit that can be asked is not replaced, and `left` takes it."""
        cycles, found = {}, set(pairs)
        for cycle, unit in pairs:
            cycles.setdefault(cycle, set()).add(unit)
        for cycle, units in sorted(cycles.items()):
            for group in self.groups(units):
                if group & self.asked:
                    left.append(group)
                    continue
                found -= {(cycle, unit) for unit in group}
                found.add((cycle, self.unit_for(group)))
        return frozenset(found)

    def listed(self, group):
        return " and ".join(sorted(group, key=self.order.get))


class Lists:
    """The alternatives of each class in each automaton, as genautomata reads them, and the classes that have to be written so."""

    def __init__(self, items):
        self.items = items
        self.automaton = {name: item.automaton for item in of_kind(items, Units) for name in item.names}
        self.expander = Expander(self.automaton, {item.name: tree_of(item) for item in of_kind(items, Reservation)})
        self.exclusions = Exclusions(items)
        self.automata = list(dict.fromkeys(self.automaton.values()))
        self.lists, self.why, self.left = {}, {}, {}
        for item in of_kind(items, Class):
            try:
                self.expand(item)
            except Unexpanded as why:
                self.left[id(item)] = f"is left as it is: {why}"

    def expand(self, item):
        """The lists of a class, and why it has to be written anew, if it has."""
        tree, lists, why, left = tree_of(item), {name: {} for name in self.automata}, [], []
        before = [one.pairs for one in self.expander.of(tree)]
        after = [self.exclusions.replaced(pairs, left) for pairs in before]
        if left:
            self.left[id(item)] = (f"takes {self.exclusions.listed(left[0])} together, which hz can't say: "
                                   "a state can be asked for one of them")
        if after != before:
            why.append("takes exclusive units together")
        if self.expander.fault(tree):
            why.append("chooses in each automaton by itself")
        where = dict(self.automaton)
        where.update((name, self.automaton[next(iter(group))]) for group, name in self.exclusions.made.items())
        for pairs in after:
            for name, own in lists.items():
                own.setdefault(frozenset(pair for pair in pairs if where[pair[1]] == name))
        self.lists[id(item)] = {name: list(own) for name, own in lists.items()}
        self.why[id(item)] = why

    def order(self):
        """Of classes with the same alternatives in an automaton each takes the order of the first."""
        first = {}
        for item in of_kind(self.items, Class):
            for name, own in self.lists.get(id(item), {}).items():
                leader, order = first.setdefault((name, frozenset(own)), (item, own))
                if order != own:
                    self.lists[id(item)][name] = order
                    self.why[id(item)].append(f"tries its alternatives in the order of {leader.name}")

    def text(self, item):
        """The expression of a class, automaton by automaton."""
        order = {**self.exclusions.order}
        order.update((name, min(order[unit] for unit in group)) for group, name in self.exclusions.made.items())
        texts = [list_text(own, order) for own in self.lists[id(item)].values() if any(own)]
        if len(texts) > 1:
            return " + ".join(f"({text})" if "," in text or "|" in text else text for text in texts)
        return texts[0] if texts else "nothing"

    def write(self, reported):
        """Writes the classes that have to be written."""
        for item in of_kind(self.items, Class):
            why = self.why.get(id(item))
            if id(item) in self.left:
                reported.tell(item, "gcc", f"{item.name} {self.left[id(item)]}")
            if why:
                before, item.expression = item.expression, self.text(item)
                reported.tell(item, "gcc", f"{item.name} {' and '.join(dict.fromkeys(why))}")
                item.notes.append(f"was {before}")


def cycle_text(units, times):
    """The units of a cycle, so many times."""
    text = " + ".join(units) or "nothing"
    return text if times == 1 else f"({text})*{times}" if len(units) > 1 else f"{text}*{times}"


def sequence_text(pairs, order):
    """Pairs of a cycle and a unit as a sequence."""
    cycles = [[] for _ in range(1 + max((cycle for cycle, _ in pairs), default=0))]
    for cycle, unit in sorted(pairs, key=lambda pair: (order[pair[1]], pair[1])):
        cycles[cycle].append(unit)
    return ", ".join(cycle_text(units, len(list(run))) for units, run in itertools.groupby(cycles))


def list_text(alternatives, order):
    """The alternatives in one automaton."""
    texts = [sequence_text(pairs, order) for pairs in alternatives]
    return texts[0] if len(texts) == 1 else " | ".join(f"({text})" if "," in text or "+" in text else text for text in texts)


def add_units(items, exclusions, automaton, reported):
    """The items with the units that are made, each with what it excludes, and named in each statement that names one of its group."""
    for item in of_kind(items, UnitSet):
        if item.head != "exclusion_set":
            name_groups(item, exclusions)
    added, before = [], []
    for group, name in exclusions.made.items():
        place = next(item.place for item in of_kind(items, Units) if group & set(item.names))
        unit = Units(place, [name], automaton[next(iter(group))], False)
        reported.tell(unit, "gcc", f"{name} stands for {exclusions.listed(group)}, which one alternative takes together")
        apart = group | exclusions.excluded(group)
        others = sorted(apart, key=exclusions.order.get) + [made for other, made in before if other & apart]
        before.append((group, name))
        added.append((unit, UnitSet(place, "exclusion_set", [name], others)))
    last = max((place for place, item in enumerate(items) if isinstance(item, Units)), default=-1) + 1
    return items[:last] + [unit for unit, _ in added] + [excluded for _, excluded in added] + items[last:]


def name_groups(item, exclusions):
    """A statement that names a unit of a group asks the same of the unit that stands for the group."""
    standing = {}
    for group, name in exclusions.made.items():
        for unit in sorted(group):
            standing.setdefault(unit, []).append(name)
    item.units = list(dict.fromkeys(item.units + [name for unit in item.units for name in standing.get(unit, ())]))
    patterns = {}
    for pattern in item.patterns:
        choices = [[unit] + standing.get(unit, []) for unit in pattern.split()]
        if math.prod(map(len, choices)) > VARIANTS:
            raise Fault(item.place, f"a pattern has more than {VARIANTS} forms with the units that stand for several")
        for variant in itertools.product(*choices):
            patterns.setdefault(pattern_of(dict.fromkeys(variant)))
    item.patterns = list(patterns)


def read_as_gcc(items, reported):
    """The items as genautomata reads them, each change reported."""
    items = join_presences(items, reported)
    lists = Lists(items)
    if not any("ndfa" in item.names for item in of_kind(items, Options)):
        lists.order()
    lists.write(reported)
    return add_units(items, lists.exclusions, lists.automaton, reported)
