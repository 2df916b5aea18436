"""The alternatives of classes, cut down to groups of units: what a class chooses in each, and whether each choice goes with each.

A column has the number of the choice that each alternative makes in a group, by the place at which that choice comes first. Of columns
beside each other no two alternatives have the same numbers.
"""
import collections
import math

from .changes import of_kind
from .expressions import SIZES, Expander, Unexpanded, places, tree_of
from .items import Class, Reservation, Units

NUMBERS, BYTE, SIZE = 16777216, 10, 3


class Effort:
    """How many numbers of choices may still be looked at, of all classes together."""

    def __init__(self, left=NUMBERS):
        self.left = left

    def allows(self, count):
        self.left -= count
        return self.left >= 0


class Splitter:
    """Cuts the units of a cycle into those of each group; units of no group are left out."""

    def __init__(self, masks):
        self.group = {place: at for at, mask in enumerate(masks) for place in places(mask)}
        self.known = {}

    def parts(self, row):
        """The groups that have units of a cycle, each with its units as bits."""
        if row not in self.known:
            found = {}
            for place in places(row):
                if place in self.group:
                    found[self.group[place]] = found.get(self.group[place], 0) | 1 << place
            self.known[row] = list(found.items())
        return self.known[row]

    def cut(self, rows):
        """What an alternative takes of each group: cycles with units of it, from the first on."""
        found = {}
        for cycle, row in enumerate(rows):
            if row:
                for group, units in self.parts(row):
                    found.setdefault(group, []).append((cycle, units))
        return {group: tuple(taken) for group, taken in found.items()}


def rows_of(choices):
    """What is taken of several groups, as the units of each cycle."""
    found = {}
    for choice in choices:
        for cycle, units in choice:
            found[cycle] = found.get(cycle, 0) | units
    return tuple(found.get(cycle, 0) for cycle in range(1 + max(found, default=-1)))


class Cut:
    """A list of alternatives in groups: of each that it takes the choices, and of each in which there is a choice the column."""

    def __init__(self, choices, columns):
        self.choices, self.columns = choices, columns

    @staticmethod
    def of(alternatives, splitter, effort):
        """Alternatives, each a tuple of the units of each cycle, in the groups of a splitter."""
        found, seen = [], set()
        for rows in alternatives:
            cut = splitter.cut(rows)
            key = frozenset(cut.items())
            if key not in seen:
                seen.add(key)
                found.append(cut)
        groups = sorted(set().union(*found))
        if not effort.allows(len(found) * len(groups)):
            raise Unexpanded("its choices are more than are looked at")
        choices, columns = {}, {}
        for group in groups:
            known = {}
            column = [known.setdefault(cut.get(group, ()), len(known)) for cut in found]
            choices[group] = list(known)
            if len(known) > 1:
                columns[group] = column
        return Cut(choices, columns)

    def length(self):
        """How many alternatives there are."""
        return len(next(iter(self.columns.values()), [0]))

    def size(self):
        """How many cycles with units of one group all alternatives have at most."""
        return self.length() * sum(max(map(len, choices)) for choices in self.choices.values())

    def key(self):
        """What two lists that are alike have in common."""
        return frozenset((group, tuple(choices), tuple(self.columns.get(group, ()))) for group, choices in self.choices.items())

    def within(self, groups):
        """The same in some of the groups, where alternatives that are alike are one."""
        kept = [group for group in groups if group in self.columns]
        wholes = dict.fromkeys(zip(*(self.columns[group] for group in kept)))
        return Cut({group: self.choices[group] for group in groups if group in self.choices}, dict(zip(kept, zip(*wholes))))

    def rows_in(self, groups):
        """The list of alternatives in some of the groups, as the units of each cycle."""
        made = self.within(groups)
        fixed = [choices[0] for group, choices in made.choices.items() if group not in made.columns]
        return [rows_of(fixed + [self.choices[group][number] for group, number in zip(made.columns, whole)])
                for whole in list(zip(*made.columns.values())) or [()]]


def joined(columns):
    """The column of several groups together."""
    known = {}
    return columns[0] if len(columns) == 1 else [known.setdefault(whole, len(known)) for whole in zip(*columns)]


def are_independent(ones, others):
    """Whether each that is in one column is as often with each in the other as if they were drawn apart."""
    first, second, both = collections.Counter(ones), collections.Counter(others), collections.Counter(zip(ones, others))
    return len(both) == len(first) * len(second) and all(
        count * len(ones) == first[one] * second[other] for (one, other), count in both.items())


def depend(together, others, effort):
    """Whether a column depends on others; if no more may be looked at it does."""
    if not effort.allows(len(together) * (len(others) + 4)):
        return True
    return not are_independent(together, list(zip(*others)))


def first_dependent(together, others, effort):
    """The place of the first of some columns that, with those before it, a column depends on; None if it depends on none of them."""
    if not others or not depend(together, others, effort):
        return None
    least, most = 1, len(others)
    while least < most:
        middle = (least + most) // 2
        if depend(together, others[:middle], effort):
            most = middle
        else:
            least = middle + 1
    return least - 1


def factors(columns, effort):
    """The finest sets of columns, by their places, of which the alternatives are the product.

    A column belongs to a set if the set depends on it and the columns before, and not on those before alone: if it were of another set,
    that set's columns could be left out, and those of this one before it would already say all.
    """
    left, found = list(range(len(columns))), []
    while left:
        own = [left.pop(0)]
        together = columns[own[0]]
        at = first_dependent(together, [columns[other] for other in left], effort)
        while at is not None:
            own.append(left.pop(at))
            together = joined([together, columns[own[-1]]])
            at = first_dependent(together, [columns[other] for other in left], effort)
        found.append(own)
    return found


def swap(columns):
    """Of a product: an alternative, by its numbers, and a group in which the choice before comes later, though its list has it before."""
    place = {whole: at for at, whole in enumerate(zip(*columns))}
    for whole, at in place.items():
        for group, number in enumerate(whole):
            if number and place[whole[:group] + (number - 1,) + whole[group + 1:]] > at:
                return place, whole, group
    return None


def turning(place, whole, at):
    """The group whose choice decides the order of two choices in another, of which an alternative has the later one first."""
    def is_kept(numbers):
        return place[numbers[:at] + (numbers[at] - 1,) + numbers[at + 1:]] < place[numbers]
    kept = next(other for other in place if other[at] == whole[at] and is_kept(other))
    for group, number in enumerate(kept):
        whole = whole[:group] + (number,) + whole[group + 1:]
        if is_kept(whole):
            return group
    raise AssertionError("two alternatives differ in no group")


def finest(columns, is_any, effort):
    """The finest sets of columns, by their places, of which the alternatives are the product, in an order that keeps that of each set, so
    that the first that fits is the first of each. With `is_any` the order is free."""
    sets = factors(columns, effort)
    while not is_any and len(sets) > 1:
        made = [joined([columns[at] for at in own]) for own in sets]
        if not effort.allows(len(made[0]) * len(made)):
            return [list(range(len(columns)))]
        found = swap(made)
        if not found:
            break
        one, other = sorted((found[2], turning(*found)))
        sets[one] += sets.pop(other)
    return sets


def lists_in(alternatives, splitter, effort, is_any=False):
    """The list of alternatives in each group of units that they take, where each choice in one goes with each in the others.

    An issue takes the first alternative that fits. So one with an earlier choice in some groups, and the same in the
    others, has to come before; with `is_any` an issue takes any.
    """
    made = Cut.of(alternatives, splitter, effort)
    check_product(list(made.columns.values()), is_any)
    return [made.rows_in([at]) for at in made.choices]


def check_product(columns, is_any):
    """Raises a reason if a choice in one column depends on another, or its order does."""
    if not columns:
        return
    if len(columns[0]) < math.prod(max(column) + 1 for column in columns):
        raise Unexpanded("a choice in one automaton depends on one in another")
    if not is_any and swap(columns):
        raise Unexpanded("the order of choices in one automaton depends on one in another")


class Choices:
    """The units of items, and of each class the alternatives, or why they are not there."""

    def __init__(self, items):
        self.items = items
        self.automaton = {name: item.automaton for item in of_kind(items, Units) for name in item.names}
        trees = {item.name: tree_of(item) for item in of_kind(items, Reservation)}
        self.expander = Expander(self.automaton, trees)
        self.trees, self.alternatives, self.left = {}, {}, {}
        for item in items:
            if isinstance(item, Reservation):
                self.expander.count_name(item.name)
            elif isinstance(item, Class):
                self.expand(item)

    def expand(self, item):
        self.trees[id(item)] = tree = tree_of(item)
        try:
            self.alternatives[id(item)] = self.expander.count(tree)
        except Unexpanded as why:
            self.left[id(item)] = str(why)

    def work(self):
        """How much work it was to read and to expand all, as entries of a table are counted."""
        read = sum(len(item.expression) for item in self.items if isinstance(item, (Reservation, Class)))
        return BYTE * read + SIZE * (SIZES - self.expander.room)

    def masks(self):
        """The units of each automaton as bits, in the order of the file."""
        found = {}
        for unit, bit in self.expander.bit.items():
            found[self.automaton[unit]] = found.get(self.automaton[unit], 0) | bit
        return found

    def units_of(self, item):
        """All units that the class leads to, whether it has alternatives or not."""
        names = {node.name for node in self.expander.reached(self.trees[id(item)])}
        return [unit for unit in self.automaton if unit in names]
