"""Cuts automata into groups of units that nothing ties to each other, so that their states add and don't multiply.

Two units are tied if a set statement names both, or if some class chooses between them: its list of alternatives in the automaton has
to be the product of its lists in the groups. The order of the list has to keep the order of each of these, so that the first that fits is
the first of each group; under `ndfa` the product is enough.
"""
import heapq
import itertools
import math

from .changes import of_kind
from .choices import Choices, Cut, Effort, Splitter, check_product, finest, joined
from .expressions import Unexpanded
from .grouping import Search, members
from .items import Automata, Class, Options, Units, UnitSet
from .merging import Joined
from .spelling import class_text, longest
from .states import MOST, Counter, Part
from .writing import BYTES, length_of

AUTOMATA, GROUPS, LIST = 16, 64, 160  # LIST: the steps to make the list of a class, beside those for its size


class Ties:
    """The units of one automaton in groups, the finest for which all classes and set statements allow a cut.

    What set statements tie are its atoms: classes are cut into these, and tie them to each other.
    """

    def __init__(self, name, units, bits, is_any, effort):
        self.name, self.units, self.is_any, self.effort = name, units, is_any, effort
        self.bits = {unit: bits.get(unit, 0) for unit in units}
        self.joined, self.why = Joined(units), []
        self.atoms, self.lists, self.taking = {}, {}, {}  # the atom of each unit; of each class it and its list; the classes that take an atom
        self.first, self.like = {}, {}  # the first class with each list; of each class the first with the same list, which says all of it
        self.closed = {}  # in how many groups each class chose when its ties were last looked for

    def take(self, item, made):
        """Takes the list of a class."""
        first = self.like[id(item)] = self.first.setdefault(made.key(), id(item))
        if first != id(item):
            return
        self.lists[first] = item, made
        for atom in made.choices:
            self.taking.setdefault(atom, []).append(id(item))

    def tie(self, units, why):
        """Ties units of the automaton; `why` is kept if they were not."""
        if self.joined.join(unit for unit in units if unit in self.joined.leader):
            self.why.append(why)

    def groups(self):
        """The units of each group, in their order."""
        found = {}
        for unit in self.units:
            found.setdefault(self.joined.find(unit), []).append(unit)
        return list(found.values())

    def mask(self, units):
        return sum(self.bits[unit] for unit in units)

    def close(self):
        """Ties the groups between which classes choose, until none is left."""
        grown = True
        while grown:
            grown = any([self.tie_class(key) for key in self.lists])

    def tie_class(self, key):
        """Ties groups between which one class chooses. Gives whether there are any."""
        item, made = self.lists[key]
        parts = {}
        for atom in made.columns:
            parts.setdefault(self.joined.find(atom), []).append(atom)
        if len(parts) < 2 or self.closed.get(key) == len(parts):
            return False
        columns, leaders = [joined([made.columns[atom] for atom in atoms]) for atoms in parts.values()], list(parts)
        sets = finest(columns, self.is_any, self.effort)
        beyond = ", which are more than are looked at" if self.effort.left < 0 else ""
        for own in sets:
            self.tie([leaders[at] for at in own], f"the choices of {item.name}{beyond}")
        self.closed[key] = len(sets)
        return len(sets) < len(parts)

    def join_idle(self):
        """Joins units that no class takes to the first group of others: they make no states there."""
        busy = {self.joined.find(atom) for atom in self.taking}
        idle = [units[0] for units in self.groups() if units[0] not in busy]
        self.joined.join(idle + sorted(busy, key=self.joined.order.get)[:1])

    def list_in(self, key, units):
        """The list of a class in some of the units, which are whole groups."""
        return self.lists[self.like[key]][1].rows_in(dict.fromkeys(self.atoms[unit] for unit in units))


class Plan:
    """How an automaton may be cut: its finest groups, those that are chosen, each of one or more of them, and the least states of groups."""

    def __init__(self, ties, statements, queries, counter):
        self.ties, self.queries, self.counter, self.known, self.bounds = ties, queries, counter, {}, {}
        self.statements = {}
        for item in statements:
            if item.units and all(unit in ties.atoms for unit in item.named()):
                self.statements.setdefault(ties.atoms[item.units[0]], []).append(item)
        ties.close()
        ties.join_idle()
        self.finest = self.groups = ties.groups()
        self.bit = {unit: 1 << at for at, units in enumerate(self.finest) for unit in units}
        self.weights, self.why = [], f"there are at most {AUTOMATA} automata"

    def states(self, units):
        """The least states of some of the units; None if they are not counted."""
        key = tuple(units)
        if key not in self.known:
            self.known[key], self.bounds[key] = self.count(units)
        return self.known[key]

    def count(self, units):
        """The same, counted, and a number that they are not below."""
        atoms = dict.fromkeys(self.ties.atoms[unit] for unit in units)
        keys = dict.fromkeys(key for atom in atoms for key in self.ties.taking.get(atom, ()))
        statements = [item for atom in atoms for item in self.statements.get(atom, ())]
        names = sum(len(item.named()) for item in statements)
        if not self.counter.allows(sum(LIST + made.size() + made.length() * names for _, made in map(self.ties.lists.get, keys))):
            return None, 0
        lists = [self.ties.list_in(key, units) for key in keys]
        queries = [unit for unit in units if unit in self.queries]
        return self.counter.count(Part(units, self.ties.bits, lists, statements, queries), self.ties.is_any)

    def whole(self):
        return self.states(self.ties.units)

    def sum(self):
        """The least states of all groups, or None."""
        counts = [self.states(units) for units in self.groups]
        return None if None in counts else sum(counts)

    def pays(self):
        """Whether the groups have fewer states than the whole; if that is more than is counted, fewer than it has at least."""
        made, whole = self.sum(), self.whole()
        return made is not None and made < (self.bounds[tuple(self.ties.units)] if whole is None else whole)

    def fewest(self):
        """The states of the whole or of the groups, if they are counted."""
        return min(math.inf if count is None else count for count in (self.sum(), self.whole()))

    def united(self, groups):
        """The units of a set of the finest groups, in their order."""
        return [unit for unit in self.ties.units if self.bit[unit] & groups]

    def beside(self):
        """Of each of the finest groups those that a class takes together with it."""
        found = {1 << at: 1 << at for at in range(len(self.finest))}
        for _, made in self.ties.lists.values():
            together = sum({self.bit[atom] for atom in made.choices})
            for group in members(together):
                found[group] |= together
        return found

    def look(self):
        """Chooses the sets of the finest groups with the fewest states that are found."""
        if 1 < len(self.finest) <= GROUPS:
            found = Search(lambda groups: self.states(self.united(groups)), self.beside()).best()
            if len(found) > 1:
                self.groups = [self.united(groups) for groups in sorted(found, key=lambda groups: groups & -groups)]

    def stay_whole(self):
        """Makes no cut, and says why."""
        self.why = f"it has {counted(self.whole())}, and {len(self.groups)} groups would have {counted(self.sum())}"
        self.groups = [self.ties.units]

    def reported(self, names):
        """The groups by their new names, and how many states they have if that was counted."""
        groups = "; ".join(f"{name}: {', '.join(units)}" for name, units in zip(names, self.groups))
        if tuple(self.ties.units) not in self.known:
            return groups
        return f"{groups}; {counted(self.whole())} before, {counted(self.sum())} after"

    def join(self, together):
        """Makes one of several groups."""
        units = set().union(*together)
        made = [unit for unit in self.ties.units if unit in units]
        self.groups = [made if group[0] == made[0] else group for group in self.groups if group[0] == made[0] or group[0] not in units]

    def weigh(self):
        """Weighs each group by its states, or by how many they may be."""
        self.weights = [(self.states(units) or MOST, at, [units]) for at, units in enumerate(self.groups)]
        heapq.heapify(self.weights)

    def cheapest(self):
        """What it may cost to join the two groups with the fewest states, which have the least product."""
        few, more = self.weights[0][0], min(self.weights[1:3])[0]
        return few * more - few - more

    def join_cheapest(self):
        """Makes one of the two groups with the fewest states."""
        few, at, units = heapq.heappop(self.weights)
        more, _, others = heapq.heappop(self.weights)
        heapq.heappush(self.weights, (few * more, at, units + others))

    def join_weighed(self):
        """Joins what was made one."""
        for _, _, together in self.weights:
            if len(together) > 1:
                self.join(together)


def plural(count, word):
    return f"{count} {word}" + ("" if count == 1 else "s")


def counted(states):
    return "more states than are counted" if states is None else plural(states, "state")


class Splitting:
    """The automata of items, each with its plan, and the classes that are left as they are."""

    def __init__(self, items, choices, left, effort, counter):
        self.items, self.choices, self.left, self.counter = items, choices, dict(left), counter
        self.is_any = any("ndfa" in item.names for item in of_kind(items, Options))
        self.queries = {unit for item in of_kind(items, Units) if item.query for unit in item.names}
        units = {name: [] for name in self.defined()}
        for unit, automaton in choices.automaton.items():
            units.setdefault(automaton, []).append(unit)
        self.ties = {name: Ties(name, own, choices.expander.bit, self.is_any, effort) for name, own in units.items() if own}
        statements = of_kind(items, UnitSet)
        for item in statements:
            self.tie(item.named(), f"the {item.head} of {item.place}")
        self.take_all(effort)
        self.plans = [Plan(ties, statements, self.queries, counter) for ties in self.ties.values()]
        self.made, self.alike = {}, {}

    def defined(self):
        return [name for item in of_kind(self.items, Automata) for name in item.names]

    def tie(self, units, why):
        for ties in self.ties.values():
            ties.tie(units, why)

    def take_all(self, effort):
        """The list of each class in each automaton, cut into what set statements tie."""
        atoms = [(ties, units) for ties in self.ties.values() for units in ties.groups()]
        for ties, units in atoms:
            ties.atoms.update((unit, units[0]) for unit in units)
        splitter = Splitter([ties.mask(units) for ties, units in atoms])
        for item in of_kind(self.items, Class):
            try:
                self.take(item, atoms, splitter, effort)
            except Unexpanded as why:
                self.left[id(item)] = str(why)
                self.tie(self.choices.units_of(item), f"{item.name}, which is left as it is: {why}")

    def take(self, item, atoms, splitter, effort):
        """The list of one class. If there is none it is left as it is, and its units in one automaton are tied."""
        key, own = id(item), {}
        if key in self.left:
            raise Unexpanded(self.left[key])
        made = Cut.of(self.choices.alternatives[key], splitter, effort)
        for at in made.choices:
            own.setdefault(id(atoms[at][0]), (atoms[at][0], []))[1].append(at)
        columns = [[made.columns[at] for at in places if at in made.columns] for _, places in own.values()]
        check_product([joined(several) for several in columns if several], self.is_any)
        for ties, places in own.values():
            found = made.within(places)
            ties.take(item, Cut({atoms[at][1][0]: choices for at, choices in found.choices.items()},
                                {atoms[at][1][0]: column for at, column in found.columns.items()}))

    def count(self):
        """How many automata there are, those without units too."""
        return sum(len(plan.groups) for plan in self.plans) + sum(name not in self.ties for name in self.defined())

    def choose(self, is_all):
        """Leaves the cuts that are made: those that pay, or all; there are at most 16 automata after them."""
        if len(set(self.defined()) | set(self.ties)) >= AUTOMATA:
            for plan in self.plans:
                plan.groups = [plan.ties.units]
        elif not is_all:
            self.look()
        if self.count() > AUTOMATA:
            self.join_most(self.count() - AUTOMATA)
            if not is_all:
                self.keep_paying()

    def look(self):
        """Chooses the groups of each automaton, of those with most states first: each may take half of the work that is left."""
        for plan in sorted(self.plans, key=Plan.fewest, reverse=True):
            with self.counter.half():
                plan.look()
        self.keep_paying()

    def join_most(self, above):
        """Joins the groups whose joining may cost least, so many of them."""
        cut = [plan for plan in self.plans if len(plan.groups) > 1]
        for plan in cut:
            plan.weigh()
        for _ in range(above):
            left = [plan for plan in cut if len(plan.weights) > 1]
            if not left:
                break
            min(left, key=Plan.cheapest).join_cheapest()
        for plan in cut:
            plan.join_weighed()

    def keep_paying(self):
        """Undoes cuts that don't pay."""
        for plan in self.plans:
            if len(plan.groups) > 1 and not plan.pays():
                plan.stay_whole()

    def names(self):
        """The new name of each group of each plan: the automaton's with a number, or that of the first unit if there is no automaton."""
        taken, found = set(self.defined()), {}
        for plan in self.plans:
            if len(plan.groups) == 1:
                continue
            mark = "."
            while any(f"{plan.ties.name}{mark}{at}" in taken for at in range(1, len(plan.groups) + 1)):
                mark += "."
            found[plan.ties.name] = [units[0] if plan.ties.name is None else f"{plan.ties.name}{mark}{at}"
                                     for at, units in enumerate(plan.groups, 1)]
        return found

    def lists_of(self, item):
        """The lists of a class in each automaton after the cuts, or None if it stays as it is."""
        if id(item) not in self.made:
            self.made[id(item)] = self.make_lists(item)
        return self.made[id(item)]

    def make_lists(self, item):
        """The same, made."""
        key = id(item)
        if key in self.left:
            return None
        plans = [plan for plan in self.plans if key in plan.ties.like]
        if all(len(plan.groups) == 1 for plan in plans) and not self.is_broken(item):
            return None
        like = tuple(plan.ties.like[key] for plan in plans)
        if like not in self.alike:
            lists = [plan.ties.list_in(key, units) for plan in plans for units in plan.groups]
            self.alike[like] = [grids for grids in lists if grids != [()]]
        return self.alike[like]

    def is_broken(self, item):
        return self.choices.expander.fault(self.choices.trees[id(item)]) is not None

    def write(self, reported):
        """Writes the automata, the units and the classes, and tells what was cut."""
        names = self.names()
        self.tell(names, reported)
        of_unit = {unit: name for plan in self.plans if plan.ties.name in names
                   for name, units in zip(names[plan.ties.name], plan.groups) for unit in units}
        for item in of_kind(self.items, Class):
            lists = self.lists_of(item)
            if lists is not None:
                if self.is_broken(item):
                    reported.tell(item, "split", f"{item.name} is written automaton by automaton")
                item.notes.append(f"was {item.expression}")
                item.expression = class_text(lists, self.choices.expander.units)
        made = [one for item in self.items for one in with_automata(item, names, of_unit)]
        if None in names:
            first = next(at for at, item in enumerate(made) if isinstance(item, Units))
            made.insert(first, Automata(made[first].place, names[None]))
        return made

    def tell(self, names, reported):
        """Each automaton that is cut, and each that is not though it has several units."""
        forms = {name: item for item in of_kind(self.items, Automata) for name in item.names}
        first = next(iter(of_kind(self.items, Units)), None)
        for plan in self.plans:
            form, name = forms.get(plan.ties.name, first), plan.ties.name or "-"
            if plan.ties.name in names:
                reported.tell(form, "split", f"{name} into {plan.reported(names[plan.ties.name])}")
            elif len(plan.finest) > 1:
                reported.tell(form, "unsplit", f"{name} stays whole, as {plan.why}")
            elif plan.ties.why:
                reported.tell(form, "unsplit", f"{name} can't be cut: its units are tied by {several(plan.ties.why)}")

    def above(self):
        """By how many bytes the text may be too long, and how long the text of each class that is written may be."""
        made = {id(item): self.lists_of(item) for item in of_kind(self.items, Class)}
        lengths = {key: longest(lists, self.choices.expander.units) for key, lists in made.items() if lists is not None}
        return length_of(self.items) + sum(lengths.values()) - BYTES, lengths


def several(reasons):
    """Some of the reasons, and how many more there are."""
    shown = list(dict.fromkeys(reasons))
    return ", ".join(shown[:3]) + (f" and {len(shown) - 3} more" if len(shown) > 3 else "")


def with_automata(item, names, of_unit):
    """An item, with the new automata for those that are cut. A form of units is one for each run of units of one automaton."""
    if isinstance(item, Automata):
        item.names = [made for name in item.names for made in names.get(name, [name])]
    if not isinstance(item, Units) or item.automaton not in names:
        return [item]
    made = []
    for name, units in itertools.groupby(item.names, key=of_unit.get):
        made.append(item.with_names(list(units)))
        made[-1].automaton = name
    return made


def split_automata(items, reported, is_all):
    """Cuts automata; of classes whose texts would be too long none is cut."""
    choices, effort, least = Choices(items), Effort(), 1
    left, counter = dict(choices.left), Counter(choices.work())
    while True:
        made = Splitting(items, choices, left, effort, counter)
        made.choose(is_all)
        above, lengths = made.above()
        if above <= 0 or not lengths:
            return made.write(reported)
        for count, key in enumerate(sorted(lengths, key=lengths.get, reverse=True)):
            if count >= least and above <= 0:
                break
            left[key] = "the text would be too long"
            above -= lengths[key]
        least *= 16
