"""Takes units earlier, so that none is reserved in cycles in which no class can ask for it, and writes classes by automata.

Units meet only in one cycle. So all reservations of a unit, with those of the units that set statements tie to it, can be
moved to earlier cycles by one number: every trace is answered as before. The law is `moved_pipelines_accept_the_same` of
the crate hz_laws.
"""
from .changes import Reported, of_kind
from .choices import Choices, Effort, Splitter, lists_in
from .expressions import Unexpanded, places
from .items import Class, Units, UnitSet
from .merging import Joined
from .spelling import class_text, longest
from .writing import BYTES, length_of


def cycles_text(cycles):
    return f"{cycles} cycle" + ("s" if cycles > 1 else "")


class Aligned:
    """The classes of a pipeline, with units that may be moved."""

    def __init__(self, items):
        self.items, self.choices = items, Choices(items)
        self.automaton, self.units = self.choices.automaton, self.choices.expander.units
        self.groups = Joined(self.automaton)
        for item in of_kind(items, UnitSet):
            self.groups.join(unit for unit in item.named() if unit in self.automaton)
        self.splitter, self.left = Splitter(self.choices.masks().values()), dict(self.choices.left)
        self.lists, self.broken, self.first, self.effort = {}, {}, {}, Effort()
        for item in of_kind(items, Class):
            if id(item) not in self.left:
                self.cut(item)

    def cut(self, item):
        """The lists of a class, and the first cycle in which it takes each unit; or why it is left as it is."""
        try:
            self.lists[id(item)] = lists_in(self.choices.alternatives[id(item)], self.splitter, self.effort)
        except Unexpanded as why:
            self.left[id(item)] = str(why)
            return
        self.broken[id(item)] = self.choices.expander.fault(self.choices.trees[id(item)]) is not None
        self.first[id(item)] = self.first_cycles(self.lists[id(item)])

    def first_cycles(self, lists):
        """The first cycle of each unit in lists."""
        rows, first, seen = {}, {}, 0
        for grids in lists:
            for grid in grids:
                for cycle, row in enumerate(grid):
                    rows[cycle] = rows.get(cycle, 0) | row
        for cycle in sorted(rows):
            first.update((self.units[place], cycle) for place in places(rows[cycle] & ~seen))
            seen |= rows[cycle]
        return first

    def taking(self):
        """The classes that are not left as they are."""
        return [item for item in of_kind(self.items, Class) if id(item) not in self.left]

    def earliest(self):
        """The earliest cycle in which a class takes a unit of each group."""
        found = {}
        for item in self.taking():
            for unit, cycle in self.first[id(item)].items():
                leader = self.groups.find(unit)
                found[leader] = min(cycle, found.get(leader, cycle))
        return found

    def staying(self):
        """Why groups stay: a state can be asked for one of their units, or a class is left as it is."""
        why = {}
        for item in of_kind(self.items, Units):
            if item.query:
                for unit in item.names:
                    why.setdefault(self.groups.find(unit), f"a state can be asked for {unit}")
        for item in of_kind(self.items, Class):
            if id(item) in self.left:
                for unit in self.choices.units_of(item):
                    why.setdefault(self.groups.find(unit), f"{item.name} is left as it is")
        return why

    def moves(self):
        """By how many cycles each group is moved that is."""
        staying = self.staying()
        return {leader: cycle for leader, cycle in self.earliest().items() if cycle and leader not in staying}

    def is_written(self, item, moves):
        """Whether a class is written anew: if a unit of it is moved, or a rule on several automata is broken by its form."""
        return id(item) not in self.left and (
            self.broken[id(item)] or any(self.groups.find(unit) in moves for unit in self.first[id(item)]))

    def moved(self, item, moves):
        """The lists of a class with its units moved."""
        masks = {}
        for unit in self.first[id(item)]:
            cycles = moves.get(self.groups.find(unit), 0)
            masks[cycles] = masks.get(cycles, 0) | self.choices.expander.bit[unit]
        return [[moved_grid(grid, masks) for grid in grids] for grids in self.lists[id(item)]]

    def write(self):
        """Moves what can be moved. Classes with the longest texts are left as they are until all fits. Gives what is reported."""
        least = 1
        while True:
            moves = self.moves()
            made = {id(item): self.moved(item, moves) for item in self.taking() if self.is_written(item, moves)}
            lengths = {key: longest(lists, self.units) for key, lists in made.items()}
            above = length_of(self.items) + sum(lengths.values()) - BYTES
            if above <= 0 or not lengths:
                break
            self.leave_longest(lengths, above, least)
            least *= 8
        for item in of_kind(self.items, Class):
            if id(item) in made:
                item.notes.append(f"was {item.expression}")
                item.expression = class_text(made[id(item)], self.units)
        return self.tell(moves)

    def leave_longest(self, lengths, above, least):
        """Leaves classes, those with the longest texts first: at least so many, and until so many bytes are gone."""
        for count, key in enumerate(sorted(lengths, key=lengths.get, reverse=True)):
            if count >= least and above <= 0:
                break
            self.left[key] = "the text would be too long"
            above -= lengths[key]

    def tell(self, moves):
        """Each group that is moved or stays, and each class that is left as it is."""
        reported, staying, earliest, seen, members = Reported(), self.staying(), self.earliest(), set(), {}
        for unit in self.automaton:
            members.setdefault(self.groups.find(unit), []).append(unit)
        for item in of_kind(self.items, Units):
            for leader in dict.fromkeys(self.groups.find(unit) for unit in item.names):
                names = ", ".join(members[leader])
                if leader in seen:
                    continue
                seen.add(leader)
                if leader in moves:
                    reported.tell(item, "align", f"{cycles_text(moves[leader])} earlier: {names}")
                elif leader in staying and earliest.get(leader):
                    reported.tell(item, "unaligned", f"not moved, as {staying[leader]}: {names}")
        for item in of_kind(self.items, Class):
            if id(item) in self.left:
                reported.tell(item, "unaligned", f"{item.name} is left as it is: {self.left[id(item)]}")
            elif self.broken[id(item)]:
                reported.tell(item, "align", f"{item.name} is written automaton by automaton")
        return reported


def moved_grid(grid, masks):
    """A grid with units moved to earlier cycles; `masks` has the units of each number of cycles."""
    rows = [0] * len(grid)
    for cycle, row in enumerate(grid):
        for cycles, mask in masks.items():
            if row & mask:
                rows[cycle - cycles] |= row & mask
    while rows and not rows[-1]:
        rows.pop()
    return tuple(rows)


def stuck(items):
    """The classes that can't be written automaton by automaton."""
    aligned = Aligned(items)
    return [item for item in of_kind(items, Class) if id(item) in aligned.left]


def align_units(items, reported):
    """Each group of units is moved so that the earliest cycle in which a class takes one of them is 0."""
    reported += Aligned(items).write()
    return items
