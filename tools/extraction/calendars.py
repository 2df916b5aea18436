"""A second way to answer events: a calendar of units in cycles, by the rules of docs/RULES.md and without a table."""
from .changes import of_kind
from .expressions import Expander, tree_of
from .items import Class, Reservation, Units, UnitSet
from .names import words

MOST_STATES = 4096


class Statement:
    """A set statement on units that are bits."""

    def __init__(self, item, bits):
        self.head = item.head
        self.units = sum(bits[unit] for unit in set(item.units))
        self.patterns = [sum(bits[unit] for unit in set(words(pattern))) for pattern in item.patterns]

    def held(self, units):
        return any(pattern & units == pattern for pattern in self.patterns)

    def allows(self, source, added):
        """Whether units may be added in a cycle to those that stood there."""
        result = source | added
        if self.head == "exclusion_set":
            return not (result & self.units and self.held(result))
        if not added & self.units:
            return True
        held = self.held(result if self.head.startswith("final_") else source)
        return held == self.head.endswith("presence_set")


def grid(pairs, bits):
    """Pairs as the units of each cycle, from the present one on."""
    cycles = [0] * (1 + max((cycle for cycle, _ in pairs), default=-1))
    for cycle, unit in pairs:
        cycles[cycle] |= bits[unit]
    return tuple(cycles)


def united(first, second):
    longer, shorter = (first, second) if len(first) >= len(second) else (second, first)
    return tuple(units | other for units, other in zip(longer, shorter)) + longer[len(shorter):]


class Calendar:
    """What is reserved in the cycles from the present one on, in one automaton or in all."""

    def __init__(self, lists, statements, is_any):
        self.lists, self.statements, self.is_any = lists, statements, is_any
        self.states = {()}

    def fits(self, state, added):
        for cycle, units in enumerate(added):
            source = state[cycle] if cycle < len(state) else 0
            if source & units or not all(statement.allows(source, units) for statement in self.statements):
                return False
        return True

    def after(self, place):
        """The states after an issue of a class, none if it is refused."""
        found = set()
        for state in self.states:
            for added in self.lists[place]:
                if self.fits(state, added):
                    found.add(united(state, added))
                    if not self.is_any:
                        break
        return found

    def advance(self):
        self.states = {state[1:] for state in self.states}

    def holds(self, unit):
        """Whether a state has a unit, which is a bit, in the present cycle."""
        return any(state and state[0] & unit for state in self.states)


class Calendars:
    """The calendars of items: one for all automata, or under `ndfa` one for each, which choose by themselves."""

    def __init__(self, items, is_any):
        automaton = {name: item.automaton for item in of_kind(items, Units) for name in item.names}
        self.bits = bits = {unit: 1 << place for place, unit in enumerate(automaton)}
        expander = Expander(automaton, {item.name: tree_of(item) for item in of_kind(items, Reservation)})
        self.classes = [item.name for item in of_kind(items, Class)]
        lists = [[one.pairs for one in expander.of(tree_of(item))] for item in of_kind(items, Class)]
        self.parts = []
        for own in [{name} for name in sorted(set(automaton.values()))] if is_any else [set(automaton.values())]:
            cut = [list(dict.fromkeys(grid([pair for pair in pairs if automaton[pair[1]] in own], bits) for pairs in one)) for one in lists]
            statements = [Statement(item, bits) for item in of_kind(items, UnitSet) if automaton[item.units[0]] in own]
            self.parts.append(Calendar(cut, statements, is_any))

    def start(self):
        """Nothing is reserved any more."""
        for part in self.parts:
            part.states = {()}

    def issue(self, place):
        """Whether an issue of a class is accepted; None if there are too many states to follow."""
        after = [part.after(place) for part in self.parts]
        if not all(after):
            return False
        if any(len(states) > MOST_STATES for states in after):
            return None
        for part, states in zip(self.parts, after):
            part.states = states
        return True

    def advance(self):
        for part in self.parts:
            part.advance()

    def holds(self, unit):
        """Whether a unit is reserved in the present cycle."""
        return any(part.holds(self.bits[unit]) for part in self.parts)
