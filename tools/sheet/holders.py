"""Which issue holds which unit in which cycle: a calendar by the rules of docs/RULES.md, 'Fitting', held against the pictures of `hz_why`."""
import dataclasses
import typing

from .descriptions import bits_in
from .machines import Budget

# of lists of choices, of tests of set statements in a cycle, and of pairs that are held
MOST_STATES = 4096
MOST_TESTS = 5000000
MOST_PAIRS = 400000


class Demand:
    """A set statement on units that are bits."""

    def __init__(self, statement, bits):
        self.head = statement.head
        self.units = bits_of(statement.units, bits)
        self.patterns = [bits_of(pattern, bits) for pattern in statement.patterns]
        # what is added breaks the statement by one of these units alone, if it was not broken before
        named = [name for pattern in statement.patterns for name in pattern] if self.head == "exclusion_set" else []
        self.judged = self.units | bits_of(named, bits)

    def held(self, units):
        return any(pattern & units == pattern for pattern in self.patterns)

    def allows(self, source, added):
        """Whether units may be added in a cycle to those that are reserved there."""
        result = source | added
        if self.head == "exclusion_set":
            return not (result & self.units and self.held(result))
        if not added & self.units:
            return True
        return self.held(result if self.head.startswith("final_") else source) == self.head.endswith("presence_set")


def bits_of(names, bits):
    found = 0
    for name in names:
        found |= bits[name]
    return found


def united(first, second):
    longer, shorter = (first, second) if len(first) >= len(second) else (second, first)
    return tuple(one | other for one, other in zip(longer, shorter)) + longer[len(shorter):]


def stripped(state):
    """A state without empty cycles at its end."""
    end = len(state)
    while end and not state[end - 1]:
        end -= 1
    return state[:end]


@dataclasses.dataclass(frozen=True)
class Event:
    """An event of a trace: its line, the class of an issue or None, and the cycles of an advance."""
    line: int
    name: typing.Optional[str]
    cycles: int = 0


class Calendar:
    """Plays events by all lists of choices. Of those that leave the same the first is kept."""

    def __init__(self, description):
        self.description = description
        self.demands = [Demand(statement, description.bits) for statement in description.statements]
        self.lists = {(): ()}
        self.budget, self.known = Budget(MOST_TESTS), {}

    def fits(self, state, added):
        for cycle, units in enumerate(added):
            if not units:
                continue
            source = state[cycle] if cycle < len(state) else 0
            if source & units:
                return False
            demands = self.demands_on(units)
            self.budget.left(len(demands))
            if not all(demand.allows(source, units) for demand in demands):
                return False
        return True

    def demands_on(self, units):
        """The statements by which units may be forbidden."""
        if units not in self.known:
            self.known[units] = [demand for demand in self.demands if demand.judged & units]
        return self.known[units]

    def issue(self, name):
        """Whether an issue is accepted; None if there is too much to follow."""
        found = {}
        alternatives = self.description.classes[self.description.places[name]].alternatives
        for state, choices in self.lists.items():
            for number, added in enumerate(alternatives):
                if not self.budget.left():
                    return None
                if self.fits(state, added):
                    found.setdefault(stripped(united(state, added)), (choices, number))
                    if not self.description.is_any:
                        break
        if len(found) > MOST_STATES:
            return None
        self.lists = found or self.lists
        return bool(found)

    def advance(self, cycles):
        moved = {}
        for state, choices in self.lists.items():
            moved.setdefault(state[cycles:], choices)
        self.lists = moved

    def choices(self):
        """The numbers of the alternatives that the issues took, by the first list of choices."""
        choices, found = next(iter(self.lists.values())), []
        while choices:
            choices, number = choices
            found.append(number)
        return found[::-1]


class Holders:
    """Who holds what: `held` has for a cycle and the bit of a unit the place of the event that took it, `now` is the present cycle."""

    def __init__(self, description):
        self.description, self.held, self.now, self.last = description, {}, 0, -1

    def play(self, events, choices):
        """Takes what events reserve that are accepted by these choices."""
        for place, now, alternative in issues_of(self.description, events, choices):
            for cycle, units in enumerate(alternative, now):
                for bit in bits_in(units):
                    self.held[cycle, bit] = place
                    self.last = max(self.last, cycle)
        self.now = sum(event.cycles for event in events)
        return self


def play(description, events):
    """Plays events up to the first issue that is refused. Gives how many are accepted, and the choices of each prefix that ends a cycle
    or all of them, by its length. None if there is too much to follow."""
    calendar, found = Calendar(description), {}
    for place, event in enumerate(events):
        if event.name is None:
            if event.cycles and place and events[place - 1].name is not None:
                found[place] = calendar.choices()
            calendar.advance(event.cycles)
        else:
            answer = calendar.issue(event.name)
            if answer is None:
                return None
            if not answer:
                found[place] = calendar.choices()
                return place, found
    found[len(events)] = calendar.choices()
    if pairs_of(description, events, found[len(events)]) > MOST_PAIRS:
        return None
    return len(events), found


def issues_of(description, events, choices):
    """The issues of accepted events: the place of each, the cycle, and the alternative that it takes."""
    left, now = iter(choices), 0
    for place, event in enumerate(events):
        if event.name is None:
            now += event.cycles
        else:
            yield place, now, description.classes[description.places[event.name]].alternatives[next(left)]


def pairs_of(description, events, choices):
    """How many pairs accepted events reserve."""
    sizes, count = {}, 0
    for _, _, alternative in issues_of(description, events, choices):
        if id(alternative) not in sizes:
            sizes[id(alternative)] = sum(bin(units).count("1") for units in alternative)
        count += sizes[id(alternative)]
    return count


def rows_left(description, events, choices):
    """What accepted events leave: the name of each unit that holds something, and the lines of the issues by cycles from the present one."""
    lines, end = {}, sum(event.cycles for event in events)
    for place, now, alternative in issues_of(description, events, choices):
        for cycle in range(end - now, len(alternative)):
            for bit in bits_in(alternative[cycle]):
                lines.setdefault(bit, {})[cycle + now - end] = str(events[place].line)
    return [(unit.name, lines[unit.bit]) for unit in description.named(sum(lines))]
