"""A calendar of units in cycles, which knows no states and no tables: what `hz replay` answers of a trace, and what `hz_why` reports after it."""
import collections

from extraction.changes import of_kind
from extraction.expressions import Expander, tree_of
from extraction.items import Automata, Class, Reservation, Units, UnitSet
from .texts import Issue, issue_lines, picture, reason_lines, takes_lines, wait_line

MOST_STATES = 4096
# alternatives that are tried in states, all together for a trace
MOST_TRIED = 200_000

Statement = collections.namedtuple("Statement", "head line units patterns")
Holder = collections.namedtuple("Holder", "line name")
# what forbids an alternative: a pair, and the number and the pattern of a set statement that it breaks, None if the pair is held
Reason = collections.namedtuple("Reason", "pair statement pattern")
# what `replay` answers, how many of the events are accepted, what all choices leave of them, and which are the first
Played = collections.namedtuple("Played", "status text place states choices")


class Machine:
    """What a description says of units in cycles. A pair is a cycle and a unit, by its name."""

    def __init__(self, simulation):
        items = simulation.items
        automata = [name for item in of_kind(items, Automata) for name in item.names]
        automaton = {name: item.automaton for item in of_kind(items, Units) for name in item.names}
        # rows of pictures go in the order of the file, pairs by automaton and then in this order
        self.units = list(automaton)
        ordered = sorted(self.units, key=lambda unit: automata.index(automaton[unit]) if automata else 0)
        self.rank = {unit: place for place, unit in enumerate(ordered)}
        expander = Expander(automaton, {item.name: tree_of(item) for item in of_kind(items, Reservation)})
        self.classes = {item.name: [self.ascending(one.pairs) for one in expander.of(tree_of(item))] for item in of_kind(items, Class)}
        self.statements = [Statement(item.head, item.place.line, item.units, [pattern.split() for pattern in item.patterns])
                           for item in of_kind(items, UnitSet)]
        self.is_any = simulation.is_any

    def ascending(self, pairs):
        """Pairs by their cycle, and in one cycle by automaton and unit."""
        return sorted(pairs, key=lambda pair: (pair[0], self.rank[pair[1]]))

    def added(self, name, choice, now):
        """The pairs of the alternative of this number, for an issue in this cycle."""
        return placed(self.classes[name][choice], now)

    def fits(self, held, added):
        """Whether the pairs may be added: none of them stands reserved, and each statement allows each of their cycles."""
        return held.isdisjoint(added) and not any(breach(statement, held, added) for statement in self.statements)

    def fitting(self, held, name, now):
        """The numbers of the alternatives that fit, in their order."""
        return [choice for choice in range(len(self.classes[name])) if self.fits(held, self.added(name, choice, now))]

    def reason(self, held, added):
        """What forbids the pairs: the first that stands reserved, or else the first statement."""
        taken = next((pair for pair in added if pair in held), None)
        if taken:
            return Reason(taken, None, None)
        breaches = ((number, breach(statement, held, added)) for number, statement in enumerate(self.statements))
        number, (cycle, unit, pattern) = next(each for each in breaches if each[1])
        return Reason((cycle, unit), number, tuple(pattern))


def placed(pairs, cycles):
    """Pairs so many cycles later."""
    return [(cycle + cycles, unit) for cycle, unit in pairs]


def first_whole(patterns, units):
    """The first pattern of which all units are held, or None."""
    return next((pattern for pattern in patterns if units.issuperset(pattern)), None)


def breach_in(statement, source, added):
    """How a statement is broken in a cycle by the units that stood there and those that are added, as a unit and a pattern, or None."""
    result = source | added
    is_final = statement.head.startswith("final_") or statement.head == "exclusion_set"
    breaking = result if statement.head == "exclusion_set" else added
    unit = next((unit for unit in statement.units if unit in breaking), None)
    whole = first_whole(statement.patterns, result if is_final else source)
    if statement.head.endswith("presence_set"):
        return None if unit is None or whole is not None else (unit, [])
    return None if unit is None or whole is None else (unit, whole)


def breach(statement, held, added):
    """How a statement is broken in the first cycle in which it is, as the cycle, a unit and a pattern, or None."""
    for cycle in dict.fromkeys(cycle for cycle, _ in added):
        units = {unit for at, unit in added if at == cycle}
        named = {*statement.units, *(unit for pattern in statement.patterns for unit in pattern)}
        found = breach_in(statement, {unit for unit in named if (cycle, unit) in held}, units)
        if found:
            return cycle, *found
    return None


class TooMany(Exception):
    """There are more states, or alternatives to try in them, than a calendar in Python has time for."""


class Play:
    """Plays events on a machine: what `replay` answers of them, and what is reported after it."""

    def __init__(self, simulation):
        self.machine, self.queries, self.tried = Machine(simulation), simulation.queries, 0

    def answer(self, events):
        """The status, and the two texts; None if there are too many states to follow."""
        try:
            return self.reported(events, self.followed(events))
        except TooMany:
            return None

    def reported(self, events, played):
        """The status, and the two texts, of events that were played."""
        machine, accepted = self.machine, events[:played.place]
        all_held, now = self.holders(accepted, played.choices)
        held = after(all_held, now)
        reported, asked = "by one of the choices\n" if machine.is_any else "", []
        if played.status == 1:
            name = events[played.place][2]
            asked = [pair for pairs in machine.classes[name] for pair in pairs]
            reported += wait_line(self.wait(played.states, now, name))
            reported += reason_lines(machine, held, [machine.reason(held.keys(), pairs) for pairs in machine.classes[name]])
            reported += takes_lines(machine.classes[name])
        reported += issue_lines(self.holding(accepted, played.choices, now), now)
        return played.status, played.text, reported + picture(machine.units, held, asked)

    def played(self, events):
        """What `replay` answers to events, and by which choices; None if there are too many states to follow."""
        try:
            return self.followed(events)
        except TooMany:
            return None

    def followed(self, events):
        """Plays the events by all choices. Of those that lead to the same state the first are kept, and lists stay in their order."""
        now, reported, lists, self.tried = 0, "", {frozenset(): ()}, 0
        for place, (line, word, what) in enumerate(events):
            if word == "ask":
                reported += f"ask line {line} {what} {'reserved' if any((now, what) in held for held in lists) else 'free'}\n"
            elif word == "advance":
                now += what
                lists = first_lists((frozenset(pair for pair in held if pair[0] >= now), choices) for held, choices in lists.items())
            else:
                longer = first_lists(self.issued(lists, what, now))
                if not longer:
                    return Played(1, f"{reported}refused line {line} {what}\n", place, list(lists), next(iter(lists.values())))
                if len(longer) > MOST_STATES:
                    raise TooMany
                lists = longer
        issues = sum(word == "issue" for _, word, _ in events)
        return Played(0, f"{reported}accepted {issues} issues {now} cycles\n", len(events), list(lists), next(iter(lists.values())))

    def issued(self, lists, name, now):
        """What an issue leaves of each state, with the choices after those before."""
        for held, choices in lists.items():
            fitting = self.fitting(held, name, now)
            for choice in fitting if self.machine.is_any else fitting[:1]:
                yield held | set(self.machine.added(name, choice, now)), choices + (choice,)

    def holders(self, events, choices):
        """Who holds each pair after events, and the present cycle."""
        held = {}
        for issue in issues_of(events, choices):
            held.update((pair, Holder(issue.line, issue.name)) for pair in self.machine.added(issue.name, issue.number - 1, issue.cycle))
        return held, sum(what for _, word, what in events if word == "advance")

    def holding(self, events, choices, now):
        """The issues that hold something in this cycle or a later one."""
        return [issue for issue in issues_of(events, choices)
                if any(cycle >= now for cycle, _ in self.machine.added(issue.name, issue.number - 1, issue.cycle))]

    def wait(self, states, now, name):
        """The least number of cycles after which the class fits in any state, or None. After the last pair nothing is reserved."""
        last = max((cycle for held in states for cycle, _ in held), default=now)
        return next((later - now for later in range(now, max(now, last) + 2)
                     if any(self.fitting(held, name, later) for held in states)), None)

    def fitting(self, held, name, now):
        """The numbers of the alternatives that fit, unless too many were tried."""
        self.tried += len(self.machine.classes[name])
        if self.tried > MOST_TRIED and self.machine.is_any:
            raise TooMany
        return self.machine.fitting(held, name, now)


def issues_of(events, choices):
    """The issues of events, with these choices."""
    now, left = 0, iter(choices)
    for line, word, what in events:
        if word == "issue":
            yield Issue(line, what, next(left) + 1, now)
        elif word == "advance":
            now += what


def first_lists(states):
    """The first choices of each state, in their order."""
    found = {}
    for held, choices in states:
        found.setdefault(held, choices)
    return found


def after(held, now):
    """What stands reserved from the present cycle on, with cycles counted from it."""
    return {(cycle - now, unit): holder for (cycle, unit), holder in held.items() if cycle >= now}
