"""Pairs of machines with a name each: what a comparison has to see, and what it must not be taken in by."""
import copy

from .machines import Machine, Part, Row
from .making import product

MOST_PAIRS = 1048576


def counter(name, states, classes, refusing=None):
    """An automaton that counts cycles; in the last it refuses the class of this number."""
    columns = min(2, classes)
    map_of = [int(place == refusing) for place in range(classes)] if columns > 1 else [0] * classes
    rows = [Row([state] * columns, [], (state + 1) % states) for state in range(states)]
    if refusing is not None:
        rows[-1].issues[map_of[refusing]] = None
    return Part(name, map_of, [], rows)


def wall(name, classes, refused):
    """An automaton of one state that refuses one class."""
    return Part(name, list(range(classes)), [], [Row([None if place == refused else 0 for place in range(classes)], [], 0)])


def stepper(name, states, classes, stepping):
    """An automaton that one class leads on, and an advance does not."""
    rows = [Row([state, (state + 1) % states], [], state) for state in range(states)]
    return Part(name, [int(place == stepping) for place in range(classes)], [], rows)


def busy(name, cycles, asks=()):
    """An automaton that refuses an issue for some cycles after one; its units are reserved meanwhile, the second only at first."""
    rows = [Row([cycles], [False] * len(asks), 0)]
    rows += [Row([None], [True, left == cycles][:len(asks)], left - 1) for left in range(1, cycles + 1)]
    return Part(name, [0], list(asks), rows)


def machine(classes, *parts):
    return Machine([f"c{place}" for place in range(classes)], list(parts))


def cut():
    """Two automata, and one that is their product."""
    first = machine(2, counter("pipe.1", 7, 2, 0), counter("pipe.2", 5, 2, 1))
    return first, machine(2, product(*first.parts, "pipe"))


def hidden():
    """An automaton that differs where another refuses anyway."""
    first = machine(2, counter("pipe", 7, 2, 0), wall("port", 2, 0))
    return first, machine(2, counter("pipe", 5, 2, 0), wall("port", 2, 0))


def shown():
    """The same with another class, which nothing hides."""
    first = machine(2, counter("pipe", 7, 2, 1), wall("port", 2, 0))
    return first, machine(2, counter("pipe", 5, 2, 1), wall("port", 2, 0))


def asked():
    """Two query units, one of which differs; an ask of the state, and not of that after an advance."""
    first = machine(1, busy("pipe", 2, ("slot", "port")))
    second = copy.deepcopy(first)
    second.parts[0].rows[2].held[1] = False
    return first, second


def asked_of_other_parts():
    """The same query units in other automata and in another order."""
    first = machine(1, busy("pipe", 2, ("slot",)), busy("port", 3, ("unit",)))
    return first, machine(1, busy("port", 3, ("unit",)), busy("pipe", 2, ("slot",)))


def alone():
    """A class and a query unit that only one has, and nothing else."""
    first = machine(1, busy("pipe", 2, ("slot",)))
    second = machine(1, busy("pipe", 2))
    second.classes.append("more")
    second.parts[0].map.append(0)
    return first, second


def by_number():
    """The same classes at other places."""
    first = machine(2, counter("pipe", 3, 2, 0))
    second = copy.deepcopy(first)
    second.classes.reverse()
    second.parts[0].map.reverse()
    return first, second


def by_number_otherwise():
    """Other classes at the same places."""
    first, second = by_number()
    second.parts[0].map.reverse()
    return first, second


def after_cycles():
    """A difference after 300 cycles."""
    return machine(1, counter("pipe", 301, 1, 0)), machine(1, counter("pipe", 302, 1, 0))


def late_in_many():
    """A difference after 63 issues, in machines that reach more pairs than may be searched."""
    first = machine(2, counter("pipe", 1000, 2, 0), stepper("port", 2048, 2, 1))
    first.parts[1].asks = ["slot"]
    for state, row in enumerate(first.parts[1].rows):
        row.held = [state == 64]
    second = copy.deepcopy(first)
    second.parts[1].rows[63].held = [True]
    return first, second


def far():
    """A difference that another automaton hides, among more pairs than may be reached."""
    parts = [counter("a", 101, 2), counter("b", 103, 2), counter("c", 107, 2), wall("d", 2, 0)]
    return machine(2, counter("e", 3, 2, 0), *parts), machine(2, counter("e", 4, 2, 0), *parts)


def grouped():
    """The same automata, of which all pairs together are too many."""
    parts = [counter("a", 101, 2, 0), counter("b", 103, 2, 1), counter("c", 107, 2)]
    return machine(2, *parts), machine(2, *reversed(parts))


def at_limit(states):
    """Two automata against one, with no name in common, of which so many pairs are reached: 1,024 times as many as one has states."""
    return machine(2, counter("a", 1024, 2), stepper("b", states, 2, 1)), machine(2, counter("c", 1, 2))


SAME, LIMIT = (0, "same\n"), (3, "limit pairs\n")
# each pair with the answer, or None where a search gives it
CASES = [
    ("two automata and their product", cut, SAME),
    ("a difference that is hidden", hidden, SAME),
    ("a difference that is not", shown, None),
    ("two asks", asked, None),
    ("asks of other automata", asked_of_other_parts, SAME),
    ("names of one alone", alone, (1, "; ask slot is of one alone\n; class more is of other alone\n; else the same\n")),
    ("classes by name", by_number, SAME),
    ("classes by number", by_number_otherwise, None),
    ("a difference after 300 cycles", after_cycles, (1, "advance 300\nissue c0\n; refused by one, accepted by other\n")),
    ("a difference before too many pairs", late_in_many, None),
    ("a hidden difference among too many pairs", far, LIMIT),
    ("the same in too many pairs", grouped, SAME),
    ("as many pairs as may be", lambda: at_limit(1024), SAME),
    ("1,024 pairs more", lambda: at_limit(1025), LIMIT),
]
