"""Descriptions at the ends of sizes for hz_why, and what it answers, by the calendar of tools/why_check. Nothing is asked of hz_why."""
from check_walk import Simulation
from why_check.playing import Play


def description(units, sets, classes):
    """The text of a description of one automaton: names of units, forms of set statements, and classes as pairs of a name and an expression."""
    forms = [f'(define_cpu_unit "{",".join(units)}")', *sets]
    return "\n".join(forms + [f'(define_insn_reservation "{name}" 1 (const_int 1) "{text}")' for name, text in classes]) + "\n"


def choices(count, places):
    """A class that takes one of some units in each of so many cycles, so that it has count ** places alternatives; one that takes the last
    units of all cycles, and one that takes all units of the present one."""
    names = [f"w{unit}" for unit in range(count)]
    any_one = "(" + "|".join(names) + ")"
    return description(names, [], [("any", ",".join([any_one] * places)), ("last", ",".join([names[-1]] * places)), ("all", "+".join(names))])


def statements(count):
    """So many exclusions of two units each. The last of them alone is broken by classes of both of its units."""
    units = [f"u{unit}" for unit in range(256)]
    pairs = [(first, second) for first in range(254) for second in range(first + 1, 254)][:count - 1]
    sets = [f'(exclusion_set "u{first}" "u{second}")' for first, second in pairs] + ['(exclusion_set "u254" "u255")']
    return description(units, sets, [("first", "u254"), ("second", "u255")])


def answer(path, events):
    """The status and the whole text for events, as places of lines, words and operands, on the description at a path."""
    status, first, after = Play(Simulation(path)).answer(events)
    return status, first + after


def issues(lines, first=1):
    """The events of lines of a trace, of which the first is at this line."""
    events = []
    for place, line in enumerate(lines, first):
        word, what = line.split()
        events.append((place, word, int(what) if word == "advance" else what))
    return events
