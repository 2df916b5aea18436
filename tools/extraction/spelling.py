"""Alternatives as expressions: the text of lists of a class, in each automaton its own."""
import itertools

from .expressions import places



def cycle_text(units, times):
    """The units of one cycle, or of so many cycles one after the other."""
    text = " + ".join(units) or "nothing"
    if times == 1:
        return text
    return f"({text})*{times}" if len(units) > 1 else f"{text}*{times}"


def sequence_parts(rows, units):
    """The cycles of an alternative one after the other; cycles that are alike are a repeat. `units` has the unit of each bit."""
    for row, run in itertools.groupby(rows or (0,)):
        yield cycle_text([units[place] for place in places(row)], len(list(run)))


def enclosed(text, marks):
    """The text in parentheses if it has one of the marks."""
    return f"({text})" if any(mark in text for mark in marks) else text


def list_text(grids, units):
    """The alternatives in one automaton."""
    texts = [", ".join(sequence_parts(rows, units)) for rows in grids]
    return texts[0] if len(texts) == 1 else " | ".join(enclosed(text, ",+") for text in texts)


def class_text(lists, units):
    """The lists of several automata, beside each other."""
    texts = [list_text(grids, units) for grids in lists] or ["nothing"]
    return texts[0] if len(texts) == 1 else " + ".join(enclosed(text, ",|") for text in texts)


def longest(lists, units):
    """How long the text of lists is at most, without making it."""
    return sum(6 + sum(6 + sum(len(part) + 2 for part in sequence_parts(rows, units)) for rows in grids) for grids in lists)
