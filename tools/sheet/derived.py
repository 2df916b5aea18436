"""Descriptions that are made of the given one, to ask `hz` a single question: how an expression is read, or what a dependence costs."""
from extraction.forms import Form, Text

from .expressions import names_in, parse

# of the alternatives of the classes in one text, and in all texts for each automaton; and of the text
MOST_PAIRS = 200000
MOST_OF_ALL = 4000000
MOST_BYTES = 4194304


def quoted(text):
    """A string of a description."""
    return '"' + text.replace("\\", "\\\\").replace('"', '\\"') + '"'


def listed(names):
    return quoted(", ".join(names))


def spelled(form):
    """A form as text again."""
    if isinstance(form, Form):
        return "(" + " ".join(spelled(part) for part in form) + ")"
    return quoted(str(form)) if isinstance(form, Text) else str(form)


def unit_forms(description, kept):
    """The automata and units of a description, no unit a query unit. In each automaton every issue that takes a unit is refused, so its
    table has one state."""
    lines = []
    if description.has_automata:
        lines.append(f"(define_automaton {listed(description.automata)})")
    for automaton in description.automata:
        names = [unit.name for unit in description.units if unit.automaton == automaton]
        if names:
            named = f" {quoted(automaton)}" if description.has_automata else ""
            lines.append(f"(define_cpu_unit {listed(names)}{named})")
            lines.append(f"(presence_set {listed(names)} {listed(names)})")
    return lines + [f"(define_reservation {quoted(name)} {quoted(text)})" for name, text in description.reservations.items() if name in kept]


def cut(alternative, units):
    """What an alternative takes of some units, without empty cycles at its end."""
    cycles = [taken & units for taken in alternative]
    while cycles and not cycles[-1]:
        cycles.pop()
    return tuple(cycles)


def spelled_cycles(description, alternative):
    """An alternative as a sequence, equal cycles after one another as a repeat."""
    parts, at = [], 0
    while at < len(alternative):
        end = at
        while end < len(alternative) and alternative[end] == alternative[at]:
            end += 1
        names = [unit.name for unit in description.named(alternative[at])] or ["nothing"]
        text = "+".join(names)
        parts.append(text if end - at == 1 else f"({text})*{end - at}")
        at = end
    return ",".join(parts) or "nothing"


def spelled_class(description, one):
    """A class as the sum of what its alternatives are in each automaton, in their order, a later equal one left out."""
    parts = []
    for automaton in description.automata:
        units = description.units_of(automaton)
        found = list(dict.fromkeys(cut(alternative, units) for alternative in one.alternatives))
        if found != [()]:
            parts.append("(" + "|".join(f"({spelled_cycles(description, alternative)})" for alternative in found) + ")")
    return "+".join(parts) or "nothing"


def size_of(one):
    return sum(len(alternative) + sum(bin(units).count("1") for units in alternative) for alternative in one.alternatives)


def reached(description, classes):
    """The reservations that classes lead to."""
    found, waiting = set(), [name for one in classes for name in names_in(parse(one.expression))]
    while waiting:
        name = waiting.pop()
        if name in description.reservations and name not in found:
            found.add(name)
            waiting += names_in(parse(description.reservations[name]))
    return found


def chunks(description):
    """Classes in groups whose description is within the limits, each with its spelled expression; those that are too large are left out."""
    group, size, length, left = [], 0, 0, MOST_OF_ALL // len(description.automata)
    for one in description.classes:
        own = size_of(one)
        if own > min(MOST_PAIRS, left):
            continue
        left -= own
        text = spelled_class(description, one)
        more = len(text) + len(one.expression) + 100
        if group and (len(group) == 500 or size + own > MOST_PAIRS or length + more > MOST_BYTES // 4):
            yield group
            group, size, length = [], 0, 0
        group.append((one, text))
        size, length = size + own, length + more
    if group:
        yield group


def spelled_text(description, group):
    """A description in which each class of a group comes twice: as it is, and as it is spelled."""
    lines = unit_forms(description, reached(description, [one for one, _ in group]))
    for place, (one, text) in enumerate(group):
        lines.append(f'(define_insn_reservation "c{place}" 1 (const_int 1) {quoted(one.expression)})')
        lines.append(f'(define_insn_reservation "s{place}" 1 (const_int 1) {quoted(text)})')
    return "\n".join(lines) + "\n"


def costs_text(description):
    """A description with the classes, attributes and bypasses of the given one, and no units: there costs alone decide."""
    lines = [f"(define_attr {quoted(one.name)} {listed(one.values)} (const_string {quoted(one.default)}))"
             for one in description.attributes.values()]
    for one in description.classes:
        lines.append(f'(define_insn_reservation {quoted(one.name)} {one.latency} {spelled(one.condition)} "nothing")')
    for bypass in description.bypasses:
        guard = f" {quoted(bypass.guard)}" if bypass.guard else ""
        lines.append(f"(define_bypass {bypass.number} {listed(bypass.outs)} {listed(bypass.ins)}{guard})")
    return "\n".join(lines) + "\n"
