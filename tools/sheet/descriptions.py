"""What a description says that `hz` accepts: automata, units, classes with their alternatives, bypasses, set statements."""
import collections
import dataclasses
import re
import typing

from extraction.forms import Form, read_forms
from extraction.items import (Attribute, Automata, Bypass, Class, Options, Reservation, Units, UnitSet, condition_text, items_in)

from .expressions import Expander

Unit = collections.namedtuple("Unit", "name automaton line query bit")
Statement = collections.namedtuple("Statement", "head line units patterns")
Passing = collections.namedtuple("Passing", "number outs ins guard line")


@dataclasses.dataclass
class InsnClass:
    """A class: its alternatives, each the units of its cycles as bits."""
    name: str
    line: int
    latency: int
    condition: typing.Any
    expression: str
    alternatives: typing.List[tuple]

    def units(self):
        """All units that an alternative takes, as bits."""
        taken = 0
        for alternative in self.alternatives:
            for units in alternative:
                taken |= units
        return taken

    def condition_text(self):
        return " ".join(condition_text(self.condition).split())


def bits_in(bits):
    """The bits of a number, from the lowest on."""
    while bits:
        yield bits & -bits
        bits &= bits - 1


def plain_numbers(form):
    """A form without a sign before a zero, which `hz` reads and the reader of items does not."""
    for at, part in enumerate(form):
        if isinstance(part, Form):
            plain_numbers(part)
        elif type(part) is str and re.fullmatch("-0+", part):
            form[at] = "0"
    return form


class Description:
    """All that the page shows of a description's text. `text` is in latin-1, a character a byte."""

    def __init__(self, path, text):
        self.text = text
        items = [item for form in read_forms(path, text) for item in items_in(plain_numbers(form))]
        self.automata = [name for item in items if isinstance(item, Automata) for name in item.names]
        # without a definition there is one automaton, which is written `-`
        self.has_automata = bool(self.automata)
        self.automata = self.automata or ["-"]
        self.units = self.read_units(items)
        self.bits = {unit.name: unit.bit for unit in self.units}
        self.reservations = {item.name: item.expression for item in items if isinstance(item, Reservation)}
        self.statements = [Statement(item.head, item.place.line, item.units, [pattern.split() for pattern in item.patterns])
                           for item in items if isinstance(item, UnitSet)]
        self.bypasses = [Passing(item.number, item.outs, item.ins, item.guard, item.place.line)
                         for item in items if isinstance(item, Bypass)]
        self.attributes = {item.name: item for item in items if isinstance(item, Attribute)}
        self.options = {name for item in items if isinstance(item, Options) for name in item.names}
        self.is_any = "ndfa" in self.options
        expander = Expander(self.bits, self.reservations)
        self.classes = [InsnClass(item.name, item.place.line, item.latency, item.condition, item.expression, expander.of(item.expression))
                        for item in items if isinstance(item, Class)]
        self.places = {one.name: place for place, one in enumerate(self.classes)}

    def read_units(self, items):
        """The units in the order of the file; the first has the lowest bit."""
        given = [(name, item) for item in items if isinstance(item, Units) for name in item.names]
        return [Unit(name, item.automaton or "-", item.place.line, item.query, 1 << place) for place, (name, item) in enumerate(given)]

    def units_of(self, automaton):
        """The units of an automaton, as bits."""
        return sum(unit.bit for unit in self.units if unit.automaton == automaton)

    def named(self, bits):
        """The units whose bits are there, in the order of the file."""
        return [self.units[bit.bit_length() - 1] for bit in bits_in(bits)]
