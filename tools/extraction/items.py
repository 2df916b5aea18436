"""The forms of a pipeline, each an item: what it defines, what it needs, and its text in the language of hz."""
import dataclasses
import typing

from .expressions import is_above, names_in
from .forms import Fault, Form, Place, Text
from .names import BLANKS, brief, pieces, words

LATENCY, WIDTH = 1000, 100


def quoted(text):
    """A string in which white space says nothing, over several lines if it is long."""
    lines = []
    for word in words(text):
        if lines and len(lines[-1]) + len(word) < WIDTH:
            lines[-1] += " " + word
        else:
            lines.append(word)
    return '"' + "\n    ".join(lines).replace("\\", "\\\\").replace('"', '\\"') + '"'


def listed(given):
    """A string of names, over several lines if it is long."""
    return quoted(", ".join(given))


def in_quotes(name):
    """A string of one name."""
    return '"' + name.replace("\\", "\\\\").replace('"', '\\"') + '"'


class Operands:
    """The operands of a form as they are read, and what is left out of them."""

    def __init__(self, form, most):
        if len(form) - 1 > most:
            raise Fault(form.place, f"{form.head()} has an operand {most + 1}, which is one too many")
        self.form, self.left = form, []

    def has(self, at):
        return at < len(self.form)

    def operand(self, at):
        return self.form[at] if self.has(at) else None

    def string(self, at):
        """The string at a place; parentheses may be round it."""
        value = self.operand(at)
        if isinstance(value, Form) and value.bracket == "(" and len(value) == 1:
            value = value[0]
        if not isinstance(value, Text):
            raise Fault(self.form.place, f"operand {at} of {self.form.head()} is no string")
        return str(value)

    def number(self, at):
        """The number at a place, which hz takes from 0 to 1,000."""
        value = self.operand(at)
        if type(value) is not str or not value.isdecimal():
            raise Fault(self.form.place, f"operand {at} of {self.form.head()} is no number")
        if is_above(value, LATENCY):
            raise Fault(self.form.place, f"operand {at} of {self.form.head()} is more than {LATENCY}")
        return int(value)

    def name(self, at):
        """The one name of a string; white space round it is left out."""
        return trimmed(self.string(at), self.left)

    def names(self, at):
        """The names of a list; a comma at its end is left out."""
        return without_end(self.string(at), self.left)


def trimmed(text, left):
    """A name without the white space round it; `left` takes what is left out."""
    name = text.strip(BLANKS)
    if name != text:
        left.append(("space", f"white space round {brief(name)}"))
    return name


def without_end(text, left):
    """The names of a list without a comma at its end; `left` takes what is left out."""
    found = pieces(text)
    if len(found) > 1 and not found[-1]:
        left.append(("comma", f"a comma after {brief(found[-2])}"))
        found.pop()
    return found


def without_gaps(text, left):
    """The values of a list without empty ones. GCC reads none after a comma at the end; of others `left` takes what is left out."""
    found = pieces(text)
    if "" in found[:-1]:
        left.append(("comma", f"a comma with no value before it in {brief(text)}"))
    return [value for value in found if value]


@dataclasses.dataclass
class Item:
    """A form of a pipeline: its place, notes on what was changed in it, and what was left out when it was read, by kinds."""
    place: Place
    notes: typing.List[str] = dataclasses.field(default_factory=list, init=False)
    left: typing.List[typing.Tuple[str, str]] = dataclasses.field(default_factory=list, init=False)

    def defines(self):
        """What it defines, each a kind and a name."""
        return []

    def needs(self):
        """What has to be defined for it, in the same way."""
        return []

    def only(self, wanted):
        """It, with no other definitions than those that are wanted."""
        return self

    def with_names(self, names):
        """It, with other names."""
        made = dataclasses.replace(self, names=names)
        made.notes, made.left = list(self.notes), self.left
        return made

    def text(self):
        """Its form in the language of hz."""
        raise NotImplementedError


@dataclasses.dataclass
class Automata(Item):
    names: typing.List[str]

    def defines(self):
        return [("automaton", name) for name in self.names]

    def only(self, wanted):
        return self.with_names([name for name in self.names if ("automaton", name) in wanted])

    def text(self):
        return f"(define_automaton {listed(self.names)})"


@dataclasses.dataclass
class Units(Item):
    names: typing.List[str]
    automaton: typing.Optional[str]
    query: bool

    def defines(self):
        return [("unit", name) for name in self.names]

    def needs(self):
        return [("automaton", self.automaton)] if self.automaton else []

    def only(self, wanted):
        return self.with_names([name for name in self.names if ("unit", name) in wanted])

    def text(self):
        after = "" if self.automaton is None else f" {in_quotes(self.automaton)}"
        head = "define_query_cpu_unit" if self.query else "define_cpu_unit"
        return f"({head} {listed(self.names)}{after})"


@dataclasses.dataclass
class Reservation(Item):
    name: str
    expression: str

    def defines(self):
        return [("unit", self.name)]

    def needs(self):
        return [("unit", name) for name in names_in(self.expression)]

    def text(self):
        return f"(define_reservation {in_quotes(self.name)}\n  {quoted(self.expression)})"


@dataclasses.dataclass
class Class(Item):
    name: str
    latency: int
    condition: typing.Any
    expression: str

    def needs(self):
        return [("unit", name) for name in names_in(self.expression)]

    def text(self):
        condition = condition_text(self.condition)
        return f"(define_insn_reservation {in_quotes(self.name)} {self.latency}\n  {condition}\n  {quoted(self.expression)})"


@dataclasses.dataclass
class Bypass(Item):
    number: int
    outs: typing.List[str]
    ins: typing.List[str]
    guard: typing.Optional[str]

    def text(self):
        guard = "" if self.guard is None else f" {in_quotes(self.guard)}"
        return f"(define_bypass {self.number} {listed(self.outs)}\n  {listed(self.ins)}{guard})"


@dataclasses.dataclass
class UnitSet(Item):
    head: str
    units: typing.List[str]
    patterns: typing.List[str]

    def named(self):
        """All units that it names."""
        return self.units + [name for pattern in self.patterns for name in words(pattern)]

    def needs(self):
        return [("unit", name) for name in self.named()]

    def text(self):
        return f"({self.head} {listed(self.units)}\n  {listed(self.patterns)})"


@dataclasses.dataclass
class Options(Item):
    names: typing.List[str]

    def text(self):
        return f"(automata_option {listed(self.names)})"


@dataclasses.dataclass
class Values(Item):
    """The values of a `define_enum` or a `define_c_enum`, which some attributes have."""
    name: str
    names: typing.List[str]


@dataclasses.dataclass
class Attribute(Item):
    """An attribute; its values are those of an enumeration if that is named. No default is one that hz can't say."""
    name: str
    values: typing.List[str]
    enumeration: typing.Optional[str]
    default: typing.Optional[str]

    def text(self):
        return f"(define_attr {in_quotes(self.name)}\n  {listed(self.values)}\n  (const_string {in_quotes(self.default)}))"


def condition_text(condition):
    """A condition that hz can say."""
    operands = [condition_text(part) if isinstance(part, Form) else quoted(part) if isinstance(part, Text) else part
                for part in condition[1:]]
    return f"({' '.join([condition.head()] + operands)})"


def value_in(form, part):
    """The name of a value of an enumeration, which may be with a number in parentheses."""
    if isinstance(part, Form) and part.bracket == "(" and len(part) == 2:
        part = part[0]
    if isinstance(part, (Form, Text)):
        raise Fault(form.place, f"operand 2 of {form.head()} has a value that is no name")
    return str(part)


def enumeration_in(form):
    """A `define_enum` or a `define_c_enum`, whose values are in a vector."""
    operands = Operands(form, 2)
    values = operands.operand(2)
    if not isinstance(values, Form) or values.bracket != "[":
        raise Fault(form.place, f"operand 2 of {form.head()} is no vector")
    return Values(form.place, operands.name(1), [value_in(form, part) for part in values])


def default_in(form):
    """The default of an attribute if it is a `const_string`, else None."""
    default = form[3] if len(form) > 3 else None
    if not isinstance(default, Form) or default.head() != "const_string" or len(default) != 2:
        return None
    return str(default[1]) if isinstance(default[1], Text) else None


def automata_in(form, operands):
    return Automata(form.place, operands.names(1))


def units_in(form, operands):
    automaton = operands.name(2) if operands.has(2) else None
    return Units(form.place, operands.names(1), automaton, form.head() == "define_query_cpu_unit")


def reservation_in(form, operands):
    return Reservation(form.place, operands.name(1), operands.string(2))


def class_in(form, operands):
    condition = operands.operand(3)
    if not isinstance(condition, Form):
        raise Fault(form.place, "operand 3 of define_insn_reservation is no condition")
    return Class(form.place, operands.name(1), operands.number(2), condition, operands.string(4))


def bypass_in(form, operands):
    guard = operands.name(4) if operands.has(4) else None
    return Bypass(form.place, operands.number(1), operands.names(2), operands.names(3), guard)


def set_in(form, operands):
    return UnitSet(form.place, form.head(), operands.names(1), operands.names(2))


def options_in(form, operands):
    return Options(form.place, operands.names(1))


def attribute_in(form, operands):
    name, default = operands.name(1), default_in(form)
    if default is not None:
        default = trimmed(default, operands.left)
    if form.head() == "define_enum_attr":
        return Attribute(form.place, name, [], operands.name(2), default)
    return Attribute(form.place, name, without_gaps(operands.string(2), operands.left), None, default)


KINDS = {
    "define_automaton": (1, automata_in),
    "define_cpu_unit": (2, units_in),
    "define_query_cpu_unit": (2, units_in),
    "define_reservation": (2, reservation_in),
    "define_insn_reservation": (4, class_in),
    "define_bypass": (4, bypass_in),
    "exclusion_set": (2, set_in),
    "presence_set": (2, set_in),
    "final_presence_set": (2, set_in),
    "absence_set": (2, set_in),
    "final_absence_set": (2, set_in),
    "automata_option": (1, options_in),
    "define_attr": (3, attribute_in),
    "define_enum_attr": (3, attribute_in),
}


def items_in(form):
    """The item of a form, none if it is no form of a pipeline."""
    head = form.head()
    if head in ("define_enum", "define_c_enum"):
        return [enumeration_in(form)]
    if head not in KINDS:
        return []
    most, make = KINDS[head]
    operands = Operands(form, most)
    item = make(form, operands)
    item.left = operands.left
    return [item]
