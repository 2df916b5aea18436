"""The instructions of a block that `hz` accepts, and which of them depend on which (docs/RULES.md, 'Dependences')."""
import dataclasses
import typing

from extraction.forms import Form, read_forms

WORD = 1 << 64


@dataclasses.dataclass
class Insn:
    """An instruction: its number and line, its pattern as text, and what it reads and writes. A cell is its address as a form."""
    number: int
    line: int
    text: str
    attributes: typing.Dict[str, str]
    reads: typing.Set[int] = dataclasses.field(default_factory=set)
    writes: typing.Set[int] = dataclasses.field(default_factory=set)
    read_cells: list = dataclasses.field(default_factory=list)
    written_cells: list = dataclasses.field(default_factory=list)
    set_registers: typing.Set[int] = dataclasses.field(default_factory=set)
    set_cells: list = dataclasses.field(default_factory=list)

    def read_value(self, value):
        """Takes what a value reads."""
        if value.head() == "reg":
            self.reads.add(int(value[1]))
        elif value.head() != "const_int":
            for part in value[1:]:
                self.read_value(part)
            if value.head() == "mem":
                self.read_cells.append(Address(value[1]))

    def write_place(self, place, is_set):
        """Takes a place that is written; the address of a cell is read."""
        if place.head() == "reg":
            self.writes.add(int(place[1]))
            self.set_registers |= {int(place[1])} if is_set else set()
        else:
            self.read_value(place[1])
            self.written_cells.append(Address(place[1]))
            self.set_cells += [place[1]] if is_set else []

    def take_effect(self, effect):
        """Takes what an effect reads and writes."""
        if effect.head() == "use":
            self.read_value(effect[1])
        else:
            self.write_place(effect[1], effect.head() == "set")
        if effect.head() == "set":
            self.read_value(effect[2])


class Address:
    """The address of a cell: a register and a constant, if it is of such a form."""

    def __init__(self, value):
        self.register, self.constant = None, 0
        if value.head() == "reg":
            self.register = int(value[1])
        elif value.head() == "plus" and value[1].head() == "reg" and value[2].head() == "const_int":
            self.register, self.constant = int(value[1][1]), int(value[2][1]) % WORD

    def is_apart(self, other, changed):
        """Whether two addresses are known to be apart; `changed` has the registers that were written between them."""
        return (self.register is not None and self.register == other.register and self.constant != other.constant
                and self.register not in changed)


def short(form):
    """An effect or a value in few words: `r4 = mem(r1 + 8)`."""
    signs = {"plus": "+", "minus": "-", "mult": "*", "udiv": "/", "umod": "%", "and": "&", "ior": "|", "xor": "^", "ashift": "<<",
             "lshiftrt": ">>", "ashiftrt": ">>a", "eq": "==", "ne": "!=", "ltu": "<u", "lt": "<"}
    head, parts = form.head(), [short(part) if isinstance(part, Form) else str(part) for part in form[1:]]
    if head == "reg":
        return f"r{int(parts[0])}"
    if head == "const_int":
        return str(int(parts[0]))
    if head == "set":
        return f"{parts[0]} = {parts[1].removeprefix('(').removesuffix(')') if is_bracketed(parts[1]) else parts[1]}"
    if head == "mem":
        return f"mem[{parts[0].removeprefix('(').removesuffix(')') if is_bracketed(parts[0]) else parts[0]}]"
    if head == "parallel":
        return "; ".join(short(effect) for effect in form[1])
    if head in signs:
        return f"({parts[0]} {signs[head]} {parts[1]})"
    return f"{head}({', '.join(parts)})"


def is_bracketed(text):
    """Whether the first bracket closes at the end."""
    depth = 0
    for at, byte in enumerate(text):
        depth += (byte == "(") - (byte == ")")
        if depth == 0:
            return byte == ")" and at == len(text) - 1
    return False


def read_block(path, text):
    """The instructions of a block in the order of the source."""
    found = []
    for form in read_forms(path, text):
        attributes = {str(part[1]): str(part[2]) for part in form[3:]}
        insn = Insn(int(form[1]), form.place.line, short(form[2]), attributes)
        for effect in form[2][1] if form[2].head() == "parallel" else [form[2]]:
            insn.take_effect(effect)
        found.append(insn)
    return found


@dataclasses.dataclass(frozen=True)
class Dependence:
    """Why a later instruction waits for an earlier one. `stores` says that it only stores what the earlier one makes."""
    is_true: bool
    is_anti: bool
    is_output: bool
    stores: bool

    def kind(self):
        named = (("a result", self.is_true), ("an earlier read", self.is_anti), ("an earlier write", self.is_output))
        return " and ".join(name for name, holds in named if holds)


def meets(cells, others, changed):
    """Whether a cell of one list may be one of the other."""
    return any(not cell.is_apart(other, changed) for cell in cells for other in others)


def stores_data(first, second):
    """Whether the second instruction stores what the first makes, and does nothing else with it. Of `set` effects alone."""
    if not second.set_cells or second.set_registers:
        return False
    named = Insn(0, 0, "", {})
    for address in second.set_cells:
        named.read_value(address)
    return not named.reads & first.set_registers


class Dependences:
    """The dependences of a block."""

    def __init__(self, insns):
        self.insns = insns

    def of(self, place):
        """The earlier instructions on which one depends, each its place and a dependence, from the nearest on."""
        later, between, changed = self.insns[place], set(), set()
        for at in range(place - 1, -1, -1):
            earlier = self.insns[at]
            changed |= earlier.writes
            found = Dependence(
                bool(earlier.writes & (later.reads - between)) or meets(earlier.written_cells, later.read_cells, changed),
                bool(earlier.reads & later.writes) or meets(earlier.read_cells, later.written_cells, changed),
                bool(earlier.writes & later.writes) or meets(earlier.written_cells, later.written_cells, changed),
                stores_data(earlier, later))
            if found.is_true or found.is_anti or found.is_output:
                yield at, found
            between |= earlier.writes


class Costs:
    """The costs of dependences of a description."""

    def __init__(self, description):
        self.classes = {one.name: one for one in description.classes}
        self.plain, self.guarded = {}, {}
        for bypass in description.bypasses:
            known = self.guarded if bypass.guard else self.plain
            for first in dict.fromkeys(bypass.outs):
                for second in dict.fromkeys(bypass.ins):
                    known.setdefault((first, second), bypass.number)

    def number(self, first, second, stores):
        """The cycles from a result of a class to its use by another."""
        if stores and (first, second) in self.guarded:
            return self.guarded[first, second]
        return self.plain.get((first, second), self.classes[first].latency)

    def cost(self, first, second, dependence):
        """The least number of cycles from the issue of the first to that of the second."""
        found = [0]
        if dependence.is_true:
            found.append(self.number(first, second, dependence.stores))
        if dependence.is_output:
            found.append(self.classes[first].latency - self.classes[second].latency)
        return max(found)


def longest_path(insns, names, dependences, costs):
    """The greatest sum of costs along a chain, by the classes of the instructions."""
    begins = [0] * len(insns)
    for place in range(len(insns)):
        for earlier, dependence in dependences.of(place):
            begins[place] = max(begins[place], begins[earlier] + costs.cost(names[earlier], names[place], dependence))
    return max(begins, default=0)
