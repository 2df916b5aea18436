"""Machines as tables texts say them: classes, and automata with a row for each state."""
import dataclasses
import typing


@dataclasses.dataclass
class Row:
    """A state: where each column of classes leads, None where an issue is refused; which query units are reserved; where an advance leads."""
    issues: typing.List[typing.Optional[int]]
    held: typing.List[bool]
    advance: int


@dataclasses.dataclass
class Part:
    """An automaton: its name, the column of each class, its query units and its rows, of which the first is the start."""
    name: str
    map: typing.List[int]
    asks: typing.List[str]
    rows: typing.List[Row]

    def columns(self):
        return len(self.rows[0].issues)


@dataclasses.dataclass
class Machine:
    """All automata, and the names of the classes. What says nothing of the machine is kept, so that it is written."""
    classes: typing.List[str]
    parts: typing.List[Part]
    treatment: str = "first"
    version: int = 0
    has_counts: bool = False

    def asks(self):
        """The names of all query units."""
        return [name for part in self.parts for name in part.asks]

    def text(self):
        """The machine as a tables text. It is of version 2 if it has query units."""
        version = 2 if self.asks() else self.version or 1
        lines = [f"hazard-tables {version}", f"treatment {self.treatment}", f"classes {len(self.classes)}"]
        lines += [f"class {name}" for name in self.classes] + [f"automata {len(self.parts)}"]
        for part in self.parts:
            lines += self.lines_of(part, version)
        return "\n".join(lines + ["end", ""])

    def lines_of(self, part, version):
        """The lines of an automaton."""
        lines = [f"automaton {part.name} {part.columns()} {len(part.rows)}", fields("map", part.map)]
        lines += [fields("asks", part.asks)] if version == 2 else []
        lines += ["stats 7 7 7"] if self.has_counts else []
        for state, row in enumerate(part.rows):
            held = [state if is_held else None for is_held in row.held]
            lines.append(fields("row", row.issues + held + [row.advance]))
            lines += ["from -", "grid 0:unit"] if self.has_counts else []
        return lines


def fields(word, values):
    """A line of a word and values, with `-` for none."""
    return " ".join([word, *("-" if value is None else str(value) for value in values)])


def row_of(entries, columns, asks):
    """The row of the entries of a line."""
    values = [None if entry == "-" else int(entry) for entry in entries]
    return Row(values[:columns], [value is not None for value in values[columns:columns + asks]], values[-1])


def machine_of(text):
    """The machine of a tables text that has no fault."""
    machine, columns = Machine([], []), 0
    for line in text.split("\n"):
        word, *rest = line.split(" ")
        if word == "class":
            machine.classes.append(rest[0])
        elif word == "treatment":
            machine.treatment = rest[0]
        elif word == "automaton":
            machine.parts.append(Part(rest[0], [], [], []))
            columns = int(rest[1])
        elif word == "map":
            machine.parts[-1].map = [int(column) for column in rest]
        elif word == "asks":
            machine.parts[-1].asks = rest
        elif word == "row":
            part = machine.parts[-1]
            part.rows.append(row_of(rest, columns, len(part.asks)))
    return machine
