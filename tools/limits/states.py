"""Descriptions with exactly so many grids, states, members or entries: independent modes, of which one at a time has reservations."""


def form(word, *operands):
    """A form of a word and operands, in a line."""
    return f"({word} {' '.join(operands)})"


def quoted(names, mark=","):
    """Names in a string, with a mark between each two."""
    return f'"{mark.join(names)}"'


def class_of(name, expression):
    """A class of this expression."""
    return form("define_insn_reservation", f'"{name}"', "1", "(const_int 1)", f'"{expression}"')


class Modes:
    """A description of modes. Every reservation of a mode has a unit in its first cycle, and units of two modes exclude each other there, so
    that a mode is left before another is entered. The grids of all modes are counted together, the empty one once."""

    def __init__(self, options=""):
        self.forms = [form("automata_option", f'"{options}"')] if options else []
        self.modes = []

    def chain(self, name, cycles):
        """One class that takes one unit for so many cycles: so many grids that are not empty."""
        return self.add([name], [class_of(name + "c", f"{name}*{cycles}")])

    def product(self, name, first, second):
        """Two classes of a unit each, for so many cycles: the grids are the pairs of both."""
        units = [name + "a", name + "b"]
        return self.add(units, [class_of(unit + "c", f"{unit}*{cycles}") for unit, cycles in zip(units, (first, second))])

    def choices(self, name, count, alone):
        """Under `ndfa`: a class that takes any of so many units, and classes that take one each of the first of them."""
        units = [f"{name}{number}" for number in range(count)]
        classes = [class_of(name + "any", "|".join(units))] + [class_of(f"{name}c{number}", units[number]) for number in range(alone)]
        return self.add(units, classes)

    def never(self, count):
        """So many classes that never fit, each with a column of its own."""
        units = ["never", "wanted"]
        self.forms += [form("define_cpu_unit", quoted(units)), form("presence_set", *map(quoted, ([unit] for unit in units)))]
        self.forms += [class_of(f"n{number}", f"nothing*{number + 1},never") for number in range(count)]
        return self

    def add(self, units, classes):
        """A mode of these units and classes."""
        self.forms += [form("define_cpu_unit", quoted(units)), *classes]
        self.modes.append(units)
        return self

    def text(self):
        """The text of the description."""
        lines = list(self.forms)
        for place, units in enumerate(self.modes[:-1]):
            others = [unit for mode in self.modes[place + 1:] for unit in mode]
            lines.append(form("exclusion_set", quoted(units), quoted(others)))
        return "\n".join(lines) + "\n"


def states_of(count, alone):
    """How many states a mode of choices has, the empty one among them: which of the units that a class takes alone are reserved, and how
    many of the others. If all are, it does not matter which were chosen."""
    return count * 2**alone - alone * 2**alone // 2 + 1


def members_of(count, alone):
    """How many members these states have together."""
    return 2**(count - alone) * 3**alone - 2**alone + 1


def grids(count, options=""):
    """A description with a product of grids, and one grid more if `count` is one more than the square."""
    side = int(count**0.5)
    made = Modes(options).product("x", side - 1, side - 1)
    return made.chain("z", count - side * side) if count > side * side else made


def filled(made, left):
    """The modes with so many states more, of one member each."""
    while left:
        side = min(int((left + 1)**0.5), 512)
        if side > 2:
            made.product(f"x{len(made.modes)}_", side - 1, side - 1)
            left -= side * side - 1
        else:
            made.chain(f"y{len(made.modes)}_", left)
            left = 0
    return made


def chosen(options, choices, left):
    """Modes of choices, and so many states more of one member each."""
    made = Modes(options)
    for letter, (count, alone) in zip("pqrs", choices):
        made.choices(letter, count, alone)
    return filled(made, left)


def states(count, options, choices):
    """A description under `ndfa` with so many states, of fewer grids and of more members."""
    return chosen(options, choices, count - 1 - sum(states_of(*pair) - 1 for pair in choices))


def members(count, options, choices):
    """A description under `ndfa` whose states have so many members, of fewer grids and states."""
    return chosen(options, choices, count - 1 - sum(members_of(*pair) - 1 for pair in choices))


def entries(rows, columns):
    """A description with a table of so many rows and columns, the advance among these."""
    made = filled(Modes(), rows - 1)
    return made.never(columns - 1 - sum(line.startswith("(define_insn_reservation") for line in made.forms))
