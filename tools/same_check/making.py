"""Makes machines by a seed, and machines near them: one entry changed, a state split, automata joined, names changed."""
import copy
import itertools
import random

from .machines import Machine, Part, Row

MOST_STATES, LONG = 6, 310
NAMES = ("pipe", "pipe.1", "pipe.2", "port", "-", "a.b", "unit")


class Maker:
    """Draws machines and edits."""

    def __init__(self, seed):
        self.random = random.Random(seed)
        often = [self.change_entry] * 4 + [self.change_advance, self.change_held, self.split_state, self.join]
        self.edits = often * 2 + [
            self.move_states, self.move_classes, self.move_parts, self.move_asks, self.split_column, self.add_state, self.add_free_part,
            self.add_refusing_part, self.add_long_part, self.rename_part, self.change_words]
        self.names = [self.rename_class, self.add_class, self.rename_ask, self.add_ask]

    def row(self, columns, asks, states, refused):
        """A row of a table of so many states, some entries of which are refused."""
        issues = [None if self.random.random() < refused else self.random.randrange(states) for _ in range(columns)]
        return Row(issues, [self.random.random() < 0.4 for _ in range(asks)], self.random.randrange(states))

    def part(self, name, classes, asks):
        """An automaton with so many classes, and with these query units."""
        states, columns = self.random.randint(1, MOST_STATES), self.random.randint(min(1, classes), classes)
        refused = self.random.choice([0.0, 0.1, 0.3, 0.5])
        rows = [self.row(columns, len(asks), states, refused) for _ in range(states)]
        return Part(name, [self.random.randrange(columns) for _ in range(classes)], asks, rows)

    def machine(self):
        """A machine of some automata."""
        classes, units = self.random.randint(0, 5), self.random.choice([0, 0, 1, 2])
        machine = Machine([f"c{place}" for place in range(classes)], [])
        for number in range(self.random.choice([1, 1, 2, 2, 3])):
            asks = [f"u{number}_{unit}" for unit in range(units)]
            machine.parts.append(self.part(self.random.choice(NAMES), classes, asks))
        return machine

    def near(self, machine):
        """A copy after some edits."""
        made = copy.deepcopy(machine)
        for _ in range(self.random.choice([0, 1, 1, 1, 2, 2, 3, 5])):
            self.random.choice(self.edits)(made)
        if self.random.random() < 0.2:
            self.random.choice(self.names)(made)
        return made

    def pair(self):
        """Two machines, most of them near each other."""
        first = self.machine()
        second = self.machine() if self.random.random() < 0.1 else self.near(first)
        return (first, second) if self.random.random() < 0.5 else (second, first)

    def one(self, machine):
        """An automaton."""
        return self.random.choice(machine.parts)

    # one entry

    def change_entry(self, machine):
        part = self.one(machine)
        row = self.random.choice(part.rows)
        column = self.random.randrange(len(row.issues) + 1)
        if column == len(row.issues):
            row.advance = self.random.randrange(len(part.rows))
        else:
            row.issues[column] = self.random.choice([None, self.random.randrange(len(part.rows))])

    def change_advance(self, machine):
        part = self.one(machine)
        self.random.choice(part.rows).advance = self.random.randrange(len(part.rows))

    def change_held(self, machine):
        row = self.random.choice(self.one(machine).rows)
        if row.held:
            place = self.random.randrange(len(row.held))
            row.held[place] = not row.held[place]

    # the same machine written otherwise

    def split_state(self, machine):
        """A state twice; some of what leads to it leads to its copy."""
        part = self.one(machine)
        state, made = self.random.randrange(len(part.rows)), len(part.rows)
        part.rows.append(copy.deepcopy(part.rows[state]))
        for row in part.rows:
            row.issues = [made if after == state and self.random.random() < 0.5 else after for after in row.issues]
            row.advance = made if row.advance == state and self.random.random() < 0.5 else row.advance

    def move_states(self, machine):
        """The states but the start in another order."""
        part = self.one(machine)
        order = [0] + self.random.sample(range(1, len(part.rows)), len(part.rows) - 1)
        place = {state: number for number, state in enumerate(order)}
        place[None] = None
        part.rows = [Row([place[after] for after in row.issues], row.held, place[row.advance]) for row in (part.rows[state] for state in order)]

    def move_classes(self, machine):
        order = self.random.sample(range(len(machine.classes)), len(machine.classes))
        machine.classes = [machine.classes[place] for place in order]
        for part in machine.parts:
            part.map = [part.map[place] for place in order]

    def move_parts(self, machine):
        self.random.shuffle(machine.parts)

    def split_column(self, machine):
        """A column twice, and some of its classes with the copy."""
        part = self.one(machine)
        if not part.map or part.columns() >= len(machine.classes):
            return
        column, made = self.random.choice(part.map), part.columns()
        for row in part.rows:
            row.issues.append(row.issues[column])
        part.map = [made if own == column and self.random.random() < 0.5 else own for own in part.map]

    def add_state(self, machine):
        """A state that nothing leads to."""
        part = self.one(machine)
        part.rows.append(self.row(part.columns(), len(part.asks), len(part.rows), 0.3))

    def join(self, machine):
        """Two automata as one."""
        if len(machine.parts) > 1:
            first, second = machine.parts.pop(0), machine.parts.pop(0)
            machine.parts.insert(0, product(first, second, self.random.choice([first.name, second.name, self.random.choice(NAMES)])))

    def move_asks(self, machine):
        """The query units of an automaton in another order."""
        part = self.one(machine)
        order = self.random.sample(range(len(part.asks)), len(part.asks))
        part.asks = [part.asks[place] for place in order]
        for row in part.rows:
            row.held = [row.held[place] for place in order]

    def change_words(self, machine):
        """What says nothing of the machine."""
        machine.treatment = self.random.choice(["first", "ndfa"])
        machine.version = self.random.choice([1, 2])
        machine.has_counts = self.random.random() < 0.5

    # other automata

    def add_free_part(self, machine):
        """An automaton that refuses nothing."""
        if len(machine.parts) < 4:
            part = self.part(self.random.choice(NAMES), len(machine.classes), [])
            for row in part.rows:
                row.issues = [0 if after is None else after for after in row.issues]
            self.insert(machine, part)

    def add_refusing_part(self, machine):
        """An automaton that refuses some class in each state, so that it hides what others do."""
        if len(machine.parts) < 4 and machine.classes:
            part = self.part(self.random.choice(NAMES), len(machine.classes), [])
            for row in part.rows:
                row.issues[part.map[0]] = None
            self.insert(machine, part)

    def add_long_part(self, machine):
        """An automaton of many cycles, which refuses a class in the last alone."""
        if len(machine.parts) < 3 and machine.classes:
            states = self.random.choice([LONG, 20, 20])
            map_of = [int(place == 0) for place in range(len(machine.classes))] if len(machine.classes) > 1 else [0]
            columns = max(map_of) + 1
            rows = [Row([0] * columns, [], (state + 1) % states) for state in range(states)]
            rows[-1].issues[map_of[0]] = None
            self.insert(machine, Part(self.random.choice(NAMES), map_of, [], rows))

    def insert(self, machine, part):
        machine.parts.insert(self.random.randint(0, len(machine.parts)), part)

    # names

    def rename_part(self, machine):
        part = self.one(machine)
        part.name = self.random.choice([*NAMES, part.name + ".1", part.name.split(".")[0] or "-"])

    def rename_class(self, machine):
        if machine.classes:
            machine.classes[self.random.randrange(len(machine.classes))] = self.fresh(machine.classes, "d")

    def add_class(self, machine):
        """One more class, at any place."""
        place = self.random.randint(0, len(machine.classes))
        machine.classes.insert(place, self.fresh(machine.classes, "d"))
        for part in machine.parts:
            if not part.columns():
                for row in part.rows:
                    row.issues = [self.random.randrange(len(part.rows))]
            part.map.insert(place, self.random.randrange(part.columns()))

    def rename_ask(self, machine):
        part = self.one(machine)
        if part.asks:
            part.asks[self.random.randrange(len(part.asks))] = self.fresh(machine.asks(), "v")

    def add_ask(self, machine):
        """One more query unit."""
        part = self.one(machine)
        part.asks.append(self.fresh(machine.asks(), "v"))
        for row in part.rows:
            row.held.append(self.random.random() < 0.4)

    def fresh(self, names, letter):
        """A name that is not among some, nor always a new one."""
        return next(name for name in itertools.chain((f"{letter}{place}" for place in self.random.sample(range(4), 4)),
                                                     (f"{letter}{place}" for place in itertools.count(4))) if name not in names)


def product(first, second, name):
    """Two automata side by side as one: a state for each pair that is reached."""
    pairs, number = [(0, 0)], {(0, 0): 0}

    def led(after):
        if None in after:
            return None
        if after not in number:
            number[after] = len(pairs)
            pairs.append(after)
        return number[after]

    columns = list(dict.fromkeys(zip(first.map, second.map)))
    rows = []
    for one, other in pairs:
        own, its = first.rows[one], second.rows[other]
        issues = [led((own.issues[column[0]], its.issues[column[1]])) for column in columns]
        rows.append(Row(issues, own.held + its.held, led((own.advance, its.advance))))
    return Part(name, [columns.index(both) for both in zip(first.map, second.map)], first.asks + second.asks, rows)
