"""Reads a tables text, and answers events by it."""


def is_count(line):
    """Whether a line has counts from before minimisation, which say nothing of the machine."""
    return line.startswith("stats ")


class Table:
    """The table of an automaton: its name, the column of each class, the places of its query units in a row, and the rows."""

    def __init__(self, name, columns):
        self.name, self.columns, self.column, self.asks, self.rows, self.grids, self.state = name, columns, [], {}, [], 0, "0"

    def after(self, place):
        """The state after an issue of a class, or `-`."""
        return self.rows[int(self.state)][self.column[place]]

    def advance(self):
        self.state = self.rows[int(self.state)][-1]

    def holds(self, unit):
        """Whether a query unit is reserved."""
        return self.rows[int(self.state)][self.asks[unit]] != "-"


class Tables:
    """The classes, and the tables of all automata."""

    def __init__(self, text):
        self.classes, self.tables = [], []
        for line in text.split("\n"):
            fields = line.split(" ")
            if fields[0] == "class":
                self.classes.append(fields[1])
            elif fields[0] == "automaton":
                self.tables.append(Table(fields[1], int(fields[2])))
            elif fields[0] == "map":
                self.tables[-1].column = [int(field) for field in fields[1:] if field]
            elif fields[0] == "asks":
                self.tables[-1].asks = {unit: self.tables[-1].columns + place for place, unit in enumerate(fields[1:])}
            elif fields[0] == "stats":
                self.tables[-1].grids = int(fields[1])
            elif fields[0] == "row":
                self.tables[-1].rows.append(fields[1:])

    def states(self):
        return sum(len(table.rows) for table in self.tables)

    def grids(self):
        return sum(table.grids for table in self.tables)

    def issue(self, place):
        """Whether an issue of a class is accepted."""
        after = [table.after(place) for table in self.tables]
        if "-" in after:
            return False
        for table, state in zip(self.tables, after):
            table.state = state
        return True

    def advance(self):
        for table in self.tables:
            table.advance()

    def held(self):
        """Of each query unit whether it is reserved."""
        return {unit: table.holds(unit) for table in self.tables for unit in table.asks}
