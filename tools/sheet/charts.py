"""Tables of units by cycles: which columns there are, and what is in each cell."""
import dataclasses
import typing

from .descriptions import bits_in

BAND = 40
RUN = 5


@dataclasses.dataclass
class Column:
    """Cycles in which the same is shown, from the first to the last."""
    first: int
    last: int

    def label(self):
        return str(self.first) if self.first == self.last else f"{self.first}–{self.last}"


@dataclasses.dataclass
class Band:
    """A piece of a chart: its columns, and its rows, each a head and a cell for each column."""
    columns: typing.List[Column]
    rows: typing.List[tuple]


def columns_of(contents, shortest=RUN):
    """Columns for the contents of cycles from 0 on; equal ones in a run of this length or more share one."""
    found, at = [], 0
    while at < len(contents):
        end = at
        while end + 1 < len(contents) and contents[end + 1] == contents[at]:
            end += 1
        found += [Column(at, end)] if end - at + 1 >= shortest else [Column(cycle, cycle) for cycle in range(at, end + 1)]
        at = end + 1
    return found


def sparse_columns(contents, last, shortest=RUN):
    """The same of cycles up to the last, of which `contents` has those that are not empty."""
    found, at = [], 0
    for cycle in sorted(contents) + [last + 1]:
        if cycle - at >= shortest:
            found.append(Column(at, cycle - 1))
        else:
            found += [Column(free, free) for free in range(at, cycle)]
        at = cycle + 1
        if cycle > last:
            break
        same = found and found[-1].last == cycle - 1 and contents.get(found[-1].first) == contents[cycle]
        found.append(Column(cycle, cycle))
        if same:
            merge_last(found, contents, shortest)
    return found


def merge_last(found, contents, shortest):
    """Makes one column of the last ones if enough of them are equal."""
    begin = len(found) - 1
    while begin and contents.get(found[begin - 1].first) == contents[found[-1].first] and found[begin - 1].last + 1 == found[begin].first:
        begin -= 1
    if found[-1].last - found[begin].first + 1 >= shortest:
        found[begin:] = [Column(found[begin].first, found[-1].last)]


def bands(columns, rows, cell, width=BAND):
    """Bands of a chart; `cell` gives what a row shows in a cycle. A row that shows nothing in a band stays, so that bands compare."""
    return [Band(columns[at:at + width], [(row, [cell(row, column.first) for column in columns[at:at + width]]) for row in rows])
            for at in range(0, max(len(columns), 1), width)]


def alternative_chart(description, alternative):
    """The chart of one alternative: units by cycles, an X where the alternative takes the unit."""
    cycles = list(alternative)
    while cycles and not cycles[-1]:
        cycles.pop()
    taken = 0
    for units in cycles:
        taken |= units
    columns = columns_of(cycles)
    rows = description.named(taken)
    return bands(columns, rows, lambda unit, cycle: bool(cycles[cycle] & unit.bit), 64)[0] if rows else None


def alternative_line(description, alternative):
    """The same as one line of text: each unit with its cycles."""
    found = {}
    for cycle, units in enumerate(alternative):
        for bit in bits_in(units):
            runs = found.setdefault(bit, [])
            if runs and runs[-1].last == cycle - 1:
                runs[-1].last = cycle
            else:
                runs.append(Column(cycle, cycle))
    parts = [unit.name + " " + ",".join(run.label() for run in found[unit.bit]) for unit in description.named(sum(found))]
    return "; ".join(parts) or "no unit"
