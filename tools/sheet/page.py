"""What the page shows, made ready for the templates, and the page itself."""
import dataclasses
import hashlib
import os
import typing

from .charts import alternative_chart, alternative_line, bands, columns_of, sparse_columns
from .graphs import MOST_STATES, draw
from .machines import Budget, ways_back, ways_there
from .programs import Stop

# classes up to this number are each a row of the matrix; more are grouped
FEW = 24
MOST_GROUPS = 260
MOST_DRAWN = 6
MOST_CELLS = 60000
MOST_LINES = 1200000
MOST_COLUMNS = 400
MOST_COLUMN_CELLS = 40000
# of the tables of automata that are too large to draw
MOST_ENTRIES = 8000000


@dataclasses.dataclass
class Limit:
    """How near a limit is."""
    what: str
    found: int
    most: int

    @property
    def share(self):
        return self.found / self.most

    def percent(self):
        return 100 * self.found / self.most

    def part(self):
        """The part of the limit in per cent, as a text; what is small is not said to be nothing."""
        percent = self.percent()
        return "0%" if not self.found else "< 0.1%" if percent < 0.1 else f"{percent:.1f}%" if percent < 10 else f"{percent:.0f}%"


@dataclasses.dataclass
class Group:
    """Classes that no table tells apart, or one class: how often they can be issued, and the waits of the others after them."""
    names: typing.List[str]
    in_one_cycle: typing.Optional[int]
    interval: typing.Optional[int]
    waits: typing.List[typing.Optional[int]]
    is_never: bool = False

    def label(self):
        return self.names[0]


@dataclasses.dataclass
class ClassCard:
    """What is shown of a class."""
    one: typing.Any
    group: Group
    charts: list = dataclasses.field(default_factory=list)
    lines: list = dataclasses.field(default_factory=list)
    left_out: int = 0
    is_agreed: bool = True
    outs: list = dataclasses.field(default_factory=list)
    ins: list = dataclasses.field(default_factory=list)


@dataclasses.dataclass
class AutomatonPart:
    """What is shown of an automaton."""
    table: typing.Any
    units: list
    classes: typing.List[typing.List[str]]
    back: int
    limits: list
    svg: typing.Optional[str] = None
    missing: typing.Optional[str] = None
    rows: list = dataclasses.field(default_factory=list)
    ways: list = dataclasses.field(default_factory=list)


def limits_of(description):
    """How near a description is to the limits of its text."""
    limits = [Limit("bytes of the text", len(description.text), 4194304), Limit("automata", len(description.automata), 16)]
    units = {name: 0 for name in description.automata}
    for unit in description.units:
        units[unit.automaton] += 1
    most = max(units, key=units.get)
    limits += [Limit(f"units of {most}" if description.has_automata else "units", units[most], 256), Limit("classes", len(description.classes), 1024)]
    if description.classes:
        many = max(description.classes, key=lambda one: len(one.alternatives))
        long = max(description.classes, key=lambda one: max(map(len, one.alternatives)))
        limits += [Limit(f"alternatives of {many.name}", len(many.alternatives), 4096),
                   Limit(f"cycles of {long.name}", max(map(len, long.alternatives)), 512)]
    return limits


def limits_of_table(description, table):
    """How near an automaton is to its limits, before minimisation; nothing if its counts are not known."""
    if not table.stats:
        return []
    grids, states, members = table.stats
    is_shown = {"v", "no-minimization"} <= description.options
    return [Limit("grids", grids, 4096 if is_shown else 65536), Limit("states", states, 4096 if is_shown else 65536),
            Limit("grids of all states", members, 65536 if is_shown else 1048576),
            Limit("entries", states * (table.columns + len(table.asks) + 1), 4194304)]


def groups_of(walks):
    """The groups of classes with what their walks give, and the group of each class."""
    names = walks.machine.classes
    groups = [Group([names[place] for place in members], walks.in_one_cycle(at), walks.interval(at), walks.waits(at))
              for at, members in enumerate(walks.members)]
    for at, group in enumerate(groups):
        group.is_never = group.in_one_cycle == 0 and walks.is_never_issued(at)
    return groups, {place: at for at, members in enumerate(walks.members) for place in members}


def rows_of_matrix(groups, of_class):
    """The groups that are rows and columns of the matrix: one for each class if these are few."""
    if len(of_class) > FEW:
        order = list(range(len(groups)))
        shown = groups
    else:
        order = [of_class[place] for place in sorted(of_class)]
        at = {}
        shown = []
        for group in order:
            one = groups[group]
            shown.append(dataclasses.replace(one, names=[one.names[at.get(group, 0)]]))
            at[group] = at.get(group, 0) + 1
    most = MOST_GROUPS
    return [dataclasses.replace(row, waits=[row.waits[group] for group in order[:most]]) for row in shown[:most]], len(shown) - most


def heat(wait):
    """How dark a wait is drawn, from 0 to 7."""
    return "n" if wait is None else str(min(7, wait.bit_length()))


def cards_of(description, agreed, groups, of_class):
    """What is shown of each class. Charts are drawn as long as there is room for them on the page, and the rest is lines of text."""
    cards, cells, length = [], MOST_CELLS, MOST_LINES
    for place, one in enumerate(description.classes):
        card = ClassCard(one, groups[of_class[place]], is_agreed=one.name in agreed)
        for number, alternative in enumerate(one.alternatives if card.is_agreed else [], 1):
            chart = alternative_chart(description, alternative) if number <= MOST_DRAWN else None
            size = len(chart.rows) * len(chart.columns) if chart else 0
            if number <= MOST_DRAWN and size <= min(cells, 4000):
                card.charts.append((number, chart))
                cells -= size + 10
                continue
            line = alternative_line(description, alternative)
            if len(line) > length:
                card.left_out = len(one.alternatives) - number + 1
                break
            card.lines.append((number, line))
            length -= len(line) + 20
        card.outs = [bypass for bypass in description.bypasses if one.name in bypass.outs]
        card.ins = [bypass for bypass in description.bypasses if one.name in bypass.ins]
        cards.append(card)
    return cards


def labels_of(table, classes):
    """A short text for each column: the name of its class if all are short, else its number."""
    names = [own[0] + (f" +{len(own) - 1}" if len(own) > 1 else "") for own in classes]
    if all(len(name) <= 16 for name in names) and len(names) <= 12:
        return names
    return [str(column) for column in range(table.columns)]


def automaton_part(description, machine, table, budget):
    """What is shown of an automaton, without its graph. Ways are looked for while the budget lasts."""
    classes = [[] for _ in range(table.columns)]
    for name, column in zip(machine.classes, table.column):
        classes[column].append(name)
    longest = ways_back(table)
    part = AutomatonPart(table, [unit for unit in description.units if unit.automaton == table.name], classes,
                         longest[0][1] if longest else 0, limits_of_table(description, table))
    if table.states() <= MOST_STATES:
        part.rows = [table.row(state) for state in range(table.states())]
    else:
        is_left = budget.left(table.states() * (table.columns + 1))
        ways = ways_there(table, [state for state, _ in longest]) if is_left else [None] * len(longest)
        part.ways = [(state, cycles, way_text(way, classes)) for (state, cycles), way in zip(longest, ways)]
    return part


def way_text(way, classes):
    """A way from the start: the first class of each column, and cycles."""
    if way is None:
        return "not looked for, because the tables are large"
    found = []
    for column in way:
        if column is None and found and found[-1][0] is None:
            found[-1][1] += 1
        else:
            found.append([column, 1])
    return ", ".join(f"{count} cycle" + ("s" if count > 1 else "") if column is None else f"issue {classes[column][0]}"
                     for column, count in found)


def automata_parts(description, machine, pool):
    """What is shown of each automaton. Graphs are drawn beside one another."""
    budget = Budget(MOST_ENTRIES)
    parts = [automaton_part(description, machine, table, budget) for table in machine.tables]
    small = [part for part in parts if part.rows]
    drawn = pool.map(lambda part: draw(part.table, labels_of(part.table, part.classes), len(small)), small)
    for part, (svg, missing) in zip(small, drawn):
        part.svg, part.missing = svg, missing
    return parts


def most_columns(rows):
    return max(20, min(MOST_COLUMNS, MOST_COLUMN_CELLS // max(1, rows)))


def timeline_bands(timeline, holders, length):
    """Bands of a block's timeline: rows of instructions, and rows of units below them."""
    rows = timeline.rows
    last = max([length] + [row.slot.cycle + row.latency - 1 for row in rows] + ([holders.last] if holders else []))
    held = holders.held if holders else {}
    taken = {bit for _, bit in held}
    units = [unit for unit in timeline.description.units if unit.bit in taken]
    numbers = {place: timeline.lines[event.line].number for place, event in enumerate(timeline.events) if event.name is not None}
    shown = min(last + 1, most_columns(len(rows) + len(units)) * 4)
    contents = [tuple(row.mark(cycle) for row in rows) + tuple(held.get((cycle, unit.bit)) for unit in units) for cycle in range(shown)]
    columns = columns_of(contents, 5 if last > 60 else 1 << 30)[:most_columns(len(rows) + len(units))]
    above = bands(columns, rows, lambda row, cycle: row.mark(cycle))
    below = bands(columns, units, lambda unit, cycle: numbers.get(held.get((cycle, unit.bit)), ""))
    cut = columns[-1].last if columns and columns[-1].last < last else None
    return list(zip(above, below)), cut


def trace_bands(description, sheet):
    """Bands of a trace: rows of units, with the line of the issue that holds each."""
    held, lines = sheet.holders.held, [event.line for event in sheet.events]
    contents = {}
    for (cycle, bit), place in held.items():
        contents.setdefault(cycle, {})[bit] = lines[place]
    taken = {bit for _, bit in held}
    units = [unit for unit in description.units if unit.bit in taken]
    columns = sparse_columns(contents, max(sheet.holders.last, sheet.holders.now), 5)
    most = most_columns(len(units))
    cut = columns[most - 1].last if len(columns) > most else None
    return bands(columns[:most], units, lambda unit, cycle: contents.get(cycle, {}).get(unit.bit, "")), cut


def load_template():
    """The template of the page."""
    try:
        import jinja2
    except ImportError as error:
        raise Stop("no Jinja2 for this python3 (Debian: python3-jinja2)") from error
    folder = os.path.join(os.path.dirname(os.path.abspath(__file__)), "templates")
    loader = jinja2.Environment(loader=jinja2.FileSystemLoader(folder), autoescape=True, trim_blocks=True, lstrip_blocks=True,
                                undefined=jinja2.StrictUndefined)
    loader.globals.update(heat=heat)
    loader.filters["thousands"] = lambda number: f"{number:,}"
    return loader.get_template("sheet.html")


def sha256(text):
    return hashlib.sha256(text.encode("latin-1")).hexdigest()
