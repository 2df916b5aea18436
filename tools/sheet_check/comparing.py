"""Compares what a page shows with what calendars say, and with what the programs answer."""
import random
import re

from check_walk import Simulation
from why_check.playing import Play
from .calendar import Expected

# so many classes of a large description are the rows that are compared, with all classes as columns
ROWS = 24
NONE = "–"


def number_of(text):
    """A cell of the matrix: a number, or None."""
    return None if text == NONE else int(text)


class Comparison:
    """Compares one page, and keeps each difference as a line."""

    def __init__(self, name, shown, path, seed):
        self.name, self.shown, self.path = name, shown, path
        self.random, self.wrong, self.count = random.Random(seed), [], 0

    def same(self, what, found, wanted):
        self.count += 1
        if found != wanted:
            self.wrong.append(f"{self.name}: {what}: {found}, wanted {wanted}")

    def members(self, classes):
        """For each class the label of its row."""
        of_class = {}
        for group in self.shown.groups:
            for name in group:
                of_class[name] = group[0]
        return {name: of_class.get(name, name) for name in classes}

    def matrix(self, expected):
        """Waits and rates of rows, of all classes or of some that are drawn."""
        label = {row.split(" ")[0]: row for row in self.shown.matrix}
        head = {column.split(" ")[0]: column for column in next(iter(self.shown.matrix.values()), {})}
        row_of = self.members(expected.classes)
        self.same("classes of the matrix", set(row_of.values()), set(label))
        drawn = expected.classes if len(expected.classes) <= ROWS else self.random.sample(expected.classes, ROWS)
        for name in drawn:
            cells = self.shown.matrix[label[row_of[name]]]
            for other, wait in expected.waits(name).items():
                self.same(f"from {name} to {other}", number_of(cells[head[row_of[other]]]), wait)
            self.rate(expected, name, *self.shown.rates[label[row_of[name]]])

    def rate(self, expected, name, count, interval):
        """How many in one cycle, and the interval, in the matrix and in the card."""
        in_one, every = expected.in_one_cycle(name), expected.interval(name)
        self.same(f"{name} in one cycle", count, "∞" if in_one is None else str(in_one))
        self.same(f"{name} without end", number_of(interval), every)
        facts = self.shown.classes[name]["facts"]
        self.same(f"card of {name}, in one cycle", facts["in one cycle"], "no end" if in_one is None else str(in_one))
        words = "never" if every is None else f"every {every} cycle" + ("s" if every > 1 else "")
        self.same(f"card of {name}, without end", facts["without end"], words)

    def classes(self, expected):
        """The alternatives of all classes, and their latencies."""
        self.same("classes", list(self.shown.classes), expected.classes)
        for name, alternatives in expected.alternatives().items():
            shown = self.shown.classes[name]
            self.same(f"latency of {name}", shown["facts"]["latency"], str(expected.latency[name]))
            found = [shown["alternatives"].get(number) for number in range(1, len(alternatives) + 1)]
            self.same(f"alternatives of {name}", found, alternatives)

    def automata(self, tables):
        """Names, columns and states, by the lines of the tables text."""
        found = [tuple(row[at].replace(",", "") for at in (0, 3, 4)) for row in self.shown.automata]
        self.same("automata", found, [tuple(name) for name in re.findall(r"^automaton (\S+) (\d+) (\d+)$", tables, re.M)])

    def held(self, play, events, shown, texts):
        """What is held in each cycle by the calendar of why_check, with a text for each line."""
        played = play.played(events)
        if played is None:
            return
        held, _ = play.holders(events[:played.place], played.choices)
        self.same("what is held", shown, {pair: texts[holder.line] for pair, holder in held.items()})

    def trace(self, shown, path, answer):
        """The line that decides, and what is held."""
        simulation = Simulation(self.path)
        with open(path, encoding="latin-1") as text:
            events = simulation.events(text.read().split("\n"))
        decided = [line for line in answer.split("\n") if line.startswith(("accepted ", "refused "))]
        self.same(f"answer to {path}", shown["answer"], decided[0])
        self.held(Play(simulation), events, shown["held"], {line: str(line) for line, _, _ in events})

    def block(self, shown, schedule, bound, modulo, latency):
        """Cycles, the timeline's marks, units, the bound and the kernel."""
        slots = [line.split(" ") for line in schedule.split("\n")[:-2]]
        issued = {number: (int(cycle), name) for cycle, number, name in slots}
        self.same("issues", {row[0]: (int(row[4]), row[1]) for row in shown["rows"]}, issued)
        for number, (cycle, name) in issued.items():
            marks = {at: mark for (at, head), mark in shown["marks"].items() if head.split(" ")[0] == number and mark in "Ie"}
            self.same(f"marks of {number}", marks, {cycle: "I", **{later: "e" for later in range(cycle + 1, cycle + latency[name])}})
        self.held(Play(Simulation(self.path)), *events_of(slots)[:1], shown["held"], events_of(slots)[1])
        facts = shown["facts"]
        self.same("bound", facts["lower bound"], re.search(r"^bound (\d+)$", bound, re.M)[1])
        self.same("length", facts["last issue in cycle"], re.search(r"^scheduled \d+ insns (\d+) cycles$", schedule, re.M)[1])
        if modulo.startswith("interval"):
            self.same("interval", facts["interval of a loop"], modulo.split("\n")[0].split(" ")[1])
            wanted = sorted(tuple(line.split(" ")) for line in modulo.split("\n") if re.match(r"\d", line))
            self.same("kernel", sorted(kernel_slots(shown["kernel"])), wanted)
        for row in shown["rows"]:
            self.causes(row, issued)

    def causes(self, row, issued):
        """The cause that a row names fits its cycles: the issue it waits for and the cost sum up to when it is ready."""
        number, ready, cycle, why = row[0], int(row[3]), int(row[4]), row[6]
        for other, cost in re.findall(r"insn (\d+) \([^)]*, cost (\d+)\)", why):
            self.same(f"{number} is ready", ready, issued[other][0] + int(cost))
        self.same(f"{number} has a cause", bool(why), cycle > 0)
        waited = re.search(r"(?:in|from) cycles? (\d+)", why)
        self.same(f"{number} waits for a unit", int(waited[1]) if waited else cycle, ready)


def events_of(slots):
    """The events of a schedule as why_check takes them, and the number of the instruction of each line."""
    events, numbers, now = [], {}, 0
    for line, (cycle, number, name) in enumerate(slots, 1):
        if int(cycle) > now:
            events.append((line, "advance", int(cycle) - now))
            now = int(cycle)
        events.append((line, "issue", name))
        numbers[line] = number
    return events, numbers


def kernel_slots(rows):
    """The lines of a kernel that a table shows."""
    for row in rows[1:]:
        for stage, cell in enumerate(row[1:]):
            for number, name in re.findall(r"(\d+) (\S+)", cell):
                yield row[0], str(stage), number, name


def compare_page(name, shown, path, answers, seed):
    """All differences of a page. `answers` has the texts of the programs: the tables, and those of each block and trace by its path."""
    comparison, expected = Comparison(name, shown, path, seed), Expected(path)
    comparison.matrix(expected)
    comparison.classes(expected)
    comparison.automata(answers["tables"])
    comparison.same("blocks", set(shown.blocks), set(answers["blocks"]))
    comparison.same("traces", set(shown.traces), set(answers["traces"]))
    for block, texts in answers["blocks"].items():
        comparison.block(shown.blocks[block], *texts, expected.latency)
    for trace, text in answers["traces"].items():
        comparison.trace(shown.traces[trace], trace, text)
    return comparison
