#!/usr/bin/env python3
"""Compares `hz compile` and then `hz walk` with `hz replay`, and both with a calendar of units in cycles, which knows no tables: status and
text are the same, on every trace of the examples and on traces of descriptions that a seed makes. Traces ask for query units, and tables
are of version 2 exactly if there is one. If a description is not compiled, `compile` and `replay` answer the same."""
import argparse
import collections
import glob
import os
import random
import subprocess
import tempfile

from extract import Reader
from extraction.calendars import Calendars
from extraction.changes import of_kind
from extraction.items import Class, Options, Units
from extraction.running import run

# of units in two forms, one after the other
HEADS = (
    ("define_cpu_unit", "define_cpu_unit"),
    ("define_query_cpu_unit", "define_cpu_unit"),
    ("define_cpu_unit", "define_query_cpu_unit"),
    ("define_query_cpu_unit", "define_query_cpu_unit"),
)
SETS = ("exclusion_set", "presence_set", "final_presence_set", "absence_set", "final_absence_set")
OPTIONS = ("ndfa", "no-minimization", "stats", "v", "no-comb-vect", "time")
MOST_ADVANCES = 16777216
# in so many cycles all that was reserved is past
LONGEST = 512


def answer(hz, *words):
    """The status and the text of hz."""
    done = subprocess.run([hz, *words], stdout=subprocess.PIPE, stderr=subprocess.STDOUT, check=False)
    return done.returncode, done.stdout


class Maker:
    """Makes descriptions and traces by a seed."""

    def __init__(self, seed):
        self.random = random.Random(seed)

    def some(self, items, most):
        """Up to so many of the items, in their order."""
        chosen = self.random.sample(range(len(items)), self.random.randint(0, min(most, len(items))))
        return [items[place] for place in sorted(chosen)]

    def part(self, units):
        """A part of one cycle, with units of one automaton."""
        own = self.random.choice(units)
        kind = self.random.random()
        if kind < 0.2:
            return "nothing"
        if kind < 0.5 or len(own) == 1:
            return self.random.choice(own)
        return "(" + "|".join(self.random.sample(own, self.random.randint(2, len(own)))) + ")"

    def expression(self, units):
        """Parts beside one another and after one another; in one automaton also alternatives of several lengths."""
        cycles = []
        for _ in range(self.random.randint(1, 4)):
            beside = "+".join(self.part(units) for _ in range(self.random.randint(1, 2)))
            repeat = self.random.choice(["", "", "*2", "*3"])
            cycles.append(f"({beside}){repeat}")
        text = ",".join(cycles)
        if len(units) == 1 and self.random.random() < 0.3:
            text = f"({text}|{self.part(units)}),{self.part(units)}"
        return text

    def statement(self, units):
        """A set statement on units of one automaton that has two at least."""
        own = self.random.choice([own for own in units if len(own) > 1])
        place = self.random.randint(1, len(own) - 1)
        return f'({self.random.choice(SETS)} "{",".join(own[:place])}" "{",".join(own[place:])}")'

    def forms_of_units(self, units, automaton, heads):
        """The units of an automaton in two forms at most, by one of the pairs of heads."""
        after = f' "{automaton}"' if automaton else ""
        cut = self.random.randint(0, len(units))
        parts = zip(self.random.choice(heads), (units[:cut], units[cut:]))
        return [f'({head} "{",".join(own)}"{after})' for head, own in parts if own]

    def description(self):
        """The text of a description."""
        automata = [f"m{place}" for place in range(self.random.choice([0, 0, 1, 2, 3]))]
        options = self.some(OPTIONS, 4)
        # under `ndfa` query units are a fault, which is seldom wanted
        heads = HEADS if "ndfa" not in options or self.random.random() < 0.1 else HEADS[:1]
        lines = [f'(define_automaton "{",".join(automata)}")'] if automata else []
        units = []
        for place in range(max(1, len(automata))):
            units.append([f"u{place}_{unit}" for unit in range(self.random.randint(1, 4))])
            lines += self.forms_of_units(units[-1], automata[place] if automata else None, heads)
        if any(len(own) > 1 for own in units):
            lines += [self.statement(units) for _ in range(self.random.choice([0, 0, 1, 2]))]
        lines += [f'(automata_option "{option}")' for option in options]
        classes = [f"c{place}" for place in range(self.random.randint(1, 6))]
        for name in classes:
            lines.append(f'(define_insn_reservation "{name}" 1 (const_int 1) "{self.expression(units)}")')
        return "\n".join(lines) + "\n"

    def trace(self, simulation):
        """The text of a trace, which seldom has a wrong line."""
        lines = []
        for _ in range(self.random.randint(0, 25)):
            kind = self.random.random()
            if kind < 0.4:
                lines.append(f"issue {self.random.choice(simulation.classes)}")
            elif kind < 0.7:
                lines.append(f"advance {self.random.randint(0, 6)}")
            elif kind < 0.96:
                lines += [f"ask {unit}" for unit in self.some(simulation.queries, 3)]
            else:
                wrong = ["issue none", "advance", "advance 16777217", "ask", "ask none", f"ask {self.random.choice(simulation.units)}"]
                lines.append(self.random.choice(["", "; nothing", *wrong]))
        return "\n".join(lines)


class Wrong(Exception):
    """A wrong line of a trace, and what is wrong there."""


class Simulation:
    """What `replay` answers for a description, by a calendar of units in cycles: it knows no states and no tables."""

    def __init__(self, description):
        self.items = Reader().items(description, False)
        self.classes = [item.name for item in of_kind(self.items, Class)]
        forms = of_kind(self.items, Units)
        self.units = [name for item in forms for name in item.names]
        self.queries = [name for item in forms if item.query for name in item.names]
        self.is_any = any("ndfa" in item.names for item in of_kind(self.items, Options))
        self.calendars = None

    def event(self, words):
        """The event of a line, as its word and a name or a number."""
        known = {"issue": (self.classes, "UnknownClass"), "ask": (self.queries, "UnknownUnit")}
        if len(words) != 2 or words[0] not in ("advance", *known):
            raise Wrong("BadLine")
        if words[0] == "advance":
            return words[0], int(words[1])
        names, wrong = known[words[0]]
        if words[1] not in names:
            raise Wrong(wrong)
        return words[0], words[1]

    def events(self, lines):
        """The events of lines, each with its line. The first wrong line is reported."""
        events, cycles = [], 0
        for place, words in enumerate(map(str.split, lines), 1):
            if not words or words[0].startswith(";"):
                continue
            try:
                word, what = self.event(words)
                cycles += what if word == "advance" else 0
                if cycles > MOST_ADVANCES:
                    raise Wrong("AdvanceLimit")
            except Wrong as wrong:
                raise Wrong(f"line {place} {wrong}") from wrong
            events.append((place, word, what))
        return events

    def answer(self, trace):
        """The status and the text for a trace; None if there are too many states to follow."""
        with open(trace, encoding="ascii") as text:
            lines = text.read().split("\n")
        try:
            events = self.events(lines)
        except Wrong as wrong:
            return 2, f"fault {trace} {wrong}\n".encode()
        if self.calendars is None:
            self.calendars = Calendars(self.items, self.is_any)
        self.calendars.start()
        return self.replayed(events)

    def replayed(self, events):
        """The status and the text for events."""
        reported, issues, cycles = "", 0, 0
        for line, word, what in events:
            if word == "ask":
                reported += f"ask line {line} {what} {'reserved' if self.calendars.holds(what) else 'free'}\n"
            elif word == "advance":
                cycles += what
                for _ in range(min(what, LONGEST)):
                    self.calendars.advance()
            else:
                accepted = self.calendars.issue(self.classes.index(what))
                if accepted is None:
                    return None
                if not accepted:
                    return 1, f"{reported}refused line {line} {what}\n".encode()
                issues += 1
        return 0, f"{reported}accepted {issues} issues {cycles} cycles\n".encode()


class Check:
    """Compares the answers and counts them."""

    def __init__(self, hz, folder):
        self.hz, self.tables = hz, os.path.join(folder, "tables")
        self.seen, self.reported, self.wrong = collections.Counter(), collections.Counter(), 0

    def compare(self, what, first, second):
        self.seen[first[0]] += 1
        if first != second:
            self.wrong += 1
            print(f"{what}: {first} and {second}")

    def version(self, what, text, simulation):
        """Tables have query units exactly if the description has some: the version, and the names in their lines."""
        lines = text.decode().split("\n")
        asks = [line.split(" ")[1:] for line in lines if line.split(" ")[0] == "asks"]
        found = lines[0], [name for names in asks for name in names]
        wanted = f"hazard-tables {2 if simulation.queries else 1}", simulation.queries
        if found != wanted:
            self.wrong += 1
            print(f"{what}: tables {found}, wanted {wanted}")

    def machine(self, description, simulation, traces):
        """Compiles the description, and walks and replays the traces."""
        status, text = answer(self.hz, "compile", description)
        if status != 0:
            self.compare(description, (status, text), answer(self.hz, "replay", description, os.devnull))
            return
        with open(self.tables, "wb") as kept:
            kept.write(text)
        self.version(description, text, simulation)
        for trace in traces:
            replayed = answer(self.hz, "replay", description, trace)
            self.compare(f"{description} {trace}", answer(self.hz, "walk", self.tables, trace), replayed)
            simulated = simulation.answer(trace)
            if simulated is None:
                self.reported["not simulated"] += 1
                continue
            self.compare(f"{description} {trace}, simulated", simulated, replayed)
            for reported in ("reserved", "free"):
                self.reported[reported] += replayed[1].count(f" {reported}\n".encode())


def written(folder, name, text):
    """The path of a file with this text."""
    path = os.path.join(folder, name)
    with open(path, "w", encoding="ascii") as out:
        out.write(text)
    return path


def words_given(purpose, seed, descriptions, traces, *programs):
    """What the words of a check say: its seed, how many descriptions are made, how many traces for each, and the programs."""
    parser = argparse.ArgumentParser(description=purpose)
    parser.add_argument("--seed", type=int, default=seed)
    parser.add_argument("--descriptions", type=int, default=descriptions)
    parser.add_argument("--traces", type=int, default=traces, help="for each description")
    for program in programs:
        parser.add_argument(program)
    return parser.parse_args()


def tell(name, check):
    """Writes what a check saw: the statuses, what else it counted, and how many answers differ."""
    counts = ", ".join(f"{count} of status {status}" for status, count in sorted(check.seen.items()))
    reported = ", ".join(f"{count} {what}" for what, count in sorted(check.reported.items()))
    print(f"{name}: {sum(check.seen.values())} answers, {counts}; {reported}; {check.wrong} differ")


def main():
    given = words_given(__doc__, 29, 100, 8, "hz")
    examples = os.path.join(os.path.dirname(os.path.abspath(__file__)), os.pardir, "examples", "*", "machine.md")
    maker = Maker(given.seed)
    with tempfile.TemporaryDirectory() as folder:
        check = Check(os.path.abspath(given.hz), folder)
        for description in sorted(glob.glob(examples)):
            traces = sorted(glob.glob(os.path.join(os.path.dirname(description), "*.trace")))
            check.machine(description, Simulation(description), traces)
        for _ in range(given.descriptions):
            text = maker.description()
            machine = written(folder, "machine.md", text)
            simulation = Simulation(machine)
            traces = [written(folder, f"{place}.trace", maker.trace(simulation)) for place in range(given.traces)]
            check.machine(machine, simulation, traces)
            if check.wrong:
                print(text)
                break
    tell("check-walk", check)
    shown = {0, 1, 2} <= set(check.seen) and check.reported["reserved"] and check.reported["free"]
    return 0 if shown and not check.wrong else 1


if __name__ == "__main__":
    run(main)
