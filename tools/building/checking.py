"""Compares what genautomata writes of pipelines and whole targets with what hz compiles of them, automaton by automaton."""
import collections
import dataclasses
import re
import time
import typing

from extract import extract, gather
from extraction.forms import Fault
from extraction.same import Undecided
from extraction.tables import Tables

from .cases import Names
from .comparing import Difference, difference, other_states
from .generating import Unwritten
from .machine import parts_of, tables_text
from .raw_forms import RawForms
from .wanted import TablesNames, wanted_of_names

SHORT, SAMPLES = 60000, 2
PLAIN = ({}, {"align": True})
AS_GCC = ({"as_gcc": True}, {"as_gcc": True, "align": True})
READINGS = (("patterns joined", r"one pattern of .* suffices"), ("exclusive units together", r".* takes exclusive units together"),
            ("order of the first", r".* in the order of "), ("each automaton by itself", r".* in each automaton by itself"))


@dataclasses.dataclass
class Compared:
    """One description against one build: how many automata and states, what differs, and the readings with which nothing does."""
    target: str
    name: str
    build: str
    mode: str
    automata: int = 0
    states: int = 0
    other_states: int = 0
    difference: typing.Optional[Difference] = None
    readings: str = ""
    left: str = "DIFFERS with --as-gcc too"
    why: str = ""

    def apart(self):
        return len(self.difference.automata) if self.difference else 0

    def is_explained(self):
        return not self.difference or bool(self.readings)

    def line(self):
        reported = self.why or "the same" + (f", {self.other_states} with other states" if self.other_states else "")
        if self.difference:
            reported = "; ".join(f"{name}: {own.line()}" for name, own in self.difference.automata.items())
            whole = self.difference.whole
            reported += f"; all together: {whole.line() if whole else 'the same'}" if len(self.difference.automata) > 1 or not whole else ""
            reported += f"; the same with --as-gcc: {self.readings}" if self.readings else f"; {self.left}"
        return " | ".join([self.name, self.build, self.mode, str(self.automata), str(self.states), reported])


def spelled(mode):
    return " ".join(f"--{name.replace('_', '-')}" for name in mode) or "as it is"


class Target:
    """The descriptions of a target, and the builds that they are compared with."""

    def __init__(self, name, reader, compiled, generator, comparer, seconds):
        self.name, self.reader, self.compiled, self.generator, self.comparer = name, reader, compiled, generator, comparer
        self.seconds = seconds
        self.raw, self.samples = RawForms(), []

    def tables(self, what, modes):
        """The first mode in which hz compiles a description, with its tables and the changes; or what hz answers last."""
        for mode in modes:
            items, reported = extract(self.reader, **mode, **what)
            answer = self.compiled(items)
            self.seconds["hz"] += answer.seconds
            if answer.status == 0:
                return mode, answer.text, reported
        return None, answer.reported, reported

    def build(self, what):
        """What genautomata writes of the forms as they are."""
        given = {"files": [], "defs": [], "targets": [], **what}
        return self.generator.build(self.raw.text(gather(self.reader, **given).items))

    def keep(self, build, text):
        """Keeps a short text of genautomata, with the tables of hz, as a sample to mutate."""
        if len(build.source.text) < SHORT and len(self.samples) < SAMPLES:
            self.samples.append((build.source.text, text))

    def against(self, build, text):
        """The difference of tables and a build."""
        began = time.process_time()
        wanted = wanted_of_names(build, TablesNames("the tables of hz", iter(text.splitlines(True))).read())
        made = tables_text(wanted, parts_of(build, wanted))
        self.seconds["built"] += time.process_time() - began
        found = difference(self.comparer, text, made)
        return found, other_states(text, made, found)

    def compare(self, name, what, build, word, mode, text):
        """A row: tables against a build; if they differ, once more as genautomata reads."""
        tables = Tables(text)
        row = Compared(self.name, name, word, spelled(mode), len(tables.tables), tables.states())
        try:
            row.difference, row.other_states = self.against(build, text)
            if row.difference and "as_gcc" not in mode:
                found, other, reported = self.tables(what, [{"as_gcc": True, **mode}])
                if found is None:
                    row.left = f"not compiled with --as-gcc: {other}"
                elif self.against(build, other)[0] is None:
                    row.readings = readings_of(reported)
        except (Fault, Undecided) as why:
            row.why, row.automata, row.states = f"not compared: {why}", 0, 0
        return row


def readings_of(reported):
    """Which readings were taken, and how often."""
    counts = collections.Counter()
    for change in reported:
        if change.kind == "gcc":
            counts.update(word for word, form in READINGS if re.match(form, change.what))
    return ", ".join(f"{count} {word}" for word, count in counts.items())


def compare_target(target, tries):
    """The rows of a target: each pipeline against what genautomata writes of it, and against what it writes of the whole target. What hz
    refuses as it is and aligned is read as genautomata reads it."""
    known = {}
    for name, what in tries:
        try:
            mode, text, _ = target.tables(what, PLAIN)
            if mode is None and "AlternationOfTwo" in text:
                mode, text, _ = target.tables(what, AS_GCC)
            if mode is None:
                yield Compared(target.name, name, "-", "-", why=f"not compiled: {text}")
                continue
            known[name] = (what, mode, text)
            build = target.build(what)
            target.keep(build, text)
            yield target.compare(name, what, build, "itself", mode, text)
        except (Fault, Unwritten) as why:
            yield Compared(target.name, name, "itself", "-", why=str(why))
    yield from compare_whole(target, tries, known)


def compare_whole(target, tries, known):
    """Each pipeline of a target against what genautomata writes of all of it."""
    whole = f"all of {target.name}"
    if whole not in dict(tries):
        return
    try:
        build = target.build(dict(tries)[whole])
    except Unwritten as why:
        yield Compared(target.name, whole, whole, "-", why=str(why))
        return
    for name, (what, mode, text) in known.items():
        if name != whole and is_within(target, what, dict(tries)[whole]):
            if "\nautomata 1\nautomaton - " in text and "-" not in [Names(member).automaton for member in build.cases.members]:
                yield Compared(target.name, name, whole, spelled(mode), why="no unit, and no automaton of the build")
            else:
                yield target.compare(name, what, build, whole, mode, text)


def is_within(target, what, whole):
    """Whether all files of a pipeline are of the whole target."""
    files = {item.place.file for item in gather(target.reader, [], [], whole["targets"]).items}
    return set(what["files"]) <= files


def counts(rows):
    """Descriptions, automata, those that are the same, and states."""
    automata = sum(row.automata for row in rows)
    return len(rows), automata, automata - sum(row.apart() for row in rows), sum(row.states for row in rows)


def by_target(rows):
    """The table of docs/GCC.md: of each target what is compared with builds of its pipelines, and with a build of the whole target."""
    yield "| target | descriptions | automata | the same | states | against the whole target | automata | the same | states |"
    yield "|---|---|---|---|---|---|---|---|---|"
    for target in sorted({row.target for row in rows}):
        yield target_line(f"`{target}`", [row for row in rows if row.target == target])
    yield target_line("all", rows)


def target_line(name, rows):
    whole = [row for row in rows if row.build.startswith("all of")]
    alone = [row for row in rows if not row.build.startswith("all of")]
    return "| " + " | ".join([name] + [f"{count:,}" for count in counts(alone) + counts(whole)]) + " |"


def by_difference(rows):
    """The table of docs/GCC.md of automata that differ, each with its shortest trace, by itself; once, where several builds show the same."""
    yield "\n| automaton | trace | hz | the build | reading | with `--as-gcc` |"
    yield "|---|---|---|---|---|---|"
    lines = []
    for row in rows:
        for name, reported in (row.difference.automata if row.difference else {}).items():
            trace = ", ".join(f"`{line}`" for line in reported.trace)
            after = "the same" if row.readings else row.left
            lines.append(f"| `{name}` of `{row.name.replace('.md', '')}` | {trace} | {' | '.join(reported.answers)} | {row.readings} | {after} |")
    yield from dict.fromkeys(lines)


def not_compared(rows):
    """Rows of builds that are there and could not be compared, though hz compiles the description."""
    return [row for row in rows if row.why.startswith("not compared")]


def summary(rows, seconds):
    """Counts of all rows, in lines."""
    compared = [row for row in rows if not row.why]
    yield from by_target(compared)
    yield from by_difference(compared)
    for row in rows:
        if row.why:
            yield f"left: {row.line()}"
    whole = counts(compared)
    yield f"\nbuilds: {whole[0]} compared, {whole[1]} automata, {whole[2]} the same, {whole[3]} states"
    for word in ("itself", "all of"):
        own = counts([row for row in compared if row.build.startswith(word)])
        yield f"  against {word}: {own[0]} compared, {own[1]} automata, {own[2]} the same, {own[3]} states"
    apart = [row for row in compared if row.difference]
    yield f"  with another number of states: {sum(row.other_states for row in compared)}"
    yield f"  that differ: {sum(row.apart() for row in apart)}, of these explained: {sum(row.apart() for row in apart if row.is_explained())}"
    yield "  seconds of a processor: " + ", ".join(f"{name} {taken:.1f}" for name, taken in seconds.items())
