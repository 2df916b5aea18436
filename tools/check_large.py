#!/usr/bin/env python3
"""Runs hz, hz_why and hz_same at the ends of sizes, where want of memory is free and a body could give up: once within each limit, and once past it where that
is cheap. Statuses and whole texts are compared with what tools/large makes of the rules by itself."""
import argparse
import copy
import itertools
import os
import random
import subprocess
import tempfile
import time

from extraction.running import run as run_tool
from large import explained
from large.blocks import Block, Insn, listing, two_scheduled
from large.machines import Calendar, Kind, Machine, lengthened, many_classes, one_that_waits, several_classes, sixteen_automata, \
    subsets, two_ports

TRACE, TABLES, TEXT = 67_108_864, 536_870_912, 4_194_304
INSNS, BODY, CLASSES, TURNS, STATES = 4096, 256, 1024, 1_000_000, 65_536
SEED = 2**31 - 1


class Folder:
    """Where the files of a row are."""

    def __init__(self, path):
        self.path = path

    def write(self, name, pieces):
        """Writes a file of text, and gives its name."""
        with open(os.path.join(self.path, name), "w", encoding="ascii") as file:
            file.writelines([pieces] if isinstance(pieces, str) else pieces)
        return name

    def size(self, name):
        """The bytes of a file."""
        return os.path.getsize(os.path.join(self.path, name))


def filled(text, size):
    """A text of forms with a comment at its end, of this size."""
    return text + ";" + "-" * (size - len(text) - 1)


def difference(stream, pieces):
    """The byte from which a stream is not these pieces, or none."""
    place = 0
    for piece in pieces:
        wanted = piece.encode()
        got = stream.read(len(wanted))
        if got != wanted:
            return place + next((at for at, (one, other) in enumerate(zip(got, wanted)) if one != other), min(len(got), len(wanted)))
        place += len(wanted)
    return place if stream.read(1) else None


def run(programs, folder, words, status, pieces):
    """What is wrong with the answer of hz, or of another program if that is the first word, or none."""
    command = [programs[words[0]], *words[1:]] if words[0] in programs else [programs["hz"], *words]
    with subprocess.Popen(command, cwd=folder.path, stdout=subprocess.PIPE, stderr=subprocess.STDOUT) as done:
        place = difference(done.stdout, pieces)
        while done.stdout.read(2**20):
            pass
    if done.returncode == status and place is None:
        return None
    gives_up = "gives up: " if done.returncode == 5 else ""
    return f"{gives_up}status {done.returncode}, wanted {status}" + ("" if place is None else f", another text from byte {place} on")


# ---- traces

def drawn_trace(machine, size, seed):
    """A trace of this size, in pieces, and its calendar. At its end is a comment, and room for one line more."""
    chance, calendar, pieces, left = random.Random(seed), Calendar(machine), [], size
    names, kinds = [f"issue {kind.name}\n" for kind in machine.kinds], len(machine.kinds)
    while left > 100 + max(map(len, names)):
        kind = int(chance.random() * kinds)
        line = names[kind]
        if not calendar.issue(kind):
            calendar.advance(1)
            line = "advance 1\n"
        pieces.append(line)
        left -= len(line)
    return pieces, calendar, left


def traces(folder):
    """A trace of as many bytes as may be: of as many events as may be, drawn, refused at its last line, and a byte longer."""
    waits, ports = one_that_waits(), two_ports()
    for name, machine in (("waits", waits), ("ports", ports)):
        folder.write(f"{name}.md", machine.text())
        folder.write(f"{name}.tables", machine.tables())
    events = TRACE // len("issue x\n")
    folder.write("events.trace", itertools.repeat("issue x\n", events))
    for words in (("replay", "waits.md"), ("walk", "waits.tables")):
        shown = f"{words[0]}: a trace of {TRACE:,} bytes and {events:,} events"
        yield shown, (*words, "events.trace"), 0, [f"accepted {events} issues 0 cycles\n"]

    pieces, calendar, left = drawn_trace(ports, TRACE, 1)
    # a port that two classes can't have in one cycle
    first = next(place for place, kind in enumerate(ports.kinds) if kind.name == "first")
    last = ["issue first\n"] * (2 if copy.copy(calendar).issue(first) else 1)
    folder.write("drawn.trace", itertools.chain(pieces, [";" * (left - 1) + "\n"]))
    folder.write("refused.trace", itertools.chain(pieces, [";" * (left - sum(map(len, last)) - 1) + "\n"], last))
    folder.write("longer.trace", itertools.chain(pieces, [";" * left + "\n"]))
    for words in (("replay", "ports.md"), ("walk", "ports.tables")):
        yield f"{words[0]}: a drawn trace of {TRACE:,} bytes", (*words, "drawn.trace"), 0, [calendar.accepted()]
        text = f"refused line {len(pieces) + 1 + len(last)} first\n"
        yield f"{words[0]}: the same, refused at its last line", (*words, "refused.trace"), 1, [text]
        yield f"{words[0]}: a byte more", (*words, "longer.trace"), 3, ["limit longer.trace bytes\n"]


# ---- tables

def large_tables(folder):
    """Tables of 16 automata with as many states and entries as may be, and a walk on what is written."""
    machine = subsets(16, 16, 62)
    folder.write("subsets.md", machine.text())
    folder.write("subsets.tables", machine.tables())
    size = folder.size("subsets.tables")
    if size <= 400_000_000:
        raise ValueError(f"the tables have only {size:,} bytes")
    yield f"compile: 16 automata of 65,536 states and 4,194,304 entries, {size:,} bytes", ("compile", "subsets.md"), 0, machine.tables()

    pieces, calendar, left = drawn_trace(machine, 1_000_000, 2)
    first = next(kind for kind in range(len(machine.kinds)) if not copy.copy(calendar).issue(kind))
    folder.write("drawn.trace", pieces)
    folder.write("refused.trace", [*pieces, f"issue {machine.kinds[first].name}\n"])
    for words in (("replay", "subsets.md"), ("walk", "subsets.tables")):
        yield f"{words[0]}: a drawn trace on these", (*words, "drawn.trace"), 0, [calendar.accepted()]
        text = f"refused line {len(pieces) + 1} {machine.kinds[first].name}\n"
        yield f"{words[0]}: the same, refused at its last line", (*words, "refused.trace"), 1, [text]


class Shown:
    """A class of one unit for some cycles, whose tables show what is reserved in each state, and have so many bytes by long names."""

    def __init__(self, cycles, size):
        self.cycles = cycles
        pairs = cycles * (cycles + 1) // 2
        left = size - sum(map(len, self.tables("u", "x")))
        self.unit = lengthened("u", 1 + left // pairs)
        self.name = lengthened("x", 1 + left % pairs)
        self.text = (f'(define_cpu_unit "{self.unit}")\n(automata_option "v,no-minimization")\n'
                     f'(define_insn_reservation "{self.name}" 1 (const_int 1) "{self.unit}*{cycles}")\n')

    def tables(self, unit, name):
        """The tables text in pieces."""
        states = self.cycles + 1
        yield f"hazard-tables 1\ntreatment first\nclasses 1\nclass {name}\nautomata 1\n"
        yield f"automaton - 1 {states}\nmap 0\nrow 1 0\nfrom -\ngrid\n"
        for state in range(1, states):
            pairs = "".join(f" {cycle}:{unit}" for cycle in range(states - state))
            yield f"row - {(state + 1) % states}\nfrom {'0 0' if state == 1 else f'{state - 1} 1'}\ngrid{pairs}\n"
        yield "end\n"


def longest_tables(folder):
    """Tables of as many bytes as a text of them may have, and of a byte more."""
    for size in (TABLES, TABLES + 1):
        shown = Shown(512, size)
        folder.write("shown.md", shown.text)
        folder.write("shown.tables", shown.tables(shown.unit, shown.name))
        folder.write("late.trace", f"issue {shown.name}\nadvance 512\nissue {shown.name}\n")
        folder.write("early.trace", f"issue {shown.name}\nadvance 511\nissue {shown.name}\n")
        yield f"compile: tables of {size:,} bytes", ("compile", "shown.md"), 0, shown.tables(shown.unit, shown.name)
        if folder.size("shown.tables") > TABLES:
            yield "walk: on these", ("walk", "shown.tables", "late.trace"), 3, ["limit shown.tables bytes\n"]
            continue
        yield "walk: on these", ("walk", "shown.tables", "late.trace"), 0, ["accepted 2 issues 512 cycles\n"]
        yield "walk: on these, refused", ("walk", "shown.tables", "early.trace"), 1, [f"refused line 3 {shown.name}\n"]


# ---- blocks and states

def block_of(machine, kinds, seed):
    """A block of these classes: each instruction computes, loads or stores by what a seed draws, at eight constants from three registers
    that none sets."""
    chance, insns = random.Random(seed), []
    register, cell = (lambda: int(chance.random() * 200)), (lambda: (250 + int(chance.random() * 3), 8 * int(chance.random() * 8)))
    for number, kind in enumerate(kinds):
        shape = chance.random()
        if shape < 0.1:
            insns.append(Insn(number + 1, kind, stored=cell(), used=(register(),)))
        elif shape < 0.3:
            insns.append(Insn(number + 1, kind, into=register(), loaded=cell()))
        else:
            insns.append(Insn(number + 1, kind, into=register(), used=tuple(register() for _ in range(1 + (shape < 0.6)))))
    return Block(machine, insns)


def body_of(machine, kinds):
    """The body of a loop whose turns overlap: every other instruction is the next one of a chain, whose end is stored. The others compute
    or load what none of the body sets or stores."""
    insns = []
    for number, kind in enumerate(kinds):
        if number == len(kinds) - 1:
            insns.append(Insn(number + 1, kind, stored=(250, 0), used=(number // 2,)))
        elif number % 2 == 0:
            insns.append(Insn(number + 1, kind, into=number // 2, used=(number // 2 - 1 if number else 200,)))
        elif number % 3:
            insns.append(Insn(number + 1, kind, into=128 + number % 64, used=(200 + number % 40, 201)))
        else:
            insns.append(Insn(number + 1, kind, into=128 + number % 64, loaded=(250, 8 + number % 8)))
    return Block(machine, insns)


def drawn_kinds(count, classes, seed):
    """Classes that a seed draws."""
    chance = random.Random(seed)
    return [int(chance.random() * classes) for _ in range(count)]


def on_blocks(folder, shown, machine, block, body, halves, start):
    """What each command on a block answers, of a state too."""
    folder.write("machine.md", machine.text())
    folder.write("all.block", filled(block.text(), TEXT))
    folder.write("body.block", body.text() if body else "")
    folder.write("start.state", listing(start))
    for number, half in enumerate(halves):
        folder.write(f"half{number}.block", half.text())
    shown = f"{INSNS:,} instructions on {shown}"
    yield f"schedule: {shown}", ("schedule", "machine.md", "all.block"), 0, [block.scheduled()]
    folder.write("all.trace", block.trace())
    accepted = f"accepted {len(block.insns)} issues {block.last} cycles\n"
    yield f"replay: the schedule of {shown}", ("replay", "machine.md", "all.trace"), 0, [accepted]
    yield f"eval: {shown}", ("eval", "all.block", "start.state"), 0, [block.evaluated(start)]
    yield f"timed: {shown}", ("timed", "machine.md", "all.block", "start.state"), 0, [block.timed(start)]
    yield f"bound: {shown}", ("bound", "machine.md", "all.block"), 0, [block.bounded()]
    yield f"duo: {shown}, half of them each", ("duo", "machine.md", "half0.block", "half1.block"), 0, [two_scheduled(*halves)]
    if body:
        yield f"modulo: {BODY} of them", ("modulo", "machine.md", "body.block"), 0, [body.kernel()]


def some_state(seed):
    """A word for each register and a few cells."""
    chance = random.Random(seed)
    cells = {("mem", 1 << 20 | number * 8): int(chance.random() * 2**64) for number in range(64)}
    bases = {("reg", 250 + number): (1 << 20) + 64 * number for number in range(3)}
    return {**{("reg", number): int(chance.random() * 2**64) for number in range(250)}, **bases, **cells}


def full_blocks(folder):
    """Blocks of as many instructions as may be, on several classes and on 16 automata, and of one more."""
    for shown, machine in (("16 automata", sixteen_automata()), ("several classes", several_classes())):
        classes = len(machine.kinds)
        block = block_of(machine, drawn_kinds(INSNS, classes, 3), 4)
        # a kernel's edges are by states, which classes of one unit tell apart
        body = body_of(machine, drawn_kinds(BODY, classes, 5)) if shown == "several classes" else None
        halves = [block_of(machine, drawn_kinds(INSNS // 2, classes, seed), seed) for seed in (7, 8)]
        yield from on_blocks(folder, shown, machine, block, body, halves, some_state(9))
    more = Insn(0, 0, into=1, used=(2,)).text(machine.kinds[0].name)
    folder.write("longer.block", block.text() + more)
    folder.write("longer_body.block", body.text() + more)
    folder.write("longer_half.block", halves[1].text() + more)
    folder.write("over.block", filled(block.text(), TEXT + 1))
    fault = f"fault longer.block line {INSNS + 1} InsnLimit\n"
    for command, *words in (("schedule", "machine.md", "longer.block"), ("eval", "longer.block", "start.state"),
                            ("timed", "machine.md", "longer.block", "start.state"), ("bound", "machine.md", "longer.block"),
                            ("duo", "machine.md", "longer.block", "half1.block"), ("modulo", "machine.md", "longer.block")):
        yield f"{command}: an instruction more", (command, *words), 2, [fault]
    words = "duo", "machine.md", "half0.block", "longer_half.block"
    yield "duo: an instruction more in both", words, 3, ["limit longer_half.block insns\n"]
    yield "modulo: an instruction more", ("modulo", "machine.md", "longer_body.block"), 3, ["limit longer_body.block insns\n"]
    yield "schedule: a block of a byte more", ("schedule", "machine.md", "over.block"), 3, ["limit over.block bytes\n"]


def large_states(folder):
    """A state of as many cells and bytes as may be, in no order, and of a byte more."""
    machine = several_classes()
    state, left, number = {}, TEXT, 0
    lines = []
    while left > 40:
        # an odd factor, so that all are different
        address = number * 40_503 % 2**20
        line = f"(mem {address} {number + 1})"
        state["mem", address], number = number + 1, number + 1
        lines.append(line)
        left -= len(line)
    block = Block(machine, [Insn(1, 1, into=3, loaded=(250, 8)), Insn(2, 2, stored=(250, 16), used=(3,)), Insn(3, 3, into=4, used=(3, 3))])
    folder.write("machine.md", machine.text())
    folder.write("few.block", block.text())
    folder.write("large.state", filled("".join(lines), TEXT))
    folder.write("over.state", filled("".join(lines), TEXT + 1))
    shown = f"a state of {TEXT:,} bytes and {len(state):,} cells"
    yield f"eval: {shown}", ("eval", "few.block", "large.state"), 0, [block.evaluated(state)]
    yield f"timed: {shown}", ("timed", "machine.md", "few.block", "large.state"), 0, [block.timed(state)]
    yield "eval: a byte more", ("eval", "few.block", "over.state"), 3, ["limit over.state bytes\n"]
    yield "timed: a byte more", ("timed", "machine.md", "few.block", "over.state"), 3, ["limit over.state bytes\n"]


# ---- classes

def all_classes(folder):
    """As many classes as may be, in each command."""
    machine, shown = many_classes(CLASSES), f"{CLASSES} classes"
    block = block_of(machine, [number * 389 % CLASSES for number in range(INSNS)], 10)
    body = body_of(machine, [number * 389 % CLASSES for number in range(BODY)])
    halves = [block_of(machine, [number * step % CLASSES for number in range(INSNS // 2)], step) for step in (397, 401)]
    yield from on_blocks(folder, shown, machine, block, body, halves, some_state(12))

    folder.write("filled.md", filled(machine.text(), TEXT))
    folder.write("all.tables", machine.tables())
    yield f"compile: {shown}", ("compile", "filled.md"), 0, machine.tables()
    pieces, calendar, _ = drawn_trace(machine, 4_000_000, 13)
    folder.write("drawn.trace", pieces)
    for words in (("replay", "filled.md"), ("walk", "all.tables")):
        yield f"{words[0]}: a drawn trace, {shown}", (*words, "drawn.trace"), 0, [calendar.accepted()]
    drilled = machine.drill(SEED, TURNS)
    # the row of nothing reserved leads each class to a state of its own, so that states are numbered as classes are
    text = f"drill {TURNS} turns\n{drilled.accepted()}states {drilled.busy}\n"
    yield f"drill: {TURNS:,} turns, {shown}", ("drill", "filled.md", str(SEED), str(TURNS)), 0, [text]


def past_classes(folder):
    """A class more, in each command that has classes."""
    machine = Machine([(None, ["u"])], [Kind(f"c{number}", 1, {0: [[[0]]]}) for number in range(CLASSES + 1)])
    text = machine.text()
    folder.write("past.md", text)
    folder.write("past.tables", machine.tables())
    folder.write("empty.text", "")
    fault = f"limit past.md line {text.count(chr(10))} Classes c{CLASSES}\n"
    for command, *more in (("compile",), ("replay", "empty.text"), ("schedule", "empty.text"), ("drill", "1", "1"),
                           ("timed", "empty.text", "empty.text"), ("bound", "empty.text"), ("duo", "empty.text", "empty.text"),
                           ("modulo", "empty.text")):
        yield f"{command}: a class more", (command, "past.md", *more), 3, [fault]
    yield "walk: a class more", ("walk", "past.tables", "empty.text"), 2, ["fault past.tables line 3 OutOfRange\n"]


# ---- hz_why

def why_rows(folder, shown, machine, lines):
    """A row of hz_why on a description and the lines of a trace."""
    folder.write("why.md", machine)
    folder.write("why.trace", "".join(f"{line}\n" for line in lines))
    status, text = explained.answer(os.path.join(folder.path, "why.md"), explained.issues(lines))
    yield f"hz_why: {shown}", ("hz_why", "why.md", "why.trace"), status, [text]


def why_traces(folder):
    """Traces of as many bytes as may be: of as many events as may be, and drawn, with an issue at the end that is refused."""
    waits, ports = one_that_waits(), two_ports()
    folder.write("waits.md", waits.text())
    events = TRACE // len("issue x\n")
    folder.write("events.trace", itertools.repeat("issue x\n", events))
    shown = f"hz_why: a trace of {TRACE:,} bytes and {events:,} events"
    yield shown, ("hz_why", "waits.md", "events.trace"), 0, [f"accepted {events} issues 0 cycles\n"]
    folder.write("longer.trace", itertools.chain(itertools.repeat("issue x\n", events), ["\n"]))
    yield "hz_why: a byte more", ("hz_why", "waits.md", "longer.trace"), 3, ["limit longer.trace bytes\n"]

    folder.write("ports.md", ports.text())
    pieces, _, left = drawn_trace(ports, TRACE, 1)
    last = ["issue first\n"] * 3
    folder.write("refused.trace", itertools.chain(pieces, [";" * (left - sum(map(len, last)) - 1) + "\n"], last))
    # what was issued more than 64 lines before is past: each class takes three cycles at most, and each cycle has few issues
    begin = len(pieces) - 64
    lines = explained.issues(pieces[begin:], begin + 1) + explained.issues(last, len(pieces) + 2)
    status, text = explained.answer(os.path.join(folder.path, "ports.md"), lines)
    yield f"hz_why: a drawn trace of {TRACE:,} bytes, refused at its end", ("hz_why", "ports.md", "refused.trace"), status, [text]


def why_sizes(folder):
    """As many alternatives, classes and set statements as may be, or many."""
    machine = explained.choices(16, 3)
    yield from why_rows(folder, "4,096 alternatives, refused after one that takes all", machine, ["issue all", "advance 1", "issue all", "issue any"])
    yield from why_rows(folder, "4,096 alternatives, 16 issues", machine, ["issue any"] * 16)
    yield from why_rows(folder, "4,096 alternatives, refused after 16 others", machine, ["issue any"] * 16 + ["issue any"])
    yield from why_rows(folder, "4,096 alternatives, of which one fits", machine, ["issue last", "issue last"])
    machine = many_classes(CLASSES).text()
    yield from why_rows(folder, f"{CLASSES} classes", machine, ["issue c1", f"issue c{CLASSES - 1}"])
    yield from why_rows(folder, "30,000 set statements", explained.statements(30_000), ["issue first", "issue second"])


# ---- hz_same

def counter(states, last):
    """The tables of an automaton that counts cycles, in which the last state alone takes the class, or none does."""
    head = f"hazard-tables 1\ntreatment first\nclasses 1\nclass x\nautomata 1\nautomaton - 1 {states}\nmap 0\n"
    return itertools.chain([head], (f"row - {state}\n" for state in range(1, states)), [f"row {last} 0\nend\n"])


def same_sizes(folder):
    """Machines of as many states as may be, which are the same, or differ in the last."""
    folder.write("first.tables", counter(STATES, "0"))
    folder.write("again.tables", counter(STATES, "0"))
    folder.write("second.tables", counter(STATES, "-"))
    yield f"hz_same: {STATES:,} states", ("hz_same", "first.tables", "again.tables"), 0, ["same\n"]
    text = f"advance {STATES - 1}\nissue x\n; refused by second.tables, accepted by first.tables\n"
    yield f"hz_same: {STATES:,} states, of which the last differs", ("hz_same", "first.tables", "second.tables"), 1, [text]


GROUPS = (traces, large_tables, longest_tables, full_blocks, large_states, all_classes, past_classes, why_traces, why_sizes, same_sizes)


def main():
    """Runs the rows of all groups, or of those that are named."""
    parser = argparse.ArgumentParser(description=__doc__)
    parser.add_argument("hz", help="the program")
    parser.add_argument("hz_why", help="the program that explains")
    parser.add_argument("hz_same", help="the program that compares")
    parser.add_argument("groups", nargs="*", choices=[[], *(group.__name__ for group in GROUPS)], help="only rows of these")
    parser.add_argument("--only", default="", help="only rows that are shown with this text")
    given = parser.parse_args()
    programs = {name: os.path.abspath(getattr(given, name)) for name in ("hz", "hz_why", "hz_same")}
    wrong = count = 0
    for group in GROUPS:
        if given.groups and group.__name__ not in given.groups:
            continue
        with tempfile.TemporaryDirectory() as path:
            folder = Folder(path)
            for shown, words, status, pieces in group(folder):
                if given.only not in shown:
                    continue
                begun = time.monotonic()
                found = run(programs, folder, words, status, pieces)
                print(f"{shown}: {found or 'as wanted'}, {time.monotonic() - begun:.1f} s", flush=True)
                wrong, count = wrong + bool(found), count + 1
    print(f"{count} rows, {wrong} wrong")
    return 1 if wrong else 0


if __name__ == "__main__":
    run_tool(main)
