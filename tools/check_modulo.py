#!/usr/bin/env python3
"""Holds `hz modulo` against a plain search on loops that a seed makes. `hz replay` accepts the trace of its turns, and they leave what the
body leaves, so many times. Every smaller interval has too many stages, a cost or a turn that fails, or no repeat."""
import argparse
import collections
import itertools
import os
import random
import subprocess
import sys
import tempfile

from extraction.running import run

COUNTS = (1, 2, 3, 5, 40)
STAGES = 32
REPEATS = 1024


def answer(hz, *words):
    """The status and the lines of hz."""
    done = subprocess.run([hz, *words], stdout=subprocess.PIPE, stderr=subprocess.STDOUT, check=False)
    return done.returncode, done.stdout.decode().splitlines()


def written(folder, name, text):
    """The path of a file with this text."""
    path = os.path.join(folder, name)
    with open(path, "w", encoding="utf-8") as file:
        file.write(text)
    return path


class Machine:
    """A description: three classes with latencies, a bypass, and units of one automaton or of two."""

    def __init__(self, chance):
        self.latencies = {name: chance.randint(0, 4) for name in "abc"}
        self.bypass = (chance.randint(0, 5), chance.choice("abc"), chance.choice("abc")) if chance.random() < 0.4 else None
        parts = chance.choice((("uvw",), ("uv", "w")))
        forms = ['(define_attr "type" "a,b,c" (const_string "a"))']
        if len(parts) > 1:
            forms.append('(define_automaton "m,n")')
        for part, automaton in zip(parts, "mn"):
            named = f' "{automaton}"' if len(parts) > 1 else ""
            forms.append(f'(define_cpu_unit "{",".join(part)}"{named})')
        options = [option for option in ("ndfa", "no-minimization") if chance.random() < 0.25]
        forms += [f'(automata_option "{option}")' for option in options]
        if chance.random() < 0.3:
            kind = chance.choice(("exclusion_set", "absence_set", "presence_set", "final_presence_set"))
            forms.append(f'({kind} "{parts[0][0]}" "{parts[0][1]}")')
        for name, latency in self.latencies.items():
            units = chance.choice(parts)
            ways = "|".join(self.way(chance, units) for _ in range(chance.randint(1, 2)))
            forms.append(f'(define_insn_reservation "{name}" {latency} (eq_attr "type" "{name}") "{ways}")')
        if self.bypass:
            forms.append('(define_bypass {} "{}" "{}")'.format(*self.bypass))
        self.text = "\n".join(forms) + "\n"

    @staticmethod
    def way(chance, units):
        """An alternative: a unit or none for each of some cycles."""
        return "(" + ",".join(chance.choice([*units, *units, "nothing"]) for _ in range(chance.randint(1, 4))) + ")"

    def number(self, first, second):
        """The cycles of a true dependence between two classes."""
        return self.bypass[0] if self.bypass and self.bypass[1:] == (first, second) else self.latencies[first]


class Insn:
    """An instruction: its class, the register or the cell that it writes, and the registers and the cell that it reads."""

    def __init__(self, chance):
        self.kind = chance.choice("abc")
        register, cell = (lambda: chance.randint(0, 3)), (lambda: (chance.randint(0, 3), chance.choice((0, 8))))
        self.into, self.stored, self.loaded, self.used = None, None, None, []
        shape = chance.random()
        if shape < 0.2:
            self.stored, self.used = cell(), [register()]
        elif shape < 0.5:
            self.into, self.loaded = register(), cell()
        else:
            self.into, self.used = register(), [register()]

    @staticmethod
    def cell(base, offset):
        """A cell as a form."""
        return f"(mem (plus (reg {base}) (const_int {offset})))" if offset else f"(mem (reg {base}))"

    def text(self, number):
        """The instruction as a form."""
        place = f"(reg {self.into})" if self.stored is None else self.cell(*self.stored)
        value = self.cell(*self.loaded) if self.loaded else f"(plus (reg {self.used[0]}) (const_int 3))"
        return f'(insn {number} (set {place} {value}) (set_attr "type" "{self.kind}"))\n'

    def reads(self):
        """The registers that it reads, also those of addresses."""
        return {*self.used, *(cell[0] for cell in (self.stored, self.loaded) if cell)}


def meet(insns, first, second, cell, other):
    """Whether two cells, of an earlier and of a later instruction, may be one."""
    if cell is None or other is None:
        return False
    return cell[0] != other[0] or cell[1] == other[1] or any(insn.into == cell[0] for insn in insns[first:second])


def costs(machine, insns):
    """The cost of each pair that depends."""
    found = {}
    for first, second in itertools.combinations(range(len(insns)), 2):
        one, two = insns[first], insns[second]
        reported = []
        flows = one.into is not None and one.into in two.reads() and all(insn.into != one.into for insn in insns[first + 1:second])
        if flows or meet(insns, first, second, one.stored, two.loaded):
            reported.append(machine.number(one.kind, two.kind))
        if (two.into is not None and two.into in one.reads()) or meet(insns, first, second, one.loaded, two.stored):
            reported.append(0)
        if (one.into is not None and one.into == two.into) or meet(insns, first, second, one.stored, two.stored):
            reported.append(max(0, machine.latencies[one.kind] - machine.latencies[two.kind]))
        if reported:
            found[first, second] = max(reported)
    return found


class Tables:
    """The tables that `hz compile` writes: of each automaton the column of each class, and the rows."""

    def __init__(self, lines):
        self.names = [line.split()[1] for line in lines if line.startswith("class ")]
        self.parts = []
        for line in lines:
            words = line.split()
            if words[0] == "map":
                self.parts.append((dict(zip(self.names, map(int, words[1:]))), []))
            elif words[0] == "row":
                self.parts[-1][1].append([None if word == "-" else int(word) for word in words[1:]])

    def walk(self, insns, slots, end):
        """The states after slots of a cycle and a place each, advanced to a cycle; None if an issue doesn't fit."""
        states, now = [0] * len(self.parts), 0
        for cycle, place in [*slots, (end, None)]:
            for _ in range(now, cycle):
                states = [rows[state][-1] for (_, rows), state in zip(self.parts, states)]
            now = max(now, cycle)
            if place is not None:
                kind = insns[place % len(insns)].kind
                states = [rows[state][columns[kind]] for (columns, rows), state in zip(self.parts, states)]
                if None in states:
                    return None
        return tuple(states)


class Loop:
    """A body of a loop with its schedule."""

    def __init__(self, machine, insns, slots):
        self.machine, self.insns, self.slots = machine, insns, slots
        self.last = slots[-1][0] if slots else 0
        self.costs = costs(machine, insns * 3)

    def turns(self, interval, count):
        """The slots of so many turns: by cycle, then by turn, then as in the schedule."""
        size = len(self.insns)
        placed = [(turn, at, *slot) for turn in range(count) for at, slot in enumerate(self.slots)]
        found = [(turn * interval + cycle, turn, at, turn * size + place) for turn, at, cycle, place in placed]
        return [(cycle, place) for cycle, _, _, place in sorted(found)]

    def keeps_costs(self, interval):
        """Whether three turns keep their costs."""
        cycles = {place: cycle for cycle, place in self.turns(interval, 3)}
        return all(cycles[first] + cost <= cycles[second] for (first, second), cost in self.costs.items())

    def repeats(self, tables, interval):
        """The first two edges with the same states, or why there are none, and of how many turns."""
        stages = self.last // interval
        if stages > STAGES:
            return None, "stages", 0
        if not self.keeps_costs(interval):
            return None, "costs", 0
        met = {}
        for edge in range(stages + REPEATS + 1):
            slots = self.turns(interval, edge)
            if tables.walk(self.insns, slots, 0) is None:
                return None, "turns", edge
            states = tables.walk(self.insns, [slot for slot in slots if slot[0] < edge * interval], edge * interval)
            if edge >= stages:
                if states in met:
                    return (met[states], edge), None, edge
                met[states] = edge
        return None, "repeats", 0

    def kernel(self, interval, pair):
        """The lines of the kernel at an interval."""
        parts = sorted((cycle % interval, -(cycle // interval), at, place) for at, (cycle, place) in enumerate(self.slots))
        return [f"interval {interval}", f"stages {self.last // interval + 1}",
                *(f"{offset} {-back} {place + 1} {self.insns[place].kind}" for offset, back, _, place in parts),
                f"edge {pair[0]} equals edge {pair[1]}", f"list {self.last} cycles"]

    def trace(self, interval, count):
        """The trace of so many turns."""
        now, lines = 0, []
        for cycle, place in self.turns(interval, count):
            if cycle > now:
                lines.append(f"advance {cycle - now}\n")
            now = cycle
            lines.append(f"issue {self.insns[place % len(self.insns)].kind}\n")
        return "".join(lines)


def replayed(hz, folder, description, trace):
    """What replay answers to a trace."""
    return answer(hz, "replay", description, written(folder, "turns.trace", trace))


def left(hz, folder, insns, places, state):
    """What instructions leave in the order of these places."""
    text = "".join(insns[place % len(insns)].text(number) for number, place in enumerate(places))
    return answer(hz, "eval", written(folder, "order.block", text), state)


def wrong_turns(hz, folder, description, loop, interval, state):
    """What is wrong with the turns at an interval."""
    for count in COUNTS:
        slots = loop.turns(interval, count)
        wanted = [f"accepted {len(slots)} issues {slots[-1][0] if slots else 0} cycles"]
        if replayed(hz, folder, description, loop.trace(interval, count)) != (0, wanted):
            return f"{count} turns are not accepted"
        source = left(hz, folder, loop.insns, range(len(slots)), state)
        if source[0] or left(hz, folder, loop.insns, [place for _, place in slots], state) != source:
            return f"{count} turns leave something else"
    return None


def check(hz, folder, seed, most, refused):
    """What is wrong with the answers to the description and the body of a seed. `refused` counts smaller intervals by what fails."""
    chance = random.Random(seed)
    machine = Machine(chance)
    insns = [Insn(chance) for _ in range(chance.randint(0, most))]
    description = written(folder, "machine.md", machine.text)
    block = written(folder, "body.block", "".join(insn.text(place + 1) for place, insn in enumerate(insns)))
    state = written(folder, "start.state", "".join(f"(reg {number} {chance.randint(1, 3) * 8})\n" for number in range(4)))
    status, lines = answer(hz, "schedule", description, block)
    status_of_kernel, kernel = answer(hz, "modulo", description, block)
    if status == 2 and "CannotStartAlone" in lines[0]:
        refused["alone"] += 1
        return None if (status_of_kernel, kernel) == (status, lines) else f"modulo ends with {status_of_kernel}: {kernel}"
    status_of_tables, tables = answer(hz, "compile", description)
    if status or status_of_tables or status_of_kernel:
        return f"these end with {status}, {status_of_tables}, {status_of_kernel}: {lines}, {kernel}"
    slots = [(int(line.split()[0]), int(line.split()[1]) - 1) for line in lines[:-1]]
    loop, tables = Loop(machine, insns, slots), Tables(tables)
    for interval in itertools.count(1):
        pair, failed, count = loop.repeats(tables, interval)
        if pair:
            break
        refused[failed] += 1
        if failed == "turns" and replayed(hz, folder, description, loop.trace(interval, count))[0] != 1:
            return f"{count} turns are accepted at interval {interval}"
    if kernel != loop.kernel(interval, pair):
        return f"modulo answers {kernel}, wanted {loop.kernel(interval, pair)}"
    return wrong_turns(hz, folder, description, loop, interval, state)


def main():
    """Checks the loops of so many seeds."""
    parser = argparse.ArgumentParser(description=__doc__)
    parser.add_argument("hz", help="the program")
    parser.add_argument("--seeds", type=int, default=200, help="how many loops are made")
    parser.add_argument("--most", type=int, default=6, help="how many instructions a body has at most")
    given, refused = parser.parse_args(), collections.Counter()
    with tempfile.TemporaryDirectory() as folder:
        for seed in range(given.seeds):
            wrong = check(given.hz, folder, seed, given.most, refused)
            if wrong:
                sys.exit(f"seed {seed}: {wrong}")
    print(f"{given.seeds} loops, {refused['alone']} with an instruction that can't be issued: each kernel is the least that repeats, and "
          f"its turns are accepted. Of smaller intervals {refused['costs']} fail by costs, {refused['turns']} by turns, "
          f"{refused['stages']} by stages and {refused['repeats']} by repeats")


if __name__ == "__main__":
    run(main)
