#!/usr/bin/env python3
"""Holds `hz bound` against an exhaustive search on small blocks that a seed makes: no legal schedule that ends sooner is accepted by
`hz replay`, the path and the load are those of a plain count, and the last cycle is that of `hz schedule`."""
import argparse
import itertools
import os
import random
import subprocess
import sys
import tempfile

from extraction.running import run

UNITS = ("u", "v", "w")


def answer(hz, *words):
    """The status and the lines of hz."""
    done = subprocess.run([hz, *words], stdout=subprocess.PIPE, stderr=subprocess.STDOUT, check=False)
    return done.returncode, done.stdout.decode().splitlines()


class Class:
    """A class: a latency, and alternatives, each a list of cycles with their units."""

    def __init__(self, chance, name):
        self.name = name
        self.latency = chance.randint(0, 4)
        self.alternatives = []
        for _ in range(chance.randint(1, 2)):
            length = chance.randint(1, 3)
            self.alternatives.append([chance.choice(("", *UNITS)) for _ in range(length)])

    def text(self):
        """The class as a form."""
        words = ["(" + ",".join(unit or "nothing" for unit in cycles) + ")" for cycles in self.alternatives]
        return f'(define_insn_reservation "{self.name}" {self.latency} (eq_attr "type" "{self.name}") "{"|".join(words)}")'


class Block:
    """A block of sums of registers, each of a class."""

    def __init__(self, chance, classes, most):
        self.insns = [(chance.choice(classes), chance.randint(0, 3), chance.sample(range(4), 2)) for _ in range(chance.randint(1, most))]

    def text(self):
        """The block as forms, numbered from 1."""
        form = '(insn {0} (set (reg {2}) (plus (reg {3}) (reg {4}))) (set_attr "type" "{1}"))'
        return "".join(form.format(at + 1, kind.name, to, *used) + "\n" for at, (kind, to, used) in enumerate(self.insns))

    def costs(self):
        """The cost of each pair that depends."""
        found = {}
        for first, second in itertools.combinations(range(len(self.insns)), 2):
            (kind, to, used), (other, goal, taken) = self.insns[first], self.insns[second]
            between = [middle[1] for middle in self.insns[first + 1:second]]
            costs = []
            if to in taken and to not in between:
                costs.append(kind.latency)
            if goal in used:
                costs.append(0)
            if to == goal:
                costs.append(max(0, kind.latency - other.latency))
            if costs:
                found[first, second] = max(costs)
        return found


def path_of(block, costs):
    """The greatest tail."""
    tails = [0] * len(block.insns)
    for first in reversed(range(len(tails))):
        tails[first] = max([cost + tails[to] for (at, to), cost in costs.items() if at == first], default=0)
    return max(tails, default=0)


def load_of(block, unit):
    """The count, the span and the value of a unit, None if nothing needs it."""
    users = []
    for kind, _, _ in block.insns:
        force = min(cycles.count(unit) for cycles in kind.alternatives)
        if force:
            users.append((force, [at for cycles in kind.alternatives for at, held in enumerate(cycles) if held == unit]))
    if not users:
        return None
    count = sum(force for force, _ in users)
    held = [at for _, cycles in users for at in cycles]
    span = max(held) - min(held)
    return count, span, max(0, count - 1 - span)


def traces(block, costs, last):
    """The traces of all legal schedules that end in that cycle or sooner."""
    for order in itertools.permutations(range(len(block.insns))):
        places = {insn: at for at, insn in enumerate(order)}
        if any(places[first] > places[second] for first, second in costs):
            continue
        for cycles in itertools.combinations_with_replacement(range(last + 1), len(order)):
            if all(cycles[places[first]] + cost <= cycles[places[second]] for (first, second), cost in costs.items()):
                now, lines = 0, []
                for insn, cycle in zip(order, cycles):
                    if cycle > now:
                        lines.append(f"advance {cycle - now}")
                    now = cycle
                    lines.append(f"issue {block.insns[insn][0].name}")
                yield "\n".join(lines) + "\n"


def written(folder, name, text):
    """The path of a file with this text."""
    path = os.path.join(folder, name)
    with open(path, "w", encoding="utf-8") as file:
        file.write(text)
    return path


def check(hz, folder, seed, most):
    """What is wrong with the answers to the description and the block of a seed, and by how much the schedule is above its bound."""
    chance = random.Random(seed)
    classes = [Class(chance, name) for name in ("a", "b", "c")]
    options = '(automata_option "ndfa")\n' if chance.random() < 0.3 else ""
    text = f'{options}(define_attr "type" "a,b,c" (const_string "a"))\n(define_cpu_unit "{",".join(UNITS)}")\n'
    machine = written(folder, "machine.md", text + "".join(kind.text() + "\n" for kind in classes))
    block = Block(chance, classes, most)
    insns = written(folder, "insns.block", block.text())
    status, lines = answer(hz, "bound", machine, insns)
    if status:
        return f"bound ends with {status}: {lines}", 0
    costs, words = block.costs(), {line.split()[0]: line.split()[1:] for line in lines}
    path = path_of(block, costs)
    loads = [(unit, load) for unit in UNITS if (load := load_of(block, unit))]
    heaviest = max(loads, key=lambda load: load[1][2], default=None)
    bound = max(path, heaviest[1][2] if heaviest else 0)
    if int(words["path"][0]) != path:
        return f"the path is {path}", 0
    chain = [int(word) - 1 for word in words["path"][1:]]
    if sum(costs.get(pair, 10 ** 6) for pair in zip(chain, chain[1:])) != path:
        return "the costs along the chain are not its path", 0
    if words["load"] != ([heaviest[0], *map(str, heaviest[1])] if heaviest else ["-"]):
        return f"the load is {heaviest}", 0
    if words["bound"] != [str(bound)]:
        return f"the bound is {bound}", 0
    status, lines = answer(hz, "schedule", machine, insns)
    if status or int(lines[-1].split()[3]) != int(words["schedule"][0]):
        return f"schedule answers {lines[-1]}", 0
    for trace in traces(block, costs, bound - 1):
        if answer(hz, "replay", machine, written(folder, "sooner.trace", trace))[0] != 1:
            return f"this ends sooner:\n{trace}", 0
    return None, int(words["schedule"][0]) - bound


def main():
    """Checks the descriptions of so many seeds."""
    parser = argparse.ArgumentParser(description=__doc__)
    parser.add_argument("hz", help="the program")
    parser.add_argument("--seeds", type=int, default=100, help="how many descriptions are made")
    parser.add_argument("--most", type=int, default=4, help="how many instructions a block has at most")
    given, met = parser.parse_args(), 0
    with tempfile.TemporaryDirectory() as folder:
        for seed in range(given.seeds):
            wrong, above = check(given.hz, folder, seed, given.most)
            if wrong:
                sys.exit(f"seed {seed}: {wrong}")
            met += not above
    print(f"{given.seeds} blocks: no schedule ends before its bound; {met} of them end at it")


if __name__ == "__main__":
    run(main)
