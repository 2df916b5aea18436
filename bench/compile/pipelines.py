#!/usr/bin/env python3
"""Writes ten descriptions of the size of real pipelines into a folder, always the same.

Each has an automaton whose slots every instruction takes at its issue, and others of clusters: units that are taken for
some cycles, as a divider is, and a port for results, which come after some cycles.
"""
import sys
from collections import namedtuple

# slots of the issue; of each cluster the cycles for which its units are taken, and those after which results come
Pipeline = namedtuple("Pipeline", "name ndfa classes slots clusters")
Cluster = namedtuple("Cluster", "taken results")

ONE = [Cluster([28], [2, 3, 4])]
TWO = [Cluster([40], [1, 2, 3]), Cluster([30], [2, 4])]
FOUR = [Cluster([60], [1, 2, 3]), Cluster([12, 6], [1, 3]), Cluster([16, 4], [2, 3]), Cluster([40], [1, 2])]
EIGHT = FOUR + [Cluster([34], [1, 2, 4]), Cluster([44], [2, 3]), Cluster([10, 8], [1, 3]), Cluster([14, 4], [1, 2])]
FIFTEEN = EIGHT + [
    Cluster([28], [1, 2, 3]),
    Cluster([20], [2, 4]),
    Cluster([19], [1, 4]),
    Cluster([9, 8], [1, 2]),
    Cluster([5, 3], [2, 3]),
    Cluster([48], [1, 3]),
    Cluster([24], [1, 2, 4]),
]

PIPELINES = [
    Pipeline("one", False, 50, 2, ONE),
    Pipeline("one_ndfa", True, 50, 2, ONE),
    Pipeline("two", False, 80, 3, TWO),
    Pipeline("two_ndfa", True, 80, 3, TWO),
    Pipeline("four", False, 120, 4, FOUR),
    Pipeline("four_ndfa", True, 120, 4, FOUR),
    Pipeline("eight", False, 160, 4, EIGHT),
    Pipeline("eight_ndfa", True, 160, 4, EIGHT),
    Pipeline("fifteen", False, 200, 6, FIFTEEN),
    Pipeline("fifteen_ndfa", True, 200, 6, FIFTEEN),
]


def take(unit, cycles):
    """A unit that is taken for so many cycles from now on."""
    return unit if cycles == 1 else f"{unit}*{cycles}"


def work(place, cluster, turn):
    """What the class of this turn takes in its cluster, from the cycle of its issue on."""
    unit = turn % len(cluster.taken)
    result = cluster.results[turn % len(cluster.results)]
    unit = take(f"u{place}_{unit}", cluster.taken[unit])
    left, right, done = f"l{place}", f"r{place}", f"nothing*{result}, p{place}"
    kinds = [
        done,
        unit,
        f"({unit}) + ({done})",
        f"({left} | {right}), {done}",
        f"({left}) + ({unit})",
        f"{right}, {done}",
        f"({left} | {right}) + ({unit})",
        f"{left} + {right} + ({done})",
    ]
    return kinds[turn // 2 % len(kinds)]


def issue(pipeline, turn):
    """The slot that the class of this turn takes: any, the first, or the last."""
    slots = [f"s{slot}" for slot in range(pipeline.slots)]
    return ["(" + " | ".join(slots) + ")", slots[0], slots[-1]][turn % 3]


def description(pipeline):
    """The text of a pipeline."""
    names = ["issue"] + [f"cluster{place}" for place in range(len(pipeline.clusters))]
    lines = ['(automata_option "ndfa")'] if pipeline.ndfa else []
    lines.append(f'(define_automaton "{", ".join(names)}")')
    lines.append(f'(define_cpu_unit "{", ".join(f"s{slot}" for slot in range(pipeline.slots))}" "issue")')
    for place, cluster in enumerate(pipeline.clusters):
        units = [f"u{place}_{unit}" for unit in range(len(cluster.taken))] + [f"p{place}", f"l{place}", f"r{place}"]
        lines.append(f'(define_cpu_unit "{", ".join(units)}" "cluster{place}")')
    for number in range(pipeline.classes):
        place, turn = number % len(pipeline.clusters), number // len(pipeline.clusters)
        text = f"{issue(pipeline, number)} + ({work(place, pipeline.clusters[place], turn)})"
        lines.append(f'(define_insn_reservation "c{number}" {2 + number % 9} (const_int 1)\n  "{text}")')
    return "\n".join(lines) + "\n"


def main():
    for pipeline in PIPELINES:
        with open(f"{sys.argv[1]}/pipeline_{pipeline.name}", "w", encoding="ascii") as out:
            out.write(description(pipeline))
        print(pipeline.name)


if __name__ == "__main__":
    main()
