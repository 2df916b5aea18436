#!/usr/bin/env python3
"""Compares `hz_why` with `hz replay`, and with an own calendar of units in cycles, which knows no states and no tables. On every trace of
the examples, and on traces of descriptions that a seed makes, the status and the first text are those of `replay`. Where `replay` answers
a limit of states, they are those of the calendar. The text after is the calendar's, byte by byte: when the class fits, what forbids which
alternatives and who holds it, what alternatives take, which issues still hold something, and the picture. Under `ndfa` the first of all
lists of choices is searched for."""
import collections
import glob
import os
import re
import subprocess
import tempfile

from check_walk import Simulation, Wrong, answer, tell, words_given, written
from extraction.running import run
from why_check.making import WhyMaker
from why_check.playing import Play
from why_check.worked import WORKED


def reported_of(simulation, play, trace):
    """The status and the two texts for a trace, none after a fault; None if there are too many states to follow."""
    with open(trace, encoding="ascii") as text:
        lines = text.read().split("\n")
    try:
        events = simulation.events(lines)
    except Wrong as wrong:
        return 2, f"fault {trace} {wrong}\n", ""
    return play.answer(events)


# ---- comparing

# what the texts must have shown, each at least once
KINDS = {
    "held pairs": r": \S+ in cycle 0 is held from line \d+, ",
    "planned pairs": r": \S+ in cycle [1-9]\d* is planned by line \d+, ",
    "exclusions": r": exclusion_set line .* with ",
    "presences": r": presence_set line .* without a pattern",
    "final presences": r": final_presence_set line .* without a pattern",
    "absences": r": absence_set line .* with ",
    "final absences": r": final_absence_set line .* with ",
    "issues that fit in no cycle": r"fits in no later cycle",
    "one of the choices": r"by one of the choices",
    "groups of alternatives": r"^alternatives \d+-\d+, \d.*: ",
    "numbers that are cut": r"^alternatives [-, \d]+ \.\.: ",
    "reasons that are cut": r"^alternative.{67,}\.\.$",
    "units that are asked for": r"^  \S+ is asked for; \S+ is held from line \d+, \S",
    "units that are planned": r"^  \S+ is planned by line \d+, \S+; \S+ is asked for",
    "patterns of several units": r": .*_set line .* with \S+ \S+$",
    "patterns that are wanted": r"^  wants \S+ \S+; \S",
    "lines of units that are cut": r"^  (?!wants).* \.\.$",
    "patterns that are cut": r"^  wants.* \.\.$",
    "stretches": r"^alternatives? .* takes? .*\d+-\d+",
    "alternatives that take the same": r"^alternatives [-, \d]+(?: \.\.)? take \S",
    "numbers that are cut of what is taken": r"^alternatives [-, \d]+ \.\. take ",
    "takes that are cut": r" takes?(?: .*)? \.\.$",
    "more alternatives": r"^more alternatives: \d+$",
    "issues that hold something": r"^line \d+ \S+ in cycle -\d+ took alternative \d+$",
    "issues of the present cycle": r"^line \d+ \S+ in cycle 0 took alternative \d+$",
    "more issues": r"^more issues before: \d+$",
    "issues that are cut": r"^line \d.{72,}\.\.$",
    "pictures": r"cycle +0",
    "pictures that are cut": r"cut after cycle",
}


class Check:
    """Compares the answers and counts them."""

    def __init__(self, hz, hz_why):
        self.hz, self.hz_why = hz, hz_why
        self.seen, self.reported, self.wrong = collections.Counter(), collections.Counter(), 0

    def compare(self, what, found, wanted):
        if found != wanted:
            self.wrong += 1
            print(f"{what}:\n{found[0]}\n{found[1]}wanted\n{wanted[0]}\n{wanted[1]}")

    def explained(self, description, trace):
        """What hz_why answers."""
        done = subprocess.run([self.hz_why, description, trace], stdout=subprocess.PIPE, stderr=subprocess.STDOUT, check=False)
        text = done.stdout.decode()
        self.seen[done.returncode] += 1
        for kind, pattern in KINDS.items():
            self.reported[kind] += bool(re.search(pattern, text, re.MULTILINE))
        return done.returncode, text

    def replayed(self, description, trace):
        """What `replay` answers."""
        status, text = answer(self.hz, "replay", description, trace)
        return status, text.decode()

    def trace(self, what, found, reported, replayed):
        """Compares what is reported of a trace, of a description without a fault; `replayed` is None if `replay` answers a limit of states."""
        if reported is None:
            # too many states to follow: only what comes first is compared
            self.reported["not followed"] += 1
            if replayed:
                self.compare(what, (found[0], found[1][:len(replayed[1])]), replayed)
            return
        status, first, tail = reported
        if replayed:
            self.compare(f"{what}, by the calendar", (status, first), replayed)
        self.compare(what, found, (status, first + tail))

    def machine(self, description, traces):
        """Compares what is reported of traces of a description; `traces` makes their paths. A limit of states comes before any trace."""
        status, text = self.replayed(description, os.devnull)
        is_states = status == 3 and " automaton " in text
        if status > 1 and not is_states:
            self.compare(description, self.explained(description, os.devnull), (status, text))
            return
        simulation = Simulation(description)
        play = Play(simulation)
        for trace in traces(simulation):
            self.reported["limits of states"] += is_states
            replayed = None if is_states else self.replayed(description, trace)
            self.trace(f"{description} {trace}", self.explained(description, trace), reported_of(simulation, play, trace), replayed)


def check_worked(check, folder):
    """The worked texts: by the calendar, and by hz_why."""
    for description, trace, wanted in WORKED:
        paths = written(folder, "worked.md", description), written(folder, "worked.trace", trace)
        simulation = Simulation(paths[0])
        status, first, tail = reported_of(simulation, Play(simulation), paths[1])
        check.compare("a worked text, by the calendar", (status, first + tail), (status, wanted))
        check.compare("a worked text", check.explained(*paths), (status, wanted))


def main():
    given = words_given(__doc__, 31, 150, 10, "hz", "hz_why")
    examples = os.path.join(os.path.dirname(os.path.abspath(__file__)), os.pardir, "examples", "*", "*.md")
    maker = WhyMaker(given.seed)
    check = Check(os.path.abspath(given.hz), os.path.abspath(given.hz_why))
    with tempfile.TemporaryDirectory() as folder:
        check_worked(check, folder)
        for description in sorted(glob.glob(examples)):
            if os.path.basename(description) != "README.md":
                check.machine(description, lambda _, beside=os.path.dirname(description): sorted(glob.glob(os.path.join(beside, "*.trace"))))
        for _ in range(given.descriptions):
            text = maker.description()
            machine = written(folder, "machine.md", text)
            check.machine(machine, lambda simulation: [written(folder, f"{place}.trace", maker.trace(simulation)) for place in range(given.traces)])
            if check.wrong:
                print(text)
                break
    tell("check-why", check)
    shown = {0, 1, 2} <= set(check.seen) and all(check.reported[kind] for kind in [*KINDS, "limits of states"])
    return 0 if shown and not check.wrong else 1


if __name__ == "__main__":
    run(main)
