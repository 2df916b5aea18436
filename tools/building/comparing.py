"""Compares two tables texts automaton by automaton, and then as wholes if some automaton differs: by hz_same, or by a search in Python."""
import dataclasses
import os
import re
import resource
import subprocess
import tempfile
import time
import typing

from extraction.same import Machine, Undecided, difference_of

SECONDS, PAIRS = 600, 131072
LAST = re.compile(r"; (refused|accepted|reserved) (?:by|in) first, (?:accepted|free) (?:by|in) second|"
                  r"; (refused|reserved) (?:by|in) second, (?:accepted|free) (?:by|in) first")


@dataclasses.dataclass
class Reported:
    """The least events that two texts answer otherwise, as lines of a trace, and what the first and the second answer."""
    trace: typing.List[str]
    answers: typing.Tuple[str, str]

    def line(self):
        return f"{'; '.join(self.trace)}: hz {self.answers[0]}, the build {self.answers[1]}"


@dataclasses.dataclass
class Difference:
    """What each automaton that differs answers otherwise by itself, and what all together do: that may be nothing, if others refuse too."""
    automata: typing.Dict[str, Reported]
    whole: typing.Optional[Reported]


def spent():
    """Seconds of a processor that this program and those that it ran took."""
    usage = resource.getrusage(resource.RUSAGE_CHILDREN)
    return time.process_time() + usage.ru_utime + usage.ru_stime


class Comparer:
    """Compares tables texts by the program hz_same, or without one by a search; counts the pairs of texts, and the seconds."""

    def __init__(self, program=None):
        self.program, self.count, self.seconds = program, 0, 0.0

    def name(self):
        """What compares."""
        return os.path.basename(self.program) if self.program else "a search in Python"

    def reported(self, first, second):
        """What two texts answer otherwise, or None. `Undecided` is raised if that needs too many pairs of states."""
        before = spent()
        try:
            return self.asked(first, second) if self.program else searched(first, second)
        finally:
            self.count += 1
            self.seconds += spent() - before

    def asked(self, first, second):
        """What hz_same answers."""
        with tempfile.TemporaryDirectory() as folder:
            for name, text in (("first", first), ("second", second)):
                with open(os.path.join(folder, name), "w", encoding="latin-1") as out:
                    out.write(text)
            done = subprocess.run([self.program, "first", "second"], stdout=subprocess.PIPE, cwd=folder, timeout=SECONDS, check=False)
        text = done.stdout.decode("latin-1")
        if (done.returncode, text) == (0, "same\n"):
            return None
        if done.returncode != 1:
            raise Undecided(f"hz_same: status {done.returncode}: {text.strip()}")
        return reported_of(text.split("\n")[:-1])


def comparer_of(hz, hz_same):
    """What compares: the program that is named, hz_same beside hz, or a search."""
    beside = os.path.join(os.path.dirname(hz), "hz_same")
    if hz_same or os.access(beside, os.X_OK):
        return Comparer(os.path.abspath(hz_same or beside))
    return Comparer()


def reported_of(lines):
    """What hz_same writes of two texts that differ."""
    *others, last = lines
    alone = [line for line in others if line.startswith(";")]
    if alone:
        return Reported(alone + [line for line in others if line not in alone], ("otherwise", "otherwise"))
    if not LAST.fullmatch(last):
        raise Undecided(f"hz_same: its last line is `{last}`")
    ends = re.findall(r"(\w+) (?:by|in) (\w+)", last)
    answers = {text: answer for answer, text in ends}
    return Reported(others, (answers["first"], answers["second"]))


def searched(first_text, second_text):
    """What a search over all pairs finds."""
    first, second = Machine(first_text), Machine(second_text)
    events = difference_of(first, second, PAIRS)
    return Reported(trace_of(events), (answer_of(first, events), answer_of(second, events))) if events else None


def answer_of(machine, events):
    """What a machine answers to the last of events: whether it accepts an issue, or has a unit reserved."""
    states = machine.start()
    for event in events:
        word, name = event.split(" ")
        if (word == "issue" and name not in machine.columns) or (word == "ask" and name not in machine.asks):
            return "no such name"
        if word == "ask":
            return "reserved" if machine.holds(states, name) else "free"
        states = machine.after(states, machine.advances if word == "advance" else machine.columns[name])
        if states is None:
            return "refused"
    return "accepted"


def trace_of(events):
    """Events as lines of a trace: advances side by side are one."""
    found = []
    for event in events:
        if event.startswith("advance ") and found and found[-1].startswith("advance "):
            event = f"advance {int(found.pop().split(' ')[1]) + 1}"
        found.append(event)
    return found


def texts_of_automata(text):
    """The text of each automaton, with the names of the classes; automata of one name are together."""
    lines = text.split("\n")
    starts = [place for place, line in enumerate(lines) if line.startswith("automaton ")] + [len(lines) - 2]
    found = {}
    for start, end in zip(starts, starts[1:]):
        found.setdefault(lines[start].split(" ")[1], []).append(lines[start:end])
    head = lines[:starts[0] - 1]
    return {name: "\n".join(head + [f"automata {len(own)}"] + [line for part in own for line in part] + ["end", ""]) for name, own in found.items()}


def states_of(text):
    """The name and the number of states of each automaton."""
    return [(line.split(" ")[1], int(line.split(" ")[3])) for line in text.split("\n") if line.startswith("automaton ")]


def other_states(first_text, second_text, found):
    """How many automata that are the same have other numbers of states."""
    apart = found.automata if found else {}
    return sum(one != other and one[0] not in apart for one, other in zip(states_of(first_text), states_of(second_text)))


def difference(comparer, first_text, second_text):
    """What two texts answer otherwise, or None; `Undecided` is raised if that needs too many pairs of states."""
    firsts, seconds = texts_of_automata(first_text), texts_of_automata(second_text)
    if list(firsts) != list(seconds):
        whole = comparer.reported(first_text, second_text)
        return Difference(dict.fromkeys(firsts, whole), whole) if whole else None
    each = {name: comparer.reported(firsts[name], seconds[name]) for name in firsts}
    apart = {name: reported for name, reported in each.items() if reported}
    return Difference(apart, comparer.reported(first_text, second_text)) if apart else None
