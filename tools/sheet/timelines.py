"""What `hz schedule`, `bound` and `modulo` answer to a block, and why each instruction waits."""
import collections
import dataclasses
import typing

from .agreement import compare_pictures, start_pictures, trace_text, write
from .blocks import Costs, Dependences, longest_path
from .derived import costs_text, quoted
from .holders import Event, Holders, play
from .programs import Stop, accepted_own
from .reasons import reasons_in

MOST_INSNS = 400
MOST_QUESTIONS = 150
MOST_PICTURES = 48

Slot = collections.namedtuple("Slot", "cycle number name")
Kernel = collections.namedtuple("Kernel", "interval stages slots first second list")
Bound = collections.namedtuple("Bound", "path chain unit count span value bound schedule")
KernelSlot = collections.namedtuple("KernelSlot", "offset stage number name")


@dataclasses.dataclass
class Row:
    """An instruction in the timeline: when it is issued, from when on it is ready, and what it waits for."""
    insn: typing.Any
    slot: Slot
    latency: int
    ready: int = 0
    after: list = dataclasses.field(default_factory=list)
    held: list = dataclasses.field(default_factory=list)

    def mark(self, cycle):
        """What the instruction does in a cycle, as a letter."""
        if cycle == self.slot.cycle:
            return "I"
        if self.slot.cycle < cycle < self.slot.cycle + self.latency:
            return "e"
        if self.ready <= cycle < self.slot.cycle:
            return "u"
        return "d" if self.after and self.after[0].since < cycle < self.ready else ""


# an instruction that is waited for: its number, the cycle of its issue, the cost and the kind of the dependence
After = collections.namedtuple("After", "number since cost kind")
# cycles in which an instruction is ready and doesn't fit, and why
Held = collections.namedtuple("Held", "first last why")


def schedule_in(text):
    """The slots of a schedule, and the cycle of the last issue."""
    lines = text.split("\n")[:-1]
    slots = [Slot(int(cycle), int(number), name) for cycle, number, name in (line.split(" ") for line in lines[:-1])]
    return slots, int(lines[-1].split(" ")[3])


def bound_in(text):
    """What `bound` answers."""
    path, load, bound, schedule = (line.split(" ") for line in text.split("\n")[:-1])
    unit, numbers = (None, [0, 0, 0]) if load[1] == "-" else (load[1], [int(field) for field in load[2:]])
    return Bound(int(path[1]), [int(number) for number in path[2:]], unit, *numbers, int(bound[1]), int(schedule[1]))


def kernel_in(text):
    """What `modulo` answers."""
    lines = [line.split(" ") for line in text.split("\n")[:-1]]
    slots = [KernelSlot(int(offset), int(stage), int(number), name) for offset, stage, number, name in lines[2:-2]]
    return Kernel(int(lines[0][1]), int(lines[1][1]), slots, int(lines[-2][1]), int(lines[-2][4]), int(lines[-1][1]))


def slot_events(slots):
    """The events of a schedule, each on a line of its own, and the slot of each line."""
    events, lines, now = [], {}, 0
    for slot in slots:
        if slot.cycle > now:
            events.append(Event(len(events) + 1, None, slot.cycle - now))
            now = slot.cycle
        events.append(Event(len(events) + 1, slot.name))
        lines[len(events)] = slot
    return events, lines


class Timeline:
    """The schedule of a block with the causes of its waits."""

    def __init__(self, programs, description, path, insns, slots, folder):
        self.programs, self.description, self.path, self.folder = programs, description, path, folder
        self.slots, self.pictures = slots, 0
        self.events, self.lines = slot_events(slots)
        by_number = {slot.number: slot for slot in slots}
        latency = {one.name: one.latency for one in description.classes}
        self.insns = insns
        self.rows = [Row(insn, by_number[insn.number], latency[by_number[insn.number].name]) for insn in insns[:MOST_INSNS]]
        self.costs, self.asked = Costs(description), {}

    def find_waits(self):
        """Finds for each instruction the dependences that it waits for longest."""
        dependences = Dependences(self.insns)
        for place, row in enumerate(self.rows):
            waits = []
            for earlier, dependence in dependences.of(place):
                other = self.rows[earlier]
                cost = self.costs.cost(other.slot.name, row.slot.name, dependence)
                waits.append((other.slot.cycle + cost, other, cost, dependence))
            row.ready = max((ready for ready, *_ in waits), default=0)
            if row.ready > row.slot.cycle:
                raise Stop("hz issues an instruction before this tool finds it ready; no page is written")
            if row.ready:
                row.after = [After(other.insn.number, other.slot.cycle, cost, dependence.kind())
                             for ready, other, cost, dependence in waits if ready == row.ready]
                for ready, other, cost, dependence in waits:
                    if ready == row.ready:
                        self.asked.setdefault((other.slot.name, row.slot.name, dependence), (other.insn, row.insn, cost))

    def path_of_block(self):
        """The longest path by the tool's own reading, of a block that is shown whole."""
        names = [row.slot.name for row in self.rows]
        return longest_path(self.insns, names, Dependences(self.insns), self.costs)

    def start_costs(self):
        """Begins the runs by which `hz bound` answers each cost that is shown, on two instructions of these classes."""
        path, runs = write(self.folder, "costs.md", costs_text(self.description)), []
        for (first, second, dependence), (earlier, later, cost) in self.asked.items():
            block = write(self.folder, f"pair{len(runs)}.block", pair_text(dependence, earlier, later))
            runs.append((first, second, cost, self.programs.start("bound", path, block)))
        return runs

    def start_refusals(self):
        """Begins the runs by which `hz_why` says why an instruction that is ready doesn't fit, cycle by cycle."""
        waiting = [(row, cycle) for row in self.rows for cycle in range(row.ready, row.slot.cycle)]
        if len(waiting) > MOST_QUESTIONS:
            waiting = [(row, row.slot.cycle - 1) for row in self.rows if row.ready < row.slot.cycle][:MOST_QUESTIONS]
        runs = []
        for row, cycle in waiting:
            slots = [slot for slot in self.slots if slot.cycle <= cycle]
            events, lines = slot_events(slots)
            now = slots[-1].cycle if slots else 0
            if cycle > now:
                events.append(Event(len(events) + 1, None, cycle - now))
            events.append(Event(len(events) + 1, row.slot.name))
            trace = write(self.folder, f"wait{len(runs)}.trace", trace_text(events))
            runs.append((row, cycle, lines, self.programs.start("hz_why", self.path, trace)))
        return runs

    def take_refusals(self, runs):
        """Takes why instructions don't fit, cycles with one reason together."""
        for row, cycle, lines, run in runs:
            answer = accepted_own(run.result(), most=1)
            if answer.status == 0:
                raise Stop("hz_why accepts an issue that this tool finds ready and hz issues later; no page is written")
            why = reasons_in(answer.text, lines)
            if row.held and row.held[-1].why == why and row.held[-1].last == cycle - 1:
                row.held[-1] = row.held[-1]._replace(last=cycle)
            else:
                row.held.append(Held(cycle, cycle, why))

    def holders(self):
        """Who holds what, None if it can't be followed; compared with pictures of `hz_why`."""
        played = play(self.description, self.events) if len(self.events) <= 2000 else None
        if played is None:
            return None
        length, prefixes = played
        if length < len(self.events):
            raise Stop("hz schedules an issue that this tool finds refused; no page is written")
        runs = start_pictures(self.programs, self.description, self.path, self.events, prefixes, self.folder, MOST_PICTURES)
        self.pictures = compare_pictures(runs)
        return Holders(self.description).play(self.events, prefixes[length])

    def explain(self, bound):
        """Finds all waits, and holds them against `hz` and `hz_why`."""
        self.find_waits()
        costs, refusals = self.start_costs(), self.start_refusals()
        for first, second, cost, run in costs:
            if bound_in(accepted_own(run.result()).text).path != cost:
                raise Stop(f"hz reads the cost of {second} after {first} otherwise than this tool; no page is written")
        self.take_refusals(refusals)
        if len(self.rows) == len(self.insns) and self.path_of_block() != bound.path:
            raise Stop("hz finds another path of the block than this tool; no page is written")


def attributes_text(insn):
    return "".join(f" (set_attr {quoted(name)} {quoted(value)})" for name, value in insn.attributes.items())


def pair_text(dependence, earlier, later):
    """Two instructions with the attributes of the given ones, of which the second depends on the first in the same way."""
    effects = {
        (True, False, False): ("(set (reg 1) (const_int 0))", "(use (reg 1))"),
        (True, False, True): ("(set (reg 1) (const_int 0))", "(set (mem (reg 2)) (reg 1))"),
        (True, True, False): ("(set (reg 1) (const_int 0))", "(set (reg 1) (reg 1))"),
        (True, True, True): ("(parallel [(set (reg 1) (const_int 0)) (set (mem (reg 3)) (const_int 0))])", "(set (mem (reg 2)) (reg 1))"),
        (False, True, False): ("(set (reg 1) (const_int 0))", "(set (reg 1) (const_int 0))"),
        (False, True, True): ("(set (mem (reg 3)) (const_int 0))", "(set (mem (reg 2)) (const_int 0))"),
    }
    key = dependence.is_true, dependence.is_output, dependence.stores
    first, second = effects.get(key, ("(use (reg 1))", "(set (reg 1) (const_int 0))"))
    return f"(insn 1 {first}{attributes_text(earlier)})\n(insn 2 {second}{attributes_text(later)})\n"
