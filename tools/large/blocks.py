"""Blocks of instructions, and what the commands answer to them by docs/RULES.md. Nothing is asked of hz."""
import collections
import dataclasses
import heapq

from .machines import Calendar

WORD = 2**64
STAGES, REPEATS = 32, 1024


@dataclasses.dataclass
class Insn:
    """An instruction of a class: the register that it sets or the cell that it stores to, and the registers or the cell that it reads. A
    cell is a base register and a constant; no instruction sets a base register."""
    number: int
    kind: int
    into: int = None
    used: tuple = ()
    loaded: tuple = None
    stored: tuple = None

    def text(self, name):
        """The instruction as a form."""
        place = f"(reg {self.into})" if self.stored is None else cell_form(self.stored)
        if self.loaded:
            value = cell_form(self.loaded)
        elif len(self.used) == 2:
            value = f"(mult (reg {self.used[0]}) (reg {self.used[1]}))"
        else:
            value = f"(plus (reg {self.used[0]}) (const_int 3))"
        return f'(insn {self.number} (set {place} {value}) (set_attr "type" "{name}"))\n'

    def reads(self):
        """The registers that it reads, ascending."""
        return sorted({*self.used, *(cell[0] for cell in (self.loaded, self.stored) if cell)})

    def run(self, seen):
        """The place that it writes and the word, in a state that is looked at by place, and the cell that it reads."""
        loaded = ("mem", (seen(("reg", self.loaded[0])) + self.loaded[1]) % WORD) if self.loaded else None
        if loaded:
            word = seen(loaded)
        elif len(self.used) == 2:
            word = seen(("reg", self.used[0])) * seen(("reg", self.used[1])) % WORD
        else:
            word = (seen(("reg", self.used[0])) + 3) % WORD
        place = ("reg", self.into)
        if self.stored:
            place = ("mem", (seen(("reg", self.stored[0])) + self.stored[1]) % WORD)
        return place, word, loaded


def cell_form(cell):
    """A cell as a form."""
    return f"(mem (plus (reg {cell[0]}) (const_int {cell[1]})))"


def meet(cell, other):
    """Whether two cells may be one: their base registers are never set."""
    return cell is not None and other is not None and (cell[0] != other[0] or cell[1] == other[1])


def listing(state):
    """The lines of a state, which has a word for each place."""
    lines = []
    for kind, number in sorted((kind != "reg", number) for (kind, number), word in state.items() if word):
        place = ("mem", "reg")[not kind], number
        lines.append(f"({place[0]} {number} {state[place]})\n")
    return "".join(lines)


class Block:
    """Instructions on a machine, with their dependences, heights and schedule."""

    def __init__(self, machine, insns):
        self.machine, self.insns = machine, insns
        self.edges = dependences(machine, insns)
        self.heights = [0] * len(insns)
        self.tails = [0] * len(insns)
        for place in reversed(range(len(insns))):
            leads = self.edges[place].items()
            self.tails[place] = max((cost + self.tails[to] for to, cost in leads), default=0)
            latency = machine.kinds[insns[place].kind].latency
            self.heights[place] = max((cost + self.heights[to] for to, cost in leads), default=latency)
        self.slots = schedule(machine, [insn.kind for insn in insns], self.edges, self.heights)
        self.last = self.slots[-1][0] if self.slots else 0

    def text(self):
        """The text of the block."""
        return "".join(insn.text(self.machine.kinds[insn.kind].name) for insn in self.insns)

    def name(self, place):
        """The class of an instruction."""
        return self.machine.kinds[self.insns[place].kind].name

    # ---- the answers of commands

    def scheduled(self):
        """What `schedule` writes."""
        lines = [f"{cycle} {self.insns[place].number} {self.name(place)}\n" for cycle, place in self.slots]
        return "".join(lines) + f"scheduled {len(self.insns)} insns {self.last} cycles\n"

    def trace(self):
        """The trace of the schedule."""
        now, lines = 0, []
        for cycle, place in self.slots:
            lines += [f"advance {cycle - now}\n"] if cycle > now else []
            lines.append(f"issue {self.name(place)}\n")
            now = cycle
        return "".join(lines)

    def evaluated(self, start):
        """What `eval` writes."""
        state = dict(start)
        for insn in self.insns:
            place, word, _ = insn.run(lambda place: state.get(place, 0))
            state[place] = word
        return listing(state)

    def timed(self, start):
        """What `timed` writes."""
        lefts, state, lines = collections.defaultdict(list), dict(start), []
        for cycle, place in self.slots:
            insn = self.insns[place]

            def newest(what, cycle=cycle, insn=insn):
                for left in reversed(lefts[what]):
                    if left[0] + self.machine.number(left[1].kind, insn.kind) <= cycle:
                        return left
                return None

            def seen(what, newest=newest):
                left = newest(what)
                return start.get(what, 0) if left is None else left[2]

            into, word, loaded = insn.run(seen)
            for what in [*(("reg", register) for register in insn.reads()), *([loaded] if loaded else [])]:
                left = newest(what)
                lines.append(f"read {cycle} {insn.number} {what[0]} {what[1]} from {left[1].number if left else 'start'}\n")
            lefts[into].append((cycle, insn, word))
            state[into] = word
        return "".join(lines) + listing(state)

    def bounded(self):
        """What `bound` writes."""
        path = max(self.tails, default=0)
        chain = [self.tails.index(path)] if self.tails else []
        while chain and self.tails[chain[-1]]:
            leads = self.edges[chain[-1]].items()
            chain.append(min(to for to, cost in leads if cost + self.tails[to] == self.tails[chain[-1]]))
        numbers = "".join(f" {self.insns[place].number}" for place in chain)
        load = max(self.loads(), key=lambda load: load[3], default=None)
        reported = "-" if load is None else " ".join(map(str, load))
        bound = max(path, load[3] if load else 0)
        return f"path {path}{numbers}\nload {reported}\nbound {bound}\nschedule {self.last} cycles\n"

    def loads(self):
        """The loads of units in their order."""
        counted = collections.Counter(insn.kind for insn in self.insns)
        for automaton, (_, units) in enumerate(self.machine.automata):
            for unit, name in enumerate(units):
                count, cycles = 0, set()
                for kind, insns in counted.items():
                    ways = self.machine.kinds[kind].parts.get(automaton, [[]])
                    taken = [[cycle for cycle, units in enumerate(way) if unit in units] for way in ways]
                    force = min(map(len, taken))
                    count += insns * force
                    cycles |= {cycle for way in taken for cycle in way} if force else set()
                if cycles:
                    span = max(cycles) - min(cycles)
                    yield name, count, span, max(0, count - 1 - span)

    def kernel(self):
        """What `modulo` writes."""
        costs = dependences(self.machine, self.insns * 3)
        interval = 1
        while True:
            pair = self.repeats(interval, costs)
            if pair:
                break
            interval += 1
        parts = sorted((cycle % interval, -(cycle // interval), at, place) for at, (cycle, place) in enumerate(self.slots))
        lines = [f"{offset} {-back} {self.insns[place].number} {self.name(place)}\n" for offset, back, _, place in parts]
        return (f"interval {interval}\nstages {self.last // interval + 1}\n{''.join(lines)}"
                f"edge {pair[0]} equals edge {pair[1]}\nlist {self.last} cycles\n")

    def repeats(self, interval, costs):
        """The first two edges that begin in the same states, or none."""
        stages, size = self.last // interval, len(self.insns)
        cycle_of = {place: cycle for cycle, place in self.slots}
        cycles = [turn * interval + cycle_of[place] for turn in range(3) for place in range(size)]
        late = any(cycles[first] + cost > cycles[to] for first, leads in enumerate(costs) for to, cost in leads.items())
        if stages > STAGES or late:
            return None
        calendar, met = Calendar(self.machine), {}
        for edge in range(stages + REPEATS + 1):
            if not self.drains(calendar, interval, edge):
                return None
            if edge >= stages:
                if calendar.busy in met:
                    return met[calendar.busy], edge
                met[calendar.busy] = edge
            if not walk(calendar, self.turn_slots(interval, edge, edge + 1, edge), interval):
                return None
        return None

    def drains(self, calendar, interval, turns):
        """Whether so many turns, of which the last has run for an interval, are walked to their end."""
        copy = Calendar(self.machine)
        copy.busy = calendar.busy
        return walk(copy, self.turn_slots(interval, turns, turns + self.last // interval + 1, turns - 1), self.last + interval)

    def turn_slots(self, interval, begin, end, newest):
        """The slots of turns up to the newest from an edge to another: by cycle after the first edge, then by turn, then as in the
        schedule."""
        found = []
        for turn in range(max(0, begin - self.last // interval - 1), newest + 1):
            for at, (cycle, place) in enumerate(self.slots):
                when = turn * interval + cycle
                if begin * interval <= when < end * interval:
                    found.append((when - begin * interval, turn, at, self.insns[place].kind))
        return [(cycle, kind) for cycle, _, _, kind in sorted(found)]


def dependences(machine, insns):
    """For each place the later ones that depend on it, each with its cost."""
    edges = [{} for _ in insns]
    readers, writers, memory = collections.defaultdict(list), collections.defaultdict(list), []
    for place, insn in enumerate(insns):
        for first, cost in by_register(machine, insns, insn, readers, writers):
            edges[first][place] = max(cost, edges[first].get(place, 0))
        if insn.loaded or insn.stored:
            for first, cost in by_cell(machine, insns, insn, memory):
                edges[first][place] = max(cost, edges[first].get(place, 0))
            memory.append(place)
        for register in insn.reads():
            readers[register].append(place)
        if insn.into is not None:
            writers[insn.into].append(place)
    return edges


def by_register(machine, insns, insn, readers, writers):
    """The earlier places on which an instruction depends by a register, each with a cost."""
    for register in insn.reads():
        if writers[register]:
            first = writers[register][-1]
            yield first, machine.number(insns[first].kind, insn.kind)
    if insn.into is not None:
        yield from ((first, 0) for first in readers[insn.into])
        yield from ((first, machine.difference(insns[first].kind, insn.kind)) for first in writers[insn.into])


def by_cell(machine, insns, insn, memory):
    """Those on which it depends by a cell."""
    for first in memory:
        other = insns[first]
        if meet(other.stored, insn.loaded):
            yield first, machine.number(other.kind, insn.kind)
        if meet(other.loaded, insn.stored):
            yield first, 0
        if meet(other.stored, insn.stored):
            yield first, machine.difference(other.kind, insn.kind)


def walk(calendar, slots, end):
    """Issues slots of a cycle and a class each, and goes on to a cycle; whether all fit."""
    now = 0
    for cycle, kind in slots:
        calendar.advance(cycle - now)
        now = cycle
        if not calendar.issue(kind):
            return False
    calendar.advance(end - now)
    return True


def schedule(machine, kinds, edges, heights):
    """The greedy schedule: slots of a cycle and a place each."""
    left = [0] * len(kinds)
    for leads in edges:
        for to in leads:
            left[to] += 1
    earliest, slots, calendar, cycle = [0] * len(kinds), [], Calendar(machine), 0
    ready = [(-heights[place], place) for place in range(len(kinds)) if not left[place]]
    heapq.heapify(ready)
    waits = []
    while len(slots) < len(kinds):
        while waits and waits[0][0] <= cycle:
            place = heapq.heappop(waits)[1]
            heapq.heappush(ready, (-heights[place], place))
        kept, refused = [], set()
        while ready:
            height, place = heapq.heappop(ready)
            # no set statement asks for what is reserved, so what is refused stays refused in this cycle
            if kinds[place] in refused or not calendar.issue(kinds[place]):
                refused.add(kinds[place])
                kept.append((height, place))
                continue
            slots.append((cycle, place))
            for to, cost in edges[place].items():
                left[to] -= 1
                earliest[to] = max(earliest[to], cycle + cost)
                if not left[to] and earliest[to] <= cycle:
                    heapq.heappush(ready, (-heights[to], to))
                elif not left[to]:
                    heapq.heappush(waits, (earliest[to], to))
        ready = kept
        heapq.heapify(ready)
        calendar.advance(1)
        cycle += 1
    return slots


def two_scheduled(first, second):
    """What `duo` writes of two blocks."""
    size = len(first.insns)
    edges = first.edges + [{to + size: cost for to, cost in leads.items()} for leads in second.edges]
    insns = first.insns + second.insns
    slots = schedule(first.machine, [insn.kind for insn in insns], edges, first.heights + second.heights)
    names = first.machine.kinds
    lines = [f"{cycle} {1 if place < size else 2} {insns[place].number} {names[insns[place].kind].name}\n" for cycle, place in slots]
    last = slots[-1][0] if slots else 0
    return (f"{''.join(lines)}scheduled {size} + {len(second.insns)} insns {last} cycles\n"
            f"alone {first.last} {second.last} cycles\n")
