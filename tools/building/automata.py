"""The automata of a build: which state an issue or an advance leads to, and which query units a state holds."""
import re

from extraction.forms import Fault

from .cases import Cases, Names

ADVANCE, COLLAPSE = "DFA__ADVANCE_CYCLE", "NDFA__COLLAPSE"
UNIT = re.compile(r'      \{"([^"\n]*)", (\d{1,9})\},')
UNITS = "name_code_table [] =\n    {\n"


class Automaton:
    """The arrays of one automaton, full or packed. A state leads on by the column of a code."""

    def __init__(self, build, member):
        self.names, self.source = Names(member), build.source
        self.column = self.source.values(self.names.translate)
        if len(self.column) != build.codes:
            raise self.fault(self.names.translate, f"has {len(self.column)} entries, and there are {build.codes} codes")
        self.columns = max(self.column) + 1
        self.targets = self.source.values(self.names.transitions)
        self.is_packed = self.source.has(self.names.base) or self.source.has(self.names.check)
        self.base, self.owner = self.packed() if self.is_packed else ([], [])
        self.states = len(self.base) if self.is_packed else len(self.targets) // self.columns
        if not self.is_packed and (len(self.targets) % self.columns or not self.targets):
            raise self.fault(self.names.transitions, f"has {len(self.targets)} entries, no rows of {self.columns}")

    def packed(self):
        """The arrays beside the targets of a packed table."""
        base, owner = self.source.values(self.names.base), self.source.values(self.names.check)
        if len(owner) != len(self.targets):
            raise self.fault(self.names.check, f"has {len(owner)} entries, and {self.names.transitions} {len(self.targets)}")
        if max(base, default=0) + self.columns > len(owner) or not base:
            raise self.fault(self.names.base, f"leads past the {len(owner)} entries of {self.names.transitions}")
        return base, owner

    def fault(self, array, what):
        return Fault(self.source.array_place(array), f"{array} {what}")

    def compare(self, step):
        """That a step is of a table of this form."""
        if step.is_packed != self.is_packed:
            raise Fault(step.place, f"the step of {self.names.member} is not that of its arrays")
        if not step.is_packed and (step.columns, step.states) != (self.columns, self.states):
            raise Fault(step.place, f"{self.names.transitions} has {self.states} rows of {self.columns}, and this step "
                                    f"says {step.states} of {step.columns}")

    def row(self, state, columns):
        """The states that columns lead to, or None."""
        if not self.is_packed:
            base = state * self.columns
            found = [self.targets[base + column] for column in columns]
            return [target if target < self.states else None for target in found]
        base = self.base[state]
        found = [self.targets[base + column] if self.owner[base + column] == state else None for column in columns]
        for target in found:
            if target is not None and target >= self.states:
                raise self.fault(self.names.transitions, f"leads from state {state} to {target}, past its {self.states} states")
        return found


class Build:
    """All automata of a text of genautomata, with the classes by their codes and the query units. With `collapse-ndfa` a state of several
    choices has no advance before it is collapsed, so an advance is both."""

    def __init__(self, source):
        self.source, self.cases = source, Cases(source)
        self.advance = source.number(ADVANCE)
        if self.advance is None:
            raise Fault(source.whole(), f"{ADVANCE} is not defined")
        self.is_any = source.number(COLLAPSE) is not None
        if self.is_any and source.number(COLLAPSE) != self.advance + 1:
            raise Fault(source.place(source.numbers[COLLAPSE].start()), f"{COLLAPSE} is not the code after {ADVANCE}")
        self.codes = self.advance + 1 + self.is_any
        self.advances = [self.advance + 1, self.advance] if self.is_any else [self.advance]
        self.code = self.codes_of_classes()
        self.units = self.units_of_text()
        self.read, self.reserved = {}, {}

    def codes_of_classes(self):
        """The code of each class that has a name."""
        found = {}
        for code, (name, place) in sorted(self.cases.names.items()):
            if code >= self.codes or name in found:
                raise Fault(place, f"the code {code} is above {self.codes - 1}" if code >= self.codes
                            else f"{name} has two codes")
            if code < self.advance:
                found[name] = code
        return found

    def unnamed(self):
        """How many codes of classes have no case, and so no name."""
        return self.advance - len(self.code)

    def first_unnamed(self):
        """The first of them."""
        return next(code for code in range(self.advance) if code not in self.cases.names)

    def automaton(self, member):
        """An automaton, with the form of its table in every case compared."""
        if member not in self.read:
            self.read[member] = Automaton(self, member)
            for step in self.all_steps(member):
                self.read[member].compare(step)
        return self.read[member]

    def all_steps(self, member):
        found = {id(steps): steps for steps in self.cases.steps.values()}
        return [step for steps in found.values() for step in steps if step.member == member]

    def is_stepped(self, code, member):
        """Whether a code steps an automaton; a code without a case steps none."""
        return any(step.member == member for step in self.cases.steps.get(code, ()))

    def units_of_text(self):
        """The query units and their numbers; `unit_places` is where they are."""
        text, found, self.unit_places = self.source.text, {}, {}
        start = text.find(UNITS)
        if start < 0:
            return {}
        at = start + len(UNITS)
        while not text.startswith("    };\n", at):
            line = text[at:text.find("\n", at) + 1]
            unit = UNIT.fullmatch(line[:-1]) if line else None
            if not unit or unit[1] in found:
                raise Fault(self.source.place(at), f"`{line.strip()}` is no query unit")
            found[unit[1]], self.unit_places[unit[1]] = int(unit[2]), self.source.place(at)
            at += len(line)
        if sorted(found.values()) != list(range(len(found))):
            raise Fault(self.source.place(start), "the query units are not numbered from 0")
        return found

    def held(self, member, unit):
        """For each state of an automaton whether it holds a query unit, as a bit."""
        if member not in self.reserved:
            self.reserved[member] = self.source.values(Names(member).reserved)
        width, number = (len(self.units) + 7) // 8, self.units[unit]
        given = self.reserved[member]
        if not given or len(given) % width or max(given) > 255:
            raise Fault(self.source.array_place(Names(member).reserved),
                        f"{Names(member).reserved} has {len(given)} entries, no rows of {width} bytes")
        return [byte >> number % 8 & 1 for byte in given[number // 8::width]]

    def holder(self, unit, place):
        """The automaton that holds a query unit in some state, or None."""
        holders = [member for member in self.cases.members if any(self.held(member, unit))]
        if len(holders) > 1:
            raise Fault(place, f"the query unit {unit} is held in {' and in '.join(Names(member).automaton for member in holders)}")
        return holders[0] if holders else None
