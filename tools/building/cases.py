"""What `internal_state_transition` does with the code of each class: its name, and the automata that it steps."""
import dataclasses
import re

from extraction.forms import Fault, Place

FUNCTION = "internal_state_transition"
DELAYS = "internal_min_issue_delay"
TYPE = r"(?:unsigned char|signed char|unsigned short|short|int)"
CASE = re.compile(r"case (\d{1,9}): /\* (.*) \*/")
KEPT = re.compile(TYPE + r" _(\w+);")
FULL = re.compile(r"temp = (\w+) \[(\w+) \[insn_code\] \+ chip->(\w+) \* (\d{1,9})\];")
MOST = re.compile(r"if \(temp >= (\d{1,9})\)")
PACKED = re.compile(r"temp = (\w+) \[chip->(\w+)\] \+ (\w+) \[insn_code\];")
OWNED = re.compile(r"if \((\w+) \[temp\] != chip->(\w+)\)")
REFUSED = "return internal_min_issue_delay (insn_code, chip);"
TARGET = re.compile(r"(chip->|_)(\w+) = (?:(\w+) \[temp\]|temp);")
MOVED = re.compile(r"chip->(\w+) = _(\w+);")
HEAD = ["int temp ATTRIBUTE_UNUSED;", "switch (insn_code)", "{"]
TAIL = ["default:", "return -1;", "}"]


class Names:
    """The names of what belongs to an automaton, by the member that has its state."""

    def __init__(self, member):
        numbered = re.fullmatch(r"automaton_state_(\d+)", member)
        self.member = member
        self.automaton = "-" if numbered else member[:-len("_automaton_state")]
        form = "{}_" + numbered[1] if numbered else self.automaton + "_{}"
        self.translate, self.transitions, self.check, self.base, self.reserved = (
            form.format(word) for word in ("translate", "transitions", "check", "base", "reserved_units"))


@dataclasses.dataclass(frozen=True)
class Step:
    """A step of an automaton: its member, whether its table is packed, and of a full one how many columns and states the text says."""
    member: str
    is_packed: bool
    columns: int
    states: int
    place: Place


class Lines:
    """The lines of a function, read one after the other."""

    def __init__(self, source, function):
        self.found = list(source.lines(function))
        self.at, self.function, self.end = 0, function, source.place(source.functions[function].end())

    def peek(self):
        return self.found[self.at][0] if self.at < len(self.found) else ""

    def place(self):
        return self.found[self.at][1] if self.at < len(self.found) else self.end

    def fault(self):
        text = self.peek()
        return Fault(self.place(), f"`{text}` is no line of {self.function} that genautomata writes" if text
                     else f"{self.function} ends too early")

    def take(self, wanted):
        """The next line, which has to be the wanted text, or to match the wanted form."""
        text = self.peek()
        found = (text if text == wanted else None) if isinstance(wanted, str) else wanted.fullmatch(text)
        if not found:
            raise self.fault()
        self.at += 1
        return found


class Cases:
    """The name of each code, and the steps of each code that has a case."""

    def __init__(self, source):
        self.members = members(source)
        self.names, self.steps = {}, {}
        lines = Lines(source, FUNCTION)
        self.place = lines.end
        for text in HEAD:
            lines.take(text)
        while lines.peek().startswith("case "):
            self.read_case(lines)
        for text in TAIL:
            lines.take(text)
        if lines.peek():
            raise lines.fault()
        self.add_names(source)

    def read_case(self, lines):
        """Some codes with one body."""
        codes = []
        while lines.peek().startswith("case "):
            place, found = lines.place(), lines.take(CASE)
            code = int(found[1])
            if code in self.steps or code in codes:
                raise Fault(place, f"the code {code} has two cases")
            codes.append(code)
            self.names[code] = (found[2], place)
        self.steps.update(dict.fromkeys(codes, self.read_body(lines)))

    def read_body(self, lines):
        """The steps of a body. All but the last go to variables first, so that none is done if one is refused."""
        lines.take("{")
        kept, steps = [], []
        while KEPT.fullmatch(lines.peek()):
            kept.append(lines.take(KEPT)[1])
        while lines.peek().startswith("temp = "):
            steps.append(self.read_step(lines, "_" if len(steps) < len(kept) else "chip->"))
        moved = []
        while MOVED.fullmatch(lines.peek()):
            place, found = lines.place(), lines.take(MOVED)
            if found[1] != found[2]:
                raise Fault(place, f"the state of {found[1]} is not its own")
            moved.append(found[1])
        own = [step.member for step in steps]
        if kept != own[:-1] or moved != kept or len(set(own)) < len(own):
            raise Fault(lines.place(), "the steps of this case are not those of its variables")
        for text in ("return -1;", "}"):
            lines.take(text)
        return steps

    def read_step(self, lines, mark):
        """One step, and where the state that it leads to is put."""
        place = lines.place()
        is_packed = bool(PACKED.fullmatch(lines.peek()))
        columns = states = 0
        if is_packed:
            base, member, translate = lines.take(PACKED).groups()
            check, owner = lines.take(OWNED).groups()
        else:
            transitions, translate, member, columns = lines.take(FULL).groups()
            check, base, owner, states = "", "", member, lines.take(MOST)[1]
        lines.take(REFUSED)
        lines.take("else")
        put, target, taken = lines.take(TARGET).groups()
        transitions = taken if is_packed else transitions
        names = Names(member) if member in self.members else None
        wanted = names and (names.translate, names.transitions, member, member, mark) + (
            (names.base, names.check) if is_packed else ("", ""))
        if (translate, transitions, owner, target, put, base, check) != wanted or (taken is not None) != is_packed:
            raise Fault(place, "this step is not of one automaton")
        return Step(member, is_packed, int(columns), int(states), place)

    def add_names(self, source):
        """A code without a case here may have one with the delays, and there its name."""
        if DELAYS in source.functions:
            for text, place in source.lines(DELAYS):
                found = CASE.fullmatch(text)
                if found:
                    self.names.setdefault(int(found[1]), (found[2], place))


def members(source):
    """The members of the structure that has the states of all automata, in their order."""
    found = re.search(r"^struct DFA_chip\n\{\n((?:  [^\n]*;\n)*)\};$", source.text, re.M)
    if not found:
        raise Fault(source.whole(), "struct DFA_chip is missing: this is no insn-automata.cc of genautomata")
    taken = []
    for line in re.finditer(r"[^\n]+", found[1]):
        member = re.fullmatch("  " + TYPE + r" (\w+_automaton_state|automaton_state_\d+);", line[0])
        if not member or member[1] in taken:
            raise Fault(source.place(found.start(1) + line.start()), f"`{line[0].strip()}` is no state of an automaton")
        taken.append(member[1])
    if not taken:
        raise Fault(source.place(found.start()), "struct DFA_chip has no automaton")
    return taken
