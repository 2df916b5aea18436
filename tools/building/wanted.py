"""Which automata, classes and query units a text is made of: those of the build, or those of another tables text."""
import dataclasses
import os
import re
import typing

from extraction.forms import Fault, Place

from .cases import Names

BYTES = 536870912
CLASSES, AUTOMATA, ASKS = 1024, 16, 256
NAME = re.compile(r'[^\x00-\x20\x7f-\xff,|+*()"]+')
COUNT = re.compile(r"0|[1-9]\d{0,8}")


@dataclasses.dataclass
class Wanted:
    """The treatment, the names of classes, and the members of automata, each with the names of its query units; with their places."""
    treatment: str
    classes: typing.Dict[str, Place]
    asks: typing.Dict[str, typing.Dict[str, Place]]


def wanted_of_build(build):
    """All of a build. A unit that no state holds is asked of the first automaton."""
    place = build.cases.place
    if build.unnamed():
        raise Fault(place, f"the code {build.first_unnamed()} has no case, so its class has no name; --as gives names")
    for name, found in [*build.cases.names.values(), *build.unit_places.items()]:
        if not NAME.fullmatch(name):
            raise Fault(found, f"`{name}` is no name")
    asks = {member: {} for member in build.cases.members}
    for unit in sorted(build.units, key=build.units.get):
        asks[build.holder(unit, place) or build.cases.members[0]][unit] = place
    return Wanted("ndfa" if build.is_any else "first", {name: build.cases.names[code][1] for name, code in build.code.items()}, asks)


class TablesNames:
    """Reads the names of a tables text, and no more of it."""

    def __init__(self, path, lines):
        self.path, self.lines, self.line, self.text = path, lines, 0, ""
        self.version = 0

    def fault(self, what):
        return Fault(Place(self.path, max(self.line, 1)), what)

    def next(self):
        """The fields of the next line."""
        text = next(self.lines, None)
        self.line += 1
        if text is None or not text.endswith("\n"):
            raise self.fault("the tables text is cut off")
        self.text = text[:-1]
        return self.text.split(" ")

    def take(self, word, wanted):
        """The fields after a word, so many as are wanted."""
        fields = self.next()
        if fields[0] != word or len(fields) != wanted + 1 or "" in fields:
            raise self.fault(f"a line `{word}` of a tables text is wanted here")
        return fields[1:]

    def count(self, word, most):
        found = self.take(word, 1)[0]
        if not COUNT.fullmatch(found) or int(found) > most:
            raise self.fault(f"`{found}` is no number up to {most}")
        return int(found)

    def name(self, found, before):
        if not NAME.fullmatch(found) or found in before:
            raise self.fault(f"`{found}` is no name, or came before")
        return found

    def read(self):
        """The treatment, the classes, and the automata with their query units."""
        header = " ".join(self.next())
        if header not in ("hazard-tables 1", "hazard-tables 2"):
            raise self.fault("this is no tables text")
        self.version = int(header[-1])
        treatment = self.take("treatment", 1)[0]
        if treatment not in ("first", "ndfa"):
            raise self.fault(f"`{treatment}` is no treatment")
        classes = {}
        for _ in range(self.count("classes", CLASSES)):
            name = self.name(self.take("class", 1)[0], classes)
            classes[name] = Place(self.path, self.line)
        return treatment, classes, self.read_automata(self.count("automata", AUTOMATA))

    def read_automata(self, wanted):
        """The name, the place and the query units of each automaton, up to the end of the text."""
        automata, before = [], set()
        for fields in iter(self.next, ["end"]):
            if fields[0] == "automaton" and len(fields) == 4 and len(automata) < wanted:
                automata.append((self.name(fields[1], ()), Place(self.path, self.line), {}))
            elif fields[0] == "asks" and self.version == 2 and automata:
                for unit in fields[1:]:
                    automata[-1][2][self.name(unit, before)] = Place(self.path, self.line)
                    before.add(unit)
            elif fields[0] not in ("map", "stats", "row", "from", "grid") or not automata:
                raise self.fault(f"`{self.text[:40]}` is no line of a tables text that may come here")
        if len(automata) < wanted or not wanted:
            raise self.fault(f"the text has {len(automata)} automata, and says {wanted}")
        return automata


def read_names(path):
    """The names of a tables text."""
    try:
        with open(path, encoding="latin-1", newline="\n") as file:
            if os.path.getsize(path) > BYTES:
                raise Fault(path, f"more than {BYTES} bytes")
            return TablesNames(path, iter(file)).read()
    except (OSError, ValueError) as error:
        raise Fault(path, getattr(error, "strerror", None) or str(error)) from error


def wanted_of_tables(build, path):
    """The automata, classes and query units of the tables text in a file."""
    return wanted_of_names(build, read_names(path))


def wanted_of_names(build, names):
    """The automata, classes and query units of a tables text. An automaton that the build doesn't have is taken by its name up to a dot:
    `extract.py --split` names parts so."""
    treatment, classes, automata = names
    own = {}
    for member in build.cases.members:
        own.setdefault(Names(member).automaton, []).append(member)
    asks = {}
    for name, place, units in automata:
        members = own.get(name) or own.get(name.split(".")[0])
        if not members:
            raise Fault(place, f"the automaton {name} is not in {build.source.file}")
        for member in members:
            asks.setdefault(member, {})
        for unit, where in units.items():
            asks[holder_among(build, unit, where, members)][unit] = where
    return Wanted(treatment, classes, asks)


def holder_among(build, unit, place, members):
    """Which of some automata holds a unit; the first if none does."""
    if unit not in build.units:
        raise Fault(place, f"the query unit {unit} is not in {build.source.file}")
    holder = build.holder(unit, place) or members[0]
    if holder not in members:
        raise Fault(place, f"the query unit {unit} is in {Names(holder).automaton} of {build.source.file}")
    return holder
