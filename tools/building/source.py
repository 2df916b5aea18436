"""The text of an insn-automata.cc: its defined numbers, its arrays and the lines of its functions, each with its place."""
import bisect
import re

from extraction.forms import Fault, Place

BYTES = 1 << 29
ARRAY = re.compile(r"^static const (?:unsigned char|signed char|unsigned short|short|int) (\w+)\[\](?: ATTRIBUTE_UNUSED)? = \{$", re.M)
DEFINED = re.compile(r"^#define (\w+) (\d{1,9})$", re.M)
FUNCTION = re.compile(r"^(\w+) \(.*\)\n\{\n", re.M)
ODD = re.compile(r"[^0-9,\s]")
FIELD = re.compile(r"\s*(\d{1,9})\s*")


class Source:
    """A text of genautomata, and where its parts are."""

    def __init__(self, file, text):
        self.file, self.text = file, text
        self.ends = [found.start() for found in re.finditer("\n", text)]
        self.arrays = {found[1]: found for found in ARRAY.finditer(text)}
        self.numbers = {found[1]: found for found in DEFINED.finditer(text)}
        self.functions = {found[1]: found for found in FUNCTION.finditer(text)}

    def place(self, at):
        return Place(self.file, bisect.bisect_left(self.ends, at) + 1)

    def whole(self):
        """The place of what is nowhere in the text: its last line."""
        return self.place(max(len(self.text) - 1, 0))

    def array_place(self, name):
        return self.place(self.arrays[name].start())

    def has(self, name):
        """Whether there is an array of this name."""
        return name in self.arrays

    def number(self, name):
        """The number that a name is defined as, or None."""
        return int(self.numbers[name][2]) if name in self.numbers else None

    def values(self, name):
        """The numbers of an array."""
        if name not in self.arrays:
            raise Fault(self.whole(), f"the array {name} is missing")
        start = self.arrays[name].end()
        end = self.text.find("}", start)
        if not self.text.startswith("};", end):
            raise Fault(self.array_place(name), f"the array {name} is not closed")
        odd = ODD.search(self.text, start, end)
        if odd:
            raise Fault(self.place(odd.start()), f"{odd[0]!r} is in the array {name}")
        fields = self.text[start:end].split(",")
        if not fields[-1].strip():
            fields.pop()
        try:
            return list(map(int, fields))
        except ValueError:
            raise self.odd_field(name, start, fields) from None

    def odd_field(self, name, start, fields):
        """The fault of the first field of an array that is no number."""
        for field in fields:
            if not FIELD.fullmatch(field):
                return Fault(self.place(start + len(field) - len(field.lstrip())), f"an entry of {name} is no number")
            start += len(field) + 1
        return Fault(self.array_place(name), f"an entry of {name} is no number")

    def lines(self, name):
        """The lines of a function's body that say something, with their places, from the one after its first brace to its last."""
        if name not in self.functions:
            raise Fault(self.whole(), f"the function {name} is missing")
        start = self.functions[name].end()
        end = self.text.find("\n}\n", start)
        if end < 0:
            raise Fault(self.place(start - 1), f"the function {name} is not closed")
        for found in re.compile(r"[^\n]+").finditer(self.text, start, end):
            if found[0].strip():
                yield found[0].strip(), self.place(found.start())


def read_source(path):
    """The text of a file."""
    try:
        with open(path, encoding="latin-1", newline="\n") as file:
            text = file.read(BYTES + 1)
    except (OSError, ValueError) as error:
        raise Fault(path, getattr(error, "strerror", None) or str(error)) from error
    if len(text) > BYTES:
        raise Fault(path, f"more than {BYTES} bytes")
    return Source(path, text)
