"""The pipeline forms of machine descriptions as they are in their files, for genautomata: no change of extract.py is in them.

Only conditions of classes are others: genautomata reads none, and they may have modes and constants of a target.
"""
from extraction.forms import Scanner
from extraction.items import Automata, Bypass, Class, Options, Reservation, Units, UnitSet

PIPELINE = (Automata, Bypass, Class, Options, Reservation, Units, UnitSet)
CLASS, CONDITION = "define_insn_reservation", 3


def operands_of(tokens):
    """Where the parts of a form are: the first and the last character of each that is directly in it."""
    depth, begun, found = 0, 0, []
    for kind, start, end in tokens[1:-1]:
        begun = start if depth == 0 else begun
        depth += {"open": 1, "close": -1}.get(kind, 0)
        if depth == 0:
            found.append((begun, end))
    return found


def text_of(text, tokens):
    """The text of a form, of a class with a condition that always holds."""
    begin, end = tokens[0][1], tokens[-1][2]
    parts = operands_of(tokens)
    if len(parts) <= CONDITION or text[slice(*parts[0])] != CLASS:
        return text[begin:end]
    return text[begin:parts[CONDITION][0]] + "(const_int 1)" + text[parts[CONDITION][1]:end]


def top_forms(path):
    """The texts of the top forms of a file, by the line at which they begin."""
    with open(path, encoding="latin-1", newline="\n") as file:
        scanner = Scanner(path, file.read())
    depth, tokens, found = 0, [], {}
    for token in scanner.tokens():
        depth += {"open": 1, "close": -1}.get(token[0], 0)
        tokens.append(token)
        if depth == 0:
            found.setdefault(scanner.place(tokens[0][1]).line, []).append(text_of(scanner.text, tokens))
            tokens = []
    return found


class RawForms:
    """Files that are read once each."""

    def __init__(self):
        self.read = {}

    def texts(self, place):
        """The forms that begin at a place."""
        if place.file not in self.read:
            self.read[place.file] = top_forms(place.file)
        return self.read[place.file][place.line]

    def text(self, items):
        """The forms of items, each once, in their order."""
        places = dict.fromkeys(item.place for item in items if isinstance(item, PIPELINE))
        return "\n\n".join(text for place in places for text in self.texts(place)) + "\n"
