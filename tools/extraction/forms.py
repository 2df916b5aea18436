"""Reads the forms of a machine description: lists and vectors of atoms, strings and forms, each with its line."""
import os
import re
import typing

from .names import shown

BYTES = 16777216


class Place(typing.NamedTuple):
    """A line of a file, from 1."""
    file: str
    line: int

    def __str__(self):
        return f"{self.file}:{self.line}"


class Fault(Exception):
    """An input that cannot be read: its place, and what is wrong there."""

    def __init__(self, place, what):
        super().__init__(shown(f"{place}: {what}"))


class Text(str):
    """A string, its escapes replaced."""


class Block(str):
    """Embedded C between braces, as it is written."""


class Form(list):
    """A list or a vector: its operands, its first bracket and the place at which it begins."""

    def __init__(self, place, bracket):
        super().__init__()
        self.place, self.bracket = place, bracket

    def head(self):
        """The atom that a list begins with, or None."""
        first = self[0] if self and self.bracket == "(" else None
        return first if type(first) is str else None


BLANK = r"(?:[ \t\n\v\f\r]+|;[^\n]*|/\*.*?\*/)*"
TOKEN = re.compile(BLANK + r"""(?:
      (?P<string> "[^"\\]*(?:\\.[^"\\]*)*" )
    | (?P<open>   [(\[] )
    | (?P<close>  [)\]] )
    | (?P<block>  \{ )
    | (?P<atom>   (?: <[^<>]*> | /(?!\*) | [^\s()\[\]{}";/] )+ )
    | (?P<end>    \Z )
    )?""", re.S | re.X | re.A)
BRACE = re.compile(r"\\.|[{}]", re.S)
UNREAD = {'"': "a string that is not closed", "/": "a comment that is not closed", "}": "a brace that closes nothing"}
CLOSES = {")": "(", "]": "["}
DEPTH = 200
ESCAPES = {"\\\n": "", '\\"': '"', "\\\\": "\\", "\\'": "'", "\\;": "\\n\\t"}


class Scanner:
    """The tokens of a text. A comment ends as in C at the first `*/`, whatever it holds."""

    def __init__(self, file, text):
        self.file, self.text = file, text
        self.at, self.line = 0, 1

    def place(self, at):
        """The place of a character that is not before the last one that was asked for."""
        self.line += self.text.count("\n", self.at, at)
        self.at = at
        return Place(self.file, self.line)

    def tokens(self):
        """The kind, the first and the last character of each token."""
        at = 0
        while True:
            found = TOKEN.match(self.text, at)
            kind, end = found.lastgroup, found.end()
            if kind is None:
                raise Fault(self.place(end), UNREAD.get(self.text[end], "a character that is not allowed"))
            start = found.start(kind)
            if kind == "end":
                return
            at = self.block_end(start) if kind == "block" else end
            yield kind, start, at

    def block_end(self, start):
        """The end of the brace that closes the one at `start`; a brace after a backslash is none."""
        depth = 0
        for found in BRACE.finditer(self.text, start):
            depth += {"{": 1, "}": -1}.get(found[0], 0)
            if depth == 0:
                return found.end()
        raise Fault(self.place(start), "a brace that is not closed")

    def leaf(self, kind, start, end):
        """The atom, string or block of a token."""
        if kind == "string":
            inner = self.text[start + 1:end - 1]
            return Text(inner if "\\" not in inner else re.sub(r"\\.", lambda found: ESCAPES.get(found[0], found[0]), inner, flags=re.S))
        return Block(self.text[start:end]) if kind == "block" else self.text[start:end]


def read_forms(file, text):
    """The top forms of a text, all of which are lists."""
    scanner = Scanner(file, text)
    top, open_forms = [], []
    for kind, start, end in scanner.tokens():
        if kind == "open":
            form = Form(scanner.place(start), text[start])
            if not open_forms and form.bracket == "[":
                raise Fault(form.place, "a vector is outside all forms")
            (open_forms[-1] if open_forms else top).append(form)
            open_forms.append(form)
            if len(open_forms) > DEPTH:
                raise Fault(form.place, f"more than {DEPTH} brackets are open")
        elif kind == "close":
            if not open_forms or open_forms[-1].bracket != CLOSES[text[start]]:
                raise Fault(scanner.place(start), f"`{text[start]}` closes nothing")
            open_forms.pop()
        elif open_forms:
            open_forms[-1].append(scanner.leaf(kind, start, end))
        else:
            raise Fault(scanner.place(start), "this is outside all forms")
    if open_forms:
        raise Fault(open_forms[-1].place, f"`{open_forms[-1].bracket}` is not closed")
    return top


def read_text(path, place=None):
    """The text of a file, a character for each byte. A fault is at the form that includes it, if one does."""
    def wrong(why):
        return Fault(place or path, f"{path}: {why}" if place else why)
    try:
        if place and not os.path.isfile(path) and os.path.exists(path):
            raise wrong("this is no file")
        with open(path, "rb") as file:
            found = file.read(BYTES + 1)
    except OSError as error:
        raise wrong(error.strerror) from error
    except ValueError as error:
        raise wrong("no file has a zero byte in its name") from error
    if len(found) > BYTES:
        raise wrong(f"more than {BYTES} bytes")
    return found.decode("latin-1")
