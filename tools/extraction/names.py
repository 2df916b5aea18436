"""Names and lists of names, as hz reads them: docs/RULES.md, "Names"."""
import re

BLANKS = " \t\n\v\f\r"
NAME_BYTES = r"!#-'\--{}~"
NAME = re.compile(f"[{NAME_BYTES}]+")
WIDEST = 60


def is_name(text):
    """Whether hz takes a text as a name: bytes from 33 to 126 without `, | + * ( ) "`."""
    return NAME.fullmatch(text) is not None


def words(text):
    """The words between white space, which is that of C and no other."""
    return re.findall(r"[^ \t\n\v\f\r]+", text)


def pieces(text):
    """What is between commas, white space round it dropped."""
    return [piece.strip(BLANKS) for piece in text.split(",")]


def shown(text):
    """A text on one line: what can't be printed is escaped."""
    if text.isprintable():
        return text
    return "".join(mark if mark.isprintable() else mark.encode("unicode_escape").decode() for mark in text)


def brief(text):
    """A text in a message: of a long one the front."""
    return shown(text if len(text) <= WIDEST else text[:WIDEST] + "..")
