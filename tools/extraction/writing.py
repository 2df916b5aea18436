"""The text of a description."""
from .checking import check_item
from .forms import Fault
from .names import shown

BYTES = 4194304


def commented(text):
    """A comment of one line; what is not ASCII is escaped in it."""
    return "; " + shown(" ".join(text.split())).encode("ascii", "backslashreplace").decode()


def lines_of(item):
    """A comment with the file and line that an item comes from and with what was changed, the form, and an empty line."""
    return [commented("; ".join([str(item.place)] + item.notes)), item.text(), ""]


def first_lines(sources):
    return [commented(f"Taken out of {', '.join(sources)} by tools/extract.py."), ""]


def written(taken, sources):
    """The text of items, each after a comment with the file and line that it comes from."""
    return "\n".join(first_lines(sources) + [line for item in taken for line in lines_of(item)])


def handed_out(taken, sources):
    """The same, after hz's rules of forms were tried on each item. A fault is at the first item that hz can't read."""
    lines = first_lines(sources)
    length = sum(len(line) + 1 for line in lines)
    for item in taken:
        made = lines_of(item)
        check_item(item, made[1])
        length += sum(len(line) + 1 for line in made)
        if length > BYTES + 1:
            raise Fault(item.place, f"the text would have more than {BYTES} bytes")
        lines += made
    return "\n".join(lines)


def length_of(taken):
    """How long the text of items is, without its first lines."""
    return sum(len(line) + 1 for item in taken for line in lines_of(item))
