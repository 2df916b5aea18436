"""The texts of `hz_why`: their parts, the picture of what is held, and a reason in the words of a block."""
import re

# a line of a trace, and the class on it, of which a line that is cut may lack the end; the line of a set statement is one of the description
HELD = re.compile(r"(?<!_set )line (\d+),(?: \S+)?")
GROUP = re.compile(r"alternatives? [\d, .-]+: (.*)")
CYCLE = re.compile(r" in cycle (\d+)")


def parts_of(text):
    """The answer of `hz_why` in parts: lines of asks, the line that decides, what comes after it, and the picture."""
    asks, decided, reported, drawn = [], [], [], []
    for line in text.split("\n")[:-1]:
        if drawn or decided and re.match(r"cycle +0\b", line):
            drawn.append(line)
        elif decided:
            reported.append(line)
        elif line.startswith(("accepted ", "refused ")):
            decided.append(line)
        else:
            asks.append(line)
    return asks, decided, reported, drawn


def later(found):
    """A cycle that is counted from the present one, in words."""
    cycles = int(found[1])
    return "" if not cycles else " 1 cycle later" if cycles == 1 else f" {cycles} cycles later"


def reasons_in(text, lines, most=4):
    """Why an issue is refused, in the words of `hz_why`, with the instruction in place of the line of the trace."""

    def insn(found):
        return f"insn {lines[int(found[1])].number}" if int(found[1]) in lines else found[0]

    found = []
    for line in text.split("\n"):
        group = GROUP.fullmatch(line)
        if group:
            reason = re.sub(r"\bfrom (?=insn )", "by ", HELD.sub(insn, group[1]))
            found.append(CYCLE.sub(later, reason))
    found = list(dict.fromkeys(found))
    return ", ".join(found[:most]) + (f" and {len(found) - most} more" if len(found) > most else "")


def is_picture_of(drawn, rows):
    """Whether the lines of a picture show what is held. `rows` has the name of each unit that holds something, in the order of the
    description, and a text for each cycle from the present one on in which it is held. Names and texts may be cut."""
    if not rows:
        return not drawn
    if len(drawn) <= len(rows):
        return False
    shown = len(drawn[0].split()) - 1
    cycles = 1 + max(cycle for _, texts in rows for cycle in texts)
    cut = [f"cut after cycle {shown - 1}"] if shown < cycles else []
    if shown < 1 or drawn[1 + len(rows):] != cut or shown > cycles:
        return False
    wanted = [("cycle", {cycle: str(cycle) for cycle in range(shown)}), *rows]
    return all(is_row(line, name, [texts.get(cycle, ".") for cycle in range(shown)]) for line, (name, texts) in zip(drawn, wanted))


def is_row(line, name, texts):
    """Whether a line has a name, of which the end may be cut, and texts, of which the beginnings may be cut."""
    cells = line.split()
    return (len(cells) == len(texts) + 1 and name.startswith(cells[0])
            and all(cell and text.endswith(cell) for cell, text in zip(cells[1:], texts)))
