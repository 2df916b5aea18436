"""Reads the table 'Limits' of docs/RULES.md, and the numbers of the definitions that it names."""
import glob
import os
import re

PAGE = "docs/RULES.md"
END = re.compile(r"-?2\^\d+(?: - 1)?|-?\d[\d,]*")
# The modules of a name that the table gives without one.
COMMON = ("Limits", "TraceLimits")


class Wrong(Exception):
    """What is wrong, with its file and line."""


class Limit:
    """A row of the table: what is limited, its ends as they are written, its definitions as modules and names, and its line."""

    def __init__(self, what, ends, names, line):
        self.what, self.ends, self.names, self.line = what, ends, names, line


def value_of(end):
    """The number of an end as it is written."""
    power = re.match(r"(-?)2\^(\d+)( - 1)?$", end)
    if not power:
        return int(end.replace(",", ""))
    return (-1 if power.group(1) else 1) * 2**int(power.group(2)) - (1 if power.group(3) else 0)


def names_of(cell):
    """The definitions that a cell names. A name without a module is of the module before it, or of a common one."""
    found, modules = [], COMMON
    for module, name in re.findall(r"`(?:(\w+)\.)?(\w+)`", cell):
        modules = (module,) if module else modules
        found.append((modules, name))
    return found


def limits_of(top):
    """The rows of the table in their order."""
    rows, inside = [], False
    with open(os.path.join(top, PAGE), encoding="utf-8") as file:
        for number, line in enumerate(file, 1):
            if line.startswith("## "):
                inside = line.strip() == "## Limits"
            elif inside and line.startswith("|") and not line.startswith(("| what", "|---")):
                cells = [cell.strip() for cell in line.strip().strip("|").split("|")]
                if len(cells) != 3:
                    raise Wrong(f"{PAGE}:{number}: a row of three cells is wanted")
                rows.append(Limit(cells[0], END.findall(cells[1]), names_of(cells[2]), number))
    if not rows:
        raise Wrong(f"{PAGE}: no table 'Limits'")
    return rows


def values_of(top, modules, name):
    """The numbers that definitions of a name have in modules; of one that is no number nothing. None if there is no definition."""
    texts = []
    for module in modules:
        for path in glob.glob(os.path.join(top, "crates", "*_model", "specs", "**", module + ".antt"), recursive=True):
            with open(path, encoding="utf-8") as file:
                texts.append(file.read())
    defined = [text for text in texts if re.search(rf"^(?:abbrev |unfoldable )?pub {name} :", text, re.M)]
    if not defined:
        return None
    return {int(value) for text in defined for value in re.findall(rf"^{name} = (\d+)$", text, re.M)}
