"""The manual pages have each command, status, fault and limit. The sources say which there are: `tools/commands.txt`, the table of
commands, the words of faults (definitions `.._word`) and the numbers of limits (definitions `.._limit`)."""
import os
import re

from pages.files import below, manual_of, text_of

STATUSES = range(8)
TABLE = "crates/hz_tool_words/src/table.rt"
FORMATS = "docs/FORMATS.md"
RULES = "docs/RULES.md"
WORD = re.compile(r'^(\w+_word)\b[^=\n]* = codes "(\w+)"$', re.MULTILINE)
LIMIT = re.compile(r"^(\w+_limit) = (\d+)$", re.MULTILINE)
# words of operands, which have their texts in the synopsis
NO_FAULTS = ("operand_word",)
# limits to prove with, which no input can pass
INNER = (("AskColumns", "column_limit"), ("Blocks", "block_limit"))


def commands_of(top):
    """The commands that are installed: by name the words of their lines, of which the first is the kind."""
    lines = [line.split() for line in text_of(top, "tools/commands.txt").split("\n") if line and not line.startswith("#")]
    return {words[0]: words[1:] for words in lines}


def words_of(top):
    """The words of faults, each with its definition."""
    found = {}
    for path in below(top, "crates", ".antt"):
        if "_model/specs/" in path:
            for definition, word in WORD.findall(text_of(top, path)):
                if definition not in NO_FAULTS:
                    found.setdefault(word, f"{definition} of {path}")
    return found


def limits_of(top):
    """The numbers of limits, by module and name."""
    found = {}
    for path in below(top, "crates", ".antt"):
        if "_model/specs/" in path:
            module = os.path.splitext(os.path.basename(path))[0]
            for name, number in LIMIT.findall(text_of(top, path)):
                if (module, name) not in INNER:
                    found[module, name] = int(number)
    return found


def has_word(text, word):
    """Whether a text has a word by itself."""
    return re.search(rf"(?<![\w-]){re.escape(word)}(?![\w-])", text) is not None


def check_commands(top):
    """A line for each command without its page, or without its place in the page of hz."""
    wrong = []
    readme = text_of(top, "README.md")
    for name, words in commands_of(top).items():
        page = f"man/{name}.1"
        if not os.path.exists(os.path.join(top, page)):
            wrong.append(f"{page}: missing, {name} is in tools/commands.txt")
            continue
        if not has_word(readme, name):
            wrong.append(f"README.md: no {name}")
        text = text_of(top, page)
        wanted = STATUSES if words[0] == "program" else (0, 2)
        statuses = text.partition(".Sh EXIT STATUS")[2].partition(".Sh ")[0]
        listed = re.findall(r"^\.It ([0-9, ]+)$", statuses, re.MULTILINE)
        listed = {int(number) for numbers in listed for number in numbers.split(",")}
        wrong += [f"{page}: no status {status}" for status in wanted if status not in listed]
    synopsis = text_of(top, "man/hz.1").partition(".Sh SYNOPSIS")[2].partition(".Sh ")[0]
    for name in re.findall(r'name: "(\w+)"', text_of(top, TABLE)):
        if f"\n.Cm {name}\n" not in synopsis:
            wrong.append(f"man/hz.1: no command {name} in the synopsis")
        if not has_word(text_of(top, FORMATS), name):
            wrong.append(f"{FORMATS}: no command {name}")
    return wrong


def check_faults(top):
    """A line for each fault that the manual or FORMATS does not have."""
    manual = "\n".join(text_of(top, page) for page in manual_of(top))
    formats = text_of(top, FORMATS)
    wrong = []
    for word, place in words_of(top).items():
        wrong += [f"{page}: no {word}, {place}" for page, text in (("man", manual), (FORMATS, formats)) if not has_word(text, word)]
    return wrong


def check_limits(top):
    """A line for each limit whose number the manual does not have, or that no line of RULES has with its number and its name."""
    manual = "\n".join(text_of(top, page) for page in manual_of(top))
    rules = text_of(top, RULES).split("\n")
    wrong = []
    for (module, name), number in limits_of(top).items():
        shown = f"{number:,}"
        if not has_word(manual, shown):
            wrong.append(f"man: no {shown}, {module}.{name}")
        if not any(has_word(line, shown) and has_word(line, name) for line in rules):
            wrong.append(f"{RULES}: no line has {shown} and {module}.{name}")
    return wrong


def check(top):
    """A line for each thing that the manual lacks."""
    return check_commands(top) + check_faults(top) + check_limits(top)
