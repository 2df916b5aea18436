"""The lines of `hz_why` after the answer of `replay`: docs/FORMATS.md, 'Explanations'."""
import collections

LINE_COLUMNS = 80
NAME_COLUMNS = 32
NUMBER_COLUMNS = 30
MOST_ALTERNATIVES = 64
MOST_ISSUES = 64

# an issue that was accepted: its line, its class, the alternative that it took, counted from 1, and its cycle
Issue = collections.namedtuple("Issue", "line name number cycle")


# ---- lists that are cut

def narrow(line):
    """A line as it is, or its beginning and `..`."""
    return line if len(line) <= LINE_COLUMNS else line[:LINE_COLUMNS - 2] + ".."


def listed(columns, separator, items):
    """A space and as many items as there is room for; ` ..` comes in place of the others, and for it room is kept."""
    text = ""
    for place, item in enumerate(items):
        longer = text + (separator if place else " ") + item
        if len(longer) > columns - (3 if place + 1 < len(items) else 0):
            return text + " .."
        text = longer
    return text


def ranged(first, last):
    return str(first) if first == last else f"{first}-{last}"


def numbered(numbers):
    """`alternative` or `alternatives`, and ascending numbers; those that follow each other as one."""
    runs = []
    for number in numbers:
        if runs and runs[-1][1] == number - 1:
            runs[-1][1] = number
        else:
            runs.append([number, number])
    word = "alternative" if len(numbers) == 1 else "alternatives"
    return word + listed(NUMBER_COLUMNS, ", ", [ranged(*run) for run in runs])


def grouped(keys):
    """For each key that differs from those before, in their order, the numbers of its places, counted from 1."""
    groups = {}
    for number, key in enumerate(keys, 1):
        groups.setdefault(key, []).append(number)
    return groups


# ---- the lines

def wait_line(wait):
    if wait is None:
        return "fits in no later cycle\n"
    return "fits 1 cycle later\n" if wait == 1 else f"fits {wait} cycles later\n"


def held_words(cycle, holder):
    """Who holds a unit in a cycle that is counted from the present one."""
    return f"{'planned by' if cycle else 'held from'} line {holder.line}, {holder.name}"


def reason_text(machine, held, reason):
    """What forbids an alternative. `held` has the holder of each pair, with cycles counted from the present one."""
    (cycle, unit), number, pattern = reason
    at = f"{unit} in cycle {cycle}"
    if number is None:
        return f"{at} is {held_words(cycle, held[cycle, unit])}"
    statement = machine.statements[number]
    return f"{statement.head} line {statement.line}, {at} {' '.join(('with', *pattern)) if pattern else 'without a pattern'}"


def detail_line(machine, held, reason):
    """Below a broken statement: the patterns that it wants, or who holds each of its units, and which are asked for."""
    (cycle, unit), number, pattern = reason
    if number is None:
        return ""
    if not pattern:
        return "  wants" + listed(LINE_COLUMNS - 7, "; ", [" ".join(each) for each in machine.statements[number].patterns]) + "\n"
    parts = [f"{each} is {held_words(cycle, held[cycle, each]) if (cycle, each) in held else 'asked for'}" for each in (unit, *pattern)]
    return " " + listed(LINE_COLUMNS - 1, "; ", parts) + "\n"


def reason_lines(machine, held, reasons):
    """What forbids alternatives, those with one reason together."""
    return "".join(narrow(f"{numbered(numbers)}: {reason_text(machine, held, reason)}") + "\n" + detail_line(machine, held, reason)
                   for reason, numbers in grouped(reasons).items())


def stretches(pairs):
    """Each unit with the cycles from which and to which it is taken without a break, in the order of the first of them."""
    found, latest = [], {}
    for cycle, unit in pairs:
        if unit in latest and latest[unit][1] == cycle - 1:
            latest[unit][1] = cycle
        else:
            latest[unit] = [cycle, cycle]
            found.append((unit, latest[unit]))
    return found


def takes_lines(alternatives):
    """What alternatives take, each as pairs in their order; those that take the same as one."""
    reported = ""
    for pairs, numbers in grouped(map(tuple, alternatives[:MOST_ALTERNATIVES])).items():
        head = f"{numbered(numbers)} {'takes' if len(numbers) == 1 else 'take'}"
        taken = listed(LINE_COLUMNS - len(head), ", ", [f"{unit} {ranged(*cycles)}" for unit, cycles in stretches(pairs)])
        reported += head + (taken or " nothing") + "\n"
    more = len(alternatives) - MOST_ALTERNATIVES
    return reported + (f"more alternatives: {more}\n" if more > 0 else "")


def issue_lines(issues, now):
    """The last of the issues that still hold something."""
    more = len(issues) - MOST_ISSUES
    reported = f"more issues before: {more}\n" if more > 0 else ""
    for issue in issues[-MOST_ISSUES:]:
        reported += narrow(f"line {issue.line} {issue.name} in cycle {issue.cycle - now} took alternative {issue.number}") + "\n"
    return reported


def picture(units, held, asked):
    """A row for each unit that is held or asked for, a column for each cycle up to the last: the line of the holder, or a dot."""
    shown = {unit for _, unit in [*held, *asked]}
    rows = [unit for unit in units if unit in shown]
    if not rows:
        return ""
    cycles = 1 + max(cycle for cycle, _ in [*held, *asked])
    name = min(NAME_COLUMNS, max(5, *map(len, rows)))
    room = LINE_COLUMNS - (name + 2)
    longest = max(len(str(cycles - 1)), *(len(str(holder.line)) for holder in held.values()), 0)
    cell = max(1, min(longest, max(0, room // cycles - 1)))
    columns = range(min(cycles, room // (cell + 1)))

    def line(left, texts):
        return left[:name].ljust(name) + "  " + "".join(" " + text[-cell:].rjust(cell) for text in texts) + "\n"

    def texts(unit):
        return [str(held[cycle, unit].line) if (cycle, unit) in held else "." for cycle in columns]

    reported = line("cycle", map(str, columns)) + "".join(line(unit, texts(unit)) for unit in rows)
    return reported + (f"cut after cycle {len(columns) - 1}\n" if len(columns) < cycles else "")
