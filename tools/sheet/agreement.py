"""Holds the tool's own reading of a description against `hz`, before a page is written."""
import itertools
import os

from .derived import MOST_BYTES, chunks, spelled_text
from .holders import rows_left
from .machines import Machine
from .programs import Stop, accepted_own
from .reasons import is_picture_of, parts_of

NUMBERS = itertools.count()


def write(folder, name, text):
    """A file of this text, and its path."""
    path = os.path.join(folder, name)
    with open(path, "w", encoding="latin-1") as out:
        out.write(text)
    return path


def start_spelled(programs, description, folder):
    """Begins the runs by which `hz` says whether it reads the expressions of classes as this tool does."""
    runs = []
    for number, group in enumerate(chunks(description)):
        text = spelled_text(description, group)
        if len(text) <= MOST_BYTES:
            path = write(folder, f"spelled{number}.md", text)
            runs.append((group, programs.start("compile", path)))
    return runs


def agreed(runs):
    """The names of the classes whose alternatives `hz` reads as this tool does: their columns are those of the spelled ones. Two classes
    share a column exactly if their lists of alternatives are equal, their order included."""
    names = set()
    for group, run in runs:
        machine = Machine(accepted_own(run.result()).text)
        for place, (one, _) in enumerate(group):
            if any(table.column[2 * place] != table.column[2 * place + 1] for table in machine.tables):
                raise Stop(f"hz reads the expression of class {one.name} otherwise than this tool; no page is written")
            names.add(one.name)
    return names


def trace_text(events):
    """A trace in which each event is on its line."""
    lines = {event.line: f"issue {event.name}" if event.name is not None else f"advance {event.cycles}" for event in events}
    return "".join(lines.get(line, "") + "\n" for line in range(1, max(lines, default=0) + 1))


def spread(items, most):
    """At most so many of the items, the last among them."""
    if len(items) <= most:
        return items
    return [items[-1 - place * len(items) // most] for place in range(most)][::-1]


def start_pictures(programs, description, path, events, prefixes, folder, most):
    """Begins the runs of `hz_why` on prefixes of events, and gives with each what this tool finds held after it."""
    runs = []
    for length in spread(sorted(prefixes), most):
        trace = write(folder, f"prefix{next(NUMBERS)}.trace", trace_text(events[:length]))
        runs.append((rows_left(description, events[:length], prefixes[length]), programs.start("hz_why", path, trace)))
    return runs


def compare_pictures(runs):
    """Stops unless `hz_why` draws in each picture what this tool finds held. How many pictures there are."""
    for rows, run in runs:
        if not is_picture_of(parts_of(accepted_own(run.result()).text)[3], rows):
            raise Stop("hz_why draws what is held otherwise than this tool; no page is written")
    return len(runs)
