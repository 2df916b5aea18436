#!/usr/bin/env python3
"""Runs hz at each number of the table 'Limits' of docs/RULES.md and one past it, and compares statuses and whole texts. The list of
tools/limits has each number of the table and no other, and each number is that of the definition beside it. Each public call that can want
memory is listed with the largest input that a run gives it. With both programs these runs are made too. docs/LIMITS.md shows the ends."""
import argparse
import os
import subprocess
import sys
import tempfile
import time

from extraction.running import run
from limits.calls import call_faults
from limits.ends import ends
from limits.largest import Front, largest
from limits.page import PAGE, Wrong, limits_of, value_of, values_of

LIMITS = "docs/LIMITS.md"
INTRODUCTION = """# Limits, from both sides

`python3 tools/check_limits.py --page` makes this page. The gate compares it, and makes the runs.

At each number of [RULES](RULES.md), 'Limits', hz runs once at the number and once past it. `tools/limits` makes the wanted statuses and
texts from the rules by itself. A run shows its words, its status, and the last line of its answer. Past a number is one more; only the
entries of a table are 4,194,305, of 10,565 states with 397 entries each. `A`: `accepted 0 issues 0 cycles`. `usage`: the usage line."""
CALLS = """Every contract allows an answer for want of memory, as status 5. So a body that gives up on large inputs meets its contract; only runs show
that none does. [calls.txt](../tools/limits/calls.txt) lists each public call that can want memory, with the largest input that a run gives
it, the limit of that input, and the run: one of `tools/limits`, or a file of rows. `make check-limits` makes all of them."""
ACCEPTED = "accepted 0 issues 0 cycles"
TOP = os.path.dirname(os.path.dirname(os.path.abspath(__file__)))


def page_faults(limits, listed):
    """What the table has and the list lacks, or the other way round, and definitions with another number."""
    wanted = {(limit.what, end) for limit in limits for end in limit.ends}
    for limit in limits:
        for end in dict.fromkeys(limit.ends):
            if (limit.what, end) not in listed:
                yield f"{PAGE}:{limit.line}: no run of tools/limits at {end} of '{limit.what}'"
        yield from definition_faults(limit)
    for what, end in listed:
        if (what, end) not in wanted:
            yield f"tools/limits/ends.py: no number {end} of '{what}' in {PAGE}, 'Limits'"


def definition_faults(limit):
    """Definitions of a row of the table that are not there, or have a number that the row has not. A count has one number more than the
    greatest that is counted from 0."""
    numbers = {value_of(end) for end in limit.ends}
    for modules, name in limit.names:
        values = values_of(TOP, modules, name)
        if values is None:
            yield f"{PAGE}:{limit.line}: no definition `{name}` in {' or '.join(modules)}"
        elif values and values.isdisjoint(numbers) and not (name.endswith("_count") and {value - 1 for value in values} & numbers):
            yield f"{PAGE}:{limit.line}: `{name}` is {min(values)}, which the row has not"


def write(path, text):
    """Writes a file of a run."""
    with open(path, "wb") as file:
        if isinstance(text, str):
            file.write(text.encode("ascii"))
        else:
            text.write(file)


def difference(programs, run, folder):
    """What is wrong with the answer of a run, or none."""
    for name, text in run.files.items():
        write(os.path.join(folder, name), text)
    words = run.words.split()
    command = [programs[1], *words[1:]] if words[0] == "why" else [programs[0], *words]
    done = subprocess.run(command, cwd=folder, stdout=subprocess.PIPE, stderr=subprocess.STDOUT, check=False)
    if done.returncode != run.status:
        return f"status {done.returncode}, wanted {run.status}"
    wanted = run.text.encode("ascii")
    same = done.stdout.startswith(wanted) if isinstance(run.text, Front) else done.stdout == wanted
    return None if same else "another text"


def run_all(programs, runs, shown):
    """Runs what is listed by names: how many runs there are, and how many are wrong."""
    wrong = count = 0
    for name, run in runs:
        begun = time.monotonic()
        with tempfile.TemporaryDirectory() as folder:
            fault = difference(programs, run, folder)
        count, wrong = count + 1, wrong + bool(fault)
        if fault or shown:
            print(f"{name}: {fault or 'as wanted'}, {time.monotonic() - begun:.1f} s", flush=True)
    return count, wrong


def table(head, rows):
    """A table of Markdown. A first cell as in the row before is left out."""
    lines, before = ["|" + "|".join(head) + "|", "|" + "---|" * len(head)], None
    for row in rows:
        first = "" if row[0] == before else row[0]
        lines.append("|" + "|".join((first,) + row[1:]) + "|")
        before = row[0]
    return lines


def made_page(found):
    """The page of the ends."""
    lines = [INTRODUCTION, "", "## Ends", ""]
    lines += table(("what", "end", "at it", "past it"), [(end.what, end.end, shown(end.at), shown(end.past)) for end in found])
    return "\n".join(lines + ["", "## Calls that can want memory", "", CALLS]) + "\n"


def shown(run):
    """A run in a cell: its words, its status, and the last line of the answer."""
    last = (run.text.rstrip("\n").split("\n")[-1])
    last = "usage" if last.startswith("usage") else "A" if last == ACCEPTED else f"`{last}`" if last else "no text"
    return f"`{run.words}` {run.status} {last}"


def runs_of(found, programs):
    """The runs of the list, and with both programs those on the largest inputs."""
    for end in found if programs else ():
        yield f"{end.what}: at {end.end}", end.at
        yield f"{end.what}: past {end.end}", end.past
    for large in largest() if len(programs) == 2 else ():
        yield large.name, large.run


def main():
    """Compares the list with the page, and runs it."""
    parser = argparse.ArgumentParser(description=__doc__)
    parser.add_argument("programs", nargs="*", metavar="program", help="hz: the ends of the table; and hz_why: the largest inputs too."
                        " With neither only the list, the page and the definitions are compared")
    parser.add_argument("--page", action="store_true", help=f"print {LIMITS}, and run nothing")
    parser.add_argument("--each", action="store_true", help="print each run with its time")
    given = parser.parse_args()
    lost = [name for name in given.programs if not os.access(name, os.X_OK)]
    if lost or len(given.programs) > 2:
        print(f"check_limits.py: {lost[0] + ': no program' if lost else 'at most hz and hz_why'}", file=sys.stderr)
        return 2
    try:
        found = list(ends())
        faults = list(page_faults(limits_of(TOP), {(end.what, end.end): None for end in found}))
        faults += call_faults(TOP, {name for name, _ in runs_of(found, ("hz", "hz_why"))})
        page = made_page(found)
        if given.page:
            sys.stdout.write(page)
            return 0
        with open(os.path.join(TOP, LIMITS), encoding="utf-8") as file:
            if file.read() != page:
                faults.append(f"{LIMITS}: not as the list says; make it again with `python3 tools/check_limits.py --page > {LIMITS}`")
    except (Wrong, OSError) as fault:
        print(f"check_limits.py: {fault}", file=sys.stderr)
        return 2
    for fault in faults:
        print(fault)
    programs = [os.path.abspath(name) for name in given.programs]
    try:
        count, wrong = run_all(programs, runs_of(found, programs), given.each)
    except OSError as fault:
        print(f"check_limits.py: {fault}", file=sys.stderr)
        return 2
    print(f"limits: {len(found)} ends in the list, {count} runs, {wrong + len(faults)} wrong")
    return 1 if wrong or faults else 0


if __name__ == "__main__":
    run(main)
