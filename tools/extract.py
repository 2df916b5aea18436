#!/usr/bin/env python3
"""Takes the pipeline out of a port's machine descriptions and writes it in the language that hz reads.

What hz's profile cannot say is changed. Each change is reported on standard error with its file, line and kind.
Nothing here is proved: the proofs begin at the text that hz reads.
"""
import argparse
import collections
import dataclasses
import os
import shutil
import sys

from extraction import aligning, as_gcc, changes, items, merging, splitting
from extraction.forms import BYTES, Fault, read_forms, read_text
from extraction.names import shown
from extraction.running import run
from extraction.shared import needed
from extraction.writing import handed_out

INCLUDES = 4096

EPILOG = """FILE.md, --defs and --target may be given together. Of --defs only what the others need is taken. The status is 0,
or 2 if an input cannot be read; then nothing is written."""


class Reader:
    """Reads files once each, and follows `include` as GCC does: from the directory of the file that was named first."""

    def __init__(self):
        self.read, self.includes, self.bytes = {}, 0, 0

    def forms(self, path, place=None):
        """The forms of a file; `place` is that of the form that includes it."""
        key = os.path.realpath(path) if "\0" not in path else path
        if key not in self.read:
            text = read_text(path, place)
            self.read[key] = (read_forms(path, text), len(text))
        forms, length = self.read[key]
        self.bytes += length
        if self.bytes > BYTES:
            raise Fault(place or path, f"more than {BYTES} bytes in all")
        return forms

    def items(self, path, follow):
        """The pipeline items of a file in their order, those of included files in their place."""
        taken, base, open_files = [], os.path.dirname(path), {path}
        self.includes = self.bytes = 0
        waiting = [(path, iter(self.forms(path)))]
        while waiting:
            file, forms = waiting[-1]
            form = next(forms, None)
            if form is None:
                open_files.remove(waiting.pop()[0])
            elif form.head() == "include" and follow:
                included = self.included(base, form)
                if included in open_files:
                    raise Fault(form.place, f"{included} includes itself")
                open_files.add(included)
                waiting.append((included, iter(self.forms(included, form.place))))
            else:
                taken += items.items_in(form)
        return taken

    def included(self, base, form):
        """The file that a form includes."""
        self.includes += 1
        if self.includes > INCLUDES:
            raise Fault(form.place, f"more than {INCLUDES} files are included")
        name = os.fsdecode(items.Operands(form, 1).string(1).encode("latin-1"))
        return os.path.normpath(os.path.join(base, name))


@dataclasses.dataclass
class Work:
    """What the steps have in hand: the items that are written, all that the files define, the changes so far, and the files."""
    items: list
    sources: list
    reported: changes.Reported
    files: list


def gather(reader, files, defs, targets):
    """The items of files and targets, and what they need of shared definitions, before the first step."""
    own = [item for path in targets for item in reader.items(path, True)]
    own += [item for path in files for item in reader.items(path, False)]
    mine = {os.path.realpath(item.place.file) for item in own}
    shared = [item for path in defs for item in reader.items(path, True)]
    shared = [item for item in shared if os.path.realpath(item.place.file) not in mine]
    return Work(needed(own, shared) + own, own + shared, changes.Reported(), [*targets, *files])


def change(work):
    """Changes what hz's profile cannot say."""
    work.items = changes.change_all(work.items, work.sources, work.reported)


def merge_all(work):
    """Merges the automata of every alternation."""
    merging.merge_automata(work.items, changes.of_kind(work.items, items.Class), work.reported)


def merge_stuck(work):
    """Merges the automata of the alternations of classes that can't be written automaton by automaton."""
    while merging.merge_automata(work.items, aligning.stuck(work.items), work.reported):
        pass


def drop_empty(work):
    """Leaves out forms of automata that name none."""
    work.items = merging.without_empty(work.items)


def align(work):
    """Takes units earlier."""
    work.items = aligning.align_units(work.items, work.reported)


def split_paying(work):
    """Cuts automata where that leaves fewer states."""
    work.items = splitting.split_automata(work.items, work.reported, False)


def split_all(work):
    """Cuts automata wherever nothing ties their units."""
    work.items = splitting.split_automata(work.items, work.reported, True)


def read_as_gcc(work):
    """Reads as genautomata what it reads otherwise than hz."""
    work.items = as_gcc.read_as_gcc(work.items, work.reported)


def steps(asked):
    """The steps in their order; each changes the items of the work and tells what it changed.

    Automata that are merged may be cut again, otherwise than before, and what is aligned has fewer grids to be counted.
    """
    chosen = [change]
    if asked.get("as_gcc"):
        chosen.append(read_as_gcc)
    if asked.get("merge"):
        chosen.append(merge_stuck if asked.get("align") or asked.get("split") else merge_all)
    chosen.append(drop_empty)
    if asked.get("align"):
        chosen.append(align)
    if asked.get("split"):
        chosen.append(split_all if asked["split"] == "all" else split_paying)
    return chosen


def extract(reader, files, defs=(), targets=(), **asked):
    """The items that are written, and the changes that were made to them; `asked` has the options: `as_gcc`, `merge`, `align`, `split`."""
    work = gather(reader, files, defs, targets)
    for step in steps(asked):
        step(work)
    return work.items, work.reported


def counted(taken, made):
    """One line: how many classes there are, and how many changes of each kind."""
    classes = sum(isinstance(item, items.Class) for item in taken)
    kinds = collections.Counter(change.kind for change in made)
    listed = ", ".join(f"{count} {kind}" for kind, count in sorted(kinds.items()))
    return f"{classes} classes, {len(made)} changes" + (f": {listed}" if listed else "")


def words(given):
    """What the words of the command line say."""
    parser = argparse.ArgumentParser(prog="extract.py", description=__doc__, epilog=EPILOG)
    parser.add_argument("-o", dest="out", required=True, metavar="OUT.md", help="the description that is written")
    parser.add_argument("--defs", action="append", default=[], metavar="MAIN.md",
                        help="definitions that the files share, of this file and all that it includes")
    parser.add_argument("--target", action="append", default=[], metavar="MAIN.md",
                        help="a whole target: this file and all that it includes")
    parser.add_argument("--merge", action="store_true",
                        help="make one automaton of those that one alternation holds together")
    parser.add_argument("--align", action="store_true",
                        help="take units earlier, so that none is reserved where no class can ask for it")
    parser.add_argument("--split", action="store_const", const="paying",
                        help="cut automata into groups of units that nothing ties, where that leaves fewer states; --split=all wherever it can be")
    parser.add_argument("--split-all", dest="split", action="store_const", const="all", help=argparse.SUPPRESS)
    parser.add_argument("--as-gcc", action="store_true",
                        help="write it so that hz accepts what genautomata accepts, where that is something else")
    parser.add_argument("files", nargs="*", metavar="FILE.md", help="the files of a pipeline")
    given = sys.argv[1:] if given is None else given
    given = parser.parse_args(["--split-all" if word == "--split=all" else word for word in given])
    if not given.files and not given.target:
        parser.error("a FILE.md or a --target is wanted")
    return given


def write(path, text):
    """Writes a file whole or not at all; what is no file, as a pipe, is written as it is."""
    path = os.path.realpath(path)
    if os.path.exists(path) and not os.path.isfile(path):
        with open(path, "w", encoding="ascii") as out:
            out.write(text)
        return
    made = f"{path}.{os.getpid()}.part"
    try:
        with open(made, "w", encoding="ascii") as out:
            out.write(text)
        if os.path.exists(path):
            shutil.copymode(path, made)
        os.replace(made, path)
    except OSError:
        if os.path.exists(made):
            os.remove(made)
        raise


def main(given=None):
    given, reader = words(given), Reader()
    try:
        taken, made = extract(reader, given.files, given.defs, given.target, as_gcc=given.as_gcc, merge=given.merge, align=given.align,
                              split=given.split)
        text = handed_out(taken, given.target + given.files)
        if os.path.realpath(given.out) in reader.read:
            raise Fault(given.out, "an input is not written over")
        write(given.out, text)
    except Fault as fault:
        print(fault, file=sys.stderr)
        return 2
    except OSError as error:
        print(shown(f"{given.out}: {error.strerror}"), file=sys.stderr)
        return 2
    for change in made:
        print(change, file=sys.stderr)
    print(shown(f"{given.out}: {counted(taken, made)}"), file=sys.stderr)
    return 0


if __name__ == "__main__":
    run(main)
