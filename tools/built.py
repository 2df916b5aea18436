#!/usr/bin/env python3
"""Writes the tables that a built GCC walks, its insn-automata.cc, as the tables text that hz reads.

With --as only the automata, classes and query units of another tables text are written, in its order. Nothing here is proved.
"""
import argparse
import os
import sys
import tempfile

from building.automata import Build
from building.machine import parts_of, tables_text
from building.source import read_source
from building.wanted import wanted_of_build, wanted_of_tables
from extraction.forms import Fault
from extraction.running import run

EPILOG = "The status is 0, or 2 if an input cannot be read or said as a tables text; then nothing is written."


def built(path, like=None):
    """The tables text of an insn-automata.cc, and its parts."""
    build = Build(read_source(path))
    wanted = wanted_of_tables(build, like) if like else wanted_of_build(build)
    parts = parts_of(build, wanted)
    return tables_text(wanted, parts), parts


def write_whole(path, text):
    """Writes a file at once, or not at all; what is no plain file is written as it is."""
    if os.path.exists(path) and not os.path.isfile(path):
        with open(path, "w", encoding="latin-1") as out:
            out.write(text)
        return
    mask = os.umask(0)
    os.umask(mask)
    number, made = tempfile.mkstemp(dir=os.path.dirname(path) or ".")
    try:
        with open(number, "w", encoding="latin-1") as out:
            out.write(text)
        os.chmod(made, 0o666 & ~mask)
        os.replace(made, path)
    except OSError:
        os.remove(made)
        raise


def words():
    """The words of the command line."""
    parser = argparse.ArgumentParser(description=__doc__, epilog=EPILOG)
    parser.add_argument("-o", dest="out", required=True, metavar="BUILT.tables", help="the tables text that is written")
    parser.add_argument("--as", dest="like", metavar="DESC.tables", help="a tables text whose automata, classes and query units are wanted")
    parser.add_argument("file", metavar="INSN-AUTOMATA.cc", help="what genautomata wrote, in the folder of the build")
    return parser.parse_args()


def main():
    given = words()
    try:
        text, parts = built(given.file, given.like)
    except Fault as fault:
        print(fault, file=sys.stderr)
        return 2
    if os.path.realpath(given.out) in [os.path.realpath(path) for path in (given.file, given.like) if path]:
        print(f"{given.out}: an input is not written over", file=sys.stderr)
        return 2
    try:
        write_whole(given.out, text)
    except (OSError, ValueError) as error:
        print(f"{given.out}: {getattr(error, 'strerror', None) or error}", file=sys.stderr)
        return 2
    print(f"{given.out}: {len(parts)} automata, {sum(len(part.rows) for part in parts)} states", file=sys.stderr)
    return 0


if __name__ == "__main__":
    run(main)
