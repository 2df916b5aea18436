#!/usr/bin/env python3
"""Compares what genautomata writes of each pipeline and each whole target of GCC with what hz compiles of extract.py's text.

Every automaton is compared by hz_same, or, where that is not built, by a search over all pairs of states in Python. One that differs is
compared once more as genautomata reads it (--as-gcc), and then has to be the same. genautomata gets the forms of the port's files as they
are. It is built of the source, in HZ_GCC if that is set, or it is the program that is named.
"""
import argparse
import collections
import functools
import glob
import os
import tempfile

import check_gcc
from building.checking import Compared, Target, compare_target, not_compared, summary
from building.comparing import comparer_of
from building.generating import Generator, Unwritten, build_genautomata
from extract import Reader
from extraction.forms import Fault
from extraction.running import run
from fuzz_built import fuzz

SECONDS, MUTANTS = 300, 2000


def tries_of(reader, main, target):
    """The pipelines of a target, and the whole of it if there are several."""
    found = check_gcc.pipelines(reader, main)
    tries = [(" ".join(files), {"files": list(files), "defs": [main]}) for files in found]
    return tries + ([(f"all of {target}", {"files": [], "targets": [main]})] if len(found) > 1 else [])


def rows_of(hz, generator, comparer, config, only, most, seconds, samples):
    """The rows of all back ends; `samples` takes short texts of genautomata, each with the tables of hz."""
    os.chdir(config)
    for main in check_gcc.main_files(config):
        target, reader = os.path.dirname(main), Reader()
        if only and target not in only:
            continue
        compiled = functools.partial(check_gcc.compiled, hz, most=most)
        try:
            tries = tries_of(reader, main, target)
        except Fault as fault:
            yield Compared(target, target, "-", "-", why=f"not read: {fault}")
            continue
        made = Target(target, reader, compiled, generator, comparer, seconds)
        yield from compare_target(made, tries)
        samples += made.samples


def check_builds(hz, program, comparer, config, only, most=SECONDS, mutants=MUTANTS):
    """Prints all rows and the sums; gives how many differences no reading explains, how many builds could not be compared, and how many
    mutants of the samples are wrong."""
    seconds, found, samples = collections.Counter(), [], []
    generator, before = Generator(program, most), (comparer.count, comparer.seconds)
    print("\npipeline | build | mode | automata | states | compared")
    for row in rows_of(hz, generator, comparer, config, only, most, seconds, samples):
        print(row.line(), flush=True)
        found.append(row)
    seconds["genautomata"], seconds[comparer.name()] = generator.seconds, comparer.seconds - before[1]
    print("", *summary(found, seconds), sep="\n")
    print(f"  pairs of texts that {comparer.name()} compared: {comparer.count - before[0]}")
    wrong = fuzz(hz, samples, 1, mutants) if samples else 0
    return sum(row.apart() for row in found if not row.is_explained()) + len(not_compared(found)) + wrong


def check_source(hz, source, comparer, config, only, most=SECONDS, mutants=MUTANTS):
    """The same with genautomata built of a GCC source; without what that needs it is said, and nothing is compared."""
    with tempfile.TemporaryDirectory() as folder:
        try:
            program = build_genautomata(source, os.environ.get("HZ_GCC") or folder)
        except Unwritten as why:
            print(f"check-gcc: no build is compared: {why}")
            return 0
        return check_builds(hz, program, comparer, config, only, most, mutants)


def words():
    parser = argparse.ArgumentParser(prog="check_built.py", description=__doc__)
    parser.add_argument("--source", default=check_gcc.SOURCES,
                        help="a GCC source, a tar file or a folder; if it is not given, " + check_gcc.SOURCES)
    parser.add_argument("--genautomata", help="the program, if it is built already")
    parser.add_argument("--same", metavar="HZ_SAME", help="the program hz_same; if it is not given, hz_same beside hz, if that is there")
    parser.add_argument("--seconds", type=int, default=SECONDS, help="how long hz and genautomata may take for one description")
    parser.add_argument("--mutants", type=int, default=MUTANTS, help=f"how many mutants of what is written are read; {MUTANTS} if it is not given")
    parser.add_argument("hz")
    parser.add_argument("targets", nargs="*", help="back ends; all if none is named")
    return parser.parse_args()


def main():
    given, folder = words(), tempfile.TemporaryDirectory()
    sources = glob.glob(given.source)
    if not sources:
        print(f"check-built: no {given.source}; Debian's package gcc-12-source has it")
        return 0
    hz, source = os.path.abspath(given.hz), os.path.abspath(sources[0])
    comparer = comparer_of(hz, given.same)
    with folder:
        config = check_gcc.unpack(source, folder.name)
        if given.genautomata:
            wrong = check_builds(hz, os.path.abspath(given.genautomata), comparer, config, given.targets, given.seconds, given.mutants)
        else:
            wrong = check_source(hz, source, comparer, config, given.targets, given.seconds, given.mutants)
        os.chdir("/")
    print(f"check-built: {wrong} differ")
    return 1 if wrong else 0


if __name__ == "__main__":
    run(main)
