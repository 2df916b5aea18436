#!/usr/bin/env python3
"""Mutates the machine descriptions of GCC's back ends and extracts each mutant: there is no traceback, a fault is one line with a file and a
line, and of what is written hz reads every form.

A mutant is drawn from a number, so that it can be made again: `fuzz_extract.py HZ CONFIG --first NUMBER --count 1`.
"""
import argparse
import collections
import glob
import os
import random
import re
import signal
import subprocess
import tempfile
import time
import traceback

from extract import Reader, extract
from extraction.forms import Fault, read_forms, read_text
from extraction.running import run
from extraction.writing import handed_out

SECONDS, LONGEST, EDITS = 10, 20000, [1, 1, 1, 2, 3]
OPTIONS = [{}, {"align": True}, {"merge": True}, {"split": "all"}, {"merge": True, "align": True, "split": "all"}, {"align": True, "split": "paying"}]
PIECES = ["(", ")", "[", "]", "{", "}", '"', "\\", ",", "|", "+", "*", "*0", "*3", "*2*2", "*511", "*60000", "*1000000000", "nothing", "nothing*512",
          ";", "/*", "*/", "\0", "\t", "\n", " ", "\xff", "\xa0", "!", "?", "[^a]", "[!a]", "[[:x:]]", "-", "9" * 5000, "(" * 70, ")" * 70,
          '(include "x.md")', "(const_int 99999999999999999999)", "(not (const_int 1))", '(eq_attr "type" (a))', '(eq_attr " type" "a,,b,")',
          '(automata_option "ndfa")', '(automata_option "collapse-ndfa")', '(define_automaton "")', '(define_enum "e" [a (b 1)])',
          '(presence_set "u" "a b, c,")', '(exclusion_set "u," "v")', '(define_bypass 2 "*" "?*" "store_data_bypass_p")',
          '(define_bypass 2 "*a*" "[a-m]*")', '(define_reservation "again" "again, again")', '(define_query_cpu_unit "q " " a")']
FAULT = re.compile(r"[^\n]+:[0-9]+: [^\n]+")


class TooLong(Exception):
    """A mutant takes too long."""


def stop(*_):
    raise TooLong


def spans(draw, text):
    """A span of a text: some bytes, or what is between two marks."""
    if draw.random() < 0.5:
        start = draw.randrange(len(text) + 1)
        return start, min(len(text), start + draw.choice([1, 2, 5, 20, 200]))
    marks = [found.start() for found in re.finditer(r'["(),|+*]', text)] or [0]
    at = draw.randrange(len(marks))
    return marks[at], marks[min(len(marks) - 1, at + draw.choice([1, 1, 2, 4]))]


def mutated(draw, text):
    """A text after some edits."""
    for _ in range(draw.choice(EDITS)):
        start, end = spans(draw, text)
        kind = draw.randrange(5)
        if kind == 0:
            text = text[:start] + text[end:]
        elif kind == 1:
            text = text[:end] + text[start:end] * draw.choice([1, 1, 2, 40]) + text[end:]
        elif kind == 2:
            text = text[:start] + draw.choice(PIECES) + text[start:]
        elif kind == 3:
            text = text[:start] + draw.choice(PIECES) + text[end:]
        else:
            first, last = spans(draw, text)
            text = text[:start] + text[first:last] + text[end:]
    return text


def part(draw, text):
    """A text, or of a long one so many forms as are not too long."""
    if len(text) <= LONGEST:
        return text
    begins = [found.start() for found in re.finditer(r"^\(", text, re.M)] or [0]
    start = draw.choice(begins)
    ends = [at for at in begins if start < at <= start + LONGEST]
    return text[start:ends[-1] if ends else start + LONGEST]


class OneText(Reader):
    """Reads a mutant in place of its file."""

    def __init__(self, file, text, known):
        super().__init__()
        self.file, self.text = file, text
        self.read = known

    def forms(self, path, place=None):
        if path == self.file:
            return read_forms(path, self.text)
        return super().forms(path, place)


class Fuzz:
    """Mutants of the pipelines of a folder, and what was seen of them."""

    def __init__(self, hz, config, work):
        self.hz, self.work, self.known, self.texts = hz, work, {}, {}
        self.files = sorted(file for file in glob.glob(os.path.join(config, "*", "*.md")) if "define_insn_reservation" in self.source(file))
        self.seen, self.wrong, self.longest = collections.Counter(), [], 0.0

    def source(self, file):
        if file not in self.texts:
            self.texts[file] = read_text(file)
        return self.texts[file]

    def mutant(self, number):
        """The text of a mutant, its file and the words with which it is extracted."""
        draw = random.Random(number)
        file = draw.choice(self.files)
        text = mutated(draw, part(draw, self.source(file)))
        folder = os.path.dirname(file)
        main = os.path.join(folder, os.path.basename(folder) + ".md")
        shared = [main] if draw.random() < 0.05 and main != file and os.path.exists(main) else []
        return file, text, shared, draw.choice(OPTIONS)

    def run(self, number):
        """Extracts a mutant, and sees what comes of it."""
        file, text, shared, options = self.mutant(number)
        began = time.process_time()
        signal.setitimer(signal.ITIMER_PROF, SECONDS)
        try:
            reader = OneText(file, text, self.known)
            taken, _ = extract(reader, [file], shared, **options)
            made = handed_out(taken, [file])
            kind = "written"
        except Fault as fault:
            made, kind = None, "refused" if FAULT.fullmatch(str(fault)) else "a fault of another form"
        except TooLong:
            made, kind = None, f"more than {SECONDS} seconds"
        except Exception:
            made, kind = None, "traceback: " + traceback.format_exc().strip().split("\n")[-1]
        finally:
            signal.setitimer(signal.ITIMER_PROF, 0)
        self.longest = max(self.longest, time.process_time() - began)
        if made is not None and not self.is_read(made):
            kind = "written, and not read by hz"
        self.count(number, kind)

    def count(self, number, kind):
        self.seen[kind] += 1
        if kind not in ("written", "refused"):
            self.wrong.append(number)
            print(f"mutant {number}: {kind}", flush=True)

    def is_read(self, made):
        """Whether hz reads every form: a form after all others, which is none, is the first that is wrong."""
        path = os.path.join(self.work, "mutant.md")
        with open(path, "w", encoding="ascii") as out:
            out.write(made + "\n(end)\n")
        reported = subprocess.run([self.hz, "compile", path], stdout=subprocess.PIPE, check=False).stdout.decode()
        lines = made.count("\n") + 2
        return reported == f"fault {path} line {lines} UnknownForm\n" or reported.endswith(" bytes\n") and len(made) > 4194296


def fuzz(hz, config, first, count):
    """Runs mutants; gives how many were wrong."""
    signal.signal(signal.SIGPROF, stop)
    with tempfile.TemporaryDirectory() as work:
        made = Fuzz(hz, config, work)
        for number in range(first, first + count):
            made.run(number)
    reported = ", ".join(f"{number} {kind}" for kind, number in made.seen.most_common())
    print(f"fuzz-extract: {count} mutants from {first} on: {reported}; the longest took {made.longest:.1f} seconds of a processor; {len(made.wrong)} wrong")
    return len(made.wrong)


def words():
    parser = argparse.ArgumentParser(prog="fuzz_extract.py", description=__doc__)
    parser.add_argument("--first", type=int, default=1, help="the number of the first mutant; 1 if it is not given")
    parser.add_argument("--count", type=int, default=10000, help="how many mutants; 10000 if it is not given")
    parser.add_argument("hz")
    parser.add_argument("config", help="the folder gcc/config of a GCC source")
    return parser.parse_args()


def main():
    given = words()
    return 1 if fuzz(os.path.abspath(given.hz), os.path.abspath(given.config), given.first, given.count) else 0


if __name__ == "__main__":
    run(main)
