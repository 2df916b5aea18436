#!/usr/bin/env python3
"""Mutates texts that genautomata wrote, and tables texts that name what is wanted of them, and reads each mutant by built.py: there is no
traceback, a fault is one line with a file and a line, and hz reads what is written.

A mutant is drawn from a number, so that it can be made again: `fuzz_built.py HZ INSN-AUTOMATA.cc .. --first NUMBER --count 1`. The tables text
of all of it, or one beside it whose name ends with `.tables`, is mutated too.
"""
import argparse
import collections
import os
import random
import re
import signal
import subprocess
import tempfile
import time
import traceback

from built import built
from extraction.forms import Fault
from extraction.running import run

SECONDS, EDITS = 10, [1, 1, 1, 2, 3]
PIECES = ["0", "1", "2", "255", "256", "65535", "65536", "999999999", "4294967296", "9" * 5000, "-1", "0x10", " ", ",", "{", "}", "};", "\n", ";",
          "\0", "\xff", "/*", "*/", "case 3: /* x */", "case 0: /* a b */", "default:", "else", "\n}\n", "int temp ATTRIBUTE_UNUSED;", "-", "end",
          "row 0", "asks x", "\n#define DFA__ADVANCE_CYCLE 1\n", "\n#define NDFA__COLLAPSE 2\n", "  int more_automaton_state;\n", '{"q", 0},',
          "static const unsigned char translate_0[] ATTRIBUTE_UNUSED = {\n"]
WORD = re.compile(r"\w+")
FAULT = re.compile(r"[^\n]+:[0-9]+: [^\n]+")


class TooLong(Exception):
    """A mutant takes too long."""


def stop(*_):
    raise TooLong


def span(draw, text):
    """A word, a line, or some bytes of a text; mostly of a line that has more than numbers."""
    start = draw.randrange(len(text) + 1)
    if draw.random() < 0.7:
        places = [found.start() for found in re.finditer(r"^.*[a-z].*$", text, re.M)] or [0]
        start = draw.choice(places)
    end = text.find("\n", start) + 1 or len(text)
    kind = draw.randrange(3)
    if kind == 0:
        words = list(WORD.finditer(text, start, end))
        return draw.choice(words).span() if words else (start, end)
    return (start, end) if kind == 1 else (start, min(len(text), start + draw.choice([1, 2, 5, 20, 200])))


def mutated(draw, text):
    """A text after some edits."""
    for _ in range(draw.choice(EDITS)):
        start, end = span(draw, text)
        kind = draw.randrange(5)
        if kind == 0:
            text = text[:start] + text[end:]
        elif kind == 1:
            text = text[:end] + text[start:end] * draw.choice([1, 1, 2, 40]) + text[end:]
        elif kind == 2:
            text = text[:start] + draw.choice(PIECES) + text[start:]
        elif kind == 3:
            text = text[:start] + draw.choice(PIECES) + text[end:]
        else:
            first, last = span(draw, text)
            text = text[:start] + text[first:last] + text[end:]
    return text


class Fuzz:
    """Mutants of texts, and what was seen of them. `texts` are pairs of a text of genautomata and a tables text."""

    def __init__(self, hz, texts, folder):
        self.hz, self.texts, self.folder = hz, texts, folder
        self.seen, self.wrong, self.longest = collections.Counter(), 0, 0.0

    def mutant(self, number):
        """The texts of a mutant; there may be no tables text."""
        draw = random.Random(number)
        text, tables = draw.choice(self.texts)
        kind = draw.randrange(4)
        return text if kind == 0 else mutated(draw, text), None if kind == 1 else mutated(draw, tables) if kind == 0 else tables

    def write(self, name, text):
        path = os.path.join(self.folder, name)
        with open(path, "w", encoding="latin-1", newline="\n") as out:
            out.write(text)
        return path

    def run(self, number):
        """Reads a mutant, and sees what comes of it."""
        text, tables = self.mutant(number)
        path, like, made = self.write("mutant.cc", text), tables and self.write("mutant.tables", tables), None
        began = time.process_time()
        signal.setitimer(signal.ITIMER_PROF, SECONDS)
        try:
            made, kind = built(path, like)[0], "written"
        except Fault as fault:
            kind = "refused" if FAULT.fullmatch(str(fault)) else "a fault of another form"
        except TooLong:
            kind = f"more than {SECONDS} seconds"
        except Exception:
            kind = "traceback: " + traceback.format_exc().strip().split("\n")[-1]
        finally:
            signal.setitimer(signal.ITIMER_PROF, 0)
        self.longest = max(self.longest, time.process_time() - began)
        self.count(number, kind if made is None or self.is_read(made) else "written, and not read by hz")

    def count(self, number, kind):
        self.seen[kind] += 1
        if kind not in ("written", "refused"):
            self.wrong += 1
            print(f"mutant {number}: {kind}", flush=True)

    def is_read(self, made):
        """Whether hz reads what is written."""
        return subprocess.run([self.hz, "walk", self.write("made.tables", made), os.devnull], stdout=subprocess.DEVNULL, check=False).returncode == 0


def fuzz(hz, texts, first, count):
    """Runs mutants; gives how many were wrong."""
    signal.signal(signal.SIGPROF, stop)
    with tempfile.TemporaryDirectory() as folder:
        made = Fuzz(hz, texts, folder)
        for number in range(first, first + count):
            made.run(number)
    reported = ", ".join(f"{number} {kind}" for kind, number in made.seen.most_common())
    print(f"fuzz-built: {count} mutants from {first} on: {reported}; the longest took {made.longest:.1f} seconds of a processor; {made.wrong} wrong")
    return made.wrong


def read(path):
    """A text, and the tables text beside it, or that of all of it."""
    with open(path, encoding="latin-1", newline="\n") as file:
        text = file.read()
    beside = os.path.splitext(path)[0] + ".tables"
    if os.path.exists(beside):
        with open(beside, encoding="latin-1", newline="\n") as file:
            return text, file.read()
    return text, built(path)[0]


def words():
    parser = argparse.ArgumentParser(prog="fuzz_built.py", description=__doc__)
    parser.add_argument("--first", type=int, default=1, help="the number of the first mutant; 1 if it is not given")
    parser.add_argument("--count", type=int, default=2000, help="how many mutants; 2000 if it is not given")
    parser.add_argument("hz")
    parser.add_argument("files", nargs="+", metavar="INSN-AUTOMATA.cc")
    return parser.parse_args()


def main():
    given = words()
    return 1 if fuzz(os.path.abspath(given.hz), [read(path) for path in given.files], given.first, given.count) else 0


if __name__ == "__main__":
    run(main)
