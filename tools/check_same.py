#!/usr/bin/env python3
"""Compares `hz_same` with a plain search in Python, byte by byte, on pairs of machines that a seed makes: most are near each other, with one
entry changed, a state split, automata joined, names changed. Each trace that it writes is walked on both, and shows there what it says.
Spoiled texts and wrong words have the answers that `hz walk` and the rules of words give. Then GCC's pipelines as they are are compared
with what `extract.py` makes of them with --align and --merge."""
import argparse
import collections
import os
import resource
import subprocess
import sys
import tempfile

sys.dont_write_bytecode = True

from extraction.running import run
import check_gcc  # noqa: E402
from same_check.cases import CASES  # noqa: E402
from same_check.machines import machine_of  # noqa: E402
from same_check.making import Maker  # noqa: E402
from same_check.pipelines import compare_pipelines  # noqa: E402
from same_check.searching import TooMany, answer  # noqa: E402
from same_check.spoiling import Spoiler  # noqa: E402

WORDS = (("one", "other"), ("old.tables", "new.tables"), ("./one", "./one.2"))
USAGE = (4, "usage: hz_same TABLES TABLES\n")
MOST_PAIRS, SECONDS, SHOWN = 200000, 20, 10


def limit():
    """A run may have so many seconds of a processor."""
    resource.setrlimit(resource.RLIMIT_CPU, (SECONDS, SECONDS))


class Check:
    """Asks hz_same, compares, and counts."""

    def __init__(self, hz, hz_same, folder):
        self.hz, self.hz_same, self.folder = hz, hz_same, folder
        self.seen, self.wrong, self.asked = collections.Counter(), 0, 0

    def run(self, program, *words):
        """The status and the text of a program."""
        done = subprocess.run([program, *words], stdout=subprocess.PIPE, stderr=subprocess.STDOUT, cwd=self.folder, preexec_fn=limit, check=False)
        return done.returncode, done.stdout.decode("latin-1")

    def write(self, name, text):
        with open(os.path.join(self.folder, name), "w", encoding="latin-1") as out:
            out.write(text)

    def compare(self, what, words, wanted):
        """hz_same of two files answers as wanted, and what it writes shows the difference."""
        self.asked += 1
        found = self.run(self.hz_same, *words)
        self.seen[found[0]] += 1
        if found != wanted:
            self.fail(f"{what}: {found}, wanted {wanted}", words)
        elif found[0] == 1:
            self.show(what, words, found[1])

    def fail(self, line, words=()):
        """Says what is wrong, with the first texts."""
        self.wrong += 1
        if self.wrong > SHOWN:
            return
        print(line)
        for word in words:
            with open(os.path.join(self.folder, word), encoding="latin-1") as text:
                print(f"{word}:", text.read(1200), sep="\n")

    def show(self, what, words, trace):
        """Walks a trace on both texts: one refuses its last event alone, or both accept it and say otherwise of its last ask."""
        self.write("trace", trace)
        walked = [self.run(self.hz, "walk", word, "trace") for word in words]
        self.seen["traces walked"] += 1
        if not is_shown(trace.split("\n")[:-1], walked, words):
            self.fail(f"{what}: walked {walked} by {trace!r}", words)


def is_shown(lines, walked, words):
    """Whether both texts answer a trace as its last line says."""
    last = max((place for place, line in enumerate(lines, 1) if not line.startswith(";")), default=0)
    event, said = lines[last - 1].split(" "), lines[-1][2:].split(", ")
    if not last:
        return [status for status, _ in walked] == [0, 0]
    found = set()
    for word, (status, text) in zip(words, walked):
        reported = text.split("\n")[:-1]
        if event[0] != "ask":
            is_refused = status == 1 and reported[-1] == f"refused line {last} {event[1]}"
            found.add(f"{'refused' if is_refused else 'accepted' if status == 0 else 'lost'} by {word}")
        else:
            found.add(f"{reported[-2].split(' ')[-1]} in {word}" if status == 0 and reported[-2].startswith(f"ask line {last} ") else "lost")
    return found == set(said)


def check_cases(check):
    """The pairs with a name each."""
    for name, pair, wanted in CASES:
        machines, words = pair(), WORDS[0]
        for word, made in zip(words, machines):
            check.write(word, made.text())
        check.compare(name, words, wanted or answer(*machines, words))


def check_made(check, seed, count):
    """Pairs that a seed makes."""
    maker = Maker(seed)
    for number in range(count):
        machines, words = maker.pair(), WORDS[number % len(WORDS)]
        for word, made in zip(words, machines):
            check.write(word, made.text())
        try:
            check.compare(f"pair {number}", words, answer(*machines, words, MOST_PAIRS))
        except TooMany:
            check.seen["with too many pairs to be searched"] += 1


def check_spoiled(check, seed, count):
    """Texts with faults: the first is judged before the second, and each as `hz walk` does."""
    maker = Maker(seed)
    spoiler = Spoiler(maker.random)
    for number in range(count):
        words, texts = WORDS[number % len(WORDS)], [made.text() for made in maker.pair()]
        for place in maker.random.choice([(0,), (1,), (0, 1)]):
            texts[place] = spoiler.spoiled(texts[place])
        for word, text in zip(words, texts):
            check.write(word, text)
        judged = [check.run(check.hz, "walk", word, os.devnull) for word in words]
        wanted = next((one for one in judged if one[0]), None)
        check.compare(f"spoiled {number}", words, wanted or answer(*map(machine_of, texts), words))


def check_words(check):
    """Words that are none, and files that can't be read; all are read before one is judged."""
    check.write("good", Maker(1).machine().text())
    check.write("bad", "hazard-tables 3\n")
    tries = [((), USAGE), (("good",), USAGE), (("good", "good", "good"), USAGE), (("-x", "good"), USAGE), (("good", "--help"), USAGE),
             (("--version",), USAGE), (("none", "good"), (6, "file none could not be read\n")),
             (("good", "none"), (6, "file none could not be read\n")), (("bad", "none"), (6, "file none could not be read\n")),
             (("none", "nothing"), (6, "file none could not be read\n")), (("good", "."), (6, "file . could not be read\n")),
             (("good", "good"), (0, "same\n")), (("bad", "bad"), (2, "fault bad line 1 BadHeader\n")),
             (("good", "bad"), (2, "fault bad line 1 BadHeader\n"))]
    for words, wanted in tries:
        check.asked += 1
        found = check.run(check.hz_same, *words)
        check.seen[found[0]] += 1
        if found != wanted:
            check.fail(f"hz_same {' '.join(words)}: {found}, wanted {wanted}")


def words_given():
    parser = argparse.ArgumentParser(description=__doc__)
    parser.add_argument("--seed", type=int, default=37)
    parser.add_argument("--count", type=int, default=3000, help="how many pairs of machines are made, and a third as many spoiled ones")
    parser.add_argument("--source", default=check_gcc.SOURCES, help="a GCC source, a tar file or a folder; if it is not given, " + check_gcc.SOURCES)
    parser.add_argument("--made-alone", action="store_true", help="leave GCC's pipelines out")
    parser.add_argument("hz")
    parser.add_argument("hz_same")
    parser.add_argument("targets", nargs="*", help="back ends of GCC; all if none is named")
    return parser.parse_args()


def main():
    given = words_given()
    with tempfile.TemporaryDirectory() as folder:
        check = Check(os.path.abspath(given.hz), os.path.abspath(given.hz_same), folder)
        check_words(check)
        check_cases(check)
        check_made(check, given.seed, given.count)
        check_spoiled(check, given.seed + 1, given.count // 3)
    counts = ", ".join(f"{count} {'of status ' * isinstance(what, int)}{what}" for what, count in sorted(check.seen.items(), key=str))
    print(f"check-same: {check.asked} answers: {counts}; {check.wrong} wrong")
    wrong = check.wrong
    if not given.made_alone:
        wrong += compare_pipelines(check.hz, check.hz_same, given.source, given.targets)
    shown = {0, 1, 2, 3, 4, 6} <= set(check.seen) or not given.count
    return 0 if shown and not wrong else 1


if __name__ == "__main__":
    run(main)
