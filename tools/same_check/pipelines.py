"""GCC's pipelines and whole targets, each in the ways in which `extract.py` writes it: all that hz compiles answer alike."""
import collections
import glob
import os
import subprocess
import tempfile

import check_gcc
from extract import Reader, extract
from extraction.forms import Fault
from extraction.writing import written

WAYS = ({}, {"align": True}, {"merge": True}, {"merge": True, "align": True})
SECONDS = 300


def spelled(way):
    return " ".join(f"--{name}" for name in way) or "as it is"


def plain(items):
    """The text of items without its comments."""
    return "\n".join(line for line in written(items, []).split("\n") if not line.startswith(";"))


class Pipelines:
    """Compares the ways of each description, and counts."""

    def __init__(self, hz, hz_same, folder):
        self.hz, self.hz_same, self.folder = hz, hz_same, folder
        self.seen, self.wrong, self.seconds = collections.Counter(), 0, collections.Counter()

    def compiled(self, reader, what):
        """The tables of each way that hz compiles, in files; a way that is written as an earlier one is left out."""
        found, texts = {}, set()
        for number, way in enumerate(WAYS):
            items, _ = extract(reader, **way, **what)
            text = plain(items)
            if text in texts:
                self.seen[f"{spelled(way)} written as another way"] += 1
                continue
            texts.add(text)
            answer = check_gcc.compiled(self.hz, items, SECONDS)
            self.seconds["hz"] += answer.seconds
            if answer.status == 0:
                found[spelled(way)] = path = os.path.join(self.folder, f"{number}.tables")
                with open(path, "w", encoding="latin-1") as out:
                    out.write(answer.text)
        return found

    def compare(self, name, reader, what):
        """The first way that is compiled against the others."""
        try:
            found = self.compiled(reader, what)
        except Fault as fault:
            self.tell(name, "not read", f"not read: {fault}")
            return
        if not found:
            self.seen["compiled in no way"] += 1
            return
        (way, first), *others = found.items()
        self.seen[f"compiled {way} first"] += 1
        for other, path in others:
            before = check_gcc.spent()
            done = subprocess.run([self.hz_same, first, path], stdout=subprocess.PIPE, timeout=SECONDS, check=False)
            self.seconds["hz_same"] += check_gcc.spent() - before
            if (done.returncode, done.stdout) == (0, b"same\n"):
                self.seen[f"{way} the same as {other}"] += 1
            else:
                self.tell(name, f"{way} not the same as {other}", f"{way} and {other}: {done.returncode}, {done.stdout.decode('latin-1')}")

    def tell(self, name, kind, line):
        self.wrong += 1
        self.seen[kind] += 1
        print(f"{name}: {line}")


def tries(reader, main):
    """The pipelines of a target, and the whole of it if there are several."""
    found = check_gcc.pipelines(reader, main)
    target = os.path.dirname(main)
    named = [(" ".join(files), {"files": list(files), "defs": [main]}) for files in found]
    return named + ([(f"all of {target}", {"files": [], "targets": [main]})] if len(found) > 1 else [])


def compare_all(pipelines, config, only):
    """Compares all descriptions of the back ends in a folder."""
    before = os.getcwd()
    os.chdir(config)
    for main in check_gcc.main_files(config):
        reader = Reader()
        if only and os.path.dirname(main) not in only:
            continue
        try:
            for name, what in tries(reader, main):
                pipelines.compare(name, reader, what)
        except Fault as fault:
            pipelines.tell(main, "not read", f"not read: {fault}")
    os.chdir(before)


def compare_pipelines(hz, hz_same, source, only):
    """Compares those of a GCC source, and says what was seen; gives how many differ."""
    sources = glob.glob(source)
    if not sources:
        print(f"check-same: no {source}; Debian's package gcc-12-source has it")
        return 0
    with tempfile.TemporaryDirectory() as folder:
        pipelines = Pipelines(hz, hz_same, folder)
        compare_all(pipelines, os.path.abspath(check_gcc.unpack(os.path.abspath(sources[0]), folder)), only)
    for kind, count in sorted(pipelines.seen.items()):
        print(f"  {count} {kind}")
    seconds = ", ".join(f"{name} {taken:.1f}" for name, taken in pipelines.seconds.items())
    print(f"check-same: GCC's descriptions: {pipelines.wrong} differ; seconds of a processor: {seconds}")
    return pipelines.wrong
