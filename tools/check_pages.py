#!/usr/bin/env python3
"""Checks the pages. It types what README.md and the pages of examples show, and compares what comes out. A command is a line that begins
with `$ `, in the folder of its page, or in `examples` for README.md. A line `..` is any number of lines. Commands on GCC's source are left
out. Links lead somewhere, names of the sources are there, and the manual has each command, status, fault and limit (`pages/`)."""
import argparse
import glob
import os
import re
import shlex
import shutil
import subprocess
import tempfile

from extraction.running import run
from pages import links, manual, names, sizes

TOP = os.path.dirname(os.path.dirname(os.path.abspath(__file__)))
FENCE = "```"
PROMPT = "$ "
NOT_HERE = "gcc-"
def blocks_of(page):
    """The blocks of a page that show a command, each as its lines."""
    with open(page, encoding="utf-8") as text:
        pieces = text.read().split(FENCE)[1::2]
    blocks = [piece.strip("\n").split("\n") for piece in pieces]
    return [block for block in blocks if block[0].startswith(PROMPT) and not any(NOT_HERE in line for line in block)]


def commands_of(block):
    """Each command of a block, with the lines that it is to write. A command that ends with `|` goes on in the next line."""
    commands = []
    for line in block:
        if line.startswith(PROMPT):
            commands.append((line[len(PROMPT):], []))
        elif commands[-1][0].endswith("|"):
            commands[-1] = (commands[-1][0] + "\n" + line, [])
        else:
            commands[-1][1].append(line)
    return commands


def pattern_of(lines):
    """What is compared: the lines, in which `..` is any number of lines."""
    return "".join("(?:.*\n)*" if line == ".." else re.escape(line + "\n") for line in lines)


class Typist:
    """Types commands in a copy of the examples, with all commands on the path and files of /tmp in a folder of its own."""

    def __init__(self, programs, folder):
        self.folder = folder + "/"
        self.examples = os.path.join(folder, "examples")
        place = os.path.join(folder, "programs")
        shutil.copytree(os.path.join(TOP, "examples"), self.examples)
        os.mkdir(place)
        for name, program in programs.items():
            with open(os.path.join(place, name), "w", encoding="utf-8") as script:
                script.write(f'#!/bin/sh\nexec {"python3 " if program.endswith(".py") else ""}{shlex.quote(program)} "$@"\n')
            os.chmod(os.path.join(place, name), 0o755)
        self.surroundings = {**os.environ, "PATH": place + os.pathsep + os.environ["PATH"], "PYTHONDONTWRITEBYTECODE": "1"}

    def type(self, place, command):
        """What a command writes, in a folder of the examples."""
        done = subprocess.run(
            ["sh", "-c", command.replace("/tmp/", self.folder)],
            cwd=os.path.join(self.examples, place),
            env=self.surroundings,
            stdout=subprocess.PIPE,
            stderr=subprocess.STDOUT,
            timeout=60,
            check=False,
        )
        return done.stdout.decode().replace(self.folder, "/tmp/")


def find_programs(given):
    """Each command of tools/commands.txt: a tool is a file of tools/, a program is given, beside the first that is, or of the gate."""
    found = {os.path.basename(program): os.path.abspath(program) for program in given}
    for name, words in manual.commands_of(TOP).items():
        if words[0] == "tool":
            found[name] = os.path.join(TOP, "tools", words[1])
        else:
            beside = os.path.join(os.path.dirname(os.path.abspath(given[0])), name)
            found.setdefault(name, beside if os.path.exists(beside) else os.path.join(TOP, "crates", name, "out", name))
    return found


def type_pages(programs):
    """How many commands the pages show, and a text for each that writes something else."""
    pages = [("README.md", "")]
    pages += [(os.path.relpath(page, TOP), os.path.basename(os.path.dirname(page)))
              for page in sorted(glob.glob(os.path.join(TOP, "examples", "*", "README.md")))]
    count, wrong = 0, []
    with tempfile.TemporaryDirectory() as folder:
        typist = Typist(find_programs(programs), folder)
        for page, place in pages:
            for block in blocks_of(os.path.join(TOP, page)):
                for command, lines in commands_of(block):
                    count += 1
                    written = typist.type(place, command)
                    if not re.fullmatch(pattern_of(lines), written):
                        wrong.append(f"{page}: $ {command}\n{written}")
    return count, wrong


def main():
    """Types all commands of the pages, and checks links, names and the manual."""
    parser = argparse.ArgumentParser(description=__doc__)
    parser.add_argument("programs", nargs="*", metavar="PROGRAM", help="hz, hz_why and others; without one no command is typed")
    parser.add_argument("--sizes", action="store_true", help="print how many bytes the pages have, and check nothing")
    given = parser.parse_args()
    if given.sizes:
        print("\n".join(sizes.table(TOP)))
        return 0
    # (a released tar has no sources, which names and links are of)
    wrong = links.check(TOP) + names.check(TOP) + manual.check(TOP) if os.path.exists(os.path.join(TOP, "crates.txt")) else []
    if wrong:
        print("\n".join(wrong))
    print(f"links, names and the manual: {len(wrong)} faults")
    if not given.programs:
        return 1 if wrong else 0
    count, others = type_pages(given.programs)
    print("\n".join(others + [f"{count} commands of pages, {len(others)} not as shown"]))
    return 1 if wrong or others or count == 0 else 0


if __name__ == "__main__":
    run(main)
