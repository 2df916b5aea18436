"""Writes insn-automata.cc of descriptions with genautomata."""
import os
import resource
import subprocess
import tempfile

from extraction.forms import Fault

from .automata import Build
from .source import read_source

MEMORY = 8 << 30


class Unwritten(Exception):
    """Why there is no insn-automata.cc."""


def spent():
    """Seconds of a processor that ended programs took."""
    usage = resource.getrusage(resource.RUSAGE_CHILDREN)
    return usage.ru_utime + usage.ru_stime


class Generator:
    """Runs genautomata, at most so many seconds of a processor each; counts the seconds that it takes."""

    def __init__(self, program, most):
        self.program, self.most, self.seconds = os.path.abspath(program), most, 0.0

    def build(self, text):
        """The automata that are written of a description. With -w units that nothing takes are warnings."""
        with tempfile.TemporaryDirectory() as folder:
            path, made = os.path.join(folder, "pipeline.md"), os.path.join(folder, "insn-automata.cc")
            with open(path, "w", encoding="latin-1") as out:
                out.write(text)
            self.run(folder, path, made)
            try:
                return Build(read_source(made))
            except Fault as fault:
                raise Unwritten(f"not read: {fault}") from fault

    def limit(self):
        """What a run may have: memory, and seconds of a processor."""
        resource.setrlimit(resource.RLIMIT_AS, (MEMORY, MEMORY))
        resource.setrlimit(resource.RLIMIT_CPU, (self.most, self.most))

    def run(self, folder, path, made):
        before = spent()
        with open(made, "w", encoding="latin-1") as out:
            ended = subprocess.run([self.program, "-w", path], stdout=out, stderr=subprocess.PIPE, cwd=folder, preexec_fn=self.limit,
                                   check=False)
        self.seconds += spent() - before
        if ended.returncode < 0:
            raise Unwritten(f"genautomata did not end in {self.most} seconds of a processor and {MEMORY >> 30} GB")
        if ended.returncode != 0:
            lines = [line for line in ended.stderr.decode("latin-1").split("\n") if "error" in line or "fatal" in line]
            raise Unwritten(f"genautomata: {(lines or [f'status {ended.returncode}'])[0].replace(path, 'pipeline.md')}")


def build_genautomata(source, folder):
    """Builds genautomata of a GCC source; gives the program, or raises why there is none."""
    script = os.path.join(os.path.dirname(os.path.dirname(os.path.abspath(__file__))), "build_genautomata.sh")
    ended = subprocess.run(["sh", script, source, folder], stderr=subprocess.PIPE, check=False)
    if ended.returncode != 0:
        raise Unwritten(ended.stderr.decode("latin-1").strip().split("\n")[-1])
    return os.path.join(folder, "genautomata")
