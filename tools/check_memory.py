#!/usr/bin/env python3
"""Refuses memory to hz, one request at a time, from the first to the last, on each command, and to hz_why and hz_same. Each run must end in one of three
ways: with status 5 and the line `memory`, with status 5 and nothing while the words are still got, or with the command's own status and
text. The first two must occur.

The programs are proved ones. One that is built to be tried without a proof asks for memory of its own, and may end otherwise."""
import argparse
import os
import subprocess
import sys
import tempfile

from extraction.running import run

SUPERSCALAR = """\
(define_attr "type" "int,mult,div,float" (const_string "int"))
(define_cpu_unit "i0_pipeline, i1_pipeline, f_pipeline")
(define_cpu_unit "port0, port1")
(define_cpu_unit "div")
(define_insn_reservation "simple" 2 (eq_attr "type" "int")
  "(i0_pipeline | i1_pipeline), (port0 | port1)")
(define_insn_reservation "mult" 4 (eq_attr "type" "mult")
  "i1_pipeline, nothing*2, (port0 | port1)")
(define_insn_reservation "div" 9 (eq_attr "type" "div")
  "i1_pipeline, div*7, div + (port0 | port1)")
(define_insn_reservation "float" 3 (eq_attr "type" "float")
  "f_pipeline, nothing, (port0 | port1)")
(define_bypass 4 "float" "simple,mult,div")
"""

PORTS = """\
(define_cpu_unit "a,b")
(define_insn_reservation "x" 1 (const_int 1) "a|b")
(define_insn_reservation "y" 1 (const_int 1) "a")
"""

ASKED_PORTS = PORTS.replace("define_cpu_unit", "define_query_cpu_unit")

BLOCK = """\
(insn 1 (set (reg 3) (mult (reg 1) (reg 2))) (set_attr "type" "mult"))
(insn 2 (set (reg 4) (plus (reg 3) (const_int 1))))
(insn 3 (set (reg 5) (plus (reg 1) (const_int 1))))
"""

TABLES = """\
hazard-tables 2
treatment first
classes 2
class x
class y
automata 1
automaton - 2 3
map 0 1
asks a b
row 1 1 - - 0
row 2 - 1 - 0
row - - 2 2 0
end
"""

EXCHANGE = """\
(insn 1 (parallel [(set (reg 1) (reg 2)) (set (reg 2) (reg 1))]))
(insn 2 (set (reg 3) (udiv (reg 1) (reg 9))))
(insn 9 (clobber (reg 4)))
(insn 10 (set (mem (const_int 8)) (reg 1)) (set_attr "type" "store"))
"""

EXAMPLES = os.path.join(os.path.dirname(os.path.dirname(os.path.abspath(__file__))), "examples")


def example(name):
    """The text of a file of the examples."""
    with open(os.path.join(EXAMPLES, name), encoding="ascii") as text:
        return text.read()


def answer(name):
    """The status and the text of an answer among the examples: its first line, and the others."""
    status, text = example(name).split("\n", 1)
    return int(status), text


# in the place of a command: the programs that have none
WHY, SAME = "hz_why", "hz_same"

# the tables of two ports, of which an ask differs, and in two automata, one of which differs
SECOND_ASK = TABLES.replace("row - - 2 2 0", "row - - 2 - 0")
TWO_PARTS = """\
hazard-tables 1
treatment first
classes 2
class x
class y
automata 2
automaton a 2 2
map 0 1
row 1 0 0
row - 0 0
automaton b 2 2
map 0 1
row 0 1 0
row 1 - 0
end
"""

# what is shown, the command, the texts of its files, the status and the text, and the words after the files
ROWS = (
    (
        "a refused port",
        "replay",
        (SUPERSCALAR, "issue float\nadvance 1\nissue simple\nissue simple\n"),
        1,
        "refused line 4 simple\n",
    ),
    (
        "either slot under ndfa",
        "replay",
        (PORTS + '(automata_option "ndfa")\n', "issue x\nissue y\n"),
        0,
        "accepted 2 issues 0 cycles\n",
    ),
    (
        "the schedule of a small block",
        "schedule",
        (SUPERSCALAR, BLOCK),
        0,
        "0 1 mult\n0 3 simple\n4 2 simple\nscheduled 3 insns 4 cycles\n",
    ),
    (
        "the tables of two ports",
        "compile",
        (ASKED_PORTS,),
        0,
        TABLES,
    ),
    (
        "a walk on these tables",
        "walk",
        (TABLES, "issue x\nask b\nissue y\n"),
        1,
        "ask line 2 b free\nrefused line 3 y\n",
    ),
    (
        "a drill of two ports",
        "drill",
        (PORTS,),
        0,
        "drill 5 turns\naccepted 3 issues 2 cycles\nstates 0\n",
        "7",
        "5",
    ),
    (
        "an exchange of registers",
        "eval",
        (EXCHANGE, "(reg 1 5) (reg 2 7)"),
        0,
        "(reg 1 7)\n(reg 2 5)\n(reg 3 18446744073709551615)\n(reg 4 9)\n(mem 8 7)\n",
    ),
    (
        "reads on an exposed pipeline",
        "timed",
        (example("exposed/machine.md"), example("exposed/scaled.block"), example("exposed/scaled.state")),
        *answer("exposed/scaled.timed"),
    ),
    (
        "a bound by a divider",
        "bound",
        (example("lower_bound/machine.md"), example("lower_bound/divisions.block")),
        *answer("lower_bound/divisions.bound"),
    ),
    (
        "the blocks of two contexts",
        "duo",
        (example("two_contexts/machine.md"), example("two_contexts/list.block"), example("two_contexts/powers.block")),
        *answer("two_contexts/list+powers.duo"),
    ),
    (
        "the kernel of a loop",
        "modulo",
        (example("kernel/machine.md"), example("kernel/power.block")),
        *answer("kernel/power.kernel"),
    ),
    (
        "why a division is refused",
        WHY,
        (example("divider/machine.md"), example("divider/busy.trace")),
        *answer("divider/busy.why"),
    ),
    (
        "why a move is refused under ndfa",
        WHY,
        (example("choices/machine.md"), example("choices/both_slots.trace")),
        *answer("choices/both_slots.why"),
    ),
    (
        "what an accepted trace leaves",
        WHY,
        (example("refusals/machine.md"), example("refusals/accepted.trace")),
        *answer("refusals/accepted.why"),
    ),
    (
        "an ask on which two machines differ",
        SAME,
        (TABLES, SECOND_ASK),
        1,
        "issue x\nissue x\nask b\n; reserved in file0, free in file1\n",
    ),
    (
        "an automaton that two machines have in other states",
        SAME,
        (TWO_PARTS, TWO_PARTS.replace("automaton b 2 2", "automaton b 2 3").replace("row 1 - 0", "row 2 - 0\nrow 1 - 0")),
        0,
        "same\n",
    ),
)

MEMORY = (5, b"memory\n", b"")
NO_WORDS = (5, b"", b"")


class Refuser:
    """Runs a program with one request for memory refused."""

    def __init__(self, hz, others, library, folder):
        self.hz = hz
        self.others = others
        self.library = library
        self.report = os.path.join(folder, "report")
        self.folder = folder

    def start_of(self, command):
        """The program of a command, and the words before those of its files."""
        return [self.others[command]] if command in self.others else [self.hz, command]

    def run(self, words, number):
        """How a program ends if the request of this number is refused, how many it made, and whether one was refused."""
        if os.path.exists(self.report):
            os.remove(self.report)
        given = {"LD_PRELOAD": self.library, "REFUSE_REQUEST": str(number), "REFUSE_REPORT": self.report}
        done = subprocess.run(
            words, cwd=self.folder, env={**os.environ, **given}, capture_output=True, timeout=60, check=False
        )
        ended = (done.returncode, done.stdout, done.stderr)
        if not os.path.exists(self.report):
            return ended, 0, False
        with open(self.report, encoding="ascii") as text:
            made, refused = text.read().split()
        return ended, int(made), refused == "1"


def files_of(folder, texts):
    """Writes the files of a row, and gives their names."""
    names = []
    for place, text in enumerate(texts):
        name = f"file{place}"
        with open(os.path.join(folder, name), "w", encoding="ascii") as file:
            file.write(text)
        names.append(name)
    return names


def check(refuser, row, most):
    """Whether each run of a row ends as it may; says how many requests were refused, and each run that ends otherwise. A row of more
    requests than `most` is left out."""
    shown, command, texts, status, text, *more = row
    words = [*refuser.start_of(command), *files_of(refuser.folder, texts), *more]
    own = (status, text.encode(), b"")
    ended, requests, refused = refuser.run(words, 0)
    if ended != own or requests == 0 or refused:
        print(f"{shown}: {requests} requests, none to be refused: {ended}, wanted {own}")
        return False
    if requests > most:
        print(f"{shown}: {requests} requests, left out")
        return True
    counts = {NO_WORDS: 0, MEMORY: 0, own: 0}
    good = True
    for number in range(1, requests + 1):
        ended, _, refused = refuser.run(words, number)
        # once the words are got, want of memory is reported
        late = ended == NO_WORDS and number > counts[NO_WORDS] + 1
        if not refused or late or ended not in counts:
            print(f"{shown}: request {number} of {requests} refused: {refused}, {ended}")
            good = False
            continue
        counts[ended] += 1
    print(
        f"{shown}: {requests} requests, each refused in a run: {counts[MEMORY]} times 'memory', "
        f"{counts[NO_WORDS]} times no words, {counts[own]} times its own answer"
    )
    return good and counts[NO_WORDS] > 0 and counts[MEMORY] > 0


def main():
    """Compiles what refuses, and checks all rows."""
    parser = argparse.ArgumentParser(description=__doc__)
    parser.add_argument("--most", type=int, default=sys.maxsize, help="leave out what makes more requests")
    parser.add_argument("hz", help="the program")
    parser.add_argument("hz_why", help="the program that explains")
    parser.add_argument("hz_same", help="the program that compares")
    given = parser.parse_args()
    source = os.path.join(os.path.dirname(os.path.abspath(__file__)), "refuse_memory.c")
    with tempfile.TemporaryDirectory() as folder:
        library = os.path.join(folder, "refuse_memory.so")
        subprocess.run(["cc", "-O2", "-shared", "-fPIC", "-o", library, source], check=True)
        others = {WHY: os.path.abspath(given.hz_why), SAME: os.path.abspath(given.hz_same)}
        refuser = Refuser(os.path.abspath(given.hz), others, library, folder)
        # all rows are shown, also after one that is wrong
        good = [check(refuser, row, given.most) for row in ROWS]
    return 0 if all(good) else 1


if __name__ == "__main__":
    run(main)
