"""Runs on the largest inputs of the calls that can want memory, where the ends of the table 'Limits' leave them smaller."""
import collections

from limits.ends import IDLE, ONE, Repeated, Run, described, insns, refused, replayed, wrong
from limits.states import class_of, entries

# A run of the largest input of some calls, by a name.
Large = collections.namedtuple("Large", "name run")

TEXT = 4_194_304


class Front(str):
    """A text that the answer only begins with."""


def full(form, limit=TEXT):
    """As many forms as a text may have, each made of its number."""
    pieces, left, number = [], limit, 0
    while True:
        piece = form(number)
        if len(piece) > left:
            return "".join(pieces)
        pieces.append(piece)
        left, number = left - len(piece), number + 1


def written(count, value):
    """So many instructions that write one register, of which each depends on each before."""
    return "".join(f"(insn {number} (set (reg 1) {value}))\n" for number in range(1, count + 1))


def texts():
    """Texts with as many items as their bytes hold."""
    yield Large("forms of a text", wrong(replayed("()" * (TEXT // 2)), "d", 1, "UnknownForm"))
    name = "a" * (TEXT - len('(define_automaton "")'))
    lines = f"hazard-tables 1\ntreatment first\nclasses 0\nautomata 1\nautomaton {name} 0 1\nmap\nrow 0\nend\n"
    yield Large("name", Run("compile d", {"d": f'(define_automaton "{name}")'}, 0, lines))
    yield Large("file name", Run("compile " + "d" * 255, {"d" * 255: ""}, 0, lines.replace(name, "-")))
    start = '(define_cpu_unit "u")(define_reservation "r" "u'
    yield Large("expression", refused(start + "|u" * ((TEXT - len(start) - 2) // 2) + '")', "Alternatives", "r", 1))
    values = full(lambda number: f",v{number + 1}", TEXT - 60)
    yield Large("names of a list", described(f'(define_attr "a" "v0{values}" (const_string "v7"))'))
    yield Large("reservations", described(full(lambda number: f'(define_reservation "r{number}" "{f"r{number - 1}" if number else "nothing"}")\n')))
    statements = ONE.replace('"u"', '"u,v"', 1) + full(lambda _: '(absence_set "u" "v")\n', TEXT - 200)
    yield Large("set statements", Run(*replayed(statements, "issue x\n"), 0, "accepted 1 issues 0 cycles\n"))
    yield Large("instructions of an evaluation", Run("eval b s", {"b": insns(4096), "s": ""}, 0, ""))
    cells = full(lambda number: f"(mem {number} 1)\n")
    yield Large("cells of a state", Run("eval b s", {"b": "", "s": cells}, 0, cells))
    files = {"d": IDLE, "b": "(insn 1 (set (mem (const_int 0)) (const_int 1)))", "s": cells}
    yield Large("cells of a state and a schedule", Run("timed d b s", files, 0, cells))
    events = 67_108_864 // len("issue x\n")
    for words in ("replay d t", "why d t"):
        run = Run(words, {"d": IDLE, "t": Repeated("issue x\n", events)}, 0, f"accepted {events} issues 0 cycles\n")
        yield Large(f"events of a trace, {words.split(maxsplit=1)[0]}", run)


def alternatives():
    """Alternatives of as many pairs as may be, and as many as may be."""
    units = [f"u{number}" for number in range(256)]
    wide = f'(define_cpu_unit "{",".join(units)}")\n' + class_of("x", f"({'+'.join(units)})*512") + "\n"
    trace = "issue x\nadvance {}\nissue x\n"
    yield Large("pairs of an alternative", Run(*replayed(wide, trace.format(512)), 0, "accepted 2 issues 512 cycles\n"))
    yield Large("pairs of an alternative, why", Run("why d t", {"d": wide, "t": trace.format(511)}, 1, Front("refused line 3 x\n")))
    many = '(define_cpu_unit "u,v")\n' + class_of("x", "(u|v)*12") + "\n"
    yield Large("different alternatives", Run(*replayed(many, "issue x\nissue x\nissue x\n"), 1, "refused line 3 x\n"))
    yield Large("different alternatives, why", Run("why d t", {"d": many, "t": "issue x\nissue x\nissue x\n"}, 1, Front("refused line 3 x\n")))


def machines():
    """Tables with as many entries as may be, with query units too, and a text of them."""
    made = entries(65_536, 34)
    made.forms.append('(define_query_cpu_unit "' + ",".join(f"q{number}" for number in range(30)) + '")')
    yield Large("entries with query units", Run(*replayed(made.text(), "ask q7\n"), 0, "ask line 1 q7 free\naccepted 0 issues 0 cycles\n"))
    head = "hazard-tables 1\ntreatment first\nclasses 63\n" + "".join(f"class c{number}\n" for number in range(63))
    table = head + f"automata 1\nautomaton - 63 65536\nmap {' '.join(map(str, range(63)))}\n"
    text = Repeated("row" + " 65535" * 64 + "\n", 65_536, table, "end\n")
    yield Large("entries of a tables text", Run("walk k t", {"k": text, "t": "issue c5\n"}, 0, "accepted 1 issues 0 cycles\n"))
    classes = [f"c{number}" for number in range(1024)]
    units = ",".join(f"q{number}" for number in range(256))
    asked = "".join(class_of(name, "nothing") + "\n" for name in classes) + f'(define_query_cpu_unit "{units}")\n'
    reported = Front("ask line 2 q255 free\naccepted 1 issues 0 cycles\n")
    yield Large("classes and query units, why", Run("why d t", {"d": asked, "t": "issue c1023\nask q255\n"}, 0, reported))
    # only the first class has instructions
    text = "".join(class_of(name, "nothing").replace("1)", "0)", name != "c0") + "\n" for name in classes)
    pairs = text + f'(define_bypass 7 "{",".join(classes)}" "{",".join(classes)}")\n'
    yield Large("pairs of classes of a bypass", Run("schedule d b", {"d": pairs, "b": insns(1)}, 0, "0 1 c0\nscheduled 1 insns 0 cycles\n"))


def graphs():
    """Blocks in which each instruction depends on each before: 8,386,560 edges."""
    block = {"d": IDLE, "b": written(4096, "(reg 1)")}
    chain = "".join(f"{number - 1} {number} x\n" for number in range(1, 4097))
    yield Large("edges of a graph, schedule", Run("schedule d b", block, 0, chain + "scheduled 4096 insns 4095 cycles\n"))
    reads = "".join(f"read {number - 1} {number} reg 1 from {number - 1 or 'start'}\n" for number in range(1, 4097))
    yield Large("edges of a graph, timed", Run("timed d b s", {**block, "s": "(reg 1 5)"}, 0, reads + "(reg 1 5)\n"))
    path = " ".join(str(number) for number in range(1, 4097))
    yield Large("edges of a graph, bound", Run("bound d b", block, 0, f"path 4095 {path}\nload -\nbound 4095\nschedule 4095 cycles\n"))
    two = "".join(f"{number - 1} 1 {number} x\n" for number in range(1, 4097))
    yield Large("edges of a graph, duo", Run("duo d b c", {**block, "c": ""}, 0, two + "scheduled 4096 + 0 insns 4095 cycles\nalone 4095 0 cycles\n"))
    body = {"d": IDLE, "b": written(256, "(reg 1)")}
    kernel = "".join(f"{number - 1} 0 {number} x\n" for number in range(1, 257))
    yield Large("edges of a graph, modulo", Run("modulo d b", body, 0, f"interval 256\nstages 1\n{kernel}edge 0 equals edge 1\nlist 255 cycles\n"))


def largest():
    """All of them."""
    for subject in (texts, alternatives, machines, graphs):
        yield from subject()
