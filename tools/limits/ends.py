"""The list of limits: for each number of the table an input at it, and one past it, with what hz answers."""
import collections

from limits.states import class_of, entries, grids, members, states

# A run of hz: its words, the text of each file, the status, and the text that is written.
Run = collections.namedtuple("Run", "words files status text")
# A number of the table, by what it limits: a run at it, and one past it.
End = collections.namedtuple("End", "what end at past")

BYTES = "4,194,304"
ACCEPTED = "accepted 0 issues 0 cycles\n"
USAGE = ("usage: hz compile DESC | replay DESC TRACE | walk TABLES TRACE | schedule DESC BLOCK | eval BLOCK STATE | drill DESC NUMBER COUNT"
         " | timed DESC BLOCK STATE | bound DESC BLOCK | duo DESC BLOCK BLOCK | modulo DESC BLOCK\n")
IDLE = class_of("x", "nothing") + "\n"
ONE = '(define_cpu_unit "u")\n' + class_of("x", "u") + "\n"


class Repeated:
    """A text of a piece so many times, between a head and a tail."""

    def __init__(self, piece, count, head="", tail=""):
        self.piece, self.count, self.head, self.tail = piece, count, head, tail

    def write(self, file):
        """Writes it a part at a time."""
        file.write(self.head.encode("ascii"))
        beside = max(1, 2**20 // len(self.piece))
        for left in range(self.count, 0, -beside):
            file.write(self.piece.encode("ascii") * min(left, beside))
        file.write(self.tail.encode("ascii"))


class Zeros:
    """A text of so many bytes 0, which takes no room on the disk."""

    def __init__(self, count):
        self.count = count

    def write(self, file):
        """Makes the file so long."""
        file.truncate(self.count)


def spaces(count):
    """A text of so many spaces."""
    return Repeated(" ", count)


def replayed(text, trace=""):
    """A replay over this description."""
    return "replay d t", {"d": text, "t": trace}


def described(text, answer=ACCEPTED, status=0):
    """The answer of a replay of no event over this description."""
    return Run(*replayed(text), status, answer)


def refused(text, kind, name="", line=None):
    """A description past a limit: the last line if no other is said."""
    where = f"line {line or text.count(chr(10))} {kind} {name}" if name else kind
    return described(text, f"limit d {where}\n", 3)


def wrong(run, file, line, word, status=2):
    """A run with a fault of a text."""
    return Run(*run, status, f"fault {file} line {line} {word}\n")


def lines(count, line):
    """So many lines, each made of its number from 1 on."""
    return "".join(map(line, range(1, count + 1)))


def insns(count):
    """So many instructions."""
    return lines(count, "(insn {} (use (reg 1)))\n".format)


def past_bytes(file):
    """The limit of a file's bytes."""
    return f"limit {file} bytes\n"


def texts():
    """Sizes of texts."""
    size = 4_194_304
    yield End("description", BYTES, described(spaces(size)), described(spaces(size + 1), past_bytes("d"), 3))
    what = "block, text of a state"
    yield End(what, BYTES, Run("schedule d b", {"d": IDLE, "b": spaces(size)}, 0, "scheduled 0 insns 0 cycles\n"),
              Run("schedule d b", {"d": IDLE, "b": spaces(size + 1)}, 3, past_bytes("b")))
    yield End(what, BYTES, Run("eval b s", {"b": "", "s": spaces(size)}, 0, ""),
              Run("eval b s", {"b": "", "s": spaces(size + 1)}, 3, past_bytes("s")))
    size = 67_108_864
    yield End("trace", "67,108,864", Run(*replayed(IDLE, spaces(size)), 0, ACCEPTED),
              Run(*replayed(IDLE, spaces(size + 1)), 3, past_bytes("t")))
    size = 536_870_912
    yield End("tables text", "536,870,912", wrong(("walk k t", {"k": Zeros(size), "t": ""}), "k", 1, "Truncated"),
              Run("walk k t", {"k": Zeros(size + 1), "t": ""}, 3, past_bytes("k")))


def evaluated(block):
    """An evaluation of this block."""
    return "eval b s", {"b": block, "s": ""}


def blocks():
    """How many instructions blocks have."""
    what, issued = "instructions of a block, and of the two blocks of `duo` together", lines(4096, "0 {} x\n".format)
    yield End(what, "4,096", Run("schedule d b", {"d": IDLE, "b": insns(4096)}, 0, issued + "scheduled 4096 insns 0 cycles\n"),
              wrong(("schedule d b", {"d": IDLE, "b": insns(4097)}), "b", 4097, "InsnLimit"))
    issued = lines(2048, "0 1 {} x\n".format) + lines(2048, "0 2 {} x\n".format)
    files = {"d": IDLE, "b": insns(2048)}
    yield End(what, "4,096",
              Run("duo d b c", {**files, "c": insns(2048)}, 0, issued + "scheduled 2048 + 2048 insns 0 cycles\nalone 0 0 cycles\n"),
              Run("duo d b c", {**files, "c": insns(2049)}, 3, "limit c insns\n"))
    issued = "".join(f"{number - 1} 0 {number} x\n" for number in range(1, 257))
    yield End("instructions of the block of `modulo`", "256",
              Run("modulo d b", {"d": ONE, "b": insns(256)}, 0, f"interval 256\nstages 1\n{issued}edge 0 equals edge 1\nlist 255 cycles\n"),
              Run("modulo d b", {"d": ONE, "b": insns(257)}, 3, "limit b insns\n"))


def numbers():
    """Numbers in blocks."""
    insn, what = "(insn {} (use (reg 1)))\n".format, "number of an instruction"
    yield End(what, "0", Run(*evaluated(insn(0)), 0, ""), wrong(evaluated(insn(-1)), "b", 1, "BadShape"))
    yield End(what, "2^32 - 1", Run(*evaluated(insn(2**32 - 1)), 0, ""), wrong(evaluated(insn(2**32)), "b", 1, "BadShape"))
    insn, what = "(insn 1 (set (reg {}) (const_int 7)))\n".format, "registers"
    yield End(what, "0", Run(*evaluated(insn(0)), 0, "(reg 0 7)\n"), wrong(evaluated(insn(-1)), "b", 1, "RegisterRange"))
    yield End(what, "255", Run(*evaluated(insn(255)), 0, "(reg 255 7)\n"), wrong(evaluated(insn(256)), "b", 1, "RegisterRange"))
    insn, what = "(insn 1 (set (reg 0) (const_int {})))\n".format, "numbers of forms"
    yield End(what, "-2^63", Run(*evaluated(insn(-2**63)), 0, f"(reg 0 {2**63})\n"), wrong(evaluated(insn(-2**63 - 1)), "b", 1, "NumberTooLarge"))
    yield End(what, "2^64 - 1", Run(*evaluated(insn(2**64 - 1)), 0, f"(reg 0 {2**64 - 1})\n"),
              wrong(evaluated(insn(2**64)), "b", 1, "NumberTooLarge"))


def chained(count):
    """A loop whose body is so many instructions, each of which reads what the one before it writes."""
    return {"d": IDLE, "b": "".join(f"(insn {n} (set (reg {n}) (plus (reg {n - 1}) (const_int 1))))\n" for n in range(1, count + 1))}


def held(rest):
    """A loop of one instruction whose turns take a unit for 400 turns, for 400 more and for `rest` and one: then nothing is reserved."""
    text = ('(define_attr "type" "x,y" (const_string "x"))\n(define_cpu_unit "u,m,n,b,c")\n(presence_set "b" "m")\n(presence_set "c" "n")\n'
            '(define_insn_reservation "x" 1 (eq_attr "type" "x")\n'
            f'  "((b+u),u*399,n) | ((c+u),u*{rest}) | (u*400,m) | nothing")\n'
            '(define_insn_reservation "y" 1 (eq_attr "type" "y") "u")\n')
    return {"d": text, "b": insns(1)}


def kernels():
    """Stages of kernels, and turns after which states are the same."""
    what = "greatest stage of a kernel, and how many turns later its edges are the same"
    kernel = "".join(f"0 {number - 1} {number} x\n" for number in range(33, 0, -1))
    # with one instruction more, two cycles are one stage
    longer = "".join(f"{cycle % 2} {cycle // 2} {cycle + 1} x\n" for rest in (0, 1) for cycle in range(32 + rest, -1, -2))
    yield End(what, "32", Run("modulo d b", chained(33), 0, f"interval 1\nstages 33\n{kernel}edge 32 equals edge 33\nlist 32 cycles\n"),
              Run("modulo d b", chained(34), 0, f"interval 2\nstages 17\n{longer}edge 16 equals edge 17\nlist 33 cycles\n"))
    issue = "stages 1\n0 0 1 x\n"
    yield End(what, "1,024", Run("modulo d b", held(223), 0, f"interval 1\n{issue}edge 0 equals edge 1024\nlist 0 cycles\n"),
              Run("modulo d b", held(224), 0, f"interval 2\n{issue}edge 0 equals edge 513\nlist 0 cycles\n"))


def query_units(count):
    """So many query units, and a class that takes the first 256 of them."""
    taken = "+".join(f"u{number}" for number in range(256))
    return "".join(f'(define_query_cpu_unit "u{number}")\n' for number in range(count)) + class_of("x", taken) + "\n"


def asking(count):
    """The tables of these: a class that takes all of so many query units."""
    return ("hazard-tables 2\ntreatment first\nclasses 1\nclass x\nautomata 1\nautomaton - 1 2\nmap 0\n"
            f"asks{''.join(f' u{number}' for number in range(count))}\nrow 1{' -' * count} 0\nrow -{' 1' * count} 0\nend\n")


def items():
    """Counts of a description's items."""
    automata = '(define_automaton "a{}")\n'.format
    yield End("automata", "16", described(lines(16, automata)), refused(lines(17, automata), "Automata", "a17"))
    asked = "issue x\nask u0\nask u255\nadvance 1\nask u255\n"
    reported = "ask line 2 u0 reserved\nask line 3 u255 reserved\nask line 5 u255 free\naccepted 1 issues 1 cycles\n"
    what = "units of one automaton"
    yield End(what, "256", Run(*replayed(query_units(256), asked), 0, reported), refused(query_units(257), "Units", "u256", 257))
    yield End(what, "256", Run("compile d", {"d": query_units(256)}, 0, asking(256)),
              Run("compile d", {"d": query_units(257)}, 3, "limit d line 257 Units u256\n"))
    yield End(what, "256", Run("walk k t", {"k": asking(256), "t": asked}, 0, reported), wrong(("walk k t", {"k": asking(257), "t": ""}), "k", 8, "OutOfRange"))
    classes = '(define_insn_reservation "x{}" 1 (const_int 1) "nothing")\n'.format
    yield End("classes", "1,024", described(lines(1024, classes)), refused(lines(1025, classes), "Classes", "x1025"))


def latencies():
    """Latencies, and numbers of bypasses."""
    what = "latency, and the number of a bypass"
    for text in ('(define_insn_reservation "x" {} (const_int 1) "nothing")\n', IDLE + '(define_bypass {} "x" "x")\n'):
        for end, past in (("0", -1), ("1,000", 1001)):
            yield End(what, end, described(text.format(end.replace(",", ""))),
                      wrong(replayed(text.format(past)), "d", text.count("\n"), "LatencyLimit"))


def reserved(expression, word="define_reservation", more=""):
    """Two units, and a reservation or a class of this expression."""
    return f'(define_cpu_unit "u,v")\n({word} "x" {more}"{expression}")\n'


def reservations():
    """What reservations and classes have."""
    for given in ((), ("define_insn_reservation", "1 (const_int 1) ")):
        yield End("alternatives of a class or of a reservation", "4,096", described(reserved("(u|u)*12", *given)),
                  refused(reserved("(u|u)*12|u", *given), "Alternatives", "x"))
        yield End("cycles of an alternative", "512", described(reserved("u*512", *given)), refused(reserved("u*512,nothing", *given), "Cycles", "x"))
    # 4,096 alternatives of 256 cycles with 256 pairs each; past the limit the last has one pair more
    large = "|".join([f"((u|v)*{number},u*{256 - number})" for number in range(11, 0, -1)] + ["u*256"])
    yield End("sizes of all alternatives together", "2,097,152", described(reserved(large + "|u*256")),
              refused(reserved(large + "|(u*255,u+v)"), "Size", "x"))
    what, fault = "number after `*`", "BadExpression"
    yield End(what, "1", described(reserved("u*1")), wrong(replayed(reserved("u*0")), "d", 2, f"{fault} RepeatZero 2"))
    yield End(what, "65,535", refused(reserved("u*65535"), "Cycles", "x"), wrong(replayed(reserved("u*65536")), "d", 2, f"{fault} NumberTooLarge 2"))
    yield End("brackets open in a text", "64", wrong(replayed("(" * 64 + ")" * 64), "d", 1, "UnknownForm"),
              wrong(replayed("(" * 65 + ")" * 65), "d", 1, "TooDeep"))
    yield End("parentheses open in an expression", "64", described(reserved("(" * 64 + "u" + ")" * 64)),
              wrong(replayed(reserved("(" * 65 + "u" + ")" * 65)), "d", 2, f"{fault} TooDeep 64"))


def drilled(number, turns):
    """A drill of a class that always fits."""
    return Run(f"drill d {number} {turns}", {"d": IDLE}, 0, f"drill {int(turns)} turns\naccepted {int(turns)} issues 0 cycles\nstates 0\n")


def no_words(words):
    """Words that are no command."""
    return Run(words, {"d": IDLE}, 4, USAGE)


def traces():
    """Advances of a trace, and the numbers of a drill."""
    yield End("sum of the advances of a trace", "16,777,216",
              Run(*replayed(IDLE, "advance 16777215\nadvance 1\n"), 0, "accepted 0 issues 16777216 cycles\n"),
              wrong(replayed(IDLE, "advance 16777215\nadvance 2\n"), "t", 2, "AdvanceLimit"))
    what = "number and turns of a drill"
    yield End(what, "0", drilled(0, 1), no_words("drill d -1 1"))
    yield End(what, "0", drilled(1, 0), no_words("drill d 1 -1"))
    yield End(what, "2,147,483,647", drilled(2_147_483_647, 1), no_words("drill d 2147483648 1"))
    yield End(what, "1,000,000", drilled(1, 1_000_000), no_words("drill d 1 1000001"))
    yield End("digits of each", "10", drilled("0000000001", "0000000002"), no_words("drill d 00000000001 2"))
    yield End("digits of each", "10", drilled("0000000001", "0000000002"), no_words("drill d 1 00000000002"))


def counted(what, end, at, past):
    """Counts of what is reached in an automaton."""
    return End(what, end, described(at.text()), described(past.text(), "limit d automaton -\n", 3))


def reached():
    """Counts of what is reached."""
    yield counted("grids that are reached in one automaton", "65,536", grids(65_536), grids(65_537))
    few = "ndfa", ((12, 12), (12, 11))
    yield counted("states of one automaton", "65,536", states(65_536, *few), states(65_537, *few))
    many = "ndfa", ((13, 11), (12, 10), (10, 10), (9, 9))
    yield counted("grids of all states of one automaton together", "1,048,576", members(1_048_576, *many), members(1_048_577, *many))
    # 4,194,305 is 10,565 times 397
    yield counted("entries of one table, those of query units and of the advance among them", "4,194,304", entries(65_536, 64), entries(10_565, 397))
    what, shown = "the same with both `v` and `no-minimization`", "v,no-minimization"
    yield counted(what, "4,096", grids(4_096, shown), grids(4_097, shown))
    few = "ndfa," + shown, ((8, 8), (8, 7))
    yield counted(what, "4,096", states(4_096, *few), states(4_097, *few))
    many = "ndfa," + shown, ((11, 8), (9, 8))
    yield counted(what, "65,536", members(65_536, *many), members(65_537, *many))


def ends():
    """The whole list."""
    for subject in (texts, blocks, numbers, kernels, items, latencies, reservations, traces, reached):
        yield from subject()
