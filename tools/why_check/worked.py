"""Worked texts of hz_why: descriptions, traces, and what is answered."""

SUPERSCALAR = """\
(define_cpu_unit "i0_pipeline, i1_pipeline, f_pipeline")
(define_cpu_unit "port0, port1")
(define_cpu_unit "div")
(define_insn_reservation "simple" 2 (const_int 1) "(i0_pipeline | i1_pipeline), (port0 | port1)")
(define_insn_reservation "mult" 4 (const_int 1) "i1_pipeline, nothing*2, (port0 | port1)")
(define_insn_reservation "div" 9 (const_int 1) "i1_pipeline, div*7, div + (port0 | port1)")
(define_insn_reservation "float" 3 (const_int 1) "f_pipeline, nothing, (port0 | port1)")
"""


def described(units, *classes):
    """A description of units and of classes, pairs of a name and an expression."""
    forms = [f'(define_insn_reservation "{name}" 1 (const_int 1) "{text}")' for name, text in classes]
    return "\n".join([f'(define_cpu_unit "{units}")', *forms, ""])


def slots(statement, *classes):
    """A description with the statement on line 9."""
    head, tail = described("slot0,slot1,slot2,b0,d,e,f1,f2", *classes).split("\n", 1)
    return head + "\n" * 8 + statement + "\n" + tail


CHOICE = '(automata_option "ndfa")\n' + described("a,b", ("x", "a|b"), ("y", "a"))
EITHER = '(automata_option "ndfa")\n(presence_set "c" "a")\n' + described("a,b,c", ("x", "nothing,(b|a)"), ("y", "c"))
MANY = described("p,q,r", ("a", "nothing,p"), ("b", "nothing,q"), ("many", "(" + "|".join(["r"] * 22) + "),(p|q|q)"))
FAR = described("u", ("far", "nothing*80,u"))

# names of 40, 76 and 79 bytes
FORTY, OTHER, LONG = "f" * 40, "o" * 40, "l" * 76
HELD, MISSED, WANTED = "h" * 79, "m" * 79, "w" * 79
CUT = f'(exclusion_set "{FORTY}" "{OTHER}")\n' + described(f"{FORTY},{OTHER}", ("x", FORTY), (LONG, OTHER))
CUT_ALL = f'(presence_set "{MISSED}" "{WANTED}, s")\n(absence_set "s" "{HELD}")\n' \
    + described(f"{MISSED},{HELD},{WANTED},s", ("x", f"s|{MISSED}"), ("y", HELD))

# a description, a trace and what is answered. The texts of the first seven are those that the prover computes in
# crates/hz_why_model/src/examples.rt
WORKED = (
    (SUPERSCALAR, "\nissue simple\n\n\nissue simple\nissue simple\n", """\
refused line 6 simple
fits 1 cycle later
alternatives 1-2: i0_pipeline in cycle 0 is held from line 2, simple
alternatives 3-4: i1_pipeline in cycle 0 is held from line 5, simple
alternative 1 takes i0_pipeline 0, port0 1
alternative 2 takes i0_pipeline 0, port1 1
alternative 3 takes i1_pipeline 0, port0 1
alternative 4 takes i1_pipeline 0, port1 1
line 2 simple in cycle 0 took alternative 1
line 5 simple in cycle 0 took alternative 4
cycle         0 1
i0_pipeline   2 .
i1_pipeline   5 .
port0         . 2
port1         . 5
"""),
    (SUPERSCALAR, "\n\n\nissue div\nadvance 1\n", """\
accepted 1 issues 1 cycles
line 4 div in cycle -1 took alternative 1
cycle   0 1 2 3 4 5 6 7
port0   . . . . . . . 4
div     4 4 4 4 4 4 4 4
"""),
    (slots('(absence_set "slot0" "slot1, slot2")', ("p0", "slot0"), ("p1", "slot1")), "issue p1\nissue p0\n", """\
refused line 2 p0
fits 1 cycle later
alternative 1: absence_set line 9, slot0 in cycle 0 with slot1
  slot0 is asked for; slot1 is held from line 1, p1
alternative 1 takes slot0 0
line 1 p1 in cycle 0 took alternative 1
cycle   0
slot0   .
slot1   1
"""),
    (slots('(presence_set "slot1" "slot0")', ("x", "slot0 + slot1")), "issue x\n", """\
refused line 1 x
fits in no later cycle
alternative 1: presence_set line 9, slot1 in cycle 0 without a pattern
  wants slot0
alternative 1 takes slot0 0, slot1 0
cycle   0
slot0   .
slot1   .
"""),
    (slots('(exclusion_set "f1" "f2")', ("m", "d, f1"), ("n", "e, f2")), "\n\nissue m\nissue n\n", """\
refused line 4 n
fits 1 cycle later
alternative 1: exclusion_set line 9, f1 in cycle 1 with f2
  f1 is planned by line 3, m; f2 is asked for
alternative 1 takes e 0, f2 1
line 3 m in cycle 0 took alternative 1
cycle   0 1
d       3 .
e       . .
f1      . 3
f2      . .
"""),
    (CHOICE, "issue x\nissue x\nissue y\n", """\
refused line 3 y
by one of the choices
fits 1 cycle later
alternative 1: a in cycle 0 is held from line 1, x
alternative 1 takes a 0
line 1 x in cycle 0 took alternative 1
line 2 x in cycle 0 took alternative 2
cycle   0
a       1
b       2
"""),
    # the first of the choices takes b; by the other y fits a cycle later, and by the first in no cycle
    (EITHER, "issue x\nissue y\n", """\
refused line 2 y
by one of the choices
fits 1 cycle later
alternative 1: presence_set line 2, c in cycle 0 without a pattern
  wants a
alternative 1 takes c 0
line 1 x in cycle 0 took alternative 1
cycle   0 1
b       . 1
c       . .
"""),
    # a pattern of two units, one held and one asked for
    (slots('(final_absence_set "slot0" "slot1 slot2, b0")', ("w", "slot1"), ("x", "slot0 + slot2")), "issue w\nissue x\n", """\
refused line 2 x
fits 1 cycle later
alternative 1: final_absence_set line 9, slot0 in cycle 0 with slot1 slot2
  slot0 is asked for; slot1 is held from line 1, w; slot2 is asked for
alternative 1 takes slot0 0, slot2 0
line 1 w in cycle 0 took alternative 1
cycle   0
slot0   .
slot1   1
slot2   .
"""),
    # several patterns that are missed, one reason in two places, and a unit that is taken again after a break; what line 1 held is past
    (slots('(final_presence_set "e" "slot0 slot1, b0, f1 f2 slot2")',
           ("x", "(d*3, nothing, d+e) | slot0 | (d+slot1, d*2, nothing, d+e)"), ("y", "slot0")), "issue x\nadvance 1\nissue y\nissue x\n", """\
refused line 4 x
fits 1 cycle later
alternatives 1, 3: final_presence_set line 9, e in cycle 4 without a pattern
  wants slot0 slot1; b0; f1 f2 slot2
alternative 2: slot0 in cycle 0 is held from line 3, y
alternative 1 takes d 0-2, d 4, e 4
alternative 2 takes slot0 0
alternative 3 takes slot1 0, d 0-2, d 4, e 4
line 3 y in cycle 0 took alternative 1
cycle   0 1 2 3 4
slot0   3 . . . .
slot1   . . . . .
d       . . . . .
e       . . . . .
"""),
    # more than 64 alternatives, of which many take the same, and more numbers than there is room for
    (MANY, "issue a\nissue b\nissue many\n", """\
refused line 3 many
fits 1 cycle later
alternatives 1, 4, 7, 10, 13, 16, 19 ..: p in cycle 1 is planned by line 1, a
alternatives 2-3, 5-6, 8-9, 11-12 ..: q in cycle 1 is planned by line 2, b
alternatives 1, 4, 7, 10, 13, 16, 19 .. take r 0, p 1
alternatives 2-3, 5-6, 8-9, 11-12 .. take r 0, q 1
more alternatives: 2
line 1 a in cycle 0 took alternative 1
line 2 b in cycle 0 took alternative 1
cycle   0 1
p       . 1
q       . 2
r       . .
"""),
    # more than 64 issues that still hold something
    (FAR, "issue far\nadvance 1\n" * 66,
     "accepted 66 issues 66 cycles\nmore issues before: 2\n"
     + "".join(f"line {2 * place + 1} far in cycle {place - 66} took alternative 1\n" for place in range(2, 66))
     + "cycle  " + "".join(f" {cycle % 10}" for cycle in range(36))
     + "\nu      " + " ." * 14 + "".join(f" {(2 * place + 1) % 10}" for place in range(22)) + "\ncut after cycle 35\n"),
    # lines that are cut: the reason and the issue at their ends, and in the line below the reason its second part
    (CUT, f"issue {LONG}\nissue x\n", f"""\
refused line 2 x
fits 1 cycle later
alternative 1: exclusion_set line 1, {FORTY} ..
  {FORTY} is asked for ..
alternative 1 takes {FORTY} 0
line 1 {LONG[:71]}..
cycle{' ' * 27}   0
{FORTY[:32]}   .
{OTHER[:32]}   1
"""),
    # items of which not even the first has room
    (CUT_ALL, "issue y\nissue x\n", f"""\
refused line 2 x
fits 1 cycle later
alternative 1: absence_set line 2, s in cycle 0 with {HELD[:25]}..
  s is asked for ..
alternative 2: presence_set line 1, {MISSED[:42]}..
  wants ..
alternative 1 takes s 0
alternative 2 takes ..
line 1 y in cycle 0 took alternative 1
cycle{' ' * 27}   0
{MISSED[:32]}   .
{HELD[:32]}   1
s{' ' * 31}   .
"""),
)
