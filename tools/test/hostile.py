"""Inputs that ask too much of extract.py, or hold what hz can't read: what it answers, and that nothing is left where it can't read them.

`python3 hostile.py EXTRACT HZ`, in a folder that may be written. An answer is one line, of a fault or of changes, and comes within
thirty seconds of a processor. Of what is written hz reads all forms.
"""
import os
import resource
import subprocess
import sys

EXTRACT, HZ = sys.argv[1:3]
DIGITS = "7" * 5000
MANY = 1000
CLASS = '(define_insn_reservation "{}" 1 (const_int 1) "{}")\n'
UNIT = '(define_cpu_unit "u")\n'
TYPE = '(define_attr "type" "a,b" (const_string "a"))\n'
TESTED = '(define_insn_reservation "x" 1 {} "u")\n'
CHAIN = UNIT + "".join(f'(define_reservation "r{at}" "{f"r{at - 1}" if at else "u"}")\n' for at in range(500))
DOUBLED = UNIT + "".join(f'(define_reservation "r{at}" "{f"r{at - 1}, r{at - 1}" if at else "u"}")\n' for at in range(60))
CLASSES = "".join(CLASS.format(f"class{at}", "u") for at in range(1000))
WILD = UNIT + CLASSES + "".join(f'(define_bypass {at % 7} "class{at % 1000}*" "*{at % 10}")\n' for at in range(200000))
MISSES = UNIT + CLASSES + "".join(f'(define_bypass 1 "*{at}x*y" "class1")\n' for at in range(30000))

PAIRS = " + ".join(f"(a{at}|b{at})" for at in range(12))
UNITS = '(define_automaton "m")\n(define_cpu_unit "{}" "m")\n'
TWELVE = UNITS.format(",".join([f"a{at},b{at}" for at in range(12)] + [f"u{at}" for at in range(200)])) + CLASS.format("x", f"({PAIRS}), nothing*480")
STRANGE = UNITS.format("a,b,c") + '(presence_set "a" "b v")\n(exclusion_set "v" "a")\n' + CLASS.format("x", "a*2") + CLASS.format("y", "(b|c), b")

# Of each input: its name, its text, the options, and the last line of the answer; a fault has a line, and changes have none.
TRIED = [
    ("tab", UNIT + CLASS.format("x\t", "u"), [], "1 classes, 1 changes: 1 space"),
    ("names", '(define_automaton "a")\n(define_cpu_unit "u" " a")\n(define_reservation "r " "u")\n' + CLASS.format(" x ", "r"), [],
     "1 classes, 3 changes: 3 space"),
    ("attribute", UNIT + TYPE + TESTED.format('(eq_attr " type" "a")'), [], "1 classes, 1 changes: 1 space"),
    ("default", UNIT + '(define_attr " type" "a,b," (const_string " a"))\n' + TESTED.format('(eq_attr "type" "! a ,,")'), [],
     "1 classes, 3 changes: 1 comma, 2 space"),
    ("commas", '(define_cpu_unit "u,v,")\n' + CLASS.format("x", "u") + '(define_bypass 2 "x," "x,")\n(exclusion_set "u," "v,")\n', [],
     "1 classes, 5 changes: 5 comma"),
    ("comma", '(define_cpu_unit "u,,v")\n' + CLASS.format("x", "u"), [], 1),
    ("comma-front", '(define_cpu_unit ",u")\n' + CLASS.format("x", "u"), [], 1),
    ("no-name", '(define_automaton "")\n', [], 1),
    ("quote", UNIT + '(define_reservation "r\\"" "u")\n', [], 2),
    ("blank", UNIT + CLASS.format("two words", "u"), [], 2),
    ("odd-byte", UNIT + CLASS.format("\xe9", "u"), [], 2),
    ("zero-byte", UNIT + CLASS.format("x\0", "u"), [], 2),
    ("no-value", UNIT + TYPE + TESTED.format('(eq_attr "type" (a))'), [], "1 classes, 1 changes: 1 condition"),
    ("odd-value", UNIT + TYPE + TESTED.format('(eq_attr "type" "a b")'), [], "1 classes, 1 changes: 1 condition"),
    ("empty-test", UNIT + TESTED.format('(and "" (const_int 1))'), [], "1 classes, 1 changes: 1 condition"),
    ("large-test", UNIT + TESTED.format(f"(const_int {DIGITS})"), [], "1 classes, 1 changes: 1 condition"),
    ("vector-test", UNIT + TESTED.format("[const_int 1]"), [], "1 classes, 1 changes: 1 condition"),
    ("deep-test", UNIT + TESTED.format("(not " * 63 + "(const_int 1)" + ")" * 63), [], "1 classes, 1 changes: 1 condition"),
    ("repeats", UNIT + CLASS.format("x", "u*2*3"), [], "1 classes, 1 changes: 1 repeat"),
    ("latency", UNIT + f'(define_insn_reservation "x" {DIGITS} (const_int 1) "u")\n', [], 2),
    ("late", UNIT + '(define_insn_reservation "x" 1001 (const_int 1) "u")\n', [], 2),
    ("bypass", UNIT + CLASS.format("x", "u") + f'(define_bypass {DIGITS} "x" "x")\n', [], 3),
    ("repeat", UNIT + CLASS.format("x", f"u*{DIGITS}"), [], 2),
    ("repeat-large", UNIT + CLASS.format("x", "u*1000000000"), ["--align"], 2),
    ("repeat-zero", UNIT + CLASS.format("x", "u*0"), [], 2),
    ("expression", UNIT + "\n" + CLASS.format("x", "u,,u"), [], 3),
    ("parentheses", UNIT + CLASS.format("x", "(" * 65 + "u" + ")" * 65), [], 2),
    ("operands", UNIT + CLASS.format("x", "u") + '(define_bypass 2 "x" "x" "store_data_bypass_p" "x")\n', [], 3),
    ("operand", UNIT + '(define_insn_reservation "x" 1 (const_int 1) "u" "u")\n', [], 2),
    ("option", UNIT + '(automata_option "fast")\n', [], 2),
    ("zero-include", '\n(include "b\0.md")\n', ["--target"], 2),
    ("device", '\n(include "/dev/zero")\n', ["--target"], 2),
    ("vector", '\n[define_cpu_unit "u"]\n', [], 2),
    ("chain", CHAIN + CLASS.format("x", "r499"), ["--align"], "1 classes, 0 changes"),
    ("doubled", DOUBLED + CLASS.format("x", "r59"), ["--align"], "1 classes, 1 changes: 1 unaligned"),
    ("cycles", UNIT + CLASS.format("x", "u*60000"), ["--align"], "1 classes, 1 changes: 1 unaligned"),
    ("nested", UNIT + CLASS.format("x", "(((u*60)*60)*60)*60"), ["--align"], "1 classes, 1 changes: 1 unaligned"),
    ("sizes", UNIT + "".join(CLASS.format(f"x{at}", "(u|nothing)*12,nothing*400") for at in range(9)), ["--align"],
     "9 classes, 8 changes: 8 unaligned"),
    ("twelve", TWELVE, ["--align", "--split=all"], "1 classes, 1 changes: 1 split"),
    ("strange", STRANGE, ["--split"], "2 classes, 1 changes: 1 unsplit"),
    ("wild", WILD, ["--align"], MANY),
    ("misses", MISSES, [], MANY),
    ("set", UNIT + CLASS.format("x", "u") + CLASS.format("y", "u") + '(define_bypass 2 "[^y]" "[!x]")\n', [],
     "2 classes, 2 changes: 2 wildcard"),
    ("odd-set", UNIT + CLASS.format("x", "u") + '(define_bypass 2 "[[:odd:]]" "x")\n', [], 3),
    ("enums", UNIT + '(define_enum "e" [a b])\n(define_c_enum "f" [c])\n(define_enum "e" [(d 7)])\n'
     '(define_enum_attr "s" "e" (const_string "a"))\n(define_enum_attr "t" "f" (const_string "c"))\n' +
     TESTED.format('(and (eq_attr "s" "b,d") (eq_attr "t" "c"))'), [], "1 classes, 0 changes"),
]


def limit():
    resource.setrlimit(resource.RLIMIT_AS, (2 << 30, 2 << 30))
    resource.setrlimit(resource.RLIMIT_CPU, (30, 31))


def answer(words):
    """The status of extract.py, and the lines that it writes."""
    ran = subprocess.run([sys.executable, EXTRACT, *words], capture_output=True, preexec_fn=limit)
    return ran.returncode, os.fsdecode(ran.stderr).split("\n")[:-1]


def is_read(path):
    """Whether hz reads each form of a description: a form after all others, which is none, is the first that is wrong."""
    with open(path, encoding="ascii") as file:
        text = file.read()
    with open("read.md", "w", encoding="ascii") as file:
        file.write(text + "\n(end)\n")
    reported = subprocess.run([HZ, "compile", "read.md"], capture_output=True).stdout.decode()
    return reported.startswith("fault read.md line") and reported.endswith("UnknownForm\n") and f"line {text.count(chr(10)) + 2} " in reported


def wrong_answer(name, options, want):
    """What is wrong with an answer, or None. A number is the line of a fault."""
    file, out = f"{name}.md", f"{name}.out"
    status, lines = answer(["-o", out, *options, file])
    if isinstance(want, int):
        is_fault = status == 2 and len(lines) == 1 and lines[0].startswith(f"{file}:") and not os.path.exists(out)
        line = lines[0].split(":")[1] if is_fault else ""
        return None if is_fault and (line == str(want) or want == MANY and int(line) > 1000) else (status, lines[:2])
    if status != 0 or lines[-1] != f"{out}: {want}":
        return status, lines[-1:]
    return None if is_read(out) else "hz can't read it"


def chain_of_includes():
    """A chain of 1,200 includes, whose last file has a unit."""
    for at in range(1200):
        with open(f"link{at}.md", "w", encoding="ascii") as file:
            file.write(f'(include "link{at + 1}.md")\n' if at < 1199 else UNIT)
    return answer(["-o", "links.out", "--target", "link0.md"])


def odd_name():
    """A file whose name is not Latin-1, and one whose name is no text at all."""
    names = ["\u0142\u20ac.md", os.fsdecode(b"\xff\xfe.md")]
    for name in names:
        with open(name, "w", encoding="ascii") as file:
            file.write(UNIT + CLASS.format("x", "u"))
    return [answer(["-o", f"odd{at}.out", name]) for at, name in enumerate(names)]


def main():
    bad = []
    for name, text, options, want in TRIED:
        with open(f"{name}.md", "w", encoding="latin-1") as file:
            file.write(text)
        wrong = wrong_answer(name, options, want)
        print(f"extract.py on {name}: {want if wrong is None else wrong}")
        bad += [name] if wrong is not None else []
    for at, (status, lines) in enumerate([chain_of_includes(), *odd_name()]):
        file = ["links.out", "odd0.out", "odd1.out"][at]
        if status != 0 or not lines[-1].endswith(" classes, 0 changes") or not is_read(file):
            bad.append(f"{file}: {status}, {lines}")
    if "bypass 2 \"x\"" not in open("set.out", encoding="ascii").read().replace("\n", " "):
        bad.append("set: another class")
    print(f"hostile inputs: {len(TRIED) + 3}, {len(bad)} answered otherwise" + "".join(f"\n  {one}" for one in bad))
    return 1 if bad else 0


if __name__ == "__main__":
    sys.exit(main())
