#!/usr/bin/env python3
"""Writes descriptions and traces that ask much of hz_why into a folder: families.py FOLDER. Each is a pair of NAME.md and NAME.trace, whose
last issue is refused."""
import os
import sys


def description(units, sets, classes, options=()):
    """The text of a description of one automaton."""
    forms = [f'(define_cpu_unit "{",".join(units)}")', *(f'(automata_option "{option}")' for option in options), *sets]
    return "\n".join(forms + [f'(define_insn_reservation "{name}" 1 (const_int 1) "{text}")' for name, text in classes]) + "\n"


def alternatives(statements, held):
    """A class of 4,096 alternatives that a unit of all of them refuses, so many exclusions of their units, and a unit that is held so long."""
    units = [f"w{unit}" for unit in range(16)]
    any_one = "(" + "|".join(units) + ")"
    pairs = [(f"w{number % 16}", f"x{number // 16}") for number in range(statements)]
    others = sorted({other for _, other in pairs})
    sets = [f'(exclusion_set "{one}" "{other}")' for one, other in pairs]
    classes = [("any", f"port,{any_one},{any_one},{any_one}"), ("long", f"port,long*{held}")]
    return description([*units, *others, "port", "long"], sets, classes), ["issue long", "issue any"]


def never(statements):
    """The same alternatives, which an exclusion of their own units keeps from every cycle, while a unit is held for 511 cycles."""
    units = [f"w{unit}" for unit in range(16)]
    any_one = "(" + "|".join(units) + ")"
    pairs = [(f"w{number % 16}", f"x{number // 16}") for number in range(statements)]
    others = sorted({other for _, other in pairs})
    sets = [f'(exclusion_set "{one}" "{other}")' for one, other in pairs] + ['(exclusion_set "first" "second")']
    classes = [("any", f"{any_one},{any_one},{any_one},first+second"), ("long", "long*511")]
    return description([*units, *others, "first", "second", "long"], sets, classes), ["issue long", "issue any"]


def choices(issues):
    """Under `ndfa` so many issues that each take one of 16 units for a while, and one that needs a unit that is held."""
    units = [f"w{unit}" for unit in range(16)]
    any_one = "(" + "|".join(f"{unit}*20" for unit in units) + ")"
    return description([*units, "port"], [], [("any", any_one), ("all", "+".join(units))], ["ndfa"]), ["issue any"] * issues + ["issue all"]


def pairs(text, alternatives):
    """So many alternatives of up to 131,072 pairs, all units in 512 cycles or in every second one, of which the last is held."""
    units = [f"u{unit}" for unit in range(256)]
    classes = [("any", "|".join([text] * alternatives)), ("last", "nothing*511,u255")]
    return reserved("all", "+".join(units)) + description(units, [], classes), ["issue last", "issue any"]


def reserved(name, text):
    return f'(define_reservation "{name}" "{text}")\n'


def reasons(statements):
    """4,096 alternatives, each refused for a reason of its own: a unit of its own that is held in a cycle of its own; or, after so many
    statements that are kept, one that a unit of its own breaks there."""
    units = [f"u{unit}" for unit in range(64)]
    others = [f"w{unit}" for unit in range(128)]
    kept = [f'(exclusion_set "{others[number % 64]}" "{others[64 + number // 64]}")' for number in range(statements)]
    last = [f'(absence_set "{",".join(units)}" "x")'] if statements else []
    classes = [("any", "|".join(f"(nothing*{cycle},one)" for cycle in range(1, 65))), ("all", f"nothing,({'x' if statements else '+'.join(units)})*64")]
    return reserved("one", "|".join(units)) + description([*units, *others, "x"], kept + last, classes), ["issue all", "issue any"]


def equal():
    """4,096 alternatives that take the same 255 pairs, of which the last is held."""
    return description(["u"], [], [("any", "(u|u)*12,u*243"), ("last", "nothing*254,u")]), ["issue last", "issue any"]


def statements(count):
    """4,096 alternatives, and so many exclusions of two units each, of which the last alone is broken."""
    units = [f"u{unit}" for unit in range(256)]
    both = [(first, second) for first in range(254) for second in range(first + 1, 254)][:count - 1] + [(254, 255)]
    any_one = "(" + "|".join(units[:16]) + ")"
    classes = [("any", f"{any_one},{any_one},{any_one},u254"), ("last", "nothing*3,u255")]
    return description(units, [f'(exclusion_set "u{first}" "u{second}")' for first, second in both], classes), ["issue last", "issue any"]


def issues():
    """130,816 issues that all hold something, each of a unit 511 cycles after it, and one that is refused."""
    units = [f"u{unit}" for unit in range(256)]
    lines = [line for _ in range(511) for line in [*(f"issue c{unit}" for unit in range(256)), "advance 1"]]
    return description(units, [], [(f"c{unit}", f"nothing*511,u{unit}") for unit in range(256)] + [("all", "+".join(units))]), lines + ["issue all"]


FAMILIES = {
    "alternatives_200": alternatives(200, 1),
    "alternatives_2000": alternatives(2000, 1),
    "alternatives_2000_held": alternatives(2000, 500),
    "never_200": never(200),
    "never_2000": never(2000),
    "choices_6": choices(6),
    "pairs_131072": pairs("all*512", 15),
    "pairs_65536_apart": pairs("(nothing,all)*256", 15),
    "reasons_0": reasons(0),
    "reasons_2000": reasons(2000),
    "equal_4096": equal(),
    "statements_30000": statements(30_000),
    "issues_130816": issues(),
}


def main():
    if len(sys.argv) != 2:
        print(__doc__)
        return 2
    for name, (text, lines) in FAMILIES.items():
        for ending, whole in (("md", text), ("trace", "\n".join(lines) + "\n")):
            with open(os.path.join(sys.argv[1], f"{name}.{ending}"), "w", encoding="ascii") as file:
                file.write(whole)
    print("\n".join(FAMILIES))
    return 0


if __name__ == "__main__":
    sys.exit(main())
