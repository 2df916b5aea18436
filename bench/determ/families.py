"""Writes a description whose alternatives are many and long: `families.py KIND CYCLES`.

late: 4,030 alternatives that collide in their last cycle alone.
early: the same, which collide in their first cycle.
taken: 4,096 alternatives of two units each, of which all second ones are taken.
absent: 2,048 alternatives that one absence statement of a thousand equal patterns refuses.
apart: the same under a thousand different patterns.
single: the same under a thousand statements of one pattern each.
alternating: the same, where another unit is taken in every other cycle.
drifting: the same, where each cycle takes other units beside `z`.
parted: alternating under 529 statements, the units of whose patterns all stand there, but in different cycles.
present: alternating under a thousand presence statements, whose patterns stand in every cycle.
standing: drifting under a thousand presence statements, whose patterns stand in every cycle.
several: 4,096 alternatives of two units each with no pair in common, under a thousand statements, of which one refuses them.
others: the same, where 64 statements refuse 64 alternatives each.
thousands: single under 30,000 statements.
wanting: present under 30,000 statements.
spread: 36 times 36 alternatives, no two of which have a cycle with the same units, refused in their last cycle.
harmless: spread, where in each cycle other units stand beside, of which no statement speaks.
turns: spread under twelve statements, which refuse neighbours among the alternatives in twelve different cycles.
whirling: turns, where in each cycle other units stand beside as in harmless.
"""
import sys


def names(letter, count):
    return [letter + str(number) for number in range(count)]


def unit(*all_names):
    print('(define_cpu_unit "' + ",".join(all_names) + '")')


def insn(name, text):
    print(f'(define_insn_reservation "{name}" 1 (const_int 1) "{text}")')


def late(cycles):
    first, second = names("a", 62), names("b", 65)
    unit(*first, *second, "z")
    choice = f"({'|'.join(first)}),({'|'.join(second)})"
    insn("x", f"({choice},nothing*{cycles - 3},z)|nothing*{cycles}")
    insn("y", f"nothing*{cycles - 1},z")


def early(cycles):
    first, second = names("a", 62), names("b", 65)
    unit(*first, *second, "y", "z")
    choice = f"({'|'.join(first)}),({'|'.join(second)})"
    insn("x", f"(z,{choice},nothing*{cycles - 3})|nothing*{cycles}")
    insn("w", f"z*{cycles}")
    insn("y", f"nothing*{cycles - 1},y")


def taken(cycles):
    first, second = names("a", 64), names("b", 64)
    unit(*first, *second, "y")
    insn("x", f"({'|'.join(first)}),({'|'.join(second)})")
    insn("w", f"({'+'.join(second)})*{cycles}")
    insn("y", f"nothing*{cycles - 1},y")


def refused(cycles, statements, more=(), held=None, choices=11, kind="absence", patterned=46):
    unit("u", "v", "w", "z", *more, *names("p", patterned))
    for patterns in statements:
        print(f'({kind}_set "z" "{",".join(patterns)}")')
    if kind != "absence":
        print('(absence_set "z" "w")')
    insn("x", f"((u|v)*{choices},{held or f'z*{cycles - choices}'})|nothing*{cycles}")
    insn("y", f"nothing*{cycles - 1},w")


def alternating(cycles, statements, kind="absence"):
    refused(cycles, each_alone(statements), ["t"], f"(z,t)*{(cycles - 11) // 2}", kind=kind)


def drifting(cycles, statements, kind="absence"):
    units = names("t", 8)
    held = [" + ".join(["z"] + [one for place, one in enumerate(units) if cycle >> place & 1]) for cycle in range(cycles - 10)]
    refused(cycles, each_alone(statements), units, ",".join(f"({one})" for one in held), choices=10, kind=kind)


def parted(cycles):
    units = names("p", 46)
    alternating(cycles, [f"{one} {other}" for one in units[::2] for other in units[1::2]] + ["w"])
    insn("a", f"(({'+'.join(units[::2])}),({'+'.join(units[1::2])}))*{cycles // 2}")


def present(cycles):
    alternating(cycles, pairs(), kind="presence")
    hold(cycles, 46)


def standing(cycles):
    drifting(cycles, pairs(), kind="presence")
    hold(cycles, 46)


def hold(cycles, count):
    """A class that takes all units of the patterns in every cycle."""
    insn("a", f"({'+'.join(names('p', count))})*{cycles}")


def several(cycles, refusing):
    first, second = names("a", 64), names("b", 64)
    unit(*first, *second, "w", "y", *names("p", 46))
    for pattern in pairs():
        print(f'(absence_set "{",".join(first)}" "{pattern}")')
    for units in refusing(second):
        print(f'(absence_set "{",".join(units)}" "w")')
    insn("x", f"({'|'.join(first)}),({'|'.join(second)})")
    insn("h", f"w*{cycles}")
    insn("y", f"nothing*{cycles - 1},y")


def thousands(cycles, kind="absence"):
    statements = each_alone(triples(60)[:30000])
    if kind == "absence":
        statements.append(["w"])
    refused(cycles, statements, ["t"], f"(z,t)*{(cycles - 11) // 2}", kind=kind, patterned=60)
    if kind != "absence":
        hold(cycles, 60)


def spread(cycles):
    first, second = names("a", 36), names("b", 36)
    unit(*first, *second, "w", "y")
    print(f'(absence_set "{",".join(first)}" "w")')
    insn("x", f"({'|'.join(f'{one}*{cycles}' for one in first)})+({'|'.join(f'{one}*{cycles}' for one in second)})")
    insn("y", f"nothing*{cycles - 1},w")


def turning(cycles, turns, beside=False):
    first, second = names("a", 36), names("b", 36)
    last, others = names("w", turns), names("t", 8)
    unit(*first, *second, *last, *others)
    for turn, one in enumerate(last):
        print(f'(absence_set "{",".join(second[turn::turns])}" "{one}")')
    insn("x", f"({'|'.join(f'{one}*{cycles}' for one in first)})+({'|'.join(f'{one}*{cycles}' for one in second)})")
    insn("y", f"nothing*{cycles - turns},{','.join(last)}")
    if beside:
        insn("h", ",".join("(" + "+".join(one for place, one in enumerate(others) if (cycle % 255 + 1) >> place & 1) + ")" for cycle in range(cycles)))


def pairs():
    units = names("p", 46)
    return [f"{one} {other}" for place, one in enumerate(units) for other in units[place + 1 :]][:999]


def triples(count):
    units = names("p", count)
    return [f"{one} {other} {last}" for first, one in enumerate(units) for second, other in enumerate(units[first + 1 :], first + 1) for last in units[second + 1 :]]


def each_alone(patterns):
    """Each pattern in a statement of its own."""
    return [[pattern] for pattern in patterns]


KINDS = {
    "late": late,
    "early": early,
    "taken": taken,
    "absent": lambda cycles: refused(cycles, [["u v"] * 999 + ["w"]]),
    "apart": lambda cycles: refused(cycles, [pairs() + ["w"]]),
    "single": lambda cycles: refused(cycles, each_alone(pairs() + ["w"])),
    "alternating": lambda cycles: alternating(cycles, pairs() + ["w"]),
    "drifting": lambda cycles: drifting(cycles, pairs() + ["w"]),
    "parted": parted,
    "present": present,
    "standing": standing,
    "several": lambda cycles: several(cycles, lambda units: [units]),
    "others": lambda cycles: several(cycles, lambda units: [[unit] for unit in units]),
    "thousands": thousands,
    "wanting": lambda cycles: thousands(cycles, "presence"),
    "spread": spread,
    "harmless": lambda cycles: turning(cycles, 1, True),
    "turns": lambda cycles: turning(cycles, 12),
    "whirling": lambda cycles: turning(cycles, 12, True),
}

KINDS[sys.argv[1]](int(sys.argv[2]))
