# What measurements on blocks of many instructions share: common.sh, a machine, and blocks of a kind.
. "$(dirname "$0")/../common.sh"
machine=$data/machine.md

# make_machine UNITS EXPRESSION: the machine has these units, and a class `one` that takes the expression, for all that have no other type
make_machine() {
    {
        echo '(define_attr "type" "one,late,long" (const_string "one"))'
        echo "(define_cpu_unit \"$1\")"
    } > "$machine"
    add_class one 4 "$2"
}

# add_class TYPE LATENCY EXPRESSION: it has a class for this type too
add_class() {
    echo "(define_insn_reservation \"$1\" $2 (eq_attr \"type\" \"$1\") \"$3\")" >> "$machine"
}

# block KIND COUNT TYPE: a block of so many instructions, of this type if one is given. In `none` they depend on none, in `all` each on
# all before it. In `chain` each adds to the register of the one before, in `cells` to its cell. In `turns` they write a register and read
# it in turn. In `stored` they store what they load through another register, in `aliased` each through a register of its own.
block() {
    awk -v kind="$1" -v count="$2" -v type="${3:-}" 'BEGIN {
        attr = type == "" ? "" : " (set_attr \"type\" \"" type "\")"
        ring = count < 256 ? count : 256
        for (i = 0; i < count; i++) {
            if (kind == "none") effect = "(use (const_int 0))"
            else if (kind == "all") effect = "(set (reg 1) (plus (reg 1) (const_int 1)))"
            else if (kind == "chain") effect = sprintf("(set (reg %d) (plus (reg %d) (const_int 1)))", (i + 1) % ring, i % 256)
            else if (kind == "cells") effect = sprintf("(set (mem (const_int %d)) (plus (mem (const_int %d)) (const_int 1)))", (i + 1) * 8, i * 8)
            else if (kind == "turns") effect = i % 2 == 0 ? sprintf("(set (reg 1) (const_int %d))", i) : "(use (reg 1))"
            else if (kind == "stored") effect = "(set (mem (reg 1)) (mem (reg 2)))"
            else effect = sprintf("(set (mem (reg %d)) (plus (mem (reg %d)) (const_int 1)))", i % 256, (i + 1) % 256)
            printf "(insn %d %s%s)\n", i, effect, attr
        }
    }'
}
