#!/bin/sh
# Times `hz compile` on the same automata where they have 16, 64, 128 and 256 units, by processor time, the least of five runs each. Of
# `delays` the last unit is taken so many cycles after an issue; of `spread` fourteen units at equal distances are taken at once, each by
# a class of its own. Beside them is a class that takes all units. So the states are as many whatever the units.
hz=$1
. "$(dirname "$0")/../common.sh"

# widths KIND UNITS: fourteen delays of the last unit, or one of fourteen for each class, and a class of all
widths() {
    awk -v kind="$1" -v n="$2" 'BEGIN {
        for (k = 0; k < n; k++) { units = units (k ? "," : "") "u" k; all = all (k ? "+" : "") "u" k }
        print "(define_cpu_unit \"" units "\")"
        for (k = 0; k < 14; k++) {
            unit = kind == "delays" ? n - 1 : int(k * (n - 1) / 13)
            delay = kind == "delays" ? k : 0
            print "(define_insn_reservation \"c" k "\" 1 (const_int 1) \"" (delay ? "nothing*" delay ", " : "") "u" unit "\")"
        }
        print "(define_insn_reservation \"all\" 1 (const_int 1) \"" all "\")"
    }'
}

echo "kind units states ms times_128"
for kind in delays spread; do
    widths "$kind" 128 > "$data/widths"
    narrow=$(used "$hz" compile "$data/widths")
    for units in 16 64 128 256; do
        widths "$kind" "$units" > "$data/widths"
        "$hz" compile "$data/widths" > "$data/compiled" || { echo "$kind of $units units is not compiled"; exit 1; }
        time=$(used "$hz" compile "$data/widths")
        echo "$kind $units $(awk '/^automaton/ { print $4 }' "$data/compiled") $(ms "$time") $(doubling "$time" "$narrow")"
    done
done
