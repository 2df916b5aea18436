#!/bin/sh
# Times `hz compile` and `hz replay` on descriptions whose units are query units, beside the same with plain units, by processor time, the
# least of five runs each. Compiled are delays, whose states double with each class; and ports that are taken for two cycles, of which one
# is a query unit, or all. Replayed are traces of 4 million events. Then a quarter of them ask for a unit, beside as many advances by 0 on
# the same description; and a tenth of them, beside the other nine tenths alone.
hz=$1
. "$(dirname "$0")/../common.sh"

# ports COUNT: so many units in a form each, and for each a class that takes it for two cycles
ports() {
    awk -v n="$1" 'BEGIN {
        for (k = 0; k < n; k++) print "(define_cpu_unit \"p" k "\")"
        for (k = 0; k < n; k++) print "(define_insn_reservation \"c" k "\" 1 (const_int 1) \"p" k "*2\")"
    }'
}

# asked FORMS: the first forms of units, so many, are of query units
asked() {
    awk -v most="$1" '/define_cpu_unit/ && done++ < most { sub("define_cpu_unit", "define_query_cpu_unit") } { print }'
}

# states TABLES: the states of all automata
states() {
    awk '/^automaton/ { count += $4 } END { print count }' "$1"
}

echo "kind number query_units plain_states asked_states plain_ms asked_ms times"
for row in 'delays 14 1' 'delays 15 1' 'delays 16 1' 'ports 8 1' 'ports 8 8' 'ports 10 1' 'ports 10 10'; do
    set -- $row
    text=$data/${1}_$2
    "$1" "$2" > "$text"
    asked "$3" < "$text" > "$text.asked"
    "$hz" compile "$text" > "$data/plain_tables" || { echo "$text is not compiled"; exit 1; }
    "$hz" compile "$text.asked" > "$data/asked_tables" || { echo "$text.asked is not compiled"; exit 1; }
    plain=$(used "$hz" compile "$text")
    asked=$(used "$hz" compile "$text.asked")
    echo "$row $(states "$data/plain_tables") $(states "$data/asked_tables") $(ms "$plain") $(ms "$asked") $(doubling "$asked" "$plain")"
done

# see_accepted MACHINE TRACE: the trace is accepted
see_accepted() {
    "$hz" replay "$1" "$2" | tail -n 1 | grep -q '^accepted' || { echo "$2 is not accepted by $1"; exit 1; }
}

# replay_both WHAT MACHINE TRACE MACHINE TRACE: the times of two replays, and how many times as long the second takes
replay_both() {
    see_accepted "$2" "$3"
    see_accepted "$4" "$5"
    first=$(used "$hz" replay "$2" "$3")
    second=$(used "$hz" replay "$4" "$5")
    echo "$1 $(ms "$first") $(ms "$second") $(doubling "$second" "$first")"
}

# fourth LINE: three lines of four as they are, and this one after them
fourth() {
    head -n 3000000 | awk -v line="$1" '{ print } NR % 3 == 0 { print line }'
}

# tenth LINE: nine lines of ten as they are, and this one after them
tenth() {
    head -n 3600000 | awk -v line="$1" '{ print } NR % 9 == 0 { print line }'
}

echo "machine what plain_ms asked_ms times"
for kind in memory_pipe superscalar; do
    trace=$data/trace_${kind}_4
    [ -f "$trace" ] || make_trace "$kind" 4000000 > "$trace"
    asked 4 < "examples/$kind/machine.md" > "$data/asked.md"
    unit=$(sed -n 's/^(define_query_cpu_unit "\([^",]*\).*/\1/p' "$data/asked.md" | tail -n 1)
    fourth 'advance 0' < "$trace" > "$data/trace_idle"
    fourth "ask $unit" < "$trace" > "$data/trace_asked"
    replay_both "$kind query_units" "examples/$kind/machine.md" "$trace" "$data/asked.md" "$trace"
    replay_both "$kind asks" "$data/asked.md" "$data/trace_idle" "$data/asked.md" "$data/trace_asked"
    head -n 3600000 "$trace" > "$data/trace_nine"
    tenth "ask $unit" < "$trace" > "$data/trace_tenth"
    replay_both "$kind tenth" "$data/asked.md" "$data/trace_nine" "$data/asked.md" "$data/trace_tenth"
done
