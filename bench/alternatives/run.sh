#!/bin/sh
# Times the expansion of a class of 4,096 alternatives, by the size of the answer: the cycles and pairs of all of them.
# The least of five runs of `hz replay` each.
hz=$1
. "$(dirname "$0")/../common.sh"

echo "cycles size ns_a_unit_of_size doubling"
before=
for cycles in 32 64 128 256; do
    text=$data/alternatives_$cycles
    printf '(define_cpu_unit "u,v")\n(define_insn_reservation "x" 1 (const_int 1) "(u|v)*12, u*%d")\n' $((cycles - 12)) > "$text"
    [ "$("$hz" replay "$text" "$data/empty")" = "accepted 0 issues 0 cycles" ] || { echo "$text is not accepted"; exit 1; }
    time=$(least "$hz" replay "$text" "$data/empty")
    size=$((cycles * 2 * 4096))
    echo "$cycles $size $(awk -v t="$time" -v s="$size" 'BEGIN { printf "%.1f", t / s }') $(doubling "$time" "$before")"
    before=$time
done
