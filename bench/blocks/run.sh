#!/bin/sh
# Times `hz eval` on blocks of 1,024, 2,048 and 4,096 instructions of 11 effects each, 1, 2 and 4 MB, from an empty state, by
# processor time: ten runs at a time, the least of five such.
hz=$1
. "$(dirname "$0")/../common.sh"

# make_block COUNT: so many instructions, whose numbers all have four digits
make_block() {
    awk -v count="$1" 'BEGIN {
        for (i = 0; i < count; i++) {
            print "(insn " 1000 + i " (parallel ["
            for (k = 0; k < 11; k++) print "  (set (mem (plus (reg 1) (const_int 8))) (plus (mult (reg 2) (reg 3)) (mem (reg 4))))"
            print "]) (set_attr \"type\" \"mult\"))"
        }
    }'
}

echo "bytes MB_a_second doubling"
before=
for count in 1024 2048 4096; do
    text=$data/block_$count
    [ -f "$text" ] || make_block "$count" > "$text"
    "$hz" eval "$text" "$data/empty" > /dev/null || { echo "$text is not read"; exit 1; }
    bytes=$(wc -c < "$text")
    time=$(used sh -c 'for i in 1 2 3 4 5 6 7 8 9 10; do "$@"; done' sh "$hz" eval "$text" "$data/empty")
    time=$((time / 10))
    echo "$bytes $(rate "$bytes" "$time") $(doubling "$time" "$before")"
    before=$time
done
