#!/bin/sh
# Times `hz duo` on two blocks of half as many instructions each, beside `hz schedule` on one block of all, by processor time, the least
# of five runs each: instructions that depend on none, a chain, and such that depend on all before them.
hz=$1
. "$(dirname "$0")/../instructions.sh"
make_machine u u

echo "kind instructions schedule_ms duo_ms times"
for kind in none chain all; do
    for count in 1024 2048 4096; do
        block "$kind" "$count" > "$data/block_whole"
        block "$kind" "$((count / 2))" > "$data/block_half"
        one=$(used "$hz" schedule "$machine" "$data/block_whole")
        two=$(used "$hz" duo "$machine" "$data/block_half" "$data/block_half")
        echo "$kind $count $(ms "$one") $(ms "$two") $(doubling "$two" "$one")"
    done
done
