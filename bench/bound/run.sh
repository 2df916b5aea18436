#!/bin/sh
# Times `hz bound`, by processor time, the least of five runs each. First beside `hz schedule` on instructions that depend on all before
# them: 4,096 of them have 8 million edges. Then a class of 255 alternatives, each of two units of 256 for so many cycles of which one is
# in all of them, so that the pairs are few beside the units and cycles; and many instructions of that class beside one. Given a second
# program, as one of before, it is timed beside the first on the same.
hz=$1
other=${2:-}
. "$(dirname "$0")/../instructions.sh"
make_machine u u

# wide CYCLES: a class of 255 alternatives
wide() {
    awk -v cycles="$1" 'BEGIN {
        print "(define_automaton \"m\")"
        printf "(define_cpu_unit \"a"
        for (u = 1; u < 256; u++) printf ",u%d", u
        print "\" \"m\")"
        printf "(define_insn_reservation \"one\" 1 (const_int 1) \""
        for (u = 1; u < 256; u++) printf "%s(a+u%d)*%d", (u > 1 ? "|" : ""), u, cycles
        print "\")"
    }'
}

echo "instructions schedule_ms bound_ms times"
for count in 1024 2048 4096; do
    block all "$count" > "$data/block_all"
    made=$(used "$hz" schedule "$machine" "$data/block_all")
    bound=$(used "$hz" bound "$machine" "$data/block_all")
    echo "$count $(ms "$made") $(ms "$bound") $(doubling "$bound" "$made")"
done

echo "cycles instructions schedule_ms bound_ms times other_ms times"
for cycles in 128 256 500; do
    wide "$cycles" > "$data/wide.md"
    for count in 1 4096; do
        if [ "$count" != 1 ] && [ "$cycles" != 128 ]; then continue; fi
        block none "$count" > "$data/block_alone"
        made=$(used "$hz" schedule "$data/wide.md" "$data/block_alone")
        bound=$(used "$hz" bound "$data/wide.md" "$data/block_alone")
        before=-
        times=-
        if [ -n "$other" ]; then
            before=$(used "$other" bound "$data/wide.md" "$data/block_alone")
            times=$(doubling "$before" "$bound")
            before=$(ms "$before")
        fi
        echo "$cycles $count $(ms "$made") $(ms "$bound") $(doubling "$bound" "$made") $before $times"
    done
done
