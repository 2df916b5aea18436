#!/bin/sh
# Times `hz timed`, by processor time, the least of five runs each, beside `hz schedule` on the same: instructions that each read and
# write one register, with 8 million dependences of 4,096; such that write it and read it in turn; and a chain from cell to
# cell.
hz=$1
. "$(dirname "$0")/../instructions.sh"
make_machine u u
: > "$data/no_state"

echo "kind instructions schedule_ms timed_ms times doubling"
for kind in all turns cells; do
    before=
    for count in 1024 2048 4096; do
        block "$kind" "$count" > "$data/block_timed"
        made=$(used "$hz" schedule "$machine" "$data/block_timed")
        timed=$(used "$hz" timed "$machine" "$data/block_timed" "$data/no_state")
        echo "$kind $count $(ms "$made") $(ms "$timed") $(doubling "$timed" "$made") $(doubling "$timed" "$before")"
        before=$timed
    done
done

# make_bypassed COUNT: a class `one`, 512 others that no instruction has, and so many bypasses between these
make_bypassed() {
    awk -v count="$1" 'BEGIN {
        print "(define_attr \"type\" \"one,other\" (const_string \"one\"))"
        print "(define_cpu_unit \"u\")"
        print "(define_insn_reservation \"one\" 4 (eq_attr \"type\" \"one\") \"u\")"
        for (i = 0; i < 512; i++) printf "(define_insn_reservation \"c%d\" 4 (eq_attr \"type\" \"other\") \"u\")\n", i
        for (i = 0; i < count; i++) printf "(define_bypass 2 \"c%d\" \"c%d\")\n", int(i / 512), i % 512
    }' > "$machine"
}

echo "bypasses instructions schedule_ms timed_ms times"
block all 4096 > "$data/block_timed"
for count in 0 32768 65536 131072; do
    make_bypassed "$count"
    made=$(used "$hz" schedule "$machine" "$data/block_timed")
    timed=$(used "$hz" timed "$machine" "$data/block_timed" "$data/no_state")
    echo "$count 4096 $(ms "$made") $(ms "$timed") $(doubling "$timed" "$made")"
done
