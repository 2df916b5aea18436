#!/bin/sh
# Times `hz replay` on traces of 1, 2 and 4 million events beside `wc -w` on the same file: of a machine without
# alternatives, and of the superscalar one. The least of five runs each.
hz=$1
. "$(dirname "$0")/../common.sh"

echo "machine events bytes ns_an_event ratio_to_wc doubling peak_kB"
for kind in memory_pipe superscalar; do
    machine=examples/$kind/machine.md
    before=
    for millions in 1 2 4; do
        events=$((millions * 1000000))
        trace=$data/trace_${kind}_$millions
        [ -f "$trace" ] || make_trace "$kind" "$events" > "$trace"
        "$hz" replay "$machine" "$trace" | grep -q '^accepted' || { echo "$trace is not accepted"; exit 1; }
        bytes=$(wc -c < "$trace")
        time=$(least "$hz" replay "$machine" "$trace")
        words=$(least wc -w "$trace")
        peak=-
        if [ -x /usr/bin/time ]; then
            peak=$( { /usr/bin/time -f %M "$hz" replay "$machine" "$trace" > /dev/null; } 2>&1 | tail -n 1)
        fi
        ratios=$(awk -v e="$events" -v t="$time" -v w="$words" 'BEGIN { printf "%.1f %.2f", t / e, t / w }')
        echo "$kind $events $bytes $ratios $(doubling "$time" "$before") $peak"
        before=$time
    done
done
