#!/bin/sh
# Times `hz walk` on kept tables beside `hz replay`, on traces of 4 million events: nanoseconds an event, and the share of reading
# the trace, which is what the same trace takes with a wrong line at its end: nothing of it is walked. The least of five runs each,
# with the greatest memory.
hz=$1
. "$(dirname "$0")/../common.sh"

echo "machine command events ns_an_event reading peak_kB"
for kind in memory_pipe superscalar; do
    machine=examples/$kind/machine.md
    tables=$data/${kind}_tables
    trace=$data/trace_${kind}_4
    events=4000000
    "$hz" compile "$machine" > "$tables"
    [ -f "$trace" ] || make_trace "$kind" "$events" > "$trace"
    { cat "$trace"; echo; echo wrong; } > "$data/wrong_end"
    for command in walk replay; do
        first=$tables
        [ "$command" = walk ] || first=$machine
        "$hz" "$command" "$first" "$trace" | grep -q '^accepted' || { echo "$trace is not accepted"; exit 1; }
        whole=$(least "$hz" "$command" "$first" "$trace")
        read=$(least "$hz" "$command" "$first" "$data/wrong_end")
        peak=$(/usr/bin/time -f %M "$hz" "$command" "$first" "$trace" 2>&1 > /dev/null | tail -n 1)
        echo "$kind $command $events $whole $read $peak" | awk '{ print $1, $2, $3, sprintf("%.1f %.0f%%", $4 / $3, 100 * $5 / $4), $6 }'
    done
done
