#!/bin/sh
# Times `hz compile` on the descriptions that pipelines.py makes: seconds, peak memory, the shares of the parts, and microseconds
# for each transition that is tried: a column or the advance, at each grid, and under `ndfa` at each state too. The least of five
# runs each. What a part takes is the difference of two commands: reading ends at an unknown form after all others, checking at a
# bypass that is given twice; `replay` of an empty trace writes nothing, and under `no-minimization` minimises nothing either.
hz=$1
. "$(dirname "$0")/../common.sh"
command -v python3 > /dev/null || { echo "no python3: bench/compile/pipelines.py is not run"; exit 0; }

# counts DESCRIPTION: automata, classes, grids, states, rows of the tables, and transitions that are tried
counts() {
    { cat "$1"; echo '(automata_option "stats")'; } > "$data/counted"
    "$hz" compile "$data/counted" | awk '
        /^treatment/ { ndfa = $2 == "ndfa" }
        /^classes/ { classes = $2 }
        /^automaton / { automata++; columns = $3; rows += $4 }
        /^stats/ { grids += $2; states += $3; tried += ($2 + ndfa * $3) * (columns + 1) }
        END { print automata, classes, grids, states, rows, tried }'
}

echo "pipeline automata classes grids states rows tried seconds read check explore minimise write us_a_transition peak_kB"
for name in $(python3 bench/compile/pipelines.py "$data"); do
    text=$data/pipeline_$name
    { cat "$text"; echo '(what)'; } > "$data/read"
    { cat "$text"; echo '(define_bypass 1 "c0" "c0") (define_bypass 2 "c0" "c0")'; } > "$data/checked"
    { cat "$text"; echo '(automata_option "no-minimization")'; } > "$data/explored"
    found=$(counts "$text")
    read=$(least "$hz" compile "$data/read")
    check=$(least "$hz" compile "$data/checked")
    explore=$(least "$hz" replay "$data/explored" "$data/empty")
    minimise=$(least "$hz" replay "$text" "$data/empty")
    whole=$(least "$hz" compile "$text")
    peak=$(/usr/bin/time -f %M "$hz" compile "$text" 2>&1 > /dev/null | tail -n 1)
    echo "$name $found $whole $read $check $explore $minimise $peak" | awk '
        function share(part) { return sprintf("%.0f%%", 100 * (part > 0 ? part : 0) / $8) }
        { print $1, $2, $3, $4, $5, $6, $7, sprintf("%.3f", $8 / 1e9), share($9), share($10 - $9), share($11 - $10), share($12 - $11),
                share($8 - $12), sprintf("%.2f", $8 / 1000 / $7), $13 }'
done
