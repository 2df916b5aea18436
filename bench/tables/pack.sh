#!/bin/sh
# Times the packing of tables of 65,536 states, without the making of the table: a calendar of a unit, tables with one entry
# in twenty, tables like those of pipelines, and full ones; with the places that they take for each entry. Then the steps
# through tables, packed and as plain rows, that fit the caches and that do not. The least of five runs each.
. "$(dirname "$0")/../common.sh"

# The program has proofs: those of the rows of least tables, and what its counters are.
top=$(pwd)
rt() {
    looking_through packing
    mkdir -p proofs/run
    printf 'use Rattle.packing.proofs.run.Given as goal\n\nabbrev pub ghosts-walk : goal.ghosts-walk\nghosts-walk a = record { name = a.blank.name; parts = a.blank.parts }\n' > proofs/run/Invariants.antt
    command rt "$@"
}

build_program packing bench/tables/packing.rt.in 'hz_pipeline_model hz_tables' 'full 4 1 pack' $(below hz_tables)
packing=$room/crates/packing/out/packing

echo "kind states columns places entries ratio ms peak_kb"
while read -r kind states columns; do
    reported=$("$packing" "$kind" "$states" "$columns" pack)
    made=$(least "$packing" "$kind" "$states" "$columns" table)
    whole=$(least "$packing" "$kind" "$states" "$columns" pack)
    peak=$(/usr/bin/time -f %M "$packing" "$kind" "$states" "$columns" pack 2>&1 > /dev/null)
    echo "$kind $states $columns $reported $(echo "$reported" | awk '{ printf "%.2f", $1 / $2 }') $(awk -v t="$((whole - made))" 'BEGIN { printf "%.0f", t / 1000000 }') $peak"
done <<END
calendar 65536 16
sparse 65536 63
pipeline 65536 16
full 65536 63
END

echo "kind states columns form ns_a_step"
steps=20000000
for shape in "pipeline 200 16" "pipeline 4096 16" "pipeline 65536 16" "sparse 65536 63"; do
    for form in plain packed; do
        made=$(least "$packing" $shape "$form" 0)
        whole=$(least "$packing" $shape "$form" $steps)
        echo "$shape $form $(awk -v t="$((whole - made))" -v n=$steps 'BEGIN { printf "%.2f", t / n }')"
    done
done
