#!/bin/sh
# Times the minimisation of tables of 16,384, 32,768 and 65,536 states, without the making of the table: a chain in which
# each round of a plain refinement splits off one state, tables that a seed makes, tables whose states are all alike, and
# calendars of a unit. The least of five runs each, with the greatest memory, the table's among it.
. "$(dirname "$0")/../common.sh"

# The program has proofs, which are those of the rows of least tables.
top=$(pwd)
rt() {
    looking_through minimising
    command rt "$@"
}

build_program minimising bench/minim/minimising.rt.in 'hz_pipeline_model hz_tables hz_minim' 'chain 4 1' \
    $(below hz_minim)
minimising=$room/crates/minimising/out/minimising

echo "kind states columns least ms doubling peak_kb"
for kind in chain random random alike calendar; do
    columns=63
    case $kind in
    chain) columns=1 ;;
    random) if [ "$seen" ]; then columns=1; fi; seen=1 ;;
    esac
    before=
    for states in 16384 32768 65536; do
        # a calendar of so many cycles has two states to that power
        case $kind$states in
        calendar16384) columns=14 ;;
        calendar32768) columns=15 ;;
        calendar65536) columns=16 ;;
        esac
        least=$("$minimising" "$kind" "$states" "$columns")
        made=$(least "$minimising" "$kind" "$states" "$columns" table)
        whole=$(least "$minimising" "$kind" "$states" "$columns")
        time=$((whole - made))
        peak=$(/usr/bin/time -f %M "$minimising" "$kind" "$states" "$columns" 2>&1 > /dev/null)
        echo "$kind $states $columns $least $(awk -v t="$time" 'BEGIN { printf "%.1f", t / 1000000 }') $(doubling "$time" "$before") $peak"
        before=$time
    done
done
