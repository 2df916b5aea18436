#!/bin/sh
# Times building automata: of delays, whose states double with each column, in the first treatment; of choices, whose
# set states more than double with each unit, under `ndfa`; of eight columns of 16 grids under set statements on other
# units, of delays under thousands of equal exclusions, and of grids of 200 cycles. The least of five runs each, with the
# greatest memory.
. "$(dirname "$0")/../common.sh"

build_program exploring bench/determ/exploring.rt.in 'hz_grid hz_unitsets hz_states hz_tables hz_determ' 'delays 4' \
    $(below hz_determ)
exploring=$room/crates/exploring/out/exploring

echo "what number states grids ms doubling ns_a_transition peak_kb"
for what in delays choices sets equal long; do
    before=
    case $what in
    sets) numbers='0 3 100 200 400 800' ;;
    equal) numbers='0 1 5 10 20' ;;
    long) numbers='25 50 100' ;;
    *) numbers='8 9 10 11 12 13 14 15 16' ;;
    esac
    for number in $numbers; do
        made=$("$exploring" "$what" "$number")
        if [ "$made" = limit ]; then continue; fi
        time=$(least "$exploring" "$what" "$number")
        peak=$(/usr/bin/time -f %M "$exploring" "$what" "$number" 2>&1 > /dev/null)
        case $what in
        delays) columns=$((number + 1)) ;;
        choices) columns=$((number + 2)) ;;
        sets | equal) columns=9 ;;
        long) columns=3 ;;
        esac
        echo "$what $number $made $(awk -v t="$time" 'BEGIN { printf "%.1f", t / 1000000 }') $(doubling "$time" "$before") $(awk -v t="$time" -v s="${made% *}" -v c="$columns" 'BEGIN { printf "%.0f", t / (s * c) }') $peak"
        before=$time
    done
done
