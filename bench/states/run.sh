#!/bin/sh
# Times adding 65,536 grids of 16 to 256 cycles to an interner, each twice, without the making of the grids. The least of
# five runs each.
. "$(dirname "$0")/../common.sh"

build_program adding bench/states/adding.rt.in 'hz_grid hz_states' '16 make' hz_base_model hz_grid hz_states
adding=$room/crates/adding/out/adding

echo "cycles ns_an_add doubling ns_a_grid_made"
before=
for cycles in 16 32 64 128 256; do
    [ "$("$adding" "$cycles" add)" = 65536 ] || { echo "$cycles cycles: not all grids are held"; exit 1; }
    made=$(least "$adding" "$cycles" make)
    added=$(least "$adding" "$cycles" add)
    time=$((added - made))
    echo "$cycles $(awk -v t="$time" 'BEGIN { printf "%.1f", t / 131072 }') $(doubling "$time" "$before") $(awk -v t="$made" 'BEGIN { printf "%.1f", t / 131072 }')"
    before=$time
done
