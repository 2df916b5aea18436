#!/bin/sh
# Times `hz replay` of an empty trace on descriptions whose alternatives are many and long, which families.py writes: the least
# processor time of five runs, and the greatest memory. Wanted: `late`, `absent` and `spread` in less than 5 seconds, none in more
# than 10.
hz=$1
. "$(dirname "$0")/../common.sh"

echo "kind cycles bytes s peak_kB"
for kind in late early taken absent apart single alternating drifting parted present standing several others thousands wanting spread harmless turns whirling; do
    for cycles in 256 512; do
        case $kind-$cycles in
        taken-512 | spread-512 | harmless-512 | turns-512 | whirling-512) ;;
        *-512) continue ;;
        esac
        text=$data/family_${kind}_$cycles
        python3 bench/determ/families.py "$kind" "$cycles" > "$text"
        time=$(used "$hz" replay "$text" "$data/empty")
        peak=$(/usr/bin/time -f %M "$hz" replay "$text" "$data/empty" 2>&1 > /dev/null | tail -n 1)
        echo "$kind $cycles $(wc -c < "$text") $(awk -v t="$time" 'BEGIN { printf "%.2f", t / 1000000000 }') $peak"
    done
done
