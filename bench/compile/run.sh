#!/bin/sh
# Times `hz compile` on whole descriptions: of delays, whose states double with each class; of choices under `ndfa`, whose members
# nearly treble with each unit; and of 60 classes over 8,192 grids and 2,305 sets. The least of five runs each, with the greatest
# memory.
hz=$1
. "$(dirname "$0")/../common.sh"

# choices UNITS ALONE PAIRS: a class that takes any unit, one for each of the first units, and one for each of the first
# pairs and then triples of these
choices() {
    awk -v n="$1" -v alone="$2" -v most="$3" 'BEGIN {
        for (k = 0; k < n; k++) { units = units (k ? "," : "") "u" k; any = any (k ? "|" : "") "u" k }
        print "(automata_option \"ndfa\")(define_cpu_unit \"" units "\")"
        print "(define_insn_reservation \"any\" 1 (const_int 1) \"" any "\")"
        for (k = 0; k < alone; k++) print "(define_insn_reservation \"c" k "\" 1 (const_int 1) \"u" k "\")"
        for (a = 0; a < alone; a++) for (b = a + 1; b < alone; b++) if (made < most)
            print "(define_insn_reservation \"d" made++ "\" 1 (const_int 1) \"u" a "+u" b "\")"
        for (a = 0; a < alone; a++) for (b = a + 1; b < alone; b++) for (c = b + 1; c < alone; c++) if (made < most)
            print "(define_insn_reservation \"d" made++ "\" 1 (const_int 1) \"u" a "+u" b "+u" c "\")"
    }'
}

echo "kind number ms doubling peak_kB"
for kind in delays members wide; do
    before=
    case $kind in
    delays) numbers='13 14 15 16' ;;
    members) numbers='10 11 12 13' ;;
    wide) numbers='11 12 13' ;;
    esac
    for number in $numbers; do
        text=$data/${kind}_$number
        case $kind in
        delays) delays "$number" > "$text" ;;
        members) choices "$number" $((number - 2)) 0 > "$text" ;;
        wide) choices "$number" 8 51 > "$text" ;;
        esac
        "$hz" compile "$text" > "$data/compiled" || { echo "$text is not compiled"; exit 1; }
        time=$(least "$hz" compile "$text")
        peak=$(/usr/bin/time -f %M "$hz" compile "$text" 2>&1 > /dev/null | tail -n 1)
        echo "$kind $number $(ms "$time") $(doubling "$time" "$before") $peak"
        before=$time
    done
done
