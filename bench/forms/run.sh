#!/bin/sh
# Times the reading of forms of 1, 2 and 4 MB: real-looking forms, one atom, one string, comments, and open brackets. A
# bracket at the end stays open, so that only the forms are read. The least of five runs of `hz replay` each.
hz=$1
. "$(dirname "$0")/../common.sh"

# make KIND BYTES: the text
make_text() {
    case $1 in
        forms) awk 'BEGIN { for (i = 0; ; i++) printf "(define_insn_reservation \"class%d\" %d (eq_attr \"type\" \"int\")\n  \"(i0_pipeline | i1_pipeline), (port0 | port1)\") ; class %d\n", i, i % 9, i }' ;;
        atom) awk 'BEGIN { for (;;) printf "abcdefghijklmnopqrstuvwxyz_0123456789" }' ;;
        string) awk 'BEGIN { printf "\""; for (;;) printf "a name, another name\n" }' ;;
        comments) awk 'BEGIN { for (;;) print "; a line comment\n/* and a\nlonger one */" }' ;;
        brackets) awk 'BEGIN { for (;;) printf "((((((((((" }' ;;
    esac | head -c "$2"
}

echo "kind bytes MB_a_second doubling"
for kind in forms atom string comments brackets; do
    before=
    for mega in 1 2 4; do
        bytes=$((mega * 1048000))
        text=$data/${kind}_$mega
        [ -f "$text" ] || { make_text "$kind" "$bytes"; printf '\n('; } > "$text"
        time=$(least "$hz" replay "$text" "$data/empty")
        echo "$kind $bytes $(rate "$bytes" "$time") $(doubling "$time" "$before")"
        before=$time
    done
done
