#!/bin/sh
# Times the reading of descriptions of 1, 2 and 4 MB, of whole forms of each kind, up to a form that is unknown at the
# end: all is read and nothing is checked. The least of five runs of `hz replay` each.
hz=$1
. "$(dirname "$0")/../common.sh"

# make_text KIND BYTES: forms of about so many bytes, and the unknown one
make_text() {
    awk -v kind="$1" -v most="$2" 'BEGIN {
        for (i = 0; size < most; i++) {
            if (kind == "classes") line = sprintf("(define_insn_reservation \"class%d\" %d (and (eq_attr \"type\" \"int,mult\") (ior (eq_attr \"kind\" \"a, b\") (not (const_int 0))))\n  \"(i0_pipeline | i1_pipeline), nothing*2, (port0 | port1) + bus\")", i, i % 9)
            if (kind == "names") line = sprintf("(define_cpu_unit \"unit%d, unit%d_b , unit%d_c\" \"core\")\n(define_bypass %d \"class%d, other\" \"class, more\")", i, i, i, i % 9, i)
            if (kind == "sets") line = sprintf("(presence_set \"unit%d, b\" \"c d, e f g, unit%d\")\n(define_attr \"attribute%d\" \"yes, no\" (const_string \"no\"))", i, i, i)
            print line
            size += length(line) + 1
        }
        print "(unknown)"
    }'
}

echo "kind bytes MB_a_second doubling"
for kind in classes names sets; do
    before=
    for mega in 1 2 4; do
        text=$data/description_${kind}_$mega
        [ -f "$text" ] || make_text "$kind" $((mega * 1048000)) > "$text"
        "$hz" replay "$text" "$data/empty" | grep -q 'UnknownForm$' || { echo "$text is not read"; exit 1; }
        bytes=$(wc -c < "$text")
        time=$(least "$hz" replay "$text" "$data/empty")
        echo "$kind $bytes $(rate "$bytes" "$time") $(doubling "$time" "$before")"
        before=$time
    done
done
