#!/bin/sh
# Times the writing of tables texts to the standard output, by processor time and without compiling: of calendars of a
# unit, by 1, 4 and 16 automata, and of automata of 4,194,304 cells, by 4, 8 and 16 automata, of which the last text has
# about 400 MB. Wanted: at least 100 MB a second and a doubling of at most 2.2. The least of five runs each, with the
# greatest memory, the tables' among it.
. "$(dirname "$0")/../common.sh"

# The program has proofs: that of the dependence graphs for `checked_of`, and its own for `compiled`.
top=$(pwd)
rt() {
    mkdir -p proofs/checked_of proofs/compiled
    sed 's/depending\./writing./' "$top/bench/depend/checked_of.antt.in" > proofs/checked_of/Answers.antt
    cp "$top/bench/tables/writing.antt.in" proofs/compiled/Answers.antt
    command rt "$@"
}

build_program writing bench/tables/writing.rt.in \
    'hz_base_model hz_description_model hz_pipeline_model hz_tabtext_model hz_io hz_sexp hz_mdread hz_check hz_auto hz_tabfile' '1 4 1' $(below hz_tabfile)
writing=$room/crates/writing/out/writing

echo "automata classes rounds bytes ms MB_a_second doubling peak_kB"
before=
for shape in '1 16 16' '4 16 8' '16 15 8' '4 62 4 own' '8 62 4 own' '16 62 4 own'; do
    set -- $shape
    bytes=$("$writing" $1 $2 1 $4 | wc -c)
    made=$(used "$writing" $1 $2 0 $4)
    whole=$(used "$writing" $1 $2 $3 $4)
    time=$((whole - made))
    peak=$(/usr/bin/time -f %M "$writing" $1 $2 $3 $4 2>&1 > /dev/null | tail -n 1)
    [ "$4" = own ] || before=
    echo "$1 $2 $3 $((bytes * $3)) $((time / 1000000)) $(rate $((bytes * $3)) "$time") $(doubling "$time" "$before") $peak"
    before=$time
done
