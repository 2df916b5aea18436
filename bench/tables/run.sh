#!/bin/sh
# Times the reading of tables texts of about 67, 135 and 270 MB, by processor time and without the reading of the file:
# automata of 65,536 states whose entries a seed gives, of 63 columns each, and one text whose automata have a column
# alone. Wanted: at least 100 MB a second and a doubling of at most 2.2. Last a text of 400 MB, of 16 automata of 4,194,304
# cells without an empty one, with the greatest memory beside that of the text alone. The least of five runs each.
. "$(dirname "$0")/../common.sh"

build_program reading bench/tables/reading.rt.in 'hz_tables hz_tabfile' "$(pwd)/bench/data/empty" $(below hz_tabfile)
reading=$room/crates/reading/out/reading

# make_text AUTOMATA COLUMNS EMPTY: the text, with this share of entries that are empty
make_text() {
    awk -v automata="$1" -v columns="$2" -v empty="$3" 'BEGIN {
        states = 65536
        print "hazard-tables 1\ntreatment first\nclasses " columns
        for (c = 0; c < columns; c++) print "class c" c
        print "automata " automata
        srand(1)
        # 997 different rows, so that the text is made in little time
        for (r = 0; r < 997; r++) {
            row = "row"
            for (c = 0; c < columns; c++) row = row " " (rand() < empty ? "-" : int(rand() * states))
            rows[r] = row " " int(rand() * states)
        }
        for (a = 0; a < automata; a++) {
            print "automaton a" a " " columns " " states
            map = "map"
            for (c = 0; c < columns; c++) map = map " " c
            print map
            for (s = 0; s < states; s++) print rows[(s * 31 + a) % 997]
        }
        print "end"
    }'
}

echo "automata columns empty bytes states ms MB_a_second doubling peak_kB text_alone_kB"
before=
for shape in '4 63 0.5' '8 63 0.5' '16 63 0.5' '16 1 0.5' '16 63 0'; do
    set -- $shape
    text=$data/tables_$1_$2_$3
    [ -f "$text" ] || make_text "$1" "$2" "$3" > "$text"
    bytes=$(wc -c < "$text")
    states=$("$reading" "$text")
    alone=$(used "$reading" "$text" held)
    whole=$(used "$reading" "$text")
    time=$((whole - alone))
    peak=$(/usr/bin/time -f %M "$reading" "$text" 2>&1 > /dev/null)
    held=$(/usr/bin/time -f %M "$reading" "$text" held 2>&1 > /dev/null)
    [ "$2 $3" = '63 0.5' ] || before=
    echo "$1 $2 $3 $bytes $states $((time / 1000000)) $(rate "$bytes" "$time") $(doubling "$time" "$before") $peak $held"
    before=$time
done
