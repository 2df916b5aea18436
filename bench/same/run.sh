#!/bin/sh
# Times `hz_same`, by processor time, the least of five runs each, with the most memory. Two texts of an automaton of 65,536 states and 64
# columns beside what `walk` takes to read both: wanted at most 4 times that. Two counters without a common factor beside one automaton of
# one state, so that 1,000,000 pairs are searched: wanted under 10 seconds and 500 MB. And texts of eight automata with the same names, which are compared group by group.
hz=$1
hz_same=$2
. "$(dirname "$0")/../common.sh"

# wide NAME STATES: an automaton in which each state goes on to others by 63 classes, and by the advance to the next
wide() {
    awk -v name="$1" -v states="$2" 'BEGIN {
        print "hazard-tables 1\ntreatment first\nclasses 63"
        for (class = 0; class < 63; class++) print "class c" class
        print "automata 1\nautomaton " name " 63 " states
        printf "map"
        for (class = 0; class < 63; class++) printf " %d", class
        print ""
        for (state = 0; state < states; state++) {
            printf "row"
            for (class = 0; class < 63; class++) if ((state + class) % 7 == 0) printf " -"; else printf " %d", (state * 2 + class) % states
            print "", (state + 1) % states
        }
        print "end"
    }'
}

# counters NAME STATES..: an automaton for each number of states, that of its place with this name, which goes back to its start after so
# many cycles; the class is taken in all states
counters() {
    name=$1
    shift
    echo "hazard-tables 1
treatment first
classes 1
class x
automata $#"
    place=0
    for states in "$@"; do
        place=$((place + 1))
        awk -v name="$name$place" -v states="$states" 'BEGIN {
            print "automaton " name " 1 " states "\nmap 0"
            for (state = 0; state < states; state++) print "row", state, (state + 1) % states
        }'
    done
    echo end
}

# peak COMMAND..: the most memory that it takes, in kB
peak() {
    { /usr/bin/time -f %M "$@" > /dev/null; } 2>&1 | tail -n 1
}

# compared WHAT FIRST SECOND: the times of reading both and of comparing them, and how many times as long that takes
compared() {
    "$hz_same" "$2" "$3" | grep -qx same || { echo "$2 and $3 are not the same"; exit 1; }
    first=$(used "$hz" walk "$2" "$data/empty")
    second=$(used "$hz" walk "$3" "$data/empty")
    same=$(used "$hz_same" "$2" "$3")
    echo "$1 $(ms $((first + second))) $(ms "$same") $(doubling "$same" $((first + second))) $(peak "$hz_same" "$2" "$3")"
}

echo "what walk_both_ms same_ms times peak_kB"
wide a 65536 > "$data/wide_a"
wide b 65536 > "$data/wide_b"
compared '65,536 states of 64 columns' "$data/wide_a" "$data/wide_b"
counters a 997 1003 > "$data/counter_a"
counters b 1 > "$data/counter_b"
compared '999,991 pairs of two automata and one' "$data/counter_a" "$data/counter_b"
counters a 997 991 983 977 971 967 953 947 > "$data/groups_a"
counters a 997 991 983 977 971 967 953 947 > "$data/groups_b"
compared 'eight groups by name' "$data/groups_a" "$data/groups_b"
