#!/bin/sh
# Times `hz modulo` on loop bodies of up to 256 instructions, by processor time, the least of five runs each, with the ratio to the row
# before, and the peak of memory beside the bytes of the input. First a recurrence of latency 1,000 through one register, one on every pair
# of memory cells, both together, and instructions that depend on none. Then instructions that depend on none and take a unit of each
# automaton for many cycles; units that exclude each other; a unit that is taken here and there; two units for one class; and a chain
# whose last instructions alone are refused.
hz=$1
. "$(dirname "$0")/../instructions.sh"

# body KIND COUNT: a body of so many instructions; in `late` and `both` the first has the latency of 1,000
body() {
    case $1 in
        none) block none "$2" ;;
        late) block chain "$2" | make_late ;;
        cells) block aliased "$2" ;;
        both) block aliased "$2" | make_late ;;
    esac
}

# make_late: the first instruction is of the type `late`
make_late() {
    sed '1s/)$/ (set_attr "type" "late"))/'
}

# peak COMMAND..: the most memory of a run, in KB
peak() {
    /usr/bin/time -f '%M' "$@" 2>&1 > /dev/null | tail -n 1
}

# row NAME COUNT: times the machine and the body that are there
row() {
    time=$(used "$hz" modulo "$machine" "$data/body")
    bytes=$(cat "$machine" "$data/body" | wc -c)
    echo "$1 $2 $(ms "$time") $(doubling "$time" "$before") $("$hz" modulo "$machine" "$data/body" | awk 'NR == 1 { print $2 }') $(peak "$hz" modulo "$machine" "$data/body") $((bytes / 1024))"
    before=$time
}

# make_held AUTOMATA CYCLES: the class `one` takes a unit of each automaton for so many cycles
make_held() {
    awk -v automata="$1" -v cycles="$2" 'BEGIN {
        print "(define_attr \"type\" \"one,other\" (const_string \"one\"))"
        for (k = 0; k < automata; k++) {
            print "(define_automaton \"m" k "\")\n(define_cpu_unit \"u" k "\" \"m" k "\")"
            all = all (k ? "+" : "") "u" k "*" cycles
        }
        print "(define_insn_reservation \"one\" 1 (eq_attr \"type\" \"one\") \"" all "\")"
    }' > "$machine"
}

echo "kind instructions ms ratio interval peak-KB input-KB"
for kind in none late cells both; do
    make_machine u,v 'u | v'
    add_class late 1000 'u, v*3'
    before=
    for count in 64 128 256; do
        body "$kind" "$count" > "$data/body"
        row "$kind" "$count"
    done
done

for automata in 1 16; do
    for cycles in 64 512; do
        make_held "$automata" "$cycles"
        before=
        for count in 16 32 64 128 256; do
            block none "$count" > "$data/body"
            row "held-$automata-$cycles" "$count"
        done
    done
done

# two units that exclude each other, in turn
make_machine u,v 'u*512'
echo '(exclusion_set "u" "v")' >> "$machine"
add_class late 1 'v*512'
before=
for count in 64 128 256; do
    block none "$count" | sed 'n;s/)$/ (set_attr "type" "late"))/' > "$data/body"
    row excluded "$count"
done

# a unit in cycles that any two issues share, if they are less than 256 cycles apart
make_machine u "$(awk 'BEGIN { printf "u*16"; for (k = 1; k < 16; k++) printf ", nothing*15, u" }')"
before=
for count in 64 128 256; do
    block none "$count" > "$data/body"
    row sparse "$count"
done

# one of two units for 64 cycles, in a chain of that latency: two turns overlap, and three do not
make_machine u,v 'u'
add_class long 64 'u*64 | v*64'
before=
for count in 64 128 255; do
    block chain "$count" long > "$data/body"
    row either "$count"
done

# a chain whose second half takes a unit for 512 cycles, after a first half of latency 1,000 that takes another for 500
for automata in 1 8; do
    awk -v automata="$automata" 'BEGIN {
        print "(define_attr \"type\" \"one,late\" (const_string \"one\"))"
        for (k = 0; k < automata; k++) {
            print "(define_automaton \"m" k ",n" k "\")\n(define_cpu_unit \"u" k "\" \"m" k "\")\n(define_cpu_unit \"v" k "\" \"n" k "\")"
            one = one (k ? "+" : "") "u" k "*512"
            late = late (k ? "+" : "") "v" k "*500"
        }
        print "(define_insn_reservation \"one\" 1 (eq_attr \"type\" \"one\") \"" one "\")"
        print "(define_insn_reservation \"late\" 1000 (eq_attr \"type\" \"late\") \"" late "\")"
    }' > "$machine"
    before=
    for count in 64 128 254; do
        block chain "$count" | sed "1,$((count / 2))s/)\$/ (set_attr \"type\" \"late\"))/" > "$data/body"
        row "refused-late-$automata" "$count"
    done
done
