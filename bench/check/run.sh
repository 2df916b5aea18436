#!/bin/sh
# Times the check of descriptions of 1, 2 and 4 MB, the least of five runs of `hz replay` each: tens of thousands of
# reservations, attributes and bypasses; an automaton of a long name with one set of many units, which are too many for
# it; a reservation of up to 524,288 pairs that stands beside itself as often as the text has room: by itself, repeated
# once or twice, before a unit, after one, and in a part of a part; or units repeated 256 times in its place; and sums of
# many names: of four units and repeated 256 times, beside itself; of one unit and repeated 256 times, in thousands of
# reservations; of 900 equal pairs and one more each, in hundreds; of 58 equal pairs and repeated 256 times, in 68.
hz=$1
. "$(dirname "$0")/../common.sh"

# forms BYTES: forms of about so many bytes
forms() {
    awk -v most="$1" 'BEGIN {
        print "(define_cpu_unit \"u,v,w,x\")"
        for (i = 0; i < 1000; i++) printf "(define_insn_reservation \"class%d\" 1 (eq_attr \"attribute%d\" \"yes\") \"part%d\")\n", i, i, i
        for (i = 0; size < most - 90000; i++) {
            line = sprintf("(define_reservation \"part%d\" \"(u|v), w + x\")\n(define_attr \"attribute%d\" \"yes, no\" (const_string \"no\"))\n(define_bypass %d \"class%d\" \"class%d\")", i, i, i % 7, i % 1000, int(i / 1000) % 1000)
            print line
            size += length(line) + 1
        }
    }'
}

# long_name BYTES: half of them in the name of an automaton, and in the names of its units twice
long_name() {
    awk -v most="$1" 'BEGIN {
        for (name = "a"; length(name) < most / 4; name = name name);
        name = substr(name, 1, most / 4)
        units = "u0"
        for (i = 1; i * 8 < most / 4; i++) units = units sprintf(",u%06d", i)
        printf "(define_automaton \"%s\")\n(define_cpu_unit \"%s\" \"%s\")\n(presence_set \"u0\" \"%s\")\n", name, units, name, units
    }'
}

# beside CYCLES PART BYTES: a reservation q of all pairs that there can be in so many cycles, and a class in which parts of
# this form stand beside one another as often as there is room; in a part U and V stand for units, each time others
beside() {
    awk -v cycles="$1" -v part="$2" -v most="$3" 'BEGIN {
        automata = "a0"
        for (a = 1; a < 16; a++) automata = automata ",a" a
        printf "(define_automaton \"%s\")\n", automata
        all = ""
        for (a = 0; a < 16; a++) {
            units = ""
            for (u = 0; u < 128; u++) {
                units = units (u ? "," : "") "u" a "_" u
                all = all (all == "" ? "" : "+") "u" a "_" u
            }
            printf "(define_cpu_unit \"%s\" \"a%d\")\n", units, a
        }
        printf "(define_reservation \"q\" \"(%s)*%d\")\n(define_insn_reservation \"c\" 1 (const_int 1) \"q", all, cycles
        for (i = 0; size < most - 50000; i++) {
            line = part
            gsub("U", "u" (i % 16) "_" (i % 128), line)
            gsub("V", "u" (i % 16) "_" (i % 127), line)
            printf "+%s", line
            size += length(line) + 1
        }
        print "\")"
    }'
}

beside_itself() { beside 256 'q' "$1"; }
repeated_once() { beside 256 'q*1' "$1"; }
before_units() { beside 255 '(q,U)' "$1"; }
after_units() { beside 255 '(U,q)' "$1"; }
repeated_twice() { beside 128 '(q*2)' "$1"; }
inside_parts() { beside 255 '((q+U),V)' "$1"; }
unit_repeated() { beside 256 'U*256' "$1"; }

# say(TEXT) of awk: writes it and counts its bytes
say='function say(text) { printf "%s", text; size += length(text) }'

# repeat BYTES: 2,000 names of four units, and a class in which their sum, repeated 256 times, stands beside itself
repeat() {
    awk -v most="$1" "$say"'BEGIN {
        say("(define_cpu_unit \"u0,u1,u2,u3\")\n")
        for (i = 0; i < 2000; i++) say("(define_reservation \"n" i "\" \"u" i % 4 "\")\n")
        say("(define_insn_reservation \"c\" 1 (const_int 1) \"(n0")
        for (i = 1; size < most - 20; i++) say((i % 2000 ? "+n" : ")*256+(n") i % 2000)
        say(")*256\")\n")
    }'
}

# one_unit BYTES: 220 names of one unit, and reservations that are their sum, repeated 256 times: at 4 MB about 4,070, of
# which there is room for 4,095 by their size
one_unit() {
    awk -v most="$1" "$say"'BEGIN {
        say("(define_cpu_unit \"u\")\n")
        for (i = 0; i < 220; i++) say("(define_reservation \"n" i "\" \"u\")\n")
        for (k = 0; size < most - 1100; k++) {
            say("(define_reservation \"r" k "\" \"(n0")
            for (i = 1; i < 220; i++) say("+n" i)
            say(")*256\")\n")
        }
    }'
}

# sums BYTES: 1,150 names of the same 30 units for 30 cycles and one more unit each, and reservations that are their sum
sums() {
    awk -v most="$1" "$say"'BEGIN {
        for (u = 0; u < 128; u++) say((u ? "," : "(define_cpu_unit \"") "u" u)
        for (u = 0; u < 30; u++) say((u ? "+" : "\")\n(define_reservation \"q\" \"(") "u" u)
        say(")*30\")\n")
        for (i = 0; i < 1150; i++) say("(define_reservation \"n" i "\" \"q+u" 30 + i % 98 "\")\n")
        for (k = 0; size < most - 6000; k++) {
            say("(define_reservation \"r" k "\" \"n0")
            for (i = 1; i < 1150; i++) say("+n" i)
            say("\")\n")
        }
    }'
}

# sums_repeated BYTES: up to 18,000 names of the same 58 units, and 68 reservations that are sums of them, repeated 256
# times; all sizes together are 8,021 below their limit at 4 MB
sums_repeated() {
    awk -v most="$1" "$say"'BEGIN {
        for (u = 0; u < 58; u++) say((u ? "," : "(define_cpu_unit \"") "u" u)
        for (u = 0; u < 58; u++) say((u ? "+" : "\")\n(define_reservation \"q\" \"") "u" u)
        say("\")\n")
        names = int(most / 4192000 * 18000)
        for (i = 0; i < names; i++) say("(define_reservation \"n" i "\" \"q\")\n")
        share = (most - size) / 68
        for (k = 67; k >= 0; k--) {
            say("(define_reservation \"r" k "\" \"(n" i++ % names)
            while (size < most - k * share - 20) say("+n" i++ % names)
            say(")*256\")\n")
        }
    }'
}

echo "kind bytes ms MB_a_second doubling"
for kind in forms long_name beside_itself repeated_once before_units after_units repeated_twice inside_parts unit_repeated \
    repeat one_unit sums sums_repeated; do
    before=
    for mega in 1 2 4; do
        text=$data/check_${kind}_$mega
        [ -f "$text" ] || $kind $((mega * 1048000)) > "$text"
        case "$("$hz" replay "$text" "$data/empty")" in
        "accepted 0 issues 0 cycles" | "limit "*) ;;
        *) echo "$text has another answer"; exit 1 ;;
        esac
        bytes=$(wc -c < "$text")
        time=$(least "$hz" replay "$text" "$data/empty")
        echo "$kind $bytes $((time / 1000000)) $(rate "$bytes" "$time") $(doubling "$time" "$before")"
        before=$time
    done
done
