#!/bin/sh
# check.sh HZ HZ_WHY HZ_SAME: asks the programs for the answer to each example, and compares it with the file of the answer: the status on the first
# line, then the text. Which file is asked of which command is in examples/README.md, and so is what else is tried.
# The trace of each schedule is replayed on its machine, and so are 40 turns of each loop. What is left after the reads is what the block
# leaves. Each .tables file is the text that its description compiles to.
hz=$1
hz_why=$2
hz_same=$(cd "$(dirname "$3")" && pwd)/$(basename "$3")
cd "$(dirname "$0")/.." || exit 2
work=$(mktemp -d) || exit 2
trap 'rm -rf "$work"' EXIT
bad=0
count=0

# compare EXAMPLE WORDS..: the program, given the words, ends as the answer of the example has it
compare() {
    against "${1%.*}.answer" "$@"
}

# against ANSWER EXAMPLE WORDS..: the same with an answer of another name
against() {
    answer=$1
    example=$2
    shift 2
    "$hz" "$@" > "$work/text"
    ends $? "$1"
}

# explained ANSWER EXAMPLE WORDS..: the same of hz_why
explained() {
    answer=$1
    example=$2
    shift 2
    "$hz_why" "$@" > "$work/text"
    ends $? hz_why
}

# rewritten ANSWER: hz_same ends as the answer has it, on the tables of the machine beside it and of the description of its name
rewritten() {
    answer=$1
    example=$1
    name=$(basename "$1" .same)
    { "$hz" compile "$(dirname "$1")/machine.md" > "$work/machine.tables" && "$hz" compile "${1%.same}.md" > "$work/$name.tables"; } ||
        { echo "compile ${1%.same}.md: status $?"; bad=1; }
    (cd "$work" && "$hz_same" machine.tables "$name.tables") > "$work/text"
    ends $? hz_same
    # a trace that it writes is walked on one of the two, and refused at its last event on the other
    refused=$(sed -n 's/^; refused by \(.*\), accepted by .*/\1/p' "$answer")
    [ -n "$refused" ] || return
    agree walk "$1 on $refused" "$("$hz" walk "$work/$refused" "$work/text" | sed 's/ line / /')" \
        "$(awk '!/^;/ { line = NR; class = $2 } END { print "refused", line, class }' "$work/text")"
    accepted=$(sed -n 's/^; refused by .*, accepted by \(.*\)/\1/p' "$answer")
    agree walk "$1 on $accepted" "$("$hz" walk "$work/$accepted" "$work/text")" \
        "$(awk '/^issue / { issues++ } /^advance / { cycles += $2 } END { print "accepted", issues, "issues", cycles + 0, "cycles" }' "$work/text")"
}

# ends STATUS COMMAND: the command, which has written `text`, ended as the answer of the example has it
ends() {
    count=$((count + 1))
    if { echo "$1"; cat "$work/text"; } | cmp -s - "$answer"; then
        echo "$2 $example: $(cat "$work/text")"
    else
        echo "$2 $example: status $1, $(cat "$work/text"): not as in $answer"
        bad=1
    fi
}

# agree COMMAND EXAMPLE TEXT WANTED: what the command made of an example is what is wanted
agree() {
    count=$((count + 1))
    if [ "$3" = "$4" ]; then
        echo "$1 $2: $3"
    else
        echo "$1 $2: $3: not $4"
        bad=1
    fi
}

# begins COMMAND..: the status of the command, and the first line that it writes
begins() {
    "$@" > "$work/text"
    echo "$? $(head -n 1 "$work/text")"
}

# trace EXAMPLE MACHINE WORDS..: the trace of the schedule that the program, given the words, writes is made of its text: the machine accepts
# it, with as many issues as there are instructions
trace() {
    example=$1
    machine=$2
    shift 2
    "$hz" "$@" > "$work/scheduled"
    awk '/^[0-9]/ { if ($1 > now) { print "advance " $1 - now; now = $1 } print "issue " $NF }' "$work/scheduled" > "$work/trace"
    insns=$(sed -n 's/^scheduled \(.*\) insns .*/\1/p' "$work/scheduled")
    cycles=$(sed -n 's/^scheduled .* insns \([0-9]*\) cycles$/\1/p' "$work/scheduled")
    wanted="accepted $((${insns:-0})) issues $cycles cycles"
    agree replay "$example" "$("$hz" replay "$machine" "$work/trace")" "$wanted"
}

# left BLOCK STATE WORDS..: after the reads that the program, given the words, writes comes what the block leaves of the state
left() {
    wanted=$("$hz" eval "$1" "$2")
    example=$1
    shift 2
    agree eval "$example" "$("$hz" "$@" | grep -v '^read ')" "$wanted"
}

# turns EXAMPLE MACHINE WORDS..: the trace of 40 turns is made of the kernel that the program, given the words, writes: the machine accepts
# it, with as many issues as 40 turns have instructions
turns() {
    example=$1
    machine=$2
    shift 2
    "$hz" "$@" > "$work/kernel"
    awk 'BEGIN { count = 0; now = 0 }
        /^interval / { interval = $2 }
        /^stages / { stages = $2 }
        /^[0-9]/ { offset[count] = $1; stage[count] = $2; class[count++] = $NF }
        END {
            for (part = 0; part < stages + 39; part++) for (place = 0; place < count; place++) {
                turn = part - stage[place]
                cycle = part * interval + offset[place]
                if (turn < 0 || turn > 39) continue
                if (cycle > now) { print "advance " cycle - now; now = cycle }
                print "issue " class[place]
            }
        }' "$work/kernel" > "$work/trace"
    wanted=$(awk '/^interval / { interval = $2 } /^[0-9]/ { count++ } /^list / { print "accepted " 40 * count " issues " 39 * interval + $2 " cycles" }' "$work/kernel")
    agree replay "$example" "$("$hz" replay "$machine" "$work/trace")" "$wanted"
}

# tables TEXT: the description beside it is compiled to this text
tables() {
    "$hz" compile "${1%.tables}.md" > "$work/tables"
    status=$?
    count=$((count + 1))
    if [ "$status" = 0 ] && cmp -s "$work/tables" "$1"; then
        echo "compile $1: $(wc -l < "$1") lines"
    else
        echo "compile $1: status $status, and another text:"
        diff "$work/tables" "$1"
        bad=1
    fi
}

for tables in examples/*/*.tables; do tables "$tables"; done
for machine in examples/*/machine.md; do
    "$hz" compile "$machine" > "$work/kept" || { echo "compile $machine: status $?"; bad=1; }
    for trace in "$(dirname "$machine")"/*.trace; do
        [ -e "$trace" ] || continue
        compare "$trace" replay "$machine" "$trace"
        compare "$trace" walk "$work/kept" "$trace"
    done
done
for why in examples/*/*.why; do
    explained "$why" "$why" "$(dirname "$why")/machine.md" "${why%.why}.trace"
done
# hz_why writes its text in one piece, of more than 100,000 bytes here: it comes whole, and begins with that of replay
awk 'BEGIN { for (i = 0; i < 5000; i++) print "ask slot_0" }' > "$work/trace"
agree hz_why '5000 asks' "$("$hz_why" examples/bundler/machine.md "$work/trace" | head -n 5001 | cksum)" "$("$hz" replay examples/bundler/machine.md "$work/trace" | cksum)"
# Under ndfa hz_why remembers the steps of a trace until they make 32,768 entries together, and then begins anew. Which of 14 units are taken
# makes up to 3,432 entries, and each turn of this trace some 70,000 in all. It ends with an issue that is refused.
early='u0 | u1 | u2 | u3 | u4 | u5 | u6'
cat > "$work/machine" << END
(automata_option "ndfa")
(define_cpu_unit "u0, u1, u2, u3, u4, u5, u6, u7, u8, u9, u10, u11, u12, u13")
(define_insn_reservation "early" 1 (const_int 1) "$early")
(define_insn_reservation "any" 1 (const_int 1) "$early | u7 | u8 | u9 | u10 | u11 | u12 | u13")
END
awk 'BEGIN {
    for (turn = 0; turn < 3; turn++) for (early = 0; early < 8; early++) {
        for (unit = 0; unit < 14; unit++) print "issue " (unit < early ? "early" : "any")
        print "advance 1"
    }
    for (unit = 0; unit < 15; unit++) print "issue any"
}' > "$work/trace"
agree hz_why '375 events under ndfa' "$(begins "$hz_why" "$work/machine" "$work/trace")" "$(begins "$hz" replay "$work/machine" "$work/trace")"
for same in examples/*/*.same; do rewritten "$same"; done
for drill in examples/*/*.drill; do
    # its words are the number and the turns
    compare "$drill" drill "$(dirname "$drill")/machine.md" $(cat "$drill")
done
for bound in examples/*/*.bound; do
    against "$bound" "$bound" bound "$(dirname "$bound")/machine.md" "${bound%.bound}.block"
done
for timed in examples/*/*.timed; do
    set -- timed "$(dirname "$timed")/machine.md" "${timed%.timed}.block" "${timed%.timed}.state"
    against "$timed" "$timed" "$@"
    left "${timed%.timed}.block" "${timed%.timed}.state" "$@"
done
for duo in examples/*/*.duo; do
    # its name is those of the two blocks
    folder=$(dirname "$duo")
    pair=$(basename "$duo" .duo)
    set -- duo "$folder/machine.md" "$folder/${pair%+*}.block" "$folder/${pair#*+}.block"
    against "$duo" "$duo" "$@"
    trace "$duo" "$folder/machine.md" "$@"
done
for kernel in examples/*/*.kernel; do
    set -- modulo "$(dirname "$kernel")/machine.md" "${kernel%.kernel}.block"
    against "$kernel" "$kernel" "$@"
    turns "$kernel" "$2" "$@"
done
for block in examples/*/*.block; do
    machine=$(dirname "$block")/machine.md
    if [ -e "$machine" ]; then
        compare "$block" schedule "$machine" "$block"
        trace "$block" "$machine" schedule "$machine" "$block"
    else
        compare "$block" eval "$block" "${block%.block}.state"
    fi
done
echo "$count examples"
exit $bad
