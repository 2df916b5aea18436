#!/bin/sh
# Tries tools/extract.py on the machine descriptions of tools/test: what it reports and writes, and what hz answers to that.
# An input that cannot be read ends with a message at its line, and nothing is written.
hz=$(cd "$(dirname "$1")" && pwd)/$(basename "$1")
tools=$(cd "$(dirname "$0")" && pwd)
work=$(mktemp -d) || exit 2
trap 'rm -rf "$work"' EXIT
PYTHONDONTWRITEBYTECODE=1
export PYTHONDONTWRITEBYTECODE
cp "$tools"/test/* "$work"
cd "$work" || exit 2
bad=0

wrong() {
    echo "$*"
    bad=1
}

# extracts OUT WORDS..: OUT.md is written, with the changes of OUT.changes reported and the text of OUT.written, if it is there
extracts() {
    out=$1
    shift
    python3 "$tools/extract.py" -o "$out.md" "$@" 2> reported || wrong "extract.py $*: status $?"
    diff "$out.changes" reported || wrong "extract.py $*: other changes"
    [ ! -e "$out.written" ] || diff "$out.written" "$out.md" || wrong "extract.py $*: another text"
    echo "extract.py $*: $(tail -n 1 reported)"
}

# replays OUT ANSWER EVENT..: hz answers so to the events on OUT.md
replays() {
    out=$1
    want=$2
    shift 2
    printf '%s\n' "$@" > trace
    answer=$("$hz" replay "$out.md" trace)
    [ "$answer" = "$want" ] || wrong "hz on $out.md: '$answer', wanted '$want'"
    echo "hz on $out.md: $answer"
}

# refuses MESSAGE TEXT WORDS..: TEXT in bad.md can't be read, and nothing is written
refuses() {
    want=$1
    printf '%b' "$2" > bad.md
    shift 2
    reported=$(python3 "$tools/extract.py" -o none.md "$@" 2>&1)
    status=$?
    [ "$status" = 2 ] && [ "$reported" = "$want" ] && [ ! -e none.md ] || wrong "extract.py $*: $status, '$reported', wanted '$want'"
    echo "extract.py $*: $reported"
}

extracts core --defs quill.md quill-core.md
[ "$(grep -c '"store_data_bypass_p"' core.md)" = 1 ] || wrong "core.md has not the guard of stores"
replays core 'accepted 3 issues 1 cycles' 'issue q1_load' 'issue q1_alu' 'advance 1' 'issue q1_store'
replays core 'refused line 2 q1_load' 'issue q1_alu' 'issue q1_load'
replays core 'refused line 3 q1_alu' 'issue q1_div' 'advance 9' 'issue q1_alu'
replays core 'accepted 2 issues 10 cycles' 'issue q1_div' 'advance 10' 'issue q1_alu'

python3 "$tools/extract.py" -o apart.md quill-vector.md 2> reported || wrong "apart: status $?"
answer=$("$hz" replay apart.md /dev/null)
case $answer in
    fault*' AlternationOfTwoAutomata qv_simple') echo "hz on apart.md: $answer" ;;
    *) wrong "hz on apart.md: '$answer', wanted AlternationOfTwoAutomata" ;;
esac
extracts vector --merge --defs quill.md quill-vector.md
replays vector 'refused line 3 qv_simple' 'issue qv_simple' 'issue qv_simple' 'issue qv_simple'
replays vector 'refused line 2 qv_pair' 'issue qv_simple' 'issue qv_pair'
replays vector 'accepted 3 issues 1 cycles' 'issue qv_pair' 'advance 1' 'issue qv_simple' 'issue qv_simple'

python3 "$tools/extract.py" -o port.md --merge --target quill.md 2> reported || wrong "port: status $?"
[ "$(tail -n 1 reported)" = 'port.md: 8 classes, 14 changes: 4 attribute, 4 condition, 1 guard, 1 merge, 1 option, 3 wildcard' ] ||
    wrong "port: $(tail -n 1 reported)"
replays port 'accepted 4 issues 0 cycles' 'issue q1_load' 'issue q1_alu' 'issue qv_simple' 'issue qv_simple'

# aligned ANSWER EVENT..: hz answers so to the events on reed.md as it is and aligned
aligned() {
    replays plain "$@"
    replays reed "$@"
}

extracts reed --align reed-port.md
python3 "$tools/extract.py" -o plain.md reed-port.md 2> reported || wrong "plain: status $?"
[ "$(cat reported)" = 'plain.md: 6 classes, 0 changes' ] || wrong "plain: $(cat reported)"
aligned 'accepted 3 issues 0 cycles' 'issue reed_add' 'issue reed_mul' 'issue reed_nop'
aligned 'refused line 2 reed_add' 'issue reed_add' 'issue reed_add'
aligned 'accepted 2 issues 0 cycles' 'issue reed_add' 'issue reed_test'
aligned 'refused line 3 reed_branch' 'issue reed_add' 'issue reed_mul' 'issue reed_branch'
aligned 'refused line 3 reed_add' 'issue reed_mul' 'advance 1' 'issue reed_add'
aligned 'refused line 3 reed_add' 'issue reed_mul' 'advance 2' 'issue reed_add'
aligned 'accepted 2 issues 3 cycles' 'issue reed_mul' 'advance 3' 'issue reed_add'
aligned 'refused line 3 reed_div' 'issue reed_div' 'advance 11' 'issue reed_div'
aligned 'accepted 2 issues 12 cycles' 'issue reed_div' 'advance 12' 'issue reed_div'
# the query unit stays in its cycle
aligned 'ask line 2 r_wb free
ask line 4 r_wb reserved
ask line 6 r_wb free
accepted 1 issues 6 cycles' 'issue reed_mul' 'ask r_wb' 'advance 5' 'ask r_wb' 'advance 1' 'ask r_wb'
for each in plain reed; do
    "$hz" compile $each.md > $each.tables || wrong "hz on $each.md: status $?"
    { cat $each.md; echo; echo '(automata_option "stats")'; } > counted.md
    "$hz" compile counted.md | sed -n 's/^stats \([0-9]*\) .*/\1/p' | tr '\n' ' ' > $each.grids
    echo "hz on $each.md: grids $(cat $each.grids)"
done
cmp plain.tables reed.tables || wrong "reed.md: other tables"
[ "$(cat plain.grids)" = '3 1212 324 ' ] && [ "$(cat reed.grids)" = '3 115 96 ' ] || wrong "reed.md: other grids"

# what can't be moved is reported, and stays with all that is tied to it
extracts left --align left-port.md

# under ndfa no state can be asked, so a query unit is a unit, and is moved
printf '%s\n' '(define_query_cpu_unit "q")' '(automata_option "ndfa")' '(automata_option "collapse-ndfa")' \
    '(define_insn_reservation "late" 1 (const_int 1) "nothing, q")' > any.md
reported=$(python3 "$tools/extract.py" --align -o asked.md any.md 2>&1)
[ "$reported" = 'any.md:1: query: query units q under ndfa
any.md:3: option: collapse-ndfa
any.md:1: align: 1 cycle earlier: q
asked.md: 1 classes, 3 changes: 1 align, 1 option, 1 query' ] || wrong "any.md: $reported"
grep -q '^(define_cpu_unit "q")' asked.md || wrong "asked.md has a query unit"
replays asked 'refused line 2 late' 'issue late' 'issue late'
replays asked 'fault trace line 1 UnknownUnit' 'ask q'

# without ndfa it stays one, also beside collapse-ndfa
sed '/"ndfa"/d' any.md > first.md
reported=$(python3 "$tools/extract.py" -o asked.md first.md 2>&1)
[ "$reported" = 'first.md:2: option: collapse-ndfa
asked.md: 1 classes, 1 changes: 1 option' ] || wrong "first.md: $reported"
replays asked 'ask line 3 q reserved
accepted 1 issues 1 cycles' 'issue late' 'advance 1' 'ask q'

refuses 'bad.md:2: a string that is not closed' '\n(define_automaton "a)\n\n' bad.md
refuses 'bad.md:2: `(` is not closed' '(define_automaton "a")\n(define_cpu_unit "u" "a"\n\n' bad.md
refuses 'bad.md:3: `]` closes nothing' '(define_insn "x"\n [(use (reg 1))]\n ])' bad.md
refuses 'bad.md:2: a comment that is not closed' '; one\n /* two /* *\\/\n' bad.md
refuses 'bad.md:3: a brace that is not closed' '(define_insn "x"\n ""\n { if (1) \\} {} )\n' bad.md
refuses 'bad.md:1: a brace that closes nothing' '(define_insn })' bad.md
refuses 'bad.md:2: this is outside all forms' '(include "x")\nx' bad.md
refuses 'bad.md:2: operand 2 of define_insn_reservation is no number' '\n(define_insn_reservation "x" many\n (const_int 1) "u")' bad.md
refuses 'bad.md:1: operand 2 of define_reservation is no string' '(define_reservation "x")' bad.md
refuses 'bad.md:2: missing.md: No such file or directory' '\n(include "missing.md")' --target bad.md
refuses 'bad.md:1: bad.md includes itself' '(include "bad.md")' --target bad.md
refuses 'missing.md: No such file or directory' '' bad.md missing.md
refuses 'bad.md:2: `|` continues no expression' '\n(define_reservation "r" "u||u")' --merge bad.md
refuses 'bad.md:1: `u` is no number of times' '(define_reservation "r" "u*u")' --align bad.md
refuses 'bad.md:1: the expression ends too early' '(define_reservation "r" "u*")' --align bad.md
reported=$(python3 "$tools/extract.py" -o core.md core.md 2>&1)
[ $? = 2 ] && [ "$reported" = 'core.md: an input is not written over' ] || wrong "own input: $reported"

# compares WANT FIRST SECOND [cut]: the tables of two descriptions answer so
compares() {
    for each in "$2" "$3"; do
        "$hz" compile $each.md > $each.tables || wrong "hz on $each.md: status $?"
    done
    answer=$(python3 same_tables.py "$tools" "$2.tables" "$3.tables" $4)
    [ "$answer" = "$1" ] || wrong "$2 and $3: '$answer', wanted '$1'"
    echo "$2 and $3: $answer"
}

# a search over lists of states finds the least events, issues and asks
printf '%s\n' '(define_cpu_unit "u")' '(define_query_cpu_unit "v")' '(define_insn_reservation "x" 1 (const_int 1) "u, v*2")' \
    '(define_insn_reservation "y" 1 (const_int 1) "u")' > two.md
sed 's/v\*2/v*3/' two.md > three.md
sed 's/u, v\*2/u, nothing, v/' two.md > asked.md
sed 's/"y"/"z"/' two.md > other.md
compares same two two
compares 'issue x; advance 1; advance 1; issue x' two three
compares 'issue x; advance 1; issue x' two asked
compares 'issue y' two other
sed 's/query_//' two.md > silent.md
compares 'ask v' two silent

# automata are cut where nothing ties their units: by a set, by a pattern of a set, by a choice, or by the order of a choice
cut() {
    python3 "$tools/extract.py" -o "$1.md" $2 "$3" 2> reported || wrong "$1: status $?"
    grep -h 'split: \|changes' reported > $1.reported
    diff $1.cut $1.reported || wrong "$1: cut otherwise"
    echo "extract.py $2 $3: $(tail -n 1 reported)"
}
python3 "$tools/extract.py" -o whole.md tied-port.md 2> reported || wrong "whole: status $?"
cut tied --split tied-port.md
compares same whole tied cut
cut finest --split=all tied-port.md
compares same whole finest cut
for each in whole tied; do
    replays $each 'refused line 1 tied_present' 'issue tied_present'
    replays $each 'accepted 2 issues 0 cycles' 'issue tied_pattern' 'issue tied_present'
    replays $each 'accepted 2 issues 1 cycles' 'issue tied_order' 'advance 1' 'issue tied_order'
    replays $each 'ask line 2 n1 reserved
accepted 1 issues 0 cycles' 'issue tied_asked' 'ask n1'
done
# the checks of pages, where the sources are that pages name
[ ! -e "$tools/../crates.txt" ] || python3 "$tools/test/test_pages.py" || bad=1
# under ndfa any choice may be taken, and its order ties nothing
{ sed 's/query_//' tied-port.md; echo '(automata_option "ndfa")'; } > any.md
cut any-cut --split any.md
compares same any any-cut cut
# without automata the new ones are named by their first units
printf '%s\n' '(define_cpu_unit "a,b,c")' '(define_insn_reservation "x" 1 (const_int 1) "a*3")' \
    '(define_insn_reservation "y" 1 (const_int 1) "nothing, (b | c)*3")' '(define_insn_reservation "z" 1 (const_int 1) "b*2")' > bare.md
cut bare-cut --split bare.md
compares same bare bare-cut cut
[ "$(grep -c '^row' bare.tables) $(grep -c '^row' bare-cut.tables)" = '44 15' ] || wrong "bare-cut: other states than hz has"
# of a, b and c each two choose by themselves, and all three do not; f is taken in step with no other, and would have too many states alone
printf '%s\n' '(define_automaton "m,n")' '(define_cpu_unit "a,b,c,d,e" "m")' '(define_cpu_unit "f,g" "n")' \
    '(define_insn_reservation "x" 1 (const_int 1) "(nothing | a + b | a + c | b + c) + (d | e)")' \
    '(define_insn_reservation "y" 1 (const_int 1) "a*2")' '(define_insn_reservation "z" 1 (const_int 1) "g + f")' > parity.md
for each in 5 10 20; do
    echo "(define_insn_reservation \"f$each\" 1 (const_int 1) \"g*$each, f\")" >> parity.md
done
cut parity-cut --split=all parity.md
cut stays-cut --split parity.md
compares same parity stays-cut cut
# all groups apart and all together have more states than two of three together
python3 "$tools/extract.py" -o between.md between-port.md 2> reported || wrong "between: status $?"
cut between-cut --split between-port.md
compares same between between-cut cut
# of more than 16 automata the cuts that cost least are not made
python3 -c 'print("(define_automaton \"m,n\")\n" + "".join(f"(define_cpu_unit \"u{at}\" \"{chr(109 + at % 2)}\")\n" + f"(define_insn_reservation "
    f"\"x{at}\" 1 (const_int 1) \"u{at}*{2 + at % 2}\")\n" for at in range(20)))' > many.md
cut many-cut --split many.md
"$hz" compile many-cut.md > many-cut.tables || wrong "many-cut: status $?"
[ "$(sed -n 3,23p many-cut.tables | grep -c '^class ')" = 20 ] && grep -q '^automata 16$' many-cut.tables || wrong "many-cut: other automata"

# what asks too much, or can't be read by hz: one line of a fault, or the changes that were made
mkdir hostile && (cd hostile && python3 ../hostile.py "$tools/extract.py" "$hz") || bad=1

# equal lists are taken, tied and counted once: more classes change no cut
{ grep -v '^(define_insn_reservation "z"' bare.md; for each in z z1 z2; do echo "(define_insn_reservation \"$each\" 1 (const_int 1) \"b*2\")"; done; } > equal.md
python3 "$tools/extract.py" --split -o equal-cut.md equal.md 2> reported || wrong "equal: status $?"
compares same equal equal-cut cut
[ "$(grep -c '^row' bare-cut.tables)" = 15 ] && "$hz" compile equal-cut.md | grep -c '^row' | grep -qx 15 || wrong "equal: other states than without the equal ones"

# an output that nobody reads ends a tool without a word, and one that can't be written with one line
python3 -c 'import sys; sys.path.insert(0, sys.argv[1]); from extraction import running; running.run(lambda: print("x" * 100000) or 0)' "$tools" 2> reported | true
[ ! -s reported ] || wrong "an output that nobody reads: $(cat reported)"
if [ -e /dev/full ]; then
    python3 -c 'import sys; sys.path.insert(0, sys.argv[1]); from extraction import running; running.run(lambda: print("x") or 0)' "$tools" > /dev/full 2> reported
    [ $? -eq 2 ] && [ "$(wc -l < reported)" -eq 1 ] || wrong "an output that can't be written: $(cat reported)"
fi

# the lists of tools/check_limits.py, beside pages and sources
[ ! -e "$tools/../crates.txt" ] || sh "$tools/test/limits.sh" || bad=1

# the data sheets of tools/sheet.py
sh "$tools/test/sheet.sh" "$hz" || bad=1

# what a built GCC walks, and descriptions as genautomata reads them
sh "$tools/test/built.sh" "$hz" || bad=1
sh "$tools/test/as_gcc.sh" "$hz" || bad=1

# the search for sets of groups
python3 test_grouping.py "$tools" || bad=1

# the search beside which hz_same is looked at
python3 test_same.py "$tools" || bad=1

exit $bad
