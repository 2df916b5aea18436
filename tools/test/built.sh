#!/bin/sh
# Tries tools/built.py on texts of the form of insn-automata.cc: what it writes is what hz compiles of the same machine, a text of a part
# has what is reached there, and a text that cannot be read ends with a message at its line, and nothing is written.
hz=$(cd "$(dirname "$1")" && pwd)/$(basename "$1")
tools=$(cd "$(dirname "$0")/.." && pwd)
work=$(mktemp -d) || exit 2
trap 'rm -rf "$work"' EXIT
PYTHONDONTWRITEBYTECODE=1
export PYTHONDONTWRITEBYTECODE
cp "$tools"/test/built-*.cc "$work"
cd "$work" || exit 2
bad=0

wrong() {
    echo "$*"
    bad=1
}

# writes OUT REPORTED WORDS..: built.py writes OUT and reports so
writes() {
    out=$1
    want=$2
    shift 2
    reported=$(python3 "$tools/built.py" -o "$out" "$@" 2>&1)
    status=$?
    [ "$status" = 0 ] && [ "$reported" = "$want" ] || wrong "built.py $*: $status, '$reported', wanted '$want'"
    echo "built.py $*: $reported"
}

# refuses MESSAGE WORDS..: built.py answers so with status 2, and nothing is written
refuses() {
    want=$1
    shift
    rm -f none.tables
    reported=$(python3 "$tools/built.py" -o none.tables "$@" 2>&1)
    status=$?
    [ "$status" = 2 ] && [ "$reported" = "$want" ] && [ ! -e none.tables ] || wrong "built.py $*: $status, '$reported', wanted '$want'"
    [ -z "$(find . -name 'tmp*')" ] || wrong "built.py $*: a file is left"
    echo "built.py $*: $reported"
}

# spoils MESSAGE SCRIPT: the full text, changed by a script of sed, can't be read
spoils() {
    sed "$2" built-full.cc > bad.cc
    refuses "$1" bad.cc
}

# what is compiled NAME: hz writes NAME.tables of NAME.md
compiles() {
    "$hz" compile "$1.md" > "$1.tables" || wrong "hz on $1.md: status $?"
}

# the same machines as descriptions: a port for each of two automata, one of them asked; and a store that a load before it forbids
printf '%s\n' '(define_automaton "pipe, port")' '(define_query_cpu_unit "slot" "pipe")' '(define_cpu_unit "busy" "pipe")' \
    '(define_query_cpu_unit "write" "port")' '(define_insn_reservation "add" 1 (const_int 1) "slot")' \
    '(define_insn_reservation "mul" 3 (const_int 1) "slot + busy*2 + write")' \
    '(define_insn_reservation "nop" 1 (const_int 1) "nothing")' '(define_insn_reservation "sub" 1 (const_int 1) "slot")' > full.md
printf '%s\n' '(define_cpu_unit "l, s")' '(absence_set "s" "l")' '(define_insn_reservation "load" 1 (const_int 1) "l")' \
    '(define_insn_reservation "store" 1 (const_int 1) "s")' > packed.md
compiles full
compiles packed
writes full.built 'full.built: 2 automata, 6 states' built-full.cc
cmp full.tables full.built || wrong "full.built is another machine"
writes packed.built 'packed.built: 1 automata, 3 states' built-packed.cc
cmp packed.tables packed.built || wrong "packed.built is another machine"
# a state of several choices has no advance before it is collapsed, so an advance is both; what only that leads to is left out
printf '%s\n' '(automata_option "ndfa")' '(define_cpu_unit "p, q")' '(define_insn_reservation "load" 1 (const_int 1) "p | q")' > collapse.md
compiles collapse
writes collapse.built 'collapse.built: 1 automata, 3 states' built-collapse.cc
cmp collapse.tables collapse.built || wrong "collapse.built is another machine"
writes again.built 'again.built: 2 automata, 6 states' built-full.cc --as full.tables
cmp full.built again.built || wrong "again.built is another machine"

# the tables that are written are walked
printf '%s\n' 'issue mul' 'ask slot' 'advance 1' 'ask slot' 'issue nop' 'issue sub' 'issue add' > trace
answer=$("$hz" walk full.built trace)
[ "$answer" = 'ask line 2 slot reserved
ask line 4 slot free
refused line 7 add' ] || wrong "hz walk full.built: $answer"

# of a part only what it reaches is written, in its order; here of one automaton with two classes
grep -v '"write"\|"add"\|"sub"' full.md | sed 's/, port//; s/ + write//' > part.md
compiles part
writes part.built 'part.built: 1 automata, 3 states' built-full.cc --as part.tables
cmp part.tables part.built || wrong "part.built is another machine"
# an automaton that was cut is found by its name up to the dot
sed 's/^automaton pipe/automaton pipe.1/' part.tables > cut.tables
writes cut.built 'cut.built: 1 automata, 3 states' built-full.cc --as cut.tables
cmp part.built cut.built || wrong "cut.built is another machine"

# a class that is in no case, or whose case has not the automaton, leaves it where it is, whatever its column says
sed '/^    1,     2,     0,     0,     5/s/5,     1,     0,     5/5,     5,     0,     5/' built-full.cc > idle.cc
cmp -s built-full.cc idle.cc && wrong "idle.cc is built-full.cc"
writes idle.built 'idle.built: 2 automata, 6 states' idle.cc
cmp full.built idle.built || wrong "idle.built is another machine"
sed '/case 2/d' built-full.cc > unnamed.cc
writes unnamed.built 'unnamed.built: 2 automata, 6 states' unnamed.cc --as full.tables
cmp full.built unnamed.built || wrong "unnamed.built is another machine"
refuses 'unnamed.cc:55: the code 2 has no case, so its class has no name; --as gives names' unnamed.cc
sed 's/^class nop/class noop/' full.tables > noop.tables
writes noop.built 'noop.built: 2 automata, 6 states' unnamed.cc --as noop.tables
cmp noop.tables noop.built || wrong "noop.built is another machine"
refuses 'noop.tables:6: the class noop is not in built-full.cc' built-full.cc --as noop.tables

# what can't be read: the text of another program, and each part that is missing or of another form
printf 'int main(void)\n{\n  return 0;\n}\n' > other.cc
refuses 'other.cc:4: struct DFA_chip is missing: this is no insn-automata.cc of genautomata' other.cc
refuses 'missing.cc: No such file or directory' missing.cc
refuses '.: Is a directory' .


spoils 'bad.cc:110: the array pipe_translate is missing' '3,5d'
spoils 'bad.cc:4: the array pipe_translate is not closed' '5s/};/}/'
spoils "bad.cc:5: '-' is in the array pipe_translate" '5s/2/-2/'
spoils 'bad.cc:5: an entry of pipe_translate is no number' '5s/1,/1/'
spoils 'bad.cc:4: pipe_translate has 6 entries, and there are 5 codes' '5s/3}/3, 4}/'
spoils 'bad.cc:8: pipe_transitions has 19 entries, no rows of 4' '10s/, *4$//'
spoils 'bad.cc:64: pipe_transitions has 4 rows of 4, and this step says 5 of 4' '10s/,     4,     4,     4,     4//'
spoils 'bad.cc:8: pipe_transitions has no state that an advance leads to from state 2' '10s/2,     3/2,     5/'
spoils 'bad.cc:64: this step is not of one automaton' '64s/pipe_translate/port_translate/'
spoils 'bad.cc:64: this step is not of one automaton' '68s/pipe/port/'
spoils 'bad.cc:76: this step is not of one automaton' '80s/_pipe/chip->pipe/'
spoils 'bad.cc:65: `if (temp > 5)` is no line of internal_state_transition that genautomata writes' '65s/>=/>/'
spoils 'bad.cc:90: `break;` is no line of internal_state_transition that genautomata writes' '89a break;'
spoils 'bad.cc:87: the steps of this case are not those of its variables' '87d'
spoils 'bad.cc:72: the code 3 has two cases' '72s/case 4/case 3/'
spoils 'bad.cc:72: the code 9 is above 4' '72s/case 4/case 9/'
spoils 'bad.cc:71: add has two codes' '71s/mul/add/'
spoils 'bad.cc:71: `a b` is no name' '71s/mul/a b/'
spoils 'bad.cc:113: DFA__ADVANCE_CYCLE is not defined' '/^#define/s/DFA/NDFA/'
spoils 'bad.cc:38: `double pipe_automaton_state;` is no state of an automaton' '38s/unsigned char/double/'
spoils 'bad.cc:36: struct DFA_chip has no automaton' '38,39d'
spoils 'bad.cc:113: the function internal_state_transition is missing' '/^internal_state_transition/s/internal/external/'
spoils 'bad.cc:106: `{"slot", 0}` is no query unit' 's/{"slot", 0},/{"slot", 0}/'
spoils 'bad.cc:106: `sl ot` is no name' '106s/slot/sl ot/'
spoils 'bad.cc:107: `{"slot", 1},` is no query unit' '107s/write/slot/'
spoils 'bad.cc:104: the query units are not numbered from 0' '106s/0/3/'
spoils 'bad.cc:113: the array pipe_reserved_units is missing' '15s/units/unit/'
spoils 'bad.cc:15: pipe_reserved_units has 0 entries, no rows of 1 bytes' '16s/.*/};/'
spoils 'bad.cc:15: pipe_reserved_units has no row for each of 5 states' '16s/, *0}/}/'
spoils 'bad.cc:56: the query unit slot is held in pipe and in port' '30s/0,     2/1,     2/'
sed '/^    0,     2,     3,     5/s/5/6/' built-packed.cc > bad.cc
refuses 'bad.cc:16: base_0 leads past the 8 entries of transitions_0' bad.cc
sed '/^    0,     0,     0,     2/s/, *3}/}/' built-packed.cc > bad.cc
refuses 'bad.cc:12: check_0 has 7 entries, and transitions_0 8' bad.cc
sed '/^    1,     2,     0,     1/s/2/9/' built-packed.cc > bad.cc
refuses 'bad.cc:8: transitions_0 leads from state 0 to 9, past its 4 states' bad.cc
sed '/check_0\[\]/s/check/chick/' built-packed.cc > bad.cc
refuses 'bad.cc:50: the array check_0 is missing' bad.cc
sed '/^static const unsigned char \(check\|base\)/s/_0/_1/; /^    1,     2,     0,     1/s/}/, 0}/' built-packed.cc > bad.cc
refuses 'bad.cc:39: the step of automaton_state_0 is not that of its arrays' bad.cc
sed '/^#define NDFA/s/2/3/' built-collapse.cc > bad.cc
refuses 'bad.cc:16: NDFA__COLLAPSE is not the code after DFA__ADVANCE_CYCLE' bad.cc

# more than a tables text may have: states, automata, classes
awk 'BEGIN {
    print "static const unsigned char translate_0[] ATTRIBUTE_UNUSED = {\n0};\n\nstatic const int transitions_0[] ATTRIBUTE_UNUSED = {"
    for (i = 1; i <= 65537; i++) print i % 65537 ","
    print "};\n\n#define DFA__ADVANCE_CYCLE 0\n\nstruct DFA_chip\n{\n  int automaton_state_0;\n};\n"
    print "static int\ninternal_state_transition (int insn_code)\n{\n  int temp ATTRIBUTE_UNUSED;\n  switch (insn_code)\n    {"
    print "    case 0: /* $advance_cycle */\n      {"
    print "temp = transitions_0 [translate_0 [insn_code] + chip->automaton_state_0 * 1];"
    print "if (temp >= 65537)\nreturn internal_min_issue_delay (insn_code, chip);\nelse\nchip->automaton_state_0 = temp;"
    print "return -1;\n      }"
    print "    default:\n      return -1;\n    }\n}\n"
}' > bad.cc
refuses 'bad.cc:4: transitions_0 has more than 65536 states that are reached' bad.cc
awk '{ print } /^  unsigned char port_auto/ { for (i = 0; i < 15; i++) print "  int more" i "_automaton_state;" }' built-full.cc > bad.cc
sed -i '/"slot"\|"write"/d' bad.cc
refuses 'bad.cc:71: 17 automata, and a tables text has at most 16; --as names those that are wanted' bad.cc
awk '/^#define/ { $3 = 1029 } { print } /case 3/ { for (i = 4; i < 1029; i++) print "    case " i ": /* more" i " */" }' built-full.cc |
    sed 's/case 4: \/\* \$/case 1029: \/* $/' > bad.cc
refuses 'bad.cc:56: 1029 classes, and a tables text has at most 1024; --as names those that are wanted' bad.cc

# a text that names what the build has not, or that is none
like() {
    sed "$2" full.tables > like.tables
    refuses "$1" built-full.cc --as like.tables
}
like 'like.tables:1: this is no tables text' '1s/2/3/'
like 'like.tables:2: `last` is no treatment' '2s/first/last/'
like 'like.tables:3: `4k` is no number up to 1024' '3s/4/4k/'
like 'like.tables:5: `add` is no name, or came before' '5s/mul/add/'
like 'like.tables:7: the class subtract is not in built-full.cc' '7s/sub/subtract/'
like 'like.tables:9: the automaton pipes is not in built-full.cc' 's/automaton pipe/automaton pipes/'
like 'like.tables:11: the query unit slots is not in built-full.cc' 's/asks slot/asks slots/'
like 'like.tables:11: the query unit write is in port of built-full.cc' 's/asks slot/asks write/; 18s/asks write/asks/'
like 'like.tables:12: `rows 1 2 0 - 0` is no line of a tables text that may come here' '12s/row/rows/'
like 'like.tables:21: the tables text is cut off' '$d'
like 'like.tables:16: the text has 1 automata, and says 2' '16,$d; 15s/$/\nend/'
refuses 'missing.tables: No such file or directory' built-full.cc --as missing.tables

# no input is written over, and what cannot be written is reported
cp built-full.cc own.cc
reported=$(python3 "$tools/built.py" -o own.cc own.cc 2>&1)
[ $? = 2 ] && [ "$reported" = 'own.cc: an input is not written over' ] && cmp -s own.cc built-full.cc || wrong "own input: $reported"
reported=$(python3 "$tools/built.py" -o none/none.tables own.cc 2>&1)
[ $? = 2 ] && [ "$reported" = 'none/none.tables: No such file or directory' ] || wrong "no folder: $reported"

exit $bad
