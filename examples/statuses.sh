#!/bin/sh
# statuses.sh HZ HZ_WHY HZ_SAME: shows each status of each command, of hz_why and of hz_same on real files, and each kind of fault of a tables text, and compares
# status and text. The programs are proved ones: one that is built to be tried without a proof can't start in the little memory that some
# runs are given.
hz=$(cd "$(dirname "$1")" && pwd)/$(basename "$1")
hz_why=$(cd "$(dirname "$2")" && pwd)/$(basename "$2")
hz_same=$(cd "$(dirname "$3")" && pwd)/$(basename "$3")
work=$(mktemp -d) || exit 2
trap 'rm -rf "$work"' EXIT
cd "$work" || exit 2
bad=0

newline='
'

# run KILOBYTES WORDS..: runs the program with so much room for all its memory, or `unlimited`; `text` has what it writes, with all line
# feeds at its end, and `status` how it ends
run() {
    room=$1
    shift
    text=$([ "$room" = unlimited ] || ulimit -v "$room"; "$hz" "$@" 2> errors; ended=$?; echo .; exit $ended)
    status=$?
    text=${text%.}
}

# ends STATUS TEXT WORDS..: the program, which has written `text` and ended with `status`, ended so, with one line feed after TEXT,
# or none where there is no text
ends() {
    if [ "$status" = "$1" ] && [ "$text" = "$2${2:+$newline}" ] && [ ! -s errors ]; then
        shift 2
        echo "status $status: ${hz##*/} $*: $(printf '%s' "$text" | tail -n 1)"
    else
        echo "${hz##*/}: status $status, text '$text', wanted $*"
        bad=1
    fi
}

# expect STATUS TEXT WORDS..: the program, given the words, ends so
expect() {
    want_status=$1
    want_text=$2
    shift 2
    run unlimited "$@"
    ends "$want_status" "$want_text" "$@"
}

# expect_memory KILOBYTES WORDS..: the program, given the words and so much room for all its memory, reports that it ran out
expect_memory() {
    run "$@"
    shift
    ends 5 memory "$@"
}

# expect_sink WORDS..: the program, given the words, reports that standard output is closed, and that it is full
expect_sink() {
    "$hz" "$@" >&- 2> errors
    status=$?
    text=
    ends 7 '' "$@"
    [ -e /dev/full ] || return
    "$hz" "$@" > /dev/full 2> errors
    status=$?
    ends 7 '' "$@"
}

# expect_front WORDS..: the program, given the words, writes tables, and a front of them into a file that may have no more, and reports it
expect_front() {
    "$hz" "$@" > whole
    status=$?
    [ "$status" = 0 ] && [ "$(tail -n 1 whole)" = end ] || { echo "hz: status $status, and no whole tables: $*"; bad=1; }
    (trap '' XFSZ && ulimit -f 1 && exec "$hz" "$@" > front 2> errors)
    status=$?
    text=
    { [ -s front ] && head -c "$(wc -c < front)" whole | cmp -s - front; } || text='no front'
    ends 7 '' "$@"
}

# expect_pipe WORDS..: the program, given the words, writes more than is taken of a pipe, and reports it
expect_pipe() {
    { "$hz" "$@" 2> errors; echo $? > ended; } | head -c 1 > front
    status=$(cat ended)
    text=
    ends 7 '' "$@"
}

# why FUNCTION WORD..: calls one of these for hz_why in place of hz
why() {
    kept=$hz
    hz=$hz_why
    "$@"
    hz=$kept
}

# same FUNCTION WORD..: the same for hz_same
same() {
    kept=$hz
    hz=$hz_same
    "$@"
    hz=$kept
}

# lines FILE LINE..: makes the file of these lines
lines() {
    file=$1
    shift
    printf '%s\n' "$@" > "$file"
}

usage='usage: hz compile DESC | replay DESC TRACE | walk TABLES TRACE | schedule DESC BLOCK | eval BLOCK STATE | drill DESC NUMBER COUNT | timed DESC BLOCK STATE | bound DESC BLOCK | duo DESC BLOCK BLOCK | modulo DESC BLOCK'

# descriptions
unit='(define_cpu_unit "u")'
lines d '(define_cpu_unit "a")' '(define_insn_reservation "x" 1 (const_int 1) "nothing,a")'
lines two_automata '(define_automaton "m,n")' '(define_cpu_unit "a" "m")' '(define_cpu_unit "b" "n")' \
    '(define_insn_reservation "x" 1 (const_int 1) "a+b")'
lines ndfa '(define_cpu_unit "a,b")' '(automata_option "ndfa")' '(define_insn_reservation "x" 1 (const_int 1) "a|b")' \
    '(define_insn_reservation "y" 1 (const_int 1) "a")'
lines classes '(define_attr "type" "a,b,c" (const_string "a"))' '(define_cpu_unit "u,v")' '(presence_set "v" "u")' \
    '(define_insn_reservation "x" 2 (eq_attr "type" "a,b") "u")' '(define_insn_reservation "y" 1 (eq_attr "type" "b") "u")' \
    '(define_insn_reservation "z" 1 (const_int 0) "v")'
lines query '(define_query_cpu_unit "a")' '(define_insn_reservation "x" 1 (const_int 1) "nothing,a")'
{ cat query; echo '(automata_option "ndfa")'; } > query_ndfa
lines never '(define_cpu_unit "u,v")' '(presence_set "v" "u")' '(define_insn_reservation "x" 1 (const_int 1) "v")'
printf '(define_cpu_unit "a' > unclosed
lines shape '; a comment' '(define_cpu_unit "a,")'
lines sixty "$unit" '(define_insn_reservation "x" 1 (const_int 1) "u*60")'
lines comma "$unit" '(define_insn_reservation "x" 1 (const_int 1)' '  "u,,u")'
lines name "$unit" '(define_reservation "r" "u, v")'
lines circle '(define_reservation "r" "s")' '(define_reservation "s" "r")'
lines alternatives "$unit" '(define_insn_reservation "x" 1 (const_int 1) "(u|u)*13")'
lines most "$unit" '(define_insn_reservation "x" 1 (const_int 1) "(u|u)*65535")'
{
    printf '%s\n(define_insn_reservation "c0" 1 (const_int 1) "u")\n' "$unit"
    for j in 1 2 3 4 5 6 7 8 9 10 11 12 13 14 15; do
        printf '(define_insn_reservation "c%s" 1 (const_int 1) "nothing*%s, u")\n' "$j" "$j"
    done
} > most_states
head -n 8 most_states > some_states
{ cat most_states; echo '(define_insn_reservation "c16" 1 (const_int 1) "nothing*16, u")'; } > states
head -c 4194304 /dev/zero | tr '\0' ' ' > longest
head -c 4194305 /dev/zero | tr '\0' ' ' > long

# traces
lines t 'issue x' 'advance 1' 'issue x'
lines both 'issue x' 'issue y'
lines twice 'issue x' 'issue x'
lines unknown '; no class has this name' 'issue z'
lines bad '' '  issue x ; late'
lines far 'advance 16777216' 'issue x' 'advance 1'
lines asks 'issue x' 'ask a' 'advance 1' 'ask a' 'issue x' 'issue x' 'ask a'
lines no_unit 'ask a' 'issue x' 'ask b'
printf ' issue\tx\r\n\n; again\nissue x' > spaced
head -c 67108864 /dev/zero | tr '\0' '\n' > longest_trace
{ cat longest_trace; echo; } > long_trace
yes 'advance 0' | head -n 1000001 > many_events
lines late_unit 'issue c16'

# blocks and a state
lines b '(insn 1 (set (reg 2) (plus (reg 1) (const_int 1))))'
lines code '(insn 1 (set (reg 2)' '  (what)))'
lines ambiguous '(insn 1 (use (reg 1)))' '(insn 2 (use (reg 1)) (set_attr "type" "b"))'
lines no_class '(insn 1 (use (reg 1)) (set_attr "type" "c"))'
lines attribute '(insn 1 (use (reg 1)) (set_attr "kind" "c"))'
lines value '(insn 1 (use (reg 1)) (set_attr "type" "d"))'
{ for j in $(seq 2048); do echo "(insn $j (use (reg 1)))"; done; } > half
{ cat half; echo '(insn 2049 (use (reg 1)))'; } > more_than_half
lines s '(reg 1 6)'

# tables: of the description `ndfa` in the first treatment, with one line or byte changed, and as long as may be
lines k 'hazard-tables 1' 'treatment first' 'classes 2' 'class x' 'class y' 'automata 1' 'automaton - 2 3' 'map 0 1' \
    'row 1 1 0' 'row 2 - 0' 'row - - 0' end
sed '1s/1/3/' k > header
sed '2s/first/second/' k > treatment
sed '9s/1 1/01 1/' k > zero
sed '9s/1 1/3 1/' k > range
head -c $(($(wc -c < k) - 1)) k > cut
{ cat k; echo; } > trailing
# of the description `query`
lines asked 'hazard-tables 2' 'treatment first' 'classes 1' 'class x' 'automata 1' 'automaton - 1 4' 'map 0' 'asks a' \
    'row 1 - 0' 'row - - 2' 'row 3 2 0' 'row - 3 2' end
sed '9s/1 -/1 1/' asked > other_row
sed '8s/$/ a/' asked > again
truncate -s 536870912 longest_tables
truncate -s 536870913 long_tables

: > empty
mkdir folder

# compile
expect 0 "$(printf '%s\n' 'hazard-tables 1' 'treatment first' 'classes 1' 'class x' 'automata 1' 'automaton - 1 2' 'map 0' \
    'row 1 0' 'row - 0' end)" compile d
expect 0 "$(printf '%s\n' 'hazard-tables 1' 'treatment ndfa' 'classes 2' 'class x' 'class y' 'automata 1' 'automaton - 2 4' \
    'map 0 1' 'row 1 2 0' 'row 3 3 0' 'row 3 - 0' 'row - - 0' end)" compile ndfa
expect 0 "$(printf '%s\n' 'hazard-tables 1' 'treatment first' 'classes 1' 'class x' 'automata 2' 'automaton m 1 2' 'map 0' \
    'row 1 0' 'row - 0' 'automaton n 1 2' 'map 0' 'row 1 0' 'row - 0' end)" compile two_automata
expect 0 "$(printf '%s\n' 'hazard-tables 1' 'treatment first' 'classes 0' 'automata 1' 'automaton - 0 1' map 'row 0' end)" \
    compile empty
expect 0 "$(cat asked)" compile query
expect 2 'fault query_ndfa line 1 QueryUnderNdfa a' compile query_ndfa
expect 2 'fault unclosed line 1 Unclosed' compile unclosed
expect 2 'fault shape line 2 BadShape' compile shape
expect 2 'fault comma line 2 BadExpression Unexpected 2' compile comma
expect 2 'fault circle line 1 CircularReservation r' compile circle
expect 3 'limit alternatives line 2 Alternatives x' compile alternatives
expect 3 'limit states automaton -' compile states
expect 3 'limit long bytes' compile long
expect 6 'file missing could not be read' compile missing
expect 6 'file folder could not be read' compile folder
expect_memory 32768 compile most_states
expect_sink compile d
expect_front compile most_states
expect_front compile some_states
expect_pipe compile most_states

# replay
expect 0 'accepted 2 issues 1 cycles' replay d t
expect 0 'accepted 0 issues 0 cycles' replay d empty
expect 0 'accepted 0 issues 0 cycles' replay empty empty
expect 0 'accepted 0 issues 0 cycles' replay longest empty
expect 0 'accepted 0 issues 0 cycles' replay d longest_trace
expect 0 'accepted 0 issues 0 cycles' replay d many_events
expect 0 'accepted 2 issues 1 cycles' replay two_automata t
expect 0 'accepted 2 issues 0 cycles' replay ndfa both
expect 1 'refused line 2 x' replay d twice
expect 1 'refused line 4 x' replay d spaced
reported="ask line 2 a free${newline}ask line 4 a reserved${newline}refused line 6 x"
expect 1 "$reported" replay query asks
expect 2 'fault no_unit line 3 UnknownUnit' replay query no_unit
expect 2 'fault no_unit line 1 UnknownUnit' replay d no_unit
expect 2 'fault query_ndfa line 1 QueryUnderNdfa a' replay query_ndfa asks
expect 2 'fault unclosed line 1 Unclosed' replay unclosed t
expect 2 'fault shape line 2 BadShape' replay shape t
expect 2 'fault comma line 2 BadExpression Unexpected 2' replay comma t
expect 2 'fault name line 2 UnknownName v' replay name t
expect 2 'fault circle line 1 CircularReservation r' replay circle t
expect 2 'fault unknown line 2 UnknownClass' replay d unknown
expect 2 'fault bad line 2 BadLine' replay d bad
expect 2 'fault far line 3 AdvanceLimit' replay d far
expect 2 'fault t line 1 UnknownClass' replay empty t
expect 3 'limit alternatives line 2 Alternatives x' replay alternatives t
expect 3 'limit most line 2 Alternatives x' replay most t
expect 3 'limit states automaton -' replay states empty
expect 3 'limit long bytes' replay long t
expect 3 'limit long bytes' replay long missing
expect 3 'limit long_trace bytes' replay d long_trace
expect 3 'limit long_trace bytes' replay ndfa long_trace
expect 6 'file missing could not be read' replay missing t
expect 6 'file missing could not be read' replay d missing
expect 6 'file folder could not be read' replay folder t
expect 6 'file  could not be read' replay '' t
expect_memory 65536 replay d longest_trace
expect_sink replay d t
expect_sink replay query asks

# walk
expect 0 'accepted 2 issues 1 cycles' walk k t
expect 0 'accepted 0 issues 0 cycles' walk k empty
expect 1 'refused line 2 y' walk k both
expect 1 "$reported" walk asked asks
expect 2 'fault no_unit line 3 UnknownUnit' walk asked no_unit
expect 2 'fault no_unit line 1 UnknownUnit' walk k no_unit
expect 2 'fault other_row line 9 OutOfRange' walk other_row asks
expect 2 'fault again line 8 BadLine' walk again asks
expect 2 'fault header line 1 BadHeader' walk header t
expect 2 'fault treatment line 2 BadLine' walk treatment t
expect 2 'fault zero line 9 BadNumber' walk zero t
expect 2 'fault range line 9 OutOfRange' walk range t
expect 2 'fault cut line 12 Truncated' walk cut t
expect 2 'fault empty line 1 Truncated' walk empty t
expect 2 'fault trailing line 13 Trailing' walk trailing t
expect 2 'fault d line 1 BadHeader' walk d t
expect 2 'fault header line 1 BadHeader' walk header bad
expect 2 'fault unknown line 2 UnknownClass' walk k unknown
expect 2 'fault bad line 2 BadLine' walk k bad
expect 2 'fault far line 3 AdvanceLimit' walk k far
expect 2 'fault longest_tables line 1 Truncated' walk longest_tables t
expect 3 'limit long_tables bytes' walk long_tables t
expect 3 'limit long_tables bytes' walk long_tables missing
expect 3 'limit long_trace bytes' walk k long_trace
expect 6 'file missing could not be read' walk missing t
expect 6 'file missing could not be read' walk k missing
expect 6 'file folder could not be read' walk folder t
expect_memory 65536 walk longest_tables t
expect_sink walk k t

# schedule
expect 0 "$(printf '0 1 x\nscheduled 1 insns 0 cycles')" schedule d b
expect 0 'scheduled 0 insns 0 cycles' schedule d empty
expect 2 'fault ambiguous line 2 Ambiguous insn 2 x y' schedule classes ambiguous
expect 2 'fault no_class line 1 NoClass insn 1' schedule classes no_class
expect 2 'fault attribute line 1 UnknownAttribute insn 1' schedule classes attribute
expect 2 'fault value line 1 UnknownValue insn 1' schedule classes value
expect 2 'fault b line 1 CannotStartAlone insn 1' schedule never b
expect 2 'fault code line 2 UnknownCode' schedule d code
expect 2 'fault unclosed line 1 Unclosed' schedule unclosed code
expect 3 'limit states automaton -' schedule states code
expect 3 'limit long bytes' schedule d long
expect 6 'file missing could not be read' schedule d missing
expect_memory 32768 schedule most_states b
expect_sink schedule d b

# eval
expect 0 "$(printf '(reg 1 6)\n(reg 2 7)')" eval b s
expect 0 '' eval empty empty
expect 2 'fault code line 2 UnknownCode' eval code s
expect 2 'fault b line 1 BadShape' eval b b
expect 3 'limit long bytes' eval b long
expect 6 'file missing could not be read' eval b missing
expect_memory 8192 eval longest longest
expect_sink eval b s

# timed
expect 0 "$(printf 'read 0 1 reg 1 from start\n(reg 1 6)\n(reg 2 7)')" timed d b s
expect 0 '(reg 1 6)' timed d empty s
expect 0 "$(printf 'read 0 1 reg 1 from start\n(reg 2 1)')" timed d b empty
expect 0 '' timed empty empty empty
expect 0 "$(for j in $(seq 2048); do echo "read $((j - 1)) $j reg 1 from start"; done; echo '(reg 1 6)')" timed d half s
expect 2 'fault unclosed line 1 Unclosed' timed unclosed code b
expect 2 'fault code line 2 UnknownCode' timed classes code b
expect 2 'fault b line 1 BadShape' timed classes ambiguous b
expect 2 'fault s line 1 BadShape' timed d s s
expect 2 'fault ambiguous line 2 Ambiguous insn 2 x y' timed classes ambiguous s
expect 2 'fault no_class line 1 NoClass insn 1' timed classes no_class s
expect 2 'fault b line 1 CannotStartAlone insn 1' timed never b s
expect 3 'limit states automaton -' timed states code b
expect 3 'limit long bytes' timed unclosed long missing
expect 3 'limit long bytes' timed unclosed code long
expect 6 'file missing could not be read' timed missing b s
expect 6 'file missing could not be read' timed d missing folder
expect 6 'file missing could not be read' timed unclosed code missing
expect 6 'file folder could not be read' timed d b folder
expect_memory 32768 timed most_states b s
expect_sink timed d b s
expect_sink timed d half s

# bound
expect 0 "$(printf 'path 0 1\nload a 1 0 0\nbound 0\nschedule 0 cycles')" bound d b
expect 0 "$(printf 'path 0\nload -\nbound 0\nschedule 0 cycles')" bound d empty
expect 2 'fault ambiguous line 2 Ambiguous insn 2 x y' bound classes ambiguous
expect 2 'fault b line 1 CannotStartAlone insn 1' bound never b
expect 2 'fault d line 1 BadShape' bound d d
expect 2 'fault unclosed line 1 Unclosed' bound unclosed code
expect 3 'limit states automaton -' bound states code
expect 3 'limit long bytes' bound d long
expect 6 'file missing could not be read' bound d missing
expect_memory 32768 bound most_states b
expect_sink bound d b

# duo
expect 0 "$(printf '0 1 1 x\n1 2 1 x\nscheduled 1 + 1 insns 1 cycles\nalone 0 0 cycles')" duo d b b
expect 0 "$(printf '0 2 1 x\nscheduled 0 + 1 insns 0 cycles\nalone 0 0 cycles')" duo d empty b
expect 0 "$(printf 'scheduled 0 + 0 insns 0 cycles\nalone 0 0 cycles')" duo d empty empty
expect 0 "$(for j in $(seq 2048); do echo "$((j - 1)) 1 $j x"; done; for j in $(seq 2048); do echo "$((j + 2047)) 2 $j x"; done
    printf 'scheduled 2048 + 2048 insns 4095 cycles\nalone 2047 2047 cycles')" duo d half half
expect 2 'fault unclosed line 1 Unclosed' duo unclosed code code
expect 2 'fault code line 2 UnknownCode' duo classes code ambiguous
expect 2 'fault code line 2 UnknownCode' duo classes ambiguous code
expect 2 'fault d line 1 BadShape' duo d b d
expect 2 'fault ambiguous line 2 Ambiguous insn 2 x y' duo classes ambiguous no_class
expect 2 'fault no_class line 1 NoClass insn 1' duo classes b no_class
expect 2 'fault b line 1 CannotStartAlone insn 1' duo never empty b
expect 3 'limit states automaton -' duo states code code
expect 3 'limit more_than_half insns' duo classes half more_than_half
expect 3 'limit long bytes' duo unclosed long missing
expect 3 'limit long bytes' duo unclosed code long
expect 6 'file missing could not be read' duo missing b b
expect 6 'file missing could not be read' duo d missing folder
expect 6 'file missing could not be read' duo unclosed code missing
expect 6 'file folder could not be read' duo d b folder
expect_memory 32768 duo most_states b b
expect_sink duo d b b
expect_sink duo d half more_than_half

# modulo
head -n 256 half > body
head -n 257 half > more_than_body
{ cat more_than_body; cat code; } > wrong_body
expect 0 "$(printf 'interval 1\nstages 1\n0 0 1 x\nedge 0 equals edge 1\nlist 0 cycles')" modulo d b
expect 0 "$(printf 'interval 1\nstages 1\n0 0 1 x\nedge 0 equals edge 1\nlist 0 cycles')" modulo two_automata b
expect 0 "$(printf 'interval 1\nstages 1\nedge 0 equals edge 1\nlist 0 cycles')" modulo d empty
expect 0 "$(printf 'interval 256\nstages 1\n'; for j in $(seq 256); do echo "$((j - 1)) 0 $j x"; done
    printf 'edge 0 equals edge 1\nlist 255 cycles')" modulo d body
expect 2 'fault unclosed line 1 Unclosed' modulo unclosed code
expect 2 'fault code line 2 UnknownCode' modulo classes code
expect 2 'fault d line 1 BadShape' modulo d d
expect 2 'fault wrong_body line 258 Twice' modulo d wrong_body
expect 2 'fault ambiguous line 2 Ambiguous insn 2 x y' modulo classes ambiguous
expect 2 'fault b line 1 CannotStartAlone insn 1' modulo never b
expect 3 'limit states automaton -' modulo states code
expect 3 'limit more_than_body insns' modulo classes more_than_body
expect 3 'limit more_than_body insns' modulo never more_than_body
expect 3 'limit long bytes' modulo long missing
expect 3 'limit long bytes' modulo unclosed long
expect 6 'file missing could not be read' modulo missing folder
expect 6 'file missing could not be read' modulo unclosed missing
expect 6 'file folder could not be read' modulo d folder
expect_memory 32768 modulo most_states b
expect_sink modulo d b
expect_sink modulo d more_than_body

# drill
expect 0 "$(printf 'drill 4 turns\naccepted 2 issues 2 cycles\nstates 0')" drill d 1 4
expect 0 "$(printf 'drill 3 turns\naccepted 2 issues 1 cycles\nstates 1 1')" drill two_automata 0000000001 3
expect 0 "$(printf 'drill 4 turns\naccepted 3 issues 1 cycles\nstates 2')" drill ndfa 1 4
expect 0 "$(printf 'drill 3 turns\naccepted 0 issues 3 cycles\nstates 0')" drill empty 5 3
expect 0 "$(printf 'drill 0 turns\naccepted 0 issues 0 cycles\nstates 0')" drill d 2147483647 0
expect 2 'fault unclosed line 1 Unclosed' drill unclosed 1 4
expect 2 'fault circle line 1 CircularReservation r' drill circle 1 0
expect 3 'limit alternatives line 2 Alternatives x' drill alternatives 1 4
expect 3 'limit states automaton -' drill states 1 4
expect 3 'limit long bytes' drill long 1 4
expect 6 'file missing could not be read' drill missing 1 4
expect 6 'file folder could not be read' drill folder 1 4
expect_memory 32768 drill most_states 1 4
expect_sink drill d 1 4

# hz_why
took='took alternative 1'
why expect 0 "$(printf 'accepted 2 issues 1 cycles\nline 1 x in cycle -1 %s\nline 3 x in cycle 0 %s\ncycle   0 1\na       1 3' "$took" "$took")" d t
why expect 0 'accepted 0 issues 0 cycles' d empty
why expect 0 'accepted 0 issues 0 cycles' empty empty
why expect 0 'accepted 0 issues 0 cycles' longest empty
why expect 0 'accepted 0 issues 0 cycles' d longest_trace
why expect 0 'accepted 0 issues 0 cycles' d many_events
why expect 0 "$(printf 'accepted 2 issues 1 cycles\nline 3 x in cycle 0 %s\ncycle   0\na       3\nb       3' "$took")" two_automata t
why expect 0 "$(printf 'accepted 2 issues 0 cycles\nby one of the choices\nline 1 x in cycle 0 took alternative 2\nline 2 y in cycle 0 %s\ncycle   0\na       2\nb       1' "$took")" \
    ndfa both
why expect 0 "$(printf 'accepted 1 issues 0 cycles\nline 1 c16 in cycle 0 took alternative 1\ncycle    0  1  2  3  4  5  6  7  8  9 10 11 12 13 14 15 16
u        .  .  .  .  .  .  .  .  .  .  .  .  .  .  .  .  1')" states late_unit
held='alternative 1: a in cycle 1 is planned by line'
takes='alternative 1 takes a 1'
why expect 1 "$(printf 'refused line 2 x\nfits 1 cycle later\n%s 1, x\n%s\nline 1 x in cycle 0 %s\ncycle   0 1\na       . 1' "$held" "$takes" "$took")" d twice
why expect 1 "$(printf '%s\nfits 1 cycle later\n%s 5, x\n%s\n' "$reported" "$held" "$takes"
    printf 'line 1 x in cycle -1 %s\nline 5 x in cycle 0 %s\ncycle   0 1\na       1 5' "$took" "$took")" query asks
never=$(printf 'refused line 1 x\nfits in no later cycle\nalternative 1: presence_set line 2, v in cycle 0 without a pattern\n'
    printf '  wants u\nalternative 1 takes v 0\ncycle   0\nv       .')
why expect 1 "$never" never twice
why expect 1 "$(printf 'refused line 2 x\nfits 60 cycles later\nalternative 1: u in cycle 0 is held from line 1, x\n'
    printf 'alternative 1 takes u 0-59\nline 1 x in cycle 0 %s\ncycle  ' "$took"
    for j in $(seq 0 35); do printf ' %s' $((j % 10)); done; printf '\nu      '; for j in $(seq 0 35); do printf ' 1'; done
    printf '\ncut after cycle 35')" sixty twice
why expect 2 'fault no_unit line 3 UnknownUnit' query no_unit
why expect 2 'fault query_ndfa line 1 QueryUnderNdfa a' query_ndfa asks
why expect 2 'fault unclosed line 1 Unclosed' unclosed t
why expect 2 'fault name line 2 UnknownName v' name t
why expect 2 'fault unknown line 2 UnknownClass' d unknown
why expect 2 'fault bad line 2 BadLine' d bad
why expect 2 'fault far line 3 AdvanceLimit' d far
why expect 2 'fault t line 1 UnknownClass' states t
why expect 3 'limit alternatives line 2 Alternatives x' alternatives t
why expect 3 'limit long bytes' long t
why expect 3 'limit long bytes' long missing
why expect 3 'limit long_trace bytes' d long_trace
why expect 6 'file missing could not be read' missing t
why expect 6 'file missing could not be read' d missing
why expect 6 'file folder could not be read' folder t
why expect 6 'file  could not be read' '' t
why expect_memory 65536 d longest_trace
why expect_sink d t
why expect_sink d twice

# names of files, and bytes of texts, as they are
cp d " d\\~"
expect 0 'accepted 2 issues 1 cycles' replay " d\\~" t
expect 0 'accepted 2 issues 1 cycles' replay ./d "$work/t"
expect 6 'file  m~ could not be read' replay ' m~' t
name=$(printf 'd\303\251')
cp d "$name"
expect 0 'accepted 2 issues 1 cycles' replay "$name" t
expect 6 'file d  could not be read' replay 'd ' t
{
    printf ';'
    for byte in 001 010 011 013 014 015 016 037 040 042 050 073 134 177 200 211 212 215 240 251 303 377 000; do printf "\\$byte"; done
    echo
    cat d
} > every
expect 0 'accepted 2 issues 1 cycles' replay every t
printf '(define_cpu_unit "a\r\n, b")\n' > return
expect 2 'fault return line 1 BadByte' compile return
printf '\n(define_cpu_unit "a\351")\n' > accent
expect 2 'fault accent line 2 BadByte' compile accent

# what is wrong after 50,000 lines, with a name of 300 bytes
long_name=$(head -c 300 /dev/zero | tr '\0' n)
yes '' | head -n 50000 > feeds
{ cat feeds; echo "(define_cpu_unit \"$long_name,$long_name\")"; } > late
{ cat feeds; echo "(define_reservation \"$long_name\" \"nothing*513\")"; } > late_limit
{ cat feeds; echo "(define_cpu_unit \"$long_name\")"; echo "(define_insn_reservation \"$long_name\" 1 (const_int 1) \"$long_name\")"; } > late_class
{ cat feeds; echo "issue $long_name"; echo "issue $long_name"; } > late_issues
{ cat feeds; echo 'issue'; } > late_trace
{ cat feeds; echo '(insn 1 (use (reg 256)))'; } > late_block
{ head -n 6 k; echo 'automaton - 2 50000'; echo 'map 0 1'; yes 'row 1 1 0' | head -n 49999; echo 'row 01 1 0'; echo end; } > late_tables
expect 2 "fault late line 50001 TwiceDefined $long_name" compile late
expect 2 "fault late line 50001 TwiceDefined $long_name" replay late t
why expect 2 "fault late line 50001 TwiceDefined $long_name" late t
expect 2 "fault late line 50001 TwiceDefined $long_name" schedule late b
expect 2 "fault late line 50001 TwiceDefined $long_name" drill late 1 4
expect 2 "fault late line 50001 TwiceDefined $long_name" timed late b s
expect 2 "fault late line 50001 TwiceDefined $long_name" duo late b b
expect 2 "fault late line 50001 TwiceDefined $long_name" modulo late b
expect 3 "limit late_limit line 50001 Cycles $long_name" replay late_limit t
expect 1 "refused line 50002 $long_name" replay late_class late_issues
row=$(head -c 32 /dev/zero | tr '\0' n)
why expect 1 "$(printf 'refused line 50002 %s\nfits 1 cycle later\n' "$long_name"
    printf '%s..\nalternative 1 takes ..\n' "$(printf 'alternative 1: %s' "$long_name" | head -c 78)"
    printf '%s..\n' "$(printf 'line 50001 %s' "$long_name" | head -c 78)"
    printf '%-32s       0\n%s   50001' cycle "$row")" late_class late_issues
expect 2 'fault late_trace line 50001 BadLine' replay d late_trace
why expect 2 'fault late_trace line 50001 BadLine' d late_trace
expect 2 'fault late_trace line 50001 BadLine' walk k late_trace
expect 2 'fault late_tables line 50008 BadNumber' walk late_tables t
expect 2 'fault late_block line 50001 RegisterRange' schedule d late_block
expect 2 'fault late_block line 50001 RegisterRange' eval late_block s
expect 2 'fault late_block line 50001 RegisterRange' timed d late_block s
expect 2 'fault late_block line 50001 RegisterRange' duo d b late_block
expect 2 'fault late_block line 50001 RegisterRange' modulo d late_block
expect 2 'fault late_block line 50001 BadShape' eval b late_block
expect 2 'fault late_block line 50001 BadShape' timed d b late_block
expect 6 "file $long_name/$long_name could not be read" replay "$long_name/$long_name" t

# each other answer where standard output is closed or full
expect_sink replay d twice
expect_sink walk k both
expect_sink replay late t
expect_sink replay alternatives t
expect_sink compile states
expect_sink replay long t
expect_sink compile missing
expect_sink replay missing t
expect_sink replay d folder
expect_sink walk k missing
expect_sink schedule d missing
expect_sink eval b missing
expect_sink timed d b missing
expect_sink duo d b missing
expect_sink modulo d missing
expect_sink drill missing 1 4
why expect_sink late t
why expect_sink long t
why expect_sink missing t
why expect_sink d folder
why expect_sink
why expect_sink d
expect_sink
expect_sink replay d

# a description and a trace that come in parts
{ head -c 20 d; sleep 1; tail -c +21 d; } | { expect 0 'accepted 2 issues 1 cycles' replay /dev/stdin t; exit $bad; } || bad=1
{ head -c 3 twice; sleep 1; tail -c +4 twice; } | { expect 1 'refused line 2 x' replay d /dev/stdin; exit $bad; } || bad=1

# each text is read once, also if a fault, a limit or a refusal is reported: what comes in a pipe is gone after the first read
once() {
    file=$1
    shift
    cat "$file" | { expect "$@"; exit $bad; } || bad=1
}
once circle 2 'fault /dev/stdin line 1 CircularReservation r' compile /dev/stdin
once alternatives 3 'limit /dev/stdin line 2 Alternatives x' compile /dev/stdin
once states 3 'limit /dev/stdin automaton -' compile /dev/stdin
once circle 2 'fault /dev/stdin line 1 CircularReservation r' replay /dev/stdin t
once bad 2 'fault /dev/stdin line 2 BadLine' replay d /dev/stdin
once zero 2 'fault /dev/stdin line 9 BadNumber' walk /dev/stdin t
once bad 2 'fault /dev/stdin line 2 BadLine' walk k /dev/stdin
once both 1 'refused line 2 y' walk k /dev/stdin
once circle 2 'fault /dev/stdin line 1 CircularReservation r' schedule /dev/stdin b
once code 2 'fault /dev/stdin line 2 UnknownCode' schedule d /dev/stdin
once ambiguous 2 'fault /dev/stdin line 2 Ambiguous insn 2 x y' schedule classes /dev/stdin
once code 2 'fault /dev/stdin line 2 UnknownCode' timed d /dev/stdin s
once ambiguous 2 'fault /dev/stdin line 2 Ambiguous insn 2 x y' timed classes /dev/stdin s
once b 2 'fault /dev/stdin line 1 BadShape' timed d b /dev/stdin
once code 2 'fault /dev/stdin line 2 UnknownCode' duo d b /dev/stdin
once ambiguous 2 'fault /dev/stdin line 2 Ambiguous insn 2 x y' duo classes /dev/stdin b
once code 2 'fault /dev/stdin line 2 UnknownCode' modulo d /dev/stdin
once ambiguous 2 'fault /dev/stdin line 2 Ambiguous insn 2 x y' modulo classes /dev/stdin
once code 2 'fault /dev/stdin line 2 UnknownCode' eval /dev/stdin s
once b 2 'fault /dev/stdin line 1 BadShape' eval b /dev/stdin
once circle 2 'fault /dev/stdin line 1 CircularReservation r' drill /dev/stdin 1 4
why once alternatives 3 'limit /dev/stdin line 2 Alternatives x' /dev/stdin t
why once bad 2 'fault /dev/stdin line 2 BadLine' d /dev/stdin
why once never 1 "$never" /dev/stdin t

# hz_same: `other` is `k` with one entry changed, `renamed` with a class of another name, `turned` with its classes in the other order,
# and `parts` the same machine in two automata
sed '10s/2 -/2 0/' k > other
sed '5s/y/z/' k > renamed
sed '4s/x/y/; 5s/y/x/; 8s/0 1/1 0/' k > turned
lines parts 'hazard-tables 1' 'treatment first' 'classes 2' 'class x' 'class y' 'automata 2' \
    'automaton - 2 3' 'map 0 1' 'row 1 1 0' 'row 2 - 0' 'row - - 0' \
    'automaton n 2 3' 'map 0 1' 'row 1 2 0' 'row 1 2 0' 'row 2 2 0' end
# `free` is `asked` with the unit free in state 2
sed '11s/row 3 2 0/row 3 - 0/' asked > free
lines no_class_but_x 'hazard-tables 1' 'treatment first' 'classes 1' 'class x' 'automata 1' 'automaton - 1 1' 'map 0' 'row 0 0' end
# two counters side by side, of 1,031 and of 1,033 cycles, reach 1,065,023 pairs with the one state of `always`: more than 1,048,576. Both
# accept every trace of advances alone
counter() {
    printf 'automaton %s 1 %s\nmap 0\n' "$1" "$2"
    awk -v states="$2" 'BEGIN { for (state = 0; state < states; state++) print "row -", (state + 1) % states }'
}
head='hazard-tables 1\ntreatment first\nclasses 1\nclass x\nautomata %s\n'
{ printf "$head" 2; counter a 1031; counter b 1033; echo end; } > counters
{ printf "$head" 1; counter c 1; echo end; } > always
same expect 0 same k k
same expect 0 same k turned
same expect 0 same turned k
same expect 0 same k parts
same expect 0 same parts k
same expect 0 same asked asked
same expect 1 "$(printf 'issue x\nissue y\n; refused by k, accepted by other')" k other
same expect 1 "$(printf 'issue x\nissue y\n; refused by k, accepted by other')" other k
same expect 1 "$(printf '; class y is of k alone\n; class z is of renamed alone\n; else the same')" k renamed
same expect 1 "$(printf '; class z is of renamed alone\n; class y is of k alone\n; else the same')" renamed k
same expect 1 "$(printf 'issue x\nadvance 1\nask a\n; reserved in asked, free in free')" asked free
same expect 1 "$(printf 'issue x\nadvance 1\nask a\n; reserved in asked, free in free')" free asked
same expect 1 "$(printf '; class y is of k alone\nissue x\nissue x\nissue x\n; refused by k, accepted by no_class_but_x')" k no_class_but_x
same expect 1 "$(printf '; ask a is of asked alone\nissue x\nissue x\n; refused by asked, accepted by no_class_but_x')" asked no_class_but_x
same expect 2 'fault header line 1 BadHeader' header cut
same expect 2 'fault cut line 12 Truncated' k cut
same expect 2 'fault cut line 12 Truncated' cut header
same expect 2 'fault other_row line 9 OutOfRange' asked other_row
same expect 2 'fault d line 1 BadHeader' k d
same expect 2 'fault longest_tables line 1 Truncated' longest_tables k
same expect 3 'limit pairs' counters always
same expect 3 'limit pairs' always counters
same expect 3 'limit long_tables bytes' long_tables header
same expect 3 'limit long_tables bytes' header long_tables
same expect 6 'file missing could not be read' missing header
same expect 6 'file missing could not be read' header missing
same expect 6 'file folder could not be read' k folder
same expect_memory 65536 longest_tables k
same expect_sink k k
same expect_sink k other

# words
expect 4 "$usage"
expect 4 "$usage" compile
expect 4 "$usage" compile d more
expect 4 "$usage" compile -d
expect 4 "$usage" replay d
expect 4 "$usage" replay d t more
expect 4 "$usage" replay -d t
expect 4 "$usage" compile d "$(printf '\377')"
expect 4 "$usage" replay d "$(printf '\377')"
expect 4 "$usage" replay d t "$(printf '\377')"
# the program's own name is no word
mkdir "$(printf '\377')"
cp "$hz" "$(printf '\377')"
text=$("./$(printf '\377')/${hz##*/}" replay d t 2> errors; ended=$?; echo .; exit $ended)
status=$?
text=${text%.}
ends 0 'accepted 2 issues 1 cycles' replay d t
expect 4 "$usage" walk k
expect 4 "$usage" walk k t more
expect 4 "$usage" walk k --trace
expect 4 "$usage" schedule d
expect 4 "$usage" eval b -
expect 4 "$usage" timed d b
expect 4 "$usage" timed d b s more
expect 4 "$usage" timed d b -s
expect 4 "$usage" bound d
expect 4 "$usage" bound d b more
expect 4 "$usage" bound d -b
expect 4 "$usage" duo d b
expect 4 "$usage" duo d b b more
expect 4 "$usage" duo d b -b
expect 4 "$usage" modulo d
expect 4 "$usage" modulo d b more
expect 4 "$usage" modulo d -b
expect 4 "$usage" Compile d
expect 4 "$usage" comp d
expect 4 "$usage" drill d 1
expect 4 "$usage" drill d 1 4 more
expect 4 "$usage" drill d 2147483648 4
expect 4 "$usage" drill d 1 1000001
expect 4 "$usage" drill d -1 4
expect 4 "$usage" drill d 1 ''
expect 4 "$usage" drill d 00000000001 4
expect 4 "$usage" drill missing 1 1000001
expect 4 "$usage" help
expect 4 "$usage" --help
expect 4 "$usage" --version
expect 4 "$usage" -- compile d
expect 4 "$usage" compile -- d

why_usage='usage: hz_why DESC TRACE'
why expect 4 "$why_usage"
why expect 4 "$why_usage" d
why expect 4 "$why_usage" d t more
why expect 4 "$why_usage" replay d t
why expect 4 "$why_usage" -d t
why expect 4 "$why_usage" d -
why expect 4 "$why_usage" missing --trace
why expect 4 "$why_usage" --help
why expect 4 "$why_usage" d "$(printf '\377')"

same_usage='usage: hz_same TABLES TABLES'
same expect 4 "$same_usage"
same expect 4 "$same_usage" k
same expect 4 "$same_usage" k k k
same expect 4 "$same_usage" same k k
same expect 4 "$same_usage" -k k
same expect 4 "$same_usage" k -
same expect 4 "$same_usage" missing --tables
same expect 4 "$same_usage" --help
same expect 4 "$same_usage" k "$(printf '\377')"

# a file that fails after as many bytes as are allowed: it gives words of eight bytes alone, and no single byte
words=/proc/self/pagemap
if [ -r "$words" ]; then
    expect 6 "file $words could not be read" compile "$words"
    expect 6 "file $words could not be read" replay "$words" missing
    expect 6 "file $words could not be read" replay d "$words"
    expect 6 "file $words could not be read" walk k "$words"
    expect 6 "file $words could not be read" schedule d "$words"
    expect 6 "file $words could not be read" timed d b "$words"
    expect 6 "file $words could not be read" duo d b "$words"
    expect 6 "file $words could not be read" modulo d "$words"
    expect 6 "file $words could not be read" eval "$words" missing
    expect 6 "file $words could not be read" eval b "$words"
    expect 6 "file $words could not be read" drill "$words" 1 4
    why expect 6 "file $words could not be read" "$words" missing
    why expect 6 "file $words could not be read" d "$words"
    same expect 6 "file $words could not be read" "$words" missing
    same expect 6 "file $words could not be read" k "$words"
fi

# a file that may not be read, where the user may not read all files
if [ "$(id -u)" != 0 ]; then
    : > closed
    chmod 0 closed
    expect 6 'file closed could not be read' replay d closed
fi
exit $bad
