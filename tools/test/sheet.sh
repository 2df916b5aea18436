#!/bin/sh
# sheet.sh HZ [HZ_WHY]: tries tools/sheet.py: its modules, a page of an example, and what it says of bad input, of an output that can't be
# written and of programs that are missing. Then no page is there. HZ_WHY is looked for beside HZ and where the gate builds it, if it is not
# given; without it, or without Jinja2, the modules alone are tried.
hz=$(cd "$(dirname "$1")" && pwd)/$(basename "$1")
test=$(cd "$(dirname "$0")" && pwd)
tools=$(dirname "$test")
hz_why=$2
for each in "$(dirname "$hz")/hz_why" "$(dirname "$hz")/../../hz_why/out/hz_why"; do
    [ -n "$hz_why" ] || { [ -x "$each" ] && hz_why=$each; }
done
PYTHONDONTWRITEBYTECODE=1
export PYTHONDONTWRITEBYTECODE
bad=0

# the interpreter itself, and not a word that chooses one
python=
for each in python3 /usr/bin/python3; do
    [ -n "$python" ] || python=$("$each" -c 'import jinja2, sys; print(sys.executable)' 2> /dev/null)
done
(cd "$test" && "${python:-python3}" -m unittest -q test_sheet) || bad=1
[ -n "$python" ] || { echo "no Jinja2: sheet.py makes no page here"; exit $bad; }
[ -n "$hz_why" ] || { echo "no hz_why: sheet.py makes no page here"; exit $bad; }
hz_why=$(cd "$(dirname "$hz_why")" && pwd)/$(basename "$hz_why")

work=$(mktemp -d) || exit 2
trap 'rm -rf "$work"' EXIT
cp "$tools"/../examples/data_sheet/* "$work"
cd "$work" || exit 2
: > before
: > after

wrong() {
    echo "$*"
    bad=1
}

# sheet WORDS..: runs the tool
sheet() {
    "$python" "$tools/sheet.py" --hz "$hz" --hz-why "$hz_why" "$@"
}

# refuses STATUS TEXT WORDS..: the tool, given the words, says the text and ends with the status; no page and nothing else is written
refuses() {
    want=$1
    text=$2
    shift 2
    ls -A > before
    reported=$(sheet "$@" 2>&1)
    status=$?
    ls -A > after
    [ "$status" = "$want" ] && [ "$reported" = "$text" ] && [ ! -e page.html ] && cmp -s before after ||
        wrong "sheet.py $*: $status, '$reported', wanted $want, '$text'"
    echo "sheet.py $*: $reported"
}

# shows PAGE TEXT..: the page has the texts
shows() {
    page=$1
    shift
    for each; do
        grep -qF -- "$each" "$page" || wrong "$page does not show '$each'"
    done
}

sheet -o whole.html --block projection.block --block quotient.block --trace port.trace machine.md || wrong "the example: status $?"
shows whole.html '<title>machine.md: data sheet</title>' 'refused line 8 mul' 'insn 5 (a result, cost 4)' 'multiplier is held by insn 2' \
    'The tool itself is not proved.' 'No schedule of the block ends before cycle <strong>16</strong>' 'A turn can begin every <strong>5 cycles</strong>'
grep -qiE '(src|href) *= *"?(https?:)?//|@import|url\(' whole.html && wrong "whole.html asks for something elsewhere"
sheet -o again.html --block projection.block --block quotient.block --trace port.trace machine.md
cmp -s whole.html again.html || wrong "the same inputs make another page"
echo "sheet.py: whole.html, $(wc -c < whole.html) bytes"

printf '(define_cpu_unit "u")\n(define_insn_reservation "x" 1 (const_int 1) "v")\n' > wrong.md
refuses 2 'fault wrong.md line 2 UnknownName v' -o page.html wrong.md
printf '(define_insn_reservation "x" 1 (const_int 1) "nothing*513")\n' > long.md
refuses 3 'limit long.md line 1 Cycles x' -o page.html long.md
printf '(insn 1 (set (reg 256) (const_int 0)))\n' > wrong.block
refuses 2 'fault wrong.block line 1 RegisterRange' -o page.html --block projection.block --block wrong.block machine.md
printf 'issue alu\nissue none\n' > wrong.trace
refuses 2 'fault wrong.trace line 2 UnknownClass' -o page.html --trace wrong.trace machine.md
refuses 6 'file missing.md could not be read' -o page.html missing.md
refuses 6 'file missing.block could not be read' -o page.html --block missing.block machine.md
refuses 2 'machine.md: an input is not written over' -o machine.md machine.md
refuses 2 'none/page.html: No such file or directory' -o none/page.html machine.md
refuses 2 "$work: Is a directory" -o "$work" machine.md
refuses 2 '/dev/null: is no regular file' -o page.html --trace /dev/null machine.md
refuses 2 './no_hz: no such program' --hz ./no_hz -o page.html machine.md
refuses 2 './no_why: no such program' --hz-why ./no_why -o page.html machine.md
refuses 2 '-o: the name of the page is empty' -o '' machine.md
refuses 2 '/dev/full: No space left on device' -o /dev/full machine.md
cp machine.md ./-m.md
refuses 2 '-m.md: a name that begins with - is given as ./-m.md' -o page.html -- -m.md
odd=$(printf 'm\377.md')
cp machine.md "$odd"
refuses 2 "$odd: the name is no UTF-8, and hz takes no other" -o page.html "$odd"
cp wrong.md 'é.md'
LC_ALL=C refuses 2 'fault é.md line 2 UnknownName v' -o page.html 'é.md'
refuses 2 'hz compile answers no tables; no page is written' --hz "$(command -v true)" -o page.html machine.md
refuses 2 'hz_why neither accepts nor refuses; no page is written' --hz-why "$(command -v true)" -o page.html --trace port.trace machine.md
said=$("$python" -S "$tools/sheet.py" --hz "$hz" --hz-why "$hz_why" -o page.html machine.md 2>&1)
[ "$?:$said" = '2:no Jinja2 for this python3 (Debian: python3-jinja2)' ] && [ ! -e page.html ] || wrong "without Jinja2: $said"
printf '#!/bin/sh\nkill -9 $$\n' > killed
chmod +x killed
refuses 2 'killed: ended by signal 9' --hz ./killed -o page.html machine.md
# a page that is there stays as it was
echo old > page.kept
sheet -o page.kept wrong.md 2> /dev/null
[ "$(cat page.kept)" = old ] || wrong "page.kept was written"
# a page goes to a pipe too, and an end by a signal leaves nothing
sheet -o /dev/stdout machine.md | grep -q '^</html>' || wrong "no page in a pipe"
mkdir own
printf '#!/bin/sh\nexec sleep 30\n' > slow
chmod +x slow
TMPDIR=$work/own "$python" "$tools/sheet.py" --hz ./slow --hz-why "$hz_why" -o page.html machine.md &
tool=$!
tries=0
while [ -z "$(ls -A own)" ] && [ $tries -lt 200 ]; do
    sleep 0.1
    tries=$((tries + 1))
done
kill $tool
wait $tool
[ "$?" = 143 ] && [ -z "$(ls -A own)" ] && [ ! -e page.html ] || wrong "ended by a signal: $(ls -A own)"
# a body of a loop that is too long has no kernel, and the page says so
place=0
while [ $place -lt 257 ]; do
    place=$((place + 1))
    echo "(insn $place (set (reg $((place % 8))) (const_int 1)))"
done > loop.block
sheet -o loop.html --block loop.block machine.md || wrong "a long body: status $?"
shows loop.html '<code>hz modulo</code> answers: <code>limit loop.block insns</code>'
# without dot the page says so
PATH=$work "$python" "$tools/sheet.py" --hz "$hz" --hz-why "$hz_why" -o plain.html machine.md || wrong "without dot: status $?"
shows plain.html 'The program dot of graphviz is missing (Debian: graphviz), so there is no graph here.'
exit $bad
