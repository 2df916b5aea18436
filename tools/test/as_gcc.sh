#!/bin/sh
# Tries `tools/extract.py --as-gcc` on a made port: each change is reported, and hz answers as genautomata reads, where it answers otherwise
# to the port as it is.
hz=$(cd "$(dirname "$1")" && pwd)/$(basename "$1")
tools=$(cd "$(dirname "$0")/.." && pwd)
work=$(mktemp -d) || exit 2
trap 'rm -rf "$work"' EXIT
PYTHONDONTWRITEBYTECODE=1
export PYTHONDONTWRITEBYTECODE
cp "$tools"/test/wren* "$work"
cd "$work" || exit 2
bad=0

wrong() {
    echo "$*"
    bad=1
}

# extracts OUT WORDS..: OUT.md is written
extracts() {
    out=$1
    shift
    python3 "$tools/extract.py" -o "$out.md" "$@" 2> reported || wrong "extract.py $*: status $?"
    echo "extract.py $*: $(tail -n 1 reported)"
}

# answers PLAIN GCC EVENT..: hz answers so to the events on the port as it is, and as genautomata reads it
answers() {
    plain=$1
    gcc=$2
    shift 2
    printf '%s\n' "$@" > trace
    for each in "plain $plain" "wren $gcc"; do
        name=${each%% *}
        answer=$("$hz" replay "$name.md" trace)
        [ "$answer" = "${each#* }" ] || wrong "hz on $name.md: '$answer', wanted '${each#* }'"
        echo "hz on $name.md: $answer"
    done
}

extracts wren --as-gcc wren-port.md
diff wren.changes reported || wrong "wren: other changes"
diff wren.written wren.md || wrong "wren: another text"
# hz takes no alternation of units of two automata, so the port as it is goes without that class
extracts mixed wren-port.md
case $("$hz" replay mixed.md /dev/null) in
    *' AlternationOfTwoAutomata w_mixed') ;;
    *) wrong "mixed.md: $("$hz" replay mixed.md /dev/null)" ;;
esac
sed '/"w_mixed"/d' wren-port.md > without.md
extracts plain without.md

# one pattern of two statements suffices, and the unit that stands for two is in a pattern as they are
answers 'refused line 2 w_pairs' 'accepted 2 issues 0 cycles' 'issue w_first' 'issue w_pairs'
answers 'refused line 1 w_pairs' 'refused line 1 w_pairs' 'issue w_pairs'
answers 'refused line 1 w_both' 'accepted 2 issues 0 cycles' 'issue w_both' 'issue w_pairs'
# it excludes both, itself, and is free in the next cycle
answers 'refused line 1 w_both' 'refused line 2 w_first' 'issue w_both' 'issue w_first'
answers 'refused line 1 w_both' 'refused line 2 w_last' 'issue w_both' 'issue w_last'
answers 'refused line 2 w_both' 'refused line 2 w_both' 'issue w_last' 'issue w_both'
answers 'refused line 1 w_both' 'refused line 2 w_both' 'issue w_both' 'issue w_both'
answers 'refused line 1 w_both' 'accepted 2 issues 1 cycles' 'issue w_both' 'advance 1' 'issue w_last'
# the order of the first class
answers 'accepted 2 issues 0 cycles' 'refused line 2 w_one' 'issue w_copy' 'issue w_one'
answers 'refused line 2 w_one' 'refused line 2 w_one' 'issue w_move' 'issue w_one'
# a unit that can be asked stays, so this class never fits
answers 'refused line 1 w_busy' 'refused line 1 w_busy' 'issue w_busy'
# parts of two alternatives
printf '%s\n' 'issue w_one' 'issue w_mixed' > trace
[ "$("$hz" replay wren.md trace)" = 'accepted 2 issues 0 cycles' ] || wrong "w_mixed: $("$hz" replay wren.md trace)"

# under ndfa an issue takes any alternative, and no order counts
{ sed 's/define_query_cpu_unit/define_cpu_unit/' wren-port.md; echo '(automata_option "ndfa")'; } > any-port.md
extracts any --as-gcc any-port.md
grep -q 'in the order of' reported && wrong "any: $(grep 'in the order of' reported)"
grep -q 'w_busy takes exclusive units together' reported || wrong "any: $(cat reported)"

exit $bad
