#!/bin/sh
# Times `hz_why` beside `hz replay` on traces of 4 million events that are accepted, of a machine without alternatives and of the superscalar
# one, in the first treatment and under `ndfa`: by processor time, the least of five runs each, and by the most memory. Then on the same
# traces with an issue at their end that is refused.
hz=$1
hz_why=$2
. "$(dirname "$0")/../common.sh"

# peak COMMAND..: the most memory that it takes, in kB
peak() {
    { /usr/bin/time -f %M "$@" > /dev/null; } 2>&1 | tail -n 1
}

# beside WHAT MACHINE TRACE WORD: the times of both programs on a trace that `replay` answers with this word, and how many times as long
# the second takes
beside() {
    "$hz" replay "$2" "$3" > "$data/replayed"
    "$hz_why" "$2" "$3" > "$data/explained"
    tail -n 1 "$data/replayed" | grep -q "^$4" || { echo "$3 is not $4 by $2"; exit 1; }
    head -n "$(wc -l < "$data/replayed")" "$data/explained" | cmp -s - "$data/replayed" || { echo "$3 has two answers by $2"; exit 1; }
    replayed=$(used "$hz" replay "$2" "$3")
    explained=$(used "$hz_why" "$2" "$3")
    echo "$1 $4 $(ms "$replayed") $(ms "$explained") $(doubling "$explained" "$replayed") $(peak "$hz" replay "$2" "$3") $(peak "$hz_why" "$2" "$3")"
}

echo "machine treatment answer replay_ms why_ms times replay_kB why_kB"
for kind in memory_pipe superscalar; do
    trace=$data/trace_${kind}_4
    [ -f "$trace" ] || make_trace "$kind" 4000000 > "$trace"
    # three issues of a class in one cycle are more than either machine takes
    class=$(sed -n 's/^issue //p' "$trace" | sed -n 2p)
    { cat "$trace"; echo; for _ in 1 2 3; do echo "issue $class"; done; } > "$data/trace_refused"
    { cat "examples/$kind/machine.md"; echo '(automata_option "ndfa")'; } > "$data/any.md"
    for treatment in first ndfa; do
        machine=examples/$kind/machine.md
        [ "$treatment" = first ] || machine=$data/any.md
        beside "$kind $treatment" "$machine" "$trace" accepted
        beside "$kind $treatment" "$machine" "$data/trace_refused" refused
    done
done

# what asks much of hz_why, by processor time
echo
echo "family replay_ms why_ms"
for family in $(python3 bench/why/families.py "$data"); do
    replayed=$(used "$hz" replay "$data/$family.md" "$data/$family.trace")
    explained=$(used "$hz_why" "$data/$family.md" "$data/$family.trace")
    echo "$family $(ms "$replayed") $(ms "$explained")"
done
