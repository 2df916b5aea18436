# What the measurements share: they run at the top of the repository, with their inputs in bench/data.
cd "$(dirname "$0")/../.." || exit 2
data=bench/data
mkdir -p "$data"
: > "$data/empty"

# least COMMAND..: the least time of five runs, in nanoseconds
least() {
    best=
    for _ in 1 2 3 4 5; do
        from=$(date +%s%N)
        "$@" > /dev/null
        to=$(date +%s%N)
        time=$((to - from))
        if [ -z "$best" ] || [ "$time" -lt "$best" ]; then best=$time; fi
    done
    echo "$best"
}

# used COMMAND..: the least processor time of five runs, the user's and the system's, in nanoseconds
used() {
    for _ in 1 2 3 4 5; do
        /usr/bin/time -f '%U %S' "$@" 2>&1 > /dev/null | tail -n 1
    done | awk '{ t = $1 + $2; if (NR == 1 || t < best) best = t } END { printf "%.0f", best * 1000000000 }'
}

# below CRATE: the crate and all of the repository that it stands on
below() {
    awk -F: -v crate="$1" '
        { needs[$1] = $2 }
        function reach(name, parts, count, i) {
            if (!(name in needs) || name in found) return
            found[name]
            print name
            count = split(needs[name], parts, " ")
            for (i = 1; i <= count; i++) reach(parts[i])
        }
        END { reach(crate) }' crates.txt
}

# doubling TIME BEFORE: how many times the time before, if there is one
doubling() {
    awk -v t="$1" -v p="${2:-0}" 'BEGIN { print p ? sprintf("%.2f", t / p) : "-" }'
}

# ms TIME: milliseconds
ms() {
    awk -v t="$1" 'BEGIN { printf "%.0f", t / 1000000 }'
}

# rate BYTES TIME: megabytes a second
rate() {
    awk -v b="$1" -v t="$2" 'BEGIN { printf "%.1f", b * 1000 / t }'
}

# delays CLASSES: a unit, and classes that take it so many cycles after their issue
delays() {
    awk -v n="$1" 'BEGIN {
        print "(define_cpu_unit \"u\")"
        for (k = 0; k < n; k++) print "(define_insn_reservation \"c" k "\" 1 (const_int 1) \"" (k ? "nothing*" k ", " : "") "u\")"
    }'
}

# make_trace MACHINE EVENTS: a trace that is accepted; on the superscalar machine ten cycles and what they issue, again
# and again
make_trace() {
    case $1 in
        memory_pipe) awk -v n="$2" 'BEGIN { for (i = 0; i < n; i++) print (i % 3 == 0) ? "issue load" : (i % 3 == 1) ? "issue store" : "advance 1" }' ;;
        superscalar) awk -v n="$2" 'BEGIN {
            split("div s - s f - s f - s f - s f - s f - s - s f - s - s -", turn, " ")
            text["div"] = "issue div"; text["s"] = "issue simple"; text["f"] = "issue float"; text["-"] = "advance 1"
            for (size = 1; size in turn; size++);
            for (i = 0; i < n; i++) print text[turn[i % (size - 1) + 1]]
        }' ;;
    esac
}

# looking_through PROGRAM: gives the program in this folder what the rows of least tables have to look through a table, in
# functions `is_row` and `is_table`: the definitions and the proofs
looking_through() {
    mkdir -p specs proofs/is_row proofs/is_table
    echo 'pub mod Leading' > specs/Lib.antt
    printf 'pub mod LeadingRows\npub mod LeadingLemmas\n' > proofs/Lib.antt
    for file in specs/Leading.antt proofs/LeadingRows.antt proofs/LeadingLemmas.antt is_row/Invariants.antt is_table/Invariants.antt is_table/Answers.antt; do
        case $file in
            is_*) from=proofs/automata/tables/$file to=proofs/$file ;;
            *) from=$file to=$file ;;
        esac
        sed "s/hz_layer_rows\.proofs\.automata\.tables\./$1.proofs./; s/hz_layer_rows\./$1./" "$top/crates/hz_layer_rows/$from" > "$to"
    done
}

# build_program PROGRAM SOURCE DEPENDENCIES ARGUMENTS CRATE..: proves and builds a program that measures crates, with
# these crates copied beside it, into $room/crates/PROGRAM/out, and runs it once with the arguments. The gate stops at a
# source that no crate of the repository reads, so the source has another ending here and the room is outside the
# repository. With a kit with which checkouts share nothing, what is built of these crates is taken along.
build_program() {
    program=$1 source=$2 dependencies=$3 arguments=$4
    shift 4
    room=$(mktemp -d)
    trap 'rm -rf "$room"' EXIT
    mkdir -p "$room/crates/$program/src"
    cp "$source" "$room/crates/$program/src/main.rt"
    shares=$(command rt help 2>&1 | grep 'rt ci \[\{0,1\}NAME')
    for crate in "$@"; do
        mkdir -p "$room/crates/$crate"
        for part in src specs proofs; do
            if [ -d "crates/$crate/$part" ]; then cp -r "crates/$crate/$part" "$room/crates/$crate"; fi
        done
        if [ -z "$shares" ] && [ -d "crates/$crate/out/rlib" ]; then
            mkdir "$room/crates/$crate/out"
            cp -rl "crates/$crate/out/rlib" "$room/crates/$crate/out" 2> /dev/null || cp -r "crates/$crate/out/rlib" "$room/crates/$crate/out"
        fi
        grep "^$crate:" crates.txt >> "$room/crates.txt"
    done
    echo "$program: $dependencies" >> "$room/crates.txt"
    (cd "$room/crates/$program" && rt run -- $arguments) > "$data/$program.built" 2>&1 || { tail -n 20 "$data/$program.built"; exit 1; }
}
