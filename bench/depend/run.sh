#!/bin/sh
# Times dependence graphs of 1,024, 2,048 and 4,096 instructions with four registers and two cells each, without the
# reading of the block: where each depends on all before it, and where none depends on another. The least of five runs each,
# with the greatest memory.
. "$(dirname "$0")/../common.sh"

# The program has a proof, which lies beside its source.
top=$(pwd)
rt() {
    mkdir -p proofs/checked_of
    cp "$top/bench/depend/checked_of.antt.in" proofs/checked_of/Answers.antt
    command rt "$@"
}

build_program depending bench/depend/depending.rt.in 'hz_description_model hz_sexp hz_mdread hz_check hz_rtl hz_depend' 'all 16 graph' \
    $(below hz_depend)
depending=$room/crates/depending/out/depending

echo "kind instructions edges ms doubling ns_a_pair peak_kb"
for kind in all none; do
    before=
    for count in 1024 2048 4096; do
        edges=$("$depending" "$kind" "$count" graph)
        read=$(least "$depending" "$kind" "$count" read)
        whole=$(least "$depending" "$kind" "$count" graph)
        time=$((whole - read))
        peak=$(/usr/bin/time -f %M "$depending" "$kind" "$count" graph 2>&1 > /dev/null)
        echo "$kind $count $edges $(awk -v t="$time" 'BEGIN { printf "%.1f", t / 1000000 }') $(doubling "$time" "$before") $(awk -v t="$time" -v n="$count" 'BEGIN { printf "%.1f", t / (n * (n - 1) / 2) }') $peak"
        before=$time
    done
done
