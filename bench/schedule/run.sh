#!/bin/sh
# Times `hz schedule` on blocks of 1,024, 2,048 and 4,096 instructions on a machine with one unit: of instructions that depend on
# none, of a chain that waits a thousand cycles for each, of instructions that depend on all before them, and of instructions that
# take the unit for 256 cycles each. The least of five runs each, with the greatest memory. Then 4,096 of them, and as many stores
# of loads that depend on all before them, without bypasses and under a thousand with the guard of stores. Then one instruction, under a
# bypass that lists its class again and again on both sides.
hz=$1
. "$(dirname "$0")/../instructions.sh"
make_machine u u
add_class late 1000 u
add_class long 4 'u*256'

# typed_block KIND COUNT: a block of so many instructions, which are `late` in a chain
typed_block() {
    case $1 in
        chain) block chain "$2" late ;;
        long) block none "$2" long ;;
        *) block "$1" "$2" ;;
    esac
}

echo "kind instructions cycles ms doubling peak_kB"
for kind in none chain all long; do
    before=
    for count in 1024 2048 4096; do
        typed_block "$kind" "$count" > "$data/block_$kind"
        cycles=$("$hz" schedule "$machine" "$data/block_$kind" | awk '/^scheduled/ { print $4 }')
        time=$(least "$hz" schedule "$machine" "$data/block_$kind")
        peak=-
        if [ -x /usr/bin/time ]; then
            peak=$( { /usr/bin/time -f %M "$hz" schedule "$machine" "$data/block_$kind" > /dev/null; } 2>&1 | tail -n 1)
        fi
        echo "$kind $count $cycles $(ms "$time") $(doubling "$time" "$before") $peak"
        before=$time
    done
done

cp "$machine" "$data/guarded.md"
awk 'BEGIN { for (i = 0; i < 1000; i++) printf "(define_bypass %d \"one,late\" \"one,late\" \"store_data_bypass_p\")\n", i + 1 }' >> "$data/guarded.md"
echo "kind plain_ms guarded_ms times"
for kind in none chain all stored; do
    typed_block "$kind" 4096 > "$data/block_$kind"
    plain=$(used "$hz" schedule "$machine" "$data/block_$kind")
    guarded=$(used "$hz" schedule "$data/guarded.md" "$data/block_$kind")
    echo "$kind $(ms "$plain") $(ms "$guarded") $(doubling "$guarded" "$plain")"
done

block none 1 > "$data/block_listed"
echo "names_a_side ms doubling"
before=
for count in 50000 100000 200000 400000; do
    cp "$machine" "$data/listed.md"
    awk -v n="$count" '
        function list(i) { printf " \""; for (i = 1; i < n; i++) printf "one,"; printf "one\"" }
        BEGIN { printf "(define_bypass 2"; list(); list(); print ")" }' >> "$data/listed.md"
    time=$(used "$hz" schedule "$data/listed.md" "$data/block_listed")
    echo "$count $(ms "$time") $(doubling "$time" "$before")"
    before=$time
done
