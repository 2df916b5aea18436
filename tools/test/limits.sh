#!/bin/sh
# Tries tools/check_limits.py on a copy of the sources and pages in which one thing at a time is changed: each is reported in a line.
top=$(cd "$(dirname "$0")/../.." && pwd)
work=$(mktemp -d) || exit 2
trap 'rm -rf "$work"' EXIT
PYTHONDONTWRITEBYTECODE=1
export PYTHONDONTWRITEBYTECODE
(cd "$top" && tar -c --exclude=out --exclude=data docs tools crates.txt crates) | tar -x -C "$work" || exit 2
for rows in hz_rows hz_layer_rows; do cp -r "$top/crates/$rows/data" "$work/crates/$rows" || exit 2; done
bad=0

# tells FILE COMMAND LINE..: with FILE changed by a command of sed, the list, the pages and the sources differ so
tells() {
    file=$1
    command=$2
    shift 2
    sed -i.kept "$command" "$work/$file"
    reported=$(python3 "$work/tools/check_limits.py" 2>&1)
    mv "$work/$file.kept" "$work/$file"
    [ "$reported" = "$(printf '%s\n' "$@")" ] || { echo "check_limits.py on $file, $command: $reported"; bad=1; }
    echo "check_limits.py: $1"
}

ended() { echo "limits: $runs ends in the list, 0 runs, $1 wrong"; }
runs=$(python3 "$work/tools/check_limits.py" | sed 's/limits: \([0-9]*\) ends.*/\1/')
[ "$runs" -gt 40 ] || { echo "check_limits.py: $runs ends"; exit 1; }
row=$(grep -n '^| classes | 1,024 |' "$work/docs/RULES.md" | cut -d: -f1)
tells docs/RULES.md 's/^| classes | 1,024 |/| classes | 1,025 |/' "docs/RULES.md:$row: no run of tools/limits at 1,025 of 'classes'" \
    "docs/RULES.md:$row: \`class_limit\` is 1024, which the row has not" \
    "tools/limits/ends.py: no number 1,024 of 'classes' in docs/RULES.md, 'Limits'" "$(ended 3)"
tells docs/RULES.md "${row}s/class_limit/unit_limit/" "docs/RULES.md:$row: \`unit_limit\` is 256, which the row has not" "$(ended 1)"
tells docs/RULES.md "${row}s/class_limit/classes/" "docs/RULES.md:$row: no definition \`classes\` in Limits or TraceLimits" "$(ended 1)"
tells docs/LIMITS.md '1s/Limits/Ends/' \
    "docs/LIMITS.md: not as the list says; make it again with \`python3 tools/check_limits.py --page > docs/LIMITS.md\`" "$(ended 1)"
line=$(grep -n '^hz_io slurp' "$work/tools/limits/calls.txt" | cut -d: -f1)
tells tools/limits/calls.txt "${line}s/slurp/sip/" "tools/limits/calls.txt: 0 lines of \`hz_io slurp\`, 1 is wanted" \
    "tools/limits/calls.txt:$line: no public call \`sip\` of hz_io can want memory" "$(ended 2)"
tells tools/limits/calls.txt "${line}s/ | .*//" "check_limits.py: tools/limits/calls.txt:$line: \`crate call | input | limit | run\` is wanted"
exit $bad
