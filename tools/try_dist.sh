#!/bin/sh
# try_dist.sh FILE: tries a tar file of tools/release.sh in a folder of its own. The checksums apply, and the programs answer all examples,
# what tools/test.sh asks, and what pages show. Each tool begins where it is put.
file=$(cd "$(dirname "$1")" && pwd)/$(basename "$1")
cd "$(dirname "$0")/.." || exit 2
. tools/commands.sh
tools=$(names tool)
work=$(mktemp -d) || exit 2
trap 'rm -rf "$work"' EXIT

# tried WHAT COMMAND..: ends the trial with what the command writes, if it fails
tried() {
    what=$1
    shift
    "$@" > "$work/log" 2>&1 || { cat "$work/log"; echo "try_dist.sh: $what: wrong"; exit 1; }
    echo "try_dist.sh: $what"
}

(cd "$(dirname "$file")" && sha256sum --quiet -c "$file.sha256") || exit 1
tar -C "$work" -xzf "$file" || exit 1
cd "$work"/hz-* || exit 1
tried 'checksums' sha256sum --quiet -c SHA256SUMS
tried 'all examples' sh examples/check.sh bin/hz bin/hz_why bin/hz_same
if command -v python3 > /dev/null; then
    tried 'extract.py' sh tools/test.sh bin/hz
    tried 'what pages show' python3 tools/check_pages.py bin/hz bin/hz_why bin/hz_same
    for tool in $tools; do tried "$tool" "bin/$tool" --help; done
fi
