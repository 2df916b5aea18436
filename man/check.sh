#!/bin/sh
# Looks at the manual pages, one for each command of tools/commands.txt. Each has the version and the date of the file VERSION. mandoc and man,
# each if it is there, have no warning, and no page is empty.
cd "$(dirname "$0")/.." || exit 2
. tools/commands.sh
work=$(mktemp -d) || exit 2
trap 'rm -rf "$work"' EXIT
bad=0

# has PAGE LINE: the page has this line
has() {
    grep -qxF "$2" "man/$1" || { echo "$1: no line '$2', by the file VERSION"; bad=1; }
}

# is_quiet NAME PAGE: the tool NAME reports nothing of the page
is_quiet() {
    if [ -s "$work/reported" ]; then
        cat "$work/reported"
        echo "$1: $2 has warnings"
        bad=1
    else
        echo "$1: no warning of $2"
    fi
}

# look NAME: looks at the page of the command
look() {
    has "$1.1" ".Os hz $version"
    has "$1.1" ".Dd $(LC_ALL=C date -u -d "$date" '+%B %-d, %Y')"
    if [ -n "$mandoc" ]; then
        mandoc -T lint -W warning "man/$1.1" > "$work/reported" 2>&1
        is_quiet mandoc "$1.1"
    fi
    if [ -n "$man" ]; then
        LC_ALL=C.UTF-8 MANWIDTH=100 man --warnings -E UTF-8 -l "man/$1.1" > "$work/text" 2> "$work/reported"
        is_quiet man "$1.1"
        grep -q "^ *$1 [^ ]" "$work/text" || { echo "man: $1.1 is empty"; bad=1; }
    fi
}

read -r version date < VERSION || exit 2
mandoc=$(command -v mandoc) || echo "no mandoc: its look at the pages is left out"
man=
if man --version 2> /dev/null | grep -q '^man 2'; then man=man; else echo "no man that takes --warnings: its look at the pages is left out"; fi
for name in $(names); do look "$name"; done
exit $bad
