#!/bin/sh
# try_deb.sh PACKAGE FOLDER: tries a Debian package in a folder of its own, and leaves the system as it is. The package unpacks; dpkg installs
# it; the installed programs are those of FOLDER and answer all installed examples, and the tools begin; dpkg removes it, and no file is left.
package=$(cd "$(dirname "$1")" && pwd)/$(basename "$1")
from=$(cd "$2" && pwd) || exit 2
cd "$(dirname "$0")/.." || exit 2
. tools/commands.sh
work=$(mktemp -d) || exit 2
trap 'rm -rf "$work"' EXIT
PATH=$PATH:/usr/sbin:/sbin
export PATH
system=$work/system
state=$system/var/lib/dpkg

# tried WHAT COMMAND..: ends the trial with what the command writes, if it fails
tried() {
    what=$1
    shift
    "$@" > "$work/log" 2>&1 || { cat "$work/log"; echo "try_deb.sh: $what: wrong"; exit 1; }
    echo "try_deb.sh: $what"
}

# who is not root takes fakeroot: the files of the folder get an owner there alone
as_root=
[ "$(id -u)" = 0 ] || as_root=fakeroot

# in_folder WORDS..: dpkg, on the folder alone; a machine may leave out pages and manual pages of what it installs, the folder has all
in_folder() {
    $as_root dpkg --force-not-root --root="$system" --log="$work/dpkg.log" --path-include='/usr/share/*' "$@"
}

# stanza PACKAGE: what dpkg notes of the package on this machine, or would note of one that is not installed here
stanza() {
    dpkg-query -s "$1" 2> /dev/null || printf '%s\n' "Package: $1" 'Status: install ok installed' 'Maintainer: nobody' \
        "Architecture: $(dpkg --print-architecture)" 'Version: 0' 'Description: not on this machine'
    echo
}

# what the package depends on counts as installed there
prepare() {
    mkdir -p "$state/info" "$state/updates" "$state/triggers" || return 1
    : > "$state/status"
    for needed in $(dpkg-deb -f "$package" Depends | sed 's/([^)]*)//g; s/,/ /g'); do
        stanza "$needed" >> "$state/status" || return 1
        : > "$state/info/$needed.list"
        : > "$state/info/$needed:$(dpkg --print-architecture).list"
    done
}

# owned: every file is root's, and nothing is outside usr
owned() {
    dpkg-deb -c "$package" > "$work/list" && ! grep -v ' root/root .* [.]/\(usr/.*\)\{0,1\}$' "$work/list"
}

# whole FOLDER: programs and manual pages are there as they are here, and all sums apply
whole() {
    for name in $(names program); do
        cmp "$from/$name" "$1/usr/bin/$name" || return 1
    done
    for name in $(names); do
        gzip -dc "$1/usr/share/man/man1/$name.1.gz" | cmp - "man/$name.1" || return 1
    done
    (cd "$1" && dpkg-deb --ctrl-tarfile "$package" | tar -xOf - ./md5sums | md5sum --quiet -c)
}

# extracts: the installed hz_extract reads an installed example, and hz what it wrote
extracts() {
    "$system/usr/bin/hz_extract" -o "$work/out.md" "$system/usr/share/doc/hz/examples/divider/machine.md" && "$system/usr/bin/hz" compile "$work/out.md"
}

# audited: dpkg has no fault to report of the package
audited() {
    faults=$(in_folder --audit hz) && [ -z "$faults" ] || { echo "$faults"; return 1; }
}

# gone: dpkg has the package no more, and the folder has no file of it
gone() {
    ! in_folder -s hz && [ -z "$(find "$system/usr" ! -type d)" ] && [ ! -e "$system/usr/share/doc/hz" ]
}

tried 'owners and places' owned
tried 'unpack' dpkg-deb -x "$package" "$work/unpacked"
tried 'what was unpacked' whole "$work/unpacked"
tried 'a folder to install in' prepare
tried 'install' in_folder --install "$package"
tried 'what was installed' whole "$system"
tried 'no fault, by dpkg' audited
tried 'all examples, by the installed programs' sh "$system/usr/share/doc/hz/examples/check.sh" "$system/usr/bin/hz" "$system/usr/bin/hz_why" "$system/usr/bin/hz_same"
if command -v python3 > /dev/null; then
    for tool in $(names tool); do tried "$tool" "$system/usr/bin/$tool" --help; done
    tried 'hz_extract and then hz' extracts
fi
tried 'remove' in_folder --purge hz
tried 'nothing is left' gone
