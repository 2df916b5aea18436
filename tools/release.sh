#!/bin/sh
# release.sh dist|deb FOLDER: makes a release of the commands of tools/commands.txt and puts it into FOLDER, which has the programs, with its
# checksum: a tar file, or a Debian package. What was not proved is refused. The file VERSION has the version and its date. In a release every
# file has that date and belongs to root, and files are in the order of their names. So the same files make the same release.
kind=$1
into=$(cd "$2" && pwd) || exit 2
cd "$(dirname "$0")/.." || exit 2
. tools/commands.sh
are_proved "$into" || exit 2
read -r version date < VERSION || exit 2
grep -qxF "## $version ($date)" CHANGELOG.md || { echo "release.sh: CHANGELOG.md has no '## $version ($date)', by the file VERSION"; exit 2; }
LC_ALL=C
SOURCE_DATE_EPOCH=$(date -u -d "$date" +%s) || exit 2
export LC_ALL SOURCE_DATE_EPOCH
umask 022
made=
work=$(mktemp -d) || exit 2
trap 'rm -rf "$work"; [ -z "$made" ] || rm -f "$into/$made" "$into/$made.sha256"' EXIT
trap 'exit 130' INT TERM HUP

# failed: ends without a release; what could not be written is said above
failed() {
    echo "release.sh: no release is made, as the line above says"
    exit 2
}

# copy FOLDER FILE..: the files, each at its own path below FOLDER, to be read and not run
copy() {
    folder=$1
    shift
    for file; do
        install -D -m 644 "$file" "$folder/$file" || failed
    done
}

# documents FOLDER: the pages and the examples
documents() {
    copy "$1" README.md CHANGELOG.md CONTRIBUTING.md bench/README.md docs/*.md
    copy "$1" $(find examples -type f)
}

# sums COMMAND FOLDER: a line for each file below FOLDER, by name
sums() {
    (cd "$2" && find . -type f | sed 's|^[.]/||' | sort | tr '\n' '\0' | xargs -0 "$1")
}

# dated FOLDER: every file has the date of the version
dated() {
    find "$1" -exec touch -h -d "@$SOURCE_DATE_EPOCH" {} +
}

# depends: the packages with the libraries that the programs name, with the oldest C library that has all that they call, and the one that
# installs only on a processor with SSE4.2, which no processor has without the rest of x86-64-v2
depends() {
    for name in $(names program); do cat "$into/$name"; done > "$work/programs" || failed
    glibc=$(grep -aho 'GLIBC_2[.][0-9.]*' "$work/programs" | sort -uV | tail -n 1)
    printf 'libc6%s' "${glibc:+ (>= ${glibc#GLIBC_})}"
    grep -aq 'libgcc_s[.]so[.]1' "$work/programs" && printf ', libgcc-s1'
    [ "$(uname -m)" != x86_64 ] || printf ', sse4.2-support'
    echo
}

# ended FILE: puts the release, which is in the folder of work, into its place, writes its checksum, and says so
ended() {
    made=$1
    cp "$work/$1" "$into/$1" && (cd "$into" && sha256sum "$1" > "$1.sha256") || failed
    made=
    echo "hz: made $into/$1"
}

# the tar file has the folders of the repository, so that each line of README applies there
dist() {
    name=hz-$version
    root=$work/$name
    documents "$root"
    copy "$root" VERSION tools/test.sh $(find tools/test -type f) tools/check_gcc.py tools/check_walk.py tools/check_why.py tools/why_check/*.py tools/check_bound.py tools/check_modulo.py \
        tools/check_memory.py tools/check_pages.py tools/pages/*.py tools/commands.txt tools/refuse_memory.c tools/check_large.py tools/large/*.py tools/check_built.py tools/build_genautomata.sh tools/fuzz_extract.py tools/fuzz_built.py tools/check_same.py tools/same_check/*.py tools/check_sheet.py tools/sheet_check/*.py
    put_programs "$into" "$root/bin" && put_launchers "$root/bin" ../tools && put_tools "$root/tools" && put_pages "$root/man" || failed
    sums sha256sum "$root" > "$work/sums" && mv "$work/sums" "$root/SHA256SUMS" && dated "$root" || failed
    file=$name-linux-$(uname -m).tar.gz
    tar -C "$work" --format=gnu --sort=name --owner=root:0 --group=root:0 --numeric-owner -cf "$work/tar" "$name" && gzip -9n < "$work/tar" > "$work/$file" || failed
    ended "$file"
}

control() {
    cat << END
Package: hz
Version: $version
Architecture: $1
Maintainer: ${MAINTAINER:-hz <hz@localhost>}
Installed-Size: $(find "$2/usr" -type f -printf '%s\n' | awk '{ size += int(($1 + 1023) / 1024) } END { print size }')
Depends: $(depends)
Recommends: python3
Section: devel
Priority: optional
Description: compile pipeline descriptions of GCC, replay traces, schedule blocks
 hz compiles the pipeline description of a GCC port to tables of states, replays
 issue traces against it, and schedules basic blocks by it. Its answers are
 proved to follow from the rules of the description. hz_why explains why an
 issue of a trace is refused. hz_extract, in Python and not proved, takes a
 pipeline out of the files of a port.
 .
 The programs need a processor of x86-64-v2, that is one with SSE4.2. On another
 they end with status 127. hz_extract needs Python 3.
 .
 /usr/share/doc/hz has the pages and the examples.
END
}

deb() {
    root=$work/deb
    architecture=$(dpkg --print-architecture) || failed
    documents "$root/usr/share/doc/hz"
    put_programs "$into" "$root/usr/bin" && put_launchers "$root/usr/bin" ../share/hz/tools && put_tools "$root/usr/share/hz/tools" || failed
    put_pages "$root/usr/share/man/man1" && gzip -9n "$root"/usr/share/man/man1/*.1 && install -d "$root/DEBIAN" || failed
    ln -s ../../hz/tools "$root/usr/share/doc/hz/tools" || failed
    sums md5sum "$root" > "$work/sums" && mv "$work/sums" "$root/DEBIAN/md5sums" && control "$architecture" "$root" > "$root/DEBIAN/control" && dated "$root" || failed
    file=hz_${version}_$architecture.deb
    dpkg-deb --root-owner-group -Zxz --build "$root" "$work/$file" > "$work/log" 2>&1 || { cat "$work/log"; failed; }
    ended "$file"
}

case $kind in
    dist | deb) "$kind" ;;
    *) echo "usage: release.sh dist|deb FOLDER"; exit 2 ;;
esac
