#!/bin/sh
# Builds GCC's program genautomata alone, from a GCC source, for one target:
#
#   sh tools/build_genautomata.sh SOURCE FOLDER
#
# SOURCE is a tar file of GCC's source, or a folder with it. The program is left in FOLDER/genautomata, and what it is made of
# in FOLDER too. A program that is there already is kept. HZ_JOBS is how many jobs make may run, 2 if it is not set.
#
# It takes gcc, g++, make, flex, bison, xz, and the headers of gmp, mpfr and mpc: in Debian
# apt-get install g++ make flex bison xz-utils libgmp-dev libmpfr-dev libmpc-dev
set -u
fail() {
    echo "build_genautomata.sh: $*" >&2
    exit 2
}
[ $# = 2 ] || fail 'usage: build_genautomata.sh SOURCE FOLDER'
mkdir -p "$2" || fail "no folder $2"
folder=$(cd "$2" && pwd)
[ ! -x "$folder/genautomata" ] || exit 0
jobs=${HZ_JOBS:-2}
for word in gcc g++ make flex bison xz; do
    command -v $word > /dev/null || fail "no program $word"
done

# 1. the source; of a tar file without tests and without the languages that are not built
if [ -d "$1" ]; then
    source=$(cd "$1" && pwd)
else
    [ -f "$1" ] || fail "no source $1"
    if [ ! -e "$folder/source/whole" ]; then
        rm -rf "$folder/source"
        mkdir -p "$folder/source"
        tar -xf "$1" -C "$folder/source" --strip-components=1 --exclude='*/gcc/testsuite/*' \
            --exclude='*/libstdc++-v3/testsuite/*' --exclude='*/gcc/ada' --exclude='*/gcc/po' --exclude='*/libgo' --exclude='*/libphobos' \
            --exclude='*/libada' --exclude='*/libsanitizer' || fail "$1 could not be unpacked"
        touch "$folder/source/whole"
    fi
    source=$folder/source
fi
[ -e "$source/gcc/genautomata.cc" ] || [ -e "$source/gcc/genautomata.c" ] || fail "$1 has no gcc/genautomata.cc"

# its configure asks for three libraries, installed or in folders of the source
for word in gmp mpfr mpc; do
    [ -d "$source/$word" ] || echo "#include <$word.h>" | gcc -E - > /dev/null 2>&1 || fail "no header $word.h"
done

# 2. GCC's own configure, for a target that has a pipeline description
made=$folder/made
log=$folder/log
mkdir -p "$made"
cd "$made" || exit 2
if [ ! -e Makefile ]; then
    "$source/configure" --target=arm-none-eabi --enable-languages=c --disable-bootstrap --disable-multilib --disable-nls \
        --enable-checking=release CFLAGS=-O2 CXXFLAGS=-O2 CFLAGS_FOR_BUILD=-O2 CXXFLAGS_FOR_BUILD=-O2 > "$log" 2>&1 ||
        fail "configure failed: $log"
fi

# 3. the libraries that the program needs, and the program, with the options of a release
{
    make -j"$jobs" all-build-libiberty configure-gcc &&
        { make -j"$jobs" all-libiberty all-libcpp || true; } &&
        mkdir -p gcc/build && make -C gcc -j"$jobs" CFLAGS=-O2 CXXFLAGS=-O2 build/genautomata
} >> "$log" 2>&1 || fail "make failed: $log"
cp gcc/build/genautomata "$folder/genautomata.new" && mv "$folder/genautomata.new" "$folder/genautomata"
