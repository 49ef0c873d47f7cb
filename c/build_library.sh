#!/bin/bash
# Builds the library that C links, crates/bidi_c/out/libbidi_c.a, with `rt lib`, and its shared object if gcc is
# installed. It takes seconds if `rt check` or `rt lib` proved the crates on this machine before. Otherwise it proves
# each crate below it.
#
# usage: c/build_library.sh      (its status is 0 if they are built)
#
# MACHINE in the environment names another machine, x86_64 or aarch64 (machine.sh): then the library is built in
# crates/bidi_c/out/MACHINE, and the one in crates/bidi_c/out stays. For aarch64 it needs Debian's
# gcc-aarch64-linux-gnu, with which it also builds the part that allocates, libbidi_c_heap.a, from heap.c.
set -eu
cd "$(dirname "$0")"
# shellcheck source=c/machine.sh
. ./machine.sh
made=../crates/bidi_c/out/libbidi_c.a
if [ -z "$subfolder" ]; then
    (cd ../crates/bidi_c && rt lib)
else
    mkdir -p "$out"
    # `rt lib` has one file for all machines.
    [ ! -e "$made" ] || mv "$made" "$out/other.a"
    trap '[ ! -e "$out/other.a" ] || mv "$out/other.a" "$made"' EXIT
    (cd ../crates/bidi_c && rt lib "${for_rt[@]}")
    mv "$made" "$out/"
fi
if [ "${MACHINE:-}" = aarch64 ]; then
    "${cross}gcc" -O2 -Wall -Wextra -fPIC -c -o "$out/heap.o" heap.c
    rm -f "$out/libbidi_c_heap.a"
    "${cross}ar" rcsD "$out/libbidi_c_heap.a" "$out/heap.o"
fi
if command -v "${cross}gcc" > /dev/null; then ./build_shared.sh; fi
