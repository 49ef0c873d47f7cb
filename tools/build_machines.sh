#!/bin/bash
# Builds what a release has for machines other than the one that `rt lib` and `rt run` build for, x86-64-v2: the library
# for C and the program for each x86-64 processor, in out/x86_64 of crates/bidi_c and crates/bidi, and the library for
# 64-bit ARM, in crates/bidi_c/out/aarch64. The kit links no program for ARM. All is proved as for x86-64-v2. What is in
# crates/bidi_c/out and crates/bidi/out itself stays. Its status is 0 if all is built. Without the compiler for 64-bit
# ARM (Debian's gcc-aarch64-linux-gnu) it says that it builds nothing for that.
#
# usage: tools/build_machines.sh      (some minutes if `rt check` or `rt lib` proved the crates before)
set -eu
cd "$(dirname "$0")/.."
# shellcheck source=c/machine.sh
. c/machine.sh
for MACHINE in $(machines_here); do
    export MACHINE
    c/build_library.sh
done
export MACHINE=x86_64
. c/machine.sh
cd crates/bidi
mkdir -p "out$subfolder"
# `rt run` has one file for all machines, and a stamp that says which sources it is of.
for file in bidi bidi.stamp; do [ ! -e "out/$file" ] || mv "out/$file" "out$subfolder/other.$file"; done
restore() {
    for file in bidi bidi.stamp; do
        [ ! -e "out$subfolder/other.$file" ] || mv "out$subfolder/other.$file" "out/$file"
    done
}
trap restore EXIT
rt run "${for_rt[@]}" -- --version
mv out/bidi "out$subfolder/bidi"
