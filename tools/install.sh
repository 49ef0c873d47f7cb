#!/bin/bash
# Installs the proved program and `bidi-draw`, their manual pages, the documents and the licences; and, if the library
# for C was built, also that, as an archive and as a shared object, its header and its file for pkg-config, and
# FriBidi's calls over it. Or it removes all these. It says what it did and what not.
#
# usage: tools/install.sh [--uninstall] [--libdir DIR] PREFIX      (--help says what is installed and what it needs)
#
# It ends with 1 if something that was built is not installed, and with 2, before it does anything, if an argument is
# unknown or the program is missing. MACHINE in the environment names another machine to install for (c/machine.sh). For
# aarch64 there are no programs, since the kit links them for x86-64 alone; the library and the documents are installed.
set -u
top=$(cd "$(dirname "$0")/.." && pwd)
version=$(cat "$top/VERSION") || exit 2
help="usage: tools/install.sh [--uninstall] [--libdir DIR] PREFIX

PREFIX is a folder such as /usr/local, from the root or from where one stands. With DESTDIR in the environment it is
filled below that folder, and begins with /. --libdir names the folder of libraries below PREFIX, such as lib64 or
lib/x86_64-linux-gnu; it is lib if not given. --uninstall removes the files below, and leaves the folders.

Build first: \`rt run -- --help\` in crates/bidi proves and builds the program, \`rt lib\` in crates/bidi_c the library
for C, c/build_shared.sh its shared object, and c/fribidi/build.sh FriBidi's calls over it. The first of the
two proofs takes some 40 minutes on four cores, the other one a few minutes then, and both take seconds if nothing
changed. The library and the shared objects are installed if they were built. What is installed:

  PREFIX/bin/bidi
  PREFIX/bin/bidi-draw
  PREFIX/share/man/man1/bidi.1, PREFIX/share/man/man1/bidi-draw.1
  PREFIX/share/doc/bidi: README.md and the other documents, docs/, LICENSE-MIT, LICENSE-APACHE, LICENSE-UNICODE, NOTICES
  PREFIX/include/bidi.h
  PREFIX/LIBDIR/libbidi_c.a, PREFIX/LIBDIR/libbidi_c_heap.a, PREFIX/LIBDIR/pkgconfig/bidi_c.pc
  PREFIX/LIBDIR/libbidi_c.so.$version, and the links libbidi_c.so.${version%%.*} and libbidi_c.so to it
  PREFIX/LIBDIR/bidi/libfribidi_over_bidi.so, which docs/FRIBIDI.md describes

The program needs Linux on x86-64-v2 (a processor of 2009 or later) and the C library, no other library. bidi-draw
needs Python 3.8 or later. MACHINE=x86_64 in the environment installs what tools/build_machines.sh built for each x86-64
processor, and MACHINE=aarch64 the library for 64-bit ARM. DIR of the option --tables holds the property files of
Unicode, as the package unicode-data has them."
# shellcheck source=tools/prefix.sh
. "$top/tools/prefix.sh"
read_words "$help" "$@"
# shellcheck source=c/machine.sh
. "$top/c/machine.sh"
program=$top/crates/bidi/out$subfolder/bidi
if [ "${MACHINE:-}" != aarch64 ]; then
    if [ "$uninstall" = no ] && [ ! -x "$program" ]; then
        echo "no program at $program, so nothing is installed: run rt run -- --help in crates/bidi" >&2
        exit 2
    fi
    put 755 "$program" bin/bidi &&
        put 755 "$top/draw/bidi-draw" bin/bidi-draw &&
        put 644 "$top/docs/bidi.1" share/man/man1/bidi.1 &&
        put 644 "$top/docs/bidi-draw.1" share/man/man1/bidi-draw.1 || exit 1
fi
put_documents "$top" && put_licences "$top" || exit 1
if [ "$uninstall" = yes ]; then
    "$top/c/install.sh" --uninstall --libdir "$libdir" "$prefix" || exit 1
    echo "removed from $root"
    exit 0
fi
installed="installed in $root: the programs, their manual pages and the documents"
[ "${MACHINE:-}" != aarch64 ] || installed="installed in $root: the documents"
if [ ! -e "$out/libbidi_c.a" ]; then
    echo "$installed; no library for C was built"
elif said=$("$top/c/install.sh" --libdir "$libdir" "$prefix" 2>&1); then
    printf '%s\n' "$installed; the library for C and its header" ${said:+"$said"}
else
    echo "$installed, but not the library for C: $said" >&2
    exit 1
fi
