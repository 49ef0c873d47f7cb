#!/bin/bash
# Installs the header, the library, its shared object, its file for pkg-config, FriBidi's calls over the library and the
# licences, so that `gcc program.c $(pkg-config --cflags --libs bidi_c)` builds a program.
#
# usage: c/install.sh [--uninstall] [--libdir DIR] PREFIX     (with DESTDIR in the environment, below that folder)
#
# Build the library first, with c/build_library.sh, and FriBidi's calls, if you want them, with c/fribidi/build.sh. A
# shared object of another build of the library is not installed, and the script says so. MACHINE in the environment
# names another machine to install for (machine.sh). For x86_64 the shared object for x86-64-v2, if it was built, is
# installed beside the other one, in glibc-hwcaps/x86-64-v2: the C library loads it where the processor has that level.
# RATTLE_C names the folder of the part that allocates, the kit's folder c, if rt isn't on PATH, as under sudo.
# --libdir names the folder of libraries below PREFIX, lib if not given. The script ends with 2, before it installs
# anything, if a file is missing or an argument is unknown.
set -u
here=$(cd "$(dirname "$0")" && pwd)
# shellcheck source=tools/prefix.sh
. "$here/../tools/prefix.sh"
# shellcheck source=c/machine.sh
. "$here/machine.sh"
read_words "usage: c/install.sh [--uninstall] [--libdir DIR] PREFIX" "$@"
version=$(cat "$here/../VERSION") || exit 2
library=$out/libbidi_c.a
heap=
if [ "$uninstall" = no ]; then
    find_heap
    [ -e "$library" ] || { echo "no $library" >&2; exit 2; }
fi
work=$(mktemp -d) || exit 2
trap 'rm -r "$work"' EXIT

# escaped TEXT: puts a backslash before each character that a shell, and so pkg-config, would not take literally.
escaped() {
    printf %s "$1" | LC_ALL=C sed 's/[][ "'\''\\$`&|;<>(){}*?#!^~]/\\&/g'
}
filled=$(< "$here/bidi_c.pc.in")
filled=${filled//@version@/"$version"}
filled=${filled//@libdir@/"$(escaped "$libdir")"}
printf '%s\n' "${filled//@prefix@/"$(escaped "$prefix")"}" > "$work/bidi_c.pc"

put 644 "$here/bidi.h" include/bidi.h &&
    put 644 "$library" "$libdir/libbidi_c.a" &&
    put 644 "$heap" "$libdir/libbidi_c_heap.a" &&
    put 644 "$work/bidi_c.pc" "$libdir/pkgconfig/bidi_c.pc" &&
    put_licences "$here/.." || exit 1

# goes_on FILE SCRIPT: succeeds if a shared object is to be installed or removed. It belongs to the archive whose sum
# the script that links it stored, whatever the times of the files are. If it isn't installed, this says why.
goes_on() {
    [ "$uninstall" = no ] || return 0
    if [ ! -e "$1" ]; then
        echo "no ${1##*/} was built: $2 builds it"
        return 1
    elif [ "$(sha256sum < "${1%/*}/libbidi_c.a")" != "$(cat "$1.of" 2> /dev/null)" ]; then
        echo "${1##*/} is of another build of the library: $2 builds it again"
        return 1
    fi
}

# put_shared FOLDER DIR: the shared object of this folder, in DIR, with the link that programs load.
put_shared() {
    goes_on "$1/libbidi_c.so.$version" c/build_shared.sh || return 1
    put 755 "$1/libbidi_c.so.$version" "$2/libbidi_c.so.$version" &&
        link "libbidi_c.so.$version" "$2/libbidi_c.so.${version%%.*}" || exit 1
}
if put_shared "$out" "$libdir"; then
    link "libbidi_c.so.${version%%.*}" "$libdir/libbidi_c.so" || exit 1
fi
if [ "${MACHINE:-}" = x86_64 ] || [ "$uninstall" = yes ]; then
    put_shared "${out%/x86_64}" "$libdir/glibc-hwcaps/x86-64-v2"
fi
fribidi=libfribidi_over_bidi.so
if goes_on "$out/$fribidi" c/fribidi/build.sh; then
    put 755 "$out/$fribidi" "$libdir/bidi/$fribidi" || exit 1
fi
