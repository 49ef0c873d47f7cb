#!/bin/bash
# Links libfribidi_over_bidi.so, FriBidi's calls of the algorithm over the library for C, with gcc, into FOLDER. It
# contains the library, from its archive, so it needs no other shared object than the C library's. It exports only
# FriBidi's names. Without FOLDER it is linked beside the library, from where tools/install.sh installs it, and
# libfribidi_over_bidi.so.of beside it has the sum of the library. The script ends with 2 if gcc, FriBidi's headers or
# the library is missing, and with 1 if gcc fails.
#
# usage: c/fribidi/build.sh [FOLDER]      (MACHINE and RATTLE_C in the environment: ../machine.sh)
#
# Build the archive first, with c/build_library.sh or with `rt lib` in crates/bidi_c. LIBRARY names another archive, or
# a shared object, which programs then need too, and FRIBIDI the folder of FriBidi's headers.
set -u
here=$(cd "$(dirname "$0")" && pwd)
# shellcheck source=c/machine.sh
. "$here/../machine.sh"
library=${LIBRARY:-$out/libbidi_c.a}
headers=${FRIBIDI:-/usr/include/fribidi}
linked=("$library")
if [[ $library == *.a ]]; then
    find_heap
    linked+=("$heap")
fi
level=()
[ -n "${MACHINE:-}" ] || level=(-march=x86-64-v2)
command -v "${cross}gcc" > /dev/null || { echo "no ${cross}gcc" >&2; exit 2; }
for file in "${linked[@]}" "$headers/fribidi.h"; do
    [ -e "$file" ] || { echo "no $file" >&2; exit 2; }
done
work=$(mktemp -d) || exit 2
trap 'rm -r "$work"' EXIT
echo '{ global: fribidi_*; local: *; };' > "$work/names.map"
"${cross}gcc" -O3 -funroll-loops "${level[@]}" -Wall -Wextra -fPIC -fvisibility=hidden -I"$headers" -I"$here/.." \
    -shared -pthread -o "$work/shared" "$here/fribidi_over_bidi.c" "${linked[@]}" \
    -Wl,-soname,libfribidi_over_bidi.so -Wl,--version-script="$work/names.map" \
    -Wl,-z,defs,-z,relro,-z,now,-z,noexecstack,-z,nodelete,--gc-sections || exit 1
shared=${1:-$out}/libfribidi_over_bidi.so
mv "$work/shared" "$shared" && chmod 755 "$shared" || exit 1
[ $# -gt 0 ] || sha256sum < "$library" > "$shared.of"
