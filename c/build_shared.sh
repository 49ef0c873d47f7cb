#!/bin/bash
# Links the shared object crates/bidi_c/out/libbidi_c.so.VERSION with gcc, from the archive beside it and the part that
# allocates. Its soname is libbidi_c.so with the first number of the version. It exports only the calls of bidi.h, with
# the symbol version LIBBIDI_C_ and that number. Beside it, libbidi_c.so.VERSION.of has the sum of that archive. The
# script ends with 2 if a file is missing, and with 1 if the archive lacks a call of the header.
#
# usage: c/build_shared.sh      (MACHINE and RATTLE_C in the environment: machine.sh)
#
# Build the archive first, with c/build_library.sh or with `rt lib` in crates/bidi_c.
set -u
here=$(cd "$(dirname "$0")" && pwd)
# shellcheck source=c/machine.sh
. "$here/machine.sh"
version=$(cat "$here/../VERSION")
library=$out/libbidi_c.a
shared=$out/libbidi_c.so.$version
find_heap
[ -e "$library" ] || { echo "no $library" >&2; exit 2; }
calls=$(grep -o '\bbidi_[a-z0-9_]*(' "$here/bidi.h" | tr -d '(' | sort -u)
work=$(mktemp -d) || exit 2
trap 'rm -r "$work"' EXIT
# shellcheck disable=SC2086
printf 'LIBBIDI_C_%s { global:\n%s\nlocal: *; };\n' "${version%%.*}" "$(printf '  %s;\n' $calls)" > "$work/calls.map"
"${cross}gcc" -shared -o "$work/shared" -Wl,-soname,"libbidi_c.so.${version%%.*}" \
    -Wl,--version-script="$work/calls.map" -Wl,-Bsymbolic,-z,defs,-z,relro,-z,now,-z,noexecstack,--gc-sections \
    -Wl,--whole-archive "$library" -Wl,--no-whole-archive "$heap" || exit 1
shows=$("${cross}nm" -D --defined-only "$work/shared" | awk '$2 == "T" { print $3 }' | sed 's/@.*//' | sort)
if [ "$shows" != "$calls" ]; then
    echo "the shared object does not show the calls of bidi.h:" >&2
    diff <(echo "$calls") <(echo "$shows") >&2
    exit 1
fi
mv "$work/shared" "$shared" && chmod 755 "$shared" && sha256sum < "$library" > "$shared.of"
