#!/bin/bash
# Builds what a release has for other machines (tools/build_machines.sh) and runs it: programs of c/ over the library
# for 64-bit ARM under qemu-aarch64, and over the one for each x86-64 processor under qemu-x86_64 as a processor without
# the instructions of x86-64-v2. There the program runs too. The programs lay out and judge both official files, make
# every call, and have each allocation fail in turn. They are linked with the archives, and one with the shared object.
# The archives and the program for x86-64 have no instruction that came after the first such processors. It ends with 0
# if all is as stored, with 1 if not, and with 2 if something is missing: a tool, the official files, or the kit.
#
# usage: tools/check_machines.sh      (some minutes; Debian's qemu-user, gcc-aarch64-linux-gnu, libc6-dev-arm64-cross
#                                      and unicode-data)
set -u
top=$(cd "$(dirname "$0")/.." && pwd)
version=$(cat "$top/VERSION") || exit 2
unicode=/usr/share/unicode
missing=0
while read -r command package; do
    command -v "$command" > /dev/null && continue
    echo "no $command: install Debian's package $package" >&2
    missing=1
done << END
qemu-aarch64 qemu-user
qemu-x86_64 qemu-user
aarch64-linux-gnu-gcc gcc-aarch64-linux-gnu
gcc gcc
END
[ -e /usr/aarch64-linux-gnu/lib/libc.so.6 ] || { echo "no C library for ARM (libc6-dev-arm64-cross)" >&2; missing=1; }
[ -e $unicode/BidiTest.txt ] || { echo "no official files (unicode-data)" >&2; missing=1; }
[ "$missing" = 0 ] || { echo "the library for other machines is not checked" >&2; exit 2; }
"$top/tools/build_machines.sh" || exit 2
work=$(mktemp -d) || exit 2
trap 'rm -r "$work"' EXIT
# shellcheck source=c/expect.sh
. "$top/c/expect.sh"
mkdir "$work/files"
for name in DerivedBidiClass BidiBrackets BidiMirroring BidiTest BidiCharacterTest; do
    cp "$(find $unicode -name "$name.txt" | head -n 1)" "$work/files/" || exit 2
done

# runs WORD..: the programs of c/ for the machine, under this emulator, print what is stored.
runs() {
    local name wrap
    # shellcheck source=c/machine.sh
    . "$top/c/machine.sh"
    find_heap
    for name in official calls refused; do
        wrap=()
        [ $name != refused ] || wrap=(-Wl,--wrap=malloc,--wrap=realloc)
        "${cross}gcc" -O2 "${wrap[@]}" -o "$work/$name" "$top/c/$name.c" "$out/libbidi_c.a" "$heap" || exit 2
    done
    expect "$MACHINE: official files" "$top/c/official.out" "$@" "$work/official" "$work/files"
    expect "$MACHINE: every call" "$top/c/calls.out" "$@" "$work/calls" "$top/c/ucd"
    expect "$MACHINE: each allocation refused" "$top/c/refused.out" "$@" "$work/refused" "$top/c/ucd"
    ln -sf "$out/libbidi_c.so.$version" "$work/libbidi_c.so.${version%%.*}"
    "${cross}gcc" -O2 -o "$work/calls" "$top/c/calls.c" "$work/libbidi_c.so.${version%%.*}" || exit 2
    expect "$MACHINE: every call, with the shared object" "$top/c/calls.out" \
        "$@" -E "LD_LIBRARY_PATH=$work" "$work/calls" "$top/c/ucd"
}

# newer FILE..: the instructions in these files that came with SSE3 up to x86-64-v2, or later.
newer() {
    objdump -d --no-show-raw-insn "$@" | awk -F '\t' 'NF > 1 { sub(/ .*/, "", $2); print $2 }' | sort -u | grep -xE \
        'addsub.*|h(add|sub)p.|lddqu|mov(d|sh|sl)dup|p(hadd|hsub|sign|abs|blend|mov[sz]x|cmp[ei]str).*|pshufb|palignr|'\
'pmulhrsw|pmaddubsw|p(min|max)(sb|sd|uw|ud)|pmul(ld|dq)|p(ext|ins)r[bdq]|pcmp(eq|gt)q|phminposuw|ptest|packusdw|'\
'round[ps].|(blend|insert|extract|dp)v?p.|insertps|extractps|movntdqa|mpsadbw|crc32.*|popcnt.*|cmpxchg16b|[ls]ahf|v.*'
}
export MACHINE=aarch64
runs qemu-aarch64 -L /usr/aarch64-linux-gnu
MACHINE=x86_64
old=(qemu-x86_64 -cpu qemu64,-ssse3,-sse4.1,-sse4.2,-popcnt,-cx16)
runs "${old[@]}"
found=$(newer "$out/libbidi_c.a" "$heap" "$top/crates/bidi/out/x86_64/bidi")
[ -z "$found" ] || { echo "$found" > "$work/errors"; fails "x86_64: instructions up to its level alone"; }
printf 'yes: 490846 rows, 770241 cases\n' > "$work/verdict"
expect "$MACHINE: the program" "$work/verdict" "${old[@]}" "$top/crates/bidi/out/x86_64/bidi" judge --kind classes \
    "$work/files/BidiTest.txt"
[ "$failures" -eq 0 ]
