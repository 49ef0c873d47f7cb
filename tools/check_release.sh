#!/bin/bash
# Makes a release twice (tools/release.sh), compares the bytes, and tries each file of it in an empty root: a folder
# with the C library, a shell, gcc, pkg-config and Python, copied from the Debian packages of this machine, and without
# the kit. There the program, a program in C and one in Python run from the archive and the wheel, and then from the
# Debian packages, which `dpkg --root` installs and removes, with the tests of debian/tests. A program loads the shared
# object for x86-64-v2 if the C library sees that level, and the other one if not. If libfribidi-dev is installed,
# programs that use FriBidi run there too, over this library. Nothing else is started there. Where cargo is, a program
# in Rust is built over the crate, outside of the root. What is for aarch64 is looked at, and tools/check_machines.sh
# runs the library. It says what it leaves out because this machine lacks it. It ends with 0 if all is as it should be,
# with 1 if not, and with 2 if no release can be made.
#
# usage: tools/check_release.sh      (a minute; build first, as tools/release.sh says)
set -u
tools=$(cd "$(dirname "$0")" && pwd)
top=$(dirname "$tools")
version=$(cat "$top/VERSION") || exit 2
work=$(mktemp -d) || exit 2
trap 'rm -rf "$work"' EXIT
for command in git dpkg-deb python3 gcc strip objdump; do
    command -v "$command" > /dev/null || { echo "no $command: no release is made"; exit 0; }
done
# shellcheck source=c/machine.sh
. "$top/c/machine.sh"
mapfile -t machines < <(machines_here)
wrong=0
checks=0

# is WHAT EXPECTED FOUND: counts a comparison, and says if it fails.
is() {
    checks=$((checks + 1))
    if [ "$2" != "$3" ]; then
        wrong=$((wrong + 1))
        printf '%s: expected\n%s\nfound\n%s\n' "$1" "$2" "$3" >&2
    fi
}

export SOURCE_DATE_EPOCH=1700000000
"$tools/release.sh" "$work/dist" > "$work/said" || exit 2
"$tools/release.sh" "$work/again" > "$work/said" || exit 2
is "a release made twice" "" "$(diff -r "$work/dist" "$work/again" 2>&1)"
released=(bidi bidi-draw libbidi-c1 libbidi-c-dev python3-bidi-proved)
if [ -e /usr/include/fribidi/fribidi.h ]; then
    released+=(libfribidi-over-bidi)
else
    echo "no libfribidi-dev: FriBidi's calls are not released"
fi
# Of each archive, each wheel and each package whose name begins with lib there is one for each machine.
is "files of a release" $((6 + ${#machines[@]} * (${#released[@]} - 1))) "$(find "$work/dist" -type f | wc -l)"
for file in "$work"/dist/*.tar.gz "$work"/dist/*.crate; do
    is "times in ${file##*/}" "2023-11-14 22:13:20" \
        "$(tar -tvzf "$file" --full-time --utc | awk '{ print $4, $5 }' | sort -u)"
done
is "the sums of a release" 0 "$(cd "$work/dist" && sha256sum --quiet -c SHA256SUMS > "$work/said" 2>&1; echo $?)"

# The source is whole, and NOTICES names each crate of the kit that crates.txt names.
tar -xzf "$work/dist/bidi-$version.tar.gz" -C "$work"
source=$work/bidi-$version
is "the version of the source archive" "version $version, everywhere" "$("$source/tools/check_version.sh" 2>&1)"
is "links in the source archive" "" "$(find "$source" -type l)"
while read -r name; do
    is "the crate $name in NOTICES" 0 "$(grep -qw "$name" "$source/NOTICES"; echo $?)"
done < <(sed -n '/^#/d; s/^[^:]*: //p' "$source/crates.txt" | tr ' ' '\n' | sort -u |
    while read -r name; do [ -e "$source/crates/$name" ] || echo "$name"; done)
# No bug of Debian asks for the packages, so their first upload closes none.
if command -v lintian > /dev/null; then
    is "what lintian finds" "" "$(lintian --fail-on none "$work"/dist/*.deb 2> /dev/null |
        grep '^[EW]:' | grep -v ': initial-upload-closes-no-bugs ')"
else
    echo "no lintian: the Debian packages are not checked with it"
fi

# newest FILE: the newest symbol version of the C library that a shared object needs.
newest() {
    objdump -T "$1" | grep -oE 'GLIBC_[0-9.]+' | sort -Vu | tail -n 1
}

# Each wheel needs no symbol after GLIBC_2.17, which manylinux2014 has, and no library but the C library.
for machine in "${machines[@]}"; do
    python3 -m zipfile -e "$work"/dist/*_$machine.whl "$work/wheel-$machine"
    shared=$(echo "$work/wheel-$machine"/bidi_proved/*.so.*)
    is "symbols of the wheel for $machine" GLIBC_2.17 "$({ newest "$shared"; echo GLIBC_2.17; } | sort -V | tail -n 1)"
    is "libraries of the wheel for $machine" libc.so.6 \
        "$(objdump -p "$shared" | sed -n 's/^ *NEEDED *//p' | grep -v '^ld-linux-aarch64' | paste -sd' ')"
    is "the tag of the wheel for $machine" "Tag: py3-none-manylinux2014_$machine" \
        "$(grep '^Tag: ' "$work/wheel-$machine"/*.dist-info/WHEEL)"
done

# Each package and each archive has shared objects for its machine alone.
while read -r of name machine; do
    [[ " ${machines[*]} " == *" $of "* ]] || continue
    mkdir -p "$work/of/$name"
    for file in "$work"/dist/*"$name".{deb,tar.gz}; do
        case $(test -e "$file" && echo "$file") in
            *.deb) dpkg-deb -x "$file" "$work/of/$name" ;;
            *.gz) tar -xzf "$file" -C "$work/of/$name" ;;
        esac
    done
    is "machines of $name" "$machine" "$(find "$work/of/$name" -name '*.so.*' -type f -o -name '*.so' -type f |
        xargs -r readelf -h | sed -n 's/^ *Machine: *//p' | sort -u)"
done << END
x86_64 amd64 Advanced Micro Devices X86-64
aarch64 arm64 AArch64
x86_64 x86_64 Advanced Micro Devices X86-64
aarch64 aarch64 AArch64
END

# try_crate: cargo takes the unpacked crate as it is, and the example of its README.md, built over it, with the archives
# in it and with the shared object of the archive, prints what that says. For each machine the crate's build program
# names the archives for it, and for another one it fails.
try_crate() {
    local folder=$work/cargo crate=bidi-proved-$version machine
    mkdir -p "$folder/program/src"
    tar -xzf "$work/dist/$crate.crate" -C "$folder"
    tar -xzf "$work/dist/bidi-$version-linux-x86_64.tar.gz" -C "$folder"
    is "files of the crate" "$(cd "$folder/$crate" && find . -type f | sed 's|^\./||' | sort)" \
        "$(cd "$folder/$crate" && cargo package --offline --allow-dirty --list 2> "$work/said" |
            grep -vx 'Cargo\.lock\|Cargo\.toml\.orig' | sort)"
    printf '[package]\nname = "program"\nedition = "2021"\n[dependencies]\nbidi-proved = { path = "../%s" }\n' \
        "$crate" > "$folder/program/Cargo.toml"
    awk '/^```/ { inside = /^```rust$/; next } inside' "$folder/$crate/README.md" > "$folder/program/src/main.rs"
    is "a program in Rust" "12 (cd) בא" "$(cd "$folder/program" && cargo run -q --offline 2>&1 | head -n 1)"
    is "a program in Rust, with the shared object" "12 (cd) בא" "$(cd "$folder/program" &&
        BIDI_LINK=shared BIDI_LIB_DIR=$folder/bidi-$version-linux-x86_64/lib \
            LD_LIBRARY_PATH=$folder/bidi-$version-linux-x86_64/lib cargo run -q --offline 2>&1 | head -n 1)"
    rustc --edition 2021 -o "$folder/build" "$folder/$crate/build.rs"
    for machine in "${machines[@]}"; do
        is "the archives of the crate for $machine" "$folder/$crate/lib/$machine" "$(cd "$folder/$crate" &&
            HOST=x86_64-unknown-linux-gnu TARGET=$machine-unknown-linux-gnu CARGO_MANIFEST_DIR=$PWD "$folder/build" |
            sed -n 's/.*search=native=//p')"
    done
    is "the crate for another machine" "no libbidi_c for riscv64gc-unknown-linux-gnu: name its folder in full in \
BIDI_LIB_DIR" "$(cd "$folder/$crate" && HOST=x86_64-unknown-linux-gnu TARGET=riscv64gc-unknown-linux-gnu \
        CARGO_MANIFEST_DIR=$PWD "$folder/build" 2>&1 | grep -v '^cargo:')"
}
if cargo --version > /dev/null 2>&1; then
    try_crate
else
    echo "no cargo: no program in Rust is built over the crate"
fi

# closure PACKAGE..: these installed packages and all that they depend on, as dpkg names them.
closure() {
    dpkg-query -W -f '${binary:Package}\t${db:Status-Status}\t${Provides}\t${Pre-Depends}, ${Depends}\n' |
        python3 -c '
import re, sys
by_name, needs, wanted, taken = {}, {}, sys.argv[1:], set()
for line in sys.stdin:
    name, status, provides, depends = line.rstrip("\n").split("\t")
    if status == "installed":
        needs[name] = [[re.split("[ (:]", one.strip())[0] for one in item.split("|")] for item in depends.split(",")]
        for alias in [name.split(":")[0], *(re.split("[ (]", item.strip())[0] for item in provides.split(","))]:
            by_name.setdefault(alias, name)
while wanted:
    name = by_name.get(wanted.pop())
    if name and name not in taken:
        taken.add(name)
        wanted += [next(one for one in item if one in by_name) for item in needs[name] if by_name.keys() & set(item)]
print("\n".join(sorted(taken)))' "$@"
}

# make_root: fills the folder root with the files of these packages, and with the list of packages that dpkg has.
make_root() {
    local folder packages
    mapfile -t packages < <(closure coreutils dash gcc libc6-dev libfribidi-dev pkg-config python3)
    mkdir -p "$root"/{usr/{bin,sbin,lib,lib64},tmp,var/lib/dpkg/{info,updates,triggers}}
    for folder in bin sbin lib lib64; do
        [ ! -L "/$folder" ] || ln -s "usr/$folder" "$root/$folder"
    done
    dpkg-query -L "${packages[@]}" | sed 's|^/||' | sort -u |
        while read -r file; do [ ! -e "/$file" ] || [ -d "/$file" ] && [ ! -L "/$file" ] || echo "$file"; done |
        tar -C / -cf - --no-recursion -T - 2> "$work/said" | tar -C "$root" --keep-directory-symlink -xf -
    dpkg-query -s "${packages[@]}" > "$root/var/lib/dpkg/status"
}

# inside WORD..: runs a program of the root, with no other environment.
inside() {
    chroot "$root" /usr/bin/env -i PATH=/usr/bin LC_ALL=C.UTF-8 "$@" 2>&1
}

# runs LABEL PREFIX: the programs below a prefix of the root do what they should.
runs() {
    is "$1: the version" "bidi $version" "$(inside "$2/bin/bidi" --version | sed -n '1s/ (.*//p')"
    is "$1: a text" "12 (cd) בא" "$(inside "$2/bin/bidi" reorder /tmp/text.txt)"
    is "$1: a drawing" "<svg xmlns" "$(inside "$2/bin/bidi-draw" /tmp/text.txt | head -c 10)"
}

# flags LIBDIR WORD: sets the array `said_flags` to what pkg-config prints in the root.
flags() {
    read -r -a said_flags < <(inside PKG_CONFIG_PATH="$1/pkgconfig" pkg-config --cflags "$2" bidi_c)
}

# builds LABEL ENVIRONMENT WORD..: a program in C, built in the root with these words, and run with this environment,
# prints what is stored.
builds() {
    local label=$1 environment=$2
    shift 2
    inside gcc -O2 -o /tmp/demo /tmp/demo.c "$@"
    is "$label: a program in C" "$(cat "$top/c/demo.out")" \
        "$(inside "$environment" /tmp/demo /tmp/ucd 20 < "$top/c/demo.txt")"
}

# replaces LABEL FOLDER WORD..: programs over FriBidi run on this library if the shared object in this folder is named
# at the start, and if they are linked with it before FriBidi, and with these words. FriBidi 1.0.8 gets the row wrong.
replaces() {
    local label=$1 folder=$2 row='2068 0026 2069 2068 05D0;0;0;0 2 0 0 1;0 1 2 3 4'
    shift 2
    [ -e "$root/usr/include/fribidi/fribidi.h" ] || return 0
    inside gcc -I/usr/include/fribidi -o /tmp/calls /tmp/calls.c -lfribidi
    is "$label: FriBidi's calls" "replaced: 10 of 10" \
        "$(inside "LD_PRELOAD=$folder/libfribidi_over_bidi.so" /tmp/calls < /dev/null)"
    inside gcc -I/usr/include/fribidi -o /tmp/rows /tmp/rows.c "-L$folder" -lfribidi_over_bidi "$@" -lfribidi
    is "$label: a program over FriBidi" "$row" "$(inside /tmp/rows <<< "$row")"
}

# imports LABEL PATH: a program in Python runs with the module of this folder, or with the one that is installed.
imports() {
    is "$1: a program in Python" "$version 12 (cd) בא" "$(inside PYTHONPATH="$2" python3 -c '
import bidi_proved as bidi, importlib.metadata as installed
print(installed.version("bidi_proved"), *bidi.display("אב (cd) 12", bidi.Tables.standard()))')"
}

# levels LABEL LIBDIR: the demo that was built last loads the shared object of the level that the C library sees, and
# prints the same. A tunable hides what makes a processor one of x86-64-v2.
levels() {
    local tunable folder
    while read -r tunable folder; do
        is "$1: a program in C, $tunable" "$(cat "$top/c/demo.out")" \
            "$(inside "GLIBC_TUNABLES=$tunable" "LD_LIBRARY_PATH=$2" /tmp/demo /tmp/ucd 20 < "$top/c/demo.txt")"
        is "$1: what it loads, $tunable" "$2${folder:+/$folder}/libbidi_c.so.${version%%.*}" \
            "$(inside "GLIBC_TUNABLES=$tunable" LD_DEBUG=libs "LD_LIBRARY_PATH=$2" /tmp/demo /tmp/ucd 20 \
                < "$top/c/demo.txt" | sed -n 's/.*calling init: \(.*libbidi_c.*\)/\1/p')"
    done << END
glibc.malloc.check=0 glibc-hwcaps/x86-64-v2
glibc.cpu.hwcaps=-SSE4_2
END
}

try_archive() {
    local name=bidi-$version-linux-x86_64 libdir=/opt/bidi-$version-linux-x86_64/lib
    mkdir "$root/opt"
    tar -xzf "$work/dist/$name.tar.gz" -C "$root/opt" --no-same-owner
    runs archive "/opt/$name"
    flags "$libdir" --libs
    builds "archive, its folder named" "LD_LIBRARY_PATH=$libdir" "${said_flags[@]}"
    builds "archive, its folder noted" A=1 "${said_flags[@]}" "-Wl,-rpath,$libdir"
    levels archive "$libdir"
    flags "$libdir" --cflags
    builds "archive, static" A=1 "${said_flags[@]}" "$libdir/libbidi_c.a" "$libdir/libbidi_c_heap.a"
    replaces archive "$libdir/bidi" "-Wl,-rpath,$libdir/bidi"
    if python3 -m pip --version > /dev/null 2>&1; then
        python3 -m pip install -q --no-index --no-deps --no-compile --target "$root/site" "$work"/dist/*_x86_64.whl \
            > "$work/said" 2>&1
        is "status of pip" 0 $?
    else
        echo "no pip: the wheel is unpacked by hand"
        python3 -m zipfile -e "$work"/dist/*_x86_64.whl "$root/site"
    fi
    imports wheel /site
    rm -r "${root:?}/opt" "$root/site"
}

# files: what is in the root, by name, but for what Python writes beside its own modules.
files() {
    (cd "$root" && find usr -path 'usr/lib/python3.*' -prune -o -print | sort)
}

try_packages() {
    local libdir=/usr/lib/x86_64-linux-gnu test
    files > "$work/before"
    dpkg --root="$root" --log="$work/log" -i "$work"/dist/*_{amd64,all}.deb > "$work/said" 2>&1
    is "status of dpkg" 0 $?
    is "packages installed" ${#released[@]} \
        "$(dpkg-query --root="$root" -W -f '${Source} ${db:Status-Status}\n' | grep -c '^bidi installed')"
    runs packages /usr
    flags /none --libs
    builds packages A=1 "${said_flags[@]}"
    levels packages "$libdir"
    replaces packages "$libdir/bidi" "-Wl,-rpath,$libdir/bidi"
    for test in library module program; do
        cp "$source/debian/tests/$test" "$root/tmp/"
        is "the test $test of the packages" 0 "$(inside sh "/tmp/$test" > "$work/said"; echo $?)"
    done
    imports packages /none
    dpkg --root="$root" --log="$work/log" -P "${released[@]}" > "$work/said" 2>&1
    is "status of dpkg at the end" 0 $?
    is "what the packages left" "" "$(files | diff "$work/before" -)"
}

root=$work/root
if [ "$(id -u)" != 0 ]; then
    echo "not root: nothing is tried in an empty root"
elif ! command -v dpkg-query > /dev/null || [ "$(closure gcc libc6-dev pkg-config python3 | grep -cE \
    '^(gcc|libc6-dev|pkgconf?|pkg-config|python3)(:|$)')" -lt 4 ]; then
    echo "no Debian packages gcc, libc6-dev, pkg-config and python3: nothing is tried in an empty root"
else
    make_root
    printf 'אב (cd) 12\n' > "$root/tmp/text.txt"
    cp -r "$top/c/demo.c" "$top/c/read_file.h" "$top/c/ucd" "$top/c/fribidi/calls.c" "$top/c/fribidi/rows.c" \
        "$root/tmp"
    is "the kit in the root" "" "$(inside env | grep -i rattle; ls -d "$root/opt" "$root/work" 2> /dev/null)"
    try_archive
    try_packages
fi
echo "$checks comparisons of a release, $wrong wrong"
[ "$wrong" -eq 0 ]
