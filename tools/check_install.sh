#!/bin/bash
# Installs the program and the library for C into folders whose names have blanks, quotes and other signs, below DESTDIR
# and by a relative name, and checks what is there. The program runs, the manual page is the one of docs. Programs in C
# are built with the output of pkg-config, over the archive and over the shared object, and print what is stored. If
# libfribidi-dev is installed, a program over FriBidi runs on this library. Then it removes everything again. Unknown
# arguments are rejected. No line of a manual page is wider than 80 columns. It ends with 0 if all is right, with 1 if
# not, and with 2 if the program or the library is missing. Without gcc it does nothing, and says so.
#
# usage: tools/check_install.sh
#
# It installs what `rt ci` and c/build_library.sh built, or what was built by hand, and takes some seconds.
set -u
tools=$(cd "$(dirname "$0")" && pwd)
top=$(dirname "$tools")
version=$(cat "$top/VERSION") || exit 2
command -v gcc > /dev/null || { echo "no gcc: what is installed is not looked at"; exit 0; }
for file in crates/bidi/out/bidi crates/bidi_c/out/libbidi_c.a; do
    [ -e "$top/$file" ] || { echo "no $top/$file: run rt ci and c/build_library.sh" >&2; exit 2; }
done
work=$(mktemp -d) || exit 2
trap 'rm -r "$work"' EXIT
cd "$work" || exit 2
unset DESTDIR
wrong=0
checks=0
"$top/c/build_shared.sh" || wrong=1
has_fribidi=no
if [ -e /usr/include/fribidi/fribidi.h ]; then
    has_fribidi=yes
    "$top/c/fribidi/build.sh" || wrong=1
else
    rm -f "$top/crates/bidi_c/out/libfribidi_over_bidi.so"
    echo "no libfribidi-dev: FriBidi's calls are not installed"
fi

# is WHAT EXPECTED FOUND: counts a comparison, and says if it fails.
is() {
    checks=$((checks + 1))
    if [ "$2" != "$3" ]; then
        wrong=$((wrong + 1))
        printf '%s: expected\n%s\nfound\n%s\n' "$1" "$2" "$3" >&2
    fi
}

# files FOLDER: the files and links below a folder, by name.
files() {
    (cd "$1" && find . ! -type d | sed 's|^\./||' | LC_ALL=C sort)
}

# parts LIBDIR: all files that are installed, by name, with this folder of libraries.
parts() {
    {
        printf '%s\n' bin/bidi bin/bidi-draw include/bidi.h share/man/man1/bidi.1 share/man/man1/bidi-draw.1 \
            "$1/libbidi_c.a" "$1/libbidi_c_heap.a" "$1/pkgconfig/bidi_c.pc" "$1/libbidi_c.so" \
            "$1/libbidi_c.so.${version%%.*}" "$1/libbidi_c.so.$version"
        [ "$has_fribidi" = no ] || echo "$1/bidi/libfribidi_over_bidi.so"
        (cd "$top" && printf 'share/doc/bidi/%s\n' LICENSE-* NOTICES ./*.md docs/*.md docs/*.svg | sed 's|/\./|/|')
    } | LC_ALL=C sort
}
libdir=lib

# installs ROOT WORD..: with these arguments everything is installed below a folder, is right, and is removed again.
installs() {
    local root=$1
    shift
    "$tools/install.sh" "$@" > "$work/said" 2>&1
    is "status of install.sh $*" 0 $?
    is "what install.sh $* installed" "$(parts "$libdir")" "$(files "$root")"
    is "the program in $root" 0 "$("$root/bin/bidi" --version > /dev/null 2>&1; echo $?)"
    is "the manual page in $root" 0 "$(cmp -s "$root/share/man/man1/bidi.1" "$top/docs/bidi.1"; echo $?)"
    if command -v python3 > /dev/null; then
        is "bidi-draw in $root" "bidi-draw $version" "$("$root/bin/bidi-draw" --version 2>&1)"
    fi
}

# goes ROOT WORD..: with these arguments all of it is removed, and nothing else.
goes() {
    local root=$1
    shift
    mkdir -p "$root/lib" && touch "$root/lib/other"
    "$tools/install.sh" --uninstall "$@" > "$work/said" 2>&1
    is "status of install.sh --uninstall $*" 0 $?
    is "what install.sh --uninstall $* left" lib/other "$(files "$root")"
    rm -r "$root"
}

# flags PREFIX WORD..: sets the array `said_flags` to what pkg-config prints, split as a shell splits it.
flags() {
    local prefix=$1
    shift
    mapfile -d '' said_flags < <(PKG_CONFIG_PATH=$prefix/$libdir/pkgconfig pkg-config "$@" bidi_c |
        python3 -c 'import shlex, sys; print(*shlex.split(sys.stdin.read()), sep="\0", end="\0")')
}

# prints NAME WORD..: the demo of this name, started with these words, prints what is stored.
prints() {
    local name=$1
    shift
    is "the demo $name" "$(cat "$top/c/demo.out")" "$("$@" "$top/c/ucd" 20 < "$top/c/demo.txt" 2>&1)"
}

# builds NAME WORD..: builds a demo with these arguments.
builds() {
    local name=$1
    shift
    gcc -O2 -o "$name" "$top/c/demo.c" "$@" 2> "$work/said" || cat "$work/said" >&2
}

# runs PREFIX: the demo, built with the output of pkg-config, prints what is stored, over the shared object, whose
# folder is named at the start, and over the archives.
runs() {
    local prefix=$1
    flags "$prefix" --cflags --libs
    builds shared_demo "${said_flags[@]}"
    prints "over the shared object of $prefix" env "LD_LIBRARY_PATH=$prefix/$libdir" ./shared_demo
    is "what the demo needs of $prefix" "libbidi_c.so.${version%%.*}" \
        "$(readelf -d shared_demo | sed -n 's/.*NEEDED.*\[\(libbidi_c.*\)\]/\1/p')"
    flags "$prefix" --cflags
    builds archive_demo "${said_flags[@]}" "$prefix/$libdir/libbidi_c.a" "$prefix/$libdir/libbidi_c_heap.a"
    prints "over the archives of $prefix" ./archive_demo
    is "the version of $prefix" "$version" \
        "$(PKG_CONFIG_PATH=$prefix/$libdir/pkgconfig pkg-config --modversion bidi_c)"
}

# starts PREFIX: the demo that records the folder of the shared object starts without naming it.
starts() {
    flags "$1" --cflags --libs
    builds noted_demo "${said_flags[@]}" "-Wl,-rpath,$1/$libdir"
    prints "with the folder of $1 noted" ./noted_demo
}

# replaces PREFIX: a program over FriBidi, linked with what is installed before FriBidi, calls this library alone.
replaces() {
    [ "$has_fribidi" = yes ] || return 0
    gcc -I/usr/include/fribidi -o calls "$top/c/fribidi/calls.c" "-L$1/$libdir/bidi" -lfribidi_over_bidi -lfribidi \
        "-Wl,-rpath,$1/$libdir/bidi"
    is "FriBidi's calls of $1" "replaced: 10 of 10" "$(./calls < /dev/null 2>&1)"
}

odd="$work/a b'c\"d\$e\${f}&g|h\\i(k)*[l]#m"
has_tools=yes
for command in pkg-config readelf python3; do
    command -v "$command" > /dev/null || has_tools=no
done
installs "$work/plain" "$work/plain"
[ "$has_tools" = no ] || { runs "$work/plain"; starts "$work/plain"; }
replaces "$work/plain"
goes "$work/plain" "$work/plain"
# The shared object is installed whatever its time is, and not if it is of another build of the library.
shared=$top/crates/bidi_c/out/libbidi_c.so.$version
touch -r "$top/crates/bidi_c/out/libbidi_c.a" "$shared"
installs "$work/plain" "$work/plain"
mv "$shared.of" "$shared.was" && echo other > "$shared.of"
goes "$work/plain" "$work/plain"
"$tools/install.sh" "$work/plain" > "$work/said" 2>&1
is "a shared object of another build" "no 0" \
    "$([ -e "$work/plain/lib/libbidi_c.so" ] || echo no) $(grep -q 'of another build' "$work/said"; echo $?)"
mv "$shared.was" "$shared.of"
goes "$work/plain" "$work/plain"
libdir="lib/x86_64 linux"
installs "$work/plain" --libdir "$libdir" "$work/plain"
[ "$has_tools" = no ] || { runs "$work/plain"; starts "$work/plain"; }
replaces "$work/plain"
goes "$work/plain" "--libdir=$work/plain/$libdir" "$work/plain"
libdir=lib
installs "$odd" "$odd"
[ "$has_tools" = no ] || runs "$odd"
goes "$odd" "$odd"
installs "$work/beside it" "./beside it/"
[ "$has_tools" = no ] || runs "$work/beside it"
goes "$work/beside it" "beside it"
DESTDIR="$work/stage \$x" installs "$work/stage \$x/usr/local" /usr/local
is "the prefix in the file for pkg-config" "prefix=/usr/local" \
    "$(head -n 1 "$work/stage \$x/usr/local/lib/pkgconfig/bidi_c.pc")"
DESTDIR="$work/stage \$x" goes "$work/stage \$x/usr/local" /usr/local
rm -r "$work/stage \$x"

# rejects WORD..: with these arguments nothing is done.
rejects() {
    "$tools/install.sh" "$@" > "$work/said" 2>&1
    is "status of install.sh $*" 2 $?
    "$top/c/install.sh" "$@" > "$work/said" 2>&1
    is "status of c/install.sh $*" 2 $?
}
mkdir empty && cd empty || exit 2
rejects
rejects ''
rejects one two
rejects --prefix one
rejects --unknown
rejects one --uninstall
rejects --uninstall
rejects --uninstall --uninstall one
rejects --libdir one
rejects --libdir
rejects --libdir '' one
rejects --libdir /usr/lib one
rejects --libdir ../lib one
rejects --libdir . one
rejects $'one\ntwo'
DESTDIR=$work/empty rejects relative
is "what refused words installed" "" "$(files .)"
is "status of --help" 0 "$("$tools/install.sh" --help > /dev/null; echo $?)"

# manual NAME: a manual page at 80 columns has no wider line, and in its synopsis calls are broken only where the page
# says so.
manual() {
    local page synopsis
    page=$(LC_ALL=C MANWIDTH=80 man -l "$top/docs/$1" | col -bx)
    synopsis=$(sed -n '/^SYNOPSIS/,/^DESCRIPTION/p' <<< "$page")
    is "lines of $1 above 80 columns" "" "$(grep -E '.{81}' <<< "$page")"
    is "lines of the synopsis of $1 that begin no call" "" \
        "$(grep -E '^ {7}[^ ]' <<< "$synopsis" | grep -v '^ *bidi[ -]')"
    is "calls of the synopsis of $1" "$(sed -n '/^\.SH SYNOPSIS/,/^\.SH DESCRIPTION/p' "$top/docs/$1" |
        grep -c '^\.B bidi[ \\]')" "$(grep -c '^ *bidi[ -]' <<< "$synopsis")"
}
if command -v man > /dev/null && command -v col > /dev/null; then
    manual bidi.1
    manual bidi-draw.1
else
    echo "no man or col: the manual pages are not looked at"
fi
[ "$has_tools" = yes ] || echo "no pkg-config, readelf or python3: no program in C is built over what is installed"
echo "$checks comparisons of what is installed, $wrong wrong"
[ "$wrong" -eq 0 ]
