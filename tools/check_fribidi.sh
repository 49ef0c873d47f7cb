#!/bin/bash
# Builds libfribidi_over_bidi.so and tests it. `bidi judge` judges rows of `bidi rows` that went through FriBidi's
# calls. These are the same with and without the shared object: each of the replaced calls on texts on which FriBidi is
# right; levels and orders, those of removed characters too, of all short texts over two alphabets on which FriBidi is
# right; and what the command `fribidi` prints. It ends with 0 if all is right, with 1 if not, and with 2 if the program
# or the library is missing. Without gcc or FriBidi's headers it does nothing, and says so.
#
# usage: tools/check_fribidi.sh
#
# It uses the program that `rt ci` built (BIDI may name another) and the library that c/build_library.sh built,
# and takes some seconds.
set -u
tools=$(cd "$(dirname "$0")" && pwd)
top=$(dirname "$tools")
program=${BIDI:-$top/crates/bidi/out/bidi}
command -v gcc > /dev/null || { echo "no gcc: FriBidi's calls are not tried"; exit 0; }
[ -e /usr/include/fribidi/fribidi.h ] || { echo "no libfribidi-dev: FriBidi's calls are not tried"; exit 0; }
[ -x "$program" ] || { echo "no $program: run rt ci, or rt run -- --help in crates/bidi" >&2; exit 2; }
work=$(mktemp -d) || exit 2
trap 'rm -r "$work"' EXIT
"$top/c/fribidi/build.sh" "$work" || exit 2
shared=$work/libfribidi_over_bidi.so
wrong=0

# build NAME FILE: builds a program over FriBidi.
build() {
    gcc -O2 -I/usr/include/fribidi -o "$work/$1" "$2" -lfribidi -ldl || exit 2
}
build rows "$top/c/fribidi/rows.c"
build calls "$top/c/fribidi/calls.c"
build levels "$tools/engines/fribidi.c"

# judged WHAT WORD..: the rows that `bidi rows` prints with these arguments are right as FriBidi's calls make them.
judged() {
    local what=$1 verdict
    shift
    "$program" rows --kind characters "$@" > "$work/right" || exit 2
    verdict=$(LD_PRELOAD=$shared "$work/rows" < "$work/right" | "$program" judge --kind characters --built-in -)
    case $verdict in
        "yes: $(grep -c ';' "$work/right") rows, "*) ;;
        *) echo "$what: $verdict"; wrong=1 ;;
    esac
}

# same WHAT WORD..: a command prints the same on standard input's file with and without the shared object.
same() {
    local what=$1
    shift
    "$@" < "$work/texts" > "$work/before" 2>&1
    LD_PRELOAD=$shared "$@" < "$work/texts" > "$work/with" 2>&1
    cmp -s "$work/before" "$work/with" && [ -s "$work/with" ] && return
    echo "$what: it differs"
    diff "$work/before" "$work/with" | head -n 5
    wrong=1
}

every='ltr rtl auto auto-rtl'
while read -r what alphabet; do
    judged "$what" --form exhaustive --length 1..4 --directions "$every" --alphabet "$alphabet"
done <<'END'
overrides 202D 202B 0061 202C 2069 202E 2066
brackets 0061 05D0 0028 0029 0308 0661 232A 3008
isolates 2068 2067 2069 0026 05D0 0061 00AD
numbers 0031 0661 002B 002C 0024 05D0 0627 0061
spaces 0020 0009 05D0 0061 2067 2069 202B 200D
END
for form in brackets nest isolates marks numbers; do
    judged "$form, drawn" --form $form --count 2000 --length 1..24 --directions "$every"
    judged "$form, long" --form $form --count 40 --length 300..900 --directions "$every"
done

# Here FriBidi is right, and the levels of removed characters are its own.
for alphabet in '202D 202B 0061 202C 05D0 202E 0020' '0031 0661 002B 00AD 0024 05D0 0061 200D'; do
    "$program" rows --kind characters --form exhaustive --length 1..4 --directions 'ltr rtl auto' \
        --alphabet "$alphabet" > "$work/texts" || exit 2
    same "levels of $alphabet" "$work/levels"
done
grep -v '^#' "$top/c/fribidi/texts.txt" > "$work/texts"
LD_PRELOAD=$shared "$work/calls" < /dev/null > "$work/replaced"
[ "$(cat "$work/replaced")" = 'replaced: 10 of 10' ] || { echo "not all calls are replaced"; wrong=1; }
same 'the replaced calls' bash -c "'$work/calls' | tail -n +2"
if command -v fribidi > /dev/null; then
    for text in 'abc אבג 123 (def) דה!' 'אבג (abc) 12,5% דה' 'שלום, עולם: 2 + 3 = 5' 'سلام (abc) ۱۲۳ دنیا'; do
        echo "$text"
    done > "$work/texts"
    same 'the command fribidi' fribidi --nopad
    same 'the command fribidi, right-to-left' fribidi --nopad --rtl --levels --ltov --vtol
    same 'the command fribidi, without marks' fribidi --nopad --clean --nobreak
    levels=$(echo '[ا］א' | LD_PRELOAD=$shared fribidi --ltr --novisual --levels)
    [ "${levels% }" = '0 1 1 1' ] || { echo "the levels that docs/FRIBIDI.md shows: $levels"; wrong=1; }
else
    echo "no command fribidi (libfribidi-bin): it is left out"
fi
[ "$wrong" -eq 0 ] && echo "FriBidi's calls: as expected"
exit "$wrong"
