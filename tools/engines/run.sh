#!/bin/bash
# Builds programs over the engines that are installed (ICU, FriBidi, that of the JDK, Go's x/text, the crate
# unicode-bidi, python-bidi), and holds the rows that each makes of texts against the library's and against what
# `bidi report` says of them, by hold.py. It also holds the classes that each gives all code points against
# DerivedBidiClass.txt, by hold_classes.py; the JDK's engine reports none. Engines that are missing are passed over, and
# it says so. It ends with 1 where the two don't count the same wrong rows, or a row of the library's is wrong, and with
# 2 where something is missing. Not part of the gate.
#
# usage: tools/engines/run.sh [TEXTS [TABLES]]      (TABLES, with the property files: /usr/share/unicode)
#
# TEXTS is a file of lines `CODE POINTS;DIRECTION`, or a test file of characters; hold.py says how a text is broken into
# lines. Without it, or where it is empty, the texts of the groups in docs/ENGINES.md come first, and each wrong row of
# them is printed. `bidi rows` makes the others: all texts over four small alphabets, texts drawn from overrides and
# brackets, short and long ones of the forms of hard texts, all short texts of two lines over an alphabet, and all of
# several paragraphs over another. ROWS names a folder in which these rows stay and, as test files of their
# own, those of the engines, so that `bidi explain --row` can show one; without it they go with the run.
#
# It takes the program that `rt ci` leaves, or `rt run` in crates/bidi (BIDI may name another), and the library that
# c/build_library.sh builds (BIDI_LIBRARY may name a shared object).
set -u
folder=${2:-/usr/share/unicode}
here=$(cd "$(dirname "$0")" && pwd)
top=$here/../..
work=$(mktemp -d) || exit 2
trap 'rm -r "$work"' EXIT
for name in DerivedBidiClass.txt BidiBrackets.txt BidiMirroring.txt; do
    found=$(find "$folder" -name "$name" 2> /dev/null | sort | head -n 1)
    [ -n "$found" ] || { echo "no $name in $folder" >&2; exit 2; }
    cp "$found" "$work/$name" || exit 2
done
export BIDI=${BIDI:-$top/crates/bidi/out/bidi}
[ -x "$BIDI" ] || { echo "no program at $BIDI: run rt ci, or rt run -- --help in crates/bidi" >&2; exit 2; }
if [ -z "${BIDI_LIBRARY:-}" ]; then
    "$top/c/build_shared.sh" || exit 2
    BIDI_LIBRARY=$top/crates/bidi_c/out/libbidi_c.so.$(cat "$top/VERSION")
fi
export BIDI_LIBRARY
rows=${ROWS:-$work/rows}
mkdir -p "$rows" || exit 2
failed=0

# rows NAME WORD..: right rows, by these words for `bidi rows`, as the file NAME.txt.
rows() {
    local file=$rows/$1.txt
    shift
    "$BIDI" rows --kind characters --tables "$work" --directions 'ltr rtl auto' "$@" > "$file" || exit 2
    texts+=("$file")
}

# Of each text of standard input, all ways to break it into two lines.
in_two_lines() {
    awk -F ';' '{
        count = split($1, codes, " ")
        for (second = 2; second <= count; second++) {
            text = codes[1]
            for (i = 2; i <= count; i++) text = text (i == second ? " | " : " ") codes[i]
            print text ";" $2
        }
    }'
}

# The texts of standard input in which a separator (2029) is followed by another paragraph, each paragraph on a line.
in_paragraphs() {
    grep '2029 ' | cut -d ';' -f 1,2 | sed 's/2029 /2029 | /g'
}

# broken NAME HOW WORD..: texts by these words for `bidi rows`, broken into lines as HOW does it, as the file NAME.txt.
broken() {
    local name=$1 how=$2
    shift 2
    rows "$name.whole" "$@"
    unset 'texts[-1]'
    "$how" < "$rows/$name.whole.txt" > "$rows/$name.txt" || exit 2
    texts+=("$rows/$name.txt")
}

# The texts that docs/ENGINES.md lists, as the file groups.txt; there `202A(63)` is that code point 63 times.
groups() {
    grep '^| [0-9]' "$top/docs/ENGINES.md" | grep -oE '`[0-9A-F]{4}[^`]*;[012]`' | tr -d '`\\' | awk '{
        count = split($0, items, " ")
        text = ""
        for (i = 1; i <= count; i++) {
            split(items[i], parts, /[()]/)
            for (times = parts[2] ? parts[2] : 1; times > 0; times--) text = text parts[1] parts[3] " "
        }
        print substr(text, 1, length(text) - 1)
    }' > "$rows/groups.txt" || exit 2
    texts+=("$rows/groups.txt")
}

# The numbers of letters and of texts keep a run to some minutes. The long texts pass the greatest depth, and the most
# open brackets.
make_rows() {
    local form
    groups
    rows overrides --form exhaustive --length 1..5 --alphabet '202D 202B 0061 202C 2069 202E 2066'
    rows pairs --form exhaustive --length 1..5 --alphabet '0061 05D0 0028 0029 0308 0661 232A'
    rows siblings --form exhaustive --length 1..5 --alphabet '2068 2067 2069 0026 05D0 0061 0028 0029'
    rows digits --form exhaustive --length 1..5 --alphabet '0031 0661 002B 002C 0024 05D0 0627 0061'
    broken lines in_two_lines --form exhaustive --length 2..4 --alphabet '05D0 0061 0020 2067 2069 202B 0661'
    broken paragraphs in_paragraphs --form exhaustive --length 2..5 --alphabet '05D0 0061 2029 0020 2067 0661'
    rows overridden --form random --count 20000 --length 7..9 \
        --alphabet '202A 202B 202D 202E 202C 202C 0061 05D0 0028 0029 298D 2990'
    for form in brackets nest isolates marks numbers; do
        rows "$form" --form $form --count 4000 --length 1..24
        rows "long_$form" --form $form --count 100 --length 300..900
    done
}

# hold NAME FILE WORD..: an engine by its command, where it was built; its rows go to files of this name.
hold() {
    local name=$1 file=$2 text base each
    shift 2
    if ! "$@" --version > /dev/null 2>&1; then
        echo "$name: not installed, or its program does not build"
        return
    fi
    for text in "${texts[@]}"; do
        base=$(basename "$text" .txt)
        each=()
        [ "$base" != groups ] || each=(--each)
        echo "$name, $base"
        "$here/hold.py" "${each[@]}" "$work" "$text" "$rows/$base.$file.txt" "$@" || failed=1
    done
    if [ "$name" != JDK ]; then
        echo "$name, classes"
        "$here/hold_classes.py" "$work" "$@" || failed=1
    fi
}

texts=()
if [ -n "${1:-}" ]; then
    texts=("$1")
else
    make_rows
fi
gcc -O2 -o "$work/icu" "$here/icu.c" -licuuc 2> /dev/null
gcc -O2 -I/usr/include/fribidi -o "$work/fribidi" "$here/fribidi.c" -lfribidi 2> /dev/null
javac -d "$work" "$here/Jdk.java" 2> /dev/null
go=$work/go/src
x_text=$(find /usr/share/gocode/src /usr/share/go-*/src -path '*/x/text/unicode/bidi/core.go' 2> /dev/null | head -n 1)
if [ -n "$x_text" ]; then
    bidi=$go/golang.org/x/text/unicode/bidi
    mkdir -p "$bidi" "$go/rows"
    cp "$(dirname "$x_text")"/{bidi,bracket,core,prop,trieval}.go "$(dirname "$x_text")"/tables[0-9]*.go "$bidi"
    cp "$here/go_levels.go" "$bidi"
    cp "$here/go_rows.go" "$go/rows"
    (cd "$go/rows" && HOME=$work GO111MODULE=off GOPATH=$work/go go build -o "$work/x_text" . 2> /dev/null)
fi
crate=$(find /usr/share/cargo/registry -maxdepth 1 -name 'unicode-bidi-[0-9]*' 2> /dev/null | sort | tail -n 1)
if [ -n "$crate" ]; then
    rustc --edition 2018 --crate-type rlib --crate-name unicode_bidi -O --cap-lints allow --out-dir "$work" \
        --cfg 'feature="std"' --cfg 'feature="hardcoded-data"' "$crate/src/lib.rs" 2> /dev/null
    UNICODE_BIDI_VERSION=${crate##*-} rustc --edition 2021 -O --extern unicode_bidi="$work/libunicode_bidi.rlib" \
        -o "$work/unicode_bidi" "$here/unicode_bidi.rs" 2> /dev/null
fi
hold ICU icu "$work/icu"
hold FriBidi fribidi "$work/fribidi"
hold JDK jdk java -cp "$work" Jdk
hold "Go's x/text" x_text "$work/x_text"
hold unicode-bidi unicode_bidi "$work/unicode_bidi"
python=python3
"$python" -c 'import bidi' 2> /dev/null || python=/usr/bin/python3
hold python-bidi python_bidi "$python" "$here/python_bidi.py"
exit $failed
