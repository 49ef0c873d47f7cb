#!/bin/bash
# Lays out the same texts with the built program `bench`, the library for C, ICU and FriBidi, class look-up included,
# and prints tables. For ordinary texts it counts the instructions for each character with valgrind, which are the same
# on each run. For hostile texts it measures the time, which is not. Each text is one paragraph and one line, in
# direction auto. Between these it prints what it takes to break a text into lines of 80 again and to copy each line's
# order, to lay out each of these lines alone, and to lay out texts in UTF-8 and UTF-16, with what a code unit takes
# above the library's call on code points. Then it prints what FriBidi's calls take after the first ones, with
# libfribidi_over_bidi.so and with FriBidi. Tables and rooms are made once, and only the calls on them are counted. In
# the columns of the C library levels and order are also copied out.
#
# Texts of kinds that people write come in tables of their own: instructions on code points and on UTF-8, with words and
# short lines each laid out by a call of its own, and times at a thousand and a million characters.
#
# usage: tools/beside_others.sh [FOLDER]      (FOLDER, with the property files: /usr/share/unicode)
#
# It needs gcc, valgrind and python3, and ends with 2 if one of them or a property file is missing. A column whose
# program is missing or does not build has `-`. Build the program with `rt run` in crates/bench and the library with
# `rt lib` in crates/bidi_c, or name them with BENCH and LIBRARY. ICU and FriBidi are the packages libicu-dev and
# libfribidi-dev. It is not part of `rt ci`, and takes some minutes.
set -u
folder=${1:-/usr/share/unicode}
tools=$(cd "$(dirname "$0")" && pwd)
program=${BENCH:-$tools/../crates/bench/out/bench}
library=${LIBRARY:-$tools/../crates/bidi_c/out/libbidi_c.a}
heap=${RATTLE_C:-$(dirname "$(readlink -f "$(command -v rt)")")/../c}/liblibc_c.a
ordinary="english hebrew vowels mixed zwj persian isolates embeddings"
ordinary="$ordinary arabic digits segments overrides code alternating mixed_10000 one_latin one_hebrew"
written="english hebrew english_zwj english_fsi news chat csv urls persian html words lines"
long="english news html"
# ICU takes quadratic time on nested and on unmatched brackets.
hostile="fsi_1e6 rli_1e6 isolated_1e6 ladder_1e6 around_1e6 pairs_1e6 alternating_1e6 nested_1e4 unmatched_1e4"
seconds=60

missing() {
    echo "$1" >&2
    exit 2
}
for command in gcc valgrind python3; do
    command -v "$command" > /dev/null || missing "no $command"
done
work=$(mktemp -d) || exit 2
trap 'rm -r "$work"' EXIT
for name in DerivedBidiClass.txt BidiBrackets.txt BidiMirroring.txt; do
    found=$(find "$folder" -name "$name" 2> /dev/null | sort | head -n 1)
    [ -n "$found" ] || missing "no $name in $folder"
    cp "$found" "$work/$name" || exit 2
done
python3 "$tools/bench_texts.py" "$work/texts" || missing "the texts were not written"

# build NAME WORD..: builds the program of an engine with these arguments of gcc, and says so if that fails.
build() {
    local name=$1
    shift
    gcc -O2 -I/usr/include/fribidi -o "$work/$name" "$tools/beside/$name.c" "$@" 2> "$work/gcc" ||
        echo "$name is not built: $(head -n 1 "$work/gcc")" >&2
}
build lay_out_bidi_c "$library" "$heap"
build lay_out_icu -licuuc
build lay_out_fribidi -lfribidi
if "$tools/../c/fribidi/build.sh" "$work"; then
    gcc -O2 -I/usr/include/fribidi -o "$work/lay_out_over_bidi" "$tools/beside/lay_out_fribidi.c" \
        "$work/libfribidi_over_bidi.so" -lfribidi "-Wl,-rpath,$work"
fi
build break_bidi_c "$library" "$heap"
build break_icu -licuuc
build break_fribidi -lfribidi
build line_bidi_c "$library" "$heap"
build utf8_bidi_c "$library" "$heap"
build utf8_icu -licuuc
build utf8_fribidi -lfribidi
build utf16_bidi_c "$library" "$heap"
[ -x "$program" ] || echo "no program at $program" >&2

# characters_of TEXT: prints how many characters a file has.
characters_of() {
    python3 -c 'import sys; print(len(open(sys.argv[1], encoding="utf-8", newline="").read()))' "$1"
}

# written_of TEXT: prints how many characters its lines have.
written_of() {
    python3 -c 'import sys; print(len(open(sys.argv[1], encoding="utf-8", newline="").read().replace("\n", "")))' "$1"
}

# units_of ENCODING TEXT: prints how many code units it has in UTF-8 or UTF-16.
units_of() {
    python3 -c 'import sys
text = open(sys.argv[2], encoding="utf-8", newline="").read()
print(len(text.encode(sys.argv[1])) // {"utf-8": 1, "utf-16-le": 2}[sys.argv[1]])' "$1" "$2"
}

# instructions WORD..: prints how many instructions a command runs. Options of callgrind come before the command.
instructions() {
    valgrind --tool=callgrind --callgrind-out-file=/dev/null "$@" 2>&1 | sed -n 's/.*Collected : \([0-9]*\)$/\1/p'
}

# each_of_program TEXT COUNT: prints the instructions of the program `bench` for a character, or `-`.
each_of_program() {
    [ -x "$program" ] || { echo -; return; }
    local few more
    few=$(instructions "$program" --tables "$work" "$1" 10)
    more=$(instructions "$program" --tables "$work" "$1" 30)
    [ -n "$few" ] && [ -n "$more" ] && echo "$(((more - few + 10 * $2) / (20 * $2)))" || echo -
}

# all_of NAME TEXT: prints the instructions of 21 calls of an engine's program, or `-`.
all_of() {
    [ -x "$work/$1" ] || { echo -; return; }
    local all
    all=$(instructions --toggle-collect=lay_out_once "$work/$1" "$2" 20 "$work")
    echo "${all:--}"
}

# each_of NAME TEXT COUNT: prints those of one call for a character.
each_of() {
    local all
    all=$(all_of "$1" "$2")
    [ "$all" != - ] && echo "$(((all + 10 * $3) / (21 * $3)))" || echo -
}

# later_of NAME TEXT: prints the instructions of one call of an engine's program after the first ones, or `-`.
later_of() {
    [ -x "$work/$1" ] || { echo -; return; }
    local few more
    few=$(instructions --toggle-collect=lay_out_once "$work/$1" "$2" 10)
    more=$(instructions --toggle-collect=lay_out_once "$work/$1" "$2" 30)
    echo $(((more - few) / 20))
}

# calls_row NAME CHARACTERS OVER FRIBIDI, the last two of which may be `-`: prints a line of the table of FriBidi's
# calls.
calls_row() {
    awk -v name="$1" -v characters="$2" -v over="$3" -v fribidi="$4" '
        function each(all) { return all == "-" ? "-" : sprintf("%.0f", all / characters) }
        BEGIN {
            ratio = over == "-" || fribidi == "-" ? "-" : sprintf("%.2f", over / fribidi)
            printf "%-18s %10s %10s %8s\n", name, each(over), each(fribidi), ratio
        }'
}

# time_of WORD..: prints the nanoseconds that a program takes for a character, or `-` if it is missing or out of time.
time_of() {
    local found
    found=$(timeout $seconds "$@" 2>&1 | sed -n 's/.* \([0-9.]*\) ns a character.*/\1/p')
    echo "${found:--}"
}

# row NAME PROGRAM LIBRARY ICU FRIBIDI, of which each may be `-`: prints a line of the table, with the ratios to ICU.
row() {
    awk -v name="$1" -v ours="$2" -v from_c="$3" -v icu="$4" -v fribidi="$5" '
        function beside(a, b) { return a == "-" || b == "-" || b == 0 ? "-" : sprintf("%.2f", a / b) }
        BEGIN {
            printf "%-18s %10s %10s %10s %10s %8s %8s\n",
                name, ours, from_c, icu, fribidi, beside(ours, icu), beside(from_c, icu)
        }'
}

# encoded_row NAME CHARACTERS UNITS CODES OURS ICU FRIBIDI, the last four of 21 calls, each of which may be `-`: prints
# a line of the table of texts in code units, with the ratio to ICU, and what each unit takes above the call on code
# points.
encoded_row() {
    awk -v name="$1" -v characters="$2" -v units="$3" -v codes="$4" -v ours="$5" -v icu="$6" -v fribidi="$7" '
        function each(all) { return all == "-" ? "-" : sprintf("%.0f", all / (21 * characters)) }
        function beside(a, b) { return a == "-" || b == "-" || b == 0 ? "-" : sprintf("%.2f", a / b) }
        function above(a, b) { return a == "-" || b == "-" ? "-" : sprintf("%.1f", (a - b) / (21 * units)) }
        BEGIN {
            printf "%-18s %10s %10s %10s %10s %8s %8s\n",
                name, each(codes), each(ours), each(icu), each(fribidi), beside(ours, icu), above(ours, codes)
        }'
}

head='%-18s %10s %10s %10s %10s %8s %8s\n'
# shellcheck disable=SC2059
printf "$head" "instructions" "ours" "from C" "ICU" "FriBidi" "to ICU" "C to ICU"
for name in $ordinary; do
    text=$work/texts/$name.txt
    count=$(characters_of "$text")
    row "$name" "$(each_of_program "$text" "$count")" "$(each_of lay_out_bidi_c "$text" "$count")" \
        "$(each_of lay_out_icu "$text" "$count")" "$(each_of lay_out_fribidi "$text" "$count")"
done
# shellcheck disable=SC2059
printf "$head" "lines anew" "ours" "from C" "ICU" "FriBidi" "to ICU" "C to ICU"
for name in ${ordinary%% one_*}; do
    text=$work/texts/$name.txt
    count=$(characters_of "$text")
    row "$name" - "$(each_of break_bidi_c "$text" "$count")" "$(each_of break_icu "$text" "$count")" \
        "$(each_of break_fribidi "$text" "$count")"
done
# shellcheck disable=SC2059
printf "$head" "lines alone" "ours" "from C" "ICU" "FriBidi" "to ICU" "C to ICU"
for name in ${ordinary%% one_*}; do
    text=$work/texts/$name.txt
    count=$(characters_of "$text")
    row "$name" - "$(each_of line_bidi_c "$text" "$count")" "$(each_of break_icu "$text" "$count")" \
        "$(each_of break_fribidi "$text" "$count")"
done
# shellcheck disable=SC2059
printf "$head" "in UTF-8" "codes" "ours" "ICU" "FriBidi" "to ICU" "a unit"
for name in ${ordinary%% one_*}; do
    text=$work/texts/$name.txt
    encoded_row "$name" "$(characters_of "$text")" "$(units_of utf-8 "$text")" "$(all_of lay_out_bidi_c "$text")" \
        "$(all_of utf8_bidi_c "$text")" "$(all_of utf8_icu "$text")" "$(all_of utf8_fribidi "$text")"
done
# shellcheck disable=SC2059
printf "$head" "in UTF-16" "codes" "ours" "ICU" "FriBidi" "to ICU" "a unit"
for name in ${ordinary%% one_*}; do
    text=$work/texts/$name.txt
    encoded_row "$name" "$(characters_of "$text")" "$(units_of utf-16-le "$text")" "$(all_of lay_out_bidi_c "$text")" \
        "$(all_of utf16_bidi_c "$text")" "$(all_of lay_out_icu "$text")" -
done
# written_table TITLE OURS ICU FRIBIDI: prints a table of texts as people write them, by these programs.
written_table() {
    # shellcheck disable=SC2059
    printf "$head" "$1" "ours" "from C" "ICU" "FriBidi" "to ICU" "C to ICU"
    for name in $written; do
        text=$work/texts/$name.txt
        count=$(written_of "$text")
        row "$name" - "$(each_of "$2" "$text" "$count")" "$(each_of "$3" "$text" "$count")" \
            "$(each_of "$4" "$text" "$count")"
    done
}
written_table "as written" lay_out_bidi_c lay_out_icu lay_out_fribidi
written_table "as written, UTF-8" utf8_bidi_c utf8_icu no_program
printf '%-18s %10s %10s %8s\n' "FriBidi's calls" "over ours" "FriBidi" "ratio"
for name in english hebrew mixed english_20 hebrew_20 mixed_20; do
    text=$work/texts/$name.txt
    calls_row "$name" "$(characters_of "$text")" "$(later_of lay_out_over_bidi "$text")" \
        "$(later_of lay_out_fribidi "$text")"
done
# shellcheck disable=SC2059
printf "$head" "ns" "ours" "from C" "ICU" "FriBidi" "to ICU" "C to ICU"
for name in $hostile; do
    text=$work/texts/$name.txt
    row "$name" "$(time_of "$program" --tables "$work" "$text" 10)" \
        "$(time_of "$work/lay_out_bidi_c" "$text" 10 "$work")" \
        "$(time_of "$work/lay_out_icu" "$text" 10)" "$(time_of "$work/lay_out_fribidi" "$text" 10)"
done
# shellcheck disable=SC2059
printf "$head" "ns" "ours" "from C" "ICU" "FriBidi" "to ICU" "C to ICU"
for name in $long; do
    for size in "" _1e6; do
        text=$work/texts/$name$size.txt
        rounds=10
        [ -n "$size" ] || rounds=10000
        row "$name$size" - "$(time_of "$work/lay_out_bidi_c" "$text" $rounds "$work")" \
            "$(time_of "$work/lay_out_icu" "$text" $rounds)" "$(time_of "$work/lay_out_fribidi" "$text" $rounds)"
    done
done
