#!/bin/bash
# Refuses each growth of memory in turn, in the tests that are made for it and in the program: the first one, the
# second, .. until a run has no such growth. Each test must pass each time: it expects the usual result or a `Memory`
# error, and no other. The program must end as usual, or print `bidi: out of memory` and end with 3. It prints, for each
# library that takes memory and for the program, how many growths were refused, and ends with 0 if all passed.
#
# usage: tools/refused_growths.sh [CRATE ..]    (of library_tests, command_tests, bidi; with none all of them)
#
# It runs what `rt ci` built, or `rt test` and `rt run` in a crate's folder, and takes two minutes. It needs a C
# compiler (CC, else cc), and ends with 2 if that or a program is missing.
set -u
tools=$(cd "$(dirname "$0")" && pwd)
crates=$tools/../crates

missing() {
    echo "$1" >&2
    exit 2
}
work=$(mktemp -d) || exit 2
trap 'rm -r "$work"' EXIT
"${CC:-cc}" -shared -fPIC -O1 -fno-builtin -o "$work/refuse_growth.so" "$tools/growths/refuse_growth.c" ||
    missing "no C compiler, or it does not build"

# refusing N COMMAND..: runs a command with the growth of this number refused. It writes to the file `refused` whether
# there was one, and to `out` and `err` the command's output. The status is the command's.
refusing() {
    local number=$1
    shift
    REFUSED_GROWTH=$number LD_PRELOAD=$work/refuse_growth.so "$@" > "$work/out" 2> "$work/err" 9> "$work/refused"
}

# every COMMAND..: runs a command with each growth refused in turn, calls `is_right STATUS` for each run, and counts the
# growths.
every() {
    local number=0 status
    while true; do
        number=$((number + 1))
        refusing "$number" "$@"
        status=$?
        if ! is_right "$status"; then
            echo "growth $number refused: status $status: $*" >&2
            cat "$work/out" "$work/err" >&2
            exit 1
        fi
        [ -s "$work/refused" ] || break
        growths=$((growths + 1))
    done
}

# tests_of CRATE WHAT TEST..: refuses every growth of these tests, each of which runs alone.
tests_of() {
    local crate=$1 what=$2 growths=0 test program
    shift 2
    program=$crates/$crate/out/${crate}_tests
    [ -x "$program" ] || missing "no $program: run rt ci, or rt test in crates/$crate"
    is_right() {
        [ "$1" -eq 0 ] && grep -q '^test result: ok' "$work/out"
    }
    for test in "$@"; do
        "$program" --list 2> /dev/null | grep -qx "$test: test" || missing "$crate has no test $test"
        every "$program" "$test"
    done
    echo "$crate: $growths growths refused, each in turn: $what"
}

# rows STATUS WORD..: refuses every growth of the program with these arguments, which usually ends with this status.
# Then nothing is printed. With `front` in place of STATUS, which stands for 0, any front of the usual output is
# printed.
rows() {
    local expected=$1 most=0
    shift
    if [ "$expected" = front ]; then
        expected=0
        most=-1
    fi
    "$program" "$@" > "$work/ever" 2> "$work/ever_err"
    [ $? -eq "$expected" ] || missing "without a refused growth: not status $expected: $*"
    is_right() {
        if [ "$1" -eq "$expected" ] && cmp -s "$work/out" "$work/ever" && cmp -s "$work/err" "$work/ever_err"; then
            return 0
        fi
        [ "$1" -eq 3 ] && is_front && [ "$(cat "$work/err")" = "bidi: out of memory" ]
    }
    is_front() {
        local length
        length=$(stat -c %s "$work/out")
        [ "$length" -eq 0 ] || { [ "$most" -ne 0 ] && cmp -s -n "$length" "$work/out" "$work/ever"; }
    }
    every "$program" "$@"
}

program_of_bidi() {
    local program=$crates/bidi/out/bidi growths=0
    [ -x "$program" ] || missing "no $program: run rt ci, or rt run -- --help in crates/bidi"
    mkdir "$work/t"
    printf '05D0..05D1 ; R\n0028..0029 ; ON\n' > "$work/t/DerivedBidiClass.txt"
    printf '0028; 0029; o\n0029; 0028; c\n' > "$work/t/BidiBrackets.txt"
    printf '0028; 0029\n0029; 0028\n' > "$work/t/BidiMirroring.txt"
    printf 'a(\xd7\x90)\n' > "$work/text"
    printf '@Levels: 0\n@Reorder: 0\nL; 7\n' > "$work/classes"
    printf '0061;0;0;0;0\n' > "$work/characters"
    rows 0 levels --tables "$work/t" "$work/text"
    rows 0 reorder --tables "$work/t" --columns 2 "$work/text"
    { cat "$work/text"; head -c 5000 /dev/zero | tr '\0' a; echo; } > "$work/paragraphs"
    rows front levels --tables "$work/t" "$work/paragraphs"
    rows front reorder --tables "$work/t" "$work/paragraphs"
    rows 0 explain --tables "$work/t" "$work/text"
    rows 0 explain --classes 'R ON LRE L'
    rows 0 explain --tables "$work/t" --codes '05D0 0028'
    rows front explain --row 3 --kind classes "$work/classes"
    rows front explain --row 1 --kind characters --tables "$work/t" "$work/characters"
    rows 1 judge --kind classes "$work/classes"
    rows 1 report --kind classes "$work/classes"
    rows 0 judge --kind characters --tables "$work/t" "$work/characters"
    rows 0 rows --form exhaustive --alphabet 'L R' --length 1..2
    rows 0 rows --form brackets --kind characters --tables "$work/t" --count 2 --length 1..2
    rows 0 rows --of "$work/text" --tables "$work/t"
    rows 3 levels --tables "$work/t" "$work/missing"
    rows 2 judge --kind characters "$work/characters"
    rows 2 levels
    rows 2 explain --classes 'R X'
    rows 2 explain --codes '05D0 X'
    rows 2 explain --row 1 --kind classes "$work/classes"
    rows 0 --help
    echo "bidi: $growths growths refused, each in turn: the program, over files of the system"
}

for crate in ${*:-library_tests command_tests bidi}; do
    case $crate in
        library_tests)
            tests_of library_tests 'the three readers of tables, and a source that had failed' \
                table_faults::says_that_memory_was_refused table_faults::a_source_that_had_failed
            tests_of library_tests 'both kinds of judge, and files judged after it' \
                judging::no_growth_comes_after_making characters_rows::no_growth_comes_after_making
            tests_of library_tests \
                'IsolateMap and Explicit of explicit, Sequences of sequences, Pairs of resolve, Resolver' \
                rooms::says_that_memory_was_refused
            tests_of library_tests 'Scratch, and a thousand layouts after it' \
                line_rows::no_growth_comes_after_making
            tests_of library_tests 'print_levels and print_reorder' \
                printed_out_of_memory::prints_or_says_that_memory_was_refused ;;
        command_tests)
            tests_of command_tests 'run over files in memory' \
                faults::runs_as_usual_or_reports_that_memory_ran_out ;;
        bidi)
            program_of_bidi ;;
        *) missing "$crate has no test made for refused memory" ;;
    esac
done
