#!/bin/bash
# Builds the library that C links and the programs of this folder, and runs them. Compared with their stored output are
# the demo, the examples of the manual, a typesetter, a terminal, every call, those for engines with their own front,
# each refused allocation, threads that share tables, and reports. Then come the greatest sizes (in some 2.1 GB of
# memory) and a C++ program. All but the sizes run again under -fsanitize=address,undefined and under valgrind, and the
# threads under -fsanitize=thread. If the package unicode-data is installed, the sizes run with its property files, and
# the official files are laid out and judged too. If the command is built (`rt run -- --help` in crates/bidi), the lines
# that state verdicts and the reports are compared with what it prints. The script says what it leaves out because
# something isn't installed or built: without gcc everything. tools/check_install.sh builds programs over what
# c/install.sh installs.
#
# usage: c/run.sh [FOLDER]      (FOLDER, with the files of the Unicode database: /usr/share/unicode)
#
# build_library.sh makes the library with `rt lib`: in seconds if `rt check` or `rt lib` proved the crates on this
# machine before, else by proving each crate below it. The script ends with 0 if all is right, with 1 if not, and with 2
# if the library can't be made.
set -u
here=$(cd "$(dirname "$0")" && pwd)
folder=${1:-/usr/share/unicode}
# shellcheck source=c/machine.sh
. "$here/machine.sh"
library=$out/libbidi_c.a
command=$here/../crates/bidi/out/bidi

if ! command -v gcc > /dev/null; then
    echo "no gcc: the programs in C are not built"
    exit 0
fi
find_heap
work=$(mktemp -d) || exit 2
trap 'rm -r "$work"' EXIT
if ! "$here/build_library.sh" > "$work/lib" 2>&1 || [ ! -e "$library" ]; then
    tail -n 5 "$work/lib" >&2
    echo "no $library" >&2
    exit 2
fi
# shellcheck source=c/expect.sh
. "$here/expect.sh"

# build NAME WORD..: builds a program of this folder with these arguments of gcc.
build() {
    local name=$1
    shift
    gcc -O2 -Wall -Wextra -Wno-unused -o "$work/$name" "$here/$name.c" "$library" "$heap" "$@" 2> "$work/errors" ||
        fails "gcc $name"
}

# says_no WORD..: succeeds if a command ends with 1.
says_no() {
    "$@"
    [ $? -eq 1 ]
}

# all LABEL WORD..: runs each program, started with these words.
all() {
    local label=$1
    shift
    expect "$label demo" "$here/demo.out" "$@" "$work/demo" "$here/ucd" 20 < "$here/demo.txt"
    expect "$label manual" "$here/manual.out" "$@" "$work/manual"
    expect "$label typesetter" "$here/typesetter.out" "$@" "$work/typesetter" 12 20 40 < "$here/typesetter.txt"
    expect "$label terminal" "$here/terminal.out" "$@" "$work/terminal" 8 < "$here/terminal.txt"
    expect "$label calls" "$here/calls.out" "$@" "$work/calls" "$here/ucd"
    expect "$label fronts" "$here/fronts.out" "$@" "$work/fronts" "$here/ucd"
    expect "$label refused" "$here/refused.out" "$@" "$work/refused" "$here/ucd"
    expect "$label threads" "$here/threads.out" "$@" "$work/threads" "$here/ucd"
    expect "$label report on classes" "$here/faults.out" says_no "$@" "$work/report" classes "$here/ucd" 7 \
        < "$here/faults.txt"
    expect "$label report on characters" "$here/character_faults.out" says_no "$@" "$work/report" characters \
        "$here/ucd" 4096 < "$here/character_faults.txt"
}

build_all() {
    build demo "$@"
    build manual "$@"
    build typesetter "$@"
    build terminal "$@"
    build calls "$@"
    build fronts "$@"
    build refused -Wl,--wrap=malloc,--wrap=realloc "$@"
    build threads -pthread "$@"
    build report "$@"
}

# same_line KIND FILE: the library and the command print the same verdict on this test file.
same_line() {
    "$command" judge --kind "$1" --tables "$here/ucd" "$2" > "$work/said" 2> "$work/errors"
    local status=$?
    "$work/verdict" "$1" "$here/ucd" < "$2" > "$work/printed" 2>> "$work/errors"
    if [ $? = $status ] && cmp -s "$work/printed" "$work/said"; then
        echo "$1: $(cat "$work/printed")"
    else
        diff "$work/said" "$work/printed" >> "$work/errors"
        fails "the line of a verdict"
    fi
}

# same_report KIND FILE PIECE: the report on this test file, fed in pieces of so many bytes, is what the command prints.
same_report() {
    "$command" report --kind "$1" --tables "$here/ucd" --most 1000000 "$2" > "$work/said" 2> "$work/errors"
    local status=$?
    "$work/report" "$1" "$here/ucd" "$3" < "$2" > "$work/printed" 2>> "$work/errors"
    if [ $? = $status ] && cmp -s "$work/printed" "$work/said"; then
        echo "$1 in pieces of $3: the report of the command"
    else
        diff "$work/said" "$work/printed" >> "$work/errors"
        fails "a report"
    fi
}

mkdir "$work/published"
for name in DerivedBidiClass BidiBrackets BidiMirroring BidiTest BidiCharacterTest; do
    found=$(find "$folder" -name "$name.txt" 2> /dev/null | sort | head -n 1)
    [ -z "$found" ] || cp "$found" "$work/published/$name.txt"
done
build_all
all plain
build sizes
sized=$here/ucd
[ ! -e "$work/published/BidiMirroring.txt" ] || sized=$work/published
expect "sizes" "$here/sizes.out" "$work/sizes" "$sized"
build verdict
if [ -x "$command" ]; then
    printf '@Levels: 0\n@Reorder: 0\nL; 3\n' > "$work/file"
    same_line classes "$work/file"
    printf '@Levels: 0\n@Reorder: 0\nL; 3\nR; 4\n' > "$work/file"
    same_line classes "$work/file"
    printf '0061;2;1;0;0\n' > "$work/file"
    same_line characters "$work/file"
    printf '0061;2;0;0;0\n0061;2;0;0' > "$work/file"
    same_line characters "$work/file"
    for piece in 1 7 4096; do
        same_report classes "$here/faults.txt" $piece
        same_report characters "$here/character_faults.txt" $piece
    done
else
    echo "no command at $command: the lines of verdicts and the reports are not compared with its"
fi
if command -v g++ > /dev/null; then
    g++ -O2 -Wall -Wextra -o "$work/header" "$here/header.cc" "$library" "$heap" 2> "$work/errors" || fails "g++ header"
    expect "C++ header" "$here/header.out" "$work/header"
else
    echo "no g++: the C++ program is not built"
fi
if command -v valgrind > /dev/null; then
    all valgrind valgrind -q --leak-check=full --error-exitcode=9
    # Unlike the sanitizer of threads below, it sees what the library itself reads and writes.
    expect "threads, helgrind" "$here/threads.out" valgrind -q --tool=helgrind --error-exitcode=9 "$work/threads" \
        "$here/ucd"
else
    echo "no valgrind: nothing is run under it"
fi
sanitizers=()
if echo 'int main(void) { return 0; }' | gcc -fsanitize=address,undefined -x c -o "$work/sanitized" - 2> /dev/null; then
    sanitizers=(-g -fsanitize=address,undefined -fno-sanitize-recover)
    build_all "${sanitizers[@]}"
    all sanitized
else
    echo "no sanitizers: nothing is run under them"
fi
if echo 'int main(void) { return 0; }' | gcc -fsanitize=thread -x c -o "$work/sanitized" - 2> /dev/null; then
    build threads -pthread -g -fsanitize=thread
    expect "threads, sanitized" "$here/threads.out" "$work/threads" "$here/ucd"
else
    echo "no sanitizer of threads: the program with threads is not run under it"
fi
if [ -e "$work/published/BidiCharacterTest.txt" ]; then
    build official
    build refused "${sanitizers[@]}" -Wl,--wrap=malloc,--wrap=realloc
    expect "official files" "$here/official.out" "$work/official" "$work/published"
    "$work/refused" "$work/published" > "$work/printed" 2> "$work/errors" || fails "refused over the published files"
else
    echo "no official files in $folder (package unicode-data): they are not judged"
fi
echo "failures: $failures"
[ "$failures" = 0 ]
