#!/bin/bash
# Draws texts with `bidi-draw` over the built program, and checks the drawings. That of a file and that of what
# `bidi explain` printed are the same. They are well-formed XML, several paragraphs have headings, a long one has rows,
# and each shown character is there once, mirrored. Then it checks what is rejected. It ends with 0 if all is right,
# with 1 if not, and with 2 if the program is missing. Without python3 it does nothing, and says so.
#
# usage: tools/check_draw.sh      (it takes some seconds; BIDI names another program than crates/bidi/out/bidi)
set -u
tools=$(cd "$(dirname "$0")" && pwd)
bidi=${BIDI:-$tools/../crates/bidi/out/bidi}
command -v python3 > /dev/null || { echo "no python3: nothing is drawn"; exit 0; }
[ -x "$bidi" ] || { echo "no program at $bidi: run rt ci, or rt run -- --help in crates/bidi" >&2; exit 2; }
work=$(mktemp -d) || exit 2
trap 'rm -r "$work"' EXIT
mkdir "$work/bin"
ln -s "$(readlink -f "$bidi")" "$work/bin/bidi"
ln -s "$tools/../draw/bidi-draw" "$work/bin/bidi-draw"
PATH=$work/bin:$PATH
cd "$work" || exit 2
wrong=0
checks=0

# is WHAT EXPECTED FOUND: counts a comparison, and says if it fails.
is() {
    checks=$((checks + 1))
    if [ "$2" != "$3" ]; then
        wrong=$((wrong + 1))
        printf '%s: expected\n%s\nfound\n%s\n' "$1" "$2" "$3" >&2
    fi
}

# count PATTERN FILE: prints how many lines of a drawing match.
count() {
    grep -cE "$1" "$2"
}

# parses FILE: whether a drawing is well-formed XML, as Python reads it.
parses() {
    python3 -c 'import sys, xml.dom.minidom; xml.dom.minidom.parse(sys.argv[1])' "$1" > /dev/null 2>&1
    echo $?
}

printf 'אב (cd) 12\nab\n' > text.txt
bidi-draw -o file.svg text.txt
is "status of a drawing of a file" 0 $?
bidi explain text.txt | bidi-draw > pipe.svg
is "a drawing from a pipe" 0 "$(cmp file.svg pipe.svg; echo $?)"
is "a drawing of standard input" 0 "$(bidi-draw - < text.txt | cmp - file.svg; echo $?)"
is "the drawing is XML" 0 "$(parses file.svg)"
is "boxes of two paragraphs, stored and shown" 28 "$(count '<rect class="box [a-z]*" .* rx=' file.svg)"
is "headings of two paragraphs" 2 "$(count 'class="label".*>paragraph [01] level' file.svg)"
is "lines between stored and shown" 14 "$(count '<path class="to_' file.svg)"
is "brackets, stored and shown" "2 2" "$(count '>\(<' file.svg) $(count '>\)<' file.svg)"
printf '<&>"\t\xe2\x80\xab\xe2\x80\xa8\xcc\x81\xf3\xa0\x80\x81' | bidi-draw --direction rtl - > signs.svg
is "signs of XML and characters that can't be seen are XML" 0 "$(parses signs.svg)"
is "a bracket mirrored from right to left" 2 "$(count '>&gt;<' signs.svg)"
head -c 100 /dev/zero | tr '\0' a > long.txt
bidi-draw --columns 40 long.txt > long.svg
is "rows of a long paragraph" 3 "$(count '>as stored<' long.svg)"
is "boxes of a long paragraph" 200 "$(count '<rect class="box [a-z]*" .* rx=' long.svg)"
is "no lines in a long paragraph" 0 "$(count '<path class="to_' long.svg)"
is "the width of a long paragraph" 1 "$(count 'viewBox="0 0 2156 ' long.svg)"
bidi explain --classes 'R ON LRE L PDF' | bidi-draw > classes.svg
is "status of a drawing of classes" "0 0" "$? $(parses classes.svg)"

# rejected STATUS TEXT WORD..: with these arguments, and a file as input, there is no drawing, for this reason.
rejected() {
    local status=$1 text=$2
    shift 2
    bidi-draw "$@" > made.svg 2> said < input
    is "status of bidi-draw $*" "$status" $?
    is "what bidi-draw $* says" "$text" "$(tail -n 1 said)"
    is "what bidi-draw $* draws" 0 "$(wc -c < made.svg)"
}

: > input
rejected 3 'bidi-draw: there is no paragraph to draw'
rejected 3 'bidi-draw: there is no paragraph to draw' input
rejected 3 'bidi-draw: bidi explain ended with 3' no_file.txt
rejected 2 'bidi-draw: error: FILE is needed with --direction' --direction rtl
rejected 2 'bidi-draw: error: argument --columns: 0 is not a number from 1 to 1000' --columns 0
rejected 3 'bidi-draw: cannot write: No such file or directory' -o no_folder/text.svg text.txt
bidi explain text.txt | sed '/^order/d' > input
rejected 3 'bidi-draw: a paragraph has no order of its positions'
echo words > input
rejected 3 'bidi-draw: line 1 is not from bidi explain'
is "status of --help" 0 "$(bidi-draw --help > /dev/null; echo $?)"
echo "$checks comparisons of drawings, $wrong wrong"
[ "$wrong" -eq 0 ]
