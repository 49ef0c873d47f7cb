#!/bin/bash
# Runs the built program over files of the system, and compares its statuses and what it writes: a yes, a no, a missing
# file, a full disk, a closed pipe. It lays out texts with tables, with the built-in ones, from standard input, and in a
# pipe that shows the first line before the next is written. It makes reports, one of them on a thousand faults that it
# plants. If the package unicode-data is installed, it also judges and reports on the official test files, with the
# property files of data/ and with the built-in tables; else it says that it does not. It ends with 0 if all is right,
# with 1 if not, and with 2 if the program is missing.
#
# usage: tools/check_program.sh [FOLDER]      (FOLDER, with the test files and their property files: /usr/share/unicode)
#
# It runs what `rt ci` built, or `rt run` in crates/bidi, and takes some seconds.
set -u
folder=${1:-/usr/share/unicode}
tools=$(cd "$(dirname "$0")" && pwd)
program=$tools/../crates/bidi/out/bidi
data=$(cd "$tools/../data" && pwd)
data=$data/unicode-$(cat "$data/EDITION")
if [ ! -x "$program" ]; then
    echo "no program at $program: run rt ci, or rt run -- --help in crates/bidi" >&2
    exit 2
fi
work=$(mktemp -d) || exit 2
trap 'rm -r "$work"' EXIT
cd "$work" || exit 2
checks=0
wrong=0

# is WHAT EXPECTED FOUND: counts a comparison, and says if it fails.
is() {
    checks=$((checks + 1))
    if [ "$2" != "$3" ]; then
        wrong=$((wrong + 1))
        printf '%s: expected\n%s\nfound\n%s\n' "$1" "$2" "$3" >&2
    fi
}

# ends STATUS OUT ERR WORD..: runs the program with these arguments, and compares its status and what it writes.
ends() {
    local status=$1 out=$2 err=$3
    shift 3
    "$program" "$@" > found_out 2> found_err
    is "status of $*" "$status" $?
    is "standard output of $*" "$out" "$(cat found_out)"
    is "standard error of $*" "$err" "$(cat found_err)"
}

mkdir t
printf '000A ; B\n0020 ; WS\n0028..0029 ; ON\n05D0..05EA ; R\n' > t/DerivedBidiClass.txt
printf '0028; 0029; o\n0029; 0028; c\n' > t/BidiBrackets.txt
printf '0028; 0029\n0029; 0028\n' > t/BidiMirroring.txt

printf '@Levels: 1 1 0\n@Reorder: 1 0 2\nR B L; 1\n' > yes.txt
printf '@Levels: 0\n@Reorder: 0\nL; 7\n' > no.txt
printf '05D0 0028 0061 0029 05D1;1;1;1 1 2 1 1;4 3 2 1 0\n' > characters.txt
printf '\xd7\x90 (a' > text.txt
printf '\xff' > bytes.txt
head -c 16777217 /dev/zero > large.txt

ends 0 'yes: 1 rows, 1 cases' '' judge --kind classes yes.txt
ends 1 'no: line 3: rtl: levels at 0' '' judge --kind classes no.txt
ends 0 'yes: 1 rows, 1 cases' '' judge --kind characters --tables t characters.txt
ends 0 'yes: 1 rows, 1 cases' '' judge --kind characters --built-in characters.txt
ends 3 '' 'bidi: cannot read missing.txt' judge --kind classes missing.txt
ends 3 '' 'bidi: cannot read t' judge --kind classes t
ends 3 '' 'bidi: cannot read no.txt/no.txt' judge --kind classes no.txt/no.txt
# The reason, which -v adds: with either of its names, at any place after the subcommand, and only if there is one.
unread=$'bidi: cannot read missing.txt\nbidi: reason: no such file'
for word in -v --verbose; do
    ends 3 '' "$unread" judge "$word" --kind classes missing.txt
    ends 3 '' "$unread" judge --kind classes missing.txt "$word"
done
for words in levels reorder explain 'report --kind classes' 'explain --row 1 --kind classes' 'rows --of'; do
    # shellcheck disable=SC2086
    ends 3 '' "$unread" $words missing.txt -v
done
ends 3 '' $'bidi: cannot read t\nbidi: reason: a folder' judge -v --kind classes t
ends 3 '' $'bidi: cannot read no.txt/no.txt\nbidi: reason: no such file' judge -v --kind classes no.txt/no.txt
ends 0 'yes: 1 rows, 1 cases' '' judge -v --kind classes yes.txt
ends 1 'no: line 3: rtl: levels at 0' '' judge -v --kind classes no.txt
ends 2 '' 'bidi: --tables is needed' judge -v --kind characters characters.txt
ends 2 '' $'bidi: X1 is no class\nbidi: reason: in \'ON X1 X2\', allowed: L R AL EN ES ET AN CS NSM BN B S WS ON LRE LRO RLE RLO PDF LRI RLI FSI PDI' \
    explain -v --classes 'ON X1 X2'
# A file that this user may not read, and one that the user may: as another user if this one may read all files.
cp no.txt kept.txt
chmod 0 kept.txt
chmod 755 .
cp "$program" program
another=()
if [ "$(id -u)" = 0 ]; then another=(setpriv --reuid=65534 --regid=65534 --clear-groups); fi
# by_another STATUS OUT ERR WORD..: as `ends`, as that user.
by_another() {
    local status=$1 out=$2 err=$3
    shift 3
    "${another[@]}" ./program "$@" > found_out 2> found_err
    is "status of $* by another user" "$status" $?
    is "standard output of $* by another user" "$out" "$(cat found_out)"
    is "standard error of $* by another user" "$err" "$(cat found_err)"
}
by_another 3 '' 'bidi: cannot read kept.txt' judge --kind classes kept.txt
by_another 3 '' $'bidi: cannot read kept.txt\nbidi: reason: permission denied' judge -v --kind classes kept.txt
by_another 3 '' $'bidi: cannot read missing.txt\nbidi: reason: no such file' judge -v --kind classes missing.txt
by_another 0 'yes: 1 rows, 1 cases' '' judge --kind classes yes.txt
rm program
# Blanks at the ends of a name are part of it.
cp yes.txt 'no.txt '
cp yes.txt ' no.txt'
ends 0 'yes: 1 rows, 1 cases' '' judge --kind classes 'no.txt '
ends 0 'yes: 1 rows, 1 cases' '' judge --kind classes ' no.txt'
ends 3 '' 'bidi: cannot read yes.txt ' judge --kind classes 'yes.txt '
mkdir 't '
cp t/*.txt 't '
printf '0061 ; R\n' > 't /DerivedBidiClass.txt'
ends 0 $'paragraph 0 level 1\n0 0061 R 1' '' levels --tables 't ' - < <(printf a)
ends 0 $'paragraph 0 level 0\n0 0061 L 0' '' levels --tables t - < <(printf a)
ends 2 '' 'bidi: --tables is needed' judge --kind characters characters.txt
ends 0 $'@Levels: 1\n@Reorder: 0\nR; 1\n@Levels: 1\n@Reorder: 0\nR; 2\n@Levels: 1\n@Reorder: 0\nR; 4' '' \
    rows --form exhaustive --alphabet R --length 1
ends 2 '' 'bidi: 1-2 is no range of lengths' rows --form exhaustive --alphabet R --length 1-2
ends 0 '05D0 0020 0028 0061;1;1;1 1 1 2;3 2 1 0' '' rows --of text.txt --directions rtl
ends 0 $'paragraph 0 level 1\n0 05D0 R 1\n1 0020 WS 1\n2 0028 ON 1\n3 0061 L 2' '' levels --tables t text.txt
ends 0 $'paragraph 0 level 0\n0 05D0 R 1\n1 0020 WS 0\n2 0028 ON 0\n3 0061 L 0' '' \
    levels --tables t --direction ltr text.txt
ends 0 $'a) \xd7\x90' '' reorder --tables t text.txt
ends 0 $' \xd7\x90\na)' '' reorder --tables t --columns 2 text.txt
ends 0 $'\xd7\x90 \n(a' '' reorder --tables t --direction ltr --columns 2 text.txt
ends 0 $'\xd7\x90 \n(a' '' reorder --direction=ltr --columns 2 --tables t text.txt
# As many arguments as a run of `reorder` can have, and one more.
ends 0 $'\xd7\x90 \n(a' '' reorder --tables t --direction ltr --columns 2 -- text.txt
"$program" reorder --tables t --direction ltr --columns 2 -- text.txt more > found_out 2> found_err
is 'status of one word more' 2 $?
is 'standard output of one word more' '' "$(cat found_out)"
explained=$'position code class level X W1 W2 W3 W4 W5 W6 W7 N0 N1 N2 I L1
0 05D0 R 1 . . . . . . . . . . . . .
1 0020 WS 1 . . . . . . . . . . R . .
2 0028 ON 1 . . . . . . . . . . R . .
3 0061 L 1 . . . . . . . . . . . 2 .
sequence 0 level 1 sos R eos R: 0 1 2 3
order 3 2 1 0'
ends 0 $'paragraph 0 level 1: R at 0\n'"$explained" '' explain --tables t text.txt
ends 0 $'paragraph 0 level 1: given\n'"$explained" '' explain --tables t --direction rtl text.txt
ends 0 $'paragraph 0 level 0: no strong character
position code class level X W1 W2 W3 W4 W5 W6 W7 N0 N1 N2 I L1
0 - ON 0 . . . . . . . . . L . . .
sequence 0 level 0 sos L eos L: 0
order 0' '' explain --classes ON
ends 2 '' 'bidi: X1 is no class' explain --classes 'ON X1 X2'
ends 0 $'paragraph 0 level 1: R at 0\n'"$explained" '' explain --tables t --codes '05D0 0020 0028 0061'
ends 0 $'paragraph 0 level 1: given\n'"$explained" '' explain --direction rtl --codes '05D0 0020 0028 0061'
ends 2 '' 'bidi: 28 is no code point' explain --codes '05D0 28 x'
# The row of a file that `report` names, of standard input too, a line that is no row, and one that is malformed.
row=$'line 3: rtl
paragraph 0 level 1: given
position code class level X W1 W2 W3 W4 W5 W6 W7 N0 N1 N2 I L1
0 - L 1 . . . . . . . . . . . 2 .
sequence 0 level 1 sos R eos R: 0
order 0
claimed levels: 0
defined levels: 2
claimed order: 0
defined order: 0'
printf '@Levels: 0\n@Reorder: 0\nL; 4\nL; 16\n' > row.txt
ends 0 "$row" '' explain --row 3 --kind classes row.txt
"$program" explain --row 3 --kind classes - < row.txt > found_out 2> found_err
is 'status of a row of standard input' 0 $?
is 'a row of standard input' "$row" "$(cat found_out)"
ends 2 '' 'bidi: row.txt: line 2 is no row' explain --row 2 --kind classes row.txt
ends 3 '' 'bidi: row.txt: line 4: malformed: BitSet' explain --row 5 --kind classes row.txt
ends 3 '' $'bidi: row.txt: line 4: malformed: BitSet\nbidi: reason: field 1, the bit set' \
    explain -v --row 5 --kind classes row.txt
ends 2 '' 'bidi: --tables is needed' explain --row 1 --kind characters characters.txt
# Classes in an argument of 131,071 bytes, the longest that Linux passes to a program.
"$program" explain --classes "ON$(printf '%131069s' '')" > found_out 2> found_err
is 'status of the longest word of classes' 0 $?
is 'order of the longest word of classes' 'order 0' "$(tail -n 1 found_out)"
# Likewise a code point.
"$program" explain --codes "0061$(printf '%131067s' '')" > found_out 2> found_err
is 'status of the longest word of code points' 0 $?
is 'order of the longest word of code points' 'order 0' "$(tail -n 1 found_out)"
# Arguments of nearly that length, of many classes and of many code points.
"$program" explain --classes "$(yes ON | head -n 40000 | tr '\n' ' ')" 2> found_err | tail -n 1 | tail -c 7 > found_out
is 'status of a word of many classes' 0 "${PIPESTATUS[0]}"
is 'end of explain of a word of many classes' ' 39999' "$(cat found_out)"
"$program" explain --codes "$(yes 0061 | head -n 26000 | tr '\n' ' ')" 2> found_err | tail -n 1 | tail -c 7 > found_out
is 'status of a word of many code points' 0 "${PIPESTATUS[0]}"
is 'end of explain of a word of many code points' ' 25999' "$(cat found_out)"
# As many paragraphs as a text can have bytes for.
yes '' | head -c 16777216 > paragraphs.txt
ends 0 '' '' rows --of paragraphs.txt
"$program" reorder paragraphs.txt > found_out 2> found_err
is 'status of reorder of many paragraphs' 0 $?
is 'lines of reorder of many paragraphs' 16777216 "$(wc -l < found_out)"
"$program" levels paragraphs.txt 2> found_err | tail -n 1 > found_out
is 'status of levels of many paragraphs' 0 "${PIPESTATUS[0]}"
is 'end of levels of many paragraphs' '16777215 000A B 0' "$(cat found_out)"
rm paragraphs.txt
ends 3 '' 'bidi: cannot read missing.txt' explain --tables t missing.txt
ends 2 '' 'bidi: a word is not UTF-8' judge --kind classes $'\xff'
ends 3 '' 'bidi: cannot read missing.txt' levels --tables t missing.txt
ends 3 '' 'bidi: bytes.txt: not UTF-8' reorder --tables t bytes.txt
ends 3 '' $'bidi: bytes.txt: not UTF-8\nbidi: reason: line 1, byte offset 0' reorder -v --tables t bytes.txt
ends 3 '' 'bidi: cannot read large.txt' reorder --tables t large.txt
ends 3 '' 'bidi: cannot read DerivedBidiClass.txt' levels --tables none text.txt
ends 3 '' $'bidi: cannot read large.txt\nbidi: reason: more than 16777216 bytes' reorder -v --tables t large.txt
ends 3 '' $'bidi: cannot read DerivedBidiClass.txt\nbidi: reason: no such file, folder of tables none' \
    levels -v --tables none text.txt

# The built-in tables, if no folder is named: they mirror a guillemet. A folder without a name is rejected.
printf '\xd7\x90\xc2\xab' > guillemet.txt
ends 0 $'paragraph 0 level 1\n0 05D0 R 1\n1 0020 WS 1\n2 0028 ON 1\n3 0061 L 2' '' levels text.txt
ends 0 $'a) \xd7\x90' '' reorder text.txt
ends 0 $'\xc2\xbb\xd7\x90' '' reorder guillemet.txt
ends 0 $'\xc2\xab\xd7\x90' '' reorder --tables t guillemet.txt
ends 0 $'paragraph 0 level 1: R at 0\n'"$explained" '' explain text.txt
ends 3 '' 'bidi: cannot read missing.txt' levels missing.txt
"$program" levels --tables '' text.txt > found_out 2> found_err
is 'status of a folder without a name' 2 $?
is 'standard output of a folder without a name' '' "$(cat found_out)"
is 'standard error of a folder without a name' \
    "error: a value is required for '--tables <DIR>' but none was supplied" "$(head -n 1 found_err)"

# The classes in the folder `extracted`, which are read if the folder has none.
mkdir -p e/extracted
cp t/BidiBrackets.txt t/BidiMirroring.txt e
printf '05D0 ; R\n05D0 ; R\n' > e/extracted/DerivedBidiClass.txt
ends 3 '' 'bidi: DerivedBidiClass.txt: line 2: Overlap' levels --tables e text.txt
mv t/DerivedBidiClass.txt e/extracted
ends 0 $'a) \xd7\x90' '' reorder --tables e text.txt
ends 3 '' 'bidi: cannot read DerivedBidiClass.txt' levels --tables t text.txt
cp e/extracted/DerivedBidiClass.txt t
mkdir e/DerivedBidiClass.txt
ends 3 '' 'bidi: cannot read DerivedBidiClass.txt' levels --tables e text.txt
ends 3 '' $'bidi: cannot read DerivedBidiClass.txt\nbidi: reason: a folder, folder of tables e' \
    levels -v --tables e text.txt

printf '0041 ; Left_To_Right\n' > t/BidiMirroring.txt
ends 3 '' 'bidi: BidiMirroring.txt: line 1: CodePoint' levels --tables t text.txt
ends 3 '' $'bidi: BidiMirroring.txt: line 1: CodePoint\nbidi: reason: the folder of tables is t' \
    levels -v --tables t text.txt
printf '0028; 0029\n0029; 0028\n' > t/BidiMirroring.txt

# Standard input in place of a file, also if it is closed or a file has its name.
ends 0 $'a) \xd7\x90' '' reorder --tables t - < text.txt
ends 0 $'paragraph 0 level 1\n0 05D0 R 1\n1 0020 WS 1\n2 0028 ON 1\n3 0061 L 2' '' levels --tables t - < <(cat text.txt)
ends 0 $'paragraph 0 level 1: R at 0\n'"$explained" '' explain --tables t - < text.txt
ends 1 'no: line 3: rtl: levels at 0' '' judge --kind classes - < no.txt
ends 0 'yes: 1 rows, 1 cases' '' judge --kind characters --tables t - < <(cat characters.txt)
ends 3 '' 'bidi: bytes.txt: not UTF-8' reorder --tables t bytes.txt < text.txt
ends 3 '' 'bidi: -: not UTF-8' reorder --tables t - < bytes.txt
ends 3 '' 'bidi: cannot read -' reorder --tables t - < large.txt
ends 3 '' 'bidi: cannot read -' levels --tables t - <&-
ends 3 '' 'bidi: cannot read -' levels --tables t - < t
cp text.txt ./-
ends 0 'yes: 1 rows, 1 cases' '' judge --kind classes - < yes.txt
ends 0 $'a) \xd7\x90' '' reorder --tables t ./- < yes.txt

# Texts that are printed while they are read, up to where reading breaks off.
printf 'ab\nc\xff\nd\n' > broken.txt
ends 3 ab 'bidi: broken.txt: not UTF-8' reorder broken.txt
ends 3 $'paragraph 0 level 0\n0 0061 L 0\n1 0062 L 0\n2 000A B 0' 'bidi: -: not UTF-8' levels - < broken.txt
ends 3 '' 'bidi: broken.txt: not UTF-8' explain broken.txt
{ printf 'ab\n'; head -c 16777217 /dev/zero | tr '\0' a; } > broken.txt
ends 3 ab 'bidi: cannot read broken.txt' reorder broken.txt
rm broken.txt
"$program" reorder bytes.txt > /dev/full 2> found_err
is 'status of bytes that are not UTF-8 to a full disk' 3 $?
is 'standard error of bytes that are not UTF-8 to a full disk' 'bidi: bytes.txt: not UTF-8' "$(cat found_err)"

# Of two errors a failed read or a text that is not UTF-8 comes before a failed write, also if the write fails first.
printf 'ab\nc\xff\nd\n' > broken.txt
"$program" reorder broken.txt > /dev/full 2> found_err
is 'status of a text that is not UTF-8 to a full disk' 3 $?
is 'standard error of it' 'bidi: broken.txt: not UTF-8' "$(cat found_err)"
{ printf 'ab\n'; head -c 16777217 /dev/zero | tr '\0' a; } > broken.txt
"$program" levels broken.txt > /dev/full 2> found_err
is 'status of a text that is too long to a full disk' 3 $?
is 'standard error of it' 'bidi: cannot read broken.txt' "$(cat found_err)"
rm broken.txt

# If nobody reads the output any more, no more of FILE is read.
for word in levels reorder; do
    { yes | timeout 60 "$program" "$word" - 2> found_err; echo "${PIPESTATUS[1]}" > status; } | head -n 1 > found_out
    is "status of $word that nobody reads" 3 "$(cat status)"
    is "standard error of $word that nobody reads" 'bidi: cannot write' "$(cat found_err)"
    case $word in levels) first='paragraph 0 level 0' ;; reorder) first=y ;; esac
    is "the first line of $word that nobody reads" "$first" "$(cat found_out)"
done

{ { printf '@Levels: 1\n@Reorder: 0\n'; yes 'L; 1'; } |
    timeout 60 "$program" report --kind classes --most 1000000000 - 2> found_err
    echo "${PIPESTATUS[1]}" > status; } | head -n 1 > found_out
is 'status of a report that nobody reads' 3 "$(cat status)"
is 'standard error of a report that nobody reads' 'bidi: cannot write' "$(cat found_err)"
is 'the first line of a report that nobody reads' 'line 3: auto: levels at 0: claimed 1, defined 0' "$(cat found_out)"

# A pipe shows each paragraph before the next one is written to the other pipe.
mkfifo written shown
# Prints as many lines of the pipe as are asked for.
shown_lines() {
    local line
    for ((k = 0; k < $1; k++)); do
        IFS= read -r -t 20 line <&4 || return
        printf '%s\n' "$line"
    done
}
for word in reorder levels; do
    timeout 60 "$program" "$word" - < written > shown 2> found_err &
    exec 3> written 4< shown
    case $word in reorder) most=1 ;; levels) most=4 ;; esac
    (printf 'ab\n') >&3
    first=$(shown_lines "$most")
    (printf 'cd\n') >&3
    second=$(shown_lines "$most")
    (printf 'e\n') >&3
    exec 3>&-
    rest=$(cat <&4)
    exec 4<&-
    wait $!
    is "status of $word in a pipe" 0 $?
    is "standard error of $word in a pipe" '' "$(cat found_err)"
    case $word in
        reorder)
            is 'the first paragraph of reorder in a pipe' ab "$first"
            is 'the second one' cd "$second"
            is 'the last one' e "$rest"
            ;;
        levels)
            is 'the first paragraph of levels in a pipe' $'paragraph 0 level 0\n0 0061 L 0\n1 0062 L 0\n2 000A B 0' "$first"
            is 'the second one' $'paragraph 1 level 0\n3 0063 L 0\n4 0064 L 0\n5 000A B 0' "$second"
            is 'the last one' $'paragraph 2 level 0\n6 0065 L 0\n7 000A B 0' "$rest"
            ;;
    esac
done
# A row is explained while the pipe that it came from stays open: nothing is read after its line.
timeout 60 "$program" explain --row 3 --kind classes - < written > shown 2> found_err &
exec 3> written 4< shown
head -n 3 row.txt >&3
found=$(timeout 20 cat <&4)
exec 3>&- 4<&-
wait $!
is 'status of a row in a pipe that stays open' 0 $?
is 'a row in a pipe that stays open' "$row" "$found"

# FILE is opened and read once. Here it is a pipe into which its text is written once, so a second read finds nothing.
mkfifo once
once() {
    local text=$1 out=$2
    shift 2
    timeout 20 sh -c 'cat "$1" > once' sh "$text" &
    timeout 20 "$program" "$@" once > found_out 2> found_err
    is "status of $* of a pipe" 0 $?
    is "standard output of $* of a pipe" "$out" "$(cat found_out)"
    is "standard error of $* of a pipe" '' "$(cat found_err)"
    wait $!
}
once row.txt "$row" explain --row 3 --kind classes
once text.txt '05D0 0020 0028 0061;1;1;1 1 1 2;3 2 1 0' rows --directions rtl --of
once text.txt $'paragraph 0 level 1: R at 0\n'"$explained" explain
once yes.txt 'yes: 1 rows, 1 cases' judge --kind classes
"$program" rows --directions rtl --of - < text.txt > found_out 2> found_err
is 'status of rows of standard input' 0 $?
is 'rows of standard input' '05D0 0020 0028 0061;1;1;1 1 1 2;3 2 1 0' "$(cat found_out)"

# Texts as long as a file can be, printed, with one of a quarter of that and one character more, and one of 1,048,576
# characters explained.
head -c 16777216 /dev/zero | tr '\0' a > most.txt
"$program" reorder most.txt > found_out 2> found_err
is 'status of reorder of the longest text' 0 $?
{ cat most.txt; echo; } | cmp -s - found_out
is 'comparison of what reorder prints of the longest text' 0 $?
head -c 4194305 most.txt > quarter.txt
"$program" reorder quarter.txt > found_out 2> found_err
is 'status of reorder of a quarter of that' 0 $?
is 'bytes of reorder of a quarter of that' 4194306 "$(wc -c < found_out)"
"$program" levels quarter.txt 2> found_err | tail -n 1 > found_out
is 'status of levels of a quarter of that' 0 "${PIPESTATUS[0]}"
is 'last line of levels of a quarter of that' '4194304 0061 L 0' "$(cat found_out)"
"$program" levels most.txt 2> found_err | tail -n 1 > found_out
is 'status of levels of the longest text' 0 "${PIPESTATUS[0]}"
is 'last line of levels of the longest text' '16777215 0061 L 0' "$(cat found_out)"
head -c 1048576 most.txt > million.txt
"$program" explain million.txt 2> found_err | tail -n 1 | tail -c 9 > found_out
is 'status of explain of a long text' 0 "${PIPESTATUS[0]}"
is 'end of explain of a long text' ' 1048575' "$(cat found_out)"

# Rows of the longest texts, to which the judge says yes, and of longer ones.
"$program" rows --form exhaustive --alphabet R --length 4095 > rows.txt 2> found_err
is 'status of rows of the longest text' 0 $?
is 'lines of rows of the longest text' 9 "$(wc -l < rows.txt)"
ends 0 'yes: 3 rows, 3 cases' '' judge --kind classes rows.txt
ends 2 '' 'bidi: --length ends above 4095' rows --form exhaustive --alphabet R --length 4096

# The longest line that is a row, and one character more.
head -c 4095 /dev/zero | tr '\0' x > line.txt
"$program" rows --of line.txt --tables t > rows.txt 2> found_err
is 'status of rows of the longest line' 0 $?
ends 0 'yes: 3 rows, 3 cases' '' judge --kind characters --tables t rows.txt
"$program" explain --row 1 --kind characters --tables t rows.txt 2> found_err | tail -n 1 | tail -c 6 > found_out
is 'status of explain of the longest row' 0 "${PIPESTATUS[0]}"
is 'end of explain of the longest row' ' 4094' "$(cat found_out)"
printf x >> line.txt
ends 3 '' 'bidi: line.txt: line 1: too long' rows --of line.txt

# Rows of each form of hard texts and of each kind, with the built-in tables. The judge says yes to them, with the
# published files of the same edition. Among 20 texts some exceed the greatest depth, and the most open brackets.
for form in nest marks numbers isolates separators; do
    "$program" rows --form "$form" --count 20 --length 300..600 --directions 'ltr auto-rtl' > rows.txt 2> found_err
    is "status of rows of $form" 0 $?
    ends 0 'yes: 40 rows, 40 cases' '' judge --kind classes rows.txt
done
for form in nest brackets marks numbers isolates separators; do
    "$program" rows --form "$form" --kind characters --count 20 --length 300..900 > rows.txt 2> found_err
    is "status of rows of $form, of characters" 0 $?
    is "lines of rows of $form, of characters" 60 "$(wc -l < rows.txt)"
    ends 0 'yes: 60 rows, 60 cases' '' judge --kind characters --tables "$data" rows.txt
    ends 0 'yes: 60 rows, 60 cases' '' judge --kind characters --built-in - < rows.txt
done
ends 2 '' 'bidi: up is no direction' rows --form nest --length 1 --directions 'auto up'
# Each option of rows in one run.
ends 0 $'05D0 05D0;1;1;1 1;1 0\n05D0 05D0;1;1;1 1;1 0' '' rows --kind characters --tables t --form random \
    --alphabet 05D0 --length 2..2 --seed 7 --count 2 --directions rtl

# Rows of characters in a pipe, with the built-in tables, which exclude a folder.
found=$({ "$program" rows --kind characters --form nest --count 20 --length 300..600 |
    "$program" judge --kind characters --built-in -; echo "${PIPESTATUS[*]}"; } 2> found_err)
is 'verdict on rows of characters in a pipe' $'yes: 60 rows, 60 cases\n0 0' "$found"
is 'standard error of it' '' "$(cat found_err)"
"$program" judge --kind characters --tables t --built-in characters.txt > found_out 2> found_err
is 'status of two sources of tables' 2 $?
is 'text of two sources of tables' "error: the argument '--tables <DIR>' cannot be used with '--built-in'" \
    "$(head -n 1 found_err)"
is 'output of two sources of tables' '' "$(cat found_out)"

# Reports: what they print and count, where they end, and the first of the wrong cases.
printf '@Levels: x 3\n@Reorder:\nLRE R; 3\nL; 16\nL; 1\n' > faults.txt
counts=$'no: line 4: malformed: BitSet\n1 rows, 1 wrong; 2 cases, 2 wrong
wrong by direction: auto 1, ltr 1, rtl 0, auto-rtl 0\nwrong by place: paragraph level 0, levels 0, order 2'
auto='line 3: auto: order at 0: claimed nothing, defined 1'
ends 1 "$auto"$'\nline 3: ltr: order at 0: claimed nothing, defined 1\n'"$counts" '' report --kind classes faults.txt
ends 1 "$auto"$'\n'"$counts" '' report --kind classes --most 1 faults.txt
ends 1 "$counts" '' report --kind classes --most=0 - < faults.txt
none=$'wrong by direction: auto 0, ltr 0, rtl 0, auto-rtl 0\nwrong by place: paragraph level 0, levels 0, order 0'
ends 0 $'1 rows, 0 wrong; 1 cases, 0 wrong\n'"$none" '' report --kind characters --tables t characters.txt
ends 2 '' 'bidi: --tables is needed' report --kind characters characters.txt
ends 3 '' 'bidi: cannot read missing.txt' report --kind classes missing.txt
ends 3 '' 'bidi: cannot read t' report --kind classes t
"$program" report --kind classes --most many faults.txt > found_out 2> found_err
is 'status of a word that is no number of wrong cases' 2 $?

# An engine that keeps the positions that X9 removes, and a wrong level, under each comparison. Then files for rows and
# for an explained row.
printf '@Levels: 0 1 1\n@Reorder: 0 2 1\nRLE R PDF; 2\n@Levels: 1\n@Reorder: 0\nL; 2\n' > engine.txt
# counted WRONG LEVELS ORDER: prints the counts of that file.
counted() {
    printf '2 rows, %s wrong; 2 cases, %s wrong\nwrong by direction: auto 0, ltr %s, rtl 0, auto-rtl 0\n' "$1" "$1" "$1"
    printf 'wrong by place: paragraph level 0, levels %s, order %s' "$2" "$3"
}
last='line 6: ltr: levels at 0: claimed 1, defined 0'
ends 1 $'line 3: ltr: levels at 0: claimed 0, defined x\n'"$last"$'\n'"$(counted 2 2 0)" '' \
    report --kind classes engine.txt
ends 1 "$last"$'\n'"$(counted 1 1 0)" '' report --kind classes --shown engine.txt
ends 1 $'line 3: ltr: order at 0: claimed 0, defined 1\n'"$(counted 1 0 1)" '' report --kind classes --order engine.txt
ends 0 "$(counted 0 0 0)" '' report --kind classes --order --shown engine.txt
ends 3 '' 'bidi: cannot read missing.txt' rows --of missing.txt
ends 3 '' 'bidi: cannot read t' explain --row 1 --kind classes t

# Rows of the hard texts exceed the limits: in some of those of nest a level is as deep as can be, and in some of those
# of brackets more than 63 are open. A script counts these in each text.
"$program" rows --form nest --count 20 --length 300..600 > rows.txt
is 'a level of 124 in rows of nest' 0 "$(grep -q '^@Levels:.* 124' rows.txt; echo $?)"
is 'a level of 126 in rows of nest' 0 "$(grep -q '^@Levels:.* 126' rows.txt; echo $?)"
"$program" rows --form brackets --kind characters --count 20 --length 300..900 --directions auto > rows.txt
passed=$(awk -F ';' '
    BEGIN {
        split("0028 1 0029 -1 005B 2 005D -2 2329 3 232A -3 3008 3 3009 -3 FF08 4 FF09 -4 2768 5", word, " ")
        for (k = 1; k in word; k += 2) kind[word[k]] = word[k + 1]
    }
    {
        count = split($1, code, " ")
        depth = top[0] = most = 0
        for (k = 1; k <= count; k++) {
            if (code[k] == "2067") top[++depth] = 0
            else if (code[k] == "2069" && depth > 0) depth--
            else if (kind[code[k]] > 0) {
                open[depth, ++top[depth]] = kind[code[k]]
                if (top[depth] > most) most = top[depth]
            } else if (kind[code[k]] < 0) {
                for (at = top[depth]; at > 0 && open[depth, at] != -kind[code[k]]; at--);
                if (at > 0) top[depth] = at - 1
            }
        }
        if (most > 63) passed++
    }
    END { print (passed > 0 ? "some" : "none") }
' rows.txt)
is 'rows of brackets with more than 63 open' some "$passed"

# A thousand faults, one in a row of each text of a right file: a level higher by two, a level too many, a position left
# out. The report finds each at its place, and no other.
"$program" rows --form random --seed 9 --count 1000 --alphabet 'L R AL EN ON' --length 1..9 > right.txt
awk -v planted=planted.txt '
    function direction(bits) { return bits == 1 ? "auto" : bits == 2 ? "ltr" : "rtl" }
    function tell(place, claimed, defined) {
        print "line " NR ": " direction($NF) ": " place ": claimed " claimed ", defined " defined > planted
    }
    /^@Levels:/ { row++; levels = $0; next }
    /^@Reorder:/ { order = $0; next }
    (row - 1) % 3 == int((row - 1) / 3) % 3 {
        number = int((row + 2) / 3)
        count = split(levels, level, " ") - 1
        at = number % count
        kind = int(number / 3) % 3
        if (kind == 0) {
            tell("levels at " at, level[at + 2] + 2, level[at + 2])
            level[at + 2] += 2
            levels = level[1]
            for (k = 2; k <= count + 1; k++) levels = levels " " level[k]
        } else if (kind == 1) {
            tell("levels at " count, 9, "nothing")
            levels = levels " 9"
        } else {
            split(order, position, " ")
            tell("order at " count - 1, "nothing", position[count + 1])
            sub(/ [0-9]+$/, "", order)
        }
    }
    { print levels; print order; print }
' right.txt > wrong.txt
is 'number of planted faults' 1000 "$(wc -l < planted.txt)"
"$program" report --kind classes --most 1000 wrong.txt > found_out 2> found_err
is 'status of the report on planted faults' 1 $?
is 'report on planted faults' "$(cat planted.txt)"$'\n3000 rows, 1000 wrong; 3000 cases, 1000 wrong' \
    "$(head -n 1001 found_out)"
is 'places of planted faults' 'wrong by place: paragraph level 0, levels 667, order 333' "$(tail -n 1 found_out)"
"$program" report --kind classes wrong.txt > found_out 2> found_err
is 'first planted faults' "$(head -n 20 planted.txt)" "$(head -n 20 found_out)"
is 'lines of the report on planted faults' 23 "$(wc -l < found_out)"

# Arguments that are rejected, help and the version.
"$program" reorder --columns 0 --tables t text.txt > found_out 2> found_err
is 'status of refused words' 2 $?
is 'standard output of refused words' '' "$(cat found_out)"
"$program" --help > found_out 2> found_err
is 'status of --help' 0 $?
is 'standard error of --help' '' "$(cat found_err)"
for word in levels reorder explain judge report rows; do
    "$program" $word --help
done > found_out 2> found_err
is 'help of each subcommand' "$(cat "$tools/help.out")" "$(cat found_out)"
is 'standard error of these' '' "$(cat found_err)"

ends 0 $'bidi 1.1.0 (rules P1 to L2 and L4 of UAX #9, Unicode 17.0)\ntables of Unicode 17.0.0 built in\nproved with rattle-kit-13f logic dac8208d650f15bf' '' --version

# A full disk, and a pipe that no one reads.
for words in 'judge --kind classes yes.txt' 'judge --kind classes no.txt' 'report --kind classes yes.txt' \
    'report --kind classes --most 1000 wrong.txt' 'levels --tables t text.txt' \
    'reorder --tables t text.txt' 'explain --tables t text.txt' 'explain --classes R' 'explain --codes 05D0' \
    'explain --row 3 --kind classes row.txt' 'rows --of text.txt --tables t' \
    'rows --form exhaustive --alphabet R --length 1' '--help'; do
    # shellcheck disable=SC2086
    "$program" $words > /dev/full 2> found_err
    is "status of $words to a full disk" 3 $?
    is "standard error of $words to a full disk" 'bidi: cannot write' "$(cat found_err)"
    # shellcheck disable=SC2086
    { sleep 0.2; "$program" $words 2> found_err; echo $? > status; } | true
    is "status of $words to a closed pipe" 3 "$(cat status)"
    is "standard error of $words to a closed pipe" 'bidi: cannot write' "$(cat found_err)"
done

# The built-in constants, and the published files of their edition.
"$tools/standard_tables.py" --check
is 'status of the tables that are built in' 0 $?
ln -s "$data" real
ends 0 $'paragraph 0 level 1\n0 05D0 R 1\n1 0020 WS 1\n2 0028 ON 1\n3 0061 L 2' '' levels --tables real text.txt
ends 0 $'a) \xd7\x90' '' reorder --tables real text.txt

# The official test files, with those property files.
found=$(find "$folder" -name 'BidiCharacterTest.txt*' 2> /dev/null | head -n 1)
if [ -n "$found" ]; then
    official=$("$tools/judge_official_files.sh" "$folder")
    is 'status of the official files' 0 $?
    echo "$official"
    for name in BidiTest.txt BidiCharacterTest.txt; do
        published=$(find "$folder" -name "$name*" | sort | head -n 1)
        case $published in
            *.gz) gzip -dc "$published" > "$name" ;;
            *.bz2) bzip2 -dc "$published" > "$name" ;;
            *.xz) xz -dc "$published" > "$name" ;;
            *) cp "$published" "$name" ;;
        esac
    done
    # As many rows and cases as the judge counts, and none is wrong.
    for words in '--kind classes BidiTest.txt' '--kind characters --tables real BidiCharacterTest.txt' \
        '--kind characters --built-in BidiCharacterTest.txt'; do
        # shellcheck disable=SC2086
        read -r _ rows _ cases _ <<< "$("$program" judge $words)"
        # shellcheck disable=SC2086
        ends 0 "$rows rows, 0 wrong; $cases cases, 0 wrong"$'\n'"$none" '' report $words
    done
    # In the last row of each, what is claimed and what is defined are the same, under each of its directions.
    for words in '--kind classes BidiTest.txt' '--kind characters --tables real BidiCharacterTest.txt' \
        '--kind characters --built-in BidiCharacterTest.txt'; do
        last=$(grep -n -v '^[#@]' "${words##* }" | grep ';' | tail -n 1 | cut -d : -f 1)
        # shellcheck disable=SC2086
        "$program" explain --row "$last" $words > found_out 2> found_err
        is "status of line $last, $words" 0 $?
        is "line $last, $words" "line $last: " "$(grep -o -m 1 '^line [0-9]*: ' found_out)"
        is "claimed levels of line $last, $words" "$(grep -c "^line $last: " found_out)" \
            "$(grep -c '^claimed levels:' found_out)"
        is "what is defined, $words" "$(grep '^claimed' found_out | sed 's/^claimed//')" \
            "$(grep '^defined' found_out | sed 's/^defined//')"
    done
else
    echo "no official files in $folder (package unicode-data): they are not judged"
fi

echo "$checks comparisons, $wrong wrong"
[ "$wrong" -eq 0 ]
