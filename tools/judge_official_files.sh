#!/bin/bash
# Judges the official BidiTest.txt and BidiCharacterTest.txt with the built program, with the tables of the same folder,
# as the package unicode-data installs them. It prints what the program prints, and ends with 0 if both verdicts are
# yes. It ends with 2 if the program or one of the files is missing, and otherwise with 1.
#
# usage: tools/judge_official_files.sh [FOLDER]      (FOLDER: /usr/share/unicode)
#
# Build the program first, with `rt run -- --help` in crates/bidi.
set -u
folder=${1:-/usr/share/unicode}
program=$(cd "$(dirname "$0")/../crates/bidi" && pwd)/out/bidi
names="DerivedBidiClass.txt BidiBrackets.txt BidiMirroring.txt BidiTest.txt BidiCharacterTest.txt"

if [ ! -x "$program" ]; then
    echo "no program at $program" >&2
    exit 2
fi
work=$(mktemp -d) || exit 2
trap 'rm -r "$work"' EXIT

for name in $names; do
    found=$(find "$folder" \( -name "$name" -o -name "$name.gz" -o -name "$name.bz2" -o -name "$name.xz" \) |
        sort | head -n 1)
    case $found in
        '') echo "no $name in $folder" >&2; exit 2 ;;
        *.gz) gzip -dc "$found" > "$work/$name" || exit 2 ;;
        *.bz2) bzip2 -dc "$found" > "$work/$name" || exit 2 ;;
        *.xz) xz -dc "$found" > "$work/$name" || exit 2 ;;
        *) cp "$found" "$work/$name" || exit 2 ;;
    esac
done

# judge WORD..: runs the program with `judge` and these arguments, and fails unless it says yes and ends with 0.
judge() {
    local said status
    said=$("$program" judge "$@")
    status=$?
    echo "$said"
    [ "$status" -eq 0 ] && [[ $said == yes:* ]]
}

judge --kind classes "$work/BidiTest.txt" || exit 1
judge --kind characters --tables "$work" "$work/BidiCharacterTest.txt" || exit 1
