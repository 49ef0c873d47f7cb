# shellcheck shell=bash disable=SC2154
# Compares what programs print with what is stored. The scripts that run the programs of this folder source this file.
# They set `work`, a folder for what is printed; `failures` counts what was otherwise.
failures=0

# fails WHAT: counts a failure, and shows what was printed.
fails() {
    echo "$1: otherwise"
    head -n 5 "$work/errors"
    failures=$((failures + 1))
}

# expect NAME STORED WORD..: a command prints what is stored in this file.
expect() {
    local name=$1 stored=$2
    shift 2
    if "$@" > "$work/printed" 2> "$work/errors" && cmp -s "$work/printed" "$stored"; then
        echo "$name: as stored"
    else
        diff "$stored" "$work/printed" | head -n 5 >> "$work/errors"
        fails "$name"
    fi
}
