#!/bin/bash
# Runs the tests of the crate for Rust (rust/bidi-proved) over the library for C, with its archives and with its shared
# object, as c/install.sh installs them. It compares what the crate's examples print with docs/RUST.md, and the
# example there with that of README.md, which is one of the tests. It ends with 0 if all is right, with 1 if not, and
# with 2 if the library can't be installed. Without cargo or gcc it does nothing, and says so.
#
# usage: tools/check_rust.sh
#
# Build the library first, as c/run.sh does. Nothing is fetched: the crate has no dependency.
set -u
tools=$(cd "$(dirname "$0")" && pwd)
top=$tools/..
for command in cargo gcc; do
    "$command" --version > /dev/null 2>&1 || { echo "no $command: the crate for Rust is not tested"; exit 0; }
done
"$top/c/build_shared.sh" || exit 2
work=$(mktemp -d) || exit 2
trap 'rm -r "$work"' EXIT
"$top/c/install.sh" "$work/prefix" || exit 2
# cargo writes into the crate's folder, so it runs in a copy, beside the header, which a test reads.
mkdir -p "$work/c" "$work/rust" && cp -r "$top/rust/bidi-proved" "$work/rust" &&
    cp "$top/c/bidi.h" "$work/c" || exit 2
cd "$work/rust/bidi-proved" || exit 2
wrong=0

# tests LINK: runs the tests with the library linked in this way.
tests() {
    BIDI_LINK=$1 timeout 600 cargo test --offline -q > "$work/said" 2>&1 && return
    echo "the crate for Rust, $1:"
    cat "$work/said"
    wrong=1
}

# examples FILE: prints the examples in Rust of a document.
examples() {
    awk '/^```/ { inside = /^```rust$/; next } inside' "$1"
}

# transcripts: writes each command of docs/RUST.md that begins with one of these words to a numbered file, and its
# expected output to another.
transcripts() {
    awk -v work="$work" '
        /^```/ { shown = ""; inside = !inside; next }
        inside && /^\$ (cat|cargo) / {
            base = sprintf("%s/%03d", work, ++count)
            print substr($0, 3) > (base ".command")
            shown = base ".shown"
            printf "" > shown
            next
        }
        inside && /^\$ / { shown = ""; next }
        inside && shown != "" { print > shown }' "$top/docs/RUST.md"
}

# run_transcripts: runs these commands in order. `cat FILE` makes the file instead.
run_transcripts() {
    local file command count=0
    transcripts
    for file in "$work"/*.command; do
        command=$(< "$file")
        if [[ $command == 'cat '* ]]; then
            cp "${file%.command}.shown" "${command#cat }"
            continue
        fi
        count=$((count + 1))
        bash -c "${command/cargo run/cargo run --offline}" > "$work/found" 2>&1
        cmp -s "$work/found" "${file%.command}.shown" && continue
        echo "docs/RUST.md: $command"
        diff "$work/found" "${file%.command}.shown"
        wrong=1
    done
    [ "$count" -ge 2 ] || { echo "docs/RUST.md has $count commands for cargo"; wrong=1; }
}

export CARGO_TARGET_DIR=$work/target
# cargo runs build.rs elsewhere than it is called, so a folder that is not named in full is an error.
if ! BIDI_LIB_DIR=lib cargo build --offline 2>&1 | grep -q 'name the folder in full'; then
    echo "the crate for Rust takes a folder that is not named in full"
    wrong=1
fi
BIDI_LIB_DIR=$work/prefix/lib tests static
if command -v pkg-config > /dev/null; then
    export PKG_CONFIG_PATH=$work/prefix/lib/pkgconfig
else
    export BIDI_LIB_DIR=$work/prefix/lib
    echo "no pkg-config: the crate for Rust finds the library by BIDI_LIB_DIR alone"
fi
LD_LIBRARY_PATH=$work/prefix/lib tests shared
run_transcripts
if ! diff <(examples "$top/docs/RUST.md") <(examples README.md); then
    echo "docs/RUST.md has another example than rust/bidi-proved/README.md"
    wrong=1
fi
[ "$wrong" -eq 0 ] && echo "the crate for Rust: as expected"
