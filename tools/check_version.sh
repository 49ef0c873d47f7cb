#!/bin/bash
# Checks that every place that names the version of the product agrees with the file VERSION: the command, the library
# for C, the header, the manual pages, `bidi-draw`, the changelog, the module for Python, the crate for Rust, the
# installed file for pkg-config, the soname's number and, if the program is built, `bidi --version`. It checks with
# `tools/edition.py --check` that every place that names the built-in edition of Unicode agrees with data/EDITION. If
# there is `rt`, it also checks that the command and the documents name the kit that `rt version` names. It ends with 0
# if all agree, and with 1 if not.
#
# usage: tools/check_version.sh
set -u
top=$(cd "$(dirname "$0")/.." && pwd)
cd "$top" || exit 2
version=$(cat VERSION) || exit 2
wrong=0

# says WHERE FOUND: compares what a place says with the version.
says() {
    if [ "$2" != "$version" ]; then
        echo "$1 says '$2', and VERSION '$version'" >&2
        wrong=$((wrong + 1))
    fi
}

[[ $version =~ ^[0-9]+\.[0-9]+\.[0-9]+$ ]] || { echo "VERSION is no version: '$version'" >&2; wrong=1; }
says crates/command "$(sed -n 's/^pub const BIDI_VERSION: &str = "\([^ ]*\) .*$/\1/p' crates/command/src/help.rt)"
says crates/for_c "$(sed -n 's/^pub const VERSION: &str = "\(.*\)";$/\1/p' crates/for_c/src/version.rt)"
says c/bidi.h "$(sed -n 's/^#define BIDI_VERSION "\(.*\)"$/\1/p' c/bidi.h)"
numbers=$(sed -n 's/^#define BIDI_VERSION_\(MAJOR\|MINOR\|PATCH\) \([0-9]*\)$/\2/p' c/bidi.h)
says "c/bidi.h, by numbers," "$(tr '\n' . <<< "$numbers" | sed 's/\.$//')"
editions=$(tools/edition.py --check) || { echo "$editions" >&2; wrong=$((wrong + 1)); }
edition=$(cat data/EDITION)
built_in=$(sed -n 's/^- The built-in tables are those of Unicode \([0-9.]*[0-9]\).*$/\1/p' CHANGELOG.md | head -n 1)
if [ "$built_in" != "$edition" ]; then
    echo "CHANGELOG.md says the edition '$built_in', and data/EDITION '$edition'" >&2
    wrong=$((wrong + 1))
fi
says docs/bidi.1 "$(sed -n 's/^\.TH BIDI 1 "[^"]*" "bidi \(.*\)" "User Commands"$/\1/p' docs/bidi.1)"
says docs/bidi-draw.1 "$(sed -n 's/^\.TH BIDI-DRAW 1 "[^"]*" "bidi \(.*\)" "User Commands"$/\1/p' docs/bidi-draw.1)"
says draw/bidi-draw "$(sed -n 's/^VERSION = "\(.*\)"$/\1/p' draw/bidi-draw)"
for file in docs/COMMAND.md crates/transcript_rows/data/arguments.txt; do
    says "$file" "$(sed -n 's/^\(| \)\?bidi \([0-9.]*\) (rules .*$/\2/p' "$file")"
done
says CHANGELOG.md "$(sed -n 's/^## \([0-9.]*\)$/\1/p' CHANGELOG.md | head -n 1)"
says python/bidi_proved "$(sed -n 's/^__version__ = "\(.*\)"$/\1/p' python/bidi_proved/__init__.py)"
says rust/bidi-proved "$(sed -n 's/^version = "\(.*\)"$/\1/p' rust/bidi-proved/Cargo.toml)"
for file in python/bidi_proved/library.py python/make_wheel.py; do
    soname=$(sed -n 's/^SONAME = "\(.*\)"$/\1/p' "$file")
    [ "$soname" = "libbidi_c.so.${version%%.*}" ] || { echo "$file names '$soname'" >&2; wrong=$((wrong + 1)); }
done
grep -q '^Version: @version@$' c/bidi_c.pc.in || says c/bidi_c.pc.in 'something else than @version@'
if command -v rt > /dev/null; then
    kit=$(rt version | head -n 1)
    for file in crates/command/src/help.rt README.md docs/COMMAND.md docs/PROVED.md; do
        grep -qF "$kit" "$file" || { echo "$file does not name the kit '$kit'" >&2; wrong=$((wrong + 1)); }
    done
fi
program=crates/bidi/out/bidi
if [ -x "$program" ]; then
    says "bidi --version" "$("$program" --version | sed -n '1s/^bidi \([^ ]*\) .*$/\1/p')"
fi
[ "$wrong" -eq 0 ] && echo "version $version, everywhere"
