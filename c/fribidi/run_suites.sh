#!/bin/bash
# Runs the tests of FriBidi and raqm themselves with FriBidi's calls replaced by libfribidi_over_bidi.so. It gets the
# sources of the Debian packages with `apt-get source`, builds them, and runs what their `make check` or `meson test`
# runs, first without that shared object and then with it. It ends with 0 if the tests that passed before pass then too,
# with 1 if not, and with 2 if the shared object can't be built. It leaves out a package whose sources the system's
# package source doesn't have, or that does not build here, and says so.
#
# usage: c/fribidi/run_suites.sh [FOLDER]      (FOLDER, in which sources and logs stay: a temporary one)
#
# It needs the Debian package dpkg-dev, lines `deb-src` in apt's sources, and what the two need to be built: a compiler,
# make, or meson and ninja, and for raqm the packages libfreetype-dev and libharfbuzz-dev. Not part of the gate.
set -u
here=$(cd "$(dirname "$0")" && pwd)
if [ -n "${1:-}" ]; then
    mkdir -p "$1" && work=$(cd "$1" && pwd) || exit 2
else
    work=$(mktemp -d) || exit 2
    trap 'rm -rf "$work"' EXIT
fi
"$here/build.sh" "$work" || exit 2
shared=$work/libfribidi_over_bidi.so
failed=0
cd "$work" || exit 2

# build FOLDER: builds what is in it. The status is 0 if that was possible.
build() {
    if [ -x "$1/configure" ]; then
        (cd "$1" && { ./configure --disable-silent-rules && make -s; }) > "$1.build" 2>&1
    else
        (cd "$1" && meson setup made && ninja -C made) > "$1.build" 2>&1
    fi
}

# test FOLDER: runs its tests.
tests() {
    if [ -x "$1/configure" ]; then
        (cd "$1" && make -k check)
    else
        (cd "$1" && meson test -C made)
    fi
}

# results FILE: prints the lines of a log that say that a test passed, or that it did not.
results() {
    grep -E '^(PASS|FAIL|ERROR|XFAIL|SKIP): |^ *[0-9]+/[0-9]+ .* (OK|FAIL|SKIP|TIMEOUT)' "$1" |
        sed -E 's/ +[0-9.]+ ?s.*//'
}

# suite PACKAGE: gets, builds and runs one package.
suite() {
    local package=$1 folder
    if ! apt-get source -qq "$package" > "$package.get" 2>&1; then
        echo "$package: no source ($(grep '^E:' "$package.get" | head -n 1))"
        return
    fi
    folder=$(find . -maxdepth 1 -type d -name "$package-[0-9]*" | sort | tail -n 1)
    if [ -z "$folder" ] || ! build "$folder"; then
        echo "$package: not built; the log is ${folder:-$package}.build"
        return
    fi
    tests "$folder" > "$package.before" 2>&1
    LD_PRELOAD=$shared tests "$folder" > "$package.with" 2>&1
    results "$package.before" > "$package.before.results"
    results "$package.with" > "$package.with.results"
    if ! grep -qE '^PASS| OK' "$package.with.results"; then
        echo "$package: no test passed"
        failed=1
    elif grep -E '^PASS| OK' "$package.before.results" | grep -vxFf "$package.with.results" > "$package.lost"; then
        echo "$package: these pass without the shared object alone:"
        cat "$package.lost"
        failed=1
    else
        echo "$package: $(grep -cE '^PASS| OK' "$package.with.results") of $(wc -l < "$package.with.results") tests" \
            "pass, and $(grep -cE '^PASS| OK' "$package.before.results") without the shared object"
    fi
}

suite fribidi
suite raqm
exit "$failed"
