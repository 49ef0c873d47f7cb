#!/usr/bin/env bash
# The gate. Two lines of steps run side by side. The status is 0 if all steps end with 0.
#
# - Here `rt ci` comes first: every proof, the edits of must-fail/, the tests and the programs. Then come the built
#   program on files of the system, the commands of the documents and the version. If a C compiler is installed, tests
#   and the program also run with each growth refused.
# - In a clone of what is committed the library for C and the program are built. Then come the programs in C, what is
#   installed, the module for Python, the crate for Rust, FriBidi's calls, the drawings, the library for other machines
#   and a release, and last edits of wrong/, over what was proved for the library and the program.
#
# The kit stores on the machine what `rt ci` passed, for later runs of `rt ci`, and what `rt check` proved, for later
# checks. So on a machine that has seen most of the files before, both lines are short. Neither starts from what the
# other stored. A third line would need more memory than a small machine has.
#
# Of the edits of wrong/, a tenth is tried that the commit draws, then each that has no record or whose text or function
# changed since. Then those are tried for which only something else changed. No check of edits starts after 90 minutes.
# The gate fails if one of the first two kinds isn't decided then; the last line counts what isn't decided of the third.
# With FULL=1 all edits are tried. The gate writes no record.
#
# What each step took is printed last and left in gate-minutes.md, if a step failed too. On a machine without qemu-user
# or the compiler for 64-bit ARM, the library for other machines is not run under an emulator; the last line says so.
set -euo pipefail
cd "$(dirname "$0")/.."
edits='tools/try_edits.py --here --changed --minutes=90'
if [ -n "${FULL:-}" ]; then
    edits='tools/try_edits.py --here'
fi
here=('rt ci' tools/check_program.sh)
if command -v "${CC:-cc}" > /dev/null; then
    here+=(tools/refused_growths.sh)
fi
here+=(tools/check_docs.py tools/check_version.sh)
there=(c/build_library.sh "bash -c 'cd crates/bidi && rt run -- --version'" c/run.sh tools/check_install.sh
    tools/check_python.sh tools/check_rust.sh tools/check_fribidi.sh tools/check_draw.sh)
omitted=
if command -v qemu-aarch64 > /dev/null && command -v aarch64-linux-gnu-gcc > /dev/null; then
    there+=(tools/check_machines.sh)
else
    omitted='omitted: tools/check_machines.sh, since qemu-aarch64 or aarch64-linux-gnu-gcc is missing'
    there+=(tools/build_machines.sh)
fi
there+=(tools/check_release.sh "$edits")

work=$(mktemp -d)
leave() {
    for line in here there; do
        if [ -e "$work/$line" ]; then
            echo "$line:"
            echo
            cat "$work/$line"
            echo
        fi
    done > gate-minutes.md
    cat gate-minutes.md
    [ -z "$omitted" ] || echo "$omitted"
    rm -rf "$work"
}
trap leave EXIT
git clone -q . "$work/clone"
(cd "$work/clone" && exec tools/gate_minutes.py --table="$work/there" "${there[@]}") > "$work/said" 2>&1 &
clone=$!
if ! tools/gate_minutes.py --table="$work/here" "${here[@]}"; then
    kill "$clone" || true
    wait "$clone" || true
    exit 1
fi
status=0
wait "$clone" || status=$?
cat "$work/said"
exit "$status"
