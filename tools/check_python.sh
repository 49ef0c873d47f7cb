#!/bin/bash
# Runs the tests of the module for Python (python/tests) over the shared object of the library for C. Then it installs
# the module with pip into a folder, without a network, and runs it there. It ends with 0 if all is right, with 1 if
# not, and with 2 if the shared object can't be made. Without python3 or gcc it does nothing, and says so. It compares
# texts with what python-bidi shows, as python/tests/peer.txt stores it, and with python-bidi itself if python3 or the
# system's Python has it; it says so if neither has.
#
# usage: tools/check_python.sh
#
# PYTHON_BIDI in the environment names a folder with the source of python-bidi; then its own tests are run too.
# Build the library first, as c/run.sh does.
set -u
tools=$(cd "$(dirname "$0")" && pwd)
python=$tools/../python
[ -n "${PYTHON_BIDI:-}" ] || echo "PYTHON_BIDI names no source of python-bidi: its own tests are not run"
for command in python3 gcc; do
    command -v "$command" > /dev/null || { echo "no $command: the module for Python is not tested"; exit 0; }
done
"$tools/../c/build_shared.sh" || exit 2
shared=$(ls "$tools/../crates/bidi_c/out/libbidi_c.so.$(cat "$tools/../VERSION")") || exit 2
work=$(mktemp -d) || exit 2
trap 'rm -r "$work"' EXIT
wrong=0
(cd "$python" && BIDI_LIBRARY=$shared timeout 300 python3 -B -m unittest) || wrong=1
if ! python3 -c 'import bidi.algorithm' 2> /dev/null; then
    if /usr/bin/python3 -c 'import bidi.algorithm' 2> /dev/null; then
        (cd "$python" && BIDI_LIBRARY=$shared timeout 300 /usr/bin/python3 -B -m unittest tests.test_algorithm \
            tests.test_pairs) || wrong=1
    else
        echo "no python-bidi (package python3-bidi): what it shows is compared as stored alone"
    fi
fi
if python3 -m pip --version > /dev/null 2>&1; then
    # pip builds in the folder of the files: here in a copy, so that it leaves nothing.
    cp -r "$python" "$work/python"
    BIDI_LIBRARY=$shared python3 -m pip install -q --no-index --no-deps --target "$work/site" "$work/python" \
        > "$work/said" 2>&1 || { cat "$work/said"; wrong=1; }
    program='import bidi_proved as b; print(b.__version__, b.lay_out_classes(["R"]).levels)'
    said=$(cd "$work/site" && env -u BIDI_LIBRARY python3 -B -c "$program")
    if [ "$said" != "$(cat "$tools/../VERSION") [1]" ]; then
        echo "the installed module: $said"
        wrong=1
    fi
else
    echo "no pip: the module is not installed"
fi
[ "$wrong" -eq 0 ] && echo "the module for Python: as it is to be"
