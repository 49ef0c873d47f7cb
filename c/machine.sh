# shellcheck shell=bash disable=SC2034
# The machine that the library is built, linked or installed for; the scripts of c/ and tools/ source this file. MACHINE
# in the environment names it: x86_64 is each x86-64 processor, aarch64 each 64-bit ARM processor. Without it, it is
# what `rt lib` builds by itself, x86-64-v2. It sets
#   for_rt      the words of `rt` for it
#   cross       what the names of its gcc, nm and strip begin with
#   subfolder   the end of the name of a folder out/ for it: nothing, or its name after a slash
#   out         the folder of its built library
case ${MACHINE:-} in
    '') for_rt=() cross='' subfolder='' ;;
    x86_64) for_rt=(--cpu x86-64) cross='' subfolder=/x86_64 ;;
    aarch64) for_rt=(--target aarch64-unknown-linux-gnu) cross=aarch64-linux-gnu- subfolder=/aarch64 ;;
    *) echo "MACHINE is '$MACHINE', neither x86_64 nor aarch64" >&2; exit 2 ;;
esac
out=$(cd "$(dirname "${BASH_SOURCE[0]}")/.." && pwd)/crates/bidi_c/out$subfolder

# find_heap: sets `heap` to the part that allocates: the kit's, which the command rt finds or RATTLE_C in the
# environment names, or for aarch64 that of heap.c. It ends with 2 if there is none.
find_heap() {
    local rt
    if [ "${MACHINE:-}" = aarch64 ]; then
        heap=$out/libbidi_c_heap.a
    elif [ -n "${RATTLE_C:-}" ]; then
        heap=$RATTLE_C/liblibc_c.a
    elif rt=$(command -v rt); then
        heap=$(dirname "$(readlink -f "$rt")")/../c/liblibc_c.a
    else
        echo "no rt on PATH: set RATTLE_C to the kit's folder c, of liblibc_c.a" >&2
        exit 2
    fi
    [ -e "$heap" ] || { echo "no $heap" >&2; exit 2; }
}

# machines_here: prints the machines that a release can be made for here, one a line. If the compiler for 64-bit ARM is
# missing, it says so and leaves that out.
machines_here() {
    echo x86_64
    if command -v aarch64-linux-gnu-gcc > /dev/null; then
        echo aarch64
    else
        echo "no aarch64-linux-gnu-gcc (gcc-aarch64-linux-gnu): nothing is made for 64-bit ARM" >&2
    fi
}
