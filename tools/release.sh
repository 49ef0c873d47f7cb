#!/bin/bash
# Makes a release from what was built, in a folder. docs/RELEASE.md says what each file needs:
#
#   bidi-VERSION.tar.gz                     the source, as it is committed, with debian/changelog
#   bidi-VERSION-linux-x86_64.tar.gz        program, library, documents: what tools/install.sh installs
#   bidi-VERSION-linux-aarch64.tar.gz       the same without the program
#   bidi_VERSION-1_amd64.deb                the program, its manual page, the documents
#   bidi-draw_VERSION-1_all.deb             the program that draws texts
#   libbidi-c1_VERSION-1_{amd64,arm64}.deb  the shared object
#   libbidi-c-dev_VERSION-1_{amd64,arm64}.deb       header, archives, and the file for pkg-config
#   libfribidi-over-bidi_VERSION-1_{amd64,arm64}.deb    FriBidi's calls over the shared object of libbidi-c1
#   python3-bidi-proved_VERSION-1_all.deb   the module for Python, which uses the shared object of libbidi-c1
#   bidi_proved-VERSION-py3-none-manylinux2014_{x86_64,aarch64}.whl    the module with a shared object, for pip
#   bidi-proved-VERSION.crate               the crate for Rust, with the archives and their licences, for cargo
#   SHA256SUMS
#
# The same commit and the same build make the same bytes. All times are that of SOURCE_DATE_EPOCH, or of the commit.
#
# usage: tools/release.sh [FOLDER]      (FOLDER: dist at the top; files of the same names are replaced)
#
# Build first: the library (c/build_library.sh), and what tools/build_machines.sh builds. It ends with 2 if one of these
# or a tool is missing, if VERSION is no version, or if a tracked file is not committed, and with 1 if making a file
# fails. Without FriBidi's headers (the package libfribidi-dev) it leaves out libfribidi-over-bidi, and without the
# compiler for 64-bit ARM (gcc-aarch64-linux-gnu) what is for that machine, and says so.
# HOMEPAGE in the environment is the address that the Debian packages name, if there is one.
set -eu
umask 022
top=$(cd "$(dirname "$0")/.." && pwd)
dist=${1:-$top/dist}
version=$(cat "$top/VERSION")
debian=$version-1
unset MACHINE
# shellcheck source=c/machine.sh
. "$top/c/machine.sh"
mapfile -t machines < <(machines_here)
export LC_ALL=C TZ=UTC DPKG_DEB_THREADS_MAX=1
unset DESTDIR

# stop TEXT: ends with 2.
stop() {
    echo "$1" >&2
    exit 2
}
[[ $version =~ ^[0-9]+\.[0-9]+\.[0-9]+$ ]] || stop "VERSION is no version: '$version'"
for command in git tar gzip dpkg-deb python3 gcc readelf strip; do
    command -v "$command" > /dev/null || stop "no $command"
done
for file in bidi/out/x86_64/bidi bidi_c/out/libbidi_c.a $(printf 'bidi_c/out/%s/libbidi_c.a ' "${machines[@]}"); do
    [ -e "$top/crates/$file" ] || stop "no crates/$file: build it first"
done
git -C "$top" diff --quiet HEAD || stop "not all is committed, and the source archive has only what is"
SOURCE_DATE_EPOCH=${SOURCE_DATE_EPOCH:-$(git -C "$top" log -1 --format=%ct)}
export SOURCE_DATE_EPOCH
maintainer=$(sed -n 's/^Maintainer: //p' "$top/debian/control")
mkdir -p "$dist"
dist=$(cd "$dist" && pwd)
work=$(mktemp -d)
trap 'rm -rf "$work"' EXIT

# pack FOLDER NAME FILE: the archive FILE of the folder NAME in FOLDER.
pack() {
    tar --sort=name --mtime="@$SOURCE_DATE_EPOCH" --owner=0 --group=0 --numeric-owner --mode=go-w --format=gnu \
        -C "$1" -cf - "$2" |
        gzip -9n > "$dist/$3"
}

make_source() {
    local date
    mkdir -p "$work/source"
    git -C "$top" archive --prefix="bidi-$version/" HEAD | tar -C "$work/source" -xf -
    date=$(date -u -R -d "@$SOURCE_DATE_EPOCH")
    printf 'bidi (%s) unstable; urgency=medium\n\n  * Version %s; CHANGELOG.md lists what changed.\n\n -- %s  %s\n' \
        "$debian" "$version" "$maintainer" "$date" > "$work/source/bidi-$version/debian/changelog"
    pack "$work/source" "bidi-$version" "bidi-$version.tar.gz"
}

# choose MACHINE: what is made from here on is for this machine.
choose() {
    export MACHINE=$1
    # shellcheck source=c/machine.sh
    . "$top/c/machine.sh"
    multiarch=lib/$MACHINE-linux-gnu
    architecture=amd64
    [ "$MACHINE" = x86_64 ] || architecture=arm64
    installed=$work/installed/$MACHINE
    stage=$work/packages/$MACHINE
}

# The file for pkg-config finds the folder that the archive is unpacked in by its own place.
make_binary() {
    local name=bidi-$version-linux-$MACHINE
    DESTDIR=$work/binary "$top/tools/install.sh" "/$name" > /dev/null
    # shellcheck disable=SC2016
    sed -i '1s|.*|prefix=${pcfiledir}/../..|' "$work/binary/$name/lib/pkgconfig/bidi_c.pc"
    pack "$work/binary" "$name" "$name.tar.gz"
}

# take PACKAGE FILE..: moves installed files, by their names below /usr, into a package.
take() {
    local package=$1 file
    shift
    for file in "$@"; do
        mkdir -p "$(dirname "$stage/$package/usr/$file")"
        mv "$installed/usr/$file" "$stage/$package/usr/$file"
    done
}

# lighten FILE..: removes from programs and shared objects what they don't need.
lighten() {
    "${cross}strip" --strip-unneeded --remove-section=.comment "$@"
}

# needs_libc FILE: the libc6 that a program or a shared object needs.
needs_libc() {
    local least
    least=$(readelf -V "$1" | grep -oE 'GLIBC_[0-9.]+' | sort -Vu | tail -n 1)
    [ -n "$least" ] || stop "$1 names no version of the C library"
    echo "libc6 (>= ${least#GLIBC_})"
}

# as_field FILE: a licence as the text of a field of debian/copyright.
as_field() {
    sed 's/^$/./; s/^/ /' "$1"
}

# add_documents PACKAGE: what each package has in its folder of documents.
add_documents() {
    local folder=$stage/$1/usr/share/doc/$1
    mkdir -p "$folder"
    gzip -9n < "$work/source/bidi-$version/debian/changelog" > "$folder/changelog.Debian.gz"
    gzip -9n < "$top/CHANGELOG.md" > "$folder/changelog.gz"
    install -m 644 "$top/NOTICES" "$folder/"
    {
        cat "$top/debian/copyright.in"
        printf '\nLicense: MIT\n' && as_field "$top/LICENSE-MIT"
        printf '\nLicense: Unicode-3.0\n' && as_field "$top/LICENSE-UNICODE"
    } > "$folder/copyright"
}

# build PACKAGE ARCHITECTURE [LIBC]: the package of its files, as debian/control describes it. LIBC is the C library
# that its files need.
build() {
    local package=$1 architecture=$2 root=$stage/$1 size
    add_documents "$package"
    size=$(find "$root" -type f -printf '%s\n' | awk '{ sum += int(($1 + 1023) / 1024) } END { print sum }')
    mkdir -p "$root/DEBIAN"
    {
        printf 'Package: %s\nSource: bidi\nVersion: %s\nArchitecture: %s\n' "$package" "$debian" "$architecture"
        printf 'Maintainer: %s\nInstalled-Size: %s\nPriority: optional\n' "$maintainer" "$size"
        [ -z "${HOMEPAGE:-}" ] || printf 'Homepage: %s\n' "$HOMEPAGE"
        awk -v RS= -v begin="Package: $package\n" 'index($0, begin) == 1' "$top/debian/control" |
            sed -e '/^Package:/d; /^Architecture:/d' -e "s/\${shlibs:Depends}/${3:-}/" \
                -e "s/\${binary:Version}/$debian/; s/\${source:Upstream-Version}/$version/"
    } > "$root/DEBIAN/control"
    (cd "$root" && find usr -type f | sort | xargs -d '\n' md5sum) > "$root/DEBIAN/md5sums"
    dpkg-deb --root-owner-group -Zxz --build "$root" "$dist/${package}_${debian}_$architecture.deb" > /dev/null
}

make_program_packages() {
    local libc
    take bidi bin/bidi share/man/man1/bidi.1
    libc=$(needs_libc "$stage/bidi/usr/bin/bidi")
    lighten "$stage/bidi/usr/bin/bidi"
    mkdir -p "$stage/bidi/usr/share/doc"
    mv "$installed/usr/share/doc/bidi" "$stage/bidi/usr/share/doc/bidi"
    rm "$stage"/bidi/usr/share/doc/bidi/LICENSE-* "$stage/bidi/usr/share/doc/bidi/CHANGELOG.md"
    gzip -9n "$stage/bidi/usr/share/man/man1/bidi.1"
    build bidi "$architecture" "$libc"
    take bidi-draw bin/bidi-draw share/man/man1/bidi-draw.1
    sed -i '1s|.*|#!/usr/bin/python3|' "$stage/bidi-draw/usr/bin/bidi-draw"
    gzip -9n "$stage/bidi-draw/usr/share/man/man1/bidi-draw.1"
    build bidi-draw all
}

# The shared object for x86-64-v2, if there is one, is beside the other one: the C library takes it where it can.
make_library_packages() {
    local name=libbidi_c.so.$version control=$stage/libbidi-c1/DEBIAN folder libc
    for folder in "$multiarch" "$multiarch/glibc-hwcaps/x86-64-v2"; do
        [ -e "$installed/usr/$folder/$name" ] || continue
        take libbidi-c1 "$folder/$name" "$folder/libbidi_c.so.${version%%.*}"
        libc=$(needs_libc "$stage/libbidi-c1/usr/$folder/$name")
        lighten "$stage/libbidi-c1/usr/$folder/$name"
        chmod 644 "$stage/libbidi-c1/usr/$folder/$name"
    done
    mkdir -p "$control"
    cp "$top/c/libbidi-c1.symbols" "$control/symbols"
    echo "libbidi_c ${version%%.*} libbidi-c1 (>= $version)" > "$control/shlibs"
    echo "activate-noawait ldconfig" > "$control/triggers"
    build libbidi-c1 "$architecture" "$libc"
    take libbidi-c-dev include/bidi.h "$multiarch/libbidi_c.so" "$multiarch/libbidi_c.a" \
        "$multiarch/libbidi_c_heap.a" "$multiarch/pkgconfig/bidi_c.pc"
    "${cross}strip" --strip-debug --remove-section=.comment --enable-deterministic-archives \
        "$stage/libbidi-c-dev/usr/$multiarch"/*.a
    build libbidi-c-dev "$architecture"
}

# The shared object of this package is linked with the one of libbidi-c1. The installed one has the library in it. No
# program finds it by itself, so it is in a folder of its own.
make_fribidi_package() {
    local package=libfribidi-over-bidi root=$stage/libfribidi-over-bidi libc
    local shared=$root/usr/$multiarch/bidi/libfribidi_over_bidi.so
    mkdir -p "$(dirname "$shared")" "$root/usr/share/doc/$package"
    LIBRARY=$stage/libbidi-c1/usr/$multiarch/libbidi_c.so.$version "$top/c/fribidi/build.sh" "$(dirname "$shared")"
    libc=$(needs_libc "$shared")
    lighten "$shared"
    chmod 644 "$shared"
    install -m 644 "$top/docs/FRIBIDI.md" "$root/usr/share/doc/$package/"
    build "$package" "$architecture" "$libc"
}

# make_wheel: the wheel with the shared object of the chosen machine, whose name it adds to the file `wheels`.
make_wheel() {
    (cd "$top/python" && BIDI_LIBRARY=$out/libbidi_c.so.$version python3 -B -c \
        'import make_wheel, sys; print(make_wheel.build_wheel(sys.argv[1]))' "$dist") >> "$work/wheels"
}

make_python_package() {
    local root=$stage/python3-bidi-proved file
    local folder=$root/usr/lib/python3/dist-packages
    mkdir -p "$folder/bidi_proved" "$work/unpacked" "$root/DEBIAN"
    python3 -B -m zipfile -e "$dist/$(head -n 1 "$work/wheels")" "$work/unpacked"
    for file in "$top"/python/bidi_proved/*.py "$top"/python/bidi_proved/py.typed; do
        install -m 644 "$file" "$folder/bidi_proved/"
    done
    mkdir "$folder/bidi_proved-$version.dist-info"
    install -m 644 "$work/unpacked/bidi_proved-$version.dist-info/METADATA" "$folder/bidi_proved-$version.dist-info/"
    printf '#!/bin/sh\nset -e\n# What Python itself wrote there, if root ran a program with the module.\nrm -rf %s\n' \
        /usr/lib/python3/dist-packages/bidi_proved/__pycache__ > "$root/DEBIAN/prerm"
    chmod 755 "$root/DEBIAN/prerm"
    build python3-bidi-proved all
}

# The crate has the files that `cargo package` takes, with the archives and the licences. Publish it from the unpacked
# folder.
make_crate() {
    local name=bidi-proved-$version machine folder
    mkdir -p "$work/crate"
    git -C "$top" archive --prefix="$name/" HEAD:rust/bidi-proved | tar -C "$work/crate" -xf -
    folder=$work/crate/$name
    rm "$folder/rustfmt.toml" "$folder/tests/header.rs"
    for machine in "${machines[@]}"; do
        mkdir -p "$folder/lib/$machine"
        install -m 644 "$work/binary/bidi-$version-linux-$machine"/lib/*.a "$folder/lib/$machine/"
    done
    install -m 644 "$top"/LICENSE-* "$top/NOTICES" "$folder/"
    pack "$work/crate" "$name" "$name.crate"
}

if ! diff <(grep -o '\bbidi_[a-z0-9_]*(' "$top/c/bidi.h" | tr -d '(' | sort -u) \
    <(sed -n 's/^ \(bidi_[a-z0-9_]*\)@.*/\1/p' "$top/c/libbidi-c1.symbols" | sort -u) >&2; then
    stop "c/libbidi-c1.symbols does not name the calls of bidi.h: give a new call the next version"
fi
has_fribidi=no
if [ -e "${FRIBIDI:-/usr/include/fribidi}/fribidi.h" ]; then
    has_fribidi=yes
else
    echo "no headers of FriBidi (libfribidi-dev): the package libfribidi-over-bidi is left out"
    rm -f "$dist/libfribidi-over-bidi_${debian}_"*.deb
fi
make_source
MACHINE='' "$top/c/build_shared.sh"
for machine in "${machines[@]}"; do
    choose "$machine"
    "$top/c/build_shared.sh"
    [ "$has_fribidi" = no ] || "$top/c/fribidi/build.sh"
    make_binary
    DESTDIR=$installed "$top/tools/install.sh" --libdir "$multiarch" /usr > /dev/null
    make_library_packages
    [ "$has_fribidi" = no ] || make_fribidi_package
    make_wheel
    if [ "$machine" = x86_64 ]; then
        make_program_packages
        make_python_package
    fi
done
make_crate
mapfile -t wheels < "$work/wheels"
(cd "$dist" && sha256sum -- bidi-"$version"*.tar.gz *"_${debian}_"*.deb "${wheels[@]}" \
    "bidi-proved-$version.crate") > "$work/SHA256SUMS"
mv "$work/SHA256SUMS" "$dist/SHA256SUMS"
echo "made in $dist:"
cat "$dist/SHA256SUMS"
