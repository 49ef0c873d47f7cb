# shellcheck shell=bash
# The arguments of the install scripts, which source this file. `read_words USAGE [--uninstall] [--libdir DIR] PREFIX`
# sets `prefix` to the folder in full, `root` to where it is filled, below DESTDIR if that is set, `libdir` to the
# folder of libraries below PREFIX, and `uninstall` to yes or no. Other arguments are rejected with status 2.
# `put MODE FILE NAME` installs a file below root, or removes it.

# reject TEXT: ends with status 2.
reject() {
    echo "$1" >&2
    exit 2
}

# read_prefix WORD: sets `prefix` and `root`.
read_prefix() {
    case $1 in
        *$'\n'*) reject "a prefix has no line break" ;;
        /*) ;;
        *) [ -z "${DESTDIR:-}" ] || reject "with DESTDIR a prefix begins with /" ;;
    esac
    prefix=$(realpath -ms -- "$1") || exit 2
    root=${DESTDIR:-}$prefix
}

# read_libdir WORD: sets `libdir`. The argument is a folder below PREFIX, as lib64, or in full, as PREFIX/lib64.
read_libdir() {
    local whole
    case $1 in
        '' | -* | *$'\n'*) reject "--libdir needs a folder" ;;
        /*) whole=$(realpath -ms -- "$1") || exit 2 ;;
        *) whole=$(realpath -ms -- "$prefix/$1") || exit 2 ;;
    esac
    libdir=${whole#"${prefix%/}/"}
    [ "$libdir" != "$whole" ] || reject "the folder of --libdir is not below $prefix"
}

read_words() {
    local usage=$1 folder=lib
    shift
    uninstall=no
    while :; do
        case ${1:-} in
            -h | --help) echo "$usage"; exit 0 ;;
            --uninstall) [ "$uninstall" = no ] || reject "$usage"; uninstall=yes ;;
            --libdir=*) folder=${1#*=} ;;
            --libdir) [ $# -ge 2 ] || reject "$usage"; shift; folder=$1 ;;
            '' | -*) reject "$usage" ;;
            *) break ;;
        esac
        shift
    done
    [ $# = 1 ] || reject "$usage"
    read_prefix "$1"
    read_libdir "$folder"
}

put() {
    if [ "$uninstall" = yes ]; then
        rm -f -- "$root/$3"
    else
        install -D -m "$1" -- "$2" "$root/$3"
    fi
}

# link TARGET NAME: the same for a link, whose folder is there.
link() {
    if [ "$uninstall" = yes ]; then
        rm -f -- "$root/$2"
    else
        ln -sf -- "$1" "$root/$2"
    fi
}

# put_licences TOP: the same for the licences and the notices of the repository, in share/doc/bidi.
put_licences() {
    local name
    for name in LICENSE-MIT LICENSE-APACHE LICENSE-UNICODE NOTICES; do
        put 644 "$1/$name" "share/doc/bidi/$name" || return
    done
}

# put_documents TOP: the same for README.md, CHANGELOG.md and the documents with their drawings. Their folders are those
# of the repository, so that each name in them is right.
put_documents() {
    local file
    for file in "$1"/*.md "$1"/docs/*.md "$1"/docs/*.svg; do
        put 644 "$file" "share/doc/bidi/${file#"$1/"}" || return
    done
}
