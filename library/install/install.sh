#!/bin/sh
# Installs this release: header, libraries, pkg-config and CMake files, programs, page, vectors and documents.
#
#     ./install.sh [--prefix FOLDER] [--no-check]
#
# FOLDER is an absolute path, by default /usr/local. DESTDIR, if set, is prepended to it (for packages). The script first
# checks SHA256SUMS; --no-check skips that. The library of this machine's processor becomes FOLDER/lib/libsnoekeldraf.a; the
# variable TARGET chooses another one of lib/snoekeldraf/. Each file is replaced atomically; everyone may read it.
# Exit status: 0 success, 1 a file differs from SHA256SUMS, 2 usage error, 3 something is missing or could not be written.
set -eu
umask 022
here=$(CDPATH='' cd -- "$(dirname -- "$0")" && pwd)
prefix=/usr/local
check=yes
count=0

say() { printf 'install.sh: %s\n' "$*" >&2; }
fail() { say "$*"; exit 3; }
help() { sed -n '2,9s/^# \{0,1\}//p' "$here/install.sh"; }
usage() { say "$*"; help >&2; exit 2; }

read_arguments() {
    while [ $# -gt 0 ]; do
        case $1 in
        --prefix) [ $# -gt 1 ] || usage "--prefix needs a folder"; prefix=$2; shift ;;
        --prefix=*) prefix=${1#--prefix=} ;;
        --no-check) check=no ;;
        --help | -h) help; exit 0 ;;
        *) usage "there is no option $1" ;;
        esac
        shift
    done
    case $prefix in /*) ;; *) usage "--prefix needs an absolute path" ;; esac
    # sed would interpret these when it fills in the prefix
    case $prefix in *['|&\']*) usage "a prefix with one of | & \\ is not supported" ;; esac
    prefix=${prefix%/}
    to=${DESTDIR-}$prefix
}

check_sums() {
    [ $check = yes ] || return 0
    command -v sha256sum >/dev/null || fail "sha256sum is not there; --no-check installs without it"
    (cd "$here" && sha256sum --quiet --strict -c SHA256SUMS) >&2 ||
        { say "a file differs from SHA256SUMS: nothing is installed"; exit 1; }
}

# ---- copying

# Moves OUT.new to OUT with its mode.
place() { # MODE OUT
    chmod "$1" "$2.new" && mv -f -- "$2.new" "$2" || fail "$2 could not be written"
    count=$((count + 1))
}

put() { # MODE FILE OUT
    mkdir -p -- "${3%/*}" && cp -- "$2" "$3.new" || fail "$3 could not be written"
    place "$1" "$3"
}

# Copies a folder's files recursively and keeps them executable if they are. A missing folder is skipped.
put_all() { # FOLDER OUT
    [ -d "$1" ] || return 0
    (cd "$1" && find . -type f) | while IFS= read -r file; do
        if [ -x "$1/$file" ]; then put 755 "$1/$file" "$2/${file#./}"; else put 644 "$1/$file" "$2/${file#./}"; fi
    done
    count=$((count + $(find "$1" -type f | wc -l)))
}

# ---- parts

# Prints TARGET, or the name of the library for this machine's processor.
own_target() {
    case ${TARGET-},$(uname -s),$(uname -m) in
    ?*,*,*) echo "$TARGET" ;;
    ,Linux,x86_64) echo x86-64 ;;
    ,Linux,aarch64) echo aarch64 ;;
    *) echo none ;;
    esac
}

install_pkgconfig() {
    { mkdir -p -- "$to/lib/pkgconfig" &&
        sed -e "s|@PREFIX@|$prefix|g" "$here/lib/pkgconfig/snoekeldraf.pc.in" >"$to/lib/pkgconfig/snoekeldraf.pc.new"; } ||
        fail "$to/lib/pkgconfig/snoekeldraf.pc could not be written"
    place 644 "$to/lib/pkgconfig/snoekeldraf.pc"
}

install_library() {
    target=$(own_target)
    archive=$here/lib/snoekeldraf/$target/libsnoekeldraf.a
    [ -f "$archive" ] || [ -z "${TARGET-}" ] || fail "this release has no library for $TARGET"
    put 644 "$here/include/snoekeldraf.h" "$to/include/snoekeldraf.h"
    put_all "$here/lib/snoekeldraf" "$to/lib/snoekeldraf"
    put_all "$here/lib/cmake" "$to/lib/cmake"
    if [ -f "$archive" ]; then
        put 644 "$archive" "$to/lib/libsnoekeldraf.a"
        install_pkgconfig
    else
        say "this release has no library for $(uname -s) on $(uname -m): no lib/libsnoekeldraf.a and no pkg-config file"
    fi
}

# Installs the office program with its manual and completions, and the plant's programs.
install_programs() {
    if [ -f "$here/programs/$(uname -m)/snoekeldraf" ]; then
        put 755 "$here/programs/$(uname -m)/snoekeldraf" "$to/bin/snoekeldraf"
        put_all "$here/share/man" "$to/share/man"
        put_all "$here/share/bash-completion" "$to/share/bash-completion"
        put_all "$here/share/zsh" "$to/share/zsh"
        put_all "$here/share/fish" "$to/share/fish"
    else
        say "this release has no program snoekeldraf for $(uname -m)"
    fi
    put_all "$here/programs/plant" "$to/lib/snoekeldraf/plant"
    if [ -f "$here/programs/plant/snoekeldraf-plant" ]; then
        mkdir -p -- "$to/bin"
        ln -sf ../lib/snoekeldraf/plant/snoekeldraf-plant "$to/bin/snoekeldraf-plant" || fail "$to/bin could not be written"
    fi
}

install_rest() {
    for folder in page vectors examples samples rust; do put_all "$here/$folder" "$to/share/snoekeldraf/$folder"; done
    put_all "$here/docs" "$to/share/doc/snoekeldraf"
    for file in README.md SECURITY.md CHANGELOG.md PROVED VERSION; do put 644 "$here/$file" "$to/share/doc/snoekeldraf/$file"; done
}

read_arguments "$@"
check_sums
install_library
install_programs
install_rest
echo "Snoekeldraf $(cat "$here/VERSION"): $count files in $to"
