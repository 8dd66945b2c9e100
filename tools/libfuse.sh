#!/usr/bin/env bash
# Builds libfuse's library with this protocol layer in place of its own: programs that link libfuse3 get it without a change.
#
# Usage: tools/libfuse.sh [--unmodified [--io-uring]] [--all] [--sanitize LIST] [--suite SUITE] [DIRECTORY]
#        tools/libfuse.sh --check [PYTEST-OPTION]..
#
# It builds libfuse3.so.3 in DIRECTORY/lib, where DIRECTORY is out/libfuse by default, and prints that path. A program uses
# the library if LD_LIBRARY_PATH has the path. The library is built again if a source is newer, and it is never installed.
#
#   --unmodified      build libfuse without a change, in DIRECTORY/unmodified
#   --io-uring        let the unmodified libfuse serve requests over io_uring, which libfuse supports since 3.17 and
#                     Debian's package does not; a mount then accepts `-o io_uring`; it requires liburing and libnuma
#   --all             build libfuse's examples and tests too
#   --sanitize LIST   build with sanitizers, such as address,undefined or thread, in a directory of their own
#   --suite SUITE     use libfuse's sources of this suite of Debian, such as sid, instead of the machine's
#   --check           compare the two libraries by tests/compare/test_libfuse.py
#
# libfuse's sources are Debian's package fuse3, which apt-get downloads with package lists of its own. Debian's changes are
# applied. bindings/libfuse/make.py removes the replaced functions from lib/fuse_lowlevel.c and copies its files next to it;
# lib/meson.build links the codec's library. No other file changes. The supported versions are 3.14.0 and 3.18.3.
#
# It requires apt-get, a C compiler, meson, ninja, pkg-config, patch, xz and the Rattle toolchain, and prints which packages
# are missing. It links the proved library if that is built and no source is newer; otherwise tools/lib/unproved.sh builds it
# without a proof, which takes a minute more.
# Exit status 0: it was built, and with --check all tests passed; 1: it failed; 2: it could not start.
set -euo pipefail
. "$(dirname "$0")/lib/usage.sh"
. "$(dirname "$0")/lib/transport.sh"
. "$(dirname "$0")/lib/debian.sh"
. "$(dirname "$0")/lib/libfuse.sh"

usage() {
    echo "Usage: tools/libfuse.sh [--check [PYTEST-OPTION].. | --unmodified [--io-uring]] [--all] [--sanitize LIST] [--suite SUITE] [DIRECTORY]" >&2
    exit 2
}

if [ "${1:-}" = --check ]; then
    need pytest-3 "To install it: apt-get install python3-pytest"
    exec pytest-3 "$here/tests/compare/test_libfuse.py" -k "not tests_of_programs" "${@:2}"
fi
suite=$(sed -n 's/^VERSION_CODENAME=//p' /etc/os-release)
folder='' kind=nizwarf sanitize=none all='' ring=false
while [ $# != 0 ]; do
    case $1 in
        --unmodified) kind=unmodified ;;
        --all) all=yes ;;
        --io-uring) ring=true ;;
        --sanitize | --suite)
            if ! [[ ${2:-} =~ ^[a-z,-]+$ ]]; then usage; fi
            if [ "$1" = --suite ]; then suite=$2; else sanitize=$2; fi
            shift
            ;;
        -*) usage ;;
        *)
            [ -z "$folder" ] || usage
            folder=$1
            ;;
    esac
    shift
done
if [ "$kind $ring" = "nizwarf true" ]; then usage; fi
need_packages "${to_build[@]}"
if [ "$ring" = true ]; then
    for it in liburing numa; do
        if ! pkg-config --exists "$it"; then
            echo "libfuse.sh: $it is missing. To install both libraries: apt-get install liburing-dev libnuma-dev" >&2
            exit 2
        fi
    done
fi
folder=$(realpath -m "${folder:-$here/out/libfuse}")
mkdir -p "$folder"
[ "$kind" = unmodified ] || find_library nizwarf_codec

# Downloads the sources of the package, with Debian's changes. (`set -e` has no effect where a function is a condition.)
fetch() {
    local part=$folder/part-$suite change
    rm -rf "$part"
    mkdir -p "$part/tree"
    use_suite "$suite" "$part/apt" || return 1
    sed 's/^Types: deb$/Types: deb-src/' "$part/apt/sources/debian.sources" > "$part/apt/sources/source.sources"
    apt-get "${apt[@]}" update || return 1
    (cd "$part" && apt-get "${apt[@]}" --download-only source fuse3) || return 1
    tar -C "$part/tree" --strip-components=1 -xf "$part"/fuse3_*.orig.tar.?z || return 1
    tar -C "$part" -xf "$part"/fuse3_*.debian.tar.xz || return 1
    while read -r change; do
        patch -s -d "$part/tree" -p1 < "$part/debian/patches/$change" || return 1
    done < <(sed '/^ *#/d; /^ *$/d' "$part/debian/patches/series" 2> /dev/null)
    basename "$part"/fuse3_*.dsc .dsc | sed 's/^fuse3_//' > "$part/tree/debian-version"
    mv "$part/tree" "$folder/source-$suite" && rm -rf "$part"
}

source=$folder/source-$suite
if [ ! -e "$source" ]; then
    echo "Downloading the sources of libfuse .." >&2
    quietly "$folder/said-$suite" fetch || {
        echo "libfuse.sh: apt-get cannot download Debian's package fuse3 of $suite" >&2
        exit 2
    }
fi
# The version in the library's file name: that of meson.build, or Debian's version if it is not there.
number=$(sed -nE "s/^project\('libfuse3'.*version: '([0-9.]+)[^']*'.*/\1/p" "$source/meson.build")
[ -n "$number" ] || number=$(sed 's/-.*//' "$source/debian-version")
# A directory for each suite, kind and sanitizer. The library of the machine's suite over this layer is in DIRECTORY/lib.
work=$folder/$suite-$kind
[ "$sanitize" = none ] || work=$work-${sanitize//,/-}
[ "$ring" = false ] || work=$work-io-uring
lib=$folder/lib
if [ "$suite $kind $sanitize" != "$(sed -n 's/^VERSION_CODENAME=//p' /etc/os-release) nizwarf none" ]; then
    lib=$work/lib
fi

# Copies a file unless the other one is the same, so that the time of an unchanged file stays.
renew() {
    cmp -s "$1" "$2" || cp "$1" "$2"
}

# Puts the files of bindings/libfuse into the copy of libfuse's sources.
replace() {
    local file archives=() sanitizer=()
    [ "$sanitize" = none ] || sanitizer=("-fsanitize=$sanitize")
    "$here/bindings/libfuse/make.py" "$source/lib/fuse_lowlevel.c" > "$work/fuse_lowlevel.c" 2> "$work/left-out" || {
        cat "$work/left-out"
        return 1
    }
    renew "$work/fuse_lowlevel.c" "$work/tree/lib/fuse_lowlevel.c"
    for file in "$here"/bindings/libfuse/*.h "$here"/include/nizwarf.h; do
        renew "$file" "$work/tree/lib/${file##*/}"
    done
    # The C files of the library become an archive, of which the linker takes those objects that libfuse uses.
    rm -rf "$work/objects" && mkdir "$work/objects" || return 1
    compile_sources "$work/objects" -O2 "${sanitizer[@]}" || return 1
    ar rcsD "$work/objects/libnizwarf_c.a" "$work"/objects/*.o || return 1
    for file in "$work/objects/libnizwarf_c.a" "$archive" "$heap"; do
        renew "$file" "$work/tree/lib/${file##*/}"
        archives+=("'$work/tree/lib/${file##*/}'")
    done
    # All of them are linked into libfuse's own library, which is built again if one of these changes.
    sed -E "s#link_args: \['-Wl,--version-script,'#link_args: [$(IFS=, && echo "${archives[*]}"), '-Wl,--version-script,'#
        s#link_depends: 'fuse_versionscript'#link_depends: ['fuse_versionscript', '${archive##*/}', 'libnizwarf_c.a']#" \
        "$source/lib/meson.build" > "$work/meson.build"
    if ! grep -q libnizwarf_codec "$work/meson.build"; then
        echo "libfuse.sh: unsupported lib/meson.build: it has no known link arguments" >&2
        return 1
    fi
    renew "$work/meson.build" "$work/tree/lib/meson.build"
}

build() {
    # Nothing is installed, but the library contains paths of helpers, such as /usr/bin/fusermount3.
    local options=(--prefix=/usr -Duseroot=false "-Dudevrulesdir=$work/udev" "-Db_sanitize=$sanitize" -Db_lundef=false)
    local option known
    known=$(cat "$source"/meson_options.txt "$source"/meson.options 2> /dev/null || true)
    # Options that only some versions have: io_uring, which the layer does not serve, and sessions over sockets.
    for option in enable-io-uring=$ring enable-custom-io=true; do
        [[ $known != *"'${option%=*}'"* ]] || options+=("-D$option")
    done
    mkdir -p "$work"
    # (an interrupted copy must not be taken for a complete one)
    [ -e "$work/tree" ] || { rm -rf "$work/tree.part" && cp -R "$source" "$work/tree.part" && mv "$work/tree.part" "$work/tree"; } || return 1
    [ "$kind" = unmodified ] || replace || return 1
    [ -e "$work/build/build.ninja" ] || meson setup "$work/build" "$work/tree" "${options[@]}" || return 1
    if [ -n "$all" ]; then
        ninja -j "${JOBS:-2}" -C "$work/build"
    else
        ninja -j "${JOBS:-2}" -C "$work/build" "lib/libfuse3.so.$number"
    fi
}

echo "Building libfuse $(cat "$source/debian-version") of $suite, $kind .." >&2
quietly "$folder/said-$suite" build || exit 1
[ "$kind" = unmodified ] || cat "$work/left-out" >&2
mkdir -p "$lib"
# The library is replaced, not overwritten, because programs may run with it.
for it in "$work"/build/lib/libfuse3.so.*[0-9]; do
    name=$(readelf -d "$it" | sed -nE 's/.*SONAME.*\[(.*)\].*/\1/p')
    cp "$it" "$lib/$name.new"
    mv "$lib/$name.new" "$lib/$name"
done
echo "$lib"
