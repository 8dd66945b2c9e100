#!/usr/bin/env bash
# Gets a server of FUSE from Debian's packages, and builds it with what of it is beside this script.
#
# Usage: tests/compare/servers/get.sh libfuse|fuser|go-fuse SUITE TO FOLDER
# It leaves the program as TO, and its package's version as TO.version. FOLDER is for what it makes meanwhile; in it are
# lists of packages from one call to the next. tests/compare/test_servers.py calls it.
set -euo pipefail
. "$(dirname "$0")/../../../tools/lib/usage.sh"
. "$(dirname "$0")/../../../tools/lib/debian.sh"

if [ $# != 4 ]; then
    echo "Usage: tests/compare/servers/get.sh libfuse|fuser|go-fuse SUITE TO FOLDER" >&2
    exit 2
fi
beside=$(cd "$(dirname "$0")" && pwd)
what=$1 suite=$2 to=$3 lists=$4/lists-$2 folder=$4/$1

# The lists of the suite, of packages and of sources.
if [ ! -e "$lists/options" ]; then
    use_suite "$suite" "$lists"
    sed 's/^Types: deb$/Types: deb-src/' "$lists/sources/debian.sources" > "$lists/sources/source.sources"
    apt-get "${apt[@]}" update
    # (kept for the next call: `apt` with these folders)
    declare -p apt > "$lists/options"
fi
# shellcheck source=/dev/null
. "$lists/options"
mkdir -p "$folder"

# The version of a package of the suite.
version_of() {
    apt-cache "${apt[@]}" show "$1" | sed -n 's/^Version: //p' | sed -n 1p
}

# The packages that these stand on, and they: stand_on PACKAGE..
stand_on() {
    apt-get "${apt[@]}" --no-install-recommends --simulate install "$@" | sed -n 's/^Inst \([^ ]*\) .*/\1/p'
}

# From its source, with the address sanitizer, and without what it does not need here.
build_libfuse() {
    local version number major minor patch sources
    mkdir -p "$folder/made"
    version=$(version_of libfuse3-dev)
    (cd "$folder" && apt-get "${apt[@]}" --download-only source fuse3 && tar -xf fuse3_*.orig.tar.?z)
    mv "$folder"/fuse-* "$folder/source"
    number=$(sed -nE "s/^project\('libfuse3'.*version: '([0-9.]+)[^']*'.*/\1/p" "$folder/source/meson.build")
    number=${number:-${version%%-*}}
    IFS=. read -r major minor patch <<< "$number"
    # What libfuse's configuration would find on Linux, and no more than its library is compiled with.
    printf '#define HAVE_%s 1\n' FORK FSTATAT OPENAT READLINKAT PIPE2 SPLICE VMSPLICE POSIX_FALLOCATE FDATASYNC \
        UTIMENSAT COPY_FILE_RANGE FALLOCATE SETXATTR STRUCT_STAT_ST_ATIM CUSTOM_IO STATX > "$folder/made/fuse_config.h"
    printf '#define PACKAGE_VERSION "%s"\n' "$number" >> "$folder/made/fuse_config.h"
    printf '#define FUSE_%s_VERSION %s\n' MAJOR "$major" MINOR "$minor" HOTFIX "${patch:-0}" RC '""' \
        > "$folder/made/libfuse_config.h"
    cd "$folder/source"
    mapfile -t sources < <(find lib -maxdepth 1 -name '*.c' ! -name mount_bsd.c ! -name fuse_uring.c)
    cc -w -g -O1 -fno-omit-frame-pointer -fsanitize=address -D_GNU_SOURCE -D_FILE_OFFSET_BITS=64 \
        -DFUSE_USE_VERSION=317 -DFUSERMOUNT_DIR='"/usr/bin"' -I "$folder/made" -I include -I lib \
        -include fuse_config.h -o "$folder/program" "$beside/libfuse.c" "${sources[@]}" \
        lib/modules/subdir.c -pthread -ldl
    mv "$folder/program" "$to"
    echo "$version" > "$to.version"
}

# With the compiler of the suite, by its own loader and libraries, and the crates that are packages.
build_fuser() {
    local libraries loader packages
    mapfile -t packages < <(stand_on librust-fuser-dev rustc cargo |
        grep -E '^(librust-.*|libstd-rust.*|rustc|cargo|lib.*)$' |
        # (not what only a compiler of C wants)
        grep -vE '^lib(clang|perl|dpkg|objc|[a-z]*san[0-9]|(c6|c|gcc-[0-9]+|stdc\+\+-[0-9]+|clang-[0-9]+)-dev)')
    unpack_packages "$folder/rust" "${packages[@]}"
    libraries=$folder/rust/usr/lib/x86_64-linux-gnu
    loader=("$libraries/ld-linux-x86-64.so.2" --library-path "$libraries")
    cp -r "$beside/fuser" "$folder/program"
    mkdir "$folder/program/.cargo"
    printf '[source.crates-io]\nreplace-with = "debian"\n[source.debian]\ndirectory = "%s"\n' \
        "$folder/rust/usr/share/cargo/registry" > "$folder/program/.cargo/config.toml"
    # cargo starts rustc by one path, so the loader before it is a script's.
    printf '#!/bin/sh\nexec %s "%s" --sysroot "%s" "$@"\n' "${loader[*]}" "$folder/rust/usr/bin/rustc" \
        "$folder/rust/usr" > "$folder/rustc"
    chmod +x "$folder/rustc"
    cd "$folder/program"
    RUSTC=$folder/rustc CARGO_HOME=$folder/home "${loader[@]}" "$folder/rust/usr/bin/cargo" build --offline \
        --release --jobs 1
    mv target/release/beside-fuser "$to"
    version_of librust-fuser-dev > "$to.version"
}

# With the compiler of the suite, and the modules that are packages.
build_go_fuse() {
    local packages sources module root
    mapfile -t packages < <(stand_on golang-github-hanwen-go-fuse-dev golang-go |
        grep -E '^golang-.*-dev$|^golang-[0-9.]+-(go|src)$')
    unpack_packages "$folder/go" "${packages[@]}"
    sources=$folder/go/usr/share/gocode/src
    root=$(find "$folder/go/usr/lib" -maxdepth 1 -name 'go-*' | sed -n 1p)
    mkdir "$folder/program"
    cp "$beside/go-fuse/main.go" "$folder/program"
    {
        printf 'module beside\n\ngo 1.21\n\nrequire github.com/hanwen/go-fuse/v2 v2.0.0\n'
        echo "replace github.com/hanwen/go-fuse/v2 => $sources/github.com/hanwen/go-fuse"
        while read -r module; do
            [ ! -d "$sources/$module" ] || echo "replace $module => $sources/$module"
        done < <(sed -nE 's/^(require)?[ \t]+([a-z]+\.[^ ]+) v.*/\2/p' "$sources/github.com/hanwen/go-fuse/go.mod")
    } > "$folder/program/go.mod"
    cd "$folder/program"
    # (no other toolchain and no proxy: what is not here is an error)
    env GOROOT="$root" GOTOOLCHAIN=local GOFLAGS=-mod=mod GOPROXY=off GOCACHE="$folder/cache" \
        GOPATH="$folder/path" CGO_ENABLED=0 "$root/bin/go" build -p 1 -o "$to" .
    version_of golang-github-hanwen-go-fuse-dev > "$to.version"
}

case $what in
    libfuse) build_libfuse ;;
    fuser) build_fuser ;;
    go-fuse) build_go_fuse ;;
    *) echo "There is no $what here." >&2 && exit 2 ;;
esac
