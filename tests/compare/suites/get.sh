#!/usr/bin/env bash
# Gets what a suite wants from Debian's packages, and builds it if it is a source.
#
# Usage: tests/compare/suites/get.sh WHAT FOLDER
# WHAT is a suite of tests/compare/suites/suites.py, or libfuse. Packages that the machine doesn't
# have are downloaded by apt-get and unpacked below FOLDER, and never installed: programs and libraries in
# FOLDER/root, CPython with its tests in FOLDER/cpython, coreutils as built in FOLDER/coreutils.
# FOLDER/have-WHAT has the version. Nothing is done if it is there already. tests/compare/test_suites.py calls it.
set -euo pipefail
. "$(dirname "$0")/../../../tools/lib/usage.sh"
. "$(dirname "$0")/../../../tools/lib/debian.sh"

if [ $# != 2 ]; then
    echo "Usage: tests/compare/suites/get.sh WHAT FOLDER" >&2
    exit 2
fi
what=$1 there=$(realpath -m "$2")
root=$there/root
libraries=$root/usr/lib/x86_64-linux-gnu
[ ! -e "$there/have-$what" ] || exit 0
work=$there/part-$what
rm -rf "$work"
mkdir -p "$work" "$root"
trap 'rm -rf "$work"' EXIT
for command in apt-get apt-cache dpkg-deb; do
    need "$command" "The suites are packages of Debian."
done
use_suite "" "$work"
if [ -z "$(find /var/lib/apt/lists -maxdepth 1 -name '*_Packages*' -print -quit)" ]; then
    apt-get "${apt[@]}" update
fi

# Unpacks those of the packages, and of what they depend on, that the machine doesn't have.
have() {
    local missing
    mapfile -t missing < <(apt-get "${apt[@]}" install -y -s --no-install-recommends "$@" |
        sed -nE 's/^Inst ([^ ]+) .*/\1/p')
    # (a package that is unknown ends the first command of the pipe alone)
    apt-cache "${apt[@]}" show "$@" > /dev/null
    [ ${#missing[@]} = 0 ] || unpack_packages "$work/root" "${missing[@]}"
    [ ! -e "$work/root" ] || cp -a "$work/root/." "$root/"
}

# Downloads and unpacks the sources of a package as its authors left them: sources PACKAGE [SUITE]
sources() {
    local codename=${2:-$(sed -n 's/^VERSION_CODENAME=//p' /etc/os-release)}
    use_suite "$codename" "$work/sources"
    sed -i 's/^Types: deb$/Types: deb-src/' "$work/sources/sources/debian.sources"
    apt-get "${apt[@]}" update
    # (Debian's own changes are not wanted, and a mirror may have them no more)
    (cd "$work" && apt-get "${apt[@]}" --download-only source "$1") || true
    tar -C "$work" -xf "$(find "$work" -maxdepth 1 -name "$1_*.orig.tar.*" ! -name '*.asc' | sed -n 1p)"
}

# The interpreter with its library and its tests, in a folder of its own, whatever the machine has.
get_cpython() {
    local version
    version=$(apt-cache "${apt[@]}" depends python3 | sed -nE 's/^ *Depends: python(3\.[0-9]+)$/\1/p')
    unpack_packages "$work/cpython" "python$version-minimal" "libpython$version-minimal" \
        "libpython$version-stdlib" "libpython$version-testsuite"
    ln -s "python$version" "$work/cpython/usr/bin/python3"
    rm -rf "$there/cpython"
    mv "$work/cpython" "$there/cpython"
    "$there/cpython/usr/bin/python3" -c 'import test.libregrtest, test.test_os'
}

# Built as its authors left it; its checks run in other folders, with the environment that `make check` has.
get_coreutils() {
    local built
    need make "To install it: apt-get install make"
    have libacl1-dev libattr1-dev acl attr
    sources coreutils
    rm -rf "$there/coreutils"
    built=$(find "$work" -maxdepth 1 -name 'coreutils-*' -type d)
    mv "$built" "$there/coreutils"
    cd "$there/coreutils"
    # (as root it refuses otherwise)
    FORCE_UNSAFE_CONFIGURE=1 ./configure --quiet --disable-nls --without-selinux --disable-libcap \
        CPPFLAGS="-I$root/usr/include" LDFLAGS="-L$libraries -Wl,-rpath,$libraries"
    make -j2
    printf '#!/bin/sh\nenv -0 > "%s"\n' "$there/coreutils/environment" > tests/environment.sh
    chmod +x tests/environment.sh
    FORCE_UNSAFE_CONFIGURE=1 make check SUBDIRS=. TESTS=tests/environment.sh VERBOSE=no
    [ -s environment ]
}

# Of libfuse's sources the one program.
get_test_syscalls() {
    sources fuse3
    # (all that its configuration would say is on the command line)
    : > "$work/fuse_config.h"
    cc -w -O1 -D_GNU_SOURCE -D_FILE_OFFSET_BITS=64 -I "$work" -o "$there/test_syscalls" \
        "$(find "$work" -name test_syscalls.c | sed -n 1p)"
}

# Its tests, and the clients of their examples.
get_libfuse() {
    local name
    sources fuse3 sid
    rm -rf "$there/libfuse"
    mv "$(find "$work" -maxdepth 1 -name 'fuse-*' -type d)" "$there/libfuse"
    cd "$there/libfuse"
    mkdir -p built/example built/test built/util
    : > built/fuse_config.h
    for name in example/poll_client example/ioctl_client test/test_syscalls test/readdir_inode; do
        cc -w -O1 -D_GNU_SOURCE -D_FILE_OFFSET_BITS=64 -I built -o "built/$name" "$name.c"
    done
}

# The cases are in go-fuse's source, which the compiler of the same suite of Debian builds.
get_posixtest() {
    local packages cases root modules=$work/go/usr/share/gocode/src
    use_suite trixie "$work/apt"
    mapfile -t packages < <(apt-get "${apt[@]}" --no-install-recommends --simulate install golang-go \
        golang-golang-x-sys-dev | sed -n 's/^Inst \([^ ]*\) .*/\1/p' | grep -E '^golang-.*-dev$|^golang-[0-9.]+-(go|src)$')
    unpack_packages "$work/go" "${packages[@]}"
    sources golang-github-hanwen-go-fuse trixie
    root=$(find "$work/go/usr/lib" -maxdepth 1 -name 'go-*' | sed -n 1p)
    cases=$(find "$work" -name posixtest -type d | sed -n 1p)
    cd "$cases/.."
    printf 'module github.com/hanwen/go-fuse/v2\n\ngo 1.21\n\nrequire golang.org/x/sys v0.0.0\n\n%s => %s\n' \
        "replace golang.org/x/sys" "$modules/golang.org/x/sys" > go.mod
    env GOROOT="$root" GOTOOLCHAIN=local GOFLAGS=-mod=mod GOPROXY=off GOCACHE="$work/cache" GOPATH="$work/path" \
        CGO_ENABLED=0 "$root/bin/go" test -c -p 1 -o "$there/posixtest" ./posixtest
}

# ping_pong is Samba's; of the modules there are tests in their sources.
get_locks() {
    local name
    [ -e "$there/have-cpython" ] || "$0" cpython "$there"
    have stress-ng libfile-fcntllock-perl
    unpack_packages "$work/ctdb" ctdb
    cp "$work/ctdb/usr/bin/ping_pong" "$there"
    for name in FcntlLock NFSLock; do
        sources "libfile-${name,,}-perl"
        rm -rf "$there/File-$name"
        mv "$(find "$work" -maxdepth 1 -name "File-$name-*" -type d)" "$there/File-$name"
    done
}

# The version of a package that is installed, or would be.
version_of() {
    apt-cache "${apt[@]}" policy "$1" | sed -nE 's/^ *(Installed|Candidate): ([^ (]*).*/\2/p' | grep . | sed -n 1p
}

package=$what
case $what in
    cpython) package=python3 ;;
    test_syscalls) package=libfuse3-3 ;;
    sqlite) package=sqlite3 ;;
    pgbench) package=postgresql ;;
    cp | names) package=coreutils ;;
    locks) package=stress-ng ;;
    two-mounts) package=sqlite3 ;;
esac
# (that of go-fuse and of libfuse's tests is their source's)
version=
[[ $what == posixtest || $what == libfuse ]] || version=$(version_of "$package")
case $what in
    cpython | coreutils | test_syscalls | posixtest | libfuse | locks) "get_$what" ;;
    stress-ng | fio | git | rsync | sqlite | pgbench) have "$package" ;;
    two-mounts)
        have sqlite3 postgresql
        [ -e "$there/have-locks" ] || "$0" locks "$there"
        ;;
    tar | cp | names) ;;
    *) echo "There is no $what here." >&2 && exit 2 ;;
esac
if [ -z "$version" ]; then
    version=$(find "$work" -maxdepth 1 -name '*.orig.tar.*' | sed -nE 's/.*_(.*)\.orig.*/\1/p' | sed -n 1p)
fi
echo "${version#*:}" > "$there/have-$what"
