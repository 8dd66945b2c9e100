#!/usr/bin/env bash
# Tests the bindings for other languages: the packages for Python and for Go, and `hello` in both, with a client and, as
# root if there is /dev/fuse, mounted; and the crate for Rust, with rust/check.sh.
#
# Usage: bindings/check.sh [--msrv] [--fuser]
# Both words are passed to rust/check.sh. Languages that are not installed are skipped, with a message.
#
# Python and Go use the shared library. If out/packages has one and no source is newer, it is used. Otherwise
# it is linked from the proved library, or from that which tools/lib/unproved.sh builds in a minute.
# It needs a C compiler and the Rattle toolchain; and python3 with pytest, go with cgo, and cargo for their languages.
# Status 0: all checks passed; 1: one failed; 2: it could not start.

# shellcheck source-path=SCRIPTDIR/../tools
set -euo pipefail
tools=$(cd "$(dirname "$0")/../tools" && pwd)
. "$tools/lib/usage.sh"
. "$tools/lib/transport.sh"
. "$tools/../bindings/hello.sh"

for word in "$@"; do
    case $word in
        --msrv | --fuser) ;;
        *) echo "Usage: bindings/check.sh [--msrv] [--fuser]" >&2 && exit 2 ;;
    esac
done
need cc "To install it: apt-get install gcc libc6-dev"
folder=$(mktemp -d)
trap clean_up EXIT
built=$here/out/bindings
mkdir -p "$built"

# Provides the shared library, by the names that it has when it is installed.
make_shared() {
    local packed
    for packed in "$here"/out/packages/nizwarf-*-linux-x86_64.tar.gz; do
        if [ -e "$packed" ] && is_newest "$packed" && [ -z "$(find "$here"/{lib,include} -newer "$packed" -print -quit)" ]; then
            # (NAME/lib/FILE becomes FILE)
            tar -xzf "$packed" -C "$built" --strip-components=2 --wildcards '*/lib/libnizwarf.so*'
            echo "The shared library is from ${packed##*/}." >&2
            return
        fi
    done
    link_shared "$built"
}

# Tests a program with a client, and mounted.
check_hello() {
    step "$1 with a client" ask_hello "$2"
    if may_mount; then
        step "$1, mounted" use_mount "$2" "$folder/mount"
        check_aborted "$1" "$2" "$folder/mount"
    else
        skip 2 "$1 is not mounted: this needs root, /dev/fuse and mountpoint."
    fi
}

# Runs the lines of Go's README that need no package, in the folder of the repository. The last one mounts.
follow_readme() {
    local lines clean=(env -u LD_LIBRARY_PATH -u CGO_CFLAGS -u CGO_LDFLAGS -C "$here")
    # The block that begins with an export.
    lines=$(sed -n '/^    export /,/^$/ s/^    //p' "$here/bindings/go/README.md")
    rm -f "$built/hello"
    "${clean[@]}" bash -ec "$(grep -v '^sudo ' <<< "$lines")" || return 1
    if may_mount; then
        lines=$(grep '^sudo ' <<< "$lines") || return 1
        lines=${lines#sudo }
        use_mount "${clean[@]}" bash -ec "${lines/%\/mnt/$folder/mount}"
    fi
}

# (bindings/rust/check.sh counts its own)
steps=17
make_shared
export LD_LIBRARY_PATH=$built${LD_LIBRARY_PATH:+:$LD_LIBRARY_PATH}
if command -v pytest-3 > /dev/null; then
    export NIZWARF_LIB=$built/libnizwarf.so.1
    tests=(pytest-3 -q "$here/bindings/python/tests")
    step "Tests of the package for Python" "${tests[@]}"
    check_hello hello.py "$here/bindings/python/hello.py"
    sanitizer=$(cc -print-file-name=libasan.so)
    if [ -e "$sanitizer" ]; then
        # (Python's own allocator would hide what is read past; what it leaks is its own)
        LD_PRELOAD=$sanitizer PYTHONMALLOC=malloc ASAN_OPTIONS=detect_leaks=0 \
            step "The same tests with the address sanitizer" "${tests[@]}"
    else
        skip 1 "The compiler has no address sanitizer, so it is skipped."
    fi
else
    skip 5 "pytest is not installed, so Python is skipped: apt-get install python3-pytest."
fi
if command -v go > /dev/null; then
    export GOCACHE=$built/go-cache GOFLAGS=-mod=mod GOPROXY=off
    export CGO_CFLAGS="-O2 -Wall" CGO_LDFLAGS=-L$built
    cd "$here/bindings/go"
    # cgo checks all pointers that are passed to C.
    case $(go env GOVERSION) in
        go1.1[0-9]* | go1.20*) export GODEBUG=cgocheck=2 ;;
        *) export GOEXPERIMENT=cgocheck2 ;;
    esac
    step "Format of the package for Go" test -z "$(gofmt -l .)"
    step "go vet" go vet ./...
    step "The README for Go" follow_readme
    step "Build of hello" go build -o "$built/hello" ./examples/hello
    step "Tests of the package for Go" go test -count=1 ./...
    check_hello hello "$built/hello"
    for end in fusermount3 SIGTERM; do
        check_other hello "$end" "$built/hello" "$built/libnizwarf.so.1"
    done
    for sanitizer in -asan -race; do
        if go build $sanitizer -o "$built/hello$sanitizer" ./examples/hello 2> "$folder/said"; then
            step "Tests of the package for Go with $sanitizer" go test -count=1 $sanitizer .
        else
            skip 1 "go has no $sanitizer here, so it is skipped."
        fi
    done
    cd "$here"
else
    skip 12 "go is not installed, so Go is skipped: apt-get install golang-go."
fi
if command -v cargo > /dev/null; then
    "$here/bindings/rust/check.sh" "$@"
else
    echo "cargo is not installed, so Rust is skipped: apt-get install cargo." >&2
fi
