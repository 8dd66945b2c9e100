#!/usr/bin/env bash
# Builds virtiofsd's own code over lists of byte segments, with which tests/compare/test_virtiofsd_code.py compares.
#
# Usage: tests/compare/virtiofsd_code/build.sh [--source FOLDER]
# The code is that of virtiofsd 1.13.2: fuse.rs, descriptor_utils.rs, filesystem.rs and server.rs. It is
# taken from Debian's package librust-virtiofsd-dev, of this machine's Debian or of Debian 13, which
# apt-get downloads by lists of its own and which is unpacked below out/oracle and never installed. With
# --source, FOLDER has the four files. Where they are not those of 1.13.2 it says so, and goes on as long
# as the places of its edits are there.
#
# In out/oracle it leaves the programs `raw` (the code as it is), `mended` (without the faults that
# docs/DIFFERENCES.md lists) and `later` (entries given back, and a limit that is chosen), and in
# out/oracle/fast what tools/measure/speed.sh links. It runs virtiofsd's own tests of its segments over the
# crates that stand in, where the source has them.
#
# It wants rustc and Python 3, builds only what is older than its sources or by another compiler, and takes
# half a minute.
set -euo pipefail
. "$(dirname "${BASH_SOURCE[0]}")/../../../tools/lib/usage.sh"
. "$(dirname "${BASH_SOURCE[0]}")/../../../tools/lib/debian.sh"
here=$(cd "$(dirname "${BASH_SOURCE[0]}")" && pwd)
out=$here/../../../out/oracle
mkdir -p "$out"
out=$(cd "$out" && pwd)

package=librust-virtiofsd-dev
stand_ins=(libc bitflags vm_memory virtio_queue vhost_user_backend)

# Downloads the package into a folder, from the machine's own suite or else from trixie, by lists that are removed again.
download() {
    local folder=$1
    cd "$folder"
    use_suite "" ""
    apt-get "${apt[@]}" download "$package" || true
    if ! compgen -G "${package}_1.13.2-*.deb" > /dev/null; then
        rm -f ./*.deb
        use_suite trixie "$folder/apt"
        apt-get "${apt[@]}" download "$package"
    fi
}

# Puts the package's source into out/oracle/source, where it isn't there yet.
fetch() {
    [ ! -e "$out/source/src/fuse.rs" ] || return 0
    local folder
    if command -v apt-get > /dev/null && command -v dpkg-deb > /dev/null; then
        folder=$(mktemp -d)
        # shellcheck disable=SC2064
        trap "rm -rf ${folder@Q}" EXIT
        echo "Downloading $package .." >&2
        # (in a shell of its own, since it goes elsewhere)
        if (quietly "$folder/said" download "$folder"); then
            dpkg-deb -x "$folder/$package"_*.deb "$folder/unpacked"
            rm -rf "$out/source"
            mv "$folder"/unpacked/usr/share/cargo/registry/virtiofsd-* "$out/source"
        fi
        rm -rf "$folder"
    fi
    if [ ! -e "$out/source/src/fuse.rs" ]; then
        echo "requires Debian's package $package of 1.13.2 from apt-get, or a folder with its sources" >&2
        exit 2
    fi
}

# Compiles the crates that stand in, and sets `externs` to what names them.
compile_stand_ins() {
    local folder=$1 name
    shift
    externs=(-L "$folder")
    mkdir -p "$folder"
    for name in "${stand_ins[@]}"; do
        rustc "$@" "${externs[@]}" --crate-type rlib --crate-name "$name" -o "$folder/lib$name.rlib" \
            "$here/stand_ins/$name.rs"
        externs+=(--extern "$name=$folder/lib$name.rlib")
    done
}

# Puts the sources of a program together: sources MODE FOLDER.
put_sources() {
    rm -rf "$2"
    mkdir -p "$2"
    cp -R "$here/src" "$2/src"
    python3 -B "$here/edits.py" "$source" "$2/src" "$1"
}

# Builds a program: build MODE.
build() {
    local folder=$out/build/$1
    put_sources "$1" "$folder"
    rustc "${flags[@]}" "${externs[@]}" --crate-type rlib --crate-name oracle -o "$folder/liboracle.rlib" "$folder/src/lib.rs"
    rustc "${flags[@]}" "${externs[@]}" --cfg "$1" --extern "oracle=$folder/liboracle.rlib" -o "$out/$1" \
        "$folder/src/bin/oracle.rs"
}

# virtiofsd's own tests of its segments.
run_own_tests() {
    local folder=$out/build/raw
    if grep -qE '^#\[cfg\((debian_)?test\)\]' "$folder/src/descriptor_utils.rs"; then
        rustc "${flags[@]}" "${externs[@]}" --test --cfg debian_test --crate-name own_tests -o "$folder/own_tests" "$folder/src/lib.rs"
        "$folder/own_tests" --quiet > "$folder/said" || { cat "$folder/said" >&2 && exit 1; }
        echo "virtiofsd's own tests: $(sed -n 's/^test result: ok\. \([0-9]* passed\).*/\1/p' "$folder/said")."
    fi
}

given=
while [ $# -gt 0 ]; do
    case $1 in
        --source)
            if [ $# -lt 2 ] || [ ! -d "$2" ]; then
                echo "--source wants a folder." >&2
                exit 2
            fi
            given=$(cd "$2" && pwd)
            shift 2
            ;;
        *)
            echo "Usage: tests/compare/virtiofsd_code/build.sh [--source FOLDER]" >&2
            exit 2
            ;;
    esac
done
need rustc "To install it: apt-get install rustc"
need python3 "To install it: apt-get install python3"

[ -n "$given" ] || fetch
source=${given:-$out/source}
# What is built, and by which compiler, since its libraries are for no other.
of=$(printf '%s\n' "$source" "$(rustc -V)")
built=$out/built
if [ -e "$built" ] && [ "$(cat "$built")" = "$of" ] &&
    [ -z "$(find "$here"/{build.sh,edits.py,src,stand_ins} "$source" -type f -newer "$built" -print -quit)" ]; then
    exit
fi
echo "Building virtiofsd's code from ${given:-the package} .." >&2
status=0
python3 -B "$here/edits.py" "$source" --check || status=$?
# (2: a file is missing; 1: one is of another version)
[ "$status" != 2 ] || exit 2
[ "$status" = 0 ] || echo "The edits are tried all the same." >&2
# (without `built` it counts as not built, until all is)
rm -rf "$out/build" "$out/fast" "$built"

# With overflow checks and debug assertions off, as virtiofsd is shipped.
flags=(--edition 2021 -O --cap-lints allow)
part "the crates that stand in"
compile_stand_ins "$out/build/stand_ins" "${flags[@]}"
part "the programs raw, mended and later"
jobs=()
for mode in raw mended later; do
    build "$mode" &
    jobs+=($!)
done
for job in "${jobs[@]}"; do
    wait "$job"
done
part "their tests"
run_own_tests

# What is measured: the mended one, with flags of its own.
part "what is measured"
flags=(--edition 2021 -C opt-level=3 -C target-cpu=x86-64-v2 --cap-lints allow)
compile_stand_ins "$out/fast" "${flags[@]}"
rustc "${flags[@]}" "${externs[@]}" --crate-type rlib --crate-name oracle -o "$out/fast/liboracle.rlib" \
    "$out/build/mended/src/lib.rs"
echo "$of" > "$built"
