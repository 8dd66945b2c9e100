#!/usr/bin/env bash
# Compares the time of requests of crates/test_speed with that of virtiofsd's own Rust, in one process.
#
# Usage: tools/measure/speed.sh [--source DIRECTORY] [--only TEXT] [--runs N] [--ms N]
#
# tests/compare/virtiofsd_code/build.sh builds virtiofsd's Rust from the sources of Debian's package, or from DIRECTORY. For
# each class of requests whose name contains TEXT, and each way to cut it into segments, it prints the processor time of a
# request on both sides, the minimum of N runs of N milliseconds, and its allocations. The last column is the most reliable: the
# median of the ratios of consecutive runs. The replies of both are compared first, and nothing is measured if they differ.
#
# It builds the library with its proof if a source is newer: in a minute if the crates below are proved, and otherwise in half
# an hour.
set -euo pipefail
. "$(dirname "${BASH_SOURCE[0]}")/../lib/usage.sh"
here=$(cd "$(dirname "${BASH_SOURCE[0]}")/../.." && pwd)
crate=$here/crates/test_speed
library=$crate/out/libtest_speed.a

beside=$here/out/oracle
source=() flags=()
while [ $# -gt 0 ]; do
    case $1 in
        --source)
            [ -d "${2:-}" ] || { echo "speed.sh: option '--source' requires a directory with virtiofsd's four files" >&2 && exit 2; }
            source=(--source "$2") && shift 2
            ;;
        --only | --runs | --ms)
            [ $# -ge 2 ] || { echo "speed.sh: option '$1' requires an argument" >&2 && exit 2; }
            flags+=("$1" "$2") && shift 2
            ;;
        *) sed -n '2,/^set/s/^# \{0,1\}//p' "${BASH_SOURCE[0]}" >&2 && exit 2 ;;
    esac
done

need rt "The library requires the Rattle toolchain: add its directory bin to PATH."
kit=$(cd "$(dirname "$(rt doc)")" && pwd)
need rustc "To install it: apt-get install rustc"
"$here/tests/compare/virtiofsd_code/build.sh" "${source[@]}"
folder=$(mktemp -d)
trap 'rm -rf "$folder"' EXIT
if [ ! -e "$library" ] ||
    [ -n "$(find "$here/crates.txt" "$here"/crates/*/{src,specs,proofs} -newer "$library" -print -quit 2> /dev/null)" ]; then
    echo "Building $library with its proof, which takes half an hour if nothing is proved yet .." >&2
    (cd "$crate" && rt lib > "$folder/said" 2>&1) || { tail -n 20 "$folder/said" >&2 && exit 1; }
fi

# Both sides are built for the processors of `rt`: x86-64-v2.
rust=(--edition 2021 -C opt-level=3 -C target-cpu=x86-64-v2 --cap-lints allow
    -L "$beside/fast" --extern "oracle=$beside/fast/liboracle.rlib"
    -C "link-arg=$library" -C "link-arg=$kit/c/liblibc_c.a")
rustc "${rust[@]}" -o "$folder/beside" "$here/tests/compare/virtiofsd_code/src/bin/beside.rs"
# The replies of both are compared by checksums, because different replies are different work.
if ! "$folder/beside" "${flags[@]}" --digests > "$folder/digests"; then
    grep DIFFER "$folder/digests" >&2 || echo "speed.sh: cannot compare the replies" >&2
    exit 1
fi
"$folder/beside" "${flags[@]}"
