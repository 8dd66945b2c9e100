# For the scripts beside it: where the programs are, vfs_demo where none is named.
# shellcheck shell=bash

here=$(cd "$(dirname "${BASH_SOURCE[0]}")/../.." && pwd)
# shellcheck disable=SC2034
crate=$here/crates/vfs_demo
# shellcheck disable=SC2034
program=$here/crates/vfs_demo/out/vfs_demo

# Whether a file is as new as all that programs are built from.
is_newest() {
    [ -z "$(find "$here/crates.txt" "$here"/crates/*/{src,specs,proofs} -newer "$1" -print -quit 2> /dev/null)" ]
}

# Whether a proved program is there, and as new as all that it is built from.
is_built() {
    local built=$here/crates/${1:-vfs_demo}/out/${1:-vfs_demo}
    [ -x "$built" ] && is_newest "$built"
}

# Stops where the toolchain is not there.
need_toolchain() {
    if ! command -v rt > /dev/null; then
        echo "${0##*/}: 'rt' of the Rattle toolchain is not installed: add the toolchain's directory bin to PATH. It is" >&2
        echo "required because $here/crates/${1:-vfs_demo}/out/${1:-vfs_demo} is missing or older than its sources." >&2
        exit 2
    fi
}
