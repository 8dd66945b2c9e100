#!/usr/bin/env bash
# Mounts a file system over /dev/fuse and serves it until it is unmounted: the tree in memory, or that of another library
# for C.
#
# Usage: tools/mount.sh [--library NAME] [-o OPTIONS] [--trace[=FILE]] DIRECTORY
#        tools/mount.sh --check [PYTEST-OPTION]..
#
#   --library NAME  the library crates/NAME, which tools/new-library.sh makes; nizwarf_tree by default
#   -o OPTIONS      options separated by commas: allow_other, ro, rw, noexec, nosuid, nodev, fsname=NAME, max_read=BYTES,
#                   no_io_uring (receive requests by read(2) even if Linux supports io_uring); and for the tree in memory
#                   size=BYTES, nr_inodes=N (each may end in k, m or g), mode=OCTAL, uid=N, gid=N, writeback (let the kernel
#                   cache writes)
#   --trace[=FILE]  print each request and reply, or write their bytes to a new FILE for vfs_decode, which a package has as
#                   nizwarf-decode
#   --check         test it by tests/programs/test_mount.py and test_mount_files.py, in two minutes; it requires pytest
#                   (apt-get install python3-pytest)
#
# `umount DIRECTORY` or Ctrl-C unmounts it, and its files are lost.
#
# It requires root, /dev/fuse, a C compiler and the Rattle toolchain. It links the proved library if that is built and no
# source is newer; otherwise tools/lib/unproved.sh builds it without a proof, which takes a minute. The transport,
# programs/mount/mount.c, is not proved.
# Exit status 0: it was served and unmounted, and with --check all tests passed; 1: it failed; 2: it could not start.
set -euo pipefail
. "$(dirname "$0")/lib/usage.sh"
. "$(dirname "$0")/lib/transport.sh"

# Prints an error, if one is given, and the usage, and exits.
usage() {
    [ $# = 0 ] || echo "mount.sh: $1" >&2
    echo "Usage: tools/mount.sh [--library NAME] [-o OPTIONS] [--trace[=FILE]] DIRECTORY, or tools/mount.sh --check [PYTEST-OPTION].." >&2
    exit 2
}

name=nizwarf_tree
options=()
while [[ ${1:-} == -* ]]; do
    case $1 in
        --trace | --trace=*) options+=("$1") ;;
        --library)
            [[ ${2:-} =~ ^[a-z][a-z0-9_]*$ ]] || usage "option '--library' requires the name of a crate"
            name=$2
            shift
            ;;
        -o)
            [ $# -ge 2 ] || usage "option '-o' requires an argument"
            options+=(-o "$2")
            shift
            ;;
        --check)
            # (it must be the only option, because the tests use nizwarf_tree)
            [ "${#options[@]} $name" = "0 nizwarf_tree" ] || usage "--check cannot be combined with other options"
            need pytest-3 "To install it: apt-get install python3-pytest"
            exec pytest-3 "$here"/tests/programs/test_mount{,_files}.py "${@:2}"
            ;;
        *) usage "unrecognized option '$1'" ;;
    esac
    shift
done
[ $# = 1 ] || usage
if [ "$(id -u)" != 0 ]; then
    echo "mount.sh: mounting requires root" >&2
    exit 2
fi
need_fuse
if [ ! -d "$1" ]; then
    echo "mount.sh: '$1' is not a directory" >&2
    exit 2
fi
# (/proc/self/mounts has absolute paths without links)
folder=$(realpath "$1")
build_transport mount "$name"
echo "Mounting on $folder: \`umount $folder\` or Ctrl-C unmounts it." >&2
exec "$transport" "${options[@]}" "$folder"
