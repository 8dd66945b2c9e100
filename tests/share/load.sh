#!/usr/bin/env bash
# Puts shares of folders under load, and has them meet faults, by tests/share/load.py: programs that stress a file
# system, machines, both killed amid a request; full disks, descriptors that run out, allocations that are refused in
# turn and by chance, openings in turn; mounts that come and go, and machines that migrate, also by what tools/virtiofsd.sh
# left in out/virtiofsd. (Locks of many and a folder that others change: tests/programs/test_lock_stress.py,
# test_watch.py.) What was written is held against what is there, what is
# refused makes no name, and descriptors and memory are counted.
#
# Usage: tests/share/load.sh MINUTES
# It wants root, /dev/fuse, python3, stress-ng, a C compiler and the Rattle toolchain, and as much of the processor as
# it is given: `nice` and `taskset` bound it.
# Status 0: all was right; 1: not so; 2: it could not start.
set -euo pipefail
. "$(dirname "$0")/../../tools/lib/usage.sh"
. "$(dirname "$0")/../../tools/lib/transport.sh"
. "$(dirname "$0")/../../tools/lib/mounts.sh"
[[ $#:${1:-} =~ ^1:[0-9]+$ ]] || { echo "Usage: tests/share/load.sh MINUTES" >&2 && exit 2; }
need stress-ng "To install it: apt-get install stress-ng"
need_root "mounting requires root"
need_fuse
need python3 "To install it: apt-get install python3"
# (what is mounted from here on is in no other namespace, where it would stay in use)
own_mounts "$@"
# (in memory where that is a file system: one on a disk may say of a directory that it has one name)
# shellcheck disable=SC2119
TMPDIR=$([ ! -d /dev/shm ] || echo /dev/shm) own_work
build_transport share nizwarf_codec
share=$transport
build_transport share nizwarf_codec "$here/tests/share/refuse_some.c" -Wl,--wrap=malloc -Wl,--wrap=calloc \
    -Wl,--wrap=realloc -Wl,--wrap=aligned_alloc -Wl,--wrap=openat
daemon=$here/out/virtiofsd/nizwarf-virtiofsd
if [ ! -x "$daemon" ]; then
    echo "No machine of virtiofsd migrates: \`tools/virtiofsd.sh\` makes it." >&2
    daemon=''
fi
python3 -B "$here/tests/share/load.py" "$share" "$transport" "$work" "$1" ${daemon:+"$daemon"}
