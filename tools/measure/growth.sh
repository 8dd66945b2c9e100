#!/usr/bin/env bash
# Measures how nizwarf-share grows, compared with Debian's virtiofsd and libfuse's passthrough_ll: memory per file for 1,000 to
# 3,000,000 files; the time of a LOOKUP among them, of a FORGET of all, of DESTROY and INIT, and of a name in a directory of 10
# to 1,000,000; requests per second over 1 to 8 queues with 1 to 64 in flight, and of eight machines at once. It prints tables
# in Markdown; progress is printed to standard error.
#
# Usage: tools/measure/growth.sh [--unproved] [MOST]
#
# MOST is the largest number of files, by default 3000000, which take 5 GB of memory in a tmpfs and about five minutes. Nothing
# is mounted over FUSE, because tools/measure/pace.c takes the place of a guest.
#
# It requires root, python3, a C compiler and the Rattle toolchain. apt-get downloads passthrough_ll, from libfuse's sources,
# and virtiofsd into directories that git ignores; nothing is installed. It requires the proved libraries; with --unproved it
# measures libraries without a proof if these are not built, which are up to five times slower.
# Exit status 0: it was measured; 1: it failed; 2: it could not start.
set -euo pipefail
. "$(dirname "$0")/../lib/usage.sh"
. "$(dirname "$0")/../lib/transport.sh"
. "$(dirname "$0")/../lib/debian.sh"
. "$(dirname "$0")/../lib/mounts.sh"

given=("$@") unproved=''
if [ "${1:-}" = --unproved ]; then
    unproved=yes
    shift
fi
most=${1:-3000000}
if [ $# -gt 1 ] || ! [[ $most =~ ^[1-9][0-9]{3,6}$ ]] || [ "$most" -gt 3000000 ]; then
    echo "Usage: tools/measure/growth.sh [--unproved] [MOST], where MOST is 1000 to 3000000" >&2
    exit 2
fi
need_proved "$unproved" nizwarf_codec nizwarf_border
need_root "file handles require root"
for command in python3 cc dpkg-deb; do
    need "$command" "Install it first."
done
own_mounts "${given[@]}"
get_passthrough
find_virtiofsd trixie "$here/out/beside/trixie"
build_transport share nizwarf_codec
folder=$here/out/c
cc -std=c11 -O2 -Wall -Wextra -Werror -o "$folder/pace" "$here/tools/measure/pace.c"
# shellcheck disable=SC2119
own_work
# (without a limit of inodes, because each file is one)
mount -t tmpfs -o nr_inodes=0,size=90% growth "$work"
echo "Measured on $(LC_ALL=C date '+%-d %B %Y') at commit $(git -C "$here" describe --always --dirty --exclude '*'), \
$(library_kind nizwarf_codec nizwarf_border); Linux $(uname -r), $(nproc) processors, load $(cut -d ' ' -f 1-3 /proc/loadavg); \
$version, libfuse $(head -n 1 "$beside/versions")."
python3 -B "$here/tools/measure/growth.py" "$folder/pace" "$work" "$most" "$transport" "$beside/passthrough_ll" "${virtiofsd[@]}"
