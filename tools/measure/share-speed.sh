#!/usr/bin/env bash
# Measures nizwarf-share beside virtiofsd, libfuse's examples and bindfs, or the tree in memory beside tmpfs and these, and
# prints tables in Markdown: ratios of processor time, medians and quartiles of runs in turns. Below 1, Nizwarf takes less.
#
# Usage: tools/measure/share-speed.sh [--unproved] [--layer] [--clock] [--rounds N] [--jobs N] [--classes LIST] [TABLE..]
#
#   virtiofsd  over vhost-user, each daemon with its defaults, relative to Debian's virtiofsd 1.13.2 (2 min)
#   pools      the same with thread pools of 0, 2 and 4 (3 min)
#   ring       over /dev/fuse by io_uring, with libfuse 3.18.3's io_uring (5 min)
#   read       over /dev/fuse by read(2), with libfuse of this machine's Debian and bindfs (5 min)
#   calls      system calls of each server over /dev/fuse (2 min)
#   tree       the tree as tools/mount.sh mounts it, by io_uring if Linux supports it (10 min)
#
# Without a TABLE, all except the tree are printed. The times are those of an idle machine with four processors; the first run
# also downloads and builds the other servers, which takes three minutes.
#
#   --unproved      measure a library without a proof if the proved one is not built; it is up to five times slower, so its
#                   figures mean little, and each table says so
#   --layer         add to the tables over vhost-user virtiofsd as tools/virtiofsd.sh builds it, unmodified and with this
#                   protocol layer; building both takes five minutes more, and requires cargo
#   --clock         add tables of the time by the clock, which are comparable only on an idle machine
#   --rounds N      the number of rounds: by default 45 over vhost-user and 11 over /dev/fuse
#   --jobs N        the number of processes that use a mount at once (1 by default)
#   --classes LIST  only these classes, separated by commas; an unknown class prints the list
#
# Over vhost-user tools/measure/pace.c takes the place of a guest: it has a processor of its own, and all daemons share the
# others. Over /dev/fuse tools/measure/share_speed.c uses files. All directories are in memory, so that no disk is measured.
# Processor time is that of a server and its descendants, including the kernel's part.
#
# It requires root, /dev/fuse for the mounts, git, Python 3, a C compiler, and the programs that tools/libfuse.sh requires. The
# table `ring` requires that io_uring is enabled: echo Y > /sys/module/fuse/parameters/enable_uring. The other servers are
# Debian's packages, or are built from their sources, in the directory `out`, which git ignores; nothing is installed.
# Exit status 0: the tables were printed; 1: a measurement failed; 2: it could not start.
set -euo pipefail
. "$(dirname "$0")/../lib/usage.sh"
. "$(dirname "$0")/../lib/transport.sh"
. "$(dirname "$0")/../lib/debian.sh"
. "$(dirname "$0")/../lib/mounts.sh"

refuse() {
    echo "share-speed.sh: $1" >&2
    echo "Usage: tools/measure/share-speed.sh [--unproved] [--layer] [--clock] [--rounds N] [--jobs N] [--classes LIST] [TABLE..]" >&2
    exit 2
}

given=("$@") unproved='' layer='' words=() jobs=() tables=()
while [ $# -gt 0 ]; do
    case $1 in
        --unproved) unproved=yes ;;
        --layer) layer=yes ;;
        --clock) words+=("$1") ;;
        --rounds | --jobs)
            [[ ${2:-} =~ ^[1-9][0-9]{0,3}$ ]] || refuse "option '$1' requires a number from 1 on"
            if [ "$1" = --jobs ]; then jobs=("$1" "$2"); else words+=("$1" "$2"); fi
            shift
            ;;
        --classes)
            [[ ${2:-} =~ ^[a-z0-9,-]+$ ]] || refuse "option '$1' requires names separated by commas"
            words+=("$1" "$2")
            shift
            ;;
        virtiofsd | pools | ring | read | calls | tree) tables+=("$1") ;;
        *) refuse "unknown option or table '$1'" ;;
    esac
    shift
done
[ ${#tables[@]} -gt 0 ] || tables=(virtiofsd pools ring read calls)
need_root "mounting requires root"
for command in git python3 cc dpkg-deb; do
    need "$command" "Install it first."
done
uring=$(cat /sys/module/fuse/parameters/enable_uring 2> /dev/null || echo none)
case " ${tables[*]} " in
    *" ring "*) [ "$uring" = Y ] || refuse "io_uring is not enabled: run echo Y > /sys/module/fuse/parameters/enable_uring" ;;
esac
case " ${tables[*]} " in
    *" tree "*) need_proved "$unproved" nizwarf_tree ;;
esac
need_proved "$unproved" nizwarf_codec nizwarf_border
# Mounts are made in a namespace of their own, because a mount in another namespace would stay in use.
own_mounts "${given[@]}"

build_transport share nizwarf_codec
share=$transport
# (in memory, so that no disk is measured)
work=$(mktemp -d -p /dev/shm)
# A run that ends early leaves a mount; once it is unmounted, the server ends.
tidy() {
    umount -lq "$work/mount"
    rm -rf --one-file-system "$work"
}
trap 'tidy 2> /dev/null || true' EXIT
cc -std=c11 -O2 -Wall -Wextra -Werror -o "$work/pace" "$here/tools/measure/pace.c"
cc -std=c11 -O2 -Wall -Wextra -Werror -o "$work/share_speed" "$here/tools/measure/share_speed.c"

# Prints a server as a line for the measuring programs: line NAME KIND-OR-ARGUMENT ARGUMENT..
line() {
    local IFS=$'\t'
    echo "$*"
}

# Lists Debian's virtiofsd of a suite, with its version as its name: add_virtiofsd SUITE AFTER-NAME ARGUMENT..
add_virtiofsd() {
    find_virtiofsd "$1" "$here/out/beside/$1"
    line "$version$2" "${virtiofsd[@]}" "${socket[@]}" "${@:3}"
}
socket=('--socket-path={socket}' '--shared-dir={folder}' '--sandbox={sandbox}')

# The daemons of the table `virtiofsd`.
list_defaults() {
    add_virtiofsd trixie ''
    line nizwarf-share "$share" --log-level=error "${socket[@]}"
    # (Debian's unstable suite may not be available)
    (add_virtiofsd sid '') || echo "share-speed.sh: Debian's sid is not available: leaving out its virtiofsd" >&2
    if [ -n "$layer" ]; then
        built=$("$here/tools/virtiofsd.sh" --unmodified)
        line "virtiofsd 1.13.2, built here" "$built" "${socket[@]}"
        built=$("$here/tools/virtiofsd.sh")
        line "virtiofsd 1.13.2 with this layer" "$built" "${socket[@]}"
    fi
}

# The daemons of the table `pools`. The first one has virtiofsd's default, which is no pool.
list_pools() {
    local pool
    add_virtiofsd trixie ''
    for pool in 2 4; do
        add_virtiofsd trixie ", pool of $pool" "--thread-pool-size=$pool"
    done
    for pool in 0 2 4; do
        line "nizwarf-share, pool of $pool" "$share" --log-level=error "${socket[@]}" "--thread-pool-size=$pool"
    done
}

# Lists passthrough_ll and passthrough_hp of a build: list_libfuse VERSION DIRECTORY OPTIONS..
list_libfuse() {
    local name=$1 options
    options=$(printf ',%s' "${@:3}")
    line "passthrough_ll $name" folder "$2/passthrough_ll" -f -o "source={folder},cache=auto,default_permissions${options%,}" '{mount}'
    if [ $# -gt 2 ]; then
        line "passthrough_hp $name" folder "$2/passthrough_hp" --foreground -o "default_permissions${options%,}" '{folder}' '{mount}'
    else
        line "passthrough_hp $name" folder "$2/passthrough_hp" --foreground '{folder}' '{mount}'
    fi
}
list_bindfs() {
    # (with one thread, its default; with several if more processes use the mount)
    local threads=() lib
    [ "${jobs[1]:-1}" = 1 ] || threads=(--multithreaded)
    lib=$(dirname "$(find "$beside" -name libfuse3.so.3 -print -quit)")
    line "bindfs $(sed -n '2s/-.*//p' "$beside/versions")" folder env "LD_LIBRARY_PATH=$lib" "$beside/usr/bin/bindfs" -f "${threads[@]}" '{folder}' '{mount}'
}
mount_share() {
    line "$1" "$2" "$share" --log-level=error "${@:3}" '{folder}' '{mount}'
}
own_suite=$(sed -n 's/^VERSION_CODENAME=//p' /etc/os-release)
# Sets the paths of libfuse's examples of this machine's suite, with bindfs, and of sid with io_uring.
build_libfuse() {
    "$here/tools/libfuse.sh" --unmodified --all > /dev/null
    examples=$here/out/libfuse/$own_suite-unmodified/build/example
    libfuse=$(sed 's/-.*//' "$here/out/libfuse/source-$own_suite/debian-version")
    get_passthrough
    unset LD_LIBRARY_PATH
}
build_ring() {
    "$here/tools/libfuse.sh" --unmodified --io-uring --all --suite sid > /dev/null
    ring_examples=$here/out/libfuse/sid-unmodified-io-uring/build/example
    ring_libfuse=$(sed 's/-.*//' "$here/out/libfuse/source-sid/debian-version")
}

# Prints a table of the servers that a function lists: over_vhost LIST, over_mount LIST
over_vhost() {
    "$1" > "$work/servers"
    mkdir -p "$work/vhost"
    python3 -B "$here/tools/measure/pace.py" "${words[@]}" "$work/pace" "$work/vhost" "$work/servers"
}
over_mount() {
    "$1" > "$work/servers"
    python3 -B "$here/tools/measure/share_speed.py" "${@:2}" "${words[@]}" "${jobs[@]}" "$work/share_speed" "$work" "$here" "$work/servers"
    rm -rf "$work/archive" "$work/clone"
}

list_ring() {
    mount_share "nizwarf-share, io_uring" folder -o io_uring
    list_libfuse "$ring_libfuse, io_uring" "$ring_examples" io_uring io_uring_q_depth=4
    mount_share "nizwarf-share, read(2)" folder
    mount_share "nizwarf-share, --passthrough" data --passthrough
}
list_others() {
    list_libfuse "$libfuse" "$examples"
    list_bindfs
}
list_read() {
    mount_share "nizwarf-share" folder
    list_others
}
list_calls() {
    mount_share "nizwarf-share, read(2)" folder
    [ "$uring" != Y ] || mount_share "nizwarf-share, io_uring" folder -o io_uring
    list_others
}
list_tree() {
    line "the tree" tree "$tree" '{mount}'
    line tmpfs tmpfs
    list_others
}

echo "Measured on $(LC_ALL=C date '+%-d %B %Y') at commit $(git -C "$here" describe --always --dirty --exclude '*'), \
$(library_kind nizwarf_codec nizwarf_border): $("$share" --version | sed 's/.*, //'); Linux $(uname -r), $(nproc) processors, load $(cut -d ' ' -f 1-3 /proc/loadavg)."
for table in "${tables[@]}"; do
    echo
    case $table in
        virtiofsd)
            printf 'Over vhost-user, by virtiofsd 1.13.2, each with its defaults. '
            over_vhost list_defaults
            ;;
        pools)
            printf 'Over vhost-user by the size of the thread pool, by virtiofsd 1.13.2 without one. '
            over_vhost list_pools
            ;;
        ring)
            build_ring
            printf 'Over /dev/fuse by io_uring, with 4 entries for each processor.\n\n'
            over_mount list_ring
            ;;
        read)
            build_libfuse
            printf 'Over /dev/fuse by read(2).\n\n'
            over_mount list_read
            ;;
        calls)
            build_libfuse
            need strace "To install it: apt-get install strace"
            printf 'System calls, as strace counts them; those of less than one in twenty are left out. With a GETATTR, an open or a\n'
            printf 'rename the LOOKUP before it is counted.\n\n'
            over_mount list_calls --calls
            ;;
        tree)
            build_libfuse
            build_transport mount
            tree=$transport
            printf 'The tree, %s; fuse.enable_uring is %s.\n\n' "$(library_kind nizwarf_tree)" "$uring"
            over_mount list_tree
            ;;
    esac
done
printf '\nLoad %s at the end.\n' "$(cut -d ' ' -f 1-3 /proc/loadavg)"
