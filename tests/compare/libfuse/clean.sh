#!/usr/bin/env bash
# Runs `tools/libfuse.sh --check` from nothing, on a Debian 12 that debootstrap makes: as whoever has the Rattle
# toolchain, pytest, a clone, and no more. tests/compare/test_libfuse.py starts it.
#
# Usage: tests/compare/libfuse/clean.sh [--keep]
# The Debian is in out/libfuse-debian. It gets a clone of the commit here, the toolchain, which nothing there may write
# to, and of packages those alone that skipped tests ask for. With --keep the Debian stays, and the next run starts from it, with a new clone.
#
# It wants root, /dev/fuse, git, the toolchain, and apt-get with a mirror, by which it installs debootstrap if that is
# missing: 500 MB are downloaded. It takes twenty minutes.
# Status 0: the check ended well; 1: not so; 2: it could not start.
set -euo pipefail
. "$(dirname "$0")/../../../tools/lib/usage.sh"
. "$(dirname "$0")/../../../tools/lib/debian.sh"

here=$(cd "$(dirname "$0")/../../.." && pwd)
root=$here/out/libfuse-debian

# Runs a command in the Debian, as one who logs in does.
inside() {
    env -i HOME=/root PATH="/usr/sbin:/usr/bin:/sbin:/bin:$kit/bin" LC_ALL=C.UTF-8 DEBIAN_FRONTEND=noninteractive \
        chroot "$root" "$@"
}

# Mounts what a machine has, and the toolchain; and checks, until no package is missing.
check_inside() {
    local status packages asked=''
    mount --bind "$root" "$root"
    mount --rbind /dev "$root/dev"
    mount -t proc proc "$root/proc"
    mount --bind -o ro "$kit" "$root$kit"
    quietly "$root.said" inside apt-get update
    # Tests that are skipped name packages that are missing, for one part after another.
    for _ in 1 2 3 4 5; do
        status=0
        inside /root/nizwarf/tools/libfuse.sh --check 2>&1 | tee "$root.said" || status=${PIPESTATUS[0]}
        read -ra packages <<< "$(sed -nE 's/^SKIPPED .*apt-get install ([^.]*)\.?$/\1/p' "$root.said" | paste -sd ' ')"
        if [[ ${packages[*]} == "$asked" ]]; then return "$status"; fi
        asked=${packages[*]}
        echo "Installing what it asks for .."
        quietly "$root.said" inside apt-get install -y --no-install-recommends "${packages[@]}"
    done
    return 2
}

need rt "The Rattle toolchain builds the library: put its folder bin on the PATH."
kit=$(dirname "$(rt doc)")
if [ "${1:-}" = --inside ]; then
    check_inside "${@:2}"
    exit
fi
keep=''
if [ "${1:-}" = --keep ]; then
    keep=yes
    shift
fi
need_root "mounting requires root"
if [ ! -e /dev/fuse ]; then
    echo "It takes /dev/fuse." >&2
    exit 2
fi
need git "To install it: apt-get install git"
need apt-get "The Debian is made of packages."

# Makes it, with the toolchain's folder to be mounted on; the file beside it says that it is whole.
make_debian() {
    rm -rf "$root"
    mkdir -p "$root"
    command -v debootstrap > /dev/null || apt-get install -qq -y --no-install-recommends debootstrap || return
    bootstrap_debian "$root" || return
    chroot "$root" sh -c 'apt-get update -qq && apt-get install -qq --no-install-recommends python3-pytest' || return
    mkdir -p "$root$kit"
    : > "$root.made"
}

# (what is mounted there is so in the namespace of the check, which ends with it)
trap '[ -n "$keep" ] || rm -rf --one-file-system "$root" "$root.made" "$root.said"' EXIT
if [ ! -e "$root.made" ]; then
    echo "Making a Debian .."
    mkdir -p "$here/out"
    quietly "$root.said" make_debian || exit 2
fi
rm -rf "$root/root/nizwarf"
git clone -q --depth 1 "file://$here" "$root/root/nizwarf"
# (in namespaces of mounts and of processes, which end with it)
unshare -m -p -f --kill-child --propagation private "$0" --inside "$@"
