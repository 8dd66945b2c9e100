#!/usr/bin/env bash
# Runs tests that a program of Debian which links libfuse3 brings with it, by the program as it is packaged: with
# libfuse's own library, and with another one.
#
# Usage: tests/compare/libfuse/others.sh LIB FOLDER SUITE
# LIB is the folder with the other library, FOLDER that of tools/libfuse.sh. A suite is
#
#   portal   the document portal of xdg-desktop-portal: test-doc-portal and test-document-fuse.sh
#   rofiles  rofiles-fuse of ostree: test-rofiles-fuse.sh
#   nbdfuse  libnbd's tests of nbdfuse
#   raw, qcow2   QEMU's iotests of such images over an export of qemu-storage-daemon, `check -fuse -g auto`
#   bindfs, overlay   bindfs's tests, and fuse-overlayfs's unlink.sh, by programs of Debian's sid, which link libfuse3.so.4:
#            with that library
#
# apt-get downloads the packages and what tests of sources there are, 400 MB, by lists of its own into FOLDER/others, where
# all runs, in a root of its own; nothing is installed. A line says how many cases passed with both, and
# which came to another end. Five minutes, and for qcow2 twenty.
#
# Root only, in namespaces of its own.
# Status 0: each case came to the same with both; 1: not so; 2: it could not start.
# shellcheck disable=SC2016,SC2317
set -euo pipefail
. "$(dirname "$0")/../../../tools/lib/usage.sh"

# ---- In the root: each case, and whether it passed ------------------------------------------------------

# The cases of a program that says them in TAP: tap NAME FILE
tap() {
    sed -nE "s/^(not )?ok( [0-9]+)?( -)? *(.*)/$1: \4 \1ok/p" "$2" | sed -E 's/ not ok$/ failed/; s/ ok$/ passed/'
}

# The document portal's two programs.
run_portal() {
    local tests=/usr/libexec/installed-tests/xdg-desktop-portal
    XDG_RUNTIME_DIR=/run "$tests/test-doc-portal" --tap > "$said" 2>&1 || echo "test-doc-portal ended by $? failed"
    tap test-doc-portal "$said"
    "$tests/test-document-fuse.sh" --tap > "$said" 2>&1 || echo "test-document-fuse.sh ended by $? failed"
    tap test-document-fuse.sh "$said"
}

# rofiles-fuse's script.
run_rofiles() {
    export G_TEST_SRCDIR=/usr/libexec/installed-tests/libostree LC_ALL=C.UTF-8
    export G_TEST_BUILDDIR=$G_TEST_SRCDIR
    "$G_TEST_SRCDIR/test-rofiles-fuse.sh" > "$said" 2>&1 || echo "ended by $? failed"
    tap test-rofiles-fuse.sh "$said"
}

# Each script of nbdfuse, which wants what a build of libnbd has above it.
run_nbdfuse() {
    local it
    cp -r /sources/libnbd .
    cd libnbd/fuse
    sed "s,@[A-Za-z_]*@,$PWD/..,g" ../tests/functions.sh.in > ../tests/functions.sh
    EXPECTED_VERSION=$(nbdfuse --version | sed -n 's/^nbdfuse //p')
    export EXPECTED_VERSION
    for it in test-*.sh; do
        if timeout 200 bash "./$it" > "$said" 2>&1; then echo "$it passed"; else echo "$it failed"; fi
    done
}

# (of a test that isn't for such an image it says so, and no more)
run_image() {
    local name
    for name in img io nbd; do export "QEMU_${name^^}_PROG=/usr/bin/qemu-$name"; done
    export QEMU_PROG=/usr/bin/qemu-system-x86_64 QSD_PROG=/usr/bin/qemu-storage-daemon
    export TEST_DIR=$PWD/images SOCK_DIR=$PWD/sockets
    cp -r /sources/qemu .
    cd qemu/tests/qemu-iotests
    ./check "-$1" -fuse -g auto 2>&1 | tr '\r' '\n' |
        sed -nE 's/^([a-z0-9-]+) +(pass|fail) .*/\1 \2ed/p' | sort -u || true
}

# (of its cases one that fails is the last; sudo is a script here, and pkg-config)
run_bindfs() {
    mkdir -p src bin
    cp -r /sources/bindfs/tests .
    ln -s /usr/bin/bindfs src/bindfs
    printf '#!/bin/bash\nexec setpriv --reuid="$2" --regid="$4" --clear-groups -- "${@:5}"\n' > bin/sudo
    printf '#!/bin/sh\necho 2.9.9\n' > bin/pkg-config
    chmod 755 . bin/*
    cd tests
    PATH=$PWD/../bin:$PATH ruby test_bindfs.rb > "$said" 2>&1 || echo "test_bindfs.rb ended by $? failed"
    sed -nE 's/[0-9]{8}-[0-9]+-[a-z0-9]+//g; s/^OK$/passed/p; s/^SKIP.*/skipped/p; s/^--- (.*) ---$/: \1/p' "$said" |
        awk '/^:/ { name = $0; next } { print ++number name, $1 }'
}

# fuse-overlayfs's script.
run_overlay() {
    cp -r /sources/fuse-overlayfs/tests .
    cd tests
    if timeout 60 sh ./unlink.sh > "$said" 2>&1; then echo "unlink.sh passed"; else echo "unlink.sh failed"; fi
}

# (run_SUITE for each suite)
run_raw() { run_image raw; }
run_qcow2() { run_image qcow2; }

if [ "${1:-}" = --inside ]; then
    said=/tmp/said
    # (a tmpfs, by bind_root)
    cd "$(mktemp -d -p /tmp)"
    "run_$2"
    exit
fi

# ---- Outside of it ------------------------------------------------------------------------------------

# Tells how it is used, and stops.
usage() {
    echo "Usage: tests/compare/libfuse/others.sh LIB FOLDER portal|rofiles|nbdfuse|raw|qcow2|bindfs|overlay" >&2
    exit 2
}

if [ $# != 3 ] || ! [[ $3 =~ ^(portal|rofiles|nbdfuse|raw|qcow2|bindfs|overlay)$ ]]; then usage; fi
need_root "mounting requires root"
if [ -z "${OWN_MOUNTS:-}" ]; then
    OWN_MOUNTS=yes exec unshare -m -p -f --propagation private "$0" "$@"
fi
here=$(cd "$(dirname "$0")/../../.." && pwd)
. "$here/tools/lib/debian.sh"
. "$here/tools/lib/libfuse.sh"
suite=$(sed -n 's/^VERSION_CODENAME=//p' /etc/os-release)
lib=$(realpath "$1") folder=$(realpath -m "$2")/others it=$3
if [[ $it =~ ^(bindfs|overlay)$ ]]; then
    suite=sid folder=$folder-sid
fi
mkdir -p "$folder"
root=$folder/root

# Unpacks what the suites want into a root, and does what scripts of packages would do.
make_root() {
    if [ "$suite" = sid ]; then
        unpack_root "$root" "$suite" dash libc-bin findutils attr e2fsprogs mawk passwd procps ruby bindfs \
            fuse-overlayfs || return
        printf '%s\n' 'nobody:x:65534:65534::/:/bin/sh' >> "$root/etc/passwd"
        printf '%s\n' 'root:x:0:' 'nogroup:x:65534:' > "$root/etc/group"
        ln -sf which.debianutils "$root/usr/bin/which"
        ln -sf mawk "$root/usr/bin/awk"
        return
    fi
    unpack_root "$root" "$suite" dash libc-bin findutils gawk procps python3 perl attr bc file hostname e2fsprogs \
        xdg-desktop-portal-tests libglib2.0-bin ostree-tests libnbd-bin nbdkit qemu-utils qemu-system-common \
        qemu-system-x86 || return
    ln -sf which.debianutils "$root/usr/bin/which"
    # (libnbd's tests wait a minute by loops of bash's, and ask sh for that: dash waits a second)
    ln -sf bash "$root/usr/bin/sh"
    chroot "$root" glib-compile-schemas /usr/share/glib-2.0/schemas
}

# (bindfs's sources are had of the machine's suite, and what its tests want of C is built here)
fetch_sources() {
    local it
    if [ "$suite" != sid ]; then
        unpack_sources "$folder/sources" "$suite" 'libnbd */fuse/* */tests/functions.sh.in' \
            'qemu */tests/qemu-iotests/* */python/*'
        return
    fi
    unpack_sources "$folder/sources-sid" sid 'fuse-overlayfs */tests/*' || return 1
    unpack_sources "$folder/sources" bookworm 'bindfs */tests/*' || return 1
    mv "$folder/sources-sid/fuse-overlayfs" "$folder/sources/" || return 1
    echo '#define HAVE_UTIMENSAT 1' > "$folder/sources/bindfs/config.h"
    for it in "$folder"/sources/bindfs/tests/*.c; do
        cc -w -D_GNU_SOURCE -I "$folder/sources/bindfs" -o "${it%.c}" "$it" || return 1
    done
}

[ -e "$root" ] || { echo "Downloading programs of $suite .." >&2 && quietly "$folder/said" make_root; } || exit 2
if [ ! -e "$folder/sources" ]; then
    echo "Downloading tests of $suite .." >&2
    quietly "$folder/said" fetch_sources || { rm -rf "$folder/sources" && exit 2; }
fi
mkdir -p "$root/sources"
mount --bind "$folder/sources" "$root/sources"
bind_root "$root" "$folder" "$lib"
# Runs a command in the root, which is no other one there: in a chroot no namespace of users can be made.
enter() {
    unshare -m --propagation private bash -c \
        'mount --rbind "$0" "$0" && cd "$0" && pivot_root . . && umount -l . && cd / && exec "$@"' "$root" "$@"
}

for of in theirs ours; do
    words=(PATH=/usr/sbin:/usr/bin HOME=/root)
    [ "$of" = theirs ] || words+=("LD_LIBRARY_PATH=$search")
    enter /usr/bin/env -i "${words[@]}" /here/tests/compare/libfuse/others.sh --inside "$it" | sort > "$folder/$it-$of"
done
echo "$it: with libfuse's own library $(grep -c ' passed$' "$folder/$it-theirs" || true) of" \
    "$(wc -l < "$folder/$it-theirs") passed, with the other $(grep -c ' passed$' "$folder/$it-ours" || true)"
[ -s "$folder/$it-ours" ] && diff "$folder/$it-theirs" "$folder/$it-ours"
