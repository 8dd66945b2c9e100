#!/usr/bin/env bash
# Boots a virtual machine that mounts the file system in memory over virtio-fs, uses it as a person would, also after a
# reboot, and powers off: tests/programs/guest_init.sh. Its console is printed, and tests/programs/test_guest.py tests it.
#
# Usage: tools/guest.sh [--share | --virtiofsd] [KERNEL-PACKAGE[/SUITE]]
#
#   --share      the guest mounts a directory of the host instead, which nizwarf-share serves, with the guest's writeback
#                cache; the numbers of df are not tested then
#   --virtiofsd  the same, served by the daemon of tools/virtiofsd.sh in its sandbox, which requires root
#
# The kernel is Debian's package linux-image-cloud-amd64, or KERNEL-PACKAGE, if SUITE is given of that suite of Debian, for
# example linux-image-cloud-amd64/trixie. The kernel and busybox are downloaded by apt-get and unpacked into out/guest, where
# the next run finds them. QEMU emulates the guest's one processor, so that /dev/kvm is not required. The guest's session is
# tests/programs/session.sh.
#
# It requires QEMU (apt-get install qemu-system-x86), xz, a C compiler and the Rattle toolchain, but not root. It links the
# proved library if that is built and no source is newer; otherwise tools/lib/unproved.sh builds it without a proof, which
# takes a minute. The transport, programs/vhost/vhost.c, is not proved.
# Exit status 0: the guest powered off; 1: it did not; 2: it could not start.
set -euo pipefail
. "$(dirname "$0")/lib/usage.sh"
. "$(dirname "$0")/lib/transport.sh"
. "$(dirname "$0")/lib/debian.sh"
. "$(dirname "$0")/lib/guest.sh"

shared='' by=''
if [ "${1:-}" = --share ] || [ "${1:-}" = --virtiofsd ]; then
    shared=--shared by=$1
    shift
fi
if [ $# -gt 1 ] || [[ ${1:-} == -* ]]; then
    echo "Usage: tools/guest.sh [--share | --virtiofsd] [KERNEL-PACKAGE[/SUITE]]" >&2
    exit 2
fi
need_x86_64
need qemu-system-x86_64 "To install it: apt-get install qemu-system-x86"
if [ "$by" = --virtiofsd ]; then
    transport=$("$here/tools/virtiofsd.sh")
elif [ -n "$shared" ]; then
    build_transport share nizwarf_codec
else
    build_transport vhost
fi

work=$(mktemp -d)
started=()
trap 'kill "${started[@]}" 2> /dev/null || true; rm -rf "$work"' EXIT

# shellcheck disable=SC2119
find_guest "$@"
root=$work/root
put_guest "$root" "$here/tests/programs/guest_init.sh"
cp "$here/tests/programs/session.sh" "$root/"
# shellcheck disable=SC2154
printf '%s\n' "modules='$modules'" "shared='$shared'" > "$root/settings"
pack_guest "$root" "$work/files"

# In the background, so that a signal ends this script at once, and its processes too.
words=("$work/socket") queues=2
if [ -n "$shared" ]; then
    # (in memory if possible, because the expected output is that of a tmpfs)
    folder=$(mktemp -d -p "$(if [ -d /dev/shm ]; then echo /dev/shm; else echo /tmp; fi)")
    trap 'kill "${started[@]}" 2> /dev/null || true; rm -rf "$work" "$folder"' EXIT
    chmod 755 "$folder"
    words=("--socket-path=$work/socket" --writeback --xattr "$folder")
    if [ "$by" = --virtiofsd ]; then
        # virtiofsd's directory is an option, and it has one queue for requests.
        words=("${words[@]::3}" --shared-dir "$folder" --killpriv-v2) queues=1
    fi
fi
# Half an hour is several times as long as an emulated guest takes.
timeout 1800 "$transport" "${words[@]}" &
transport_id=$!
started+=("$transport_id")
await_listener "$work/socket" "$transport_id"
began=$SECONDS
# (tail needs the file before QEMU creates it)
: > "$work/console"
timeout -k 5 1790 qemu-system-x86_64 -nodefaults -no-user-config -display none \
    -machine q35,accel=tcg -cpu max -smp 1 -m 256 \
    -object memory-backend-memfd,id=memory,size=256M,share=on -numa node,memdev=memory \
    -kernel "$kernel"/boot/vmlinuz-* -initrd "$work/files" -append 'console=ttyS0 quiet loglevel=3 panic=0 no_timer_check' \
    -serial "file:$work/console" -chardev "socket,id=socket,path=$work/socket" \
    -device vhost-user-fs-pci,queue-size=1024,num-request-queues=$queues,chardev=socket,tag=nizwarf < /dev/null &
guest_id=$!
started+=("$guest_id")
# (tail ends with QEMU)
tail -n +1 -f -s 0.2 --pid "$guest_id" "$work/console" &
shown_id=$!
started+=("$shown_id")
status=0
wait "$guest_id" || status=$?
wait "$shown_id" || true
# The transport does not end with QEMU.
kill -TERM "$transport_id" 2> /dev/null || true
wait "$transport_id" || status=$?
started=()
echo "$((SECONDS - began)) s"
[ "$status" = 0 ] || { echo "guest.sh: QEMU or the transport exited with status $status" >&2 && exit 1; }
