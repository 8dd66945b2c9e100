#!/bin/busybox sh
# The first program of the virtual machine that tools/guest.sh boots: it mounts what is shared, and runs session.sh
# there. It unmounts it, mounts it again and removes all, as it does after a reboot: then nothing may be in use but the
# root. It powers off when it has done all that a person does once more. /settings has `modules`, which the kernel
# needs, and `shared`: --shared if a folder of the host is shared, of which it is not known what is in use.
# shellcheck shell=dash disable=SC2154
# shellcheck source=../lib/guest-begin.sh
. /begin
echo "Linux $(uname -r)"

# Nodes and KiB in use.
used() {
    echo "$(df -i /mnt | awk 'END { print $3 }') $(df -k /mnt | awk 'END { print $3 }')"
}

# The same is in use as when the files were made. The kernel forgets a while after it removed.
is_empty() {
    [ -z "$shared" ] || return 0
    for _ in 1 2 3 4 5; do
        [ "$(used)" != "$made" ] || break
        sleep 1
    done
    if [ "$(used)" = "$made" ]; then
        echo "  ok     $1"
    else
        echo "  WRONG  $1"
        echo "         wanted: $made nodes and KiB in use"
        echo "         came:   $(used)"
    fi
}

# Files that the kernel then knows all of.
fill() {
    mkdir -p /mnt/one/two && head -c 100000 /dev/zero > /mnt/one/two/three && ls -lR /mnt > /tmp/list
}

mount -t virtiofs nizwarf /mnt || poweroff -f
# The file tells of the time before the reboot.
if [ ! -e /mnt/made ]; then
    made=$(used)
    # (of a tree the root alone)
    [ "$shared${made% *}" = 1 ] || [ -n "$shared" ] || echo "WRONG: $made nodes and KiB are in use at first"
    sh /session.sh ${shared:+"$shared"} /mnt
    is_empty 'nothing is in use after it'
    # It forgets what it has of a file, and asks for it anew.
    echo again > /mnt/a
    # (3: pages, names and inodes)
    echo 3 > /proc/sys/vm/drop_caches
    [ "$(cat /mnt/a)" = again ] && rm /mnt/a || echo 'WRONG: a file is another one'
    fill
    umount /mnt && mount -t virtiofs nizwarf /mnt && rm -r /mnt/one
    is_empty 'nothing is in use after it was unmounted, mounted and emptied'
    fill
    echo "$made" > /mnt/made
    sync
    echo 'The guest reboots.'
    reboot -f
fi
made=$(cat /mnt/made)
rm -r /mnt/made /mnt/one
is_empty 'nothing is in use after a reboot, once it was emptied'
sh /session.sh ${shared:+"$shared"} /mnt
umount /mnt && echo 'The guest unmounted it.'
poweroff -f
