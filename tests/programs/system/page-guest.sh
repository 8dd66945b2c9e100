#!/bin/busybox sh
# The first program of the virtual machine that page.sh starts: it does what the page says of a guest, which is in
# /commands, reads the file of the host, writes one, mounts by a line of /etc/fstab, if there is one, and powers off.
# shellcheck shell=dash disable=SC2154
# shellcheck source=../../lib/guest-begin.sh
. /begin
sh -e /commands && echo "The guest reads $(cat /mnt/hello)." && echo text > /mnt/of-guest &&
    echo "It wrote $(cat /mnt/of-guest)." && umount /mnt
[ ! -s /etc/fstab ] || { mount /mnt && echo "By its fstab it reads $(cat /mnt/hello)." && umount /mnt; }
poweroff -f
