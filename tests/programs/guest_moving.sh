#!/bin/busybox sh
# The first program of the virtual machine that test_guest.py moves: it reads on in a file, writes on in another,
# lists a directory and makes files, two hundred times.
# shellcheck shell=dash disable=SC2154,SC2012
# shellcheck source=../lib/guest-begin.sh
. /begin
echo "Linux $(uname -r)"
mount -t virtiofs nizwarf /mnt || poweroff -f
cd /mnt/d || poweroff -f
# (open from before the machine moves until after it)
exec 3< lines 4>> written
for i in $(seq 1 200); do
    read -r line <&3
    [ "$line" = "line $i" ] || echo "WRONG: it reads '$line' at $i"
    echo "written $i" >&4 || echo "WRONG: it can't write at $i"
    [ "$(ls many | wc -l)" = 500 ] || echo "WRONG: a list at $i"
    echo new > "new$i" && [ "$(cat "new$i")" = new ] || echo "WRONG: a new file at $i"
    # (test_guest.py waits for the first of these)
    [ $((i % 20)) != 0 ] || echo "step $i"
done
[ "$(wc -l < written)" = 200 ] || echo "WRONG: $(wc -l < written) lines were written"
exec 3<&- 4>&-
cd /
umount /mnt && echo 'The guest unmounted it.'
poweroff -f
