#!/usr/bin/env bash
# Does what the manual pages of the programs show as examples, where the packages are installed, for test_system_package.py.
#
# Usage: tests/programs/system/pages.sh FOLDER
# Where the folder has a `kernel`, and files of guests, whose commands are those of the pages, QEMU's are done too.
# Status 0: each came to what it must; 1: not so.
set -Eeuo pipefail
. "$(dirname "$0")/../../../tools/lib/usage.sh"
. "$(dirname "$0")/../../../tools/lib/mounts.sh"
[ $# = 1 ] || { echo "Usage: tests/programs/system/pages.sh FOLDER" >&2 && exit 2; }
here=$(cd "$(dirname "$0")/../../.." && pwd)
cd "$1"
folder=$PWD
trap 'echo "FAILED: line $LINENO: $BASH_COMMAND" >&2; tail -n 20 came $folder/console 2> /dev/null >&2' ERR
mkdir -p /srv/data
echo hello > /srv/data/hello

# What a page shows.
shown() {
    awk -v commands=yes -f "$here/packaging/examples.awk" "$here/packaging/man/$1"
}

# Mounts by a command of a page, which serves until it is unmounted by the other one: mounted LOOK COMMAND UNMOUNT.
mounted() {
    bash -c "exec $2" > came 2>&1 &
    await_mounted /mnt $!
    $1
    bash -ec "$3"
    wait $!
}
# Whether the folder is shared there.
has_hello() {
    grep -qx hello /mnt/hello
}
# Whether the tree has the page's size, and can be written.
has_64_mib() {
    [ "$(df --output=size -m /mnt | tail -n 1)" -eq 64 ]
    touch /mnt/file
}

# Serves a guest by commands of a page, which are read: a server first, whose socket it waits for, and QEMU.
serve_guest() {
    sed -e "s,qemu-system-x86_64 \.\.\.,& -nodefaults -no-user-config -display none -machine q35 -cpu max -kernel $folder/kernel \
-initrd $folder/$1 -append 'console=ttyS0 quiet panic=0 no_timer_check' -serial file:$folder/console," \
        -e 's,^nizwarf.*[ =]\(/run/.*socket\|/run/.*sock\).* &$,&\nuntil [ -S \1 ]; do sleep 0.1; done,' \
        -e 's, \.\.\. , ,' -e '$a\kill %1; wait %1' > commands
    rm -f console
    timeout 300 bash -emc ". ./commands" > came 2>&1
    tr -d '\r' < console | grep -qx "It wrote text."
}

shown nizwarf-decode.1 > commands
bash -e commands > came 2>&1
grep -q READDIR came
shown nizwarf-demo.1 > commands
bash -e commands > came 2>&1
grep -q STATFS came
mapfile -t lines < <(shown nizwarf-mount.8)
mounted has_64_mib "${lines[@]}"
mapfile -t lines < <(shown nizwarf-share.8)
mounted has_hello "${lines[0]}" "umount /mnt"
echo "${lines[1]}" > fstab
mount -T fstab /mnt
has_hello
umount /mnt
echo "Pages: what they show of mounts, a session and a trace comes to what it must."
if [ -e kernel ]; then
    shown nizwarf-share.8 | sed '1,2d' | serve_guest files
    tr -d '\r' < console | grep -qx "The guest reads hello."
    shown nizwarf-vhost.1 | sed '/^mount /d' | serve_guest files-of-vhost
    echo "Pages: guests of QEMU, by nizwarf-share and by nizwarf-vhost."
fi
