#!/usr/bin/env bash
# Does what docs/SHARE.md says, word for word, where systemd runs on a Debian with libvirt and QEMU, for test_system_package.py.
#
# Usage: tests/programs/system/page.sh FOLDER
# The folder has out/packages, and `kernel` and `files` of a guest, whose commands are those of the page. The time of
# each step is told. From nothing to a guest of QEMU that has read the folder are two minutes at most, as the page says,
# unless the machine has other work.
# Status 0: each came to what it must; 1: not so.
set -Eeuo pipefail
. "$(dirname "$0")/../../../tools/lib/usage.sh"
[ $# = 1 ] || { echo "Usage: tests/programs/system/page.sh FOLDER" >&2 && exit 2; }
here=$(cd "$(dirname "$0")/../../.." && pwd)
cd "$1"
folder=$PWD
console=/var/log/guest
trap 'echo "FAILED: line $LINENO: $BASH_COMMAND" >&2; tail -n 20 said $console /var/log/libvirt/qemu/*.log 2> /dev/null >&2' ERR

# A block of code of the page, in a section: block SECTION NUMBER.
block() {
    awk -v section="$1" -v wanted="$2" -f "$here/tests/programs/system/page.awk" "$here/docs/SHARE.md" | grep .
}

# Tells what was done, and how long that took: done_with WHAT [FROM].
# (in seconds, to microseconds)
first=$EPOCHREALTIME
began=$first
done_with() {
    awk -v began="${2:-$began}" -v ended="$EPOCHREALTIME" -v what="$1" 'BEGIN { printf "%7.1f s  %s\n", ended - began, what }'
    began=$EPOCHREALTIME
}

# Whether more wants to run than there are processors.
is_busy() {
    awk -v most="$(nproc)" '{ exit $1 <= most }' /proc/loadavg
}

# Whether the guest read and wrote, and nothing serves the folder any more but what listens.
guest_was_there() {
    tr -d '\r' < $console | grep -qx "The guest reads hello."
    tr -d '\r' < $console | grep -qx "By its fstab it reads hello."
    [ "$(cat /srv/data/of-guest)" = text ]
    rm /srv/data/of-guest $console
}

block Install 1 > commands
bash -e commands > said 2>&1
done_with "the packages are installed"

block "A mount" 1 | sed '/^umount /,$d' > commands
bash -e commands > said
grep -qx hello said
[ "$(findmnt -no FSTYPE /mnt)" = fuse.nizwarf-share ]
umount /mnt
cp /etc/fstab fstab
block "A mount" 2 >> /etc/fstab
systemctl daemon-reload
mount /mnt
grep -qx hello /mnt/hello
umount /mnt
# (or libvirt's service would have it mounted again)
cp fstab /etc/fstab
systemctl daemon-reload
done_with "the folder is mounted, by mount and by its line in fstab"

block QEMU 1 > commands
bash -e commands > said 2>&1
block QEMU 2 > commands
sed -i "\$s,\$, -nodefaults -no-user-config -display none -machine q35 -cpu max -kernel $folder/kernel -initrd $folder/files \
-append 'console=ttyS0 quiet panic=0 no_timer_check' -serial file:$console," commands
timeout 300 bash -e commands > said 2>&1
guest_was_there
done_with "a guest of QEMU"
done_with "from nothing to there" "$first"
[ "$((${began%.*} - ${first%.*}))" -le 120 ] || is_busy

# Has libvirt start a guest with a file of XML among its devices, which this program serves, and waits for its end:
# guest_of_libvirt FILE PROGRAM.
guest_of_libvirt() {
    cat > machine << XML
<domain type='qemu'><name>guest</name><memory unit='MiB'>256</memory><vcpu>1</vcpu>
<os><type arch='x86_64' machine='q35'>hvm</type><kernel>$folder/kernel</kernel><initrd>$folder/files</initrd>
<cmdline>console=ttyS0 quiet panic=0 no_timer_check</cmdline></os><cpu mode='maximum'/><on_poweroff>destroy</on_poweroff>
$(cat memory)
<devices>
$(cat "$1")
<serial type='file'><source path='$console'/></serial>
</devices></domain>
XML
    virsh -q create machine > said 2>&1
    # (that of systemd's socket has the descriptor 3)
    pgrep -f "^$2 (.* )?--fd=[0-9][0-9]" > seen
    for _ in $(seq 600); do
        virsh list --name | grep -qx guest || break
        sleep 0.5
    done
    guest_was_there
    for _ in $(seq 100); do
        pgrep -f "^$2 (.* )?--fd=[0-9][0-9]" > seen || return 0
        sleep 0.1
    done
    return 1
}

# (with the socket the server goes)
systemctl disable --now nizwarf-share@srv-data.socket 2> said
[ "$(systemctl is-active nizwarf-share@srv-data.service || true)" = inactive ]
systemctl start libvirtd.service > said 2>&1
block libvirt 1 > memory
block libvirt 2 > share
guest_of_libvirt share /usr/bin/nizwarf-share
done_with "a guest of libvirt"

if compgen -G "out/packages/virtiofsd-nizwarf_*.deb" > said; then
    apt-get install ./out/packages/virtiofsd-nizwarf_*.deb > said 2>&1
    # (the line that is changed is that of the program)
    binary=$(block "virtiofsd, with this layer" 1)
    sed "s,.*<binary .*,$binary," share > other
    grep -qF "$binary" other
    guest_of_libvirt other /usr/sbin/virtiofsd-nizwarf
    done_with "a guest of libvirt, by virtiofsd-nizwarf"
else
    echo "Not looked at: virtiofsd-nizwarf, which tools/virtiofsd.sh --package makes."
fi
