#!/usr/bin/env bash
# Mounts and serves folders where systemd runs and nizwarf-share is installed, for test_system_package.py.
#
# Usage: tests/programs/system/inside.sh FOLDER
# The folder is for its files.
# Status 0: each came to what it must; 1: not so.
set -euo pipefail
. "$(dirname "$0")/../../../tools/lib/usage.sh"
[ $# = 1 ] || { echo "Usage: tests/programs/system/inside.sh FOLDER" >&2 && exit 2; }
here=$(cd "$(dirname "$0")/../../.." && pwd)
cd "$1"
work=$PWD
kind=fuse.nizwarf-share
trap 'echo "FAILED: line $LINENO: $BASH_COMMAND" >&2' ERR

# The options of what is mounted there.
options() {
    findmnt -no OPTIONS -t "$kind" "$1"
}
# Where nothing is mounted, or nothing is at all.
no_mount() {
    fails 32 mountpoint -q "$1"
}
# Whether there is no such path.
is_gone() {
    fails 1 test -e "$1"
}
# Until no server is there, half a minute at most.
await_end() {
    for _ in $(seq 600); do
        [ -n "$(pgrep -f "^[^ ]*$1")" ] || return 0
        sleep 0.05
    done
    pgrep -af "^[^ ]*$1" >&2
    return 1
}
# Whether a command fails with a status: fails STATUS COMMAND..
fails() {
    local status=0
    "${@:2}" 2> "$work/why" || status=$?
    [ "$status" = "$1" ] || { echo "$* came to $status" >&2 && cat "$work/why" >&2 && return 1; }
}

mkdir -p "a b,c" ./-x one two three four
chmod 755 . .. one
echo text > "a b,c/file"
cat > fstab << LINES
$work/a\040b,c $work/one $kind defaults,allow_other,nofail,_netdev,x-systemd.mount-timeout=9,comment=of_us,thread_pool_size=2,cache=always 0 0
$work/-x $work/two $kind ro,user,noauto,X-of=us 0 0
$work/none $work/three $kind nofail 0 0
LINES
mount -a -T fstab
[ "$(options one)" = "$(options "$work/one")" ]
[[ $(options one) == rw,nosuid,nodev,*allow_other* ]]
[ "$(su -s /bin/sh nobody -c "cat $work/one/file")" = text ]
no_mount two
no_mount three
# What is mounted is not mounted again.
mount -a -T fstab
[ "$(findmnt -nt "$kind" | wc -l)" = 1 ]
mount -T fstab "$work/two"
[[ $(options two) == ro,nosuid,nodev,noexec,* ]]
fails 1 touch two/file
# Nothing that was open before the server stays so, nor the folder that it was started in.
for process in $(pgrep -f "^[^ ]*mount.fuse.nizwarf-share $work/-x"); do
    [ "$(readlink "/proc/$process/cwd")" != "$work" ]
done
umount "$work/two"
mount -T fstab -o remount,ro "$work/one"
[[ $(options one) == ro,* ]]
fails 1 touch one/file
mount -o remount,rw,noexec "$work/one"
[[ $(options one) == rw,*noexec* ]]
touch one/made
# (all of this kind)
umount -a -t "$kind"
await_end mount.fuse.nizwarf-share
echo "Lines of fstab(5) are mounted, changed and unmounted."

# A folder may begin with any sign; what can't be is refused; by -f nothing is done, by -s what is none let pass.
mount -t "$kind" -- -x "$work/two"
umount two
fails 2 mount -t "$kind" -o nonsense "$work/-x" "$work/two"
fails 2 mount -t "$kind" -o thread_pool_size "$work/-x" "$work/two"
fails 2 mount -t "$kind" -o socket_path=two "$work/-x" "$work/two"
fails 2 mount -t "$kind" "$work/none" "$work/two"
fails 2 su -s /bin/sh nobody -c "mount -T $work/fstab $work/two"
mount -f -t "$kind" "$work/-x" "$work/two"
no_mount two
mount -s -t "$kind" -o nonsense "$work/-x" "$work/two" 9> "$work/open"
[ -z "$(find /proc/[0-9]*/fd -lname "$work/open" 2> /dev/null)" ]
umount two
await_end mount.fuse.nizwarf-share
echo "mount -t: what is given is taken, or refused."

# systemd mounts by the lines that it reads.
cat fstab >> /etc/fstab
systemctl daemon-reload
unit=$(systemd-escape --path --suffix=mount "$work/one")
systemctl start "$unit"
[[ $(options one) == rw,*allow_other* ]]
systemctl stop "$unit"
no_mount one
await_end mount.fuse.nizwarf-share
echo "systemd: a line of fstab(5) is mounted and unmounted."

# Of a folder with any name there is a socket, and who connects is served.
# shellcheck disable=SC2016
folder='/srv/of "us" $HOME %n'
mkdir -p "$folder"
unit=nizwarf-share@$(systemd-escape --path "$folder")
man=$(! command -v man > /dev/null || echo yes)
systemd-analyze verify --man="${man:-no}" --recursive-errors=no "$unit.socket" "$unit.service"
systemctl start "$unit.socket"
socket="/run/nizwarf-share/${unit#*@}.sock"
[ "$(stat -c '%a %U' "$socket")" = "600 root" ]
[ "$(systemctl is-active "$unit.service" || true)" = inactive ]
python3 -B "$here/tests/programs/system/connected.py" "$socket" "$folder"
[ "$(systemctl is-active "$unit.service")" = active ]
rm "$folder/file"
python3 -B "$here/tests/programs/system/connected.py" "$socket" "$folder"
systemctl stop "$unit.socket" "$unit.service"
is_gone "$socket"
await_end nizwarf-share
# A group may have the socket, and the server more words, as the page and the unit say.
# What `systemctl edit UNIT` would write: put_edit UNIT < LINES
put_edit() {
    mkdir -p "/run/systemd/system/$1.d"
    cat > "/run/systemd/system/$1.d/edit.conf"
}
printf '%s\n' '[Socket]' SocketGroup=nogroup SocketMode=0660 | put_edit "$unit.socket"
printf '%s\n' '[Service]' 'Environment="OPTIONS=--cache=always --xattr"' | put_edit "$unit.service"
systemctl daemon-reload
systemctl start "$unit.socket"
[ "$(stat -c '%a %G' "$socket")" = "660 nogroup" ]
rm "$folder/file"
python3 -B "$here/tests/programs/system/connected.py" "$socket" "$folder"
pgrep -f "^/usr/bin/nizwarf-share --fd=3 --cache=always --xattr \." > seen
systemctl stop "$unit.socket" "$unit.service"
await_end nizwarf-share
cp /usr/lib/systemd/system/nizwarf-share@.service nizwarf-share@srv.service
systemd-analyze security --offline=true --threshold=35 --no-pager "$work/nizwarf-share@srv.service" | tail -n 1
echo "systemd: a folder is served to who connects, and no more once it is stopped."
