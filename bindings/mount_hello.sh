#!/usr/bin/env bash
# Mounts the file `hello` by a program, as another user, for hello.sh, in a namespace of mounts of its own.
#
# Usage: bindings/mount_hello.sh FOLDER END USER..
# FOLDER has the program, as `hello`, and the folders `dev` and `mount`. END is what unmounts it: fusermount3, or SIGTERM,
# which the program gets. USER.. are the words that run a command as the user, who may open /dev/fuse here alone, and mounts
# by fusermount3.
# Status 0: the file was read, and the program ended when it was unmounted.
set -euo pipefail
. "$(dirname "$0")/../tools/lib/usage.sh"
[ $# -ge 3 ] || { echo "Usage: bindings/mount_hello.sh FOLDER END USER.." >&2 && exit 2; }
cd "$1"
end=$2
shift 2
# The folder is another user's, and the device is of the machine: both are mounted in this namespace alone.
mount -t tmpfs none dev
mknod -m 666 dev/fuse c 10 229
mount --bind dev/fuse /dev/fuse
"$@" ./hello mount &
server=$!
trap 'kill $server 2> /dev/null || true' EXIT
# A minute at most. (mountpoint(1) asks the mount itself, which lets nobody else in, not even root)
for _ in $(seq 1200); do
    ! grep -qF "$PWD/mount " /proc/self/mountinfo || break
    kill -0 "$server"
    sleep 0.05
done
[ "$("$@" cat mount/hello)" = "Hello, world!" ]
if [ "$end" = fusermount3 ]; then
    "$@" fusermount3 -u mount
else
    kill "$server"
fi
wait "$server"
# (its number may be another process's from here on)
trap - EXIT
if grep -F "$PWD/mount " /proc/self/mountinfo; then
    exit 1
fi
