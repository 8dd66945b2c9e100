# For the scripts that mount as root: in a namespace of their own, below a folder that goes with them. They
# source usage.sh first.
# shellcheck shell=bash

# Runs the script anew where what it mounts is seen by nobody else, and ends with it: own_mounts "$@". The variable has
# the number of that namespace, so one that comes from elsewhere is not believed, and scripts that it starts stay in it.
own_mounts() {
    need unshare "To install it: apt-get install util-linux"
    need mountpoint "To install it: apt-get install util-linux"
    if [ "${NIZWARF_OWN_MOUNTS:-}" != "$(readlink /proc/self/ns/mnt)" ]; then
        # shellcheck disable=SC2016
        exec unshare --mount --propagation private \
            bash -c 'NIZWARF_OWN_MOUNTS=$(readlink /proc/self/ns/mnt) exec "$0" "$@"' "$0" "$@"
    fi
}

# Waits until a folder is mounted, a minute at most, since a machine may have other work. Where the process that mounts it
# is named, it fails as soon as that is gone: await_mounted FOLDER [PID].
await_mounted() {
    local until=$((SECONDS + 60))
    while ! mountpoint -q "$1"; do
        [ "$SECONDS" -lt "$until" ] && { [ -z "${2:-}" ] || kill -0 "$2" 2> /dev/null; } || return 1
        sleep 0.05
    done
}

# Makes the folder `work`. When the script ends, the process `server` is ended, if there is one, what is
# mounted below the folder unmounted, and the folder removed with what else is named: own_work [FOLDER].
own_work() {
    work=$(mktemp -d)
    work_too=${1:-}
    # (other users look below it)
    chmod 755 "$work"
    trap 'tidy_work 2> /dev/null || true' EXIT
}

# shellcheck disable=SC2317
tidy_work() {
    [ -z "${server:-}" ] || kill "$server"
    # (the inner ones first, and each out of sight at once, even if something has it open)
    awk -v below="$work/" 'index($2 "/", below) == 1 { print $2 }' /proc/self/mounts | sort -r | xargs -r umount -l
    # (so what could not be unmounted keeps its files)
    rm -rf --one-file-system "$work" ${work_too:+"$work_too"}
}
