# Sourced by check.sh and rust/check.sh: tests of programs that serve the file `hello` as examples/c/hello.c
# does. `folder` is a temporary folder, and `steps` how many there are.
# shellcheck shell=bash
. "$(dirname "${BASH_SOURCE[0]}")/../tools/lib/mounts.sh"
step_number=0

# Runs a command, and prints its output only if it fails: step "NAME" COMMAND..
step() {
    local name=$1
    shift
    step_number=$((step_number + 1))
    # shellcheck disable=SC2154
    echo "$step_number of $steps: $name" >&2
    # shellcheck disable=SC2154
    if ! "$@" > "$folder/said" 2>&1; then
        tail -n 100 "$folder/said" >&2
        echo "FAILED: $name" >&2
        exit 1
    fi
}

# Tells why this many steps are left out: skip COUNT "WHY"
skip() {
    step_number=$((step_number + $1))
    echo "$2" >&2
}

# Tests a program with tests/lib/hello_client.py, which runs it as `PROGRAM --fd N`.
ask_hello() {
    # shellcheck disable=SC2154
    timeout 60 python3 -B "$here/tests/lib/hello_client.py" "$1"
}

# Runs a program that mounts the file on `$folder/mount`, uses the mount, and unmounts it:
# use_mount PROGRAM WORD..
use_mount() {
    local server hello=$folder/mount/hello
    mkdir -p "$folder/mount"
    timeout 60 "$@" &
    server=$!
    await_mounted "$folder/mount" "$server" || return 1
    [ "$(ls "$folder/mount")" = hello ] && [ "$(cat "$hello")" = 'Hello, world!' ] \
        && [ "$(stat -c '%a %s' "$hello")" = '444 14' ] && [ "$(dd if="$hello" bs=5 skip=1 status=none)" = ', world!' ] \
        && ! cat "$folder/mount/none" && ! echo text >> "$hello" && umount "$folder/mount" && wait "$server"
}

# Does so while each third read of the device fails, as if its request had been aborted:
# check_aborted NAME PROGRAM WORD..
check_aborted() {
    local abort=(strace -f -qq -o "$folder/calls" -P /dev/fuse -e "inject=read:error=ENOENT:when=2+3")
    if command -v strace > /dev/null; then
        step "$1, mounted, and requests are aborted" use_mount "${abort[@]}" "${@:2}"
    else
        skip 1 "strace is not installed, so no request is aborted: apt-get install strace."
    fi
}

# Mounts the program `hello` as another user, with the libraries that it needs, and unmounts it as mount_hello.sh does:
# mount_as_other END HELLO LIBRARY..
mount_as_other() {
    mkdir -p "$folder/other/dev" "$folder/other/mount"
    cp "${@:2}" "$folder/other"
    # (mktemp's folder is root's alone)
    chmod -R 755 "$folder"
    chown 65534:65534 "$folder/other/mount"
    LD_LIBRARY_PATH=$folder/other timeout 60 unshare -m "$here/bindings/mount_hello.sh" "$folder/other" "$1" \
        setpriv --reuid=65534 --regid=65534 --clear-groups
}

# Does so if it is possible: check_other NAME END HELLO LIBRARY..
check_other() {
    if may_mount && command -v fusermount3 > /dev/null && command -v setpriv > /dev/null; then
        step "$1, mounted by another user, unmounted by $2" mount_as_other "${@:2}"
    else
        skip 1 "$1 is not mounted by another user: this needs root, /dev/fuse, mountpoint, fusermount3 and setpriv."
    fi
}

# Whether the programs can mount.
may_mount() {
    [ "$(id -u)" = 0 ] && [ -e /dev/fuse ] && command -v mountpoint > /dev/null
}

# Unmounts, and removes the folder.
clean_up() {
    umount -l "$folder/mount" 2> /dev/null || true
    rm -rf "$folder"
}
