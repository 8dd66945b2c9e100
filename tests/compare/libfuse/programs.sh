#!/usr/bin/env bash
# Mounts a tree by a program that links libfuse3, unchanged, with a library of it; and compares what is read
# through the mount with the tree. tests/compare/libfuse/programs.txt has the programs.
#
# Usage: tests/compare/libfuse/programs.sh [--suite SUITE] LIB FOLDER PROGRAM
# LIB is the folder with the library, or `-` for the machine's own. FOLDER gets what it makes, and is made anew. A line
# says whether the trees are equal by `diff -r`, and whether the program that served has that library in its memory; if it
# writes, a tree is written through the mount, and compared.
#
# With --suite the program is that of another suite of Debian, as sid, in a folder beside FOLDER: apt-get downloads
# all of them by lists of its own, 70 MB, and they are unpacked and run there, and never installed.
#
# Root only, in a mount namespace of its own.
# Status 0: the trees are equal; 1: not so; 2: it could not start.
set -euo pipefail
. "$(dirname "$0")/../../../tools/lib/usage.sh"
. "$(dirname "$0")/../../../tools/lib/mounts.sh"

# Tells how it is used, and stops.
usage() {
    echo "Usage: tests/compare/libfuse/programs.sh [--suite SUITE] LIB FOLDER [PROGRAM" >&2
    exit 2
}

given=("$@") suite=''
if [ "${1:-}" = --suite ]; then
    [[ ${2:-} =~ ^[a-z]+$ ]] || usage
    suite=$2
    shift 2
fi
[ $# = 3 ] || usage
need_root "mounting requires root"
own_mounts "${given[@]}"
here=$(cd "$(dirname "$0")/../../.." && pwd)
list=$here/tests/compare/libfuse/programs.txt
lib=$1 folder=$(realpath -m "$2") program=$3

# A field of a program: field PROGRAM NUMBER
field() {
    local fields
    IFS='|' read -ra fields < <(grep "^$1 |" "$list")
    # (fields are between bars, with blanks around them)
    sed 's/^ *//; s/ *$//' <<< "${fields[$2 - 1]:-}"
}

# Runs this script in a root of the suite, with what it reads there.
enter() {
    local root search wanted
    . "$here/tools/lib/debian.sh"
    . "$here/tools/lib/libfuse.sh"
    read -ra wanted <<< "$(sed -nE 's/^[a-z][^|]*\|([^|]*)\|.*/\1/p' "$list" | paste -sd ' ')"
    root=$(dirname "$folder")/programs-$suite
    [ -e "$root" ] || { echo "Downloading programs of $suite .." >&2 &&
        quietly "$root.said" unpack_root "$root" "$suite" "${wanted[@]}"; } || exit 2
    bind_root "$root" "$folder" "$lib"
    exec chroot "$root" /usr/bin/env -i PATH=/usr/sbin:/usr/bin "NIZWARF_OWN_MOUNTS=$NIZWARF_OWN_MOUNTS" HOME=/root \
        /here/tests/compare/libfuse/programs.sh "${search:--}" /work/it "$program"
}

# Ends the server of serve_ssh, which removes its file as it ends.
end_ssh() {
    [ ! -e "$folder/sshd.pid" ] || kill "$(cat "$folder/sshd.pid")"
}

[ -z "$suite" ] || enter
trap 'end_ssh 2> /dev/null || true' EXIT
[ "$lib" = - ] || export LD_LIBRARY_PATH=$lib
rm -rf "$folder"
mkdir -p "$folder/tree" "$folder/mnt" "$folder/work"
cd "$folder"

# A tree with what a tree may have: many names, long ones, links, modes, a file of some megabytes, an empty one.
fill() {
    local to=$1 i
    mkdir -p "$to/many" "$to/a/b/c"
    for i in $(seq 200); do echo "$i" > "$to/many/$i"; done
    head -c 3000001 /dev/urandom > "$to/a/large"
    : > "$to/a/b/empty"
    # (a name of 200 letters)
    echo text > "$to/a/b/c/$(printf 'n%.0s' {1..200})"
    ln -s ../a/large "$to/many/link"
    chmod 600 "$to/many/7"
    chmod 755 "$to/many/8"
}

# Whether a process that serves has this library in its memory.
has_library() {
    local maps
    [ "$lib" != - ] || { echo own && return; }
    for maps in /proc/[0-9]*/maps; do
        ! grep -qsF "$lib/libfuse3.so" "$maps" || { echo here && return; }
    done
    echo "not here"
}

# A server for sshfs, at a port that it writes to the file `port`. (It reads no link of such a server, with libfuse's
# own library either.)
serve_ssh() {
    mkdir -p /run/sshd
    ssh-keygen -q -t ed25519 -N '' -f key
    ssh-keygen -q -t ed25519 -N '' -f host
    cp key.pub allowed
    for _ in {1..50}; do
        # (it ends where another one has that)
        echo $((20000 + RANDOM)) > port
        printf '%s\n' "HostKey $folder/host" "AuthorizedKeysFile $folder/allowed" "StrictModes no" \
            "PidFile $folder/sshd.pid" "UsePAM no" "Subsystem sftp internal-sftp" \
            "ListenAddress 127.0.0.1:$(cat port)" > config
        ! /usr/sbin/sshd -f config || { rm served/many/link && return; }
    done
    return 1
}

# Mounts the tree by a program, and compares it.
read_by() {
    local came=equal where bad=''
    rm -rf served
    cp -a tree served
    if ! (unset LD_LIBRARY_PATH && eval "$(field "$program" 3)") > said 2>&1 ||
        ! eval "$(field "$program" 4)" > said 2>&1 || ! await_mounted "$folder/mnt"; then
        echo "$program: it did not mount: $(tail -n 1 said)"
        end_ssh
        return 1
    fi
    where=$(has_library)
    diff -r --no-dereference served mnt > differs 2>&1 ||
        { bad=yes && came="not equal: $(head -n 1 differs)"; }
    if [ "$(field "$program" 5)" = writes ]; then
        if cp -a tree/a mnt/written > differs 2>&1 && diff -r --no-dereference tree/a mnt/written > differs 2>&1; then
            came="$came, written too"
        else
            bad=yes came="$came, but not what was written: $(head -n 1 differs)"
        fi
    fi
    # (one that is busy goes once it isn't)
    umount mnt || umount -l mnt
    end_ssh
    echo "$program: $came, library $where"
    [ -z "$bad" ] && [ "$where" != "not here" ]
}

if ! command -v "$program" > /dev/null ||
    { [ "$(field "$program" 3)" = serve_ssh ] && [ ! -x /usr/sbin/sshd ]; }; then
    echo "requires $program: apt-get install $(field "$program" 2)" >&2
    exit 2
fi
# (as some do on an older Debian)
if grep -qF libfuse.so.2 "$(command -v "$program")"; then
    echo "requires a $program that links libfuse 3, as LIBFUSE_SUITE=sid has it" >&2
    exit 2
fi
fill tree
read_by
