#!/usr/bin/env bash
# nizwarf-share by the words of libfuse's passthroughs, for test_libfuse_cases.py.
#
# Usage: tests/programs/passthrough.sh SHARE NAME [WORDS] [FOLDER] MOUNTPOINT
# A passthrough_hp mounts the folder, and a passthrough_ll all that there is: a copy of it, since nizwarf-share refuses
# what its mount point is in. Locks are the host's.
set -euo pipefail
. "$(dirname "$0")/../../tools/lib/usage.sh"

[ $# -ge 3 ] || { echo "Usage: tests/programs/passthrough.sh SHARE NAME [WORDS] [FOLDER] MOUNTPOINT" >&2 && exit 2; }
share=$1 name=$2 words=(--flock --posix-lock --xattr --log-level=warn -o "suid,dev,allow_other")
at_once=entry_timeout=0,attr_timeout=0 folders=()
for word in "${@:3}"; do
    # Words of libfuse's passthroughs, and what says the same here; others are of no meaning here.
    case $word in
        --nocache) words+=(--cache=never) ;;
        timeout=0) words+=(-o "$at_once") ;;
        writeback) words+=(--writeback) ;;
        --sandbox=* | --seccomp=*) words+=("$word") ;;
        -*) ;;
        *) folders+=("$word") ;;
    esac
done
if [[ $name == *_ll ]]; then
    # (the runner's own folder for a case, which it unmounts and removes)
    all=$(mktemp -d -p "$TEST_TMP")
    mount --bind / "$all"
    mount --make-private "$all"
    folders=("$all" "${folders[@]}")
fi
# (what mounts is of the runner, which ends it)
exec "$share" "${words[@]}" "${folders[@]}"
