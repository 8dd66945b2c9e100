#!/usr/bin/env bash
# Replays requests with the program vfs_demo.
#
# Usage: tools/replay.sh [--bytes] LINES [EXPECTED]
#
# LINES is a file with a request in each line. It prints the lines and their replies, and below each the fields of the message,
# by the program vfs_decode. The first line may be `limit N`, which has no reply. An invalid line ends the session with status 2.
#
#   --bytes   print only the replies, as vfs_demo writes them
#   EXPECTED  a file of replies: print only the first reply that differs, with its request
#
# It runs the proved programs if they are built and no source is newer. Otherwise it builds them without a proof, which takes
# a minute, and keeps them, so that later runs take a second.
# Exit status 0: each line was replied to, as in EXPECTED if that is given; 1: a reply differs; 2: a line or an argument is
# invalid.
set -euo pipefail
. "$(dirname "$0")/lib/usage.sh"
. "$(dirname "$0")/lib/messages.sh"

bytes=
if [ "${1:-}" = --bytes ]; then
    bytes=yes
    shift
fi
if [ $# -lt 1 ] || [ $# -gt 2 ] || [[ $1 == -* ]]; then
    echo "Usage: tools/replay.sh [--bytes] LINES [EXPECTED]" >&2
    exit 2
fi
for file in "$@"; do
    if [ ! -r "$file" ]; then
        echo "replay.sh: cannot read '$file'" >&2
        exit 2
    fi
done
lines=$(realpath "$1")
expected=${2:+$(realpath "$2")}

# (vfs_decode is only needed to show messages)
programs=(vfs_demo)
if [ -z "$expected" ] && [ -z "$bytes" ]; then
    programs+=(vfs_decode)
fi
build_programs "${programs[@]}"

answers=$(mktemp)
trap 'rm -f "$answers"' EXIT
status=0
"$(path_of vfs_demo)" < "$lines" > "$answers" || status=$?

if [ -z "$expected" ]; then
    if [ -n "$bytes" ]; then
        cat "$answers"
    else
        show "$lines" "$answers"
    fi
    exit "$status"
fi

if cmp -s "$answers" "$expected"; then
    echo "$(wc -l < "$expected") replies are as expected."
    exit
fi

# (cmp prints `.. differ: byte N, line M`; or `EOF on ..` if one is the beginning of the other, and then the next line
# differs)
at=$(cmp "$answers" "$expected" 2>&1 | sed -nE 's/.* line ([0-9]+)$/\1/p') || true
if [ -z "$at" ]; then
    at=$(($(wc -l < "$answers") + 1))
fi

# A first line that sets the limit has no reply, unless it is invalid.
asked=$at
if [[ $(head -n 1 "$lines") == 'limit '* && $(head -n 1 "$answers") != 'bad line 1' ]]; then
    asked=$((at + 1))
fi
{
    echo "The first difference is in reply $at, to line $asked (status $status)."
    echo "request:  $(sed -n "${asked}p" "$lines")"
    echo "reply:    $(sed -n "${at}p" "$answers")"
    echo "expected: $(sed -n "${at}p" "$expected")"
} >&2
exit 1
