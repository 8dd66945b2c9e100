#!/usr/bin/env bash
# Runs the program vfs_demo on its stored session, and shows each request and its reply: the line that the program reads or
# writes, and below it the fields of the message, by the program vfs_decode.
#
# Usage: tools/demo.sh
# It runs the proved programs if they are built and no source is newer. Otherwise it builds them without a proof, which takes
# a minute, and keeps them, so that later runs take a second.
# Exit status 0: each reply is the stored one; 1: a reply differs; 2: it could not start.
set -euo pipefail
. "$(dirname "$0")/lib/usage.sh"
take_none "$@"
. "$(dirname "$0")/lib/messages.sh"

build_programs vfs_demo vfs_decode

answers=$(mktemp)
trap 'rm -f "$answers"' EXIT
# (a failure is reported after the output)
status=0
# shellcheck disable=SC2154
"$(path_of vfs_demo)" < "$crate/stdin" > "$answers" || status=$?
show "$crate/stdin" "$answers"
echo

if [ "$status" = 0 ] && cmp -s "$answers" "$crate/stdout"; then
    echo "Each reply is the stored one."
else
    echo "demo.sh: the status is $status, or replies differ from the stored ones:" >&2
    diff "$crate/stdout" "$answers" >&2 || true
    exit 1
fi
