#!/usr/bin/env bash
# Refuses each request for memory of the built programs test_sessions and vfs_demo, one a run, and
# looks at how that run ends: until one meets no refusal.
#
# After its line `refusals` test_sessions makes calls one after another, each in a part of its own
# (crates/test_sessions/src/refusals.rt has their form). Of the allocations of a part one is refused.
# That part is right where it ends in one of these ways, and all others where they are those of a
# run that is refused nothing:
#
# - a reader or a writer: `OutOfMemory`, with the same counts as before;
# - the server: `OutOfMemory`, with no call, and with room and options as before; in a session that
#   outcome alone;
# - the file system: an ENOMEM reply, the room after it and the options as before; the call is the
#   same, and its answer ENOMEM.
#
# The lines of vfs_demo's stored session are parts too, by one server over files in memory. What is
# answered after a refused one is what a session without that line answers: nothing was moved.
# After them comes a LOOKUP of `a` twice, cut after its header, which wants no memory, and inside
# its name, which wants it once.
#
# vfs_demo answers its stored session. Any of its allocations is refused, and a run ends as above, or
# the program itself wants memory: status 4, and `out of memory` after some of the answers.
#
# Usage: tests/allocations/check.sh
# It wants both programs built and as new as the sources, as `rt ci` leaves them, a C compiler and
# Python, and takes seconds. Status 0: all runs ended so, and their counts are printed.
set -eu
. "$(dirname "$0")/../../tools/lib/usage.sh"
take_none "$@"
need "${CC:-cc}" "To install it: apt-get install gcc libc6-dev"
need python3 "To install it: apt-get install python3"
cd "$(dirname "$0")/../.."

folder=$(mktemp -d)
trap 'rm -rf "$folder"' EXIT
# (put before the C library by LD_PRELOAD: it counts and refuses)
"${CC:-cc}" -shared -fPIC -O2 -o "$folder/refuse_allocation.so" tests/allocations/refuse_allocation.c -ldl

python3 -B tests/allocations/refuse.py "$folder"
