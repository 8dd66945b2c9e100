#!/usr/bin/env bash
# Holds the sources of nizwarf-share, nizwarf-mount and nizwarf-vhost, in programs, against clang-tidy and
# cppcheck, and bindings/libfuse against clang-tidy, where tools/libfuse.sh built it: what they find is printed.
# tools/check.sh holds formats.
#
# Usage: tools/dev/lint.sh
# It wants clang-tidy and cppcheck, and libseccomp-dev for the sandbox of share.c.
# Status 0: nothing is found; 1: something is; 2: a program is missing.
set -euo pipefail
. "$(dirname "$0")/../lib/usage.sh"
. "$(dirname "$0")/../lib/program.sh"
take_none "$@"
need clang-tidy "To install it: apt-get install clang-tidy"
need cppcheck "To install it: apt-get install cppcheck"

# Left out: names that the C library asks for, as _GNU_SOURCE; arguments of one type beside each other; calls of
# the C library that only the last words before an end make; and what a kernel's style has otherwise.
checks='clang-analyzer-*,bugprone-*,concurrency-*,misc-*,performance-*,portability-*
    -bugprone-reserved-identifier,-bugprone-easily-swappable-parameters,-bugprone-assignment-in-if-condition
    -concurrency-mt-unsafe,-clang-analyzer-security.insecureAPI.DeprecatedOrUnsafeBufferHandling
    -performance-no-int-to-ptr'
flags=(-std=c11 -I "$here/include" -I "$here/programs/transport" -Wall -Wextra)
if cc -include seccomp.h -fsyntax-only -x c - < /dev/null 2> /dev/null; then
    flags+=(-DWITH_SECCOMP)
fi
shopt -s nullglob
sources=("$here"/programs/*/*.c)
part "clang-tidy over ${#sources[@]} files"
# (how many warnings it left out it tells on standard error, whatever is quiet)
clang-tidy --quiet --warnings-as-errors='*' "--checks=$(tr -s ' \n' , <<< "$checks")" "${sources[@]}" \
    -- "${flags[@]}" 2> >(grep -v 'warnings generated' >&2)
# Of libfuse's file only lines of what is here.
files='[{"name":"codec.h"},{"name":"replies.h"},{"name":"listings.h"},{"name":"notices.h"},{"name":"interrupts.h"},{"name":"requests.h"}]'
for built in "$here"/out/libfuse/*-nizwarf; do
    part "clang-tidy over bindings/libfuse, in ${built##*/}"
    clang-tidy --quiet --warnings-as-errors='*' "--checks=$(tr -s ' \n' , <<< "$checks")" "--line-filter=$files" \
        "$built/tree/lib/fuse_lowlevel.c" -- -std=gnu11 -D_GNU_SOURCE= -D_FILE_OFFSET_BITS=64 -DFUSE_USE_VERSION=317 \
        -I "$built/build" -I "$built/tree/include" -I "$built/tree/lib" -include fuse_config.h -Wall -Wextra \
        2> >(grep -v 'warnings generated' >&2)
done
part "cppcheck"
cppcheck --std=c11 --quiet --error-exitcode=1 --inline-suppr --enable=warning,performance,portability \
    -I "$here/include" -I "$here/programs/transport" -DWITH_SECCOMP "${sources[@]}"
echo "clang-tidy and cppcheck find nothing in ${#sources[@]} files."
