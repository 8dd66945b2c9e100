#!/usr/bin/env bash
# Tests nizwarf-share: by the tests of tests/programs that are about it, then by those that sanitizers can judge, of
# addresses and behaviour, and of threads. Last, tools/dev/lint.sh compares its sources with the rules of clang-tidy and
# cppcheck, if they are installed.
#
# Usage: tests/share/check.sh
# On a busy machine of four processors it takes 10 minutes for the program as it is, 5 and 19 with the sanitizers, and more
# for the last part. It requires root, /dev/fuse, python3-pytest, a C compiler and the Rattle toolchain. It links the
# proved library if that is built and no source is newer; otherwise tools/lib/unproved.sh builds it without a proof.
# Mounts over io_uring are tested if Linux offers that: echo Y > /sys/module/fuse/parameters/enable_uring
# Status 0: all was right; 1: not so; 2: it could not start.
set -euo pipefail
. "$(dirname "$0")/../../tools/lib/usage.sh"
. "$(dirname "$0")/../../tools/lib/transport.sh"
take_none "$@"
need_root "mounting requires root"
need_fuse
need pytest-3 "To install it: apt-get install python3-pytest"
status=0
part_count=4

# Runs the tests of a build of the program: run_tests FLAGS-OF-PYTEST.., with the flags of its compiler in `flags`.
run_tests() {
    build_transport share nizwarf_codec "${flags[@]}"
    NIZWARF_SHARE=$transport pytest-3 -q -p no:cacheprovider "$@" || status=1
}

cd "$here/tests"
flags=()
part "the program as it is"
run_tests programs/test_{command_line,ends,hostile,lock_stress,locks,memory,messages,migrating_sessions,migration,modes}.py \
    programs/test_{nodes,passthrough,sandbox,share_calls,share_mount,share_socket,virtiofsd_options,watch}.py
for sanitizer in address,undefined thread; do
    part "with the sanitizer $sanitizer"
    flags=(-g -O1 "-fsanitize=$sanitizer" -fno-sanitize-recover=all)
    if echo 'int main(void) { return 0; }' | cc -x c "${flags[@]}" -o "$here/out/c/program" - 2> /dev/null; then
        run_tests -m sanitizers programs
    else
        echo "The compiler lacks it." >&2
    fi
done
part "clang-tidy and cppcheck"
if command -v clang-tidy > /dev/null && command -v cppcheck > /dev/null; then
    "$here/tools/dev/lint.sh" || status=1
else
    echo "clang-tidy or cppcheck is not installed." >&2
fi
exit "$status"
