#!/usr/bin/env bash
# Counts the instructions of the C interface (include/nizwarf.h) to decode a request, and to decode it and encode its reply,
# for some requests in one segment: a table row for each class. The columns with -flto are those of a program that is linked
# with the library statically and by link-time optimisation, which inlines the library's C files.
#
# Usage: tools/measure/codec-speed.sh [--unproved]
#
# It requires the proved library (`rt lib` in crates/nizwarf_codec). With --unproved it measures a library without a proof if
# the proved one is not built. Such a library is up to five times slower, because it checks itself at run time; the table says
# so. All instructions are counted, including those of the library's C files, as the difference between a long run and a short
# one under valgrind.
set -euo pipefail
. "$(dirname "$0")/../lib/usage.sh"
. "$(dirname "$0")/../lib/transport.sh"
unproved=''
if [ "${1:-}" = --unproved ]; then
    unproved=yes
    shift
fi
take_none "$@"
need_proved "$unproved" nizwarf_codec
need valgrind "To install it: apt-get install valgrind"
find_library nizwarf_codec
folder=$(mktemp -d)
trap 'rm -rf "$folder"' EXIT
program=$folder/codec_speed
for flags in "" -flto; do
    cc -std=c11 -O2 $flags -Wall -Wextra -Werror -I "$here/include" -o "$program$flags" "$here/tools/measure/codec_speed.c" \
        "${library[@]}"
done

# Prints the number of instructions of a run: counted PROGRAM ARGUMENT.. Valgrind counts `rep movsb`, by which glibc copies some
# KiB and more, once for each byte, so glibc copies with vectors here.
counted() {
    GLIBC_TUNABLES=glibc.cpu.x86_rep_movsb_threshold=1000000000 valgrind --tool=callgrind \
        --callgrind-out-file="$folder/counted" "$@" 2>&1 | sed -n 's/.*Collected : \([0-9]*\).*/\1/p'
}

# Prints the number of instructions of one request: instructions PROGRAM CLASS [ask]
instructions() {
    echo $((($(counted "$1" "$2" 300 "${@:3}") - $(counted "$1" "$2" 100 "${@:3}")) / 200))
}

echo "Measured at commit $(git -C "$here" describe --always --dirty --exclude '*'), $(library_kind nizwarf_codec)."
echo
echo "| Request | decode | decode and encode | decode, -flto | decode and encode, -flto |"
echo "|---|---|---|---|---|"
# (without an argument it lists its classes, and fails)
for class in $("$program" || true); do
    echo "| $class | $(instructions "$program" "$class" ask) | $(instructions "$program" "$class")" \
        "| $(instructions "$program-flto" "$class" ask) | $(instructions "$program-flto" "$class") |"
done
