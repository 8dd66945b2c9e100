#!/usr/bin/env bash
# Compares the speed of libfuse's library over this protocol layer with that of libfuse's own, without a kernel or a file
# system: tools/measure/libfuse_speed.c passes requests to the library, which tools/libfuse.sh builds. A row has the minimum
# processor time of both, measured in turns, its ratio, and the ratio by the clock; below 1, this layer is faster. If valgrind
# is installed, the ratio of instructions follows. (The minimum, because a busy processor is half as fast at times.)
#
# Usage: tools/measure/libfuse-speed.sh [--unproved] [--mount [--one] [--classes LIST]] [ROUNDS [DIRECTORY]]
#
# ROUNDS is 40 by default, or 9 with --mount. DIRECTORY is that of tools/libfuse.sh. It takes a minute.
#
#   --unproved      measure a library without a proof if the proved one is not built; it is up to five times slower
#   --mount         mount libfuse's passthrough_ll with both in turns, and use files; the tables and classes are those of
#                   tools/measure/share-speed.sh; this requires root, and takes three minutes
#   --one           run all on one processor: with more, it is chance which ones the server and its clients use, and a few
#                   rounds show little
#   --classes LIST  only these classes, separated by commas
# Exit status 0: it was measured; 1: it failed; 2: it could not start.
set -euo pipefail
. "$(dirname "$0")/../lib/usage.sh"
. "$(dirname "$0")/../lib/transport.sh"
. "$(dirname "$0")/../lib/mounts.sh"

given=("$@") mount='' classes=() where=() unproved=''
if [ "${1:-}" = --unproved ]; then
    unproved=yes
    shift
fi
if [ "${1:-}" = --mount ]; then
    mount=yes
    shift
fi
if [ "$mount ${1:-}" = "yes --one" ]; then
    where=(taskset -c "$(nproc --all | awk '{ print $1 - 1 }')")
    shift
fi
if [ "$mount ${1:-}" = "yes --classes" ] && [ $# -ge 2 ]; then
    classes=("$1" "$2")
    shift 2
fi
rounds=${1:-$([ -n "$mount" ] && echo 9 || echo 40)}
if ! [[ $rounds =~ ^[1-9][0-9]*$ ]] || [ $# -gt 2 ]; then
    echo "Usage: tools/measure/libfuse-speed.sh [--unproved] [--mount [--one] [--classes LIST]] [ROUNDS [DIRECTORY]]" >&2
    exit 2
fi
need_proved "$unproved" nizwarf_codec
folder=$(realpath -m "${2:-$here/out/libfuse}")
ours=$("$here/tools/libfuse.sh" "$folder")
theirs=$("$here/tools/libfuse.sh" --unmodified "$folder")
suite=$(sed -n 's/^VERSION_CODENAME=//p' /etc/os-release)
measured="Measured at commit $(git -C "$here" describe --always --dirty --exclude '*'), $(library_kind nizwarf_codec)."
if [ -n "$mount" ]; then
    need_root "mounting requires root"
    own_mounts "${given[@]}"
    work=$(mktemp -d -p /dev/shm)
    trap 'umount -lq "$work"/mount 2> /dev/null || true; rm -rf "$work"' EXIT
    cc -O2 -w -D_FILE_OFFSET_BITS=64 -pthread -I "$folder/source-$suite/include" -I "$folder/$suite-unmodified/build" \
        -o "$work/passthrough_ll" "$folder/source-$suite/example/passthrough_ll.c" "$theirs/libfuse3.so.3"
    cc -std=c11 -O2 -Wall -Wextra -Werror -o "$work/share_speed" "$here/tools/measure/share_speed.c"
    version=$(sed 's/-.*//' "$folder/source-$suite/debian-version")
    for it in "over this layer:$ours" "$version:$theirs"; do
        printf 'passthrough_ll %s\tfolder\tenv\tLD_LIBRARY_PATH=%s\t%s\t-f\t-o\tsource={folder},cache=auto,default_permissions\t{mount}\n' \
            "${it%%:*}" "${it#*:}" "$work/passthrough_ll"
    done > "$work/servers"
    echo "$measured"
    echo
    "${where[@]}" python3 -B "$here/tools/measure/share_speed.py" --clock --rounds "$rounds" "${classes[@]}" "$work/share_speed" \
        "$work" "$here" "$work/servers"
    exit
fi
echo "$measured"
echo
work=$(mktemp -d -p "$folder")
trap 'rm -rf "$work"' EXIT
cc -std=c11 -O2 -w -D_FILE_OFFSET_BITS=64 -I "$folder/source-$suite/include" -I "$folder/$suite-unmodified/build" \
    -o "$work/speed" "$here/tools/measure/libfuse_speed.c" "$theirs/libfuse3.so.3" -pthread

least() {
    sort -n | sed -n 1p
}

# Prints the number of instructions of a request: the difference between 3000 and 1000 requests, divided by 2000.
instructions() {
    local n few
    command -v valgrind > /dev/null || return 0
    # (the difference excludes start and end)
    for n in 1000 3000; do
        LD_LIBRARY_PATH=$1 valgrind --tool=callgrind --callgrind-out-file="$work/out" "$work/speed" "$2" "$n" \
            > /dev/null 2> "$work/said"
        [ "$n" = 3000 ] || few=$(sed -nE 's/.*Collected : ([0-9]+).*/\1/p' "$work/said")
    done
    echo $((($(sed -nE 's/.*Collected : ([0-9]+).*/\1/p' "$work/said") - few) / 2000))
}

echo "| Request | ns, libfuse | ns, here | processor | clock | instructions, libfuse | here | ratio |"
echo "|---|---|---|---|---|---|---|---|"
for class in lookup getattr read-4k read-1m write-4k write-1m readdir readdirplus; do
    # The number of requests of a run, so that it takes some tens of milliseconds.
    times=20000
    [[ $class != readdir* ]] || times=4000
    for _ in $(seq "$rounds"); do
        LD_LIBRARY_PATH=$theirs "$work/speed" "$class" "$times" >> "$work/theirs-$class"
        LD_LIBRARY_PATH=$ours "$work/speed" "$class" "$times" >> "$work/ours-$class"
    done
    awk -v class="$class" -v a="$(cut -d' ' -f1 "$work/theirs-$class" | least)" \
        -v b="$(cut -d' ' -f1 "$work/ours-$class" | least)" -v c="$(cut -d' ' -f2 "$work/theirs-$class" | least)" \
        -v d="$(cut -d' ' -f2 "$work/ours-$class" | least)" -v e="$(instructions "$theirs" "$class")" \
        -v f="$(instructions "$ours" "$class")" 'BEGIN {
            printf "| %s | %.0f | %.0f | %.2f | %.2f |", class, a, b, b / a, d / c
            if (e > 0) printf " %d | %d | %.2f |\n", e, f, f / e; else print " | | |" }'
done
