#!/usr/bin/env bash
# Tests contracts by mutation with `rt plant`: prints the wrong bodies that the prover accepts.
#
# Usage: tools/measure/plant.sh [--minutes N] [CRATE..]
#
# Each CRATE, by default each of crates.txt, is checked, and `rt plant` tries wrong bodies in it for N minutes (3 by default).
# A wrong body that is accepted is printed, unless tools/measure/plant_known.txt has it with a reason. The output of `rt plant`
# is written to out/plant.
# Exit status 0: none is accepted; 1: some are, or a crate is not proved; 2: it could not start.
set -euo pipefail
. "$(dirname "$0")/../lib/usage.sh"
need rt "Add the directory bin of the Rattle toolchain to PATH."
cd "$(dirname "$0")/../.."

minutes=3
if [ "${1:-}" = --minutes ]; then
    minutes=${2:?"option '--minutes' requires a number"}
    shift 2
fi
[ $# != 0 ] || mapfile -t all < <(sed -nE 's/^([a-z][a-z0-9_]*)[^:]*:.*/\1/p' crates.txt)
mkdir -p out/plant
status=0
for crate in "${@:-${all[@]}}"; do
    [ -d "crates/$crate/src" ] || { echo "plant.sh: unknown crate '$crate'" >&2 && exit 2; }
    out=$PWD/out/plant/$crate.txt
    echo "Planting in $crate for $minutes minutes .." >&2
    (cd "crates/$crate" && rt check && rt plant --minutes "$minutes") > "$out" 2>&1 || status=1
    grep -q '^plants ' "$out" || { echo "$crate: \`rt plant\` failed: see $out" && status=1; }
    if sed -nE "s/^proves +[^ ]+\.rt:[0-9]+ +/$crate: /p" "$out" | tr -s ' ' | grep -vxFf tools/measure/plant_known.txt; then
        status=1
    fi
done
exit $status
