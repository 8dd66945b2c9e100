#!/usr/bin/env bash
# Tries wrong bodies and wrong definitions that the gate leaves out: the prover must refuse each of them.
#
# Usage: tests/edits/run.sh [-k NAME] [CRATE..]
#        tests/edits/run.sh --texts
#
#   -k NAME    tries only the edits whose names contain NAME
#   --texts    proves nothing: checks that the files have the form below, and that each text that an edit replaces
#              is in its file exactly once
#
# The edits of a crate are in CRATE.edits beside this script. An edit begins with a heading, `== NAME`, whose name says
# what goes wrong; then come the lines of a must-fail edit of `rt`: `file: PATH` in the crate, and pairs of `old: TEXT`
# and `new: TEXT`. Empty lines are skipped.
#
# The gate tries the edits in crates/CRATE/must-fail, of which each crate with contracts has at least one but
# vfs_wire_more and test_*. An edit here must say what no edit of the gate and no other edit here says: of functions or
# records that are alike, and of a function and its helpers, one has an edit. At most 150 are here, because trying all
# of them takes one to three hours.
#
# The script works on a copy of the crates below out/, which shares by links what `rt check` kept of them; a crate that
# is not proved yet is proved there first. An edit takes 20 to 80 seconds, and the copy a gigabyte of disk where nothing
# is proved yet.
# Status 0: each edit is refused; 1: one is not refused, or cannot be applied; 2: the script could not start.
set -euo pipefail
. "$(dirname "$0")/../../tools/lib/usage.sh"
here=$(realpath "$(dirname "$0")")
root=$(realpath "$here/../..")

# Writes each edit of a crate whose name contains $only as a file into a folder: split_edits CRATE FOLDER.
only=
split_edits() {
    mkdir -p "$2"
    awk -v folder="$2" -v only="$only" '
        sub(/^== /, "") { name = $0; taken = only == "" || index(name, only); next }
        NF && taken { print > (folder "/" name ".edit") }' "$here/$1.edits"
}

# Checks the form of the files, and that each text that an edit replaces is in its file exactly once.
check_texts() {
    local edits crate line file bad=0
    ! grep -HnvE '^(== [a-z0-9_]+|(file|old): .+|new:.*|)$' "$here"/*.edits || bad=1
    # (two edits of one name would become one file)
    ! grep -H '^== ' "$here"/*.edits | sort | uniq -d | grep . || bad=1
    for edits in "$here"/*.edits; do
        crate=$(basename "$edits" .edits)
        while IFS= read -r line; do
            case $line in
                "file: "*) file=$root/crates/$crate/${line#file: } ;;
                "old: "*)
                    # (occurrences are counted, because a line may have several)
                    if [ "$(grep -oF -e "${line#old: }" "$file" | wc -l)" != 1 ]; then
                        echo "${edits#"$root"/}: the text is not in ${file#"$root"/} exactly once: ${line#old: }"
                        bad=1
                    fi
                    ;;
            esac
        done < "$edits"
    done
    [ $bad = 1 ] || echo "Each text of the $(cat "$here"/*.edits | grep -c '^== ') edits is in its file exactly once."
    return $bad
}

case ${1:-} in
    --texts)
        check_texts
        exit
        ;;
    -k)
        only=${2:-}
        [ -n "$only" ] || { echo "run.sh: option '-k' requires an argument" >&2 && exit 2; }
        shift 2
        ;;
esac
need rt "Add the directory bin of the Rattle toolchain to PATH."
crates=("$@")
[ $# != 0 ] || mapfile -t crates < <(cd "$here" && basename -s .edits -- *.edits)
for it in "${crates[@]}"; do
    [ -f "$here/$it.edits" ] || { echo "there is no file $here/$it.edits" >&2 && exit 2; }
done

mkdir -p "$root/out"
copy=$(mktemp -d "$root/out/edits.XXXXXX")
trap 'rm -rf "$copy"' EXIT
# (a repository of its own, so that the toolchain looks no further up)
git init -q "$copy"
cp "$root"/{crates.txt,HANDLES,rustfmt.toml} "$copy"
for it in "$root"/crates/*/; do
    name=$(basename "$it")
    mkdir -p "$copy/crates/$name/out"
    for part in src specs proofs c; do
        [ ! -d "$it$part" ] || cp -R "$it$part" "$copy/crates/$name/"
    done
    # (a check replaces such a file, and changes none)
    [ ! -d "${it}out/rlib" ] || cp -al "${it}out/rlib" "$copy/crates/$name/out/"
done
tried=()
for it in "${crates[@]}"; do
    split_edits "$it" "$copy/crates/$it/must-fail"
    # (of a crate that has no edit of such a name the folder is empty)
    ! rmdir "$copy/crates/$it/must-fail" 2> /dev/null || continue
    [ ! -d "$root/crates/$it/out/incremental" ] || cp -al "$root/crates/$it/out/incremental" "$copy/crates/$it/out/"
    tried+=("$it")
done
[ ${#tried[@]} != 0 ] || { echo "no edit's name contains $only: ${crates[*]}" >&2 && exit 2; }
cd "$copy"
rt must-fail "${tried[@]}"
