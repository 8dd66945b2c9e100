#!/usr/bin/env bash
# Creates a library for transports in C over your own file system: a copy of crates/nizwarf_tree with another name, and with
# the same functions and header. docs/USE.md says which files you must change then.
#
# Usage: tools/new-library.sh NAME [TREE]
#
# NAME and TREE consist of lowercase letters, digits and _. It creates crates/NAME, a line of crates.txt, and
# tools/lib/unproved/NAME, with which `tools/mount.sh --library NAME DIRECTORY` builds and mounts the library without a proof.
#
# With TREE, the library serves the read-only tree of the crate TREE, and nothing in it must be changed. If crates/TREE does
# not exist, it is created too, from the three files of crates/example_tree, which you must change.
set -euo pipefail
. "$(dirname "$0")/lib/usage.sh"
cd "$(dirname "$0")/.."

name=${1:-} tree=${2:-}
usage() {
    echo "Usage: tools/new-library.sh NAME [TREE], where crates/NAME must not exist" >&2
    exit 2
}
[[ $# -ge 1 && $# -le 2 && $name =~ ^[a-z][a-z0-9_]*$ && $name != "$tree" ]] || usage
[[ $# = 1 || $tree =~ ^[a-z][a-z0-9_]*$ ]] || usage
if [ -e "crates/$name" ] || [ -e "tools/lib/unproved/$name" ]; then usage; fi

# Replaces the name of a crate in its copy, and adds a line to crates.txt after that crate's.
name_copy() {
    grep -rl "$1" "crates/$2" | xargs sed -i "s/\b$1\b/$2/g"
    sed -i "/^$1\b/{p;s/^$1/$2/}" crates.txt
}

# Creates a crate with the tree of example_tree, without its client, callers and edits.
new_tree() {
    mkdir -p "crates/$tree"
    cp -R crates/example_tree/{src,specs} "crates/$tree/"
    rm -r "crates/$tree/src"/{uses.rt,client.rt,client} "crates/$tree/specs/Requests.antt"
    # (the line, and the empty one after it)
    sed -i '/^pub mod client;$/d; /^mod uses;$/,+1d' "crates/$tree/src/lib.rt"
    sed -i '/^pub mod Requests$/d' "crates/$tree/specs/Lib.antt"
    name_copy example_tree "$tree"
    sed -i "/^$tree\b/s/ vfs_wire_more\b//" crates.txt
    echo "The tree is in crates/$tree/src/lib.rt, and its contents in crates/$tree/specs/Docs.antt."
}

# Sets the names of a tree: its type, that of its tables, and the module of these.
words_of_tree() {
    type=$(sed -n 's/^impl ReadTree for \(\w*\) {$/\1/p' "crates/$tree/src/lib.rt")
    tables=$(sed -n 's/^ *ghost tables = { λ \w*\. \(\w*\) };$/\1/p' "crates/$tree/src/lib.rt")
    module=$(basename "$(grep -l "^abbrev pub ${tables:-/} : Tables$" "crates/$tree"/specs/*.antt)" .antt)
    if [ -z "$type" ] || [ -z "$tables" ] || [ -z "$module" ] \
        || ! grep -q "^pub struct $type;$" "crates/$tree/src/lib.rt"; then
        echo "new-library.sh: crates/$tree/src/lib.rt must implement ReadTree for a struct without fields, as crates/example_tree does" >&2
        exit 2
    fi
}

# Creates a library as a copy of nizwarf_tree, without the files of the tree in memory, whose paths contain `tree`, and
# without edits of its file system.
new_library() {
    mkdir "crates/$name" "tools/lib/unproved/$name"
    cp -R crates/nizwarf_tree/{src,specs,proofs,must-fail} "crates/$name/"
    cp tools/lib/unproved/nizwarf_tree/* "tools/lib/unproved/$name/"
    rm -r "crates/$name"/{src,specs,proofs}/[Tt]ree*
    sed -i '/^\(pub \)\?mod [Tt]ree/d' "crates/$name"/{src/lib.rt,specs/Lib.antt,proofs/Lib.antt}
    # (at present there are none)
    grep -l '^file: src/files.rt$' "crates/$name"/must-fail/*.edit | xargs -r rm || true
    name_copy nizwarf_tree "$name"
    sed -i "/^$name\b/s/ laws_tree\b//" crates.txt
}

# Replaces the tree in memory by the tree, by the two files of lib/read_only_library, and removes the proof of the replies
# of the tree in memory.
over_tree() {
    local file
    for file in src/files.rt specs/Files.antt; do
        sed "s/\bNAME\b/$name/g; s/\bTREE\b/$tree/g; s/\bTYPE\b/$type/g; s/\bTABLES\b/$tables/g; s/\bMODULE\b/$module/g" \
            "tools/lib/read_only_library/${file##*/}.in" > "crates/$name/$file"
    done
    # (the proof of the replies of the tree in memory)
    rm -r "crates/$name"/proofs/{files,Texts.antt}
    sed -i '/^mod Texts$/d' "crates/$name/proofs/Lib.antt"
    sed -i "/^$name\b/s/ fs_tree\b/ fs_small $tree/" crates.txt
}

if [ -n "$tree" ]; then
    if [ ! -e "crates/$tree/src" ]; then new_tree; fi
    words_of_tree
fi
new_library
if [ -n "$tree" ]; then
    over_tree
    if command -v rt > /dev/null; then (cd "crates/$name" && rt fmt > /dev/null); fi
    echo "To mount it:"
else
    echo "Change crates/$name/src/files.rt, its proofs in proofs/files, and specs/Files.antt, and replace fs_tree on the"
    echo "line of $name in crates.txt by the crate of your file system. To mount it:"
fi
echo "    tools/mount.sh --library $name DIRECTORY"
