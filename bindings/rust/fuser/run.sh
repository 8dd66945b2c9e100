#!/usr/bin/env bash
# Runs examples of the crate fuser twice, over fuser and over this crate, and compares what the same calls of
# session.py on both mounts return. For this crate a line is added to each source: `use nizwarf::fuser;`.
#
# Usage: bindings/rust/fuser/run.sh [--get [SUITE]]
# With --get it first gets fuser, and the crates that it needs, from Debian's suite SUITE, sid if none is given:
# 130 MB, which are unpacked into out/rust/fuser, and not installed. NIZWARF_LIB_DIR is the folder of the library, as
# for build.rs; bindings/rust/check.sh, which calls this, sets it.
# It needs root, /dev/fuse, python3, and the cargo that fuser needs, 1.85 or later.
# Status 0: all is the same; 1: something is not, or can't be built; 2: it could not start.

# (functions are also called by their names)
# shellcheck source-path=SCRIPTDIR/../../../tools disable=SC2317
set -euo pipefail
tools=$(cd "$(dirname "$0")/../../../tools" && pwd)
. "$tools/lib/usage.sh"
. "$tools/lib/debian.sh"
. "$tools/lib/mounts.sh"

here=$(cd "$(dirname "$0")" && pwd)
built=$here/../../../out/rust/fuser
examples=(hello simple ioctl poll notify_inval_entry notify_inval_inode)
ways=(there here)
part_count=3

if [ $# -gt 2 ] || { [ $# != 0 ] && [ "$1" != --get ]; }; then
    echo "Usage: bindings/rust/fuser/run.sh [--get [SUITE]]" >&2
    exit 2
fi
need_root "mounting requires root"
need cargo "To install it: apt-get install cargo"
need python3 "To install it: apt-get install python3"
mkdir -p "$built"
built=$(cd "$built" && pwd)
crates=$built/crates/usr/share/cargo/registry

# Gets the packages: get_crates SUITE
get_crates() {
    local packages apt
    rm -rf "$built/crates"
    # (what calls it takes its status, so no failure ends it by itself)
    use_suite "$1" "$built/lists" || return
    mapfile -t packages < <(apt-get "${apt[@]}" --no-install-recommends --simulate install librust-fuser-dev \
        librust-bincode-1-dev | sed -nE 's/^Inst (librust-[^ ]*) .*/\1/p')
    [ ${#packages[@]} != 0 ] && unpack_packages "$built/crates" "${packages[@]}" && touch "$built/crates/unpacked"
}

# Copies the examples for one of the ways: copy_examples WAY
copy_examples() {
    local way=$1 folder=$built/program/$1 example
    mkdir -p "$folder/src/bin"
    sed "s/^name = .*/name = \"examples-$way\"/" "$here/Cargo.toml" > "$folder/Cargo.toml"
    for example in "${examples[@]}"; do
        cp "$crates"/fuser-*/examples/"$example.rs" "$folder/src/bin/$example.rs"
        printf '\n[[bin]]\nname = "%s-%s"\npath = "src/bin/%s.rs"\n' "$example" "$way" "$example" >> "$folder/Cargo.toml"
    done
    cp -r "$crates"/fuser-*/examples/common "$folder/src/bin"
    if [ "$way" = here ]; then
        sed -i "s,^fuser = .*,nizwarf = { path = \"$here/..\" }," "$folder/Cargo.toml"
        # (after what is at the top of a file: attributes and modules)
        sed -i '0,/^use /s//use nizwarf::fuser;\nuse /' "$folder"/src/bin/*.rs "$folder"/src/bin/common/args.rs
    fi
}

# Builds the examples of both ways in one workspace, which Debian's crates stand in for.
build_examples() {
    local way
    rm -rf "$built/program"
    mkdir -p "$built/program/.cargo"
    printf '[workspace]\nmembers = ["there", "here"]\nresolver = "2"\n[profile.dev]\ndebug = 0\n' > "$built/program/Cargo.toml"
    printf '[source.crates-io]\nreplace-with = "debian"\n[source.debian]\ndirectory = "%s"\n[build]\ntarget-dir = "%s"\n' \
        "$crates" "$built/target" > "$built/program/.cargo/config.toml"
    for way in "${ways[@]}"; do
        copy_examples "$way"
    done
    # (so what is the same as in the last run is not built again)
    find "$built/program" -type f -exec touch -r "$built/crates/unpacked" {} +
    for way in "${ways[@]}"; do
        (cd "$built/program" && quietly "$folder/said" cargo build --offline --package "examples-$way") || return
    done
}

# Serves an example, makes the calls, and unmounts it: use_example EXAMPLE WAY. What it leaves in a file ends with
# how both ended.
use_example() {
    local example=$1 mount=$folder/$1-$2 words server status=0
    mkdir -p "$mount" "$mount.data"
    case $example in
        hello) words=("$mount" --n-threads 3) ;;
        simple) words=(--data-dir "$mount.data" --mount-point "$mount") ;;
        notify_inval_entry) words=("$mount" --timeout 60 --update-interval 0.3) ;;
        notify_inval_inode) words=("$mount" --update-interval 0.3) ;;
        *) words=("$mount") ;;
    esac
    timeout 120 "$built/target/debug/$example-$2" "${words[@]}" > "$mount.server" 2>&1 &
    server=$!
    # (without a mount the calls fail, which the results show)
    await_mounted "$mount" "$server" || true
    timeout 60 "$here/session.py" "$example" "$mount" > "$mount.said" 2>&1 || status=$?
    umount "$mount" || status=unmounted
    case $example in
        # These go on without a mount.
        poll | notify_*) kill $server ;;
    esac
    wait $server || status=$status,$?
    echo "ended $status" >> "$mount.said"
}

# Unmounts what a failure left, and removes the folder.
clean_up() {
    local mount
    for mount in "$folder"/*-there "$folder"/*-here; do
        ! mountpoint -q "$mount" || umount -l "$mount"
    done
    rm -rf "$folder"
}

folder=$(mktemp -d)
trap clean_up EXIT
if [ "${1:-}" = --get ]; then
    part "Getting fuser from Debian ${2:-sid}"
    quietly "$folder/said" get_crates "${2:-sid}"
elif [ ! -e "$built/crates/unpacked" ]; then
    echo "fuser is not in out/rust/fuser: \`bindings/rust/fuser/run.sh --get\` gets it." >&2
    exit 2
else
    part "fuser is in out/rust/fuser"
fi
part "Building ${#examples[@]} examples of $(cd "$crates" && echo fuser-*), over it and over this crate"
build_examples
part "Calls on their mounts"
for example in "${examples[@]}"; do
    for way in "${ways[@]}"; do
        use_example "$example" "$way" &
    done
done
wait
status=0
for example in "${examples[@]}"; do
    there=$folder/$example-there.said
    if cmp -s "$there" "$folder/$example-here.said" && [[ "$(tail -n 1 "$there")" =~ ^ended\ 0(,143)?$ ]]; then
        echo "$example: $(($(wc -l < "$there") - 1)) results are the same."
    else
        diff "$there" "$folder/$example-here.said" >&2 || true
        tail -n 3 "$there" "$folder/$example"-*.server >&2
        echo "FAILED: $example differs, or did not end well." >&2
        status=1
    fi
done
exit $status
