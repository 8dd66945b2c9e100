#!/usr/bin/env bash
# Builds the library nizwarf_codec, and checks the crate `nizwarf` with it: the crate builds without a network and
# without other crates, there are no warnings, and its tests, doctests and examples pass.
#
# Usage: bindings/rust/check.sh [--msrv] [--fuser]
# As root, if there is /dev/fuse, the examples are also mounted, and tests/mount*.rs mount; if there is
# fusermount3, another user mounts, too. The tests also run under the address, leak and thread sanitizers of the
# compiler, and under valgrind, if they are installed. With --msrv they also run with the rustc of Debian 12, the oldest
# supported one. It is downloaded and unpacked into out/rust/debian, which takes 400 MB, and not installed. With --fuser
# fuser is downloaded as fuser/run.sh says. If it is there, its examples are mounted over it and over this crate, and
# compared.
#
# If the proved library is built and no source is newer, it is used. Otherwise tools/lib/unproved.sh builds the
# library without a proof, in a minute. The output is in out/rust.
# It needs cargo, a C compiler, python3, and the Rattle toolchain for the library; it uses rustfmt and clippy if they
# are installed. If NIZWARF_LIB_DIR is set, the library is that in this folder: see build.rs.
# Status 0: all checks passed; 1: one failed; 2: it could not start.

# shellcheck source-path=SCRIPTDIR/../../tools
set -euo pipefail
tools=$(cd "$(dirname "$0")/../../tools" && pwd)
. "$tools/lib/usage.sh"
. "$tools/lib/transport.sh"
. "$tools/lib/debian.sh"
. "$tools/../bindings/hello.sh"

has_msrv=0 get=()
for word in "$@"; do
    case $word in
        --msrv) has_msrv=1 ;;
        --fuser) get=(--get) ;;
        *) echo "Usage: bindings/rust/check.sh [--msrv] [--fuser]" >&2 && exit 2 ;;
    esac
done
steps=$((17 + has_msrv))
need cargo "To install it: apt-get install cargo"
need cc "To install it: apt-get install gcc libc6-dev"
need python3 "To install it: apt-get install python3"
if [ -z "${NIZWARF_LIB_DIR:-}" ]; then
    find_library nizwarf_codec
    NIZWARF_LIB_DIR=$here/out/rust/lib
    mkdir -p "$NIZWARF_LIB_DIR"
    cp "${library[@]}" "$NIZWARF_LIB_DIR"
fi
export NIZWARF_LIB_DIR
cd "$here/bindings/rust"
built=$here/out/rust
target=x86_64-unknown-linux-gnu
folder=$(mktemp -d)
trap clean_up EXIT

# Prints how many tests passed in the last step.
passed() {
    awk '/^test result: ok/ { sum += $4 } END { print sum }' "$folder/said"
}

# The tests that do not replace malloc.
tests=(--lib --test answers --test calls --test fuser --test hostile --test later --test mount
    --test mount_optional --test refusals --test serve --test server --test threads)

# Packs the crate, builds the package, and does the steps of `cargo publish` before the upload, with an empty index.
make_package() {
    # (a target of its own, because cargo would take the build of the package for that of the sources, and would not
    # notice when those change)
    local index=$folder/index packed=$built/packed
    cargo package --quiet --offline --allow-dirty --target-dir "$packed" || return
    [ "$(cargo package --quiet --offline --allow-dirty --list | grep -c '^LICENSE-')" = 2 ] || return
    git init -q "$index"
    echo '{"dl": "file:///none", "api": "file:///none"}' > "$index/config.json"
    git -C "$index" add . || return
    git -C "$index" -c user.name=none -c user.email=none commit -q -m "An empty index" || return
    CARGO_HOME=$folder/home cargo publish --dry-run --no-verify --allow-dirty --target-dir "$packed" --index "file://$index"
}

# Builds an example with the feature `static`, with an installed library that has both kinds, and runs it without.
build_static() {
    local installed=$folder/installed version
    version=$(sed -n 's/^version = "\(.*\)"$/\1/p' "$here/bindings/rust/Cargo.toml")
    mkdir -p "$installed"
    cc -shared -o "$installed/libnizwarf.so" -Wl,--whole-archive "$NIZWARF_LIB_DIR/libnizwarf_codec.a" \
        -Wl,--no-whole-archive "$NIZWARF_LIB_DIR/liblibc_c.a" || return
    # (a script for ar: both libraries in one)
    printf 'create %s\naddlib %s\naddlib %s\nsave\n' "$installed/libnizwarf.a" "$NIZWARF_LIB_DIR"/lib{nizwarf_codec,libc_c}.a |
        ar -M || return
    sed -e "s,^prefix=.*,prefix=$installed,; s,^libdir=.*,libdir=$installed," -e "s/@VERSION@/$version/" \
        "$here/packaging/nizwarf.pc.in" > "$installed/nizwarf.pc"
    env -u NIZWARF_LIB_DIR PKG_CONFIG_PATH="$installed" \
        cargo build --offline --features static --example hello --target-dir "$built/static" || return
    "$built/static/debug/examples/hello" --help
}

# Whether a program that is compiled with these flags runs.
has_flags() {
    echo 'fn main() {}' > "$folder/empty.rs"
    RUSTC_BOOTSTRAP=1 rustc --target "$target" "$@" -o "$folder/empty" "$folder/empty.rs" 2> /dev/null \
        && "$folder/empty" 2> /dev/null
}

# Whether the compiler is of this version, or a later one.
has_rust() {
    local version
    version=$(rustc --version)
    version=${version#rustc }
    [ "$(printf '%s\n' "$1" "${version%% *}" | sort -V | sed -n 1p)" = "$1" ]
}

# Runs tests under a sanitizer of the compiler: sanitize NAME WORD.. The standard library is not built with
# it. So the thread sanitizer is only for the test that needs none of its synchronization but what is inlined.
sanitize() {
    local name=$1 flags
    shift
    for flags in "-Zsanitizer=$name" "-Zsanitizer=$name -Cunsafe-allow-abi-mismatch=sanitizer"; do
        # shellcheck disable=SC2086
        if has_flags $flags; then
            RUSTC_BOOTSTRAP=1 RUSTFLAGS=$flags step "Tests under the $name sanitizer" \
                cargo test --offline --target "$target" --target-dir "$built/$name" "$@"
            return
        fi
    done
    skip 1 "The compiler has no $name sanitizer, so it is skipped."
}

if command -v rustfmt > /dev/null; then
    step "Format" cargo fmt --check
else
    skip 1 "rustfmt is not installed, so the format is not looked at: apt-get install rustfmt."
fi
step "Build without a network" cargo build --offline --all-targets
step "Build with the installed static library" build_static
if command -v cargo-clippy > /dev/null; then
    step "Clippy, pedantic" cargo clippy --offline --all-targets -- -D warnings -W clippy::pedantic
else
    skip 1 "clippy is not installed, and is skipped: apt-get install rust-clippy."
fi
step "The package" make_package
RUSTDOCFLAGS="-D warnings" step "Documentation" cargo doc --offline --no-deps
step "Tests and doctests" cargo test --offline
echo "$(passed) tests and doctests passed."
cargo build --quiet --offline --examples

# hello_client.py passes a descriptor by its number.
# shellcheck disable=SC2016
printf '#!/usr/bin/env bash\nexec "%s" - <&"$2"\n' "$built/debug/examples/hello" > "$folder/hello"
chmod +x "$folder/hello"
step "hello.rs with a client" ask_hello "$folder/hello"
if may_mount; then
    step "hello.rs, mounted" use_mount "$built/debug/examples/hello" "$folder/mount"
    check_aborted hello.rs "$built/debug/examples/hello" "$folder/mount"
    step "check.rs in front of it, mounted" \
        use_mount "$built/debug/examples/check" "$folder/mount" "$built/debug/examples/hello" -
    check_other hello.rs fusermount3 "$built/debug/examples/hello"
else
    skip 4 "Nothing is mounted: this needs root, /dev/fuse and mountpoint."
fi
if [ ${#get[@]} = 0 ] && [ ! -e "$built/fuser/crates/unpacked" ]; then
    skip 1 "fuser is not in out/rust/fuser, so its examples are skipped: bindings/rust/check.sh --fuser gets it."
elif ! may_mount || ! command -v python3 > /dev/null; then
    skip 1 "The examples of fuser are skipped: they need root, /dev/fuse, mountpoint and python3."
elif ! has_rust 1.85; then
    skip 1 "The examples of fuser are skipped: they need a compiler of 1.85 or later, as rustup installs it."
else
    step "Examples of fuser, over it and over this crate" "$here/bindings/rust/fuser/run.sh" "${get[@]}"
    grep ' results are the same' "$folder/said"
fi
sanitize address "${tests[@]}"
sanitize leak "${tests[@]}"
sanitize thread --test threads

if command -v valgrind > /dev/null; then
    # It also checks the library, which is not built with a sanitizer.
    CARGO_TARGET_X86_64_UNKNOWN_LINUX_GNU_RUNNER="valgrind -q --error-exitcode=9 --leak-check=full \
        --show-leak-kinds=definite --errors-for-leak-kinds=definite" \
        step "Tests under valgrind" \
        cargo test --offline --target "$target" --test answers --test calls --test hostile --test later --test threads
else
    skip 1 "valgrind is not installed, and is skipped: apt-get install valgrind."
fi
if [ $has_msrv = 1 ]; then
    debian=$built/debian
    export LD_LIBRARY_PATH=$debian/usr/lib/x86_64-linux-gnu
    if [ ! -e "$debian/unpacked" ]; then
        echo "Downloading the rustc of Debian 12 .." >&2
        # Those, and the libraries that they link; others the machine has.
        packages=(rustc cargo libstd-rust-1.63 libstd-rust-dev libllvm14 libgit2-1.5 libmbedcrypto7 libmbedtls14
            libmbedx509-1 libhttp-parser2.9 libssh2-1 libcurl3-gnutls)
        mkdir -p "$debian"
        quietly "$folder/said" use_suite bookworm "$debian/apt"
        quietly "$folder/said" unpack_packages "$debian" "${packages[@]}"
        touch "$debian/unpacked"
    fi
    export RUSTC=$debian/usr/bin/rustc RUSTDOC=$debian/usr/bin/rustdoc
    export RUSTFLAGS="--sysroot $debian/usr -D warnings" RUSTDOCFLAGS="--sysroot $debian/usr"
    step "Tests with $("$RUSTC" --version)" \
        "$debian/usr/bin/cargo" test --offline --target-dir "$built/oldest"
fi
echo "All checks of the crate nizwarf passed."
