#!/usr/bin/env bash
# Builds the daemon virtiofsd 1.13.2 with this protocol layer in place of its own.
#
# Usage: tools/virtiofsd.sh [--unmodified | --test] [DIRECTORY]
#        tools/virtiofsd.sh --check [--seed N] [--requests N] [PYTEST-OPTION]..
#        tools/virtiofsd.sh --package [--unproved] [--check] [DIRECTORY]
#
# It builds the daemon as DIRECTORY/nizwarf-virtiofsd, where DIRECTORY is out/virtiofsd by default, and prints that path. The
# daemon has virtiofsd's options, which its --help lists. It is built again if a source is newer.
#
#   --unmodified  build virtiofsd without a change, as DIRECTORY/virtiofsd; both are built by the same compiler and profile,
#                 virtiofsd's own for a release, and `tools/measure/share-speed.sh --layer virtiofsd` compares them
#   --test        run virtiofsd's own tests, without those of the replaced files
#   --check       run these tests too, and compare the daemon with Debian's, by tests/compare/test_servers.py, as root
#   --package     make a package of Debian by packaging/virtiofsd.sh, which has a --help of its own
#
# The sources of virtiofsd and of its crates are packages of Debian 13. apt-get downloads them with package lists of its own,
# and they are unpacked into DIRECTORY and not installed: 50 MB. bindings/virtiofsd replaces src/server.rs and
# src/descriptor_utils.rs by files that use the crate bindings/rust; nothing else changes. The first run takes a minute for the
# download, and three minutes of one processor.
#
# It requires apt-get, a C compiler, cargo 1.85 or later, libcap-ng, libseccomp and the Rattle toolchain. It links the proved
# library if that is built and no source is newer; otherwise tools/lib/unproved.sh builds it without a proof, which takes a
# minute more. CARGO_BUILD_JOBS is the number of processors that cargo uses.
# Exit status 0: it was built, and with --test or --check all tests passed; 1: it failed; 2: it could not start.
set -euo pipefail
. "$(dirname "$0")/lib/usage.sh"
. "$(dirname "$0")/lib/transport.sh"
. "$(dirname "$0")/lib/debian.sh"
. "$(dirname "$0")/lib/front.sh"

refuse() {
    echo "virtiofsd.sh: $1" >&2
    echo "Usage: tools/virtiofsd.sh [--check [--seed N] [--requests N] | --package [OPTIONS] | --unmodified | --test] [DIRECTORY]" >&2
    exit 2
}

if [ "${1:-}" = --check ]; then
    need pytest-3 "To install it: apt-get install python3-pytest"
    exec pytest-3 "$here/tests/compare/test_servers.py" -k virtiofsd_over "${@:2}"
elif [ "${1:-}" = --package ]; then
    exec "$here/packaging/virtiofsd.sh" "${@:2}"
fi
unmodified='' tests='' folder=''
for word in "$@"; do
    case $word in
        --unmodified) unmodified=1 ;;
        --test) tests=1 ;;
        *) take_folder "$word" ;;
    esac
done
need_x86_64
for command in apt-get dpkg-deb; do
    need "$command" "It is required because virtiofsd's sources are packages of Debian."
done
cargo_packages="cargo-web and rustc-web on Debian 12, cargo and rustc on Debian 13"
need cargo "To install it: apt-get install $cargo_packages"
version=$(cargo --version | sed -nE 's/^cargo 1\.([0-9]+)\..*/\1/p')
if [ "${version:-0}" -lt 85 ]; then
    echo "virtiofsd.sh: cargo 1.85 or later is required, but this is $(cargo --version): install $cargo_packages" >&2
    exit 2
fi
make_folder
mkdir -p "$folder/link" "$folder/lib" "$folder/home"

# Lets the linker find a library that is installed without its development package.
link_library() {
    local name=$1 package=$2 it
    # (a line of ldconfig: a tab, libNAME.so.N, kinds in brackets, => and the path)
    it=$(PATH=$PATH:/sbin ldconfig -p | sed -nE "s,^\slib$name\.so\.[0-9]+ .*x86-64.* => (.*),\1,p" | sed -n 1p)
    if [ -z "$it" ]; then
        echo "virtiofsd.sh: lib$name is missing. To install it: apt-get install $package" >&2
        exit 2
    fi
    ln -sfn "$it" "$folder/link/lib$name.so"
}

# They are linked by names without a version, which only development packages have.
link_library cap-ng libcap-ng0
link_library seccomp libseccomp2
[ -n "$unmodified" ] || find_library nizwarf_codec

# Copies a file unless the other one is the same, so that the time of an unchanged file stays.
renew() {
    cmp -s "$1" "$2" || cp "$1" "$2"
}

fetch() {
    local packages part=$folder/part
    rm -rf "$part"
    use_suite trixie "$part/apt" || return
    # virtiofsd's own package, and the sources of its dependencies.
    mapfile -t packages < <(apt-get "${apt[@]}" install -y -s --no-install-recommends librust-virtiofsd-dev |
        sed -nE 's/^Inst (librust-[^ ]+) .*/\1/p')
    [ ${#packages[@]} -gt 0 ] || return
    unpack_packages "$part/unpacked" "${packages[@]}" || return
    mv "$part/unpacked/usr/share/cargo/registry" "$folder/crates" || return
    rm -rf "$part"
}

crates=$folder/crates
if [ ! -e "$crates" ]; then
    echo "Downloading the sources of virtiofsd and of 200 crates .." >&2
    quietly "$folder/said" fetch || {
        echo "virtiofsd.sh: apt-get cannot download Debian's package librust-virtiofsd-dev of trixie" >&2
        exit 2
    }
fi
from=$crates/virtiofsd-1.13.2
if [ ! -e "$from" ]; then
    echo "virtiofsd.sh: '$crates' does not contain virtiofsd 1.13.2: Debian has another version" >&2
    exit 2
fi

# The crate, unmodified or with its protocol layer replaced.
tree=$folder/tree daemon=$folder/nizwarf-virtiofsd
if [ -n "$unmodified" ]; then
    tree=$folder/unmodified daemon=$folder/virtiofsd
fi
if [ ! -e "$tree/Cargo.toml" ]; then
    mkdir -p "$tree/.cargo"
    cp -R "$from/src" "$tree/"
fi
# (for packaging/virtiofsd.sh)
cp -u "$from/50-virtiofsd.json" "$tree/"
cp "$from/Cargo.toml" "$folder/Cargo.toml"
needed=("$tree/src" "$tree/Cargo.toml" "$here/tools/virtiofsd.sh")
if [ -z "$unmodified" ]; then
    printf '\n[dependencies.nizwarf]\npath = "%s"\n' "$here/bindings/rust" >> "$folder/Cargo.toml"
    for file in "$here"/bindings/virtiofsd/*.rs; do
        renew "$file" "$tree/src/${file##*/}"
    done
    for file in "$archive" "$heap"; do
        renew "$file" "$folder/lib/${file##*/}"
    done
    needed+=("$folder/lib" "$here"/bindings/rust/{src,build.rs,Cargo.toml})
fi
renew "$folder/Cargo.toml" "$tree/Cargo.toml"
# cargo uses only the crates of this directory, and no network.
printf '[source.crates-io]\nreplace-with = "debian"\n[source.debian]\ndirectory = "%s"\n[net]\noffline = true\n' \
    "$crates" > "$tree/.cargo/config.toml"

# Prints cargo's progress.
show_progress() {
    tee "$folder/said" | awk '/^ *Compiling/ && ++n % 25 == 0 { print n " crates compiled" > "/dev/stderr" }'
}

# With one codegen unit, inlining does not depend on how a crate is divided. Paths are remapped, so that the result does
# not depend on the directory.
run_cargo() {
    cd "$tree"
    CARGO_PROFILE_RELEASE_CODEGEN_UNITS=1 CARGO_HOME=$folder/home CARGO_TARGET_DIR=$folder/target LIBRARY_PATH=$folder/link \
        NIZWARF_LIB_DIR=$folder/lib CARGO_ENCODED_RUSTFLAGS=--remap-path-prefix=$here=nizwarf$'\x1f'--remap-path-prefix=$folder=virtiofsd \
        cargo "$1" --release --offline 2>&1 | show_progress
}
build_failed() {
    tail -n 40 "$folder/said" >&2
    exit 1
}

if [ ! -e "$daemon" ] || [ -n "$(find "${needed[@]}" -newer "$daemon" -print -quit)" ]; then
    echo "Building virtiofsd .." >&2
    (run_cargo build) || build_failed
    # The daemon is replaced, not overwritten, because it may be running.
    cp "$folder/target/release/virtiofsd" "$daemon.new"
    mv "$daemon.new" "$daemon"
fi
if [ -n "$tests" ]; then
    echo "Building and running its tests .." >&2
    (run_cargo test) || build_failed
    sed -n "s/^test result: ok\. \([1-9].*\); [0-9]* measured.*/virtiofsd's own tests: \1/p" "$folder/said" >&2
fi
"$daemon" --version >&2
echo "$daemon"
