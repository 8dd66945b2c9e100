# For the scripts beside it: packages of Debian, downloaded and unpacked, and never installed.
#
# What downloads is judged by its caller, as `quietly` judges it, and where a function is judged `set -e` means nothing
# in it. So each step says itself that its failure is the function's: half a download would be kept otherwise, and taken
# for a whole one by the next run.
# shellcheck shell=bash

# Where the machine's own apt gets Debian from.
debian_archive() {
    cat /etc/apt/sources.list /etc/apt/sources.list.d/*.list /etc/apt/sources.list.d/*.sources 2> /dev/null |
        # The first URI that ends in /debian, or is a list of mirrors of that name: `deb URI suite ..`, or `URIs: URI`.
        sed -nE '/^ *#/d; s,.*[ =]([a-z+]+:/[^ ]*/debian(\.list)?/?)( .*)?$,\1,p' | sed -n 1p
}

# Makes Debian 12 in a folder by debootstrap, with the settings by which the machine's own apt gets packages:
# bootstrap_debian FOLDER.
bootstrap_debian() {
    local archive
    archive=$(debian_archive) || true
    [ -n "$archive" ] || return
    debootstrap --variant=minbase bookworm "$1" "$archive" || return
    echo "deb $archive bookworm main" > "$1/etc/apt/sources.list"
    apt-config dump | grep -E '^Acquire::(Check|https?::)' > "$1/etc/apt/apt.conf.d/90machine" || true
    cp /etc/resolv.conf "$1/etc/"
}

# Sets `apt` to the options for packages of a suite, as trixie, of which apt gets lists of its own in the
# folder: use_suite SUITE FOLDER. Without a suite they are the machine's own.
use_suite() {
    local suite=$1 folder=$2
    # (apt as root would fetch as _apt, who may not write below the folder)
    apt=(-qq -o APT::Sandbox::User=root)
    [ -n "$suite" ] || return 0
    apt+=(-o Dir::Etc::sourcelist=/dev/null -o "Dir::Etc::sourceparts=$folder/sources"
        # (an empty status: nothing counts as installed, so all that a package depends on is had)
        -o "Dir::State::lists=$folder/lists" -o "Dir::State::status=$folder/status"
        -o "Dir::Cache=$folder/cache" -o Acquire::Languages=none)
    mkdir -p "$folder/lists/partial" "$folder/cache/archives/partial" "$folder/sources"
    : > "$folder/status"
    printf 'Types: deb\nURIs: %s\nSuites: %s\nComponents: main\nSigned-By: %s\n' \
        "$(debian_archive)" "$suite" /usr/share/keyrings/debian-archive-keyring.gpg \
        > "$folder/sources/debian.sources"
    apt-get "${apt[@]}" update
}

# The name of the kernel that a package without one of its own stands for.
kernel_of() {
    local name
    name=$(apt-cache "${apt[@]}" depends "$1" | sed -nE 's/^ *Depends: (linux-image-[^ ]+)$/\1/p' | sed -n 1p)
    echo "${name:-$1}"
}

# Unpacks packages into a folder: unpack_packages FOLDER PACKAGE..
unpack_packages() {
    local folder=$1 package
    shift
    mkdir -p "$folder/debs" || return
    (cd "$folder/debs" && apt-get "${apt[@]}" download "$@") || return
    for package in "$folder/debs"/*.deb; do
        dpkg-deb -x "$package" "$folder" || return
    done
    rm -r "$folder/debs"
}

# Downloads a package of a suite, with all that it depends on, into a folder: fetch_package PACKAGE SUITE FOLDER
fetch_package() {
    local part=$3.part needed
    rm -rf "$part"
    mkdir -p "$part"
    use_suite "$2" "$part/apt" || return
    mapfile -t needed < <(apt-get "${apt[@]}" install -y -s --no-install-recommends "$1" |
        sed -nE 's/^Inst ([^ ]+) .*/\1/p')
    [ ${#needed[@]} -gt 0 ] || return
    unpack_packages "$part/unpacked" "${needed[@]}" || return
    mv "$part/unpacked" "$3" || return
    rm -rf "$part"
}

# The same, if the folder isn't there: need_package NAME PACKAGE SUITE FOLDER. Ends with status 2 if it can't be had.
need_package() {
    local said
    [ ! -e "$4" ] || return 0
    echo "Downloading $1 of Debian's $3 .." >&2
    said=$(mktemp)
    quietly "$said" fetch_package "$2" "$3" "$4" || {
        rm "$said"
        echo "${0##*/}: apt-get cannot download Debian's package $2 of $3" >&2
        exit 2
    }
    rm "$said"
}

# Sets `virtiofsd` to that of a suite, by its own loader and libraries, whatever the machine has, which are downloaded
# into a folder if it isn't there, and `version` to what it says: find_virtiofsd SUITE FOLDER. Ends with status 2 if it
# can't be had.
find_virtiofsd() {
    local libraries=$2/usr/lib/x86_64-linux-gnu
    need_package virtiofsd virtiofsd "$1" "$2"
    virtiofsd=("$libraries/ld-linux-x86-64.so.2" --library-path "$libraries" "$2/usr/libexec/virtiofsd")
    # shellcheck disable=SC2034
    version=$("${virtiofsd[@]}" --version)
}

# Sets `qemu` to that of a suite, as find_virtiofsd does: find_qemu SUITE FOLDER.
find_qemu() {
    local libraries=$2/usr/lib/x86_64-linux-gnu
    need_package QEMU qemu-system-x86 "$1" "$2"
    export QEMU_MODULE_DIR=$libraries/qemu
    # shellcheck disable=SC2034
    qemu=("$libraries/ld-linux-x86-64.so.2" --library-path "$libraries" "$2/usr/bin/qemu-system-x86_64"
        -L "$2/usr/share/qemu" -L "$2/usr/share/seabios")
}

# Runs a command with what it says in a file, and where it fails shows that, without the names of the places
# that it asked: quietly FILE COMMAND..
quietly() {
    local said=$1
    shift
    if ! "$@" > "$said" 2>&1; then
        sed -E 's,https?://[^ ]*,(an archive),g' "$said" >&2
        return 1
    fi
}

# Sets `beside` to a folder with libfuse's passthrough_ll, built from its sources, bindfs and their `versions`, which is
# made if it isn't there, and has programs find libfuse's library. It wants cc.
# shellcheck disable=SC2154
get_passthrough() {
    beside=$here/out/share-speed
    if [ ! -x "$beside/passthrough_ll" ]; then
        echo "Downloading libfuse's sources and bindfs .." >&2
        rm -rf "$beside"
        mkdir -p "$beside"
        quietly "$beside/said" make_passthrough "$beside" || exit 1
    fi
    LD_LIBRARY_PATH=$(dirname "$(find "$beside" -name libfuse3.so.3 -print -quit)")
    export LD_LIBRARY_PATH
}

# Builds it, and unpacks bindfs, into a folder: make_passthrough FOLDER
make_passthrough() {
    local folder=$1 suite
    suite=$(. /etc/os-release && echo "$VERSION_CODENAME")
    use_suite "$suite" "$folder" || return
    sed 's/^Types: deb$/Types: deb-src/' "$folder/sources/debian.sources" > "$folder/sources/source.sources"
    apt-get "${apt[@]}" update || return
    unpack_packages "$folder" libfuse2 libfuse3-3 libfuse3-dev bindfs || return
    (cd "$folder" && apt-get "${apt[@]}" --download-only source fuse3 && tar -xf fuse3_*.orig.tar.?z) || return
    apt-cache "${apt[@]}" show libfuse3-3 bindfs | sed -n 's/^Version: //p' > "$folder/versions" || return
    # (last, since it is by this that the folder counts as made)
    cc -O2 -w -D_FILE_OFFSET_BITS=64 -pthread -I "$folder/usr/include/fuse3" -o "$folder/passthrough_ll" \
        "$folder"/fuse-*/example/passthrough_ll.c "$folder"/lib/*/libfuse3.so.3
}
