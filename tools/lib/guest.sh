# For the scripts that boot a virtual machine of Debian's kernel and busybox: they source usage.sh and debian.sh first,
# know where they are by `here`, and make the folder `work`.
# shellcheck shell=bash disable=SC2154

# Downloads the kernel and busybox, where they aren't there yet: fetch_guest PACKAGE SUITE.
fetch_guest() {
    use_suite "" ""
    if [ ! -e "$busybox" ]; then
        unpack_packages "$work/busybox" busybox-static || return
        mkdir -p "${busybox%/*}"
        cp "$(find "$work/busybox" -name busybox -type f -perm /111 | sed -n 1p)" "$busybox" || return
    fi
    if [ ! -e "$kernel" ]; then
        use_suite "$2" "$work/apt" || return
        unpack_packages "$work/kernel" "$(kernel_of "$1")" || return
        mv "$work/kernel" "$kernel" || return
    fi
}

# Sets `busybox`, and `kernel` to the folder of that package's files: find_guest [PACKAGE[/SUITE]].
find_guest() {
    local name=${1:-linux-image-cloud-amd64} command suite
    for command in apt-get apt-cache dpkg-deb; do
        need "$command" "It is required because the kernel and busybox are packages of Debian."
    done
    need xz "To install it: apt-get install xz-utils"
    busybox=$here/out/guest/busybox
    kernel=$here/out/guest/${name//\//-}
    # (`/SUITE`, or nothing if there is no slash)
    suite=${name#"${name%/*}"}
    [ ! -e "$busybox" ] || [ ! -e "$kernel" ] || return 0
    echo "Downloading $name .." >&2
    mkdir -p "$here/out/guest"
    quietly "$work/said" fetch_guest "${name%/*}" "${suite#/}" || {
        echo "${0##*/}: apt-get cannot download $name and busybox-static: run apt-get update" >&2
        exit 2
    }
}

# Puts what a guest has for its files into a folder, busybox, the modules of virtio-fs and its first program, and sets
# `modules`: put_guest FOLDER INIT.
put_guest() {
    local module file
    mkdir -p "$1"/{bin,dev,etc,mnt,modules,proc,tmp}
    # Two users, since a person's session is another user's too.
    printf '%s\n' root:x:0:0::/:/bin/sh nobody:x:65534:65534::/:/bin/sh > "$1/etc/passwd"
    printf '%s\n' root:x:0: nogroup:x:65534: > "$1/etc/group"
    cp "$busybox" "$1/bin/"
    # In the order in which they stand on each other; a kernel may have some of them in itself.
    modules='virtio_ring virtio virtio_pci_modern_dev virtio_pci_legacy_dev virtio_pci fuse virtiofs'
    for module in $modules; do
        file=$(find "$kernel" -name "$module.ko" -o -name "$module.ko.xz" | sed -n 1p)
        case $file in
            *.xz) xz -dc "$file" > "$1/modules/$module.ko" ;;
            *.ko) cp "$file" "$1/modules/" ;;
        esac
    done
    cp "$here/tests/lib/guest-begin.sh" "$1/begin"
    cp "$2" "$1/init"
    chmod +x "$1/init"
}

# Waits until a server listens, which QEMU wants before it starts, a minute at most, or tells that it is gone:
# await_listener PATH PID.
await_listener() {
    local until=$((SECONDS + 60))
    while [ ! -S "$1" ]; do
        if [ "$SECONDS" -ge "$until" ] || ! kill -0 "$2" 2> /dev/null; then
            echo "${0##*/}: nothing listens on '$1'" >&2
            return 1
        fi
        sleep 0.05
    done
}

# Packs such a folder as what a kernel begins with: pack_guest FOLDER FILE.
pack_guest() {
    (cd "$1" && find . | "$busybox" cpio -o -H newc 2> /dev/null) > "$2"
}
