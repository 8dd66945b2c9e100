# For the scripts that build libfuse with the layer here, and run programs over it.
# shellcheck shell=bash

# What is wanted to build it, for need_packages.
# shellcheck disable=SC2034
to_build=("apt-get apt" "apt-cache apt" "patch patch" "xz xz-utils" "cc gcc libc6-dev" "g++ g++" "meson meson"
    "ninja ninja-build" "pkg-config pkg-config" "readelf binutils" "python3 python3")

# Builds a program without a library, as with sanitizers, of the sources that tools/libfuse.sh left in a folder for a suite, and of a file:
# compile_libfuse FOLDER SUITE FILE TO FLAGS.. It wants transport.sh.
# shellcheck disable=SC2154
compile_libfuse() {
    local built=$1/$2-nizwarf file=$3 to=$4 sources
    # (without what is BSD's, and the ring of io_uring)
    mapfile -t sources < <(find "$built/tree/lib" -maxdepth 1 -name '*.c' ! -name mount_bsd.c ! -name fuse_uring.c)
    cc -w -g -O1 -fno-omit-frame-pointer "${@:5}" -D_GNU_SOURCE -D_FILE_OFFSET_BITS=64 -DFUSE_USE_VERSION=317 \
        -DFUSERMOUNT_DIR='"/usr/bin"' -DHAVE_CUSTOM_IO -I "$built/build" -I "$built/tree/include" \
        -I "$built/tree/lib" -I "$here/include" -include fuse_config.h -o "$to" "$file" "${sources[@]}" "$built"/tree/lib/modules/*.c \
        "${library[@]:?find_library sets it}" -pthread -ldl
}

# Unpacks packages of a suite of Debian, with all that they depend on, into a folder that is a root: unpack_root ROOT
# SUITE PACKAGE.. It wants debian.sh, as what follows does.
# shellcheck disable=SC2154
unpack_root() {
    local root=$1.part suite=$2 packages name
    rm -rf "$root"
    mkdir -p "$root"/usr/{bin,sbin,lib,lib64} "$root"/{etc,proc,dev,run,tmp,lib-of-it,work,here}
    for name in bin sbin lib lib64; do ln -s "usr/$name" "$root/$name"; done
    use_suite "$suite" "$root/apt" || return
    mapfile -t packages < <(apt-get "${apt[@]}" install -y -s --no-install-recommends bash coreutils diffutils grep sed \
        util-linux mount fuse3 "${@:3}" | sed -nE 's/^Inst ([^ ]+) .*/\1/p')
    [ ${#packages[@]} -gt 0 ] || return
    mkdir "$root/debs"
    (cd "$root/debs" && apt-get "${apt[@]}" download "${packages[@]}") || return
    for name in "$root"/debs/*.deb; do
        dpkg-deb --fsys-tarfile "$name" | tar -x -C "$root" --keep-directory-symlink || return
    done
    rm -r "$root/debs" "$root/apt"
    # (sshd gives up its privileges to a user of its own)
    printf '%s\n' 'root:x:0:0::/root:/bin/bash' 'sshd:x:100:100::/run/sshd:/bin/false' > "$root/etc/passwd"
    ln -s /proc/self/mounts "$root/etc/mtab" || return
    mv "$root" "$1"
}

# Mounts what programs want in such a root, and a folder as `work`, in a mount namespace of its own; and a library of
# libfuse, if it is given: bind_root ROOT WORK LIB. It sets `search` to where that is found then.
# shellcheck disable=SC2034,SC2154
bind_root() {
    mount --bind "$here" "$1/here"
    mount -t proc none "$1/proc"
    mount --rbind /dev "$1/dev"
    mount -t tmpfs none "$1/run"
    mount -t tmpfs none "$1/tmp"
    mkdir -p "$2"
    mount --bind "$2" "$1/work"
    search=''
    [ "$3" = - ] || { mount --bind "$3" "$1/lib-of-it" && search=/lib-of-it; }
}

# Unpacks of the sources of packages what these patterns name, without Debian's changes: unpack_sources FOLDER SUITE
# "PACKAGE PATTERN.."..
unpack_sources() {
    local folder=$1 part=$1.part words it
    rm -rf "$part"
    mkdir -p "$part/tree"
    use_suite "$2" "$part/apt" || return
    sed 's/^Types: deb$/Types: deb-src/' "$part/apt/sources/debian.sources" > "$part/apt/sources/source.sources"
    apt-get "${apt[@]}" update || return
    for it in "${@:3}"; do
        read -ra words <<< "$it"
        mkdir "$part/${words[0]}"
        # (a mirror may have Debian's changes no more)
        (cd "$part" && apt-get "${apt[@]}" --download-only source "${words[0]}") || true
        tar -C "$part/${words[0]}" --strip-components=1 --wildcards -xf "$part/${words[0]}"_*.orig.tar.?z \
            "${words[@]:1}" || return
        mv "$part/${words[0]}" "$part/tree/" || return
    done
    mv "$part/tree" "$folder" || return
    rm -rf "$part"
}
