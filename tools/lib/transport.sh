# For the scripts beside it that link the library for C, or another one with the same header; they source
# usage.sh first.
# shellcheck shell=bash
. "$(dirname "${BASH_SOURCE[0]}")/program.sh"

# The name that programs need at run time. Its number is above that of each version whose programs do not run with this
# one.
# shellcheck disable=SC2034
soname=libnizwarf.so.1
# shellcheck disable=SC2034
fuse_soname=libnizwarf-fuse.so.1

# Sets `library` to what a program links, in order: find_library [NAME], which is nizwarf_tree where none is given. These
# are the C files of the library, in `sources`, which are compiled with the program and its flags, as those of sanitizers;
# the static library of the crate, in `archive`; and the C code that this needs, in `heap`. The static library is the proved
# one where it is built and no source is newer; otherwise tools/lib/unproved.sh builds it without a proof. It says which one
# it is.
find_library() {
    local name=${1:-nizwarf_tree}
    local built=$here/crates/$name/out/lib$name.a
    need cc "To install it: apt-get install gcc libc6-dev"
    need rt "The library requires the Rattle toolchain: add its directory bin to PATH."
    if ! grep -q "^$name staticlib:" "$here/crates.txt" || [ ! -d "$here/tools/lib/unproved/$name" ]; then
        echo "${0##*/}: unknown library '$name': create it with \`tools/new-library.sh $name\`" >&2
        exit 2
    fi
    if is_proved "$name"; then
        echo "The library $name is proved." >&2
    else
        built=$here/out/unproved/lib$name.a
        "$here/tools/lib/unproved.sh" "$name"
        echo "The library $name is built without a proof and up to five times slower: \`rt lib\` in crates/$name proves it." >&2
    fi
    # (a library of tools/new-library.sh has the header of nizwarf_tree)
    case $name in
        nizwarf_codec) sources=("$here"/lib/{codec,messages,convert,ops}.c) ;;
        nizwarf_border) sources=() ;;
        *) sources=("$here/lib/server.c") ;;
    esac
    archive=$built heap=$(dirname "$(rt doc)")/c/liblibc_c.a
    library=("${sources[@]}" "$archive" "$heap")
}

# Compiles the C files in `sources` as objects into a folder: compile_sources FOLDER FLAGS..
compile_sources() {
    local file
    for file in "${sources[@]}"; do
        cc -std=c11 -fPIC -Wall -Wextra -Werror "${@:2}" -I "$here/include" -c -o "$1/$(basename "$file" .c).o" "$file" || return
    done
}

# Sets `sources` to the C files of the library libnizwarf-fuse.
find_fuse() {
    local names
    read -ra names < <(make -s -f "$here/programs/Makefile" list-fuse)
    sources=("${names[@]/#/$here/programs/transport/}")
}

# Links the shared libraries of nizwarf_codec and of /dev/fuse into a folder, by the names that they have when they are
# installed: link_shared FOLDER
link_shared() {
    local sources archive heap library
    find_library nizwarf_codec
    rm -f "$1"/libnizwarf.so* "$1"/libnizwarf-fuse.so*
    cc -std=c11 -O2 -fPIC -Wall -Wextra -Werror -I "$here/include" -shared -o "$1/$soname" -Wl,-soname,"$soname" -Wl,-z,defs \
        "${sources[@]}" -Wl,--whole-archive "$archive" -Wl,--no-whole-archive "$heap" || return
    find_fuse
    cc -std=c11 -O2 -fPIC -pthread -Wall -Wextra -Werror -I "$here/include" -shared -o "$1/$fuse_soname" \
        -Wl,-soname,"$fuse_soname" -Wl,-z,defs -Wl,--version-script="$here/packaging/nizwarf-fuse.map" \
        "${sources[@]}" "$1/$soname" || return
    ln -s "$soname" "$1/libnizwarf.so"
    ln -s "$fuse_soname" "$1/libnizwarf-fuse.so"
}

# Whether the proved library is there, and as new as its sources: is_proved NAME
is_proved() {
    local built=$here/crates/$1/out/lib$1.a
    [ -e "$built" ] && is_newest "$built"
}

# Stops a tool that measures where a library is not the proved one, because a library without a proof checks itself as it
# runs and is up to five times slower; unless UNPROVED is not empty, since the user asked for that: need_proved UNPROVED NAME..
need_proved() {
    local name
    for name in "${@:2}"; do
        if [ -z "$1" ] && ! is_proved "$name"; then
            echo "${0##*/}: the library $name is not proved or older than its sources: \`rt lib\` in crates/$name proves it" >&2
            echo "Use --unproved to measure it without a proof, which is up to five times slower." >&2
            exit 2
        fi
    done
}

# Prints for a table which libraries it is of: library_kind NAME..
library_kind() {
    local name
    for name in "$@"; do
        if ! is_proved "$name"; then
            echo "with a library without a proof, which is up to five times slower"
            return
        fi
    done
    echo "with the proved library"
}

# Adds nizwarf_codec to `library`, which prints messages.
link_codec() {
    local others=("${library[@]}") sources archive heap
    find_library nizwarf_codec
    library=("${sources[@]}" "$archive" "${others[@]}")
}

# Sets `border` to the static library that nizwarf-share and nizwarf-vhost want besides.
find_border() {
    local library sources archive heap
    find_library nizwarf_border
    border=$archive
}

# Tells if nizwarf-share would have no filter of system calls.
tell_of_filter() {
    if ! cc -include seccomp.h -fsyntax-only -x c - < /dev/null 2> /dev/null; then
        echo "Building without libseccomp. To install it: apt-get install libseccomp-dev" >&2
    fi
}

# Builds a program of programs/Makefile into a folder, with what `library` has: make_program FOLDER PROGRAM FLAGS..
make_program() {
    need make "To install it: apt-get install make"
    make -s -B -C "$1" -f "$here/programs/Makefile" "$2" CFLAGS="-Wall -Wextra -Werror ${*:3}" \
        LIBRARY="${library[*]}" BORDER="${border:-}" INCLUDE="$here/include" || return 1
}

# Builds the program nizwarf-NAME with a library, and sets `transport` to it: build_transport NAME [LIBRARY
# [FLAGS..]]. One that runs meanwhile, of another tool, stays what it is. With flags, as those of sanitizers, it is
# another program.
build_transport() {
    local name=$1 of=${2:-nizwarf_tree} folder border=
    find_library "$of"
    [ "$name" = mount ] || find_border
    if [ "$name" != share ]; then
        link_codec
    else
        tell_of_filter
    fi
    mkdir -p "$here/out/c"
    folder=$(mktemp -d -p "$here/out/c")
    make_program "$folder" "nizwarf-$name" -O2 "${@:3}"
    transport=$here/out/c/$name-$of$(printf '%s' "${@:3}" | tr -c 'a-z0-9' _)
    # (in one step: two scripts may build it at once)
    mv "$folder/nizwarf-$name" "$transport"
    rmdir "$folder"
}

# The kind of file system that a folder is on: the type of its mount, but fuse.nizwarf of a tree.
kind_of() {
    findmnt -no FSTYPE -T "$1" | tail -n 1 | sed 's/^fuse\.nizwarf-mount$/fuse.nizwarf/'
}
