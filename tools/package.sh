#!/usr/bin/env bash
# Packs the libraries for C as one, shared and static, with headers, manual pages and programs: as packages of Debian, and as
# a tarball that can be installed under any prefix.
#
# Usage: tools/package.sh [--unproved] [--check] [--no-demo] [--out DIRECTORY]
# It writes to out/packages, or to DIRECTORY:
#
#   libnizwarf1_VERSION_ARCH.deb       the shared library of the protocol
#   libnizwarf-fuse1_VERSION_ARCH.deb  the shared library that serves /dev/fuse
#   libnizwarf-dev_VERSION_ARCH.deb    headers, the static libraries, manual pages, examples
#   nizwarf_VERSION_ARCH.deb           the programs that programs/Makefile lists, nizwarf-demo and
#                                      nizwarf-decode
#   nizwarf-VERSION-linux-ARCH.tar.gz  all of these, with an install.sh
#
# The libraries and the programs of the demo are the proved ones. If one is not proved, or has a newer source, it is proved
# first, which takes minutes, or half an hour on four processors if no crate was proved before. The file build-info in
# share/doc lists the commit, the tools, and which libraries are proved. The same objects and compiler give the same bytes.
#
#   --unproved  use the libraries that are proved, and build the others without a proof, in a minute or two each; the
#               version then ends in ~unproved
#   --check     make all twice and compare; lintian must find no error in the packages, and mandoc none in the pages
#   --no-demo   leave out nizwarf-demo and nizwarf-decode
#
# It requires a C compiler with binutils, Python, libseccomp-dev and the Rattle toolchain. Without dpkg-deb it makes only the
# tarball, and prints so.
# Exit status 0: all is made, and with --check correct; 1: it failed; 2: it could not start.
set -euo pipefail
. "$(dirname "$0")/lib/usage.sh"
. "$(dirname "$0")/lib/transport.sh"
. "$(dirname "$0")/lib/messages.sh"
. "$(dirname "$0")/lib/debs.sh"
. "$(dirname "$0")/lib/man.sh"
# shellcheck disable=SC2154
session=$crate library=()

check='' unproved='' part_count=2
demo=yes
out=
while [ $# -gt 0 ]; do
    case $1 in
        --check) check=yes part_count=4 ;;
        --unproved) unproved=yes ;;
        --no-demo) demo= ;;
        --out)
            [ $# -ge 2 ] || { echo "package.sh: option '--out' requires an argument" >&2 && exit 2; }
            out=$(realpath -m "$2")
            shift
            ;;
        *)
            echo "Usage: tools/package.sh [--unproved] [--check] [--no-demo] [--out DIRECTORY]" >&2
            exit 2
            ;;
    esac
    shift
done
out=${out:-$here/out/packages}
need_x86_64
for command in ld nm objcopy objdump readelf strip; do
    need "$command" "To install it: apt-get install binutils"
done
need cc "To install it: apt-get install gcc libc6-dev"
need make "To install it: apt-get install make"
need gzip "To install it: apt-get install gzip"
need python3 "To install it: apt-get install python3"

# The compiler options of libraries and programs.
hardened=(-O2 -D_FORTIFY_SOURCE=2 -fstack-protector-strong -fstack-clash-protection -fcf-protection
    "-ffile-prefix-map=$here=.")
# The programs, as programs/Makefile lists them; and Debian's name of this kind of machine.
programs=$(make -s -f "$here/programs/Makefile" list)
triplet=x86_64-linux-gnu
work=$(mktemp -d)
trap 'rm -rf "$work"' EXIT

# Finds the parts of the packages: `packed` are the static libraries, `code` the C files, and `proved` is set if all
# libraries are proved.
find_parts() {
    local name parts=(nizwarf_codec nizwarf_tree nizwarf_border)
    [ -z "$demo" ] || parts+=(vfs_demo vfs_decode)
    [ -n "$unproved" ] || prove_crates "${parts[@]}"
    proved=yes
    for name in "${parts[@]}"; do
        has_proof "$name" || proved=
    done
    for name in nizwarf_codec nizwarf_tree; do
        find_library "$name"
        packed+=("$archive")
        code+=("${sources[@]}")
    done
    find_border
    [ -z "$demo" ] || build_programs vfs_demo vfs_decode
    set_source nizwarf "$release"
    note=", proved"
    [ -n "$proved" ] || note=" (NOT PROVED: this build has no proof)"
    tell_build "${parts[@]}" > "$work/build-info"
}

# Links a library and its dependencies to one object, in which only the library's own names are global: join_library
# LIBRARY OBJECT.
join_library() {
    # (because the two libraries share crates, but must not share names)
    ld -r -o "$2" --whole-archive "$1" --no-whole-archive "$heap"
    keep_own_names "$2"
}
keep_own_names() {
    objcopy --wildcard --keep-global-symbol='nizwarf_*' --strip-unneeded --remove-section=.comment \
        --remove-section='.note.gnu*' --remove-section=.llvm_addrsig --remove-section='.rela.llvm_addrsig' "$1"
}

# The functions that headers declare: declared HEADER..; and those with inline functions.
declared() {
    sed -nE '/^static /d; s/^([a-z]\w* )+\*?(nizwarf_\w+)\(.*/\2/p' "$@" | sort
}
functions() {
    { declared "$here"/include/*.h && sed -nE 's/^static inline .*\b(nizwarf_\w+)\(.*/\1/p' "$here"/include/*.h; } | sort
}

# Makes the libraries in a directory.
make_libraries() {
    local folder=$1 sources=("${code[@]}") headers=("$here"/include/nizwarf{,_ops,_tree}.h)
    mkdir -p "$folder" "$work/objects" "$work/fuse"
    compile_sources "$work/objects" "${hardened[@]}"
    join_library "${packed[0]}" "$work/codec.o"
    join_library "${packed[1]}" "$work/tree.o"
    make_library "$folder" libnizwarf "$work/codec.o" "$work/tree.o" "$work"/objects/*.o
    link_library "$folder" libnizwarf libc.so.6
    compare_names "$folder" libnizwarf "${headers[@]}"

    find_fuse
    compile_sources "$work/fuse" "${hardened[@]}"
    # (so what the files of a library call each other has no name outside)
    ld -r -o "$work/fuse.o" "$work"/fuse/*.o
    keep_own_names "$work/fuse.o"
    make_library "$folder" libnizwarf-fuse "$work/fuse.o"
    # (the loader, for variables of a thread)
    link_library "$folder" libnizwarf-fuse "ld-linux-x86-64.so.2 libc.so.6 $soname" "$folder/$soname"
    compare_names "$folder" libnizwarf-fuse "$here/include/nizwarf_fuse.h"
}

# Makes a static library of objects: make_library FOLDER LIBRARY OBJECT..
make_library() {
    rm -f "$1/$2.a"
    ar rcsD "$1/$2.a" "${@:3}"
}

# Links a static library as a shared one, with others, and compares what it needs: link_library FOLDER LIBRARY NEEDED OTHER..
link_library() {
    local folder=$1 name=$2.so.1 needed
    cc -shared -o "$folder/$name.${release#*.}" -Wl,-soname,"$name" \
        -Wl,--version-script="$packaging/${2#lib}.map" -Wl,-Bsymbolic-functions \
        -Wl,-z,defs,-z,relro,-z,now,--gc-sections,--build-id=sha1 \
        -Wl,--whole-archive "$folder/$2.a" -Wl,--no-whole-archive "${@:4}"
    strip --strip-unneeded --remove-section=.comment "$folder/$name.${release#*.}"
    chmod 644 "$folder/$name.${release#*.}"
    ln -sf "$name.${release#*.}" "$folder/$name"
    ln -sf "$name" "$folder/$2.so"
    needed=$(needed_by "$folder/$name" | paste -sd ' ')
    [ "$needed" = "$3" ] || wrong "$name needs $needed, and not $3 alone."
}

# Compares the symbols of a library with its version script and its headers: compare_names DIRECTORY LIBRARY HEADER..
compare_names() {
    local map=$packaging/${2#lib}.map others
    # (three fields: address, type, name)
    others=$(nm --defined-only --extern-only "$1/$2.a" | awk 'NF == 3 && $3 !~ /^nizwarf_/ { print $3 }' | paste -sd ' ')
    [ -z "$others" ] || wrong "symbols of $2.a do not begin with nizwarf_: $others"
    [ "$(declared "${@:3}")" = "$(mapped "$map" | sed 's/@.*//' | sort)" ] \
        || wrong "$map differs from the functions that the headers declare"
    others=$(exported "$1/$2.so" | comm -3 - <(mapped "$map" | sort) | tr -d '\t' | paste -sd ' ')
    [ -z "$others" ] || wrong "$2.so and $map differ in: $others"
}

# The functions of a version script, as NAME@NODE: mapped SCRIPT
mapped() {
    awk '/^NIZWARF_/ { node = $1 } /^\tnizwarf_/ { sub(";", "", $1); print $1 "@" node }' "$1"
}

# The functions that a shared library exports, in the same form.
exported() {
    nm -D --defined-only "$1" | awk '$2 == "T" { sub("@@", "@", $3); print $3 }' | sort
}

# Calls a command with the name of each program: for_programs COMMAND..
for_programs() {
    local name
    for name in $programs; do
        "$@" "$name"
    done
}

# Builds the programs in a directory: put_programs DIRECTORY LIBRARY.
put_programs() {
    mkdir -p "$1"
    # shellcheck disable=SC2086
    make -s -C "$1" -f "$here/programs/Makefile" $programs LIBRARY="$2" BORDER="$border" INCLUDE="$here/include" CPPFLAGS= LDLIBS= \
        CFLAGS="${hardened[*]} -Wall -Wextra -fPIE -pie" LDFLAGS=-Wl,-z,relro,-z,now
    for_programs strip_program "$1"
}
strip_program() {
    strip --remove-section=.comment --remove-section=.note "$1/$2"
}

# Prints the path of a program's manual page.
page_of() {
    echo "$packaging/man/$1".[18]
}

# Prints the name of a program whose usage or version has another name: misnamed DIRECTORY NAME.
misnamed() {
    { [[ $("$1/$2" --version) == "$2 $release, "* ]] && [[ $("$1/$2" --help) == "Usage: $2 "* ]]; } || echo "$2"
}

# Prints options of a program's --help that its manual page lacks: unexplained DIRECTORY NAME.
unexplained() {
    local word page
    page=$(sed 's/\\-/-/g' "$(page_of "$2")")
    for word in $("$1/$2" --help | sed -nE 's/^  ([^ ].*)$/\1/p' | sed 's/  .*//' | grep -oE '[a-z][a-z0-9_-]+'); do
        grep -qw -- "$word" <<< "$page" || echo "$2: $word"
    done
}

# Installs nizwarf-demo and nizwarf-decode below a directory, with their programs and the stored session.
put_demo() {
    local name
    [ -n "$demo" ] || return 0
    mkdir -p "$1"/{bin,libexec/nizwarf,share/nizwarf}
    for name in nizwarf-demo nizwarf-decode; do
        sed "s/@VERSION@/$release/" "$packaging/$name" > "$1/bin/$name"
        chmod 755 "$1/bin/$name"
        [ -z "$(misnamed "$1/bin" "$name")" ] || wrong "$name does not print its name and version"
    done
    for name in vfs_demo vfs_decode; do
        install -m 755 "$(path_of "$name")" "$1/libexec/nizwarf/"
        strip --remove-section=.comment --remove-section=.note "$1/libexec/nizwarf/$name"
    done
    install -m 644 "$session/stdin" "$1/share/nizwarf/session"
    install -m 644 "$session/stdout" "$1/share/nizwarf/answers"
}

# Installs the examples and the programs, with their Makefile, in a directory.
put_examples() {
    mkdir -p "$1"
    install -m 644 "$here/programs/Makefile" "$here"/examples/c/*.c "$1/"
    (cd "$here/programs" && find . -name '*.[ch]' -exec install -Dm 644 {} "$1/{}" \;)
}

# Installs a manual page in a directory, if its program is packed. A page of functions gets links with the names of its
# section NAME.
put_page() {
    local page=$1 folder=$2 name=${1##*/} section=${1##*.} function
    case $section in
        3)
            mkdir -p "$folder/man3"
            install -m 644 "$page" "$folder/man3/"
            sed -nE '/^\.Sh NAME/,/^\.Sh [^N]/s/^\.Nm (\w+).*/\1/p' "$page" | while read -r function; do
                [ "$function.3" = "$name" ] || echo ".so man3/$name" > "$folder/man3/$function.3"
            done
            ;;
        *)
            ! [ -e "$folder/../../bin/${name%.*}" ] || install -Dm 644 "$page" "$folder/man$section/$name"
            ;;
    esac
}

# Installs the files by which the system starts nizwarf-share below a directory: the name that mount(8) looks for, with a
# page, and the units of systemd.
put_system() {
    local helper=mount.fuse.nizwarf-share
    mkdir -p "$1/sbin"
    ln -s ../bin/nizwarf-share "$1/sbin/$helper"
    echo ".so man8/nizwarf-share.8" > "$1/share/man/man8/$helper.8"
    install -Dm 644 "$packaging"/systemd/* -t "$1/lib/systemd/system"
}

# Prints the name of a program without a manual page below a directory: page_missing DIRECTORY NAME.
page_missing() {
    compgen -G "$1/man[18]/$2.[18]" > /dev/null || echo "$2"
}

# Makes the tree of the tarball in a directory. Its programs do not need the shared library.
make_tree() {
    local tree=$1 name page missing
    mkdir -p "$tree"/{include,lib/pkgconfig,share/doc/nizwarf,share/man,share/nizwarf}
    make_libraries "$tree/lib"
    install -m 644 "$here"/include/*.h "$tree/include/"
    for name in nizwarf nizwarf-fuse; do
        sed -e "s/@NOTE@/$note/" -e "s/@VERSION@/$release/" "$packaging/$name.pc.in" > "$tree/lib/pkgconfig/$name.pc"
    done
    put_programs "$tree/bin" "$tree/lib/libnizwarf.a"
    missing=$(for_programs misnamed "$tree/bin")
    [ -z "$missing" ] || wrong "programs do not print their name and version: $missing"
    put_demo "$tree"
    put_examples "$tree/share/doc/nizwarf/examples"
    "$packaging/man.py" "$work/man"
    for page in "$work"/man/*.[1-8]; do
        put_page "$page" "$tree/share/man"
    done
    put_system "$tree"
    missing=$(functions | while read -r name; do
        { [ -e "$tree/share/man/man3/$name.3" ] && grep -qx "\.Ss $name" "$work"/man/*.3; } || echo "$name"
    done)
    [ -z "$missing" ] || wrong "functions of the headers have no manual page: $missing"
    hold_pages "$work/man" || wrong "manual pages of functions"
    missing=$(for_programs page_missing "$tree/share/man")
    [ -z "$missing" ] || wrong "programs have no manual page: $missing"
    missing=$(for_programs unexplained "$tree/bin")
    [ -z "$missing" ] || wrong "options of --help are missing in the manual pages: $missing"
    install -m 644 "$here"/{CHANGELOG.md,NOTICE.md,LICENSE-*} "$work/build-info" "$tree/share/doc/nizwarf/"
    install -Dm 644 "$packaging/60-nizwarf-share.json" -t "$tree/share/qemu/vhost-user"
    install -m 755 "$packaging/install.sh" "$tree/"
}

make_tarball() {
    local tree=$1 name=nizwarf-$version-linux-x86_64
    set_times "$tree"
    # (the bytes do not depend on the user)
    tar --sort=name --owner=0 --group=0 --numeric-owner --format=gnu --transform "s,^\.,$name," -C "$tree" -cf - . \
        | gzip -9n > "$2/$name.tar.gz"
}

# Makes the package of a shared library of the tree: make_library_deb TREE DIRECTORY OUT LIBRARY
make_library_deb() {
    local name=$4 package=${4}1 lib=usr/lib/$triplet root
    root=$2/$package
    mkdir -p "$root/$lib" "$root/DEBIAN"
    cp -P "$1/lib/$name.so.1"* "$root/$lib/"
    echo "$name 1 $package (>= $release~)" > "$root/DEBIAN/shlibs"
    {
        echo "$name.so.1 $package #MINVER#"
        echo "* Build-Depends-Package: libnizwarf-dev"
        # (functions of the node NIZWARF_0.4 are in 0.4.0 and later)
        sed -nE 's/^(NIZWARF_(FUSE_)?([0-9.]+)) \{$/ \1@\1 \3.0~/p' "$packaging/${name#lib}.map"
        # (~ includes earlier builds such as ~unproved)
        exported "$root/$lib/$name.so.1" | sed -E 's/^(.*@NIZWARF_(FUSE_)?(.*))$/ \1 \3.0~/'
    } > "$root/DEBIAN/symbols"
    echo "activate-noawait ldconfig" > "$root/DEBIAN/triggers"
    make_deb "$package" "$root" "$3"
}

# The packages of Debian, from the tree of the tarball. Programs link the shared library there.
make_debs() {
    local tree=$1 folder=$2 out=$3 lib=usr/lib/$triplet name root script
    for name in libnizwarf libnizwarf-fuse; do
        make_library_deb "$tree" "$folder" "$out" "$name"
    done

    root=$folder/libnizwarf-dev
    mkdir -p "$root/$lib/pkgconfig" "$root/usr/share/doc/libnizwarf-dev" "$root/usr/share/man"
    cp -P "$tree"/lib/libnizwarf{,-fuse}.{a,so} "$root/$lib/"
    cp -R "$tree/include" "$root/usr/"
    cp -R "$tree/share/man/man3" "$root/usr/share/man/"
    cp -R "$tree/share/doc/nizwarf/examples" "$root/usr/share/doc/libnizwarf-dev/"
    for name in nizwarf nizwarf-fuse; do
        sed -e 's,^prefix=.*,prefix=/usr,' -e "s,/lib\$,/lib/$triplet," "$tree/lib/pkgconfig/$name.pc" \
            > "$root/$lib/pkgconfig/$name.pc"
    done
    make_deb libnizwarf-dev "$root" "$out" "libnizwarf1 (= $version-1)" "libnizwarf-fuse1 (= $version-1)"

    root=$folder/nizwarf
    mkdir -p "$root/usr/share"/{man,qemu/vhost-user}
    put_programs "$root/usr/bin" "$tree/lib/$soname"
    put_demo "$root/usr"
    sed 's,/usr/local/,/usr/,' "$packaging/60-nizwarf-share.json" \
        > "$root/usr/share/qemu/vhost-user/60-nizwarf-share.json"
    find "$tree/share/man" -mindepth 1 -maxdepth 1 ! -name man3 -exec cp -R {} "$root/usr/share/man/" \;
    put_system "$root/usr"
    sed -i 's,/usr/local/,/usr/,' "$root"/usr/lib/systemd/system/*.service
    mkdir -p "$root/DEBIAN"
    for script in postinst prerm postrm; do
        install -m 755 "$packaging/scripts/$script.sh" "$root/DEBIAN/$script"
    done
    make_deb nizwarf "$root" "$out"
}

# Makes everything in a directory.
make_all() {
    local folder
    folder=$(mktemp -d -p "$work")
    mkdir -p "$1"
    make_tree "$folder/tree"
    make_tarball "$folder/tree" "$1"
    if [ -n "$debs" ]; then
        make_debs "$folder/tree" "$folder" "$1"
    fi
}

packed=() code=()
part "the libraries"
find_parts
debs=yes
if ! command -v dpkg-deb > /dev/null; then
    debs=
    echo "package.sh: dpkg-deb is not installed: making only the tarball" >&2
fi
part "programs, pages and packages"
tell_of_filter
make_all "$work/out"
if [ -n "$check" ]; then
    part "the same again, for comparison"
    make_all "$work/again"
    diff -r "$work/out" "$work/again" || wrong "two builds differ"
    echo "Two builds are identical."
    part "lintian and mandoc"
    [ -z "$debs" ] || hold_lintian "$work"/out/*.deb
    if command -v mandoc > /dev/null; then
        mandoc -T lint -W warning "$work"/man/*.[1-8] || wrong "mandoc finds errors in the manual pages"
        echo "mandoc finds no error in the manual pages."
    else
        echo "package.sh: mandoc is not installed. To install it: apt-get install mandoc" >&2
    fi
fi
mkdir -p "$out"
# (the directory must contain only one version)
rm -f "$out"/{libnizwarf1,libnizwarf-fuse1,libnizwarf-dev,nizwarf}_*.deb "$out"/nizwarf-*.tar.gz
mv "$work"/out/* "$out/"
(cd "$out" && stat -c '%8s  %n' ./*nizwarf* | sed 's,\./,,')
echo "They are in $out."
