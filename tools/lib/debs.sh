# For the scripts that make packages of Debian: they source transport.sh first, make the folder `work`, and call
# set_source, and say in `proved` whether what is packed is. What they pack has the parts of packaging/control.
# shellcheck shell=bash

# shellcheck disable=SC2034,SC2154
packaging=$here/packaging architecture=amd64
# The version, as MAJOR.MINOR.PATCH.
release=$(sed -nE 's/^#define NIZWARF_VERSION_(MAJOR|MINOR|PATCH) ([0-9]+)$/\2/p' "$here/include/nizwarf.h" | paste -sd .)
# The time of the last commit; in sources that are no clone, that of their changes.
SOURCE_DATE_EPOCH=${SOURCE_DATE_EPOCH:-$(git -C "$here" log -1 --format=%ct 2> /dev/null || stat -c %Y "$here/CHANGELOG.md")}
export SOURCE_DATE_EPOCH
# What the same bytes want: one thread of xz, one order of names, one mode of new files.
export DPKG_DEB_THREADS_MAX=1 LC_ALL=C
umask 022

# Stops, since something is not as it should be.
wrong() {
    echo "${0##*/}: $*" >&2
    exit 1
}

# Sets the name and the version of what is packed, which says if it is not proved: set_source NAME VERSION.
set_source() {
    source=$1 version=$2
    if [ -z "$proved" ]; then
        version=$version~unproved
        echo "NOT PROVED: the version of the packages is $version." >&2
    fi
}

# The library or the program of a crate that is proved.
proved_file() {
    if grep -q "^$1 staticlib" "$here/crates.txt"; then
        echo "$here/crates/$1/out/lib$1.a"
    else
        echo "$here/crates/$1/out/$1"
    fi
}

# Whether a crate is built that is proved, and no source is newer.
has_proof() {
    [ -e "$(proved_file "$1")" ] && is_newest "$(proved_file "$1")"
}

# shellcheck disable=SC2154
# Proves these crates, and what is below them, and builds them, if that isn't done: prove_crates NAME..
prove_crates() {
    local name command stdin file number=0 begun missing=()
    for name in "$@"; do
        has_proof "$name" || missing+=("$name")
    done
    [ ${#missing[@]} != 0 ] || return 0
    need_toolchain "${missing[0]}"
    echo "Proving ${missing[*]}. This takes minutes, or half an hour on four processors with 8 GB of memory if no crate below" >&2
    echo "was proved before. Use --unproved to pack without a proof." >&2
    for name in "${missing[@]}"; do
        begun=$SECONDS
        echo "  $((++number)) of ${#missing[@]}: $name" >&2
        command=run stdin=/dev/null file=$(proved_file "$name")
        [[ $file != *.a ]] || command=lib
        [ ! -e "$here/crates/$name/stdin" ] || stdin=$here/crates/$name/stdin
        (cd "$here/crates/$name" && rt "$command") < "$stdin" > "$work/proof" 2>&1 \
            || { tail -n 20 "$work/proof" >&2 && wrong "$name is not proved"; }
        # (it stays as old as it was if nothing of it changed)
        touch "$file"
        echo "  $name is proved: $((SECONDS - begun)) s" >&2
    done
}

# A crate, and all that it is built on: its line in crates.txt, and theirs.
crates_below() {
    awk -v names="$*" '
        /^[a-z]/ { name = $1; sub(":$", "", name); sub("^[^:]*:", ""); uses[name] = $0 }
        END {
            count = split(names, waiting)
            while (count) {
                name = waiting[count--]
                if (!(name in uses) || name in seen)
                    continue
                seen[name]
                print name
                more = split(uses[name], used)
                for (i = 1; i <= more; i++)
                    waiting[++count] = used[i]
            }
        }' "$here/crates.txt" | sort
}

# What the packages are built from: tell_build CRATE.., the crates whose libraries and programs are packed.
tell_build() {
    local name commit changes='' gate
    commit=$(git -C "$here" rev-parse HEAD 2> /dev/null) || commit=
    [ -z "$commit" ] || [ -z "$(git -C "$here" status --porcelain --untracked-files=no)" ] || changes=", with changes"
    # (.ci/run leaves `COMMIT: N passed, M failed` there)
    gate=$(sed -n "s/^$commit: //p" "$here/out/gate" 2> /dev/null) || gate=
    [ -n "$commit" ] && [ -z "$changes" ] || gate=
    echo "version: $version"
    echo "commit: ${commit:-unknown}$changes"
    echo "toolchain: $(rt version 2> /dev/null || echo unknown)"
    echo "compiler: $(cc --version | sed -n 1p)"
    echo "gate: ${gate:-not known to have run on this commit}"
    for name in "$@"; do
        if has_proof "$name"; then
            echo "$name: proved, with all below it: $(crates_below "$name" | grep -vx "$name" | paste -sd ' ')"
        else
            echo "$name: unproved"
        fi
    done
}

# The libraries that a program or a library needs.
needed_by() {
    readelf -d "$1" | sed -nE 's/.*\(NEEDED\).*\[(.*)\]$/\1/p' | sort
}

# Sets all times below a folder to that of the last commit.
set_times() {
    find "$1" -exec touch -h -d "@$SOURCE_DATE_EPOCH" {} +
}

# The packages of Debian that what lies below a folder needs, a line each.
depends_of() {
    local file name glibc
    glibc=$(mktemp -p "$work")
    while read -r file; do
        for name in $(needed_by "$file" 2> /dev/null); do
            case $name in
                # Of the C library the greatest version of a symbol, at the end.
                libc.so.6) objdump -T "$file" | sed -nE 's/.*GLIBC_([0-9.]+).*/\1/p' >> "$glibc" ;;
                "$soname") echo "libnizwarf1 (>= $release~)" ;;
                "$fuse_soname") echo "libnizwarf-fuse1 (>= $release~)" ;;
                ld-linux*) ;;
                # (the first line, as `libcap-ng0:amd64: /lib/..`, up to the architecture or the next package)
                *) dpkg-query -S "*/$name" | sed 's/[:,].*//;q' || wrong "no package of Debian has $name, which ${file##*/} needs" ;;
            esac
        done
    done < <(find "$1" -type f ! -name '*.a')
    sort -V "$glibc" | sed -n '$s/.*/libc6 (>= &)/p'
}

# Fills in the template of a package's copyright, and of packaging/control the part of a package.
fill_copyright() {
    local template=$packaging/copyright.in
    [ ! -e "$packaging/copyright-$1.in" ] || template=$packaging/copyright-$1.in
    sed -e "/^@LICENSE-BSD-3-Clause@/{r $here/LICENSE-BSD-3-Clause" -e 'd}' \
        -e "/^@LICENSE-MIT@/{r $here/LICENSE-MIT" -e 'd}' -e "/^@CRATES@/{r $work/crates" -e 'd}' "$template"
}
# Of packaging/control the part of a package: fill_control PACKAGE DEPENDS KIB
fill_control() {
    local package=$1 depends=$2 size=$3 said='/^@NOTE@$/d'
    [ -n "$proved" ] || said='s/^@NOTE@$/ .\n NOT PROVED: this build stands on no proof./'
    sed -n "/^Package: $package\$/,/^\$/p" "$packaging/control" \
        | sed -e '/^$/d' -e "s/@VERSION@/$version-1/" -e "s/@ARCHITECTURE@/$architecture/" -e "s/@SIZE@/$size/" \
            -e "s/@DEPENDS@/$depends/" -e "$said"
}

# The changes of the packages, as Debian has them.
debian_changes() {
    printf '%s (%s-1) unstable; urgency=medium\n\n' "$source" "$version"
    [ -n "$proved" ] || printf '  * NOT PROVED: this build has no proof.\n'
    printf '  * Version %s: changelog.gz has what changed.\n\n' "$release"
    printf ' -- %s  %s\n' "$(sed -n 's/^Maintainer: //p' "$packaging/control" | sed -n 1p)" \
        "$(date -uRd "@$SOURCE_DATE_EPOCH")"
}

# The KiB of what is below a folder, as packages count them: one for what is no file.
size_of() {
    find "$1" -printf '%y %s\n' | awk '{ sum += $1 == "f" ? int(($2 + 1023) / 1024) : 1 } END { print sum }'
}

# Makes the package whose files are below a folder, with what tell_build wrote to `build-info` in the folder `work`:
# make_deb PACKAGE ROOT OUT [DEPENDS].
make_deb() {
    local package=$1 root=$2 out=$3 doc=$2/usr/share/doc/$1 depends
    depends=$({ printf '%s\n' "${@:4}" && depends_of "$root"; } | sed '/^$/d' | sort -u | paste -sd , | sed 's/,/, /g')
    mkdir -p "$root/DEBIAN" "$doc"
    fill_copyright "$package" > "$doc/copyright"
    gzip -9nc "$here/CHANGELOG.md" > "$doc/changelog.gz"
    debian_changes | gzip -9nc > "$doc/changelog.Debian.gz"
    install -m 644 "$work/build-info" "$doc/"
    if [ -e "$packaging/lintian/$package" ]; then
        install -Dm 644 "$packaging/lintian/$package" "$root/usr/share/lintian/overrides/$package"
    fi
    if [ -d "$root/usr/share/man" ]; then
        find "$root/usr/share/man" -type f -exec gzip -9n {} +
    fi
    (cd "$root" && find usr -type f -print0 | sort -z | xargs -0 md5sum) > "$root/DEBIAN/md5sums"
    fill_control "$package" "$depends" "$(size_of "$root/usr")" > "$root/DEBIAN/control"
    set_times "$root"
    dpkg-deb --root-owner-group -Zxz --build "$root" "$out/${package}_$version-1_$architecture.deb" > /dev/null
}

# Holds packages against lintian: hold_lintian PACKAGE..
hold_lintian() {
    if ! command -v lintian > /dev/null; then
        echo "${0##*/}: lintian is not installed. To install it: apt-get install lintian" >&2
        return
    fi
    lintian --allow-root --tag-display-limit 0 --fail-on error "$@" || wrong "lintian finds errors"
    echo "lintian finds no error."
}
