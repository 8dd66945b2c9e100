#!/bin/sh
# Installs the files beside it: headers, libraries, programs and manual pages.
#
# Usage: ./install.sh [--uninstall] [DESTDIR [PREFIX]]
#
# It installs into DESTDIR/PREFIX, for use from PREFIX, which is /usr/local by default; DESTDIR is empty by default. An earlier
# installation there is removed first. PREFIX/share/nizwarf/installed lists the installed files. With --uninstall these are
# removed, and nothing is installed.
# Exit status 0: it was done; 1: it failed; 2: an argument is invalid.
set -eu
export LC_ALL=C
umask 022
case ${1:-} in
    -h | --help)
        sed -n '2,${/^#/!q;s/^# \{0,1\}//p;}' "$0"
        exit 0
        ;;
esac

uninstall=
if [ "${1:-}" = --uninstall ]; then
    uninstall=yes
    shift
fi
destdir=${1:-}
prefix=${2:-/usr/local}
case $#:$prefix:${destdir:-/} in
    [012]:/*:/*) ;;
    *)
        echo "Usage: ./install.sh [--uninstall] [DESTDIR [PREFIX]], two absolute paths, where DESTDIR may be ''" >&2
        exit 2
        ;;
esac
cd "$(dirname "$0")"
root=$destdir${prefix%/}
list=$root/share/nizwarf/installed

# Removes the listed files, and directories that were created for them, if they are empty.
remove() {
    sort -r "$list" | while IFS= read -r path; do
        case $path in
            */) rmdir "$root/$path" 2> /dev/null || true ;;
            *) rm -f "$root/$path" ;;
        esac
    done
}

if [ -e "$list" ]; then
    remove
elif [ -n "$uninstall" ]; then
    echo "install.sh: nothing is installed in '$root': '$list' does not exist" >&2
    exit 1
fi
if [ -n "$uninstall" ]; then
    echo "Nizwarf was removed from $root."
    exit 0
fi

mkdir -p "$root"
# (in a directory that only root can write to, because any user may put a link next to a file of mktemp)
lists=$(mktemp -d)
trap 'rm -rf "$lists"' EXIT
# Directories in the order of their names, so that parents are created first. Those that existed before are not removed
# later.
find . -mindepth 1 -type d | sed 's,^\./,,' | sort | while IFS= read -r folder; do
    if [ ! -d "$root/$folder" ]; then
        mkdir "$root/$folder"
        echo "$folder/" >> "$lists/folders"
    fi
done
touch "$lists/folders"
# (this script is in the top directory, and is not installed)
find . -mindepth 2 ! -type d | sed 's,^\./,,' | sort > "$lists/files"
# The list is written first, so that an incomplete installation can be removed.
{
    cat "$lists/folders" "$lists/files"
    echo share/nizwarf/installed
} > "$list"
while IFS= read -r file; do
    # (replaced, not overwritten, because a program may be running)
    rm -f "$root/$file"
    cp -P "$file" "$root/$file"
done < "$lists/files"
for file in lib/pkgconfig/*.pc; do
    awk -v prefix="$prefix" '/^prefix=/ { $0 = "prefix=" prefix } { print }' "$file" > "$root/$file"
done
# Managers of virtual machines and of services use absolute paths.
for file in share/qemu/vhost-user/60-nizwarf-share.json lib/systemd/system/nizwarf-share@.service; do
    awk -v prefix="${prefix%/}" '{ sub("/usr/local", prefix) } { print }' "$file" > "$root/$file"
done

echo "Nizwarf was installed in $root."
if [ -z "$destdir" ]; then
    echo "Run \`ldconfig\` as root, so that the linker finds the shared library."
fi
