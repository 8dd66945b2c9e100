#!/usr/bin/env bash
# Packs the daemon of tools/virtiofsd.sh for Debian as virtiofsd-nizwarf, which can be installed beside the distribution's
# virtiofsd: it has the same options and the same description for managers of virtual machines, with another name.
#
# Usage: tools/virtiofsd.sh --package [--unproved] [--check] [DIRECTORY]
# It writes virtiofsd-nizwarf_VERSION_ARCH.deb to the directory of tools/virtiofsd.sh. The program is
# /usr/sbin/virtiofsd-nizwarf, because libvirt's AppArmor profile allows libvirtd to start programs there. Its description has
# a higher number than virtiofsd's, so that a machine uses it if its <binary path=> names it, or if there is no other.
#
# The library is the proved one. If it is not proved, it is proved first, which takes minutes, or half an hour on four
# processors if no crate was proved before. The file build-info in share/doc lists the commit and the tools.
#
#   --unproved  build a library that is not proved without a proof; the version then says so
#   --check     build and pack all twice, in another directory, and compare; lintian must find no error
#
# It requires the programs that tools/virtiofsd.sh requires, and binutils.
# Exit status 0: it is made, and with --check correct; 1: it failed; 2: it could not start.
set -euo pipefail
. "$(dirname "$0")/../tools/lib/usage.sh"
. "$(dirname "$0")/../tools/lib/transport.sh"
. "$(dirname "$0")/../tools/lib/front.sh"
. "$(dirname "$0")/../tools/lib/debs.sh"

# Prints an error and the usage, and exits.
refuse() {
    echo "virtiofsd.sh: $1" >&2
    echo "Usage: tools/virtiofsd.sh --package [--unproved] [--check] [DIRECTORY]" >&2
    exit 2
}

unproved='' check='' folder='' part_count=2
for word in "$@"; do
    case $word in
        --unproved) unproved=yes ;;
        --check) check=yes part_count=4 ;;
        *) take_folder "$word" ;;
    esac
done
for command in objdump readelf strip; do
    need "$command" "To install it: apt-get install binutils"
done
need dpkg-deb "It is required to make the package."
make_folder
work=$(mktemp -d)
trap 'rm -rf "$work"' EXIT
name=virtiofsd-nizwarf
program=/usr/sbin/$name
page=$packaging/man/$name.8

# Lists the crates whose code is in the program, with their licences.
list_crates() {
    (cd "$1/tree" && CARGO_HOME=$1/home cargo tree --offline --prefix none -e normal,no-proc-macro --format '{p}: {l}') \
        | sed -E 's/ \(.*\)//' | sort -u | sed -E '/^(virtiofsd|nizwarf) /d'
}

# Packs the daemon of a directory: pack DIRECTORY OUT.
pack() {
    local root doc
    root=$(mktemp -d -p "$work")
    chmod 755 "$root"
    doc=$root/usr/share/doc/$name
    mkdir -p "$root/usr/sbin" "$doc" "$root/usr/share/qemu/vhost-user" "$2"
    install -m 755 "$1/nizwarf-virtiofsd" "$root$program"
    strip --remove-section=.comment --remove-section=.note "$root$program"
    # The number before a description's name is its priority: virtiofsd's is 50.
    sed "s,\"/usr/libexec/virtiofsd\",\"$program\"," "$1/tree/50-virtiofsd.json" \
        > "$root/usr/share/qemu/vhost-user/60-$name.json"
    grep -q "\"$program\"" "$root/usr/share/qemu/vhost-user/60-$name.json" || wrong "virtiofsd's description does not name its program"
    install -m 644 "$here/bindings/virtiofsd/README.md" "$doc/"
    install -Dm 644 "$page" "$root/usr/share/man/man8/$name.8"
    list_crates "$1" > "$work/crates"
    make_deb "$name" "$root" "$2"
}

part "the daemon"
proved=yes
if [ -n "$unproved" ]; then
    has_proof nizwarf_codec || proved=
else
    prove_crates nizwarf_codec
fi
"$here/tools/virtiofsd.sh" "$folder" > /dev/null
set_source "$name" "1.13.2+nizwarf$release"
{ tell_build nizwarf_codec && cargo --version && rustc --version; } > "$work/build-info"
part "the package"
pack "$folder" "$work/out"
if [ -n "$check" ]; then
    part "the same again in another directory, for comparison"
    mkdir "$work/again"
    # (so that the crates are downloaded once)
    ln -s "$folder/crates" "$work/again/crates"
    "$here/tools/virtiofsd.sh" "$work/again" > /dev/null
    pack "$work/again" "$work/compared"
    diff -r "$work/out" "$work/compared" || wrong "two builds differ"
    echo "Two builds are identical."
    part "lintian"
    hold_lintian "$work"/out/*.deb
fi
rm -f "$folder/$name"_*.deb
mv "$work"/out/*.deb "$folder/"
(cd "$folder" && stat -c '%8s  %n' "$name"_*.deb)
echo "It is in $folder."
