"""mount(8), fstab(5) and systemd start nizwarf-share as its packages install it.

systemd is the first process of namespaces of its own: on a copy of this machine, of which nothing is left, and on a new
Debian 12 with libvirt and QEMU, which debootstrap makes in out/debian/machine and which stays there: 500 MB, and five minutes
once. There it runs the scripts of the folder `system`, one after another."""
import os
import pathlib
import shutil
import subprocess
import tempfile

import pytest
from building import REPOSITORY, need, run, shell

pytestmark = [pytest.mark.fuse, pytest.mark.slow]
DEBIAN = REPOSITORY / "out/debian/machine"
SYSTEM = REPOSITORY / "tests/programs/system"
# What the Debian has before docs/SHARE.md is followed, which installs the packages itself.
HAS = "systemd systemd-sysv dbus kmod procps python3 qemu-system-x86 libvirt-daemon-system libvirt-clients"
MAKE_DEBIAN = """[ "$(cat "$1.made" 2> /dev/null)" != "$2" ] || exit 0
make_debian() {
    rm -rf "$1" "$1.made"; mkdir -p "$1"
    bootstrap_debian "$1" || return
    echo 'APT::Get::Assume-Yes "true";' > "$1/etc/apt/apt.conf.d/91check"
    chroot "$1" env DEBIAN_FRONTEND=noninteractive sh -c "apt-get update -qq && apt-get install -qq --no-install-recommends $2" || return
    rm -f "$1/etc/machine-id"
}
quietly "$1.said" make_debian "$@" || { echo "requires a mirror of Debian 12, from which apt-get downloads packages" >&2; exit 2; }
echo "$2" > "$1.made" """
# Puts a kernel and the files of two guests into a folder: one does what docs/SHARE.md says of a guest, the other what
# nizwarf-vhost(1) says.
PUT_GUESTS = """. tools/lib/guest.sh
at=$1 work=$2
find_guest
mkdir "$work/guest"
put_guest "$work/guest" tests/programs/system/page-guest.sh
echo "modules='$modules'" > "$work/guest/settings"
awk -v section="The guest" -v wanted=1 -f tests/programs/system/page.awk docs/SHARE.md > "$work/guest/commands"
sed -n 's/.*In its fstab: `\\([^`]*\\)`.*/\\1/p' docs/SHARE.md > "$work/guest/etc/fstab"
[ -s "$work/guest/commands" ] && [ -s "$work/guest/etc/fstab" ]
pack_guest "$work/guest" "$at/files"
rm "$work/guest/etc/fstab"
awk -v commands=yes -f packaging/examples.awk packaging/man/nizwarf-vhost.1 | grep '^mount ' > "$work/guest/commands"
pack_guest "$work/guest" "$at/files-of-vhost"
cp "$kernel"/boot/vmlinuz-* "$at/kernel" """
# The scripts run in this order, and none after one that fails.
UNIT = """[Unit]
DefaultDependencies=no
SuccessAction=exit-force
FailureAction=exit-force
[Service]
Type=oneshot
ExecStart=/bin/sh -c 'cd /root/check; for it in {parts}; do {system}/$$it.sh {folder} > $$it 2>&1 || exit 1; touch $$it.passed; done'
TimeoutStartSec=900
"""
# Makes a folder the root, with devices and file systems of a container, and starts systemd.
ENTER = """root=$0
mount -t proc proc "$root/proc"
mount -t sysfs -o ro sysfs "$root/sys"
mount -t cgroup2 none "$root/sys/fs/cgroup"
mount -t tmpfs -o mode=755 none "$root/run"
mount -t tmpfs -o mode=755 none "$root/dev"
for device in null zero full random urandom tty fuse; do
    touch "$root/dev/$device"
    mount --bind "/dev/$device" "$root/dev/$device"
done
cd "$root"
pivot_root . .
umount -l .
# (as systemd has it where it is no container's: what is unmounted goes from the namespaces of services too)
mount --make-rshared /
exec env -i container=nizwarf PATH=/usr/sbin:/usr/bin:/sbin:/bin /lib/systemd/systemd --system \
    --unit=nizwarf-check.service --log-target=console --log-level=warning --show-status=no"""


@pytest.fixture(scope="module")
def packages(tmp_path_factory):
    """The folder of the packages, which are made first."""
    need("dpkg", "dpkg")
    folder = tmp_path_factory.mktemp("packages")
    run(REPOSITORY / "tools/package.sh", "--unproved", "--out", folder, seconds=3600)
    return folder


def boot(root, groups):
    """Starts systemd in a folder, in a control group of its own, below which it makes others."""
    own = pathlib.Path(groups, f"nizwarf-{os.getpid()}")
    own.mkdir()
    try:
        # (a minute more than systemd gives the scripts)
        return subprocess.run(["bash", "-euc", 'echo $$ > "$1/cgroup.procs"; shift; exec "$@"', "bash", own, "unshare", "--mount",
                               "--pid", "--cgroup", "--uts", "--ipc", "--net", "--fork", "--kill-child", "bash", "-euc", ENTER, root],
                              stdin=subprocess.DEVNULL, stdout=subprocess.PIPE, stderr=subprocess.STDOUT, text=True, timeout=960)
    finally:
        subprocess.run(["find", own, "-depth", "-type", "d", "-exec", "rmdir", "{}", ";"], stderr=subprocess.DEVNULL)


@pytest.fixture(scope="module", params=["copy", "debian"])
def judge_part(request, packages):
    """Judges a script by what it printed in the machine: judge_part(NAME)."""
    need("systemd-analyze", "systemd")
    groups = subprocess.run(["findmnt", "-nt", "cgroup2", "-o", "TARGET"], stdout=subprocess.PIPE, text=True).stdout.split()
    if not groups:
        pytest.skip("requires a cgroup2 that is mounted")
    work = pathlib.Path(tempfile.mkdtemp())
    is_copy = request.param == "copy"
    lower, parts = ("/", ["inside", "pages", "removed"]) if is_copy else (DEBIAN, ["page", "inside", "pages", "removed"])
    try:
        if not is_copy:
            need("debootstrap", "debootstrap")
            DEBIAN.parent.mkdir(parents=True, exist_ok=True)
            shell(MAKE_DEBIAN, DEBIAN, HAS, seconds=3600)
        for it in ("files", "root"):
            (work / it).mkdir()
        run("mount", "-t", "tmpfs", "none", work / "files")
        for it in ("upper", "work"):
            (work / "files" / it).mkdir()
        root = work / "root"
        run("mount", "-t", "overlay", "none", "-o", f"lowerdir={lower},upperdir={work}/files/upper,workdir={work}/files/work", root)
        check, folder = root / "root/check", "/root/check" if is_copy else "/srv/check"
        for it in (check, root / str(REPOSITORY)[1:]):
            it.mkdir(parents=True, exist_ok=True)
        run("mount", "--bind", REPOSITORY, root / str(REPOSITORY)[1:])
        for it in ("libnizwarf1", "nizwarf"):
            shutil.copy(next(packages.glob(f"{it}_*.deb")), check)
        if is_copy:
            run("chroot", root, "sh", "-c", "dpkg -i /root/check/*.deb")
        else:
            at = root / "srv/check/out/packages"
            shutil.copytree(packages, at)
            for it in (REPOSITORY / "out/virtiofsd").glob("virtiofsd-nizwarf_*.deb"):
                shutil.copy(it, at)
            shell(PUT_GUESTS, root / "srv/check", work)
        (root / "etc/systemd/system/nizwarf-check.service").write_text(
            UNIT.format(parts=" ".join(parts), system=SYSTEM, folder=folder))
        booted = boot(root, groups[0])
        assert (check / parts[0]).exists(), f"systemd did not start: {booted.stdout}"

        def judge_one(part):
            assert (check / part).exists(), "a script before it failed"
            print((check / part).read_text(errors="replace"))
            assert (check / f"{part}.passed").exists()

        yield judge_one
    finally:
        for it in (work / "root", work / "files"):
            subprocess.run(["umount", "-R", "-l", it], stderr=subprocess.DEVNULL)
        subprocess.run(["rm", "-rf", "--one-file-system", work])


def test_the_page_of_shared_directories_is_right_word_for_word(request, judge_part):
    if "debian" not in request.node.callspec.id:
        pytest.skip("requires a new Debian")
    judge_part("page")


def test_mount_and_fstab_and_units_of_systemd_serve_directories(judge_part):
    judge_part("inside")


def test_the_examples_of_manual_pages_come_to_what_they_say(judge_part):
    judge_part("pages")


def test_the_package_is_upgraded_removed_and_purged(judge_part):
    judge_part("removed")
