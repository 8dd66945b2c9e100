"""The packages on a clean Debian 12, without the Rattle toolchain, as a person installs and uses them.

debootstrap makes the Debian in out/debian, with the settings by which the machine's own apt gets packages: 150 MB, and
100 MB more for Rust. If it makes none, or with `unpack` in the environment variable CLEAN_DEBIAN, packages are downloaded by
apt-get and unpacked, but not configured. With `keep` there the Debian stays, and the next run starts from it."""
import json
import os
import pathlib
import shutil
import subprocess

import pytest
from building import REPOSITORY, run
from mounting import mounted

pytestmark = [pytest.mark.fuse, pytest.mark.slow]
OUT, RUST = REPOSITORY / "out/debian", REPOSITORY / "bindings/rust"
WORDS = os.environ.get("CLEAN_DEBIAN", "").split()
TOOLS = ["gcc", "libc6-dev", "make", "pkg-config", *["cargo", "fuse3"] * (RUST / "examples/hello.rs").exists()]
ENVIRONMENT = {"HOME": "/root", "PATH": "/usr/sbin:/usr/bin:/sbin:/bin", "LC_ALL": "C.UTF-8",
               "DEBIAN_FRONTEND": "noninteractive"}
BOOTSTRAP = '. tools/lib/debian.sh; bootstrap_debian "$0"'
# Unpacks what is needed, without a database of packages, and links what their scripts would link.
UNPACK = """. tools/lib/debian.sh; root=$0; work=$1; shift
mkdir -p "$root"/usr/{bin,sbin,lib,lib64} "$root"/{proc,dev,mnt,root,tmp,var/tmp}
for folder in bin sbin lib lib64; do ln -s "usr/$folder" "$root/$folder"; done
use_suite bookworm "$work"
apt-get "${apt[@]}" install -y --download-only --no-install-recommends '?essential' mount "$@"
for package in "$work"/cache/archives/*.deb; do dpkg-deb -x "$package" "$root"; done
ln -sf mawk "$root/usr/bin/awk"; ln -sf gcc "$root/usr/bin/cc"; mknod -m 666 "$root/dev/null" c 1 3; chroot "$root" ldconfig"""


class Debian:
    """A Debian in a folder. If it is unpacked, its packages are not configured."""

    def __init__(self, root, work):
        self.root, self.made = root, root.with_suffix(".made")
        self.is_unpacked = "unpack" in WORDS
        if not self.is_kept():
            self.make(work)
        (root / "dev/fuse").touch()
        run("mount", "--bind", "/dev/fuse", root / "dev/fuse")
        run("mount", "-t", "proc", "proc", root / "proc")
        if not self.is_unpacked and not self.is_kept():
            self.run("apt-get", "update", seconds=600)
            self.run("apt-get", "install", "-y", "--no-install-recommends", *TOOLS, seconds=1800)
        self.made.write_text(self.way())

    def way(self):
        """How it is made, and with what: one that was made otherwise is not kept."""
        return " ".join(["unpack" if self.is_unpacked else "debootstrap", *TOOLS])

    def is_kept(self):
        return self.made.exists() and self.made.read_text() == self.way()

    def make(self, work):
        for unpacked in (False, True)[self.is_unpacked:]:
            shutil.rmtree(self.root, ignore_errors=True)
            self.root.mkdir(parents=True)
            command = [UNPACK, self.root, work, *TOOLS] if unpacked else [BOOTSTRAP, self.root]
            made = subprocess.run(["bash", "-euc", *command], cwd=REPOSITORY, stdout=subprocess.PIPE,
                                  stderr=subprocess.STDOUT, timeout=3600)
            self.is_unpacked = unpacked
            if made.returncode == 0:
                return
        pytest.skip("requires a mirror of Debian 12, from which apt-get downloads packages")

    def run(self, *command, **more):
        """Runs a command in it, which must succeed, and returns what it printed."""
        return run("chroot", self.root, *command, env=ENVIRONMENT, **more)

    def install(self, packages):
        if self.is_unpacked:
            for it in packages:
                run("dpkg-deb", "-x", it, self.root)
            self.run("ldconfig")
        else:
            shutil.rmtree(self.root / "root/packages", ignore_errors=True)
            shutil.copytree(packages[0].parent, self.root / "root/packages")
            self.run("sh", "-c", "apt-get install -y --reinstall --allow-downgrades --no-install-recommends "
                     "/root/packages/*.deb", seconds=600)

    def serve(self, look, *command):
        """Mounts on /mnt by a command, calls a function, and unmounts; the command must end well."""
        with mounted(self.root / "mnt", "chroot", self.root, *command, "/mnt", env=ENVIRONMENT):
            look()


def mounts_below(folder):
    mounts = [line.split()[1] for line in pathlib.Path("/proc/self/mounts").read_text().splitlines()]
    return [it for it in mounts if it.startswith(f"{folder}/")]


@pytest.fixture(scope="module")
def debian(tmp_path_factory):
    """A clean Debian 12 with the packages, which are made first."""
    for command in ("apt-get", "dpkg-deb", "debootstrap"):
        if not shutil.which(command):
            pytest.skip(f"requires {command}")
    packages = OUT / "packages"
    shutil.rmtree(packages, ignore_errors=True)
    packages.mkdir(parents=True)
    print(run(REPOSITORY / "tools/package.sh", "--unproved", "--out", packages, seconds=3600))
    root = OUT / "root"
    try:
        it = Debian(root, tmp_path_factory.mktemp("apt"))
        it.install(sorted(packages.glob("*.deb")))
        yield it
    finally:
        for point in reversed(mounts_below(root)):
            subprocess.run(["umount", "-l", point])
        if "keep" not in WORDS and not mounts_below(root):
            shutil.rmtree(root, ignore_errors=True)
            root.with_suffix(".made").unlink(missing_ok=True)


def has_hello(debian):
    assert os.listdir(debian.root / "mnt") == ["hello"]
    assert debian.run("cat", "/mnt/hello") == "Hello, world!\n"


def test_no_toolchain_of_rattle_is_there(debian):
    debian.run("sh", "-c", "! command -v rt && ! command -v rattle")


def test_the_demo_gives_the_stored_replies(debian):
    debian.run("nizwarf-demo")


def test_a_file_is_written_and_read_in_a_mount_and_its_trace_is_decoded(debian, tmp_path):
    trace = debian.root / "root/trace"
    trace.unlink(missing_ok=True)

    def write_and_read():
        debian.run("sh", "-c", "mkdir /mnt/a && echo text > /mnt/a/b && ln /mnt/a/b /mnt/c && mv /mnt/a/b /mnt/b && "
                   "rmdir /mnt/a")
        assert sorted(os.listdir(debian.root / "mnt")) == ["b", "c"]
        assert debian.run("cat", "/mnt/c") == "text\n"

    debian.serve(write_and_read, "nizwarf-mount", "--trace=/root/trace")
    decoded = debian.run("nizwarf-decode", "/root/trace")
    assert [it for it in decoded.splitlines() if it.startswith("  ") and "MKDIR" in it]
    assert debian.run("sh", "-c", "nizwarf-decode - < /root/trace") == decoded
    trace.unlink()


def test_a_manager_of_machines_finds_nizwarf_share(debian):
    # (managers take the first file of those that are there)
    described = json.loads((debian.root / "usr/share/qemu/vhost-user/60-nizwarf-share.json").read_text())
    assert '"fs"' in debian.run(described["binary"], "--print-capabilities")


@pytest.mark.parametrize("options", [[], ["STATIC=yes"]], ids=["shared", "static"])
def test_hello_c_is_built_by_pkg_config_and_its_file_is_read(debian, options):
    folder = debian.root / "root/examples"
    shutil.rmtree(folder, ignore_errors=True)
    shutil.copytree(debian.root / "usr/share/doc/libnizwarf-dev/examples", folder)
    debian.run("make", "-C", "/root/examples", "-B", "hello", *options, seconds=600)
    debian.serve(lambda: has_hello(debian), "/root/examples/hello")


@pytest.mark.skipif("cargo" not in TOOLS, reason="requires bindings/rust/examples/hello.rs")
def test_hello_rs_is_built_by_cargo_and_its_file_is_read(debian):
    # (without what was built of the crate here)
    folder = debian.root / "root/rust"
    shutil.rmtree(folder, ignore_errors=True)
    shutil.copytree(RUST, folder, symlinks=True, ignore=lambda at, _: {"target", "out"} if pathlib.Path(at) == RUST else ())
    debian.run("sh", "-c", "cd /root/rust && cargo build --offline --release --target-dir target --example hello",
               seconds=1800)
    debian.serve(lambda: has_hello(debian), "/root/rust/target/release/examples/hello")


def test_removed_packages_leave_nothing(debian):
    if debian.is_unpacked:
        pytest.skip("requires a Debian that debootstrap made")
    debian.run("apt-get", "purge", "-y", "nizwarf", "libnizwarf-dev", "libnizwarf-fuse1", "libnizwarf1")
    left = [it for top in ("usr", "etc", "var/lib/dpkg/info") for it in (debian.root / top).rglob("*nizwarf*")]
    assert not left
