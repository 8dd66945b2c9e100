"""libvirt starts machines with nizwarf-share beside virtiofsd: a machine that names it in <binary path=> is served by it, with
each option that libvirt has, and any other one by virtiofsd, while that is there.

libvirtd runs in namespaces of its own, with other folders in place of those that it has on this machine. No machine has an
operating system: each runs once it knows its device."""
import json
import pathlib
import shutil
import subprocess
import time

import pytest
from building import REPOSITORY, need, run

DESCRIPTIONS = pathlib.Path("/usr/share/qemu/vhost-user")
FOLDERS = [f"/{it}/libvirt" for it in ("etc", "run", "var/lib", "var/log", "var/cache")]
SETTINGS = """security_driver = "none"
user = "root"
group = "root"
stdio_handler = "file"
remember_owner = 0
cgroup_controllers = []
namespaces = []
"""
MACHINE = """<domain type='qemu'><name>shares</name><memory unit='MiB'>64</memory><vcpu>1</vcpu>
<os><type arch='x86_64'>hvm</type></os>
<memoryBacking><source type='memfd'/><access mode='shared'/></memoryBacking>
<devices><emulator>{qemu}</emulator>
<filesystem type='mount'><driver type='virtiofs'/>{binary}<source dir='{folder}'/><target dir='t'/></filesystem>
</devices></domain>
"""
pytestmark = [pytest.mark.root, pytest.mark.qemu, pytest.mark.slow]


class Libvirt:
    """A libvirtd, and the descriptions of servers that it reads. All of it is below `work`."""

    def __init__(self, share, work):
        self.work, self.descriptions, self.process = work, work / "descriptions", None
        shutil.copytree(DESCRIPTIONS, self.descriptions)
        described = json.loads((REPOSITORY / "packaging/60-nizwarf-share.json").read_text())
        (self.descriptions / "60-nizwarf-share.json").write_text(json.dumps({**described, "binary": share}))

    def start(self):
        for folder in FOLDERS:
            pathlib.Path(folder).mkdir(parents=True, exist_ok=True)
            run("mount", "-t", "tmpfs", "none", folder)
        run("mount", "--bind", self.descriptions, DESCRIPTIONS)
        # (it must know a user that it has for machines, even if root has them)
        for file, line in (("passwd", "64055::/:/bin/false"), ("group", "")):
            copy = self.work / file
            copy.write_text(pathlib.Path("/etc", file).read_text() + f"libvirt-qemu:x:64055:{line}\n")
            run("mount", "--bind", copy, f"/etc/{file}")
        pathlib.Path("/etc/libvirt/qemu.conf").write_text(SETTINGS)
        with open(self.work / "said", "wb") as log:
            # (what runs in a namespace of processes ends with its first one, which waits for all whose own parent ended)
            self.process = subprocess.Popen(["setpriv", "--pdeathsig=KILL", "unshare", "--pid", "--fork", "--kill-child", "--mount-proc",
                                             "bash", "-c", "libvirtd & wait"],
                                            stdin=subprocess.DEVNULL, stdout=log, stderr=log)
        until = time.monotonic() + 30
        while subprocess.run(["virsh", "list"], stdout=subprocess.DEVNULL, stderr=subprocess.DEVNULL).returncode:
            assert self.process.poll() is None and time.monotonic() < until, (self.work / "said").read_text()
            time.sleep(0.1)

    def end(self):
        if self.process:
            self.process.kill()
            self.process.wait()
        for path in (*FOLDERS, DESCRIPTIONS, "/etc/passwd", "/etc/group"):
            subprocess.run(["umount", "-l", path], stderr=subprocess.DEVNULL)

    def server_of(self, folder, binary=""):
        """Starts a machine that shares a folder, prints the command that serves it, and returns its program."""
        (self.work / "machine").write_text(MACHINE.format(qemu=shutil.which("qemu-system-x86_64"), folder=folder, binary=binary))
        run("virsh", "create", self.work / "machine", seconds=60)
        try:
            # (libvirt gives its server a socket by its number first; a comma in a value is two)
            source = str(folder).replace(",", ",,")
            commands = [it.read_bytes().decode().split("\0") for it in pathlib.Path("/proc").glob("[0-9]*/cmdline") if it.exists()]
            servers = [it for it in commands if it[1:] and it[1].startswith("--fd=") and f"source={source}" in " ".join(it)]
        finally:
            run("virsh", "destroy", "shares", seconds=60)
        assert len({it[0] for it in servers}) == 1, servers
        print(*servers[0])
        return servers[0][0]


@pytest.fixture(scope="module")
def libvirt(share, tmp_path_factory):
    """One libvirtd for all tests, because it asks each QEMU of the machine for its capabilities first."""
    for command, package in (("libvirtd", "libvirt-daemon libvirt-daemon-driver-qemu"), ("virsh", "libvirt-clients")):
        need(command, package)
    if not list(DESCRIPTIONS.glob("50-*virtiofsd.json")):
        pytest.skip("requires the description of virtiofsd in qemu-system-common")
    it = Libvirt(share, tmp_path_factory.mktemp("libvirt"))
    try:
        it.start()
        yield it
    finally:
        it.end()


OPTIONS = {
    "none": "<binary path='{}'/>",
    "chroot": "<binary path='{}' xattr='on'><cache mode='none'/><sandbox mode='chroot'/><lock posix='off' flock='off'/>"
              "<thread_pool size='16'/></binary>",
    "namespace": "<binary path='{}' xattr='off'><cache mode='always'/><sandbox mode='namespace'/></binary>"}


@pytest.mark.parametrize("name, options", [("folder", "none"), ("a,b", "chroot"), ("folder", "namespace")])
def test_a_machine_that_names_nizwarf_share_is_served_by_it(libvirt, share, scratch, options, name):
    (scratch / name).mkdir()
    assert libvirt.server_of(scratch / name, OPTIONS[options].format(share)) == share


def test_any_other_machine_is_served_by_virtiofsd_while_that_is_there(libvirt, share, directory):
    theirs = {it: it.read_text() for it in libvirt.descriptions.glob("50-*virtiofsd.json")}
    assert libvirt.server_of(directory) in [json.loads(it)["binary"] for it in theirs.values()]
    for it in theirs:
        it.unlink()
    assert libvirt.server_of(directory) == share
    for it, text in theirs.items():
        it.write_text(text)
