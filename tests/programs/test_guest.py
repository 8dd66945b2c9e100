"""Guests of QEMU that mount a directory over virtio-fs: what a person does there, also after a reboot, and migrations from
one server to another. QEMU computes the processor, so no /dev/kvm is required. The kernel and busybox are Debian's, which
apt-get downloads into out/guest; so is the QEMU of Debian 13 for migrations, since that of Debian 12 cannot migrate a
share.

In the environment GUEST_OPTIONS has options of tools/guest.sh, as `--virtiofsd` or a kernel's package, in place of those
here."""
import contextlib
import json
import os
import shlex
import socket
import subprocess
import time

import pytest
from building import REPOSITORY

pytestmark = [pytest.mark.qemu, pytest.mark.slow]
# How long a machine may take, in seconds; and the lines that its guest writes.
LONG, LINES = 1800, 200


def run_or_skip(*command, seconds=LONG):
    """Returns what a command prints; with status 2 something that it requires is not here."""
    ended = subprocess.run(command, stdout=subprocess.PIPE, stderr=subprocess.STDOUT, text=True, timeout=seconds,
                           cwd=REPOSITORY)
    if ended.returncode == 2:
        pytest.skip(ended.stdout.strip().splitlines()[-1])
    assert ended.returncode == 0, ended.stdout
    return ended.stdout


# ---- a person's session

@pytest.fixture(scope="module", ids=lambda it: it.strip("-") or "tree",
                params=[os.environ["GUEST_OPTIONS"]] if "GUEST_OPTIONS" in os.environ else ["", "--share"])
def console(request):
    """The lines of the console of a guest that mounts the tree, or a directory, and powers off (guest_init.sh)."""
    return run_or_skip(REPOSITORY / "tools/guest.sh", *shlex.split(request.param)).replace("\r", "").splitlines()


def test_a_persons_session_is_as_posix_and_linux_say_before_and_after_a_reboot(console):
    assert len([it for it in console if it.endswith(" steps, 0 wrong")]) == 2, "\n".join(console)


def test_nothing_is_in_use_that_is_gone(console):
    assert "The guest reboots." in console
    assert not [it for it in console if "WRONG" in it]


def test_the_guest_unmounts_it(console):
    assert "The guest unmounted it." in console


# ---- migrations

class Monitor:
    """QEMU by its protocol QMP."""

    def __init__(self, path):
        self.socket = socket.socket(socket.AF_UNIX)
        self.socket.settimeout(LONG)
        self.socket.connect(str(path))
        self.lines = self.socket.makefile("rw")
        json.loads(self.lines.readline())
        self.execute("qmp_capabilities")

    def execute(self, command, **arguments):
        """What a command returns; an error is raised."""
        self.lines.write(json.dumps({"execute": command, "arguments": arguments}) + "\n")
        self.lines.flush()
        while True:
            reply = json.loads(self.lines.readline())
            if "error" in reply:
                raise RuntimeError(reply["error"]["desc"])
            # (events come between)
            if "return" in reply:
                return reply["return"]


@pytest.fixture(scope="module")
def machine(tmp_path_factory):
    """The command of a machine with a guest that reads and writes in a share (guest_moving.sh), but what differs."""
    work = tmp_path_factory.mktemp("guest")
    script = """. tools/lib/usage.sh; . tools/lib/program.sh; . tools/lib/debian.sh; . tools/lib/guest.sh
        work=$1; need_x86_64; find_guest >&2; find_qemu trixie "$here/out/guest/qemu" >&2
        put_guest "$work/root" "$here/tests/programs/guest_moving.sh" >&2
        echo "modules='$modules'" > "$work/root/settings"
        pack_guest "$work/root" "$work/files" >&2
        printf '%s\\n' "QEMU_MODULE_DIR=$QEMU_MODULE_DIR" "${qemu[@]}" -kernel "$kernel"/boot/vmlinuz-* """
    printed = run_or_skip("bash", "-euc", script, "bash", work)
    command = printed[printed.index("QEMU_MODULE_DIR="):].splitlines()
    return ["env", *command, "-initrd", work / "files", "-nodefaults", "-no-user-config", "-display", "none", "-machine",
            "q35,accel=tcg", "-cpu", "max", "-smp", "1", "-m", "256", "-object",
            "memory-backend-memfd,id=memory,size=256M,share=on", "-numa", "node,memdev=memory", "-append",
            "console=ttyS0 quiet loglevel=3 panic=0 no_timer_check"]


@pytest.fixture
def boot(machine, scratch):
    """Starts a machine with the share of a server: boot(NAME, SERVER, OPTION..) has NAME.console and NAME.qmp."""
    started = []

    def start(name, server, *options):
        started.append(subprocess.Popen(
            [*machine, "-serial", f"file:{scratch}/{name}.console", "-chardev", f"socket,id=socket,path={server.socket}",
             "-device", "vhost-user-fs-pci,queue-size=1024,chardev=socket,tag=nizwarf",
             "-qmp", f"unix:{scratch}/{name}.qmp,server=on,wait=off", *options], stdin=subprocess.DEVNULL))
        return started[-1]

    yield start
    for it in started:
        it.kill()
        it.wait()


def wait_for(fact):
    until = time.monotonic() + LONG
    while not fact():
        assert time.monotonic() < until
        time.sleep(0.1)


@pytest.mark.root
@pytest.mark.parametrize("options", [("--migration-mode=find-paths",), ("--migration-verify-handles",),
                                     ("--migration-mode=file-handles",)], ids=lambda it: it[0].strip("-"))
def test_a_machine_migrates_while_its_guest_reads_writes_and_lists(boot, serve, directory, scratch, options):
    (directory / "d/many").mkdir(parents=True)
    (directory / "d/lines").write_text("".join(f"line {i}\n" for i in range(1, 301)))
    for i in range(1, 501):
        (directory / f"d/many/a-name-that-is-rather-long-{i}").touch()
    servers = [serve("--log-level=warn", *options) for _ in range(2)]
    wait_for(lambda: all(os.path.exists(it.socket) for it in servers))
    consoles = [scratch / f"{name}.console" for name in ("source", "target")]
    first = boot("source", servers[0])
    # (a tenth of what the guest does, so that the machine moves in the midst of it)
    wait_for(lambda: consoles[0].exists() and b"step 20" in consoles[0].read_bytes() or first.poll() is not None)
    second = boot("target", servers[1], "-incoming", f"unix:{scratch}/move")
    wait_for(lambda: (scratch / "move").exists() or second.poll() is not None)
    source = Monitor(scratch / "source.qmp")
    source.execute("migrate", uri=f"unix:{scratch}/move")
    wait_for(lambda: source.execute("query-migrate").get("status") in ("completed", "failed"))
    assert source.execute("query-migrate").get("status") == "completed", source.execute("query-migrate")
    # (it may close before it replies)
    with contextlib.suppress(ValueError, OSError):
        source.execute("quit")
    assert first.wait(LONG) == 0
    assert second.wait(LONG) == 0
    shown = "".join(it.read_text(errors="replace") for it in consoles)
    assert "WRONG" not in shown and "The guest unmounted it." in consoles[1].read_text(errors="replace"), shown
    assert (directory / "d/written").read_text().splitlines() == [f"written {i}" for i in range(1, LINES + 1)]
