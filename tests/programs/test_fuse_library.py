"""libnizwarf-fuse, as hello.c uses it: the command line of nizwarf_fuse_main, and mounts of root and of another user, for whom
fusermount3 mounts."""
import errno
import os
import pathlib
import shutil
import signal
import subprocess
import threading
import time

import pytest
from building import find_fuse
from conftest import REPORT, wait_until
from examples import GETATTR, GETATTR_RECORD, INIT, INIT_RECORD, ROOT, Client, Example
from requirements import require, setting

NOBODY, TEXT = 65534, "Hello, world!\n"
DEVICE = os.makedev(10, 229)
CONNECTIONS = pathlib.Path("/sys/fs/fuse/connections")


@pytest.fixture(scope="module")
def program(built):
    """The path of hello.c's program."""
    return built.make("hello")


@pytest.fixture
def hello(program, scratch):
    """The path of a copy that every user can execute."""
    scratch.chmod(0o755)
    return shutil.copy(program, scratch)


# ---- the command line

@pytest.mark.parametrize("arguments, message", [
    (["--nothing"], "unrecognized option '--nothing'"),
    (["-x"], "invalid option -- 'x'"),
    (["-o"], "option requires an argument -- 'o'"),
    (["--workers"], "option '--workers' requires an argument"),
    (["-o", "ro,other", "folder"], "unknown mount option: other"),
    (["-o", "max_read=" + "1" * 600, "folder"], "mount options are too long"),
    ([], "missing mount point"),
    (["folder", "other"], "too many arguments: other"),
    (["--workers", "0", "folder"], "invalid number of workers: 0"),
    (["--workers", "65", "folder"], "invalid number of workers: 65"),
    (["--workers=2x", "folder"], "invalid number of workers: 2x"),
    (["--fd", "900"], "invalid descriptor: 900"),
    (["--fd", "-1"], "invalid descriptor: -1"),
    (["--fd", "0", "folder"], "--fd cannot be combined with a mount point"),
    (["--fd", "0", "-o", "ro"], "--fd cannot be combined with a mount point"),
])
def test_invalid_arguments_are_status_2_in_getopts_words(hello, arguments, message):
    ended = subprocess.run([hello, *arguments], capture_output=True, text=True, timeout=20)
    assert (ended.returncode, ended.stdout) == (2, "")
    first, second = ended.stderr.splitlines()
    assert f"hello: {message}" in first
    assert second == "Try 'hello --help' for more information."


@pytest.mark.parametrize("option", ["-h", "--help"])
def test_the_help_lists_each_option(hello, option):
    ended = subprocess.run([hello, option], capture_output=True, text=True, timeout=20)
    assert (ended.returncode, ended.stderr) == (0, "")
    assert ended.stdout.startswith("Usage: hello ")
    assert all(it in ended.stdout for it in ("-o ", "-f ", "--workers ", "--fd ", "--help", "--version"))


@pytest.mark.parametrize("option", ["-V", "--version"])
def test_the_version_is_that_of_the_header(hello, option):
    header = setting(pathlib.Path(__file__).parents[2] / "include/nizwarf.h")
    numbers = [line.split()[2] for line in header.splitlines() if line.startswith("#define NIZWARF_VERSION_")]
    ended = subprocess.run([hello, option], capture_output=True, text=True, timeout=20)
    assert (ended.returncode, ended.stdout, ended.stderr) == (0, f"Nizwarf {'.'.join(numbers)}\n", "")


def test_a_full_disk_fails_the_help(hello):
    with open("/dev/full", "w") as full:
        assert subprocess.run([hello, "--help"], stdout=full, stderr=subprocess.PIPE, timeout=20).returncode == 1


@pytest.mark.parametrize("workers", [1, 4, 64])
def test_a_socket_is_served_by_each_number_of_workers(hello, workers):
    with Client(Example("c", [hello, "-f", "--workers", str(workers)], ["--fd", "FD"])) as client:
        assert client.ask(INIT, 0, INIT_RECORD).error == 0
        for _ in range(200):
            assert client.ask(GETATTR, ROOT, GETATTR_RECORD).error == 0
        assert client.end() == (0, "")


LATER = """#include "nizwarf_fuse.h"
static int on_getattr(const nizwarf_req *req, uint64_t ino, const nizwarf_file_info *fi, nizwarf_attr *attr,
		      struct timespec *attr_timeout)
{
	(void)req, (void)ino, (void)fi, (void)attr, (void)attr_timeout;
	return NIZWARF_LATER;
}

int main(int argc, char **argv)
{
	const nizwarf_ops ops = { .getattr = on_getattr };

	return nizwarf_fuse_main(argc, argv, &ops, NULL);
}
"""


def test_a_deferred_reply_without_a_request_that_is_kept_is_reported_once(built, scratch):
    (scratch / "later.c").write_text(LATER)
    program = built.compile(scratch / "later.c", *find_fuse(), "-pthread")
    with Client(Example("c", [program], ["--fd", "FD"])) as client:
        assert client.ask(INIT, 0, INIT_RECORD).error == 0
        assert [client.ask(GETATTR, ROOT, GETATTR_RECORD).error for _ in range(3)] == [-errno.EIO] * 3
        assert client.end() == (0, f"{program.name}: opcode {GETATTR} returned NIZWARF_LATER, but kept no request: "
                                "replying EIO\n")


def test_a_descriptor_that_is_no_device_is_a_failure(hello):
    ours, theirs = os.pipe()
    os.write(theirs, b"short")
    ended = subprocess.run([hello, "--fd", "0"], stdin=ours, capture_output=True, text=True, timeout=20)
    os.close(ours), os.close(theirs)
    assert ended.returncode == 1
    assert ended.stderr.startswith("hello: cannot read from /dev/fuse: ")


# ---- mounts

class Mount:
    """hello, as a user, on the folder `path` that this user owns."""

    def __init__(self, program, path, *options, user=0, **more):
        self.path, self.user = path, {"user": user, "group": user, "extra_groups": []} if user else {}
        path.mkdir(exist_ok=True)
        os.chown(path, user, user)
        self.process = subprocess.Popen([program, *options, path], stderr=subprocess.PIPE, text=True,
                                        **{"stdin": subprocess.DEVNULL, **self.user, **more})

    def entry(self):
        """Source, type and options of the mount, or None."""
        lines = [it.split() for it in setting("/proc/self/mounts").splitlines()]
        return next(([it[0], it[2], it[3].split(",")] for it in lines if it[1] == str(self.path)), None)

    def serve(self):
        assert wait_until(lambda: self.entry() or self.process.poll() is not None) and self.entry(), self.end()
        return self

    def read(self):
        return subprocess.run(["cat", self.path / "hello"], capture_output=True, text=True, timeout=20, **self.user).stdout

    def end(self, number=None):
        """Sends a signal, and returns the status and what was printed."""
        if number is not None:
            self.process.send_signal(number)
        _, printed = self.process.communicate(timeout=30)
        assert not REPORT.search(printed), printed
        return self.process.returncode, printed


@pytest.fixture
def mount_hello(hello, scratch):
    """Mounts hello: mount_hello(option, .., user=..)."""
    require("fuse")
    mounts = []

    def start(*options, **more):
        mounts.append(Mount(hello, scratch / f"mount{len(mounts)}", *options, **more))
        return mounts[-1]

    yield start
    for it in mounts:
        it.process.kill()
        it.process.communicate()
        subprocess.run(["umount", "-l", it.path], stderr=subprocess.DEVNULL)


@pytest.fixture
def device_for_all(scratch_in_tmp):
    """/dev/fuse is open to all users, as udev makes it, in the mount namespace of the tests."""
    require("fuse")
    if not shutil.which("fusermount3"):
        pytest.skip("requires fusermount3: apt-get install fuse3")
    folder = scratch_in_tmp / "dev"
    folder.mkdir()
    subprocess.run(["mount", "-t", "tmpfs", "none", folder], check=True)
    os.mknod(folder / "fuse", 0o20666, DEVICE)
    os.chmod(folder / "fuse", 0o666)
    subprocess.run(["mount", "--bind", folder / "fuse", "/dev/fuse"], check=True)
    yield
    subprocess.run(["umount", "/dev/fuse"], check=True)


@pytest.fixture
def false_fusermount(scratch):
    """The environment in which fusermount3 is a script: false_fusermount(LINES)."""
    def write(lines):
        (scratch / "bin").mkdir()
        (scratch / "bin/fusermount3").write_text(f"#!/bin/sh\n{lines}\n")
        (scratch / "bin/fusermount3").chmod(0o755)
        return {**os.environ, "PATH": f"{scratch}/bin:{os.environ['PATH']}"}

    return write


@pytest.fixture(params=[0, NOBODY], ids=["root", "nobody"])
def user(request):
    if request.param:
        request.getfixturevalue("device_for_all")
    return request.param


@pytest.mark.parametrize("number", [signal.SIGINT, signal.SIGTERM, signal.SIGHUP])
def test_a_signal_unmounts(mount_hello, user, number):
    mount = mount_hello("--workers=2", user=user, preexec_fn=lambda: signal.signal(number, signal.SIG_DFL)).serve()
    assert mount.read() == TEXT
    assert mount.end(number) == (0, "")
    assert mount.entry() is None


def test_options_are_those_of_the_mount(mount_hello, user):
    mount = mount_hello("-o", r"ro,noexec,noatime,fsname=a\b", "-o", "max_read=8192", user=user).serve()
    source, kind, options = mount.entry()
    # (as proc(5) escapes a backslash)
    assert (source, kind) == (r"a\134b", "fuse.hello")
    assert {"ro", "noexec", "noatime", "nosuid", "nodev", "max_read=8192", "default_permissions", f"user_id={user}",
            f"group_id={user}"} <= set(options)
    assert mount.end(signal.SIGTERM) == (0, "")


def test_it_ends_once_it_is_unmounted(mount_hello, user):
    mount = mount_hello(user=user).serve()
    subprocess.run(["fusermount3", "-u", mount.path] if user else ["umount", mount.path], check=True, **mount.user)
    assert mount.end() == (0, "")


def test_a_mount_in_use_goes_with_its_last_user(mount_hello, user):
    mount = mount_hello(user=user).serve()
    with subprocess.Popen(["sh", "-c", 'cd "$1" && echo && read -r _ && cat hello', "sh", mount.path], stdin=subprocess.PIPE,
                          stdout=subprocess.PIPE, text=True, **mount.user) as inside:
        inside.stdout.readline()
        mount.process.send_signal(signal.SIGTERM)
        assert wait_until(lambda: mount.entry() is None)
        assert inside.communicate("\n", timeout=20)[0] == TEXT
    assert mount.end()[0] == 0


def test_closed_standard_descriptors_and_ignored_children_hinder_no_mount(hello, mount_hello, scratch, user):
    script = scratch / "closed"
    script.write_text(f'#!/bin/sh\ntrap "" CHLD\nexec "{hello}" "$@" <&- >&- 2>&-\n')
    script.chmod(0o755)
    path = scratch / "closed-mount"
    mount = Mount(script, path, user=user, preexec_fn=lambda: signal.signal(signal.SIGCHLD, signal.SIG_IGN))
    try:
        mount.serve()
        assert mount.read() == TEXT
        assert mount.end(signal.SIGTERM) == (0, "")
    finally:
        mount.process.kill()
        subprocess.run(["umount", "-l", path], stderr=subprocess.DEVNULL)


def test_a_mount_point_that_is_missing_is_reported(hello, scratch, user):
    ended = subprocess.run([hello, scratch / "none"], capture_output=True, text=True, timeout=20,
                           **({"user": user, "group": user} if user else {}))
    assert ended.returncode == 1
    assert f"{scratch}/none" in ended.stderr
    assert "No such file or directory" in ended.stderr


def test_options_that_linux_refuses_are_reported(mount_hello):
    mount = mount_hello("-o", "ro,max_read=x")
    assert mount.end() == (1, f"hello: cannot mount on '{mount.path}' with options 'default_permissions,max_read=x': "
                           "Invalid argument\n")


def test_a_mount_point_of_another_user_is_refused(mount_hello, device_for_all, scratch):
    (scratch / "roots").mkdir()
    hello = scratch / "hello"
    ended = subprocess.run([hello, scratch / "roots"], capture_output=True, text=True, timeout=20, user=NOBODY, group=NOBODY)
    assert ended.returncode == 1
    assert ended.stderr.endswith(f"hello: {scratch}/roots: fusermount3 failed\n")


@pytest.mark.parametrize("lines, message", [
    ("echo its words >&2; exit 1", "fusermount3 failed"),
    ("exit 0", "fusermount3 sent no descriptor"),
    ("printf x >&3", "fusermount3 sent no descriptor"),
])
def test_a_helper_that_does_not_mount_is_reported(mount_hello, device_for_all, false_fusermount, lines, message):
    mount = mount_hello(user=NOBODY, env=false_fusermount(lines))
    status, printed = mount.end()
    assert status == 1
    assert printed.splitlines()[-1] == f"hello: {mount.path}: {message}"
    assert ("its words" in printed) == ("its words" in lines)


def test_a_helper_that_is_missing_is_reported(mount_hello, device_for_all):
    mount = mount_hello(user=NOBODY, env={"PATH": "/nonexistent"})
    assert mount.end() == (1, f"hello: {mount.path}: cannot execute fusermount3, which mounts for users other than root: "
                           "No such file or directory\n")


def await_helper(scratch):
    assert wait_until((scratch / "started").exists)
    return int((scratch / "started").read_text() or 0)


def is_running(pid):
    return setting(f"/proc/{pid}/stat").rpartition(")")[2].split()[:1] not in ([], ["Z"])


def hanging(scratch):
    """A helper that says its number, and then does nothing."""
    scratch.chmod(0o777)
    return f'echo $$ > "{scratch}/new"; mv "{scratch}/new" "{scratch}/started"; exec sleep 100'


def test_a_signal_ends_the_wait_for_a_helper(mount_hello, device_for_all, false_fusermount, scratch):
    mount = mount_hello(user=NOBODY, env=false_fusermount(hanging(scratch)))
    helper, begun = await_helper(scratch), time.monotonic()
    assert mount.end(signal.SIGTERM) == (1, f"hello: {mount.path}: interrupted\n")
    assert time.monotonic() - begun < 5
    assert wait_until(lambda: not is_running(helper))


@pytest.mark.slow
def test_a_helper_that_hangs_is_killed(mount_hello, device_for_all, false_fusermount, scratch):
    mount = mount_hello(user=NOBODY, env=false_fusermount(hanging(scratch)))
    helper = await_helper(scratch)
    status, printed = mount.end()
    assert (status, printed) == (1, f"hello: {mount.path}: fusermount3 did not end in time\n")
    assert wait_until(lambda: not is_running(helper))


def test_a_helper_gets_the_socket_and_no_other_descriptor(mount_hello, device_for_all, false_fusermount):
    """By its words on standard error: what each of its descriptors is, but the script's."""
    lines = 'for it in 3 4 5 6 7 8 9; do readlink /proc/$$/fd/$it; done >&2; echo "$_FUSE_COMMFD $*" >&2; exit 1'
    mount = mount_hello("-o", "ro", user=NOBODY, env=false_fusermount(lines))
    socket, words, _ = mount.end()[1].splitlines()
    assert socket.startswith("socket:")
    assert words == f"3 -o subtype=hello,fsname=hello,ro,nosuid,nodev,default_permissions -- {mount.path.name}"


def test_a_mount_that_cannot_be_unmounted_is_reported_and_a_failure(mount_hello, device_for_all, scratch):
    (scratch / "bin").mkdir()
    environment = {**os.environ, "PATH": f"{scratch}/bin:{os.environ['PATH']}"}
    mount = mount_hello(user=NOBODY, env=environment).serve()
    (scratch / "bin/fusermount3").write_text("#!/bin/sh\nexit 1\n")
    (scratch / "bin/fusermount3").chmod(0o755)
    status, printed = mount.end(signal.SIGTERM)
    assert status == 1
    assert f"hello: {mount.path}: fusermount3 failed" in printed.splitlines()


# ---- notices

@pytest.fixture
def notices(built, scratch):
    """The mount of notices.c. `connection` is its folder in /sys; a connection that hangs is aborted at the end, or after
    100 seconds, because no signal ends a process that waits in Linux."""
    require("fuse")
    mount = Mount(built.compile("tests/programs/notices.c", *find_fuse(), "-pthread"), scratch / "mount",
                  stdin=subprocess.PIPE, stdout=subprocess.PIPE).serve()
    if not os.path.ismount(CONNECTIONS):
        subprocess.run(["mount", "-t", "fusectl", "none", CONNECTIONS], check=True)
    mount.connection = CONNECTIONS / str(os.minor(os.stat(mount.path).st_dev))

    def abort():
        if mount.process.poll() is None:
            (mount.connection / "abort").write_text("1")
            mount.process.kill()

    limit = threading.Timer(100, abort)
    limit.start()
    yield mount
    limit.cancel()
    abort()
    mount.process.communicate(timeout=30)
    subprocess.run(["umount", "-l", mount.path], stderr=subprocess.DEVNULL)


def states(pid):
    """The states of a process's threads, as in proc(5)."""
    return [setting(it / "stat").rpartition(")")[2].split()[:1] for it in pathlib.Path(f"/proc/{pid}/task").iterdir()]


def send_byte(process):
    process.stdin.write(".")
    process.stdin.flush()


def test_a_notice_does_not_wait_for_another_that_waits_for_a_request(notices):
    server, n, m = notices.process, os.open(notices.path / "N", os.O_RDONLY), os.open(notices.path / "M", os.O_WRONLY)
    with subprocess.Popen(["echo"], stdout=m) as writer:
        server.stdout.readline()
        with subprocess.Popen(["cat"], stdin=n, stderr=subprocess.DEVNULL) as reader:
            try:
                assert wait_until(lambda: setting(notices.connection / "waiting") == "2")
                send_byte(server)
                assert wait_until(lambda: ["D"] in states(server.pid))
                send_byte(server)
                assert [it.wait(10) for it in (writer, reader)] == [0, 1]
            except BaseException:
                (notices.connection / "abort").write_text("1")
                raise
    os.close(n), os.close(m)
    assert notices.end(signal.SIGTERM) == (0, "")
