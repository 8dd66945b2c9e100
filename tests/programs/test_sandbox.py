"""The sandbox of nizwarf-share: what code that got into the server cannot do, and that the filter of system calls stops
nothing that serving needs. sandboxed.c makes each attempt. The expected errors are those of Linux."""
import fcntl
import os
import pathlib
import socket
import subprocess

import pytest
from building import REPOSITORY, run

pytestmark = pytest.mark.root
KILLED = "nizwarf-share: the server was killed by signal 31\n"
SHARE, TRANSPORT = REPOSITORY / "programs/share", REPOSITORY / "programs/transport"


@pytest.fixture(scope="session")
def sandbox_program(share, tmp_path_factory):
    """Compiles a source beside this one with the sandbox: sandbox_program("name.c") returns the program. It has the filter
    of system calls if nizwarf-share has it, as `has_filter` says."""
    folder = tmp_path_factory.mktemp("sandbox")
    has_filter = "with libseccomp" in subprocess.run([share, "--version"], stdout=subprocess.PIPE, text=True).stdout
    sources = [*(SHARE / it for it in ("share_sandbox.c", "share_users.c", "passthrough_who.c", "passthrough_ids.c")),
               *(TRANSPORT / it for it in ("fuse_backing.c", "fuse_mount.c", "fusermount.c", "uring.c"))]

    def build(source):
        program = folder / source.removesuffix(".c")
        flags = ("-DWITH_SECCOMP", "-lseccomp") if has_filter else ()
        run("cc", "-std=c11", "-O1", "-Wall", "-Wextra", "-Werror", "-pthread", *flags[:1], "-I", REPOSITORY / "include", "-I",
            TRANSPORT, "-o", program, pathlib.Path(__file__).with_name(source), *sources, *flags[1:])
        return program

    build.has_filter = has_filter
    return build


@pytest.fixture(scope="session")
def sandboxed(sandbox_program):
    """Runs an attempt: sandboxed(sandbox, directory, attempt, process) returns what it printed."""
    if not sandbox_program.has_filter:
        pytest.skip("requires libseccomp-dev")
    program = sandbox_program("sandboxed.c")

    def attempt(sandbox, directory, what, process=0):
        ran = subprocess.run([program, sandbox, directory, what, str(process)], stdin=subprocess.DEVNULL,
                             stdout=subprocess.PIPE, stderr=subprocess.STDOUT, text=True, timeout=60)
        assert ran.returncode != 2, ran.stdout
        return ran.stdout

    return attempt


@pytest.fixture(scope="session")
def escape(sandbox_program):
    return sandbox_program("escape.c")


@pytest.fixture
def bystander():
    """A process that the server did not start."""
    process = subprocess.Popen(["sleep", "1000"])
    yield process
    process.kill()
    process.wait()


@pytest.mark.parametrize("sandbox", ["namespace", "chroot"])
@pytest.mark.parametrize("ring", [(), pytest.param(("ring",), marks=pytest.mark.io_uring)], ids=["plain", "ring"])
@pytest.mark.parametrize("has_filter", [False, True])
def test_code_in_the_server_finds_no_way_out_of_the_sandbox(sandbox_program, escape, directory, scratch, sandbox, ring,
                                                            has_filter):
    """escape.c tries each, and prints those that it finds. The filter ends it at the call that opens a handle, or makes a
    ring."""
    if has_filter and not sandbox_program.has_filter:
        pytest.skip("requires libseccomp-dev")
    (scratch / "outside").touch()
    ran = subprocess.run([escape, sandbox, "kill" if has_filter else "none", directory, scratch / "outside", *ring],
                         stdout=subprocess.PIPE, stderr=subprocess.STDOUT, text=True, timeout=200)
    assert ran.stdout == (KILLED if has_filter else "")
    assert has_filter or ran.returncode == 0


@pytest.mark.parametrize("where", ["device", "device-below"])
def test_no_device_can_be_opened_in_the_directory_or_in_a_mount_below_it(sandboxed, directory, where):
    below = directory / "below"
    below.mkdir()
    subprocess.run(["mount", "-t", "tmpfs", "-o", "dev", "none", below], check=True)
    try:
        assert sandboxed("namespace", directory, where) == "EACCES\n"
    finally:
        subprocess.run(["umount", below], check=True)


@pytest.mark.parametrize("what", ["signal", "limit", "owner"])
def test_other_processes_of_the_host_cannot_be_reached_from_a_chroot(sandboxed, directory, bystander, what):
    assert sandboxed("chroot", directory, what, bystander.pid) == KILLED
    assert bystander.poll() is None


@pytest.mark.parametrize("sandbox", ["namespace", "chroot"])
@pytest.mark.parametrize("what", ["namespace", "process"])
def test_neither_a_namespace_nor_a_process_can_be_made(sandboxed, directory, sandbox, what):
    assert sandboxed(sandbox, directory, what) == KILLED


def test_clone3_does_not_exist_so_that_the_c_library_uses_clone(sandboxed, directory):
    assert sandboxed("namespace", directory, "clone3") == "ENOSYS\n"


@pytest.mark.parametrize("what", ["thread", "own-signal", "own-limit", "flags"])
def test_threads_limits_flags_and_signals_of_the_server_itself_are_allowed(sandboxed, directory, what):
    assert sandboxed("namespace", directory, what) == "done\n"


def use_names(path):
    """Calls that make, rename and remove names."""
    (path / "directory").mkdir()
    (path / "directory/file").write_bytes(b"content")
    os.symlink("file", path / "directory/link")
    assert os.readlink(path / "directory/link") == "file"
    os.mkfifo(path / "fifo")
    with socket.socket(socket.AF_UNIX) as one:
        one.bind(str(path / "socket"))
    os.mknod(path / "node", 0o100644)
    os.link(path / "directory/file", path / "name")
    os.rename(path / "name", path / "directory/name")
    os.replace(path / "directory/name", path / "node")
    assert sorted(os.listdir(path)) == ["directory", "fifo", "node", "socket"]
    assert {it.name: it.stat(follow_symlinks=False).st_nlink for it in os.scandir(path / "directory")} == {
        "file": 2, "link": 1}
    os.chown(path / "node", 1000, 1000)
    os.chmod(path / "node", 0o640)
    os.utime(path / "node", (1, 2))
    os.truncate(path / "node", 3)
    os.statvfs(path)
    for name in ("fifo", "socket", "node", "directory/link"):
        os.unlink(path / name)


def use_data(path):
    """Calls of open files, of more than fits in one request, at the end and anywhere."""
    data = bytes(range(256)) * 12000
    fd = os.open(path / "data", os.O_RDWR | os.O_CREAT | os.O_EXCL)
    end = os.open(path / "data", os.O_WRONLY | os.O_APPEND)
    assert os.pwrite(fd, data, 0) == len(data) and os.write(end, b"end") == 3
    # (the file is written at its end and elsewhere by one descriptor)
    fcntl.fcntl(end, fcntl.F_SETFL, 0)
    os.pwrite(end, b"begin", 0)
    fcntl.fcntl(end, fcntl.F_SETFL, os.O_APPEND)
    os.write(end, b"more")
    os.fsync(fd)
    os.fdatasync(end)
    assert os.pread(fd, len(data) + 7, 0) == b"begin" + data[5:] + b"endmore"
    os.posix_fallocate(fd, 0, 4 << 20)
    os.lseek(fd, 0, os.SEEK_DATA)
    copy = os.open(path / "copy", os.O_RDWR | os.O_CREAT)
    assert os.copy_file_range(fd, copy, 100000) > 0
    os.sync()
    for it in (fd, end, copy):
        os.close(it)
    os.close(os.open(path, os.O_RDWR | os.O_TMPFILE, 0o600))


def use_locks(path):
    """Locks, asked for, got and given up; of a mount without the options for locks these are its kernel's."""
    with open(path / "locked", "w") as one, open(path / "locked", "w") as other:
        fcntl.flock(one, fcntl.LOCK_EX)
        with pytest.raises(BlockingIOError):
            fcntl.flock(other, fcntl.LOCK_EX | fcntl.LOCK_NB)
        fcntl.flock(one, fcntl.LOCK_UN)
        fcntl.lockf(one, fcntl.LOCK_EX, 10)
        fcntl.fcntl(other, fcntl.F_OFD_GETLK, bytes(32))
        fcntl.lockf(one, fcntl.LOCK_UN)


def use_attributes(path):
    os.setxattr(path / "data", "user.name", b"value")
    assert os.getxattr(path / "data", "user.name") == b"value" and "user.name" in os.listxattr(path / "data")
    os.removexattr(path / "data", "user.name")


@pytest.mark.fuse
@pytest.mark.parametrize("sandbox", ["namespace", "chroot", "none"])
@pytest.mark.parametrize("options", [
    (), ("--thread-pool-size=16", "--cache=always", "--writeback", "--xattr"), ("--flock", "--posix-lock"),
    ("--inode-file-handles=prefer", "--posix-acl"), ("--passthrough", "--watch"), ("--no-killpriv-v2", "-o", "io_uring")],
    ids=" ".join)
def test_serving_a_mount_makes_no_call_that_the_filter_refuses(mount, sandbox, options):
    server = mount("--seccomp=kill", f"--sandbox={sandbox}", *options)
    use_names(server.path)
    use_data(server.path)
    use_locks(server.path)
    if "--xattr" in options or "--posix-acl" in options:
        use_attributes(server.path)
    server.end()


@pytest.mark.parametrize("options", [(), ("--migration-mode=file-handles",), ("--migration-verify-handles",)], ids=" ".join)
def test_migrating_makes_no_call_that_the_filter_refuses(serve, directory, options):
    (directory / "file").write_bytes(b"content")
    source, destination = serve("--seccomp=kill", *options), serve("--seccomp=kill", *options)
    client = source.connect()
    node = client.lookup(b"file")
    handle = client.open(node, os.O_RDWR)
    state = client.save()
    other = destination.connect(init=False)
    other.load(state)
    assert other.read(node, handle, 100) == b"content"
    client.close()
    source.end()
    destination.end()
