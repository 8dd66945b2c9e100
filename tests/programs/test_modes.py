"""What a file system mounted with nizwarf-share does with set-ID bits, and with files that are open without a name. The
expected values are those of the same calls on a plain directory."""
import contextlib
import os
import stat
import struct
import time

import pytest
from vhost_user import Op

pytestmark = pytest.mark.root
ENOTEMPTY, ATOMIC_O_TRUNC = 39, 1 << 3


def mode_of(path):
    return oct(stat.S_IMODE(os.stat(path).st_mode))


def as_user(ids, call, path):
    """Makes a call in a process of this user and group."""
    child = os.fork()
    if not child:
        try:
            os.setgroups([])
            os.setresgid(ids[1], ids[1], ids[1])
            os.setresuid(ids[0], ids[0], ids[0])
            call(path)
        finally:
            os._exit(1 if os.geteuid() != ids[0] else 0)
    assert os.waitpid(child, 0)[1] == 0


def write(path):
    fd = os.open(path, os.O_WRONLY)
    assert os.pwrite(fd, b"more", 0) == 4
    os.close(fd)


def truncate_by_open(path):
    os.close(os.open(path, os.O_WRONLY | os.O_TRUNC))
    assert os.stat(path).st_size == 0


def truncate(path):
    os.truncate(path, 10)


def allocate(path):
    fd = os.open(path, os.O_WRONLY)
    os.posix_fallocate(fd, 0, 9000)
    os.close(fd)


def copy(path):
    source = os.open(os.path.dirname(path) + "/source", os.O_RDONLY)
    fd = os.open(path, os.O_WRONLY)
    assert os.copy_file_range(source, fd, 100) == 100
    os.close(source)
    os.close(fd)


def change(path, call, ids, mode):
    """The mode of a file of user 1000 after a call."""
    path.mkdir(exist_ok=True)
    path.chmod(0o777)
    for name in ("source", "file"):
        (path / name).write_bytes(bytes(5000))
        os.chown(path / name, 1000, 1000)
    (path / "source").chmod(0o644)
    (path / "file").chmod(mode)
    as_user(ids, call, str(path / "file"))
    return mode_of(path / "file")


USERS = ROOT, MEMBER, OTHER = (0, 0), (1000, 1000), (2000, 2000)


def expected(path, call, ids, mode, options):
    """The mode of such a file in a plain directory, but for the set-group-ID bit of a file that its group may not execute.
    Requests need not name the caller, so a server that clears this bit clears it for members of the group as for others. With
    --no-killpriv-v2 Linux's client decides when a file is truncated (fuse_setattr), and leaves it."""
    if mode == 0o2666 and ids != ROOT:
        truncates = call in (truncate_by_open, truncate)
        if "--no-killpriv-v2" in options:
            return oct(mode) if truncates else change(path, call, ids, mode)
        if truncates or call is write and "--writeback" not in options:
            return change(path, call, OTHER, mode)
    return change(path, call, ids, mode)


@pytest.mark.sanitizers
@pytest.mark.parametrize("options", [(), ("--no-killpriv-v2",), ("--writeback",), ("--passthrough",)], ids=" ".join)
@pytest.mark.parametrize("call", [write, truncate_by_open, truncate, allocate, copy], ids=lambda it: it.__name__)
@pytest.mark.parametrize("ids", USERS, ids=lambda it: f"by{it[0]}")
def test_set_id_bits_go_as_in_a_plain_directory(mount, directory, scratch, options, call, ids):
    server = mount("-o", "allow_other", "--log-level=warn", *options)
    for mode in (0o6777, 0o2777, 0o4777, 0o2666, 0o2676, 0o4666):
        wanted = expected(scratch / "plain", call, ids, mode, options)
        assert change(server.path / "shared", call, ids, mode) == wanted, oct(mode)


@pytest.mark.parametrize("options", [(), ("--no-killpriv-v2",)], ids=" ".join)
def test_chown_to_nobody_else_clears_bits_and_moves_the_time_of_change(mount, directory, scratch, options):
    server = mount("-o", "attr_timeout=0", *options)
    for path in (scratch / "plain", server.path / "file"):
        path.write_bytes(b"content")
        path.chmod(0o6777)
        before = path.stat().st_ctime_ns
        # (times have the clock of timer interrupts)
        time.sleep(0.02)
        os.chown(path, -1, -1)
        assert mode_of(path) == "0o777"
        assert path.stat().st_ctime_ns > before


@pytest.mark.parametrize("options, offered", [((), ATOMIC_O_TRUNC), (("--no-killpriv-v2",), 0)])
def test_with_no_killpriv_v2_open_does_not_truncate_in_a_machine_either(serve, options, offered):
    reply = serve(*options).connect(init=False).init()
    # (the flags of INIT that the server accepts)
    assert struct.unpack_from("<I", reply, 12)[0] & ATOMIC_O_TRUNC == offered


def test_a_machine_that_kills_bits_itself_loses_those_of_a_file_that_open_truncates(serve, directory):
    path = directory / "file"
    path.write_bytes(b"content")
    client = serve().connect(init=False)
    # (as Linux before 5.11 does)
    client.init(flags=ATOMIC_O_TRUNC)
    node = client.lookup(b"file")
    for user, mode in ((0, "0o6777"), (1000, "0o777")):
        path.chmod(0o6777)
        client.release(node, client.open(node, os.O_WRONLY | os.O_TRUNC, uid=user, gid=user))
        assert mode_of(path) == mode


@contextlib.contextmanager
def opened(path, flags):
    fd = os.open(path, flags)
    try:
        yield fd
    finally:
        os.close(fd)


def unlink(path):
    os.unlink(path)


def replace(path):
    (path.parent / "other").write_bytes(b"")
    os.rename(path.parent / "other", path)


@pytest.mark.fuse
@pytest.mark.parametrize("make", [os.mkfifo, lambda path: path.write_bytes(b"content"), os.mkdir],
                         ids=["fifo", "file", "directory"])
@pytest.mark.parametrize("remove", [unlink, replace], ids=lambda it: it.__name__)
@pytest.mark.parametrize("handles", ["never", "prefer", "mandatory"])
def test_what_is_open_without_an_open_outlives_its_last_name(mount, directory, make, remove, handles):
    server = mount(f"--inode-file-handles={handles}", "-o", "attr_timeout=0")
    path = server.path / "name"
    make(path)
    with opened(path, os.O_PATH) as fd:
        number = os.fstat(fd).st_ino
        if path.is_dir() and remove is unlink:
            os.rmdir(path)
        elif path.is_dir():
            os.mkdir(server.path / "other")
            os.rename(server.path / "other", path)
        else:
            remove(path)
        seen = os.fstat(fd)
        assert (seen.st_ino, seen.st_nlink) == (number, 0)


@pytest.mark.fuse
def test_a_fifo_that_is_open_outlives_its_last_name(mount):
    server = mount("--inode-file-handles=prefer", "-o", "attr_timeout=0")
    path = server.path / "fifo"
    os.mkfifo(path)
    with opened(path, os.O_RDWR) as fd:
        os.unlink(path)
        os.write(fd, b"through")
        assert os.read(fd, 100) == b"through" and stat.S_ISFIFO(os.fstat(fd).st_mode)


def test_with_handles_a_name_that_is_not_removed_takes_no_descriptor(serve, directory):
    server = serve("--inode-file-handles=prefer")
    client = server.connect()
    nodes = []
    for i in range(50):
        (directory / f"full{i}/file").mkdir(parents=True)
        nodes.append(client.lookup(b"full%d" % i))
    before = len(server.descriptors())
    for i in range(50):
        assert client.ask(Op.RMDIR, b"full%d\0" % i).error == ENOTEMPTY
    assert len(server.descriptors()) == before
    for i, node in enumerate(nodes):
        (directory / f"full{i}/file").rmdir()
        client.expect(Op.RMDIR, b"full%d\0" % i)
        # (the number of links)
        assert struct.unpack_from("<I", client.getattr(node), 64) == (0,)
    assert len(server.descriptors()) == before + 50
    # (what is forgotten lets go of its descriptor)
    for node in nodes:
        client.forget(node)
    client.getattr(1)
    # (and with the last handle goes the descriptor by which handles are opened)
    assert len(server.descriptors()) == before - 1


@pytest.mark.fuse
def test_files_outlive_names_that_several_processes_remove_at_once(mount):
    server = mount("--inode-file-handles=prefer", "-o", "attr_timeout=0,entry_timeout=0")

    def exchange(number):
        """Puts files in the places of others', and looks at each once its name may be gone."""
        own, shared = server.path / f"own{number}", server.path / "shared"
        for i in range(150):
            (os.mkfifo if i & 1 else os.mknod)(own)
            with opened(own, os.O_PATH) as fd:
                inode = os.fstat(fd).st_ino
                os.rename(own, shared)
                with contextlib.suppress(FileNotFoundError):
                    os.unlink(shared)
                assert os.fstat(fd).st_ino == inode

    children = []
    for number in range(4):
        children.append(os.fork())
        if not children[-1]:
            status = 1
            try:
                exchange(number)
                status = 0
            finally:
                os._exit(status)
    assert [os.waitpid(it, 0)[1] for it in children] == [0] * 4
