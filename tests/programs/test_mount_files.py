"""Files of the tree in memory as programs see them in a mount, as on a tmpfs: a person's session, files without a name,
the fields of statx(2), and flags by ioctl(2). Each test runs with each kind of mount, and where its values are absolute
on a tmpfs too, because they are Linux's."""
import ctypes
import errno
import fcntl
import os
import pathlib
import struct
import subprocess
import time

import pytest
from building import run

pytestmark = pytest.mark.fuse
OPTIONS = ["allow_other", "allow_other,writeback", "allow_other,no_io_uring"]
# FS_IOC_ of linux/fs.h, and a number that is no command; FS_IMMUTABLE_FL, FS_COMPR_FL.
GETFLAGS, SETFLAGS, FSGETXATTR, FSSETXATTR, UNKNOWN = 0x80086601, 0x40086602, 0x801c581f, 0x401c5820, 0x8004ff7f
IMMUTABLE, COMPRESSED = 0x10, 0x4
# STATX_BTIME, and all basic fields with it; AT_FDCWD, AT_SYMLINK_NOFOLLOW.
BTIME, ALL, AT_FDCWD, NO_FOLLOW = 0x800, 0xfff, -100, 0x100
TIMES = {"atime": 64, "btime": 80, "ctime": 96, "mtime": 112}
libc = ctypes.CDLL(None, use_errno=True)


@pytest.fixture
def tmpfs(scratch):
    """A new tmpfs, which is unmounted with the scratch directory."""
    path = scratch / "tmpfs"
    path.mkdir()
    subprocess.run(["mount", "-t", "tmpfs", "none", path], check=True)
    return path


@pytest.fixture(params=OPTIONS)
def tree(request, mount_tree):
    """A server of a mounted tree."""
    return mount_tree(request.param)


@pytest.fixture(params=[*OPTIONS, "tmpfs"])
def files(request, mount_tree):
    """The path of a mounted tree, or of a tmpfs."""
    return request.getfixturevalue("tmpfs") if request.param == "tmpfs" else mount_tree(request.param).path


def failure(call, *arguments, **more):
    """The name of the error of a call, or nothing if it succeeds."""
    try:
        call(*arguments, **more)
    except OSError as error:
        return errno.errorcode[error.errno]
    return ""


# ---- the mount as a whole

@pytest.mark.slow
def test_a_persons_session_is_as_posix_and_linux_say(tree):
    print(run(pathlib.Path(__file__).with_name("session.sh"), tree.path, seconds=600))


@pytest.mark.io_uring
@pytest.mark.parametrize("option, by_ring", [("allow_other", True), ("no_io_uring", False)])
def test_requests_come_over_io_uring_unless_an_option_forbids(mount_tree, option, by_ring):
    server = mount_tree(option)
    (server.path / "file").touch()
    assert any("io_uring" in it for it in server.descriptors()) == by_ring


@pytest.mark.slow
def test_a_file_that_is_cut_gives_its_memory_back(tree):
    for i in range(6):
        with open(tree.path / f"cut{i}", "wb") as file:
            for _ in range(300):
                file.write(bytes(1 << 20))
            file.truncate(0)
    # (more than one file of 300 MiB, and less than two)
    assert tree.memory() < 400 << 20


# ---- files without a name

def nameless(path, flags=0):
    """The descriptor of a new file without a name."""
    return os.open(path, os.O_TMPFILE | os.O_RDWR | flags, 0o640)


def link(file, path):
    """Links a file without a name by /proc, which needs no capability, as linkat(2) says; returns its error."""
    return failure(os.link, f"/proc/self/fd/{file}", path, src_dir_fd=file)


def inodes(path):
    of = os.statvfs(path)
    return of.f_files - of.f_ffree


def test_a_file_without_a_name_takes_an_inode_and_changes_no_directory(files):
    before, directory = inodes(files), os.stat(files)
    file = nameless(files)
    of = os.fstat(file)
    assert (of.st_mode, of.st_nlink, inodes(files) - before) == (0o100640, 0, 1)
    assert (os.listdir(files), os.stat(files).st_mtime_ns) == ([], directory.st_mtime_ns)
    os.close(file)


def test_a_file_without_a_name_gets_one_once(files):
    before, named = inodes(files), files / "named"
    file = nameless(files)
    os.write(file, b"no name")
    assert link(file, named) == ""
    assert (os.fstat(file).st_nlink, inodes(files) - before) == (1, 1)
    assert named.read_bytes() == b"no name"
    named.unlink()
    assert link(file, named) == "ENOENT"
    os.close(file)


def test_a_file_without_a_name_gets_none_if_it_was_opened_with_O_EXCL(files):
    file = nameless(files, os.O_EXCL)
    assert link(file, files / "named") == "ENOENT"
    os.close(file)


def test_a_file_without_a_name_can_be_made_in_a_removed_directory_that_is_open(files):
    path = files / "directory"
    path.mkdir()
    directory = os.open(path, os.O_RDONLY)
    path.rmdir()
    os.close(nameless(f"/proc/self/fd/{directory}"))
    os.close(directory)


# ---- statx(2)

def statx(path):
    """The fields of a node, with times in nanoseconds."""
    of = ctypes.create_string_buffer(256)
    if libc.statx(AT_FDCWD, os.fsencode(path), NO_FOLLOW, ALL, of):
        raise OSError(ctypes.get_errno(), path)
    names = "mask blksize attributes nlink uid gid mode ino size blocks".split()
    fields = dict(zip(names, struct.unpack_from("<IIQIIIHxxQQQ", of)))
    for name, at in TIMES.items():
        seconds, beyond = struct.unpack_from("<qI", of, at)
        fields[name] = seconds * 10**9 + beyond
    return {**fields, "mask": fields["mask"] & ALL, "rdev": struct.unpack_from("<II", of, 128)}


@pytest.fixture
def umask():
    """The usual umask, so that modes are the same for everyone."""
    before = os.umask(0o022)
    yield
    os.umask(before)


def make_nodes(folder):
    """Makes a node of each kind, and returns each with the times just before and after."""
    made = {}
    for name, make in {
        "file": lambda at: os.close(os.open(at, os.O_CREAT | os.O_RDWR, 0o640)),
        "directory": os.mkdir,
        "link": lambda at: os.symlink("file", at),
        "fifo": lambda at: os.mkfifo(at, 0o600),
        "device": lambda at: os.mknod(at, 0o020600, os.makedev(0x123, 0xabcde)),
    }.items():
        before = time.time_ns()
        make(folder / name)
        made[folder / name] = (before, time.time_ns())
    return made


def change(folder):
    """Changes the file and the directory in each way that leaves them there."""
    file, other, directory = folder / "file", folder / "other", folder / "directory"
    file.write_bytes(b"hello")
    os.truncate(file, 9000)
    file.chmod(0o600)
    os.chown(file, 3, 4)
    os.utime(file, (5, 6))
    os.setxattr(file, "trusted.a", b"b")
    os.link(file, other)
    other.unlink()
    file.rename(other)
    other.rename(file)
    file.read_bytes()
    (directory / "in").mkdir()
    (directory / "in").rmdir()
    os.listdir(directory)


def test_a_node_is_born_when_it_is_made_and_has_this_time(files):
    # (in nanoseconds: the clock of a file system has ticks of up to 10 ms)
    slack = 20 * 10**6
    for path, (before, after) in make_nodes(files).items():
        of = statx(path)
        assert before - slack <= of["btime"] <= after + slack, path
        assert of["mtime"] == of["ctime"] == of["btime"], path
    assert statx(files)["mask"] & BTIME and statx(files)["btime"] > 0


def test_no_change_moves_the_time_of_birth(files):
    births = {path: statx(path)["btime"] for path in make_nodes(files)}
    # (longer than a tick, so that a birth that moved would show)
    time.sleep(0.05)
    change(files)
    assert {path: statx(path)["btime"] for path in births} == births
    assert statx(files / "file")["mtime"] == 6 * 10**9
    shown = subprocess.run(["stat", "-c", "%W", files / "file"], stdout=subprocess.PIPE, text=True, check=True).stdout
    assert int(shown) == births[files / "file"] // 10**9


def test_a_file_without_a_name_is_born_when_it_is_made(files):
    before = max(statx(path)["btime"] for path in make_nodes(files))
    time.sleep(0.05)
    file = nameless(files)
    assert link(file, files / "named") == ""
    assert statx(files / "named")["btime"] > before
    os.close(file)


def test_statx_fills_in_what_it_does_on_a_tmpfs(tree, tmpfs, umask):
    shown = []
    for folder in (tree.path, tmpfs):
        nodes = make_nodes(folder)
        change(folder)
        shown.append([])
        for path in nodes:
            # (the size of a directory counts its names on a tmpfs)
            left = {"ino", "attributes", *TIMES, *(("size", "blocks") if path.is_dir() else ())}
            shown[-1].append({name: value for name, value in statx(path).items() if name not in left})
    assert shown[0] == shown[1]


# ---- flags, by ioctl(2)

def ioctl(path, command, given):
    """The bytes that a command puts out, or the name of its error."""
    file = os.open(path, os.O_RDONLY)
    try:
        return fcntl.ioctl(file, command, given)
    except OSError as error:
        return errno.errorcode[error.errno]
    finally:
        os.close(file)


def test_commands_of_flags_come_to_what_they_do_on_a_tmpfs(tree, tmpfs):
    came = []
    for folder in (tree.path, tmpfs):
        (folder / "file").touch()
        (folder / "directory").mkdir()
        came.append([])
        for path in (folder / "file", folder / "directory"):
            came[-1] += [
                ioctl(path, GETFLAGS, struct.pack("<l", -1))[:4],
                ioctl(path, FSGETXATTR, b"\xff" * 28),
                ioctl(path, SETFLAGS, struct.pack("<l", COMPRESSED)),
                ioctl(path, FSSETXATTR, struct.pack("<I24x", 1)),
                ioctl(path, UNKNOWN, b"1234"),
            ]
    assert came[0] == came[1]


def test_a_flag_that_only_a_tmpfs_keeps_is_not_supported_and_not_set(tree):
    (tree.path / "file").touch()
    assert ioctl(tree.path / "file", SETFLAGS, struct.pack("<l", IMMUTABLE)) == "ENOTSUP"
    # (GETFLAGS puts out an int, though its number says a long)
    assert ioctl(tree.path / "file", GETFLAGS, struct.pack("<l", -1))[:4] == bytes(4)
