"""Calls that random ones do not come to come to the same on a mount as on a plain directory: files that are appended to, access
control lists, and whiteouts."""
import ctypes
import errno
import fcntl
import itertools
import json
import mmap
import os
import stat
import struct

import pytest
from building import run
from shapes import Op, record

pytestmark = [pytest.mark.fuse, pytest.mark.sanitizers]
LIBC = ctypes.CDLL(None, use_errno=True)
ACCESS, DEFAULT = "system.posix_acl_access", "system.posix_acl_default"
NO_ONE = 2**32 - 1
# FUSE_POSIX_ACL, FUSE_DONT_MASK and FUSE_SETXATTR_EXT: what a client that has lists agrees on.
LISTS = 1 << 20 | 1 << 6 | 1 << 29


@pytest.fixture(params=[(), ("--passthrough", "--watch")], ids=["plain", "passthrough"])
def mount_calls(request, share_mount):
    """Mounts a directory, also so that the kernel has its files by itself, which cannot be combined with --writeback."""
    def start(*options, **more):
        if request.param and "--writeback" in options:
            pytest.skip("--passthrough cannot be combined with --writeback")
        return share_mount("--log-level=warn", *request.param, *options, **more)

    return start


def acl(*entries):
    """One as the kernel has it: of tags, permissions and ids. The tags are those of linux/posix_acl.h."""
    return struct.pack("<I", 2) + b"".join(struct.pack("<HHI", *entry) for entry in entries)


def for_user(user, may, group=0, mask=7):
    """A list that lets a user do this, and the group of the file that."""
    return acl((1, 6, NO_ONE), (2, may, user), (4, group, NO_ONE), (16, mask, NO_ONE), (32, 0, NO_ONE))


def as_who(user, group, act):
    """What an act comes to that a user does: a value that JSON has, or an error."""
    reading, writing = os.pipe()
    child = os.fork()
    if not child:
        try:
            os.setgroups([])
            os.setresgid(group, group, group)
            os.setresuid(user, user, user)
            came = act()
        except OSError as error:
            came = f"error {error.errno}"
        os.write(writing, json.dumps(came).encode())
        os._exit(0)
    os.close(writing)
    with os.fdopen(reading) as told:
        came = json.load(told)
    os.waitpid(child, 0)
    return came


def put(path, data, mode=0o644):
    with open(path, "wb") as file:
        file.write(data)
    os.chmod(path, mode)


def got(path):
    with open(path, "rb") as file:
        return file.read().decode()


def open_with(path, flags, act):
    file = os.open(path, flags)
    try:
        return act(file)
    finally:
        os.close(file)


def look(path):
    """What is compared of a file, of which times and numbers differ anyway."""
    is_so = os.lstat(path)
    return oct(is_so.st_mode), is_so.st_uid, is_so.st_gid


def look_at_lists(path):
    return *look(path), {key: os.getxattr(path, key).hex() for key in os.listxattr(path) if "acl" in key}


def appends(folder):
    """Files that are mapped with O_APPEND, or lose it, or get it, in small pieces and in large ones."""
    path, came = folder + "/file", []

    def change(file):
        with mmap.mmap(file, 20) as bytes_:
            bytes_[:3] = b"XYZ"
        os.fsync(file)
        os.write(file, b"+")
        came.append(got(path))
        for flags, data in ((0, b"AB"), (os.O_APPEND, b"CD"), (0, b"E" * 200000), (os.O_APPEND, b"F" * 200000)):
            fcntl.fcntl(file, fcntl.F_SETFL, flags)
            came.append((os.pwrite(file, data, 1), got(path)))

    for flags in (os.O_RDWR | os.O_APPEND, os.O_RDWR):
        put(path, b"0123456789" * 2)
        open_with(path, flags, change)

    def copy(file):
        fcntl.fcntl(file, fcntl.F_SETFL, 0)
        came.append(open_with(folder + "/from", os.O_RDONLY, lambda it: os.copy_file_range(it, file, 5, 0, 2)))
        came.append((LIBC.fallocate(file, 0, ctypes.c_int64(0), ctypes.c_int64(20)), got(path)))
    put(path, b"0123456789")
    put(folder + "/from", b"copied")
    open_with(path, os.O_RDWR | os.O_APPEND, copy)
    return came


def whiteouts(folder):
    """Of a user in a folder where who owns a name alone removes it; and of a file that another one owns."""
    sticky, came = folder + "/sticky", []
    os.mkdir(sticky)
    os.chmod(sticky, 0o1777)

    def act():
        put(sticky + "/mine", b"m")
        done = LIBC.renameat2(-100, os.fsencode(sticky + "/mine"), -100, os.fsencode(sticky + "/moved"), 4)
        made = os.lstat(sticky + "/mine")
        shown = [done, oct(made.st_mode), made.st_rdev, made.st_uid, made.st_gid]
        os.unlink(sticky + "/mine")
        return shown
    came.append(as_who(1001, 1002, act))
    os.mkdir(folder + "/open")
    os.chmod(folder + "/open", 0o777)
    put(folder + "/open/another", b"a", 0o600)
    came.append(as_who(1001, 1002, lambda: LIBC.renameat2(-100, os.fsencode(folder + "/open/another"), -100,
                                                          os.fsencode(folder + "/open/moved"), 4)))
    came.append((look(folder + "/open/another"), sorted(os.listdir(folder + "/open"))))
    return came


def lists(folder):
    """Access control lists: who may by them, what they make of modes, and what of a umask."""
    path, came = folder + "/listed", []
    read = lambda: got(path)
    put(path, b"secret")
    os.chown(path, 0, 2000)
    os.setxattr(path, ACCESS, for_user(1001, 6, mask=6))
    for who in ((1500, 2000), (1001, 1001), (1002, 1002), (0, 0)):
        came.append((who, as_who(*who, read)))
    came.append(look_at_lists(path))
    os.chmod(path, 0o640)
    came.append((look_at_lists(path), as_who(1001, 1001, lambda: open_with(path, os.O_WRONLY, lambda it: os.write(it, b"w")))))
    os.removexattr(path, ACCESS)
    came.append((look_at_lists(path), as_who(1500, 2000, read), as_who(1001, 1001, read)))
    came.append(as_who(1500, 2000, lambda: os.setxattr(path, ACCESS, for_user(1500, 7))))

    def make(where):
        os.umask(0o027)
        open_with(where + "/file", os.O_WRONLY | os.O_CREAT, lambda _: None)
        os.mkdir(where + "/directory")
        os.mknod(where + "/node", stat.S_IFREG | 0o666)
        os.mkfifo(where + "/pipe")
        os.symlink("text", where + "/link")
        return [look_at_lists(f"{where}/{name}") for name in ("file", "directory", "node", "pipe")]
    for name, list_ in (("plain", None), ("default", for_user(1003, 7, 5, 7)), ("other", for_user(1003, 4, 4, 4))):
        for who in ((0, 0), (1001, 1001)):
            where = f"{folder}/{name}{who[0]}"
            os.mkdir(where)
            os.chmod(where, 0o2777)
            if list_:
                os.setxattr(where, DEFAULT, list_)
            came.append((name, who, as_who(*who, lambda: make(where))))
    # Who isn't of a file's group, and sets its list, takes the set-group-ID bit away.
    for group in (0, 1001, 2000):
        put(path, b"set")
        os.chown(path, 1001, group)
        os.chmod(path, 0o2755)
        came.append((as_who(1001, 1001, lambda: os.setxattr(path, ACCESS, for_user(1003, 5, 5))), look_at_lists(path)))
    return came


# ---- the same calls on a mount and on a plain directory

@pytest.mark.parametrize("act, options", [
    *((appends, it) for it in ((), ("--writeback",), ("--cache=always", "--thread-pool-size=1"))), (whiteouts, ()),
    (lists, ("--posix-acl",)), (lists, ("--posix-acl", "--writeback", "--cache=always", "--sandbox=none"))])
def test_calls_come_to_what_they_do_on_a_plain_directory(mount_calls, scratch, act, options):
    (scratch / "plain").mkdir()
    wanted = act(str(scratch / "plain"))
    came = act(str(mount_calls("-o", "allow_other", *options).path))
    for one, other in itertools.zip_longest(came, wanted):
        assert one == other


# ---- what has no plain directory beside it

def test_below_a_file_system_without_lists_the_mode_says_who_may(mount_calls, directory):
    run("mount", "-t", "ramfs", "none", directory)
    put(directory / "file", b"for all")
    path = mount_calls("-o", "allow_other,posix_acl").path / "file"
    assert as_who(1001, 1001, lambda: got(path)) == "for all"


def set_append_alone(path, is_set):
    """Has a file be appended to alone, as `chattr +a` does."""
    open_with(path, os.O_RDONLY, lambda file: fcntl.ioctl(file, 0x40086602, struct.pack("<q", 0x20 if is_set else 0)))


def test_a_file_that_the_host_lets_be_appended_to_alone_is(mount_calls, directory):
    put(directory / "log", b"begun")
    try:
        set_append_alone(directory / "log", True)
    except OSError:
        pytest.skip("requires a file system with files that are only appended to")

    def act(file):
        os.write(file, b" more")
        fcntl.fcntl(file, fcntl.F_SETFL, 0)
        os.pwrite(file, b"AB", 0)

    came = as_who(0, 0, lambda: open_with(mount_calls().path / "log", os.O_WRONLY | os.O_APPEND, act))
    set_append_alone(directory / "log", False)
    assert (came, got(directory / "log")) == ("error 1", "begun more")


def test_lines_that_two_mounts_and_the_host_append_at_once_are_all_there(mount_calls, directory):
    """Meanwhile one descriptor writes by a map too."""
    # Sixteen bytes, which divide a page: of a write that crosses a page, by the end that a client knows, its kernel
    # makes two requests if the first page isn't in its cache, and what another one appends may come between them.
    line, lines = "{}.{:013}\n".format, 400
    put(directory / "log", b"#" * 4096)

    def write(number):
        def act(file):
            with mmap.mmap(file, 4096) as page:
                for i in range(lines):
                    if number == 0:
                        page[0] = 64 + i % 20
                        page.flush()
                    os.write(file, line(number, i).encode())
        return act

    children = []
    for number, path in enumerate((mount_calls().path, mount_calls().path, directory)):
        child = os.fork()
        if not child:
            open_with(path / "log", os.O_RDWR | os.O_APPEND, write(number))
            os._exit(0)
        children.append(child)
    assert [os.waitpid(child, 0)[1] for child in children] == [0] * 3
    text = got(directory / "log")
    assert text[:2] != "##"
    assert sorted(text[4096:].splitlines(True)) == sorted(line(who, i) for who in range(3) for i in range(lines))


def test_a_machine_without_lists_is_refused_and_one_with_lists_served_with_the_umask_of_its_programs(serve, directory):
    server = serve("--posix-acl", "--log-level=warn")
    client = server.connect(init=False)
    with pytest.raises(OSError) as refused:
        client.init(1 << 30)
    assert refused.value.errno == errno.EPROTO and "the client does not support access control lists" in server.stderr()
    client.init(1 << 30 | LISTS)
    client.expect(Op.MKDIR, record(Op.MKDIR, mode=0o777, umask=0o027) + b"made\0")
    assert (directory / "made").stat().st_mode & 0o777 == 0o750
