"""What a client of nizwarf-share knows of files: those of several file systems below the directory are told apart, over a mount
and by a machine, how many are known is bounded, and a node takes little memory."""
import ctypes
import errno
import os
import resource
import struct

import pytest
from building import REPOSITORY, run
from shapes import Op, record
from test_share_mount import drop_caches

pytestmark = pytest.mark.fuse
SUBMOUNTS = 1 << 27
# What a node may take besides its name, in bytes.
MOST_BYTES = 160


@pytest.fixture
def file_systems(directory):
    """Three file systems of which each has a file with the same number, by two names; and that of one of them in place of
    another file."""
    for name in ("", "a/", "b/"):
        (directory / name).mkdir(exist_ok=True)
        run("mount", "-t", "tmpfs", "none", directory / name)
        (directory / name / "f").write_text(name or "own")
        os.link(directory / name / "f", directory / name / "linked")
    (directory / "single").touch()
    run("mount", "--bind", directory / "b/f", directory / "single")
    assert len({os.stat(directory / name / "f").st_ino for name in ("", "a", "b")}) == 1
    return directory


def test_inode_numbers_that_no_file_system_here_has_are_told_apart(build):
    library = ctypes.CDLL(build(REPOSITORY / "programs/share/passthrough_numbers.c", "-shared"))
    library.numbers_new.restype, library.numbers_tell.restype = ctypes.c_void_p, ctypes.c_uint64
    library.numbers_tell.argtypes = ctypes.c_void_p, ctypes.c_uint64, ctypes.c_uint64
    own, inodes = 7, (1, 2, 2**48 - 1, 2**47)
    numbers = library.numbers_new(ctypes.c_uint64(own))

    def tell(asked):
        """The numbers by device and inode."""
        return {it: library.numbers_tell(numbers, *it) for it in asked}

    # Those of the folder's own file system stay, where the upper bits are no other's.
    told = tell([(own, 5 << 48 | 9)])
    assert told[own, 5 << 48 | 9] == 5 << 48 | 9
    told |= tell((device, inode) for device in range(own, own + 300) for inode in inodes)
    assert all(told[own, it] == it for it in inodes)
    assert all(number % 2**48 == inode % 2**48 for (_, inode), number in told.items())
    # The upper bits of another device's are the folder's own: they are told apart all the same.
    high = told[own + 299, inodes[-1]] >> 48
    told |= tell((own, high << 48 | it) for it in inodes)
    # More upper bits than there are: numbers are mixed from some on.
    told |= tell((1000 + (it >> 16), it % 2**16 << 48 | 2) for it in range(70000))
    assert len(set(told.values())) == len(told), "two files have one number"
    assert tell(told) == told, "a number does not stay"
    library.numbers_free(ctypes.c_void_p(numbers))


def entries_below(top):
    """The paths of all entries, from the top on, with what lstat(2) and the directory say of them."""
    for folder, _, _ in os.walk(top):
        yield from ((os.path.relpath(it.path, top), it.stat(follow_symlinks=False), it.inode()) for it in os.scandir(folder))


@pytest.mark.parametrize("options", [(), ("--no-readdirplus", "--cache=never"), ("--inode-file-handles=prefer",)], ids=" ".join)
def test_programs_over_a_mount_take_no_file_for_another(mount, file_systems, scratch, options):
    path = mount(*options).path
    files, names = {}, {}
    for name, seen, listed in entries_below(path):
        of_host = os.stat(file_systems / name)
        names[name] = seen.st_ino
        files.setdefault((seen.st_dev, seen.st_ino), set()).add(name)
        assert of_host.st_dev != os.stat(file_systems).st_dev or seen.st_ino == of_host.st_ino
        assert listed == seen.st_ino or os.path.ismount(file_systems / name) or name == "single"
    # (what is mounted on another file has both names)
    assert sorted(map(sorted, files.values())) == [
        ["a"], ["a/f", "a/linked"], ["b"], ["b/f", "b/linked", "single"], ["f", "linked"]]
    drop_caches()
    with open(path / "b/f") as file:
        assert os.fstat(file.fileno()).st_ino == names["b/f"]
    away = scratch / "away"
    away.mkdir()
    run("sh", "-c", 'tar -C "$0" -cf - a b | tar -C "$1" -xf - && cp -a "$0/a" "$0/b" "$1/b"', path, away)
    for name in ("a", "b", "b/a", "b/b"):
        assert (away / name / "f").read_text() == name[-1] + "/"
    run("cp", path / "a/f", path / "b/f")


def listed(client, node=1, opcode=Op.READDIRPLUS):
    """The entries of a directory: its name, its inode number, and the node and number that READDIRPLUS adds."""
    handle = client.open(node, os.O_DIRECTORY)
    body, at, before = client.read(node, handle, 8000, 0, opcode), 0, 128 if opcode == Op.READDIRPLUS else 0
    entries = []
    while at < len(body):
        inode, size = struct.unpack_from("<Q8xI", body, at + before)
        name = body[at + before + 24:at + before + 24 + size]
        entries.append((name, inode, *(struct.unpack_from("<Q32xQ", body, at) if before else (0, 0))))
        at += before + 24 + size + 7 & ~7
    client.release(node, handle, Op.RELEASEDIR)
    return entries


@pytest.mark.parametrize("options", [(), ("--no-announce-submounts",), ("--inode-file-handles=prefer",)], ids=" ".join)
@pytest.mark.parametrize("offered", [0, SUBMOUNTS], ids=["unaware", "submounts"])
def test_a_machine_takes_no_file_for_another_whether_mounts_are_announced_or_not(serve, file_systems, options, offered):
    client = serve(*options).connect(init=False)
    client.init(0x7bfdfffb & ~SUBMOUNTS | offered, 11)
    is_announced = bool(offered) and "--no-announce-submounts" not in options

    def look_up(name, node=1):
        """The node, the inode number, and whether it is announced as a mount."""
        entry = client.expect(Op.LOOKUP, name + b"\0", node)
        return struct.unpack_from("<Q32xQ", entry) + (struct.unpack_from("<I", entry, 124)[0],)

    of_mounts = []
    for name in (b"a", b"b"):
        node, _, flags = look_up(name)
        assert bool(flags) == is_announced
        file, inode, _ = look_up(b"f", node)
        assert struct.unpack_from("<Q", client.getattr(file))[0] == inode
        for opcode in (Op.READDIR, Op.READDIRPLUS):
            (entry,) = [it for it in listed(client, node, opcode) if it[0] == b"f"]
            assert entry[1] == inode and (not entry[2] or entry[3] == inode)
        of_mounts.append(inode)
    own, single = look_up(b"f")[1], look_up(b"single")[1]
    # (a file in place of another is in the device of its directory)
    assert own == os.stat(file_systems / "f").st_ino and single != own
    assert of_mounts == [own] * 2 if is_announced else len({own, *of_mounts}) == 3


MOST = 10
MADE = {Op.SYMLINK: b"", Op.MKNOD: record(Op.MKNOD, mode=0o100644), Op.MKDIR: record(Op.MKDIR, mode=0o755),
        Op.CREATE: record(Op.CREATE, flags=0o102, mode=0o644)}


class Bounded:
    """A client that may know ten files, of which the directory is one."""

    def __init__(self, client, directory):
        self.client, self.directory, self.before = client, directory, set(os.listdir(directory))

    def make(self, opcode, name, error=0):
        """Makes a file; returns its node."""
        body = MADE[opcode] + name + b"\0" + (b"text\0" if opcode == Op.SYMLINK else b"")
        came = self.client.ask(opcode, body)
        assert came.error == error, opcode.name
        return 0 if error else struct.unpack_from("<Q", came.body)[0]

    def look_up(self, i, error=0):
        came = self.client.ask(Op.LOOKUP, b"some%02d\0" % i)
        assert came.error == error
        return 0 if error else struct.unpack_from("<Q", came.body)[0]

    def refuse_more(self):
        """As many files are known as may be: another one is neither known nor made. Returns their nodes."""
        nodes = [self.look_up(i) for i in range(MOST - 1)]
        for i in range(MOST - 1, MOST + 5):
            self.look_up(i, errno.ENFILE)
            assert self.look_up(3) == nodes[3]
        for opcode in MADE:
            self.make(opcode, b"made", errno.ENFILE)
        assert set(os.listdir(self.directory)) == self.before
        self.client.expect(Op.LINK, struct.pack("<Q", nodes[0]) + b"made\0")
        self.client.unlink(b"made")
        entries = listed(self.client)
        assert {it[0].decode() for it in entries} == self.before | {".", ".."}
        assert 0 < sum(bool(it[2]) for it in entries) < MOST
        return nodes

    def replace_one(self, forgotten):
        """A file that is known no more leaves its place to another one, of any kind, and to one alone."""
        self.client.forget(forgotten, 1 << 20)
        for opcode in MADE:
            made = self.make(opcode, b"made")
            self.make(opcode, b"more", errno.ENFILE)
            self.client.expect(Op.RMDIR if opcode == Op.MKDIR else Op.UNLINK, b"made\0")
            self.look_up(5, errno.ENFILE)
            self.client.forget(made)
        self.make(Op.MKNOD, b"made")
        self.client.unlink(b"made")
        for _ in range(3 * MOST - 1):
            self.make(Op.MKNOD, b"made", errno.ENFILE)
            assert self.client.ask(Op.UNLINK, b"made\0").error == errno.ENOENT
        assert set(os.listdir(self.directory)) == self.before


@pytest.mark.parametrize("option", ["--inode-file-handles=never", "--inode-file-handles=prefer", "--thread-pool-size=1"])
def test_no_more_files_are_known_than_node_limit_says_and_what_is_refused_is_not_made(serve, directory, option):
    for i in range(MOST + 5):
        (directory / f"some{i:02}").touch()
    server = serve(f"--node-limit={MOST}", option)
    bounded = Bounded(server.connect(), directory)
    for ends_session in (lambda: bounded.client.ask(Op.DESTROY, reply_size=0), bounded.client.init):
        bounded.replace_one(bounded.refuse_more()[5])
        ends_session()
        bounded.client.init()
    assert server.stderr().count("--node-limit") == 1


@pytest.mark.parametrize("handles", ["never", "prefer"])
def test_a_node_takes_little_memory_besides_its_name(mount, directory, handles):
    # (without handles each takes a descriptor)
    most = resource.getrlimit(resource.RLIMIT_NOFILE)[1] // 2 // 1000 * 1000 if handles == "never" else 40000
    folders = min(max(most, 5000), 40000) // 1000
    for i in range(folders * 1000):
        if i % 1000 == 0:
            (directory / f"d{i // 1000}").mkdir()
        os.mknod(directory / f"d{i // 1000}/f{i:06}")
    # (each worker has memory of its own, which it uses first by chance)
    server = mount(f"--inode-file-handles={handles}", "--thread-pool-size=1")

    def know(numbers):
        for i in numbers:
            for it in os.scandir(server.path / f"d{i}"):
                os.lstat(it.path)

    know(range(2))
    before = server.memory()
    know(range(2, folders))
    size = (server.memory() - before) / ((folders - 2) * 1000) - len("f000000\0")
    print(f"A node takes {size:.0f} bytes besides its name.")
    assert 20 < size <= MOST_BYTES
