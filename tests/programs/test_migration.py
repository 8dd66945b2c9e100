"""A machine migrates from one nizwarf-share to another: its state is small, takes little memory, and lets nobody in whom a
server would refuse otherwise.

Sizes and memory are compared with the number of files that the client knows: whatever names a guest gives them, a node may
cost a source, a state and a destination some hundred bytes. What a state may open is compared with what a LOOKUP may."""
import contextlib
import errno
import os
import pathlib
import select
import struct
import time

import pytest
from device_state import BY_HANDLES, Device, entries_of, handle_of, header_of
from vhost_user import CHECK_DEVICE_STATE, SAVE, SET_DEVICE_STATE_FD, Op

pytestmark = pytest.mark.root
# How many bytes a node may cost in a state, and in memory while that is saved or loaded; and how many all of it may cost
# besides, in memory.
OF_NODE, OF_ALL = 600, 2 << 20
BY_FILE_HANDLES = "--migration-mode=file-handles"
# The options of INIT of a Linux that has neither access control lists nor security labels: FUSE_POSIX_ACL, FUSE_DONT_MASK
# and FUSE_SETXATTR_EXT are bits 20, 6 and 29, FUSE_SECURITY_CTX is bit 32.
LISTS, LABELS = (1 << 20 | 1 << 6 | 1 << 29, 0), (0, 1)
ALL_FLAGS = (0x7bfffffb, 15)


def move(client, target, state=None):
    """Saves a client's state and loads it at another server: the client there, which must be taken."""
    client.stop_all()
    state = state or client.save()
    assert state, "the source saved no state"
    other = target.connect(init=False)
    assert other.load(state), target.stderr()
    return other


@contextlib.contextmanager
def memory(server):
    """Yields a function that returns by how many bytes the server's memory has grown at most since."""
    pid = server.pid

    def of(field):
        lines = dict(it.split(":", 1) for it in pathlib.Path(f"/proc/{pid}/status").read_text().splitlines())
        return int(lines[field].split()[0]) << 10

    # (VmHWM begins anew)
    pathlib.Path(f"/proc/{pid}/clear_refs").write_text("5")
    before = of("VmRSS")
    yield lambda: of("VmHWM") - before


@contextlib.contextmanager
def deep(path, depth):
    """Makes a chain of directories with long names, and yields the last one's descriptor."""
    at = os.open(path, os.O_RDONLY)
    for _ in range(depth):
        os.mkdir("d" * 255, dir_fd=at)
        below = os.open("d" * 255, os.O_RDONLY, dir_fd=at)
        os.close(at)
        at = below
    yield at
    os.close(at)


def make(name, content=b"", dir_fd=None):
    with os.fdopen(os.open(name, os.O_CREAT | os.O_WRONLY, 0o644, dir_fd=dir_fd), "wb") as file:
        file.write(content)


def know_deep(client, names, depth):
    """Looks up names in a chain of directories: their nodes."""
    parent = 1
    for _ in range(depth):
        parent = client.lookup(b"d" * 255, parent)
    return [client.lookup(name, parent) for name in names]


def lose_name(client, directory, other):
    """Has the client know a file that keeps one name, `other`, which Linux does not connect with what was looked up."""
    make(directory / "first", b"content")
    node = client.lookup(b"first")
    handle = client.open(node, os.O_RDONLY)
    os.link(directory / "first", other)
    os.unlink(directory / "first")
    return node, handle


def agreed(client):
    """The options that a client's INIT agreed on, as its state has them."""
    client.stop_all()
    return header_of(client.save())[2]


def save_within(client, seconds):
    """Returns the state, which must be there within this time."""
    ours, theirs = os.pipe2(os.O_CLOEXEC)
    client.send(SET_DEVICE_STATE_FD, SAVE, 0, shape="II", fds=[theirs])
    client.receive()
    os.close(theirs)
    end, state = time.monotonic() + seconds, b""
    with open(ours, "rb", buffering=0) as pipe:
        while True:
            assert select.select([pipe], [], [], end - time.monotonic())[0], f"no state within {seconds} seconds"
            more = pipe.read(1 << 20)
            if not more:
                break
            state += more
    assert client.query(CHECK_DEVICE_STATE) == 0
    return state


# Sizes: of a thousand files below 200 directories, whose names have 255 bytes.

THOUSAND = [b"%x" % i for i in range(1000)]
OF_THOUSAND = (len(THOUSAND) + 200) * OF_NODE


@pytest.fixture
def thousand(directory):
    with deep(directory, 200) as at:
        for name in THOUSAND:
            make(name, dir_fd=at)


def test_size_of_a_state_follows_the_number_of_nodes(serve, thousand):
    client = serve().connect()
    know_deep(client, THOUSAND, 200)
    client.stop_all()
    assert len(client.save()) <= OF_THOUSAND


def test_memory_of_a_source_follows_the_number_of_nodes(serve, thousand):
    server = serve()
    client = server.connect()
    know_deep(client, THOUSAND, 200)
    client.stop_all()
    with memory(server) as grown:
        assert client.save()
        assert grown() <= OF_ALL + OF_THOUSAND


def test_memory_of_a_destination_follows_the_number_of_nodes(serve, thousand):
    client, target = serve().connect(), serve()
    nodes = know_deep(client, THOUSAND, 200)
    with memory(target) as grown:
        other = move(client, target)
        assert grown() <= OF_ALL + OF_THOUSAND
    assert other.lookup(b"d" * 255) and other.getattr(nodes[-1])


@pytest.mark.parametrize("count", [1000, 10000])
def test_memory_of_a_search_does_not_grow_with_the_directories_of_a_folder(serve, directory, scratch, count):
    with deep(directory, 250) as at:
        for i in range(count):
            os.mkdir(f"{i:x}", dir_fd=at)
    server = serve()
    client = server.connect()
    lose_name(client, directory, scratch / "outside")
    client.stop_all()
    with memory(server) as grown:
        assert client.save()
        assert grown() <= OF_ALL


def test_memory_of_a_search_does_not_grow_with_the_depth_of_a_folder(serve, directory, scratch):
    with deep(directory, 2000):
        pass
    server = serve()
    client = server.connect()
    lose_name(client, directory, scratch / "outside")
    client.stop_all()
    with memory(server) as grown:
        assert client.save()
        assert grown() <= OF_ALL


# What is found.


def test_search_finds_a_name_below_more_directories_than_it_keeps(serve, directory):
    # (names of 200 bytes, of which a search keeps a few kilobytes at once; each has directories itself)
    for i in range(300):
        (directory / f"{i:0200}" / "below" / "deepest").mkdir(parents=True)
    for last in (0, 150, 299):
        client, target = serve().connect(), serve()
        node, handle = lose_name(client, directory, directory / f"{last:0200}" / "below" / "deepest" / "second")
        assert move(client, target).read(node, handle, 100) == b"content"


def test_file_deeper_than_a_path_is_long_is_found(serve, directory):
    with deep(directory, 300) as at:
        make("file", b"content", dir_fd=at)
    client, target = serve().connect(), serve()
    node = know_deep(client, [b"file"], 300)[0]
    handle = client.open(node, os.O_RDONLY)
    assert move(client, target).read(node, handle, 100) == b"content"


def test_file_whose_directories_the_client_forgot_is_found(serve, directory):
    (directory / "a" / "b").mkdir(parents=True)
    (directory / "a" / "b" / "file").write_bytes(b"content")
    client, target = serve().connect(), serve()
    a = client.lookup(b"a")
    b = client.lookup(b"b", a)
    node = client.lookup(b"file", b)
    handle = client.open(node, os.O_RDONLY)
    for it in (b, a):
        client.ask(Op.FORGET, (1).to_bytes(8, "little"), it)
    client.stop_all()
    state = client.save()
    # (the folder and the file; MOUNT, FILE and the end are no nodes)
    assert sum(kind == 2 for kind, _ in entries_of(state)) == 2
    other = move(client, target, state)
    assert other.read(node, handle, 100) == b"content"
    with pytest.raises(OSError) as stale:
        other.getattr(a)
    assert stale.value.errno == errno.ESTALE


def test_directories_that_a_client_forgets_do_not_make_its_state_large(serve, directory):
    client = serve().connect()
    for i in range(6):
        path = directory.joinpath(*[f"{i}"] * 200)
        path.mkdir(parents=True)
        (path / "file").touch()
        nodes = [1]
        for _ in range(200):
            nodes.append(client.lookup(b"%d" % i, nodes[-1]))
        client.lookup(b"file", nodes[-1])
        pairs = b"".join(struct.pack("<QQ", it, 1) for it in nodes[1:])
        client.ask(Op.BATCH_FORGET, struct.pack("<II", 200, 0) + pairs, 0, reply_size=0)
    client.stop_all()
    kinds = [kind for kind, _ in entries_of(client.save())]
    # (of 1,200 directories above 6 files: as many as nodes and 1,024)
    assert kinds.count(2) == 7
    assert 1000 < kinds.count(4) <= 7 + 1024


def test_file_in_a_directory_that_was_renamed_is_found(serve, directory):
    (directory / "a").mkdir()
    (directory / "new" / "place").mkdir(parents=True)
    (directory / "a" / "file").write_bytes(b"content")
    client, target = serve().connect(), serve()
    node = client.lookup(b"file", client.lookup(b"a"))
    handle = client.open(node, os.O_RDONLY)
    os.rename(directory / "a", directory / "new" / "place" / "b")
    other = move(client, target)
    assert other.read(node, handle, 100) == b"content"
    assert other.lookup(b"file", other.lookup(b"b", other.lookup(b"place", other.lookup(b"new")))) == node


# How long the machine stands still.


def test_search_ends_in_a_folder_without_end(serve, build, directory, scratch):
    (directory / "d").mkdir()
    endless = {"LD_PRELOAD": build("endless_directory.c", "-shared")}
    server = serve(environment=endless)
    client = server.connect()
    lose_name(client, directory, scratch / "outside")
    client.stop_all()
    assert save_within(client, 20)
    assert "too many names" in server.stderr()


def test_search_begins_with_the_directories_that_the_client_knows(serve, build, directory):
    (directory / "d").mkdir()
    endless = {"LD_PRELOAD": build("endless_directory.c", "-shared")}
    server, target = serve(environment=endless), serve()
    client = server.connect()
    client.lookup(b"d")
    node, handle = lose_name(client, directory, directory / "d" / "second")
    client.stop_all()
    state = save_within(client, 20)
    # (the folder was not read to its end, which it does not have)
    assert "too many names" not in server.stderr()
    assert move(client, target, state).read(node, handle, 100) == b"content"


def test_search_stops_inside_a_directory_once_the_front_end_goes(serve, build, directory, scratch):
    for i in range(3000):
        make(directory / f"{i:0100}")
    endless = {"LD_PRELOAD": build("endless_directory.c", "-shared"), "READ_DELAY": "50"}
    server = serve(environment=endless)
    client = server.connect()
    lose_name(client, directory, scratch / "outside")
    client.stop_all()
    ours, theirs = os.pipe()
    client.send(SET_DEVICE_STATE_FD, SAVE, 0, shape="II", fds=[theirs])
    client.receive()
    client.close()
    before = time.monotonic()
    server.connect()
    # (1,000,000 names at 50 ms for some 240 of them are minutes)
    assert time.monotonic() - before < 5
    os.close(ours)
    os.close(theirs)


# Whom a state lets in.


@pytest.mark.parametrize("option, lacks", [("--posix-acl", LISTS), ("--security-label", LABELS)])
def test_state_is_refused_of_a_client_that_init_refuses(serve, directory, option, lacks):
    flags, flags2 = (it & ~lack for it, lack in zip(ALL_FLAGS, lacks))
    (directory / "file").touch()
    target = serve("--xattr", option)
    # (INIT refuses it)
    with pytest.raises(OSError) as refused:
        target.connect(init=False).init(flags, flags2)
    assert refused.value.errno == errno.EPROTO
    target.clients.pop().close()
    client = serve("--xattr").connect(init=False)
    client.init(flags, flags2)
    client.lookup(b"file")
    client.stop_all()
    assert not target.connect(init=False).load(client.save())
    assert option in target.stderr()


@pytest.mark.parametrize("option", ["--posix-acl", "--security-label"])
def test_state_is_taken_of_a_client_that_init_takes(serve, directory, option):
    (directory / "file").write_bytes(b"content")
    client, target = serve("--xattr", option).connect(), serve("--xattr", option)
    node = client.lookup(b"file")
    handle = client.open(node, os.O_RDONLY)
    assert move(client, target).read(node, handle, 100) == b"content"


@pytest.mark.parametrize("option", ["--posix-acl", "--security-label"])
def test_state_without_a_session_is_taken_and_init_decides(serve, option):
    client, target = serve("--xattr").connect(init=False), serve("--xattr", option)
    other = move(client, target)
    other.init(*ALL_FLAGS)


def test_state_without_a_session_has_no_files(serve, directory):
    (directory / "file").touch()
    target = serve("--xattr", "--posix-acl")
    state = Device(agreed=0)
    state.node(2, b"file")
    assert not target.connect(init=False).load(state.bytes())


def test_state_of_version_1_is_refused_and_the_message_has_both_versions(serve):
    target = serve()
    assert not target.connect(init=False).load(Device(version=1).bytes())
    assert "unsupported state version 1: this server supports version 2" in target.stderr()


# Numbers.


def load_made(serve, state, *options):
    """A client of a server that has loaded a state which was made."""
    server = serve("--migration-on-error=guest-error", *options)
    client = server.connect(init=False)
    assert client.load(state.bytes()), server.stderr()
    return client


@pytest.fixture
def options_of_init(serve):
    """What a session agrees on."""
    return agreed(serve().connect())


@pytest.mark.parametrize("slot", [2, 7])
def test_last_number_of_a_slot_is_refused(serve, directory, options_of_init, slot):
    (directory / "file").touch()
    target = serve("--migration-on-error=guest-error")
    for file in (False, True):
        state = Device(agreed=options_of_init)
        state.node(2 if file else 0xffffffff << 32 | slot, b"file")
        if file:
            state.file(0xffffffff << 32 | slot, 2)
        assert not target.connect(init=False).load(state.bytes())
        target.clients.pop().close()


@pytest.mark.parametrize("lost", [7, 0xfffffffe << 32 | 3, 2 << 32 | 600])
def test_number_of_a_lost_file_is_never_another_ones(serve, directory, options_of_init, lost):
    (directory / "file").touch()
    state = Device(agreed=options_of_init)
    state.node(0xfffffffe << 32 | 2, b"file")
    state.node(lost, b"went")
    client = load_made(serve, state)
    for i in range(700):
        make(directory / f"new{i}")
        assert client.lookup(b"new%d" % i) != lost
    with pytest.raises(OSError) as stale:
        client.getattr(lost)
    assert stale.value.errno == errno.ESTALE


def test_slot_whose_numbers_are_used_up_is_retired(serve, directory, options_of_init):
    for name in ("file", "other"):
        (directory / name).touch()
    state = Device(agreed=options_of_init)
    last = 0xfffffffe << 32 | 2
    state.node(last, b"file")
    client = load_made(serve, state)
    came = {}
    forget = lambda node: client.ask(Op.FORGET, (1).to_bytes(8, "little"), node, reply_size=0)
    forget(last)
    for _ in range(20):
        node = client.lookup(b"other")
        slot, uses = node & 0xffffffff, node >> 32
        # (the same number is another file's only if the upper half began anew)
        assert slot != 2 and uses > came.get(slot, -1) and node not in (0, 1)
        came[slot] = uses
        forget(node)


# Handles.


@pytest.fixture
def outside(directory, scratch):
    """The handle of a file outside of the folder that a program has open, and that has no name any more."""
    path = scratch / "private"
    path.write_bytes(b"secret")
    handle = handle_of(path)
    if not handle:
        pytest.skip("requires a file system with handles")
    descriptor = os.open(path, os.O_RDWR)
    os.unlink(path)
    yield handle
    assert os.pread(descriptor, 100, 0) == b"secret"
    os.close(descriptor)


def by_handles(options):
    return Device(agreed=options, mode=BY_HANDLES)


def test_handle_of_an_unlinked_file_outside_opens_nothing(serve, options_of_init, outside):
    state = by_handles(options_of_init)
    state.node(2, handle=outside)
    state.file(1, 2, os.O_RDWR)
    client = load_made(serve, state, BY_FILE_HANDLES)
    for call in (lambda: client.getattr(2), lambda: client.read(2, 1), lambda: client.write(2, 1, b"changed")):
        with pytest.raises(OSError) as stale:
            call()
        assert stale.value.errno == errno.ESTALE


def test_state_with_a_handle_of_an_unlinked_file_is_refused(serve, options_of_init, outside):
    target = serve(BY_FILE_HANDLES)
    state = by_handles(options_of_init)
    state.node(2, handle=outside)
    assert not target.connect(init=False).load(state.bytes())


def test_handle_is_not_found_by_trying(serve, options_of_init, outside):
    kind, handle = outside
    server = serve("--migration-on-error=guest-error", BY_FILE_HANDLES, "--migration-unlinked-files")
    # (as many wrong ones as a state may have before; by another generation of the inode)
    for tries, is_had in ((1000, True), (4096, False), (0, False)):
        state = by_handles(options_of_init)
        for i in range(tries):
            state.node(100 + i, handle=(kind, bytes([handle[0] ^ 1 + i % 255]) + handle[1:]))
        state.node(2, handle=outside)
        client = server.connect(init=False)
        assert client.load(state.bytes()), server.stderr()
        assert (client.ask(Op.GETATTR, bytes(16), 2).error == 0) == is_had, f"after {tries} wrong handles"
        server.clients.pop().close()


# Limits of a state.


def test_state_with_more_files_than_node_limit_is_refused(serve, directory, options_of_init):
    for i in range(20):
        (directory / f"{i}").touch()
    target = serve("--node-limit=10", "--migration-on-error=guest-error")
    for numbers in (range(2, 13), [11]):
        state = Device(agreed=options_of_init)
        for i in numbers:
            state.node(i, b"%d" % i)
        assert not target.connect(init=False).load(state.bytes())
        assert "--node-limit" in target.stderr()
        target.clients.pop().close()


def test_state_with_directories_without_end_is_refused_and_leaves_no_descriptor(serve, directory, options_of_init):
    (directory / "d").mkdir()
    (directory / "file").touch()
    target = serve("--node-limit=10")
    state = Device(agreed=options_of_init)
    for _ in range(2000):
        state.directory(b"d")
    state.node(2, b"file")
    assert not target.connect(init=False).load(state.bytes())
    target.clients.pop().close()
    target.connect()
    assert not [it for it in target.descriptors() if it.endswith("/d")]


def test_parent_that_is_a_link_out_of_the_folder_is_not_followed(serve, directory, scratch, options_of_init):
    (scratch / "private").write_bytes(b"secret")
    os.symlink("..", directory / "out")
    for kind in (0o120000, None):
        state = Device(agreed=options_of_init)
        parent = state.directory(b"out") if kind is None else state.node(3, b"out", kind=kind)
        state.node(2, b"private", parent)
        client = load_made(serve, state)
        with pytest.raises(OSError) as stale:
            client.getattr(2)
        assert stale.value.errno == errno.ESTALE
