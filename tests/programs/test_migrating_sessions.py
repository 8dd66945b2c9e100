"""Sessions that migrate from one nizwarf-share to another: a client goes on with what it has open, or stays where it is if the
target refuses its state. A state that cannot be, or that leads out of the directory, is refused. While a guest migrates, the
pages that are written are marked."""
import contextlib
import errno
import fcntl
import os
import select
import struct
import subprocess

import pytest
from device_state import (BY_HANDLES, DIRECTORY, DIRECTORY_KIND, FILE_KIND, HEADER, MAGIC, MOUNT_KIND, NODE, NODE_KIND, NOWHERE,
                          RECORD, VERSION, directory_record, entries_of, file_record, handle_of, header_of, node_record,
                          state_of)
from shapes import record
from vhost_user import (DEVICE_STATE, GET_FEATURES, GET_PROTOCOL_FEATURES, GUEST, LOAD, LOG_ALL, LOG_SHMFD, SAVE,
                        SET_DEVICE_STATE_FD, SET_FEATURES, SET_LOG_FD, Op)

pytestmark = [pytest.mark.root, pytest.mark.sanitizers]
# How many names a directory has: more than one reply has space for.
NAMES, PAGE, LINK = 300, 4096, 0o120000
HANDLES, UNLINKED, VERIFY = "--migration-mode=file-handles", "--migration-unlinked-files", "--migration-verify-handles"
BY_PREFERENCE, MANDATORY = "--inode-file-handles=prefer", "--inode-file-handles=mandatory"


@contextlib.contextmanager
def refused(error):
    with pytest.raises(OSError) as came:
        yield
    assert came.value.errno == error


def make_files(directory):
    """A file with two names, one that will go, one to append to, and a directory of many names."""
    (directory / "d/deep").mkdir(parents=True)
    (directory / "many").mkdir()
    for name, data in (("file", b"0123456789"), ("first", b"a file of two names"), ("end", b"begun"), ("gone", b"gone")):
        (directory / "d" / name).write_bytes(data)
    os.link(directory / "d/first", directory / "d/deep/second")
    os.symlink("file", directory / "d/link")
    for i in range(NAMES):
        (directory / f"many/name{i:03}").touch()


class Session:
    """What a client knows and has open: nodes by name, handles by the name of their node, and a part of a list."""

    def __init__(self, client, directory):
        self.client, self.directory, self.nodes = client, directory, {}
        for name in (b"d", b"many"):
            self.nodes[name] = client.lookup(name)
        # (numbers that are given back are another node's later)
        for i in range(5):
            client.forget(client.lookup(b"name%03d" % i, self.nodes[b"many"]))
        # (`file` twice, so that a node has more lookups than one)
        for name in (b"file", b"first", b"end", b"gone", b"link", b"deep", b"file"):
            self.nodes[name] = client.lookup(name, self.nodes[b"d"])
        flags = {b"file": os.O_RDWR, b"first": os.O_RDONLY, b"end": os.O_WRONLY | os.O_APPEND, b"gone": os.O_RDWR,
                 b"many": os.O_DIRECTORY}
        self.files = {name: client.open(self.nodes[name], it) for name, it in flags.items()}
        self.nodes[b"made"], self.files[b"made"] = client.create(b"made", self.nodes[b"deep"])
        client.write(self.nodes[b"made"], self.files[b"made"], b"made here")
        # (the other server goes on where this one stopped)
        self.listed, self.at = self.list_from(0)

    def read(self, name):
        return self.client.read(self.nodes[name], self.files[name])

    def write(self, name, *more):
        return self.client.write(self.nodes[name], self.files[name], *more)

    def list_from(self, offset):
        """The names of a part of the list, and where it goes on."""
        items = self.client.read(self.nodes[b"many"], self.files[b"many"], 1000, offset, Op.READDIR)
        names, at = [], 0
        while at + 24 <= len(items):
            _, offset, length = struct.unpack_from("<QQI", items, at)
            names.append(items[at + 24:at + 24 + length])
            at += 24 + (length + 7 & ~7)
        return names, offset

    def go_on(self, name=b"file"):
        """Goes on with all of it, where the client is now. `file` has this name, or none that is known."""
        client, nodes = self.client, self.nodes
        assert self.read(b"file") == b"0123456789"
        assert self.write(b"file", b"abc", 10) == 3
        assert self.read(b"file") == b"0123456789abc"
        assert self.read(b"first") == b"a file of two names"
        assert self.write(b"end", b" here", 0, os.O_APPEND) == 5
        assert (self.directory / "d/end").read_bytes() == b"begun here"
        assert self.read(b"made") == b"made here"
        assert client.expect(Op.READLINK, b"", nodes[b"link"]) == b"file"
        names, (more, at) = list(self.listed), self.list_from(self.at)
        while more:
            names += more
            more, at = self.list_from(at)
        assert sorted(names) == sorted([b".", b"..", *(b"name%03d" % i for i in range(NAMES))])
        if name:
            assert client.lookup(name, nodes[b"d"]) == nodes[b"file"]
        # (those that the first server gave back, and others: the second one must give no number twice)
        for i in range(20):
            number = client.lookup(b"name%03d" % i, nodes[b"many"])
            assert number > 1 and number not in nodes.values()
        # (in the upper half of a number is how often its place was used)
        for number in (2, 3, 7):
            with refused(errno.ESTALE):
                client.getattr(number | 7 << 32)
        client.release(nodes[b"file"], self.files[b"file"])
        with refused(errno.EBADF):
            self.read(b"file")
        # (it was looked up twice there, and perhaps once here)
        client.forget(nodes[b"file"], 1 + bool(name))
        client.getattr(nodes[b"file"])
        client.forget(nodes[b"file"])
        with refused(errno.ESTALE):
            client.getattr(nodes[b"file"])


@pytest.fixture
def begin(serve, directory):
    """Begins a session at a source with these options, and has it saved: the session, and its state."""
    def start(*options):
        make_files(directory)
        session = Session(serve(*options).connect(), directory)
        (directory / "d/first").unlink()
        session.client.stop_all()
        state = session.client.save()
        assert state
        return session, state

    return start


def follow(session, target, state):
    """Goes on at another server, which must take the state."""
    other = target.connect(begin=False)
    assert other.follow(session.client, state), target.stderr()
    session.client = other


def go(path):
    (path / "d/gone").unlink()


def rename_and_go(path):
    os.rename(path / "d/file", path / "d/moved")
    go(path)


def replace(path):
    """Another file takes the name."""
    (path / "d/other").write_bytes(b"0123456789")
    os.rename(path / "d/other", path / "d/file")


@pytest.mark.parametrize("of_source, of_target", [
    ([], []), ([], [BY_PREFERENCE]), ([BY_PREFERENCE], []), ([VERIFY, "--migration-confirm-paths"], []),
    ([HANDLES, MANDATORY], [HANDLES, MANDATORY])], ids=" ".join)
def test_a_session_goes_on_at_a_target_and_a_later_one_begins_anew(serve, begin, of_source, of_target):
    session, state = begin(*of_source)
    follow(session, serve(*of_target), state)
    session.go_on()
    session.client.init()
    assert session.client.lookup(b"d") > 1
    with refused(errno.ESTALE):
        session.client.getattr(session.nodes[b"made"])


def test_by_handles_files_go_on_that_were_renamed_or_unlinked_meanwhile(serve, begin, directory):
    session, state = begin(HANDLES)
    rename_and_go(directory)
    follow(session, serve(HANDLES, UNLINKED), state)
    assert session.read(b"gone") == b"gone"
    session.go_on(b"moved")


def test_a_missing_file_is_an_error_to_its_user_alone_if_guest_error_says_so(serve, begin, directory):
    session, state = begin()
    go(directory)
    follow(session, serve("--migration-on-error=guest-error"), state)
    for call in (lambda: session.client.getattr(session.nodes[b"gone"]), lambda: session.read(b"gone")):
        with refused(errno.ESTALE):
            call()
    session.go_on()


def test_a_path_leads_to_any_file_that_has_it(serve, begin, directory):
    session, state = begin()
    replace(directory)
    follow(session, serve(), state)
    assert session.read(b"file") == b"0123456789"


@pytest.mark.parametrize("of_source, of_target, meanwhile", [
    ([HANDLES], [], None), ([], ["--readonly"], None), ([], [], go), ([VERIFY], [], go), ([VERIFY], [], replace)])
def test_a_session_goes_on_at_its_source_if_the_target_refuses_it(serve, begin, directory, of_source, of_target, meanwhile):
    session, state = begin(*of_source)
    if meanwhile:
        meanwhile(directory)
    assert not serve(*of_target).connect(begin=False).follow(session.client, state)
    for queue in session.client.queues:
        session.client.start(queue)
    session.go_on(None if meanwhile is replace else b"file")


@pytest.mark.parametrize("options", [[], [VERIFY], [HANDLES], [BY_PREFERENCE]], ids=" ".join)
def test_files_deep_below_names_of_any_bytes_and_on_another_file_system_go_on(serve, directory, options):
    (directory / "many").mkdir()
    subprocess.run(["mount", "-t", "tmpfs", "none", directory / "many"], check=True)
    (directory / "many/apart").write_bytes(b"apart")
    names = [bytes([128 + i, 255 - i]) * 100 for i in range(40)]
    at = os.open(directory, os.O_RDONLY)
    for name in names:
        os.mkdir(name, dir_fd=at)
        below = os.open(name, os.O_RDONLY, dir_fd=at)
        os.close(at)
        at = below
    os.close(os.open("deep", os.O_CREAT | os.O_WRONLY, dir_fd=at))
    os.close(at)
    client, node = serve(*options).connect(), 1
    for name in names:
        node = client.lookup(name, node)
    deep, many = client.lookup(b"deep", node), client.lookup(b"many")
    apart = client.lookup(b"apart", many)
    handle = client.open(apart)
    client.stop_all()
    other = serve(*options).connect(begin=False)
    assert other.follow(client, client.save())
    assert (other.lookup(b"deep", node), other.lookup(b"apart", many)) == (deep, apart)
    assert other.read(apart, handle) == b"apart"


def test_a_file_that_is_mounted_over_another_one_goes_on_also_without_a_path(serve, directory, scratch):
    """Linux reports no path of it, since its first name is gone."""
    (directory / "file").touch()
    (scratch / "first").write_bytes(b"mounted")
    os.link(scratch / "first", scratch / "second")
    subprocess.run(["mount", "--bind", scratch / "first", directory / "file"], check=True)
    client = serve().connect()
    node = client.lookup(b"file")
    handle = client.open(node)
    (scratch / "first").unlink()
    client.stop_all()
    other = serve().connect(begin=False)
    assert other.follow(client, client.save())
    assert other.read(node, handle) == b"mounted"


# ---- states that cannot be

@pytest.fixture
def small(serve, directory):
    """A server, and the state of a session of few nodes."""
    make_files(directory)
    os.symlink("..", directory / "out")
    (directory.parent / "outside").write_text("outside")
    server = serve()
    client = server.connect()
    client.open(client.lookup(b"file", client.lookup(b"d")))
    client.stop_all()
    state = client.save()
    client.close()
    return server, state


def refuse(server, state, words="migration: "):
    """A server refuses a state, and says why. Returns the front end."""
    before = len(server.stderr())
    client = server.connect(init=False)
    assert not client.load(state)
    assert words in server.stderr()[before:]
    return client


def take(server, state):
    client = server.connect(init=False)
    assert client.load(state), server.stderr()
    client.close()


def test_a_state_that_is_cut_or_has_another_byte_anywhere_is_refused(small):
    server, state = small
    for at in range(len(state)):
        wrong = bytearray(state)
        wrong[at] ^= 1 << at % 8
        for it in (state[:at], bytes(wrong)):
            refuse(server, it).close()
    refuse(server, state + b"\0").close()


ROOT_NODE, BELOW = node_record(1, lookups=2, kind=DIRECTORY), directory_record(b"d")
FILE_NODE = node_record(2, b"file", 1)
NAMES_OF_NONE = b"..", b".", b"d/file", b"/etc/passwd", b"d/", b"/", b"d\0", b"out", b"a" * 256, b"a" * 1025, b"none"
# Records that cannot be in a state, after that of the directory that is shared.
RECORDS = {
    "a number twice": [BELOW, FILE_NODE, node_record(2, b"end", 1)],
    "a place twice": [BELOW, FILE_NODE, node_record(2 | 1 << 32, b"end", 1)],
    "a file twice": [BELOW, FILE_NODE, node_record(3, b"file", 1)],
    "an open file twice": [BELOW, FILE_NODE, file_record(1, 2), file_record(1, 2)],
    "the place 0": [BELOW, node_record(1 << 32, b"file", 1)],
    "a place that can't be": [BELOW, node_record(2**32 - 1, b"file", 1)],
    "an open file's place that can't be": [BELOW, FILE_NODE, file_record(2**32 - 1, 2)],
    "an open file of no node": [file_record(1, 2)],
    "an open file of a link": [BELOW, node_record(2, b"link", 1, LINK), file_record(1, 2)],
    "an open directory of a file": [BELOW, FILE_NODE, file_record(1, 2, os.O_DIRECTORY)],
    "an open file of a directory": [node_record(2, b"d", kind=DIRECTORY), file_record(1, 2, os.O_RDWR)],
    "flags that can't be": [BELOW, FILE_NODE, file_record(1, 2, os.O_TRUNC)],
    "a file that is created": [BELOW, FILE_NODE, file_record(1, 2, os.O_CREAT)],
    "both accesses": [BELOW, FILE_NODE, file_record(1, 2, 3)],
    "too many lookups": [BELOW, node_record(2, b"file", 1, lookups=2**64 - 1)],
    "another type": [BELOW, node_record(2, b"file", 1, DIRECTORY)],
    "a mount by paths": [(MOUNT_KIND, b"d")],
    "a record that is none": [(9, b"")],
    "a node that is cut": [(NODE_KIND, bytes(10))],
    "a directory that is cut": [(DIRECTORY_KIND, bytes(3))],
    "an open file that is cut": [(FILE_KIND, bytes(10))],
    "a handle past its record": [(NODE_KIND, struct.pack(NODE, 2, 1, 0, 0o100000, 0, 1, 100, 0, 0) + b"d")],
    "a handle that is too long": [BELOW, node_record(2, b"file", 1, handle=(1, bytes(129)))],
    "a folder that is not the first": [BELOW, ROOT_NODE],
    "a parent that is itself": [node_record(2, b"d", 1, DIRECTORY)],
    "a parent that comes later": [node_record(2, b"file", 2), BELOW],
    "a directory in itself": [directory_record(b"d", 1)],
    "a directory in no entry": [directory_record(b"d", NOWHERE)],
    "a name in no directory": [(NODE_KIND, node_record(2)[1] + b"d")],
    "a directory without a name": [directory_record(b"")],
    "a file in a file": [BELOW, FILE_NODE, node_record(3, b"x", 2)],
    "a file in a directory that is none": [directory_record(b"none"), node_record(2, b"file", 1)],
    "a file in a directory that is a link": [directory_record(b"out"), node_record(2, b"outside", 1)],
    "a file in a node that is a link": [node_record(2, b"out", kind=LINK), node_record(3, b"outside", 1)],
    **{f"the name {it[:30]}": [node_record(2, it)] for it in NAMES_OF_NONE},
    **{f"a directory with the name {it[:30]}": [directory_record(it), node_record(2, b"outside", 1)] for it in NAMES_OF_NONE}}
# Whole states that cannot be, of the header of one that can.
STATES = {
    "another magic": lambda it: state_of((b"nizwarg", *it[1:]), [ROOT_NODE]),
    "version 1": lambda it: state_of((it[0], 1, *it[2:]), [ROOT_NODE]),
    "version 3": lambda it: state_of((it[0], 3, *it[2:]), [ROOT_NODE]),
    "a third mode": lambda it: state_of((*it[:2], 2, it[3]), [ROOT_NODE]),
    "handles that were not asked for": lambda it: state_of((*it[:2], BY_HANDLES, it[3]), [ROOT_NODE]),
    "options that are not offered": lambda it: state_of((*it[:3], it[3] | 1 << 41), [ROOT_NODE]),
    "a node too few": lambda it: state_of(it, [ROOT_NODE], nodes=2),
    "a record without end": lambda it: struct.pack(HEADER, *it) + struct.pack(RECORD, NODE_KIND, 2**32 - 1),
    "no folder": lambda it: state_of(it, []),
    "a file before the folder": lambda it: state_of(it, [node_record(2, b"d", kind=DIRECTORY), ROOT_NODE]),
    "a folder in a directory": lambda it: state_of(it, [node_record(1, b"d", kind=DIRECTORY)]),
    "nothing": lambda _: b"",
    "zeros": lambda _: bytes(100000)}


def test_a_state_that_is_made_up_and_right_is_taken(small):
    server, state = small
    take(server, state_of((MAGIC, *header_of(state)), [ROOT_NODE, BELOW, FILE_NODE]))


def test_states_that_cannot_be_are_refused_and_leave_no_node(small):
    server, state = small
    header = (MAGIC, *header_of(state))
    assert header[1] == VERSION
    wrong = [*((what, make(header)) for what, make in STATES.items()),
             *((what, state_of(header, [ROOT_NODE, *it])) for what, it in RECORDS.items())]
    for what, it in wrong:
        print(what)
        client = refuse(server, it)
        with refused(errno.ESTALE):
            client.getattr(2)
        client.close()


def test_a_handle_leads_to_a_file_of_the_directory_and_to_no_other_one(serve, directory, small):
    server = serve(HANDLES)
    client = server.connect()
    client.stop_all()
    state = client.save()
    client.close()
    if not handle_of(directory):
        pytest.skip("requires a file system with handles")
    kind, inside = handle_of(directory / "d/file")
    changed = bytes([*inside[:-1], inside[-1] ^ 1])
    outside, above = handle_of(directory.parent / "outside"), handle_of(directory.parent)
    begun = [entries_of(state)[0], ROOT_NODE, BELOW]
    header = (MAGIC, *header_of(state))
    for what, it in {"a file outside": node_record(2, handle=outside),
                     "a file outside, with a path of the folder": node_record(2, b"file", 1, handle=outside),
                     "a directory above": node_record(2, kind=DIRECTORY, handle=above),
                     "another file's handle": node_record(2, b"file", 1, handle=(kind, changed)),
                     "no generation": node_record(2, b"file", 1, handle=(kind, inside[:4] + bytes(len(inside) - 4))),
                     "another type of handle": node_record(2, b"file", 1, handle=(0xff, inside)),
                     "a mount that is none": node_record(2, b"file", 1, handle=(kind, inside), mount=5),
                     "no handle": node_record(2, b"file", 1)}.items():
        print(what)
        refuse(server, state_of(header, [*begun, it])).close()
    take(server, state_of(header, [*begun, node_record(2, handle=(kind, inside))]))


# ---- what a target must have

def test_a_target_must_have_the_options_that_the_client_agreed_on(serve, begin):
    options = "--writeback", "--posix-lock", "--flock"
    _, state = begin(*options)
    refuse(serve(), state, "features")
    take(serve(*options), state)


# ---- pages that are marked

LOG = (GUEST + 2**26) // PAGE // 8


@pytest.fixture
def marked(serve, directory):
    """A front end that shares a log in a part of a file, and a function that reads three pages of a file: it returns which
    pages were marked by that, without those of the reply, which are marked or not as `reply` says."""
    (directory / "file").write_bytes(b"content")
    client = serve().connect()
    node = client.lookup(b"file")
    body = record(Op.READ, handle=client.open(node), size=3 * PAGE)
    client.share_log(LOG, PAGE + LOG, offset=PAGE, begin=False)

    def read(reply=True):
        # (messages that were sent are done once this one is)
        client.query(GET_FEATURES)
        request = client.submit(Op.READ, body, node, reply_size=3 * PAGE + 16)
        assert client.wait(request) == (0, b"content")
        pages, first = client.take_marked(), (GUEST + request.at) // PAGE
        assert (first in pages) == reply
        return pages - set(range(first, (GUEST + request.at + 3 * PAGE + 15) // PAGE + 1))

    return client, read


def test_pages_are_marked_while_the_feature_says_so_and_none_beyond_the_log(marked):
    client, read = marked
    ring = (GUEST + client.queues[1].used) // PAGE
    assert read(reply=False) == set()
    client.send(SET_FEATURES, client.features | LOG_ALL)
    assert read() == {ring}
    client.share_log(1)
    assert read(reply=False) == set()
    client.send(SET_FEATURES, client.features)
    client.share_log(LOG, begin=False)
    assert read(reply=False) == set()
    assert client.query(GET_FEATURES) & LOG_ALL
    assert client.query(GET_PROTOCOL_FEATURES) & (LOG_SHMFD | DEVICE_STATE) == LOG_SHMFD | DEVICE_STATE


def test_the_used_ring_is_marked_where_the_front_end_says(marked):
    client, read = marked
    queue = client.queues[1]
    client.send(SET_FEATURES, client.features | LOG_ALL)
    client.place(queue, 1, 100 * PAGE + queue.used % PAGE)
    assert read() == {100}
    # (no page has this address)
    client.place(queue, 1, 2**64 - 100)
    assert read() == set()


def test_an_event_says_that_pages_were_marked(marked):
    client, _ = marked
    client.send(SET_FEATURES, client.features | LOG_ALL)
    event = os.eventfd(0, os.EFD_NONBLOCK)
    client.send(SET_LOG_FD, fds=[event])
    client.query(GET_FEATURES)
    request = client.submit(Op.LOOKUP, b"file\0")
    assert client.wait(request).error == 0
    assert select.select([event], [], [], 10)[0]
    os.close(event)
    assert client.take_marked() == {(GUEST + it) // PAGE for it in (request.at, client.queues[1].used)}


# ---- front ends that go

@pytest.mark.parametrize("way", [SAVE, LOAD])
def test_a_front_end_that_goes_while_its_state_does_holds_up_neither_the_next_one_nor_a_signal(serve, directory, way):
    make_files(directory)
    server = serve()
    client = server.connect()
    Session(client, directory)
    ours, theirs = os.pipe2(os.O_CLOEXEC)
    # (so that the end of a state cannot be written)
    fcntl.fcntl(theirs, fcntl.F_SETPIPE_SZ, PAGE)
    os.set_blocking(theirs, False)
    with contextlib.suppress(BlockingIOError):
        while way == SAVE and os.write(theirs, b"x" * PAGE):
            pass
    client.query(SET_DEVICE_STATE_FD, way, 0, shape="II", fds=[theirs if way == SAVE else ours])
    client.close()
    other = server.connect()
    other.getattr(1)
    other.query(SET_DEVICE_STATE_FD, LOAD, 0, shape="II", fds=[ours])
    server.process.terminate()
    server.finish()
    os.close(ours)
    os.close(theirs)
