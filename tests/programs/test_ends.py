"""Ends of a server, of a front end and of a mount: what still waits, for a lease, a file system that does not answer or an event
that is full, holds up neither the next front end nor a signal. What comes late of a front end that has gone takes nothing
from the next one, also if that has the same numbers. And what is unmounted is what was mounted."""
import contextlib
import ctypes
import fcntl
import os
import select
import signal
import struct
import subprocess
import threading
import time

import pytest
from building import find_fuse, find_library, run
from conftest import MountServer, SocketServer, end_all, has_sanitizer, wait_until
from shapes import Op, record
from vhost_user import GUEST, IN_HEADER, MQ, REPLY_ACK, SET_VRING_ENABLE, USER

pytestmark = [pytest.mark.fuse, pytest.mark.sanitizers]
# In seconds: how soon a signal ends a server, and the next front end is served; and how late LATE functions are (faults.c).
SOON, LATE = 4, 4
LIBC = ctypes.CDLL(None, use_errno=True)
OF_SANDBOXES = pytest.mark.parametrize("sandbox", ["namespace", "none"])


class HungFileSystem:
    """A file system that answers INIT and nothing else, mounted on a directory."""

    def __init__(self, place):
        place.mkdir(exist_ok=True)
        self.place, self.device = place, os.open("/dev/fuse", os.O_RDWR)
        options = f"fd={self.device},rootmode=40000,user_id=0,group_id=0"
        assert LIBC.mount(b"none", bytes(place), b"fuse.hung", 0, options.encode()) == 0, os.strerror(ctypes.get_errno())
        unique = struct.unpack_from("<Q", os.read(self.device, 1 << 16), 8)[0]
        self.reply(unique, struct.pack("<IIII", 7, 31, 0, 0) + bytes(48))

    def reply(self, unique, body, error=0):
        os.write(self.device, struct.pack("<IiQ", 16 + len(body), error, unique) + body)

    def end(self):
        """Ends what waits for it with an error."""
        if self.device >= 0:
            os.close(self.device)
            LIBC.umount2(bytes(self.place), 2)
            self.device = -1


class SlowFileSystem(HungFileSystem):
    """A file system of one file, `memory`, which has a page. A read of it takes until `data` is set."""

    SIZE = 4096

    def __init__(self, place):
        super().__init__(place)
        self.data, self.is_set = b"", threading.Event()
        threading.Thread(target=self.serve, daemon=True).start()

    def serve(self):
        with contextlib.suppress(OSError):
            while True:
                _, opcode, unique, node = struct.unpack_from("<IIQQ", os.read(self.device, 1 << 17))
                if opcode == Op.READ:
                    self.is_set.wait()
                mode = 0o100600 if node == 2 or opcode == Op.LOOKUP else 0o40755
                attr = struct.pack("<6Q10I", node, self.SIZE, 8, 0, 0, 0, 0, 0, 0, mode, 1, 0, 0, 0, 4096, 0)
                bodies = {Op.LOOKUP: struct.pack("<4QII", 2, 0, 1000, 1000, 0, 0) + attr,
                          Op.GETATTR: struct.pack("<QII", 1000, 0, 0) + attr, Op.OPEN: bytes(16), Op.READ: self.data}
                if opcode not in (Op.FORGET, Op.INTERRUPT):
                    body = bodies.get(opcode, b"")
                    self.reply(unique, body, 0 if body else -38)


@pytest.fixture
def hung(directory):
    """A file system that does not answer, below the shared directory."""
    it = HungFileSystem(directory / "hung")
    yield it
    it.end()


@contextlib.contextmanager
def lease_of(path):
    """Has a lease of a file, which holds up a program that opens it."""
    path.touch()
    signal.signal(signal.SIGIO, signal.SIG_IGN)
    descriptor = os.open(path, os.O_RDWR)
    fcntl.fcntl(descriptor, fcntl.F_SETLEASE, fcntl.F_WRLCK)
    yield
    os.close(descriptor)


def fill(event):
    """Makes an event full, so that a write to it waits."""
    while select.select([event], [], [], 0.2)[0]:
        os.eventfd_read(event)
    os.eventfd_write(event, 2**64 - 2)
    os.set_blocking(event, True)


def end_soon(server, status=0):
    """Ends a server by SIGTERM."""
    server.process.terminate()
    server.finish(status, SOON)


def next_is_served(server):
    """Returns the next front end, which must be served soon."""
    begun = time.monotonic()
    client = server.connect()
    client.getattr(1)
    assert time.monotonic() - begun < SOON
    return client


class TreeServer(SocketServer):
    """A nizwarf-vhost on a socket."""

    def where(self, scratch):
        super().where(scratch)
        return [self.socket]

    def connect(self, init=True, **more):
        """Sets no feature for migration, because a front end may only set what is offered, and a tree cannot be migrated."""
        return super().connect(init, protocol=MQ | REPLY_ACK, **more)


@pytest.fixture(params=["share", "tree"])
def serve_any(request, scratch, serve):
    """Serves a directory, or a tree in memory."""
    if request.param == "share":
        yield serve
    else:
        server = TreeServer(request.getfixturevalue("tree_vhost"), scratch, None, (), {})
        yield lambda: server
        end_all([server])


def test_a_signal_ends_a_transport_while_a_late_reply_waits_for_its_reader(build):
    program = build("late_socket.c", *find_fuse(), *find_library("nizwarf_codec"))
    process = subprocess.Popen([program], stdout=subprocess.PIPE, text=True)
    try:
        assert process.stdout.readline() == "sending\n"
        # (until it waits)
        time.sleep(0.3)
        process.terminate()
        assert process.wait(10) == 0
    finally:
        process.kill()
        process.wait()


# ---- what waits in a front end's session: the next front end, or a signal, comes meanwhile

GOES = pytest.mark.parametrize("goes", [True, False], ids=["next", "signal"])


def go_on(server, client, goes):
    """The front end goes and the next one is served, or a signal ends the server."""
    if goes:
        client.close()
        next_is_served(server).close()
    end_soon(server)


@GOES
def test_a_full_event_holds_up_nobody(serve_any, goes):
    server = serve_any()
    client = server.connect()
    event = client.queues[1].call
    fill(event)
    for _ in range(8):
        client.submit(Op.GETATTR, bytes(16))
    time.sleep(0.3)
    kept = os.dup(event)
    go_on(server, client, goes)
    os.close(kept)


@GOES
def test_an_open_that_waits_for_a_lease_holds_up_nobody(serve, directory, goes):
    (directory / "leased").touch()
    server = serve()
    client = server.connect()
    node = client.lookup(b"leased")
    with lease_of(directory / "leased"):
        client.submit(Op.OPEN, bytes(8), node)
        time.sleep(0.3)
        go_on(server, client, goes)


def wait_for_all(client):
    """Has both workers wait for the file system, and a message for both."""
    requests = [client.submit(Op.LOOKUP, b"hung\0") for _ in range(2)]
    client.send(SET_VRING_ENABLE, 1, 1, shape="II")
    time.sleep(0.3)
    return requests


def test_a_signal_ends_it_while_all_workers_wait_for_a_file_system(serve, hung):
    server = serve("--thread-pool-size=2")
    wait_for_all(server.connect())
    end_soon(server)


def test_front_ends_are_served_while_and_after_a_file_system_does_not_answer(serve, hung):
    server = serve("--thread-pool-size=2")
    client = server.connect()
    for _ in range(3):
        requests, queue = wait_for_all(client), client.queues[1]
        before = client.number(queue.used + 2)
        client.socket.close()
        other = next_is_served(server)
        # (the memory of the front end that has gone is not written any more)
        assert client.number(queue.used + 2) == before and not any(client.is_done(it) for it in requests)
        client = other
    hung.end()
    for _ in range(20):
        client.getattr(1)
    client.close()
    next_is_served(server).close()
    end_soon(server)


# ---- what comes late of a front end that has gone

def test_files_that_are_closed_late_at_an_init_are_none_of_the_next_front_end(serve, directory, fault):
    (directory / "late").write_bytes(b"x" * 4242)
    (directory / "file").touch()
    server = serve(environment=fault("late"))
    client = server.connect()
    for name in (b"late", b"file", b"file"):
        client.open(client.lookup(name))
    # (they are closed by this)
    client.submit(Op.INIT, struct.pack("<IIII", 7, 38, 1 << 20, 1 << 30) + bytes(48))
    time.sleep(0.3)
    client.close()
    other = next_is_served(server)
    node = other.lookup(b"file")
    handle = other.open(node)
    time.sleep(LATE)
    other.read(node, handle)
    other.close()
    end_soon(server)


def test_a_file_that_is_closed_late_holds_up_neither_the_next_front_end_nor_a_signal(serve, directory, fault):
    (directory / "late").write_bytes(b"x" * 4242)
    server = serve(environment=fault("late"))
    client = server.connect()
    client.open(client.lookup(b"late"))
    begun = time.monotonic()
    client.close()
    client = next_is_served(server)
    assert time.monotonic() - begun < 2.5
    client.open(client.lookup(b"late"))
    client.close()
    end_soon(server)


def test_what_a_request_opens_once_its_front_end_has_gone_is_closed(serve, directory, fault):
    for name, size in (("slow", 1), ("opened", 4243)):
        (directory / name).write_bytes(b"x" * size)
    # (in a sandbox it may open by another call)
    server = serve("--sandbox=none", "--thread-pool-size=2", environment=fault("late"))
    client = server.connect()
    client.submit(Op.OPEN, bytes(8), client.lookup(b"opened"))
    client.submit(Op.LOOKUP, b"slow\0")
    time.sleep(0.3)
    client.close()
    other = next_is_served(server)
    time.sleep(LATE)
    assert [it for it in server.descriptors() if it.endswith(("/slow", "/opened"))] == []
    other.close()
    end_soon(server)


class Restored:
    """Front ends that each load the same state, and so have the same numbers: nodes and open files by their names."""

    def __init__(self, server):
        self.server, client = server, server.connect()
        self.nodes = {it: client.lookup(it) for it in (b"late", b"file", b"locked")}
        self.files = {it: client.open(node) for it, node in self.nodes.items()}
        self.listed = client.open(1, os.O_DIRECTORY)
        # (what is listed is looked at by its name if it is known)
        client.lookup(b"slow")
        for queue in client.queues:
            client.stop(queue)
        self.state = client.save()
        client.close()

    def connect(self):
        client = self.server.connect(init=False)
        assert client.load(self.state)
        return client

    def lock(self, client, name, opcode=Op.SETLK):
        """Submits a lock of an open file by the owner 7."""
        body = record(opcode, handle=self.files[name], lock_owner=7, end=2**63 - 1, type=fcntl.F_WRLCK, pid=1, lock_flags=1)
        return client.submit(opcode, body, self.nodes[name])

    def release(self, client, name, flags=0, **more):
        body = record(Op.RELEASE, handle=self.files[name], release_flags=flags, lock_owner=7)
        client.submit(Op.RELEASE, body, self.nodes[name], **more)

    def release_of_lock(self, client):
        assert client.wait(self.lock(client, b"late")).error == 0
        self.release(client, b"late", 2)


@pytest.fixture
def restored(serve, directory, fault):
    for name, size in (("slow", 1), ("late", 4242), ("locked", 4244), ("file", 0)):
        (directory / name).write_bytes(b"x" * size)
    # (the trace says of which user a request is, for faults.c)
    return Restored(serve("--sandbox=none", "--thread-pool-size=2", "--flock", "--trace", environment=fault("late"),
                          stderr=subprocess.DEVNULL))


@pytest.mark.parametrize("ask", [
    lambda it, one: it.lock(one, b"locked"), Restored.release_of_lock,
    lambda it, one: one.submit(Op.READDIRPLUS, record(Op.READDIRPLUS, handle=it.listed, size=4000)),
    lambda it, one: it.release(one, b"file", uid=4245),
    lambda it, one: one.submit(Op.INIT, struct.pack("<IIIII", 7, 38, 131072, 0x7bfffffb, 15) + bytes(44), uid=4245),
    lambda it, one: one.submit(Op.DESTROY, uid=4246, reply_size=16)],
    ids=["SETLK", "RELEASE", "READDIRPLUS", "RELEASE-held-up", "INIT-held-up", "DESTROY-held-up"])
def test_a_request_that_comes_late_takes_nothing_from_a_front_end_with_the_same_numbers(restored, directory, ask):
    client = restored.connect()
    ask(restored, client)
    time.sleep(0.3)
    client.close()
    other = restored.connect()
    assert other.wait(restored.lock(other, b"locked")).error == 0
    time.sleep(LATE)
    for name, node in restored.nodes.items():
        other.getattr(node)
        other.read(node, restored.files[name])
    with open(directory / "locked") as file, pytest.raises(BlockingIOError):
        fcntl.flock(file, fcntl.LOCK_EX | fcntl.LOCK_NB)
    other.close()
    end_soon(restored.server)


def test_an_interrupt_that_comes_late_ends_no_waiting_of_a_front_end_with_the_same_numbers(restored, directory):
    client = restored.connect()
    # (of the number by which the next one waits for a lock)
    client.submit(Op.INTERRUPT, struct.pack("<Q", client.unique + 2), uid=4245)
    time.sleep(0.3)
    client.close()
    other = restored.connect()
    with open(directory / "file") as file:
        fcntl.flock(file, fcntl.LOCK_EX)
        waits = restored.lock(other, b"file", Op.SETLKW)
        time.sleep(LATE)
        assert not other.is_done(waits)
    assert other.wait(waits).error == 0
    other.close()
    end_soon(restored.server)


def test_a_request_that_is_read_late_from_slow_memory_is_none_of_the_next_front_end(serve, directory):
    (directory / "file").touch()
    slow = SlowFileSystem(directory / "slow")
    server = serve("--thread-pool-size=2")
    memory = os.open(directory / "slow/memory", os.O_RDWR)
    client = server.connect()
    client.share_memory((GUEST << 1, slow.SIZE, USER << 1, 0, memory))
    waits = client.submit(Op.RELEASE, bytes(24), kick=False)
    # (its first descriptor is that of the request, which is elsewhere)
    head = next(it for it, request in waits.queue.flying.items() if request is waits)
    struct.pack_into("<Q", client.view, waits.queue.descriptors + 16 * head, GUEST << 1)
    client.kick(waits.queue)
    time.sleep(0.3)
    client.close()
    other = next_is_served(server)
    node = other.lookup(b"file")
    handle = other.open(node)
    body = record(Op.RELEASE, handle=handle)
    slow.data = (IN_HEADER.pack(40 + len(body), Op.RELEASE, waits.unique, node, 0, 0, 1, 0, 0) + body).ljust(slow.SIZE, b"\0")
    slow.is_set.set()
    time.sleep(1)
    other.read(node, handle)
    other.close()
    end_soon(server)
    os.close(memory)
    slow.end()


# ---- signals

@pytest.mark.parametrize("program", ["share", "tree_vhost"])
def test_a_signal_ends_it_while_the_directory_of_its_socket_does_not_answer(request, scratch, hung, program):
    path = hung.place / "socket"
    arguments = [f"--socket-path={path}", scratch] if program == "share" else [path]
    process = subprocess.Popen([request.getfixturevalue(program), *arguments])
    time.sleep(0.5)
    process.terminate()
    try:
        assert process.wait(SOON) == 0
    finally:
        process.kill()
        process.wait()


@OF_SANDBOXES
@pytest.mark.parametrize("name", ["leased", "hung"])
def test_a_signal_unmounts_while_a_program_waits_for_the_mount(share_mount, request, directory, sandbox, name):
    if name == "hung":
        request.getfixturevalue("hung")
    server = share_mount(f"--sandbox={sandbox}")
    with lease_of(directory / name) if name == "leased" else contextlib.nullcontext():
        user = subprocess.Popen(["cat", server.path / name], stdout=subprocess.DEVNULL, stderr=subprocess.DEVNULL)
        time.sleep(0.5)
        end_soon(server)
        assert not os.path.ismount(server.path)
        assert user.wait(SOON) is not None


@OF_SANDBOXES
def test_a_signal_unmounts_while_nobody_reads_standard_error(share_mount, full_pipe, directory, sandbox):
    for name in ("one", "other"):
        (directory / name).touch()
    server = share_mount(f"--sandbox={sandbox}", "--node-limit=2", stderr=full_pipe)
    user = subprocess.Popen(["ls", server.path / "one", server.path / "other"], stdout=subprocess.DEVNULL,
                            stderr=subprocess.DEVNULL)
    time.sleep(0.5)
    end_soon(server)
    assert not os.path.ismount(server.path)
    assert user.wait(SOON) is not None


@OF_SANDBOXES
def test_a_signal_ends_it_while_nobody_reads_that_another_file_system_is_mounted_there(share_mount, full_pipe, sandbox):
    server = share_mount(f"--sandbox={sandbox}", stderr=full_pipe)
    run("mount", "-t", "tmpfs", "none", server.path)
    end_soon(server, status=1)
    while os.path.ismount(server.path):
        run("umount", "-l", server.path)


@pytest.mark.parametrize("options, signals, status", [
    ((), [("server", signal.SIGKILL)], 1), ((), [("server", signal.SIGSTOP), ("parent", signal.SIGTERM)], 0),
    (("--log-level=info",), [("parent", signal.SIGTERM)], 0)], ids=["killed", "stopped", "info"])
def test_the_process_that_keeps_the_sandbox_ends_while_nobody_reads_standard_error(sandboxed, full_pipe, options, signals, status):
    server = sandboxed(*options, stderr=full_pipe)
    wait_until(lambda: os.path.exists(server.socket))
    if not options:
        server.connect()
    pids = {"server": server.pid, "parent": server.process.pid}
    for who, number in signals:
        os.kill(pids[who], number)
    server.finish(status, 2 * SOON)
    assert not os.path.exists(server.socket)


@pytest.fixture
def sandboxed(serve, request):
    """The same as `serve`, with a sandbox that has a process of its own."""
    if has_sanitizer(request.getfixturevalue("share")):
        pytest.skip("a server with a sanitizer has no sandbox")
    return serve


@pytest.mark.parametrize("whom", [["server"], ["parent", "server"], ["server", "parent"]], ids=" ".join)
def test_a_signal_to_the_server_to_its_parent_or_to_both_is_a_good_end(sandboxed, share_mount, whom):
    server = share_mount()
    pids = {"server": server.pid, "parent": server.process.pid}
    for it in whom:
        # (by the first one both may have ended)
        with contextlib.suppress(ProcessLookupError):
            os.kill(pids[it], signal.SIGTERM)
    server.finish(0, SOON)
    assert not os.path.ismount(server.path)


@pytest.mark.parametrize("is_ready", [False, True])
def test_a_server_ends_with_its_parent(sandboxed, is_ready):
    server = sandboxed()
    if is_ready:
        server.connect(init=False)
    assert wait_until(lambda: server.pid != server.process.pid, SOON)
    pid = server.pid
    os.kill(server.process.pid, signal.SIGKILL)
    server.process.wait()
    assert wait_until(lambda: not os.path.exists(f"/proc/{pid}"), SOON)


@pytest.fixture(params=["namespace", "none", "tree"])
def below(request, scratch, directory):
    """A server whose mount point is below a directory `above`."""
    (scratch / "above").mkdir()
    program, where = ("tree_mount", (None, ())) if request.param == "tree" else (
        "share", (directory, (f"--sandbox={request.param}",)))
    server = MountServer(request.getfixturevalue(program), scratch / "above", *where, {})
    server.await_mount()
    yield server
    end_all([server])


def test_a_signal_unmounts_what_was_mounted_also_if_a_link_takes_the_place_of_a_directory_above(below, scratch):
    other = scratch / "other" / below.path.name
    other.mkdir(parents=True)
    run("mount", "-t", "tmpfs", "none", other)
    os.rename(scratch / "above", scratch / "moved")
    os.symlink(scratch / "other", scratch / "above")
    below.process.terminate()
    below.process.wait(SOON)
    assert os.path.ismount(other) and not os.path.ismount(scratch / "moved" / below.path.name)
    os.unlink(scratch / "above")
    os.rename(scratch / "moved", scratch / "above")
    below.finish()
