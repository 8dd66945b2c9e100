"""The package against requests as a kernel sends them, over a socket, and, as root, on a mount."""
import contextlib
import errno
import fcntl
import functools
import logging
import os
import select
import signal
import stat
import struct
import subprocess
import threading
import time

import pytest
from hello_client import Peer
from nizwarf import (Attr, DirectoryEntry, Entry, FileSystem, Lock, OpenFile, Opened, Option, Request, Statfs, Statx, ToSet,
                     mount, serve)
from nizwarf import server as nizwarf_server

ROOT, A = 1, 97
PATIENCE = 20
IO = struct.Struct("<QQIIQII")
ATTR = Attr(ino=A, mode=stat.S_IFREG | 0o644, nlink=1)
ENTRY, OPENED = Entry(A, ATTR, 1.5, 2.0), Opened(7, 2)
FILE = OpenFile(9, 3, 5)


class Scripted(FileSystem):
    """Returns or raises what the test says, and records how methods were called."""

    def __init__(self, **results):
        self.results, self.calls, self.want = results, [], 0

    def init(self, connection):
        connection.want |= self.want
        connection.max_write = 8192
        self.connection = connection

    def end(self, name, *arguments):
        self.calls.append((name, arguments))
        result = self.results.get(name)
        if isinstance(result, BaseException):
            raise result
        return result


for method in vars(FileSystem):
    if method != "init" and not method.startswith("_"):
        setattr(Scripted, method, functools.partialmethod(Scripted.end, method))


class Kernel(Peer):
    """The other end of a socket at which a file system is served, by a thread."""

    def __init__(self, file_system, options=0, threads=1):
        super().__init__()
        self.thread = threading.Thread(target=serve, args=(file_system, self.theirs.fileno()), kwargs={"threads": threads})
        self.thread.start()
        options |= Option.INIT_EXT
        body = self.ask(26, 0, struct.pack("<IIIIIII", 7, 45, 0, options & 0xffffffff, options >> 32, 0, 0) + bytes(36))
        self.max_write, = struct.unpack_from("<I", body, 20)
        low, high = (struct.unpack_from("<I", body, place)[0] for place in (12, 32))
        self.negotiated = Option(low | high << 32) & ~Option.INIT_EXT

    def __enter__(self):
        return self

    def __exit__(self, *_):
        self.socket.close()
        self.thread.join(PATIENCE)
        self.theirs.close()
        assert not self.thread.is_alive()


NAME, ATTRIBUTE, LOCKED = b"a\0", b"user.a\0", struct.pack("<QQQQIII", 9, 5, 10, 20, fcntl.F_RDLCK, 77, 0) + bytes(4)
GRANTED, STATX = Lock(1, 2, fcntl.F_WRLCK, 8), Statx(mask=1, size=6)
READ = IO.pack(9, 4, 100, 2, 5, 3, 0)
# An opcode, its body, the method with its arguments after the request, what that returns, and the body of the reply.
CALLS = [
    (1, NAME, "lookup", (ROOT, b"a"), ENTRY, struct.pack("<QQQQII", A, 0, 1, 2, 500000000, 0) + bytes(ATTR)),
    (3, struct.pack("<IIQ", 1, 0, 9), "getattr", (ROOT, OpenFile(9)), (ATTR, 1.0), struct.pack("<QII", 1, 0, 0) + bytes(ATTR)),
    (3, bytes(16), "getattr", (ROOT, None), (ATTR, -1.0), bytes(16) + bytes(ATTR)),
    (5, b"", "readlink", (ROOT,), b"target", b"target"),
    (6, b"a\0target\0", "symlink", (b"target", ROOT, b"a"), ENTRY, None),
    (8, struct.pack("<IIII", 0o644, 3, 0, 0) + NAME, "mknod", (ROOT, b"a", 0o644, 3), ENTRY, None),
    (9, struct.pack("<II", 0o755, 0) + NAME, "mkdir", (ROOT, b"a", 0o755), ENTRY, None),
    (10, NAME, "unlink", (ROOT, b"a"), None, b""),
    (11, NAME, "rmdir", (ROOT, b"a"), None, b""),
    (12, struct.pack("<Q", 5) + b"a\0b\0", "rename", (ROOT, b"a", 5, b"b", 0), None, b""),
    (13, struct.pack("<Q", A) + NAME, "link", (A, ROOT, b"a"), ENTRY, None),
    (14, struct.pack("<II", 2, 0), "open", (ROOT, 2), OPENED, struct.pack("<QII", 7, 2, 0)),
    (15, READ, "read", (ROOT, 100, 4, FILE), b"data", b"data"),
    (16, IO.pack(9, 4, 3, 2, 5, 3, 0) + b"abc", "write", (ROOT, b"abc", 4, FILE), 2, struct.pack("<II", 2, 0)),
    (17, b"", "statfs", (ROOT,), Statfs(bsize=512, blocks=9, namemax=30), None),
    (18, struct.pack("<QIIQ", 9, 3, 0, 0), "release", (ROOT, OpenFile(9, 3)), None, b""),
    (20, struct.pack("<QII", 9, 1, 0), "fsync", (ROOT, True, OpenFile(9)), None, b""),
    (21, struct.pack("<II", 3, 1) + ATTRIBUTE + b"val", "setxattr", (ROOT, b"user.a", b"val", 1), None, b""),
    (22, struct.pack("<II", 5, 0) + ATTRIBUTE, "getxattr", (ROOT, b"user.a"), b"value", b"value"),
    (22, struct.pack("<II", 0, 0) + ATTRIBUTE, "getxattr", (ROOT, b"user.a"), b"value", struct.pack("<II", 5, 0)),
    (23, struct.pack("<II", 9, 0), "listxattr", (ROOT,), [b"a", b"b"], b"a\0b\0"),
    (24, ATTRIBUTE, "removexattr", (ROOT, b"user.a"), None, b""),
    (25, struct.pack("<QIIQ", 9, 0, 0, 5), "flush", (ROOT, OpenFile(9, 0, 5)), None, b""),
    (27, struct.pack("<II", 1, 0), "opendir", (ROOT, 1), OPENED, struct.pack("<QII", 7, 2, 0)),
    (29, struct.pack("<QIIQ", 9, 3, 0, 0), "releasedir", (ROOT, OpenFile(9, 3)), None, b""),
    (30, struct.pack("<QII", 9, 0, 0), "fsyncdir", (ROOT, False, OpenFile(9)), None, b""),
    (34, struct.pack("<II", 4, 0), "access", (ROOT, 4), None, b""),
    (35, struct.pack("<IIII", 1, 0o644, 0, 0) + NAME, "create", (ROOT, b"a", 0o644, 1), (ENTRY, OPENED), None),
    (43, struct.pack("<QQQII", 9, 1, 2, 3, 0), "fallocate", (ROOT, 3, 1, 2, OpenFile(9)), None, b""),
    (46, struct.pack("<QQII", 9, 1, 3, 0), "lseek", (ROOT, 1, 3, OpenFile(9)), 1 << 40, struct.pack("<Q", 1 << 40)),
    (47, struct.pack("<QQQQQQQ", 9, 1, A, 8, 2, 1 << 40, 0), "copy_file_range",
     (ROOT, 1, OpenFile(9), A, 2, OpenFile(8), 0xfffff000, 0), 5, struct.pack("<II", 5, 0)),
    (50, bytes(8), "syncfs", (ROOT,), None, b""),
    (37, struct.pack("<QII", 5, 512, 0), "bmap", (ROOT, 512, 5), 6, struct.pack("<Q", 6)),
    (39, struct.pack("<QIIQII", 9, 0, 77, 4, 2, 8) + b"in", "ioctl", (ROOT, 77, 4, OpenFile(9), 0, b"in", 8), (1, b"out"),
     struct.pack("<iIII", 1, 0, 0, 0) + b"out"),
    (40, struct.pack("<QQII", 9, 6, 1, 4), "poll", (ROOT, OpenFile(9), 4, 6), 4, struct.pack("<II", 4, 0)),
    (51, struct.pack("<IIII", 1, 0o644, 0, 0) + NAME, "tmpfile", (ROOT, 0o644, 1), (ENTRY, OPENED), None),
    (52, struct.pack("<IIQII", 0, 0, 0, 0, 7), "statx", (ROOT, 0, 7, None), (STATX, 1.0), None),
]


@pytest.mark.parametrize("opcode, body, method, arguments, result, expected", CALLS, ids=[f"{it[2]}-{it[0]}" for it in CALLS])
def test_a_request_calls_its_method_and_the_reply_has_the_result(opcode, body, method, arguments, result, expected):
    file_system = Scripted(**{method: result})
    with Kernel(file_system) as kernel:
        reply = kernel.ask(opcode, ROOT, body)
        (called, (request, *others)), = file_system.calls
    assert (called, tuple(others)) == (method, arguments)
    assert (request.uid, request.gid, request.pid, request.unique) == (0, 0, 1, 2)
    assert reply == expected if expected is not None else len(reply) > 15


def test_setattr_locks_and_forgets_have_their_arguments():
    file_system = Scripted(setattr=(ATTR, 0.0), getlk=GRANTED)
    with Kernel(file_system) as kernel:
        kernel.ask(4, A, struct.pack("<IIQQ", ToSet.SIZE, 0, 0, 5) + bytes(64))
        assert kernel.ask(31, A, LOCKED) == bytes(GRANTED)
        kernel.ask(33, A, LOCKED)
        kernel.ask(32, A, LOCKED[:40] + struct.pack("<II", 1, 0))  # a lock of flock(2)
        kernel.send(42, 0, struct.pack("<IIQQQQ", 2, 0, 5, 1, 6, 2))
        kernel.send(2, 7, struct.pack("<Q", 3))
        kernel.send(36, 0, struct.pack("<Q", 99))
        kernel.ask(10, ROOT, NAME)
    calls = [(name, it[1:] if name != "interrupt" else it) for name, it in file_system.calls]
    (_, (node, attr, to_set, file)), (_, (_, _, lock)), (_, (_, _, waited, sleep)), (_, flock), *forgets = calls
    assert (node, attr.size, to_set, file) == (A, 5, ToSet.SIZE, None)
    assert [(it.start, it.end, it.type, it.pid) for it in (lock, waited)] == [(10, 20, fcntl.F_RDLCK, 77)] * 2 and sleep
    assert flock == (A, OpenFile(9, 0, 5), fcntl.LOCK_SH | fcntl.LOCK_NB)
    assert forgets[:4] == [("forget", (5, 1)), ("forget", (6, 2)), ("forget", (7, 3)), ("interrupt", (99,))]
    assert file_system.calls[-1][0] == "destroy"


WRONG = [
    (1, NAME, "lookup", OSError(errno.ENOENT), errno.ENOENT), (1, NAME, "lookup", OSError(errno.EACCES, "no"), errno.EACCES),
    (1, NAME, "lookup", OSError(512, "no error of Linux"), errno.EIO), (1, NAME, "lookup", OSError(-2, "negated"), errno.EIO),
    (1, NAME, "lookup", KeyError("a"), errno.EIO), (1, NAME, "lookup", None, errno.EIO),
    (5, b"", "readlink", bytes(4096), errno.EIO), (15, READ, "read", bytes(101), errno.EIO),
    (16, IO.pack(9, 4, 3, 2, 5, 3, 0) + b"abc", "write", 4, errno.EIO), (46, bytes(24), "lseek", "1", errno.EIO),
    (22, struct.pack("<II", 4, 0) + ATTRIBUTE, "getxattr", b"value", errno.ERANGE),
    (28, READ, "readdir", [DirectoryEntry(b"a\0b", 1, 1)], errno.EIO), (28, READ, "readdir", [DirectoryEntry(b"", 1, 1)], errno.EIO),
    (39, struct.pack("<QIIQII", 9, 0, 77, 4, 0, 2), "ioctl", (0, b"out"), errno.EIO),
]


@pytest.mark.parametrize("opcode, body, method, result, error", WRONG)
def test_an_error_and_what_linux_would_refuse_are_replied_as_an_error(opcode, body, method, result, error):
    with Kernel(Scripted(**{method: result})) as kernel:
        kernel.ask(opcode, ROOT, body, error)
        kernel.ask(10, ROOT, NAME)


def test_a_method_that_is_not_overridden_is_enosys_or_succeeds():
    with Kernel(FileSystem()) as kernel:
        for opcode, body, method, *_ in CALLS:
            kernel.ask(opcode, ROOT, body, 0 if method in ("open", "opendir", "release", "releasedir", "statfs") else errno.ENOSYS)
        for opcode in (31, 32, 33):
            kernel.ask(opcode, ROOT, LOCKED, errno.ENOSYS)
        kernel.send(2, 7, struct.pack("<Q", 3))
        kernel.ask(9999, ROOT, b"", errno.ENOSYS)


LISTED = [DirectoryEntry(b".", 1, ROOT, stat.S_IFDIR), DirectoryEntry(b"a", 2, A), DirectoryEntry(b"b", 3, 98)]


@pytest.mark.parametrize("opcode, size, length", [(28, 4096, 96), (28, 95, 64), (28, 31, 0), (44, 4096, 480), (44, 320, 320)])
def test_a_directory_is_listed_as_far_as_it_fits(opcode, size, length):
    file_system = Scripted(readdir=iter(LISTED), lookup=ENTRY)
    file_system.want = Option.DO_READDIRPLUS
    with Kernel(file_system, Option.DO_READDIRPLUS) as kernel:
        assert len(kernel.ask(opcode, ROOT, IO.pack(9, 0, size, 0, 0, 0, 0))) == length
    assert [it for it, _ in file_system.calls].count("lookup") == max(length // 160 - 1, 0)


def test_what_the_kernel_does_not_get_is_released_and_forgotten(monkeypatch):
    def failing():
        yield from LISTED
        raise OSError(errno.EBADF)

    file_system = Scripted(readdir=failing(), lookup=ENTRY, create=(ENTRY, OPENED))
    file_system.want = Option.DO_READDIRPLUS
    with Kernel(file_system, Option.DO_READDIRPLUS) as kernel:
        kernel.ask(44, ROOT, IO.pack(9, 0, 4096, 0, 0, 0, 0), errno.EBADF)
        assert [it[1:] for name, it in file_system.calls if name == "forget"] == [(A, 1)] * 2
        monkeypatch.setattr(nizwarf_server, "_BUFFER", 100)
        kernel.ask(35, ROOT, struct.pack("<IIII", 1, 0o644, 0, 0) + NAME, errno.EIO)
    assert [(name, it[1:]) for name, it in file_system.calls[-3:-1]] == [("release", (A, OpenFile(7, 1))), ("forget", (A, 1))]


@pytest.mark.parametrize("capable, want, negotiated", [
    (Option.ATOMIC_O_TRUNC | Option.ASYNC_READ, 0, Option.ASYNC_READ), (Option.ATOMIC_O_TRUNC,) * 3, (0, Option.ATOMIC_O_TRUNC, 0),
    (Option.HAS_INODE_DAX, Option.HAS_INODE_DAX, 0), (Option.ALLOW_IDMAP, 0, 0), (Option.ALLOW_IDMAP,) * 3,
    (Option.PASSTHROUGH,) * 3, (Option.NO_EXPORT_SUPPORT, 0, 0), (Option.POSIX_LOCKS,) * 3])
def test_options_are_negotiated_if_they_are_supported_wanted_and_served(capable, want, negotiated):
    file_system = Scripted(open=Opened(1, 0, 5))
    file_system.want = want
    with Kernel(file_system, capable) as kernel:
        assert kernel.negotiated == negotiated and kernel.max_write == 8192
        assert file_system.connection.capable == capable | Option.INIT_EXT
        backing = (128, 5) if negotiated == Option.PASSTHROUGH else (0, 0)
        assert kernel.ask(14, A, bytes(8)) == struct.pack("<QII", 1, *backing)
    with Kernel(FileSystem(), Option.POSIX_LOCKS | Option.FLOCK_LOCKS) as kernel:
        assert kernel.negotiated == 0


def test_locks_need_flush_which_ends_them():
    class Endless(Scripted):
        flush = FileSystem.flush

    file_system = Endless()
    file_system.want = Option.POSIX_LOCKS
    with Kernel(file_system, Option.POSIX_LOCKS) as kernel:
        assert kernel.negotiated == 0


def test_wanted_options_are_options():
    file_system = Scripted()
    with Kernel(file_system, Option.ASYNC_READ) as kernel:
        connection = file_system.connection
        connection.want = Option.ASYNC_READ | Option.OVER_IO_URING
        connection.want &= ~Option.OVER_IO_URING
        assert isinstance(connection.want, Option) and isinstance(connection.capable, Option)
        assert connection.want == Option.ASYNC_READ and kernel.negotiated == Option.ASYNC_READ
        with pytest.raises(OverflowError):
            connection.want = 1 << 64


@pytest.mark.parametrize("arguments, fields, error", [
    ((), {"sise": 3}, TypeError), ((), {"mode": -1}, OverflowError), ((), {"nlink": 1 << 40}, OverflowError),
    ((1 << 64,), {}, OverflowError), ((1, 2), {"size": 2}, TypeError), ((), {"mode": "r"}, TypeError)])
def test_a_field_that_a_struct_does_not_have_or_cannot_be_is_an_error(arguments, fields, error):
    with pytest.raises(error):
        Attr(*arguments, **fields)


def test_structs_are_compared_and_shown():
    assert Attr(1, mtime=-1, mode=3) == Attr(ino=1, mtime=-1, mode=3) != Attr(1)
    assert repr(Attr(1, mtime=-1, mode=3)) == "Attr(ino=1, mtime=-1, mode=3)" and Attr(mtime=-1) != -1
    assert len({Request(), Request()}) == 2


def test_a_method_that_waits_holds_one_thread_of_several():
    may_end = threading.Event()

    class Waiting(Scripted):
        def unlink(self, request, parent, name):
            may_end.wait(PATIENCE)

    with Kernel(Waiting(), threads=2) as kernel:
        waiting = kernel.send(10, ROOT, NAME)
        kernel.ask(11, ROOT, NAME)
        may_end.set()
        kernel.expect(waiting)


def test_wake_sends_a_notice_and_its_failure_is_no_error_of_a_request():
    class Waking(Scripted):
        def unlink(self, request, parent, name):
            self.connection.wake(6)

    file_system = Waking()
    with Kernel(file_system) as kernel:
        file_system.connection.wake(5)
        assert kernel.socket.recv(100) == struct.pack("<IiQQ", 24, 1, 0, 5)
        unique, write = kernel.send(10, ROOT, NAME), file_system.connection._write
        assert kernel.socket.recv(100) == struct.pack("<IiQQ", 24, 1, 0, 6)
        kernel.expect(unique)
        for number, replied in ((errno.ENOENT, 0), (errno.ENODEV, 0), (errno.EINVAL, errno.EIO)):
            def failing(notice, number=number):
                raise OSError(number, "not written")
            file_system.connection._write = failing
            kernel.ask(10, ROOT, NAME, replied)
        file_system.connection._write = write
    file_system.connection.wake(5)  # (the session has ended)


class Waiting(Scripted):
    """A method that waits until the test sets `may_end`, or until the request is interrupted."""

    def __init__(self):
        super().__init__()
        self.changed, self.may_end, self.begun = threading.Condition(), False, threading.Event()

    def unlink(self, request, parent, name):
        with self.changed:
            self.begun.set()
            while not self.may_end:
                request.wait(self.changed)


def test_a_method_that_waits_is_interrupted_whenever_the_interrupt_comes():
    file_system = Waiting()
    with Kernel(file_system, threads=2) as kernel:
        waiting = kernel.send(10, ROOT, NAME)
        assert file_system.begun.wait(PATIENCE)
        kernel.send(36, 0, struct.pack("<Q", waiting))
        kernel.expect(waiting, errno.EINTR)
        # Interrupts that come before their requests are kept.
        first = next(kernel.numbers) + 65
        for early in range(first, first + 64):
            kernel.send(36, 0, struct.pack("<Q", early))
        for _ in range(2):
            kernel.ask(10, ROOT, NAME, errno.EINTR)


def test_of_early_interrupts_64_are_kept():
    server = nizwarf_server._Server(FileSystem(), None)
    for early in range(65):
        server.interrupt(early)
    requests = [Request(unique=it) for it in range(65)]
    assert all(server.begin(it) for it in requests)
    assert [it.interrupted() for it in requests] == [False] + [True] * 64


def test_a_wait_has_a_timeout_and_ends_with_its_condition():
    request, condition = Request(), threading.Condition()
    with condition:
        assert not request.wait(condition, 0.01) and not request.interrupted()
        threading.Timer(0.1, notify, (condition,)).start()
        assert request.wait(condition, PATIENCE)
        request._interrupted = True
        with pytest.raises(InterruptedError):
            request.wait(condition)


def notify(condition):
    with condition:
        condition.notify_all()


def test_the_end_of_the_session_interrupts_methods():
    file_system = Waiting()
    with Kernel(file_system) as kernel:
        kernel.send(10, ROOT, NAME)
        assert file_system.begun.wait(PATIENCE)
        kernel.socket.close()  # (one thread, which waits: nobody reads the end)
        with file_system.changed:
            file_system.may_end = True
            file_system.changed.notify_all()
    file_system = Waiting()
    with Kernel(file_system, threads=2) as kernel:
        waiting = kernel.send(10, ROOT, NAME)
        assert file_system.begun.wait(PATIENCE)
    assert file_system.calls[-2:] == [("interrupt", (waiting,)), ("destroy", ())]


def test_an_exception_without_a_reply_is_logged(caplog):
    file_system = Scripted(interrupt=OSError(errno.EAGAIN, "later"))
    with Kernel(file_system) as kernel:
        kernel.send(36, 0, struct.pack("<Q", 99))
        kernel.ask(10, ROOT, NAME)
    assert [it.getMessage() for it in caplog.records] == ["interrupt failed"]


class NoInit(Scripted):
    def init(self, connection):
        raise KeyError("init")


def test_a_failing_init_ends_serving_and_is_raised(caplog):
    peer, raised = Peer(), []

    def serve_it():
        with pytest.raises(KeyError) as caught:
            serve(NoInit(), peer.theirs.fileno(), threads=2)
        raised.append(caught.value)

    with peer.socket, peer.theirs:
        thread = threading.Thread(target=serve_it)
        thread.start()
        peer.ask(26, 0, struct.pack("<IIII", 7, 45, 0, 0) + bytes(48), errno.EIO)
        thread.join(PATIENCE)
    assert raised and [it.getMessage() for it in caplog.records] == ["init failed without a valid error number"]


def in_child(function):
    """Calls a function in a process of its own, which ends with status 0 if it returns, and returns the number of that."""
    child = os.fork()
    if child == 0:
        with contextlib.suppress(BaseException):
            logging.disable()
            function()
            os._exit(0)
        os._exit(1)
    return child


def status_of(child):
    """Returns the status of a process, which must end."""
    deadline = time.monotonic() + PATIENCE
    while time.monotonic() < deadline:
        ended, status = os.waitpid(child, os.WNOHANG)
        if ended:
            return os.waitstatus_to_exitcode(status)
        time.sleep(0.02)
    os.kill(child, signal.SIGKILL)
    os.waitpid(child, 0)
    raise AssertionError("the process did not end")


@pytest.mark.parametrize("number", [signal.SIGINT, signal.SIGTERM])
@pytest.mark.parametrize("threads", [1, 4])
def test_a_signal_that_comes_to_another_thread_is_not_lost(threads, number):
    def serve_it():
        def raise_signals():
            while signal.getsignal(number) == signal.SIG_DFL:
                time.sleep(0.02)
            time.sleep(0.3)
            signal.pthread_kill(threading.get_ident(), signal.SIGUSR1)
            time.sleep(0.3)
            called.append("not yet")
            signal.pthread_kill(threading.get_ident(), number)

        called = []
        former = os.pipe2(os.O_NONBLOCK)[1]
        signal.set_wakeup_fd(former)
        signal.signal(signal.SIGUSR1, lambda *_: called.append("other"))
        signal.signal(number, signal.SIG_DFL)
        peer = Peer()
        threading.Thread(target=raise_signals).start()
        serve(FileSystem(), peer.theirs.fileno(), threads=threads)
        assert called == ["other", "not yet"] and signal.set_wakeup_fd(-1) == former
        assert signal.getsignal(number) == signal.SIG_DFL

    assert status_of(in_child(serve_it)) == 0


class OneFile(FileSystem):
    """A file in the root, which can be written and truncated."""

    data = b"text"

    def getattr(self, request, node, file):
        kind = stat.S_IFDIR | 0o755 if node == ROOT else stat.S_IFREG | 0o644
        return Attr(ino=node, mode=kind, nlink=1, size=len(self.data)), 0.0

    def lookup(self, request, parent, name):
        if name != b"a":
            raise OSError(errno.ENOENT)
        return Entry(A, self.getattr(request, A, None)[0])

    def setattr(self, request, node, attr, to_set, file):
        self.data = self.data[:attr.size]
        return self.getattr(request, node, file)

    def read(self, request, node, size, offset, file):
        return self.data[offset:offset + size]

    def write(self, request, node, data, offset, file):
        self.data = self.data[:offset] + data
        return len(data)


ROOT_ALONE = pytest.mark.skipif(os.geteuid() != 0 or not os.path.exists("/dev/fuse"), reason="requires root and /dev/fuse")


@contextlib.contextmanager
def mounted(file_system, folder, **options):
    """Mounts a file system by a process, whose number this returns."""
    child = in_child(lambda: mount(file_system, folder, **options))
    try:
        deadline = time.monotonic() + PATIENCE
        while not os.path.ismount(folder):
            assert time.monotonic() < deadline and os.waitpid(child, os.WNOHANG) == (0, 0)
            time.sleep(0.02)
        yield child
    finally:
        subprocess.run(["umount", "-l", folder], stderr=subprocess.DEVNULL, check=False)
        with contextlib.suppress(ProcessLookupError, ChildProcessError):
            os.kill(child, signal.SIGKILL)
            os.waitpid(child, 0)


@ROOT_ALONE
@pytest.mark.parametrize("by_program", [False, True])
def test_a_file_on_a_mount_is_read_written_and_truncated(tmp_path, monkeypatch, by_program):
    def refuse(*_):
        raise PermissionError(errno.EPERM, "not allowed")

    if by_program:
        if subprocess.run(["which", "fusermount3"], stdout=subprocess.DEVNULL, check=False).returncode:
            pytest.skip("requires fusermount3")
        monkeypatch.setattr(nizwarf_server, "_mount_directly", refuse)
    with mounted(OneFile(), tmp_path, threads=2, name="a,b") as child:
        assert "a,b" in next(it for it in open("/proc/mounts", encoding="utf-8") if str(tmp_path) in it)
        assert (tmp_path / "a").read_text() == "text"
        (tmp_path / "a").write_bytes(b"more" * 100000)
        assert (tmp_path / "a").read_bytes() == b"more" * 100000
        os.truncate(tmp_path / "a", 3)
        assert (tmp_path / "a").read_text() == "mor"
        with pytest.raises(OSError, match="not implemented"):
            (tmp_path / "d").mkdir()
        subprocess.run(["umount", tmp_path], check=True)
        assert status_of(child) == 0
    with mounted(OneFile(), tmp_path) as child:
        assert (tmp_path / "a").read_text() == "text"
        os.kill(child, signal.SIGTERM)
        assert status_of(child) == 0 and not os.path.ismount(tmp_path)


@ROOT_ALONE
def test_a_signal_unmounts_while_methods_wait(tmp_path):
    class Slow(OneFile):
        changed = threading.Condition()

        def read(self, request, node, size, offset, file):
            with self.changed:
                while True:
                    request.wait(self.changed)

    with mounted(Slow(), tmp_path) as child, subprocess.Popen(["cat", tmp_path / "a"], stderr=subprocess.PIPE) as reader:
        time.sleep(0.5)
        os.kill(child, signal.SIGTERM)
        assert status_of(child) == 0 and not os.path.ismount(tmp_path)
        assert reader.wait(PATIENCE) == 1


@ROOT_ALONE
def test_a_method_that_never_returns_keeps_no_mount(tmp_path):
    class Endless(OneFile):
        def read(self, request, node, size, offset, file):
            threading.Event().wait()

    with mounted(Endless(), tmp_path, threads=2) as child, subprocess.Popen(["cat", tmp_path / "a"], stderr=subprocess.PIPE):
        time.sleep(0.5)
        os.kill(child, signal.SIGTERM)
        deadline = time.monotonic() + PATIENCE
        while os.path.ismount(tmp_path):
            assert time.monotonic() < deadline
            time.sleep(0.02)
        time.sleep(0.5)
        assert os.waitpid(child, os.WNOHANG) == (0, 0)
        os.kill(child, signal.SIGTERM)
        assert status_of(child) == -signal.SIGTERM and not os.path.ismount(tmp_path)


@ROOT_ALONE
def test_a_failing_init_unmounts_and_is_raised_from_mount(tmp_path):
    def mount_it():
        with pytest.raises(KeyError):
            mount(NoInit(), tmp_path)
        assert not os.path.ismount(tmp_path)

    assert status_of(in_child(mount_it)) == 0


@ROOT_ALONE
def test_a_file_is_polled_until_it_is_woken(tmp_path):
    class Polled(OneFile):
        polled, ready = None, 0

        def init(self, connection):
            self.connection = connection

        def poll(self, request, node, file, events, poll_handle):
            self.polled = poll_handle if poll_handle is not None else self.polled
            return events & self.ready

        def write(self, request, node, data, offset, file):
            self.ready = select.POLLIN
            if self.polled is not None:
                self.connection.wake(self.polled)
            return len(data)

    with mounted(Polled(), tmp_path), open(tmp_path / "a", "rb") as file:
        poll = select.poll()
        poll.register(file, select.POLLIN)
        assert poll.poll(0) == []
        writer = threading.Timer(0.3, (tmp_path / "a").write_bytes, (b"new",))
        writer.start()
        assert poll.poll(PATIENCE * 1000) == [(file.fileno(), select.POLLIN)]
        writer.join()


def test_a_mount_that_fails_says_where():
    with pytest.raises(OSError) as caught:
        mount(FileSystem(), "/none")
    assert caught.value.errno == errno.ENOENT and "/none" in str(caught.value)
    assert Attr.of_stat(os.stat("/")).mode == os.stat("/").st_mode


def test_data_of_a_read_may_be_words():
    with Kernel(Scripted(read=memoryview(b"abcdefgh").cast("I"))) as kernel:
        assert kernel.ask(15, ROOT, READ) == b"abcdefgh"


def test_the_other_threads_end_if_one_cannot_be_started(monkeypatch):
    started, start = [], threading.Thread.start

    def start_two(thread):
        if len(started) == 2:
            time.sleep(0.2)  # (the others wait for requests by then)
            raise RuntimeError("can't start new thread")
        started.append(thread)
        start(thread)

    monkeypatch.setattr(threading.Thread, "start", start_two)
    peer = Peer()
    with peer.socket, peer.theirs:
        with pytest.raises(RuntimeError):
            serve(Scripted(), peer.theirs.fileno(), threads=4)
        assert not any(it.is_alive() for it in started)
