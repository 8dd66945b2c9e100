"""Serves a file system: decodes each request, calls its method, and encodes the reply."""
import collections
import contextlib
import ctypes
import errno
import fcntl
import logging
import os
import select
import shutil
import signal
import socket
import stat
import struct
import subprocess
import threading
from ctypes import byref
from typing import Any, Callable, Deque, Dict, Iterable, List, Optional, Tuple

from ._library import (ENDED, MAX_ERRNO, Answer, Attr, Code, Connection, Dirent, EntryRecord, Feature, Has, IoctlResult,
                       Iovec, Lock, Opcode, Option, Request, Result, Scratch, Session, Statfs, library)
from .file_system import Entry, FileSystem, Opened, OpenFile

_log = logging.getLogger("nizwarf")
_PAYLOAD, _HEADER = 1 << 20, 16
# The size of the buffers of a request and of a reply.
_BUFFER = _PAYLOAD + 4096
_MAX_LINK, _MAX_COPY = 4095, 0xfffff000
_MS_RDONLY, _MS_NOSUID, _MS_NODEV, _MNT_DETACH = 1, 2, 4, 2
# The kernel expects no reply to these, not even an error. (36 is INTERRUPT, which calls no method.)
_WITHOUT_REPLY = (Opcode.FORGET, 36, Opcode.NOTIFY_REPLY, Opcode.BATCH_FORGET)
# How many interrupts are kept of requests that were not found, because they have not begun or have ended.
_MAX_INTERRUPTS = 64
# For how many seconds the unmounting may wait for requests of the kernel, such as those that write cached data.
_PATIENCE = 2.0
# The flags of these are not those of open(2).
_OTHER_FLAGS = (Opcode.SETATTR, Opcode.GETLK, Opcode.SETLK, Opcode.SETLKW, Opcode.IOCTL, Opcode.POLL, Opcode.STATX)
# Optional operations: all that `FileSystem` has methods for, and the call of INIT with its extension options.
_FEATURES = sum(Feature) - Feature.NOTIFY_REPLY
# The options that are enabled if `init` does not change them; and the methods without which an option is not enabled.
_DEFAULT = (Option.ASYNC_READ | Option.BIG_WRITES | Option.AUTO_INVAL_DATA | Option.ASYNC_DIO | Option.PARALLEL_DIROPS
          | Option.MAX_PAGES | Option.SUBMOUNTS | Option.INIT_EXT | Option.CREATE_SUPP_GROUP)
_NEEDED = {Option.POSIX_LOCKS: ("getlk", "setlk", "flush"), Option.FLOCK_LOCKS: ("flock",),
           Option.HAS_IOCTL_DIR: ("ioctl",), Option.ATOMIC_O_TRUNC: ("open",), Option.DO_READDIRPLUS: ("readdir", "lookup"),
           Option.WRITEBACK_CACHE: ("write",), Option.SETXATTR_EXT: ("setxattr",), Option.HAS_INODE_DAX: ("no method",)}


def _time(seconds: float) -> Tuple[int, int]:
    """Splits seconds into whole ones and nanoseconds. Less than 0 are 0, and more than the protocol has are the most."""
    return divmod(int(min(max(seconds, 0.0), float(1 << 63)) * 1e9), 10**9)


def _record(entry: Entry) -> Any:
    (entry_seconds, entry_nanoseconds), (seconds, nanoseconds) = _time(entry.entry_timeout), _time(entry.attr_timeout)
    return EntryRecord(entry.node, entry.generation, entry_seconds, seconds, entry_nanoseconds, nanoseconds, entry.attr)


class _Reply:
    """A reply before it is encoded: the answer for the library, directory entries, and data that follow the header.

    The methods fill it in with what a method of the file system returned. They raise ValueError for values that Linux would
    refuse, and the reply is then EIO."""

    def __init__(self, request: Request) -> None:
        self.request, self.answer, self.data = request, Answer(), b""
        self.entries: List[Any] = []
        self.opened: Optional[Opened] = None
        # (the answer points to it)
        self.connection: Optional[Connection] = None

    def nothing(self, value: None) -> None:
        pass

    def entry(self, value: Entry) -> None:
        self.answer.entry = _record(value)

    def attr(self, value: Tuple[Attr, float]) -> None:
        self.entry(Entry(0, value[0], attr_timeout=value[1]))

    def open(self, value: Opened) -> None:
        self.answer.has_handle, (self.answer.handle, self.answer.open_flags, self.answer.count) = 1, value
        self.opened = value

    def created(self, value: Tuple[Entry, Opened]) -> None:
        self.entry(value[0])
        self.open(value[1])

    def statfs(self, value: Statfs) -> None:
        self.answer.statfs = value

    def offset(self, value: int) -> None:
        self.answer.count = value

    def count(self, value: int) -> None:
        most = self.request.data.len if self.request.opcode == Opcode.WRITE else self.request.length
        self.answer.count = self._at_most(most, value)

    def read(self, value: bytes) -> None:
        value = bytes(value)
        self.answer.count = self._at_most(min(self.request.size, self.request.length), len(value))
        self.data = value

    def text(self, value: Any) -> None:
        self.answer.text, self.answer.text_len = bytes(value), len(bytes(value))

    def link(self, value: bytes) -> None:
        self._at_most(_MAX_LINK, len(value))
        self.text(value)

    def xattr(self, value: bytes) -> None:
        """A size of 0 requests the length alone."""
        if not self.request.size:
            self.answer.has_count, self.answer.count = 1, len(value)
        elif len(value) > self.request.size:
            raise OSError(errno.ERANGE, "the attribute is longer than the buffer")
        else:
            self.text(value)

    def names(self, value: Iterable[bytes]) -> None:
        self.xattr(b"".join(it + b"\0" for it in value))

    def ioctl(self, value: Tuple[int, bytes]) -> None:
        self._at_most(self.request.size, len(value[1]))
        self.text(bytes(IoctlResult(value[0])) + value[1])

    def statx(self, value: Tuple[Any, float]) -> None:
        record, timeout = value
        record.attr_seconds, record.attr_nanoseconds = _time(timeout)
        self.text(record)

    @staticmethod
    def _at_most(most: int, count: int) -> int:
        if not 0 <= count <= most:
            raise ValueError(f"{count} bytes exceed the {most} that were requested")
        return count


# ---- The arguments of methods

def _file(request: Request) -> OpenFile:
    is_copy = request.opcode in (Opcode.COPY, Opcode.COPY_64)
    return OpenFile(request.handle, 0 if request.opcode in _OTHER_FLAGS else request.flags,
                    0 if is_copy else request.lock_owner)


def _file_or_none(request: Request) -> Optional[OpenFile]:
    return _file(request) if request.has & Has.HANDLE else None


def _copy(request: Request) -> Tuple[Any, ...]:
    if request.opcode == Opcode.COPY:  # its reply has 32 bits for the count
        request.length = min(request.length, _MAX_COPY)
    return (request.node, request.offset, _file(request), request.other_node, request.other_offset,
            OpenFile(request.other_handle), request.length, request.lock_owner)


def _lock(request: Request) -> Tuple[Any, ...]:
    return request.node, _file(request), Lock(request.offset, request.other_offset, request.flags, request.more)


def _flock(request: Request) -> Tuple[Any, ...]:
    operation = {fcntl.F_RDLCK: fcntl.LOCK_SH, fcntl.F_UNLCK: fcntl.LOCK_UN}.get(request.flags, fcntl.LOCK_EX)
    waits = request.opcode == Opcode.SETLKW or operation == fcntl.LOCK_UN
    return request.node, _file(request), operation if waits else operation | fcntl.LOCK_NB


_Arguments = Callable[[Request], Tuple[Any, ...]]
_NODE: _Arguments = lambda r: (r.node,)
_NAME: _Arguments = lambda r: (r.node, r.part(r.name))
_FILE: _Arguments = lambda r: (r.node, _file(r))
_SYNC: _Arguments = lambda r: (r.node, bool(r.has & Has.FSYNC_FDATASYNC), _file(r))
# The method for an opcode, its arguments after the request, and how its result becomes a reply.
_METHODS: Dict[int, Tuple[str, _Arguments, Callable[[_Reply, Any], None]]] = {
    Opcode.LOOKUP: ("lookup", _NAME, _Reply.entry),
    Opcode.FORGET: ("forget", lambda r: (r.node, r.length), _Reply.nothing),
    Opcode.GETATTR: ("getattr", lambda r: (r.node, _file_or_none(r)), _Reply.attr),
    Opcode.SETATTR: ("setattr", lambda r: (r.node, r.attr, r.flags, _file_or_none(r)), _Reply.attr),
    Opcode.READLINK: ("readlink", _NODE, _Reply.link),
    Opcode.SYMLINK: ("symlink", lambda r: (r.part(r.other_name), *_NAME(r)), _Reply.entry),
    Opcode.MKNOD: ("mknod", lambda r: (*_NAME(r), r.mode, r.rdev), _Reply.entry),
    Opcode.MKDIR: ("mkdir", lambda r: (*_NAME(r), r.mode), _Reply.entry),
    Opcode.UNLINK: ("unlink", _NAME, _Reply.nothing),
    Opcode.RMDIR: ("rmdir", _NAME, _Reply.nothing),
    Opcode.RENAME: ("rename", lambda r: (*_NAME(r), r.other_node, r.part(r.other_name), r.flags), _Reply.nothing),
    Opcode.LINK: ("link", lambda r: (r.node, r.other_node, r.part(r.name)), _Reply.entry),
    Opcode.OPEN: ("open", lambda r: (r.node, r.flags), _Reply.open),
    Opcode.READ: ("read", lambda r: (r.node, min(r.size, r.length), r.offset, _file(r)), _Reply.read),
    Opcode.WRITE: ("write", lambda r: (r.node, r.part(r.data)[:r.size], r.offset, _file(r)), _Reply.count),
    Opcode.STATFS: ("statfs", _NODE, _Reply.statfs),
    Opcode.RELEASE: ("release", _FILE, _Reply.nothing),
    Opcode.FSYNC: ("fsync", _SYNC, _Reply.nothing),
    Opcode.SETXATTR: ("setxattr", lambda r: (*_NAME(r), r.part(r.data), r.flags), _Reply.nothing),
    Opcode.GETXATTR: ("getxattr", _NAME, _Reply.xattr),
    Opcode.LISTXATTR: ("listxattr", _NODE, _Reply.names),
    Opcode.REMOVEXATTR: ("removexattr", _NAME, _Reply.nothing),
    Opcode.FLUSH: ("flush", _FILE, _Reply.nothing),
    Opcode.OPENDIR: ("opendir", lambda r: (r.node, r.flags), _Reply.open),
    Opcode.RELEASEDIR: ("releasedir", _FILE, _Reply.nothing),
    Opcode.FSYNCDIR: ("fsyncdir", _SYNC, _Reply.nothing),
    Opcode.GETLK: ("getlk", _lock, _Reply.text),
    Opcode.SETLK: ("setlk", lambda r: (*_lock(r), False), _Reply.nothing),
    Opcode.SETLKW: ("setlk", lambda r: (*_lock(r), True), _Reply.nothing),
    Opcode.ACCESS: ("access", lambda r: (r.node, r.more), _Reply.nothing),
    Opcode.CREATE: ("create", lambda r: (*_NAME(r), r.mode, r.flags), _Reply.created),
    Opcode.BMAP: ("bmap", lambda r: (r.node, r.size, r.offset), _Reply.offset),
    Opcode.IOCTL: ("ioctl", lambda r: (r.node, r.more, r.offset, _file(r), r.flags, r.part(r.data), r.size), _Reply.ioctl),
    Opcode.POLL: ("poll", lambda r: (r.node, _file(r), r.more, r.offset if r.flags & 1 else None), _Reply.offset),
    Opcode.FALLOCATE: ("fallocate", lambda r: (r.node, r.mode, r.offset, r.length, _file(r)), _Reply.nothing),
    Opcode.LSEEK: ("lseek", lambda r: (r.node, r.offset, r.more, _file(r)), _Reply.offset),
    Opcode.COPY: ("copy_file_range", _copy, _Reply.count),
    Opcode.COPY_64: ("copy_file_range", _copy, _Reply.count),
    Opcode.SYNCFS: ("syncfs", _NODE, _Reply.nothing),
    Opcode.TMPFILE: ("tmpfile", lambda r: (r.node, r.mode, r.flags), _Reply.created),
    Opcode.STATX: ("statx", lambda r: (r.node, r.flags, r.more, _file_or_none(r)), _Reply.statx),
}
# The methods for opcodes, for messages.
_NAMES = {**{int(it): it.name.lower() for it in Opcode}, **{opcode: it[0] for opcode, it in _METHODS.items()}}


def _error_of(method: str, error: Exception) -> int:
    """Returns the error number for Linux: EIO for an exception without a valid one, which is logged."""
    number = error.errno if isinstance(error, OSError) else None
    if isinstance(error, OSError) and number is None and len(error.args) == 1:  # OSError(number)
        number = error.args[0]
    if isinstance(number, int) and 0 < number <= MAX_ERRNO:
        return number
    _log.error("%s failed without a valid error number", method, exc_info=error)
    return errno.EIO


def _refusal(message: bytes, code: int) -> bytes:
    """Returns the reply to a request that was rejected, or for which there is no memory: an error, because the kernel
    waits for a reply."""
    if len(message) < _HEADER:
        return b""
    _, opcode, unique = struct.unpack_from("IIQ", message)
    _log.warning("rejected request %d with opcode %d: libnizwarf returned %d", unique, opcode, code)
    return b"" if opcode in _WITHOUT_REPLY else _fault(unique, errno.ENOMEM if code == Code.OUT_OF_MEMORY else errno.EIO)


def _fault(unique: int, number: int) -> bytes:
    return struct.pack("IiQ", _HEADER, -number, unique)


class _Server:
    """A file system and its session with one kernel, which any number of threads serve.

    The thread that calls `run` only waits, for a signal or the end of a thread, so that no method keeps it from stopping. If
    the device is owned, it is closed then."""

    def __init__(self, file_system: FileSystem, waker: "_Waker", owned: bool = False) -> None:
        overridden = {it for it in vars(FileSystem) if getattr(type(file_system), it) is not getattr(FileSystem, it)}
        self.file_system, self.device, self.waker, self.owned = file_system, -1, waker, owned
        self.options, self.reading, self.writing = 0, threading.Lock(), threading.Lock()
        self.failures: List[BaseException] = []
        self.unserved = sum(option for option, methods in _NEEDED.items() if not overridden.issuperset(methods))
        self.library = library()
        # Of these the lock is the guard. `stop` is readable once `stopping` is true.
        self.lock, self.working, self.stopping, self.stop = threading.Lock(), 0, False, _Pipe()
        self.requests: Dict[int, Request] = {}
        self.interrupts: Deque[int] = collections.deque(maxlen=_MAX_INTERRUPTS)

    def run(self, device: int, threads: int, unmount: Callable[[], None] = lambda: None) -> None:
        """Serves requests by so many threads until one of them ends, or a signal comes; and then unmounts."""
        self.device, ended = device, False
        try:
            for _ in range(max(threads, 1)):
                self.start()
            while self.working == max(threads, 1) and not ended:
                ended = self.waker.wait()
        finally:
            self.end(unmount)
        if self.failures:
            raise self.failures[0]

    def start(self) -> None:
        """Starts a thread that serves."""
        with self.lock:
            self.working += 1
        try:
            threading.Thread(target=self.work, daemon=True).start()
        except BaseException:
            with self.lock:
                self.working -= 1
            raise

    def end(self, unmount: Callable[[], None]) -> None:
        """Unmounts and closes the device, and then waits for the methods that have not returned, which are interrupted."""
        unmount()
        with self.lock:
            self.stopping, requests = True, list(self.requests)
        self.stop.write()
        if self.owned:
            with self.reading:  # (no thread reads or polls the device after this)
                self.close()
        self.waker.restore()
        try:
            for unique in requests:
                self.interrupt(unique)
            while self.working:
                self.waker.wait()
        finally:  # (also if a second signal is a KeyboardInterrupt)
            self.close()
            self.stop.close()

    def close(self) -> None:
        """Ends all writing to the device. (If it is not owned, it is its owner who closes it.)"""
        with self.writing:
            if self.owned and self.device >= 0:
                os.close(self.device)
            self.device = -1

    def work(self) -> None:
        """Serves requests until the end. The last thread ends the session, if the kernel has not."""
        device, scratch, buffer, poll = self.device, Scratch(), ctypes.create_string_buffer(_BUFFER), select.poll()
        poll.register(device, select.POLLIN)
        poll.register(self.stop.receiving, select.POLLIN)
        try:
            while not self.failures and (message := self.receive(device, poll)):
                if reply := self.serve(scratch, buffer, message):
                    self.send(reply)
        except BaseException as failure:
            self.failures.append(failure)
        finally:
            self.library.nizwarf_scratch_free(byref(scratch))
            with self.lock:
                self.working -= 1
                is_last = not self.working
            if is_last and self.options:
                self.options = 0
                self._quietly("destroy")
            self.waker.write()

    def receive(self, device: int, poll: Any) -> bytes:
        """Returns the next request: none at the end."""
        with self.reading:
            while not self.stopping and self.stop.receiving not in dict(poll.poll()):
                try:
                    return os.read(device, _BUFFER)
                except OSError as error:
                    if error.errno in ENDED:
                        break
                    if error.errno not in (errno.ENOENT, errno.EAGAIN):  # the request was aborted
                        raise
        return b""

    def write(self, message: Any) -> None:
        """Writes a reply or a notice."""
        with self.writing:
            if self.device < 0:
                raise OSError(errno.ENODEV, "the session has ended")
            os.write(self.device, message)

    def begin(self, request: Request) -> bool:
        """Begins a request, which may have been interrupted before. Returns false, if none begins any longer."""
        with self.lock:
            self.requests[request.unique] = request
            if request.unique in self.interrupts:
                self.interrupts.remove(request.unique)
                request._interrupted = True
            return not self.stopping

    def interrupt(self, unique: int) -> None:
        """Interrupts a request that is served, or else keeps the interrupt until it begins."""
        with self.lock:
            request = self.requests.get(unique)
            if request is None:
                self.interrupts.append(unique)
        if request is not None:
            request._interrupt()
        self._quietly("interrupt", unique)

    def send(self, reply: Any) -> None:
        """Sends a reply. If Linux refuses it, the process that waits gets EIO."""
        try:
            self.write(reply)
        except OSError as error:
            if error.errno == errno.EINVAL:
                with contextlib.suppress(OSError):
                    self.write(_fault(struct.unpack_from("IiQ", reply)[2], errno.EIO))
            elif error.errno != errno.ENOENT and error.errno not in ENDED:  # nobody waits for it any longer
                raise

    def serve(self, scratch: Any, buffer: Any, message: bytes) -> Any:
        """Serves one request, and returns its reply, which may be empty. It is in the buffer."""
        request, result, session = Request(), Result(), Session(self.options, 4096, _PAYLOAD)
        sent, place = Iovec(ctypes.cast(message, ctypes.c_void_p), len(message)), Iovec(ctypes.addressof(buffer), _BUFFER)
        code = self.library.nizwarf_decode(byref(scratch), byref(session), _FEATURES, byref(sent), 1, byref(place), 1,
                                        byref(request), byref(result))
        if result.interrupts:
            self.interrupt(result.interrupts)
        if code == Code.CALL:
            request.message, reply = message, _Reply(request)
            try:
                if not self.begin(request):
                    return b""
                self._call(reply)
            except Exception as error:
                reply.answer.error = _error_of(_NAMES.get(request.opcode, f"opcode {request.opcode}"), error)
                if request.opcode == Opcode.INIT:  # (it is raised from `mount`)
                    self.failures.append(error)
            finally:
                with self.lock:
                    self.requests.pop(request.unique, None)
            entries = (Dirent * len(reply.entries))(*reply.entries)
            reply.answer.items, reply.answer.items_len = ctypes.addressof(entries), len(entries)
            code = self.library.nizwarf_encode(byref(scratch), byref(session), byref(request), byref(reply.answer), byref(place),
                                            1, byref(result))
            self._finish(reply, code, result)
            if request.opcode == Opcode.INIT and code != Code.OK:
                self.failures.append(ValueError("libnizwarf refused the parameters of `init`"))
            # (the library writes all but the data of a READ)
            ctypes.memmove(place.iov_base + result.written, reply.data, result.len - result.written)
        return memoryview(buffer)[:result.len] if code == Code.OK else _refusal(message, code)

    def _call(self, reply: _Reply) -> None:
        """Calls the method for a request."""
        request = reply.request
        if request.opcode == Opcode.INIT:
            return self._init(reply)
        if request.opcode == Opcode.DESTROY:
            return self.file_system.destroy()
        if request.opcode == Opcode.READDIR:
            return self._list(reply)
        if request.opcode == Opcode.BATCH_FORGET:
            for node, count in struct.iter_unpack("QQ", request.part(request.data)):
                self._quietly("forget", request, node, count)
            return None
        if request.opcode not in _METHODS:
            raise OSError(errno.ENOSYS, "unknown opcode")
        method, arguments, fill_in = _METHODS[request.opcode]
        if method == "setlk" and request.has & Has.LK_FLOCK:
            method, arguments = "flock", _flock
        return fill_in(reply, getattr(self.file_system, method)(request, *arguments(request)))

    def _init(self, reply: _Reply) -> None:
        """Negotiates options: those that are wanted, that the kernel supports, and that are served."""
        request, connection, extension = reply.request, Connection(), reply.request.other_offset
        connection.capable, connection.device = Option(request.length | extension), self.device
        connection._write = self.write
        connection.want = connection.capable & _DEFAULT
        self.file_system.init(connection)
        connection.want &= connection.capable & ~self.unserved
        if connection.want >> 32:
            connection.want |= request.length & Option.INIT_EXT
        # (the library enables some options that are not wanted, unless the kernel seems not to support them)
        request.length &= connection.want
        reply.answer.count, connection.want = request.length, connection.want & extension
        reply.connection, reply.answer.init_params = connection, ctypes.addressof(connection)

    def _list(self, reply: _Reply) -> None:
        """Lists a directory: entries until one does not fit, or until there are no more."""
        request = reply.request
        left, plus = min(request.size, request.reply_size - _HEADER), bool(request.has & Has.PLUS)
        for name, offset, ino, kind in self.file_system.readdir(request, request.node, request.offset, _file(request)):
            if not name or b"\0" in name:
                raise ValueError(f"invalid name {name!r}")
            left -= self.library.nizwarf_record_size(len(name) + 1, plus)
            if left < 0:
                break
            entry = Dirent(ino, offset, name, len(name) + 1, type=kind >> 12)
            if plus and name not in (b".", b".."):
                # (without an entry the kernel looks the name up when it needs it)
                with contextlib.suppress(OSError):
                    entry.entry = _record(self.file_system.lookup(request, request.node, name))
            reply.entries.append(entry)

    def _finish(self, reply: _Reply, code: int, result: Any) -> None:
        """Does what a reply entails: handles and lookups that the kernel does not get are released and forgotten."""
        request, opened = reply.request, reply.opened if not reply.answer.error else None
        if opened and code != Code.OK:
            method = "releasedir" if request.opcode == Opcode.OPENDIR else "release"
            node = reply.answer.entry.node if request.opcode in (Opcode.CREATE, Opcode.TMPFILE) else request.node
            self._quietly(method, request, node, OpenFile(opened.handle, request.flags))
        for lost in (result.forget, *(it.entry.node for it in reply.entries[result.entries:])):
            if lost:
                self._quietly("forget", request, lost, 1)
        if request.opcode in (Opcode.INIT, Opcode.DESTROY):
            self.options = result.options

    def _quietly(self, method: str, *arguments: Any) -> None:
        """Calls a method whose failure has no reply, and is logged instead."""
        try:
            getattr(self.file_system, method)(*arguments)
        except Exception as error:
            _log.error("%s failed", method, exc_info=error)


class _Pipe:
    """A pipe that wakes threads that wait for it. Once it is closed, nothing is written to it."""

    def __init__(self) -> None:
        self.receiving, self.sending = os.pipe2(os.O_CLOEXEC | os.O_NONBLOCK)
        self._lock = threading.Lock()

    def write(self) -> None:
        with self._lock, contextlib.suppress(BlockingIOError):  # (a pipe that is full is readable)
            if self.sending >= 0:
                os.write(self.sending, b"\0")

    def close(self) -> None:
        with self._lock:
            os.close(self.receiving)
            os.close(self.sending)
            self.sending = -1


class _Waker(_Pipe):
    """Wakes the thread that serves by others: when one of them writes, and, if this is the main thread, at each signal.

    A signal may come to any thread, and Python calls its handler in the main thread only, and not before that is woken. So
    the number of each signal is written to the pipe by `signal.set_wakeup_fd`. SIGINT and SIGTERM do nothing else until
    `restore`; those that are ignored stay so."""

    def __enter__(self) -> "_Waker":
        self._handlers: Dict[int, Any] = {}
        self._is_main = threading.current_thread() is threading.main_thread()
        if self._is_main:
            self._former = signal.set_wakeup_fd(self.sending, warn_on_full_buffer=False)
            for it in (signal.SIGINT, signal.SIGTERM):
                if signal.getsignal(it) != signal.SIG_IGN:
                    self._handlers[it] = signal.signal(it, lambda *_: None) or signal.SIG_DFL
        return self

    def wait(self) -> bool:
        """Waits, and returns whether SIGINT or SIGTERM came, which have their former effect after `restore`."""
        poll = select.poll()
        poll.register(self.receiving, select.POLLIN)
        poll.poll()
        return not self._handlers.keys().isdisjoint(os.read(self.receiving, select.PIPE_BUF))

    def restore(self) -> None:
        while self._handlers:
            signal.signal(*self._handlers.popitem())

    def __exit__(self, *_: Any) -> None:
        self.restore()
        if self._is_main:
            signal.set_wakeup_fd(self._former)
        self.close()


def serve(file_system: FileSystem, device: int, *, threads: int = 1) -> None:
    """Serves the requests that come by a descriptor, each as one read, until its other end is closed; or, if this is the
    main thread, until SIGINT or SIGTERM. So many other threads call the methods. At the end it interrupts the methods that
    have not returned, and waits for them. It raises the exception that `init` raises."""
    with _Waker() as waker:
        _Server(file_system, waker).run(device, threads)


def mount(file_system: FileSystem, mountpoint: "os.PathLike[str] | str", *, name: str = "nizwarf", read_only: bool = False,
          allow_other: bool = False, default_permissions: bool = True, threads: int = 1) -> None:
    """Mounts a file system, and serves it until it is unmounted; or, if this is the main thread, until SIGINT or SIGTERM,
    which unmount it. So many other threads call the methods. At the end it interrupts the methods that have not returned, and
    waits for them, without the mount. It raises the exception that `init` raises, and nothing is mounted then.

    `name` is the source that mount(8) lists. With `default_permissions` the kernel checks permissions, and with
    `allow_other` other users may use the mount; for users other than root, /etc/fuse.conf must allow this. Without the
    permission for mount(2) it requires the program fusermount3."""
    # (the program may change its folder)
    path, options = os.path.join(os.getcwd(), os.fspath(mountpoint)), ["default_permissions"] * default_permissions
    options += ["allow_other"] * allow_other
    with _Waker() as waker:
        # (it loads the library before the mount, which nobody would serve without it)
        server = _Server(file_system, waker, owned=True)
        try:
            device, unmount = _mount_directly(path, name, read_only, options)
        except PermissionError:
            if not shutil.which("fusermount3"):
                raise
            device, unmount = _mount_by_program(path, name, read_only, options)
        server.run(device, threads, lambda: _unmount(device, unmount))


def _mount_directly(path: str, name: str, read_only: bool, options: List[str]) -> Tuple[int, Callable[[], Any]]:
    """Mounts by mount(2). Returns the descriptor of the device, and what unmounts."""
    libc, file_type = ctypes.CDLL(None, use_errno=True), stat.S_IFMT(os.stat(path).st_mode)
    device = os.open("/dev/fuse", os.O_RDWR | os.O_NONBLOCK | os.O_CLOEXEC)
    options = [f"fd={device},rootmode={file_type:o},user_id={os.getuid()},group_id={os.getgid()}", *options]
    flags = _MS_NOSUID | _MS_NODEV | (_MS_RDONLY if read_only else 0)
    if libc.mount(os.fsencode(name), os.fsencode(path), os.fsencode(f"fuse.{name}"), flags, ",".join(options).encode()):
        os.close(device)
        raise OSError(ctypes.get_errno(), os.strerror(ctypes.get_errno()), path)
    return device, lambda: libc.umount2(os.fsencode(path), _MNT_DETACH)


def _mount_by_program(path: str, name: str, read_only: bool, options: List[str]) -> Tuple[int, Callable[[], Any]]:
    """Mounts by fusermount3, which sends the descriptor of the device over a socket."""
    name = name.replace("\\", "\\\\").replace(",", "\\,")  # (a comma ends an option)
    options = [f"fsname={name}", f"subtype={name}", *options, *["ro"] * read_only]
    ours, theirs = socket.socketpair()
    with ours:
        with theirs:
            done = subprocess.run(["fusermount3", "-o", ",".join(options), "--", path], stderr=subprocess.PIPE, check=False,
                                  pass_fds=[theirs.fileno()], env={**os.environ, "_FUSE_COMMFD": str(theirs.fileno())})
        _, devices, *_ = socket.recv_fds(ours, 1, 1, socket.MSG_CMSG_CLOEXEC)
    if done.returncode or not devices:
        message = os.fsdecode(done.stderr).strip() or "fusermount3 sent no descriptor"
        raise OSError(errno.EPERM, message, path)
    os.set_blocking(devices[0], False)
    return devices[0], lambda: subprocess.run(["fusermount3", "-u", "-q", "-z", "--", path], check=False)


def _unmount(device: int, unmount: Callable[[], Any]) -> None:
    """Unmounts, if it is still mounted. The name is gone at once; then the kernel may write data that it has cached, which
    other threads serve. This waits for that, but not for long, because methods may wait, too."""
    poll = select.poll()
    poll.register(device, select.POLLIN)
    if any(event & select.POLLERR for _, event in poll.poll(0)):
        return
    thread = threading.Thread(target=unmount, daemon=True)
    try:
        thread.start()
    except RuntimeError:
        unmount()
    else:
        thread.join(_PATIENCE)
