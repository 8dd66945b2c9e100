"""What this package uses of libnizwarf: its structs, numbers and functions, as nizwarf.h declares them.

No other module has names of C. A struct's fields are its annotations, in the header's order; tools/dev/numbers.py of the
sources compares them, and all numbers here, with the header.
"""
import ctypes
import enum
import errno
import functools
import os
import threading
from ctypes import Structure, c_int32, c_uint16, c_uint32, c_uint64
from typing import Any, Callable, Dict, Optional, Type, TypeVar

# The types of fields, and those of arguments.
U16, U32, U64, I32, I64, SIZE = c_uint16, c_uint32, c_uint64, c_int32, ctypes.c_int64, ctypes.c_size_t
BYTES, POINTER = ctypes.c_char_p, ctypes.c_void_p
# The least and the greatest value of the integers.
_LIMITS = {U16: (0, (1 << 16) - 1), U32: (0, (1 << 32) - 1), U64: (0, (1 << 64) - 1), I32: (-1 << 31, (1 << 31) - 1),
           I64: (-1 << 63, (1 << 63) - 1)}
# The functions, with the types of their results and arguments.
_FUNCTIONS = {
    "nizwarf_decode": (I32, [POINTER, POINTER, U32, POINTER, SIZE, POINTER, SIZE, POINTER, POINTER]),
    "nizwarf_encode": (I32, [POINTER, POINTER, POINTER, POINTER, POINTER, SIZE, POINTER]),
    "nizwarf_scratch_free": (I32, [POINTER]),
    "nizwarf_record_size": (SIZE, [SIZE, ctypes.c_int]),
    "nizwarf_notice_poll": (SIZE, [U64, POINTER, SIZE]),
}


class Code(enum.IntEnum):
    """The codes that are distinguished here. Any other code rejects the request."""

    OK = 0
    OUT_OF_MEMORY = 10
    CALL = 15


Opcode = enum.IntEnum("Opcode", {
    "LOOKUP": 1, "FORGET": 2, "GETATTR": 3, "SETATTR": 4, "READLINK": 5, "SYMLINK": 6, "MKNOD": 8, "MKDIR": 9,
    "UNLINK": 10, "RMDIR": 11, "RENAME": 12, "LINK": 13, "OPEN": 14, "READ": 15, "WRITE": 16, "STATFS": 17,
    "RELEASE": 18, "FSYNC": 20, "SETXATTR": 21, "GETXATTR": 22, "LISTXATTR": 23, "REMOVEXATTR": 24, "FLUSH": 25,
    "INIT": 26, "OPENDIR": 27, "READDIR": 28, "RELEASEDIR": 29, "FSYNCDIR": 30, "GETLK": 31, "SETLK": 32, "SETLKW": 33,
    "ACCESS": 34, "CREATE": 35, "BMAP": 37, "DESTROY": 38, "IOCTL": 39, "POLL": 40, "NOTIFY_REPLY": 41,
    "BATCH_FORGET": 42, "FALLOCATE": 43, "LSEEK": 46, "COPY": 47, "SYNCFS": 50, "TMPFILE": 51, "STATX": 52, "COPY_64": 53})
# The bits of these four begin with 1.
Feature = enum.IntFlag("Feature", "LOCKS BMAP IOCTL POLL STATX COPY_64 TMPFILE NOTIFY_REPLY INIT")
Has = enum.IntFlag("Has", (
    "HANDLE OWNER CONTEXT GROUP KILL_SUIDGID WRITE_CACHE FSYNC_FDATASYNC RELEASE_FLUSH RELEASE_FLOCK_UNLOCK PLUS LK_FLOCK"))
Option = enum.IntFlag("Option", (
    "ASYNC_READ POSIX_LOCKS FILE_OPS ATOMIC_O_TRUNC EXPORT_SUPPORT BIG_WRITES DONT_MASK SPLICE_WRITE SPLICE_MOVE "
    "SPLICE_READ FLOCK_LOCKS HAS_IOCTL_DIR AUTO_INVAL_DATA DO_READDIRPLUS READDIRPLUS_AUTO ASYNC_DIO WRITEBACK_CACHE "
    "NO_OPEN_SUPPORT PARALLEL_DIROPS HANDLE_KILLPRIV POSIX_ACL ABORT_ERROR MAX_PAGES CACHE_SYMLINKS NO_OPENDIR_SUPPORT "
    "EXPLICIT_INVAL_DATA MAP_ALIGNMENT SUBMOUNTS HANDLE_KILLPRIV_V2 SETXATTR_EXT INIT_EXT INIT_RESERVED SECURITY_CTX "
    "HAS_INODE_DAX CREATE_SUPP_GROUP HAS_EXPIRE_ONLY DIRECT_IO_ALLOW_MMAP PASSTHROUGH NO_EXPORT_SUPPORT HAS_RESEND "
    "ALLOW_IDMAP OVER_IO_URING REQUEST_TIMEOUT"))
ToSet = enum.IntFlag("ToSet", "MODE UID GID SIZE ATIME MTIME FH ATIME_NOW MTIME_NOW LOCKOWNER CTIME KILL_SUIDGID")
MAX_ERRNO = 511
# The end of the connection: it was unmounted, or the other end of a socket is closed.
ENDED = (errno.ENODEV, errno.ECONNABORTED, errno.ECONNRESET, errno.EPIPE)
Has.__doc__ = """What a request has: bits of `Request.has`.

HANDLE: it names an open file. OWNER: `lock_owner` is set. CONTEXT: a new node must get the security attribute whose name and
value are `request.part(request.context_name)` and `request.part(request.context)`. GROUP: `group` is a supplementary group of
the process, which a new node may inherit. KILL_SUIDGID: the set-user-ID and set-group-ID bits of the file must be cleared.
WRITE_CACHE: the kernel writes data that it cached, perhaps for another process. FSYNC_FDATASYNC: only data must be written to
storage. RELEASE_FLUSH: the release must do the work of `flush`, too. RELEASE_FLOCK_UNLOCK: the release must end the lock that
`flock` set. PLUS: entries of a directory have attributes. LK_FLOCK: the lock is one of flock(2)."""
Option.__doc__ = """The options of the kernel that `FileSystem.init` may enable: bits of `Connection.want`, with the names and
meanings of FUSE_ASYNC_READ and others in linux/fuse.h."""
ToSet.__doc__ = """The attributes that `setattr` must set.

ATIME_NOW comes with ATIME, and MTIME_NOW with MTIME: the time is then the present, and not that of the request. KILL_SUIDGID:
the set-user-ID and set-group-ID bits must be cleared. FH says that the request names an open file, and LOCKOWNER that it has
the owner of locks; a file system may ignore both."""


class Struct(Structure):
    """A struct, whose fields are arguments: an unknown one is a TypeError, a number that a field cannot have an
    OverflowError. (ctypes accepts both.) Fields that begin with `_` are not for users."""

    def __init__(self, *values: Any, **named: Any) -> None:
        fields = dict(self._fields_)  # type: ignore[arg-type]
        for name, value in (*zip(fields, values), *named.items()):
            if name not in fields:
                raise TypeError(f"{type(self).__name__} has no field {name!r}")
            least, greatest = _LIMITS.get(fields[name], (None, None))
            if least is not None and not least <= value <= greatest:
                raise OverflowError(f"{type(self).__name__}.{name} cannot be {value}")
        super().__init__(*values, **named)

    def __repr__(self) -> str:
        fields = [(name, getattr(self, name)) for name, *_ in self._fields_ if not name.startswith("_")]
        return f"{type(self).__name__}({', '.join(f'{name}={value!r}' for name, value in fields if value)})"

    def __eq__(self, other: object) -> bool:
        return type(other) is type(self) and bytes(self) == bytes(other)  # type: ignore[call-overload]


# The structs of the header, by their names there.
STRUCTS: Dict[str, Type[Struct]] = {}
S = TypeVar("S", bound=Type[Struct])


def struct(c_name: str, *fields: Any) -> Callable[[S], S]:
    """Declares a struct of the header, whose fields are types, each followed by the names that have it."""
    def declare(kind: S) -> S:
        kind._fields_ = [(name, of) for of, names in zip(fields[::2], fields[1::2]) for name in names.split()]
        STRUCTS[c_name] = kind
        return kind
    return declare


def plain(c_name: str, *fields: Any) -> Any:
    """Declares a struct without a class of its own."""
    return struct(c_name, *fields)(type(c_name, (Struct,), {}))


Iovec = plain("struct iovec", POINTER, "iov_base", SIZE, "iov_len")
Session = plain("nizwarf_session", U64, "options", U32, "page_size max_buffer")
Scratch = plain("nizwarf_scratch", POINTER, "at")
Result = plain("nizwarf_result", U64, "len written options forget entries interrupts")
Range = plain("nizwarf_range", U64, "at len")


@struct("nizwarf_setattr", U32, "_valid _padding", U64, "_fh size _lock_owner", I64, "atime mtime ctime",
        U32, "atimensec mtimensec ctimensec mode _unused4 uid gid _unused5")
class SetAttr(Struct):
    """The attributes to set, of which `to_set` says which are valid. `atime`, `mtime` and `ctime` are seconds since 1970, and
    may be negative; `atimensec` and so on are their nanoseconds. With ToSet.ATIME_NOW the access time is the present,
    whatever `atime` is, and with MTIME_NOW the modification time."""


@struct("nizwarf_call", U64, "unique options reply_size node handle offset length lock_owner",
        U64, "other_node other_handle other_offset", Range, "name other_name data context_name context", SetAttr, "attr",
        U32, "opcode reply has uid gid", I32, "pid", U32, "flags mode umask rdev size more group readahead")
class Request(Struct):
    """A decoded request.

    `uid`, `gid`, `pid`: the user, group and number of the process that waits for the reply
    `umask`: its umask, for a request that creates a node
    `unique`: the number of the request, which no other one has during the session
    `has`: bits of `Has`
    `group`: a supplementary group of the process, with Has.GROUP

    A method gets the values of other fields as its arguments."""

    # The bytes of the request.
    message = b""
    _interrupted = False
    _condition: Optional[threading.Condition] = None
    # Two requests are never equal, so that they may be in a set.
    __eq__, __hash__ = object.__eq__, object.__hash__

    def part(self, range: Any) -> bytes:
        """Returns the bytes of a range. Of interest to methods are `context_name` and `context`, the name and value of a
        security attribute that a new node must get, if CONTEXT is among `has`."""
        return self.message[range.at:range.at + range.len]

    def interrupted(self) -> bool:
        """Returns whether a signal came for the process that waits, or the session has ended. The method should then raise
        EINTR soon. (With one thread only the end of the session is noticed.)"""
        return self._interrupted

    def wait(self, condition: threading.Condition, timeout: Optional[float] = None) -> bool:
        """Waits for a condition, as `condition.wait(timeout)` does, whose lock must be held; but raises OSError with EINTR if
        the request is or becomes interrupted. To wake all threads that wait, `condition.notify_all` is called then."""
        self._condition = condition  # (before the check: `interrupt` notifies it after it has set the other one)
        try:
            notified = not self._interrupted and condition.wait(timeout)
        finally:
            self._condition = None
        if self._interrupted:
            raise OSError(errno.EINTR, os.strerror(errno.EINTR))
        return notified

    def _interrupt(self) -> None:
        self._interrupted = True
        condition = self._condition
        if condition is not None:
            with condition:
                condition.notify_all()


@struct("nizwarf_attr", U64, "ino size blocks", I64, "atime mtime ctime",
        U32, "atimensec mtimensec ctimensec mode nlink uid gid rdev blksize flags")
class Attr(Struct):
    """The attributes of a node. Those that are not given are 0. `mode` has the file type and the permissions. `atime`, `mtime`
    and `ctime` are seconds since 1970, and may be negative; `atimensec` and so on are their nanoseconds."""

    @classmethod
    def of_stat(cls, st: os.stat_result) -> "Attr":
        """Returns the attributes that os.stat returned."""
        times = {f"{it}{unit}": value for it in ("atime", "mtime", "ctime")
                 for unit, value in zip(("", "nsec"), divmod(getattr(st, f"st_{it}_ns"), 10**9))}
        return cls(st.st_ino, st.st_size, st.st_blocks, mode=st.st_mode, nlink=st.st_nlink, uid=st.st_uid, gid=st.st_gid,
                   rdev=st.st_rdev, blksize=st.st_blksize, **times)


@struct("nizwarf_statfs", U64, "bsize frsize blocks bfree bavail files ffree namemax")
class Statfs(Struct):
    """The size and the free space of a file system, as statvfs(3) has them."""


EntryRecord = plain("nizwarf_entry", U64, "node generation entry_seconds attr_seconds",
                    U32, "entry_nanoseconds attr_nanoseconds", Attr, "attr")
Dirent = plain("nizwarf_dirent", U64, "ino offset", BYTES, "name", SIZE, "name_size", EntryRecord, "entry", U32, "type",
               I32, "error")
Answer = plain("nizwarf_answer", I32, "error", U32, "has_handle", U64, "handle count", U32, "open_flags has_count",
               EntryRecord, "entry", Statfs, "statfs", BYTES, "text", SIZE, "text_len", POINTER, "items", SIZE, "items_len",
               POINTER, "init_params")
IoctlResult = plain("nizwarf_ioctl", I32, "result", U32, "flags in_iovs out_iovs")
# The result of statx(2). `mask` says which fields are filled in.
StatxTime = plain("nizwarf_sx_time", I64, "tv_sec", U32, "tv_nsec", I32, "reserved")
Statx = plain("nizwarf_statx", U64, "attr_seconds", U32, "attr_nanoseconds out_flags", U64 * 2, "spare",
              U32, "mask blksize", U64, "attributes", U32, "nlink uid gid", U16, "mode", U16 * 1, "spare0",
              U64, "ino size blocks attributes_mask", StatxTime, "atime btime ctime mtime",
              U32, "rdev_major rdev_minor dev_major dev_minor", U64 * 14, "spare2")


@struct("nizwarf_lock", U64, "start end", U32, "type pid")
class Lock(Struct):
    """A lock of the bytes from `start` to `end`. `end` is the last byte, 2^63-1 if the lock has no end. `type` is
    fcntl.F_RDLCK, F_WRLCK or F_UNLCK, and `pid` the process that has it."""


@struct("nizwarf_init_params", U64, "_want", U32, "max_readahead max_write time_gran max_stack_depth request_timeout",
        U16, "max_background congestion_threshold", U64, "_padding")
class Connection(Struct):
    """The parameters that the kernel and the file system negotiate. `capable` are the options that the kernel supports,
    `want` those that are enabled: bits of `Option`. `FileSystem.init` may change `want` and the other fields, in which 0
    stands for the default. `device` is the descriptor of /dev/fuse."""

    capable = Option(0)
    device = -1
    _write: Callable[[bytes], None]

    @property
    def want(self) -> Option:
        return Option(self._want)

    @want.setter
    def want(self, options: int) -> None:
        self._want = Connection(options)._want

    def wake(self, poll_handle: int) -> None:
        """Makes the processes that wait for a file poll it again: those for which `FileSystem.poll` got this `poll_handle`.
        Any thread may call it, and nothing happens if nobody waits any longer or the session has ended. Any other failure
        is a RuntimeError, which is logged if a method does not catch it, because it is no error of the method's request."""
        notice = ctypes.create_string_buffer(48)
        size = library().nizwarf_notice_poll(poll_handle, notice, len(notice))
        try:
            self._write(notice.raw[:size])
        except OSError as error:
            if error.errno not in (errno.ENOENT, *ENDED):
                raise RuntimeError(f"the notice for {poll_handle} was not sent: {error}") from error


@functools.lru_cache(maxsize=None)
def library() -> Any:
    """Returns the library. It is the file that the environment variable NIZWARF_LIB names, or the installed one."""
    loaded = ctypes.CDLL(os.environ.get("NIZWARF_LIB") or "libnizwarf.so.1")
    for name, (result, arguments) in _FUNCTIONS.items():
        function = getattr(loaded, name)
        function.restype, function.argtypes = result, arguments
    return loaded
