"""The class whose methods a file system overrides, and the values that these take and return."""
import enum
import errno
import functools
from typing import Any, Iterable, NamedTuple, Optional, Tuple

from ._library import Attr, Connection, Lock, Request, SetAttr, Statfs

OpenFlag = enum.IntFlag("OpenFlag", "DIRECT_IO KEEP_CACHE NONSEEKABLE CACHE_DIR STREAM NOFLUSH PARALLEL_DIRECT_WRITES")
OpenFlag.__doc__ = """How the kernel uses an open file: bits of `Opened.flags`.

DIRECT_IO: nothing is cached, so that each read(2) and write(2) calls a method. KEEP_CACHE: the cached data of the file stay
valid. NONSEEKABLE: lseek(2) fails. CACHE_DIR: the kernel caches the listing of the directory. STREAM: the file has no offset,
as a pipe. NOFLUSH: closing a descriptor does not call `flush`. PARALLEL_DIRECT_WRITES: with DIRECT_IO the kernel need not wait
for one write before the next."""
RenameFlag = enum.IntFlag("RenameFlag", "NOREPLACE EXCHANGE WHITEOUT")
RenameFlag.__doc__ = """The flags of renameat2(2).

NOREPLACE: fail with EEXIST if the new name exists. EXCHANGE: exchange the two names, both of which must exist. WHITEOUT: leave
a whiteout, a device with the number 0, at the old name. A file system must fail with EINVAL for flags that it does not
support."""


class Entry(NamedTuple):
    """A name in a directory: the number of its node, and the node's attributes. The kernel caches the name for
    `entry_timeout` seconds, and the attributes for `attr_timeout` seconds. An entry counts as one lookup of its node until
    `forget`. If `node` is 0, there is no such name, and the kernel caches that."""

    node: int
    attr: Attr
    entry_timeout: float = 0.0
    attr_timeout: float = 0.0
    generation: int = 0


class DirectoryEntry(NamedTuple):
    """An entry in the listing of a directory. `offset` is where a listing goes on after it, and must not be 0; `type` is
    that of the mode, as in stat.S_IFDIR, or 0 if it is not known."""

    name: bytes
    offset: int
    ino: int
    type: int = 0


class OpenFile(NamedTuple):
    """An open file or directory: the handle that `open` returned, the flags of open(2), and the owner of locks. A field that
    the request lacks is 0."""

    handle: int
    flags: int = 0
    lock_owner: int = 0


class Opened(NamedTuple):
    """The result of opening a file: a handle of your choice, bits of `OpenFlag`, and, if PASSTHROUGH is enabled, the number
    that the ioctl FUSE_DEV_IOC_BACKING_OPEN returned, or 0."""

    handle: int = 0
    flags: int = 0
    backing_id: int = 0


class FileSystem:
    """A file system: override the methods that your file system supports.

    Names and meanings are those of libfuse's low-level interface. Nodes are numbers of your choice, of which 1 is the root;
    names are bytes without a slash. A method fails by raising OSError with a number, as in `raise OSError(errno.ENOENT)`.
    Any other exception, and a result that Linux would refuse, is logged, and is EIO for the process that waits. A method
    that is not overridden fails with ENOSYS, but `init`, `destroy`, `open`, `release`, `opendir`, `releasedir`, `statfs`,
    `forget` and `interrupt` succeed. With one thread, which is the default of `mount`, no two methods run at once, except
    that another thread calls `interrupt` at the end of the session.
    """

    def init(self, connection: Connection) -> None:
        """Begins the session. It may change `connection.want`: for instance, `connection.want |= Option.ATOMIC_O_TRUNC` lets
        `open` truncate, where otherwise `setattr` is called. An option is not enabled if it needs a method that is not
        overridden. An exception ends the session: `mount` unmounts, and raises it."""

    def destroy(self) -> None:
        """Ends the session. The kernel has no lookup and no open file from then on."""

    def lookup(self, request: Request, parent: int, name: bytes) -> Entry:
        """Returns the entry of a name in a directory."""

    def forget(self, request: Request, node: int, count: int) -> None:
        """Lowers the lookup count of a node by `count`. At 0 the kernel no longer uses the number."""

    def interrupt(self, unique: int) -> None:
        """A signal came for the process that waits for the request with this `request.unique`. The method should soon raise
        EINTR; the process waits until then. It may come before the method begins or after it ends, and another thread calls
        it. At the end of the session it is called for each request whose method has not returned.

        Most file systems need not override it, because `request.interrupted` and `request.wait` know of interrupts, even of
        those that come early. With one thread only the end of the session interrupts."""

    def getattr(self, request: Request, node: int, file: Optional[OpenFile]) -> Tuple[Attr, float]:
        """Returns the attributes of a node, and for how many seconds the kernel may cache them."""

    def setattr(self, request: Request, node: int, attr: SetAttr, to_set: int,
                file: Optional[OpenFile]) -> Tuple[Attr, float]:
        """Sets the attributes whose bits of `ToSet` are in `to_set`, and returns all as `getattr` does."""

    def readlink(self, request: Request, node: int) -> bytes:
        """Returns the target of a symbolic link, at most 4095 bytes."""

    def mknod(self, request: Request, parent: int, name: bytes, mode: int, rdev: int) -> Entry:
        """Creates a file without opening it, or a special file. `mode` has the file type and the permissions. The kernel has
        applied the umask, unless `init` enables DONT_MASK; the method must then apply `request.umask`. `rdev` is the number
        of a device, as os.makedev returns it."""

    def mkdir(self, request: Request, parent: int, name: bytes, mode: int) -> Entry:
        """Creates a directory. `mode` has the permissions without the file type; the umask is handled as in `mknod`."""

    def unlink(self, request: Request, parent: int, name: bytes) -> None:
        """Removes a file. Its node is valid until it is forgotten."""

    def rmdir(self, request: Request, parent: int, name: bytes) -> None:
        """Removes an empty directory."""

    def symlink(self, request: Request, target: bytes, parent: int, name: bytes) -> Entry:
        """Creates a symbolic link."""

    def rename(self, request: Request, parent: int, name: bytes, new_parent: int, new_name: bytes, flags: int) -> None:
        """Renames a file or a directory. `flags` are bits of `RenameFlag`."""

    def link(self, request: Request, node: int, new_parent: int, new_name: bytes) -> Entry:
        """Gives a node another name."""

    def open(self, request: Request, node: int, flags: int) -> Opened:
        """Opens a file with the flags of open(2). Without ATOMIC_O_TRUNC it does not truncate."""
        return Opened()

    def read(self, request: Request, node: int, size: int, offset: int, file: OpenFile) -> bytes:
        """Returns at most `size` bytes, and fewer only at the end of the file."""

    def write(self, request: Request, node: int, data: bytes, offset: int, file: OpenFile) -> int:
        """Writes data, and returns how many bytes were written."""

    def flush(self, request: Request, node: int, file: OpenFile) -> None:
        """A process closes one of its descriptors of the file. If POSIX_LOCKS is enabled, this method must end the locks of
        `file.lock_owner`."""

    def release(self, request: Request, node: int, file: OpenFile) -> None:
        """The last descriptor of the file is closed, or the kernel did not get the handle. If `Has.RELEASE_FLOCK_UNLOCK` is in
        `request.has`, it must end the lock of `file.lock_owner` that `flock` set."""

    def fsync(self, request: Request, node: int, datasync: bool, file: OpenFile) -> None:
        """Writes the file to storage, with `datasync` only its data."""

    def opendir(self, request: Request, node: int, flags: int) -> Opened:
        """Opens a directory."""
        return Opened()

    def readdir(self, request: Request, node: int, offset: int, file: OpenFile) -> Iterable[DirectoryEntry]:
        """Lists a directory: from its beginning if `offset` is 0, or else after the entry with this offset. Entries are
        taken until one does not fit. If `init` enables DO_READDIRPLUS, `lookup` is called for each but `.` and `..`."""

    def releasedir(self, request: Request, node: int, file: OpenFile) -> None:
        """Closes a directory."""

    def fsyncdir(self, request: Request, node: int, datasync: bool, file: OpenFile) -> None:
        """Writes a directory to storage."""

    def statfs(self, request: Request, node: int) -> Statfs:
        """Returns the size and the free space. By default the kernel gets only that names have at most 255 bytes."""
        return Statfs(namemax=255, bsize=512, frsize=512)

    def setxattr(self, request: Request, node: int, name: bytes, value: bytes, flags: int) -> None:
        """Sets an extended attribute. `flags` are those of setxattr(2)."""

    def getxattr(self, request: Request, node: int, name: bytes) -> bytes:
        """Returns the value of an extended attribute, or fails with ENODATA."""

    def listxattr(self, request: Request, node: int) -> Iterable[bytes]:
        """Returns the names of the extended attributes, without a zero byte at the end."""

    def removexattr(self, request: Request, node: int, name: bytes) -> None:
        """Removes an extended attribute."""

    def access(self, request: Request, node: int, mask: int) -> None:
        """Checks access(2). It is not called on a mount with default_permissions."""

    def create(self, request: Request, parent: int, name: bytes, mode: int, flags: int) -> Tuple[Entry, Opened]:
        """Creates and opens a file. `mode` has the file type and the permissions; the umask is handled as in `mknod`."""

    def fallocate(self, request: Request, node: int, mode: int, offset: int, length: int, file: OpenFile) -> None:
        """Reserves or frees space, as fallocate(2)."""

    def lseek(self, request: Request, node: int, offset: int, whence: int, file: OpenFile) -> int:
        """Returns the place of the next data or hole: `whence` is os.SEEK_DATA or os.SEEK_HOLE."""

    def copy_file_range(self, request: Request, node: int, offset: int, file: OpenFile, out_node: int, out_offset: int,
                        out_file: OpenFile, size: int, flags: int) -> int:
        """Copies bytes from one file to another, and returns how many."""

    def syncfs(self, request: Request, node: int) -> None:
        """Writes the file system to storage."""

    def getlk(self, request: Request, node: int, file: OpenFile, lock: Lock) -> Lock:
        """Returns a lock that conflicts with this one of `file.lock_owner`, or one of type F_UNLCK. This method and `setlk`
        are called if `init` enables POSIX_LOCKS, which needs `flush`, too; otherwise Linux keeps the locks."""

    def setlk(self, request: Request, node: int, file: OpenFile, lock: Lock, sleep: bool) -> None:
        """Sets a lock, or ends it if its type is F_UNLCK. Its owner is `file.lock_owner`. If another owner has a lock that
        conflicts, the method must raise EAGAIN, or, with `sleep`, wait as `request.wait` does. To wait, the mount needs
        several threads."""

    def flock(self, request: Request, node: int, file: OpenFile, operation: int) -> None:
        """Sets or ends a lock of flock(2), by fcntl.LOCK_SH, LOCK_EX or LOCK_UN. Its owner is `file.lock_owner`. If another
        owner has a lock that conflicts, the method must wait as in `setlk`, or, with LOCK_NB, raise EAGAIN. It is called if
        `init` enables FLOCK_LOCKS; `release` must end the lock."""

    def bmap(self, request: Request, node: int, block_size: int, block: int) -> int:
        """Returns the block of the device for a block of the file."""

    def ioctl(self, request: Request, node: int, command: int, argument: int, file: OpenFile, flags: int, data: bytes,
              out_size: int) -> Tuple[int, bytes]:
        """Returns the result of ioctl(2), and at most `out_size` bytes for the caller."""

    def poll(self, request: Request, node: int, file: OpenFile, events: int,
             poll_handle: Optional[int]) -> int:
        """Returns those of `events` (bits such as select.POLLIN) that are ready. If none is ready and `poll_handle` is not
        None, the process waits: keep the number, and call `wake(poll_handle)` of the Connection that `init` got, once, when
        one becomes ready."""

    def tmpfile(self, request: Request, parent: int, mode: int, flags: int) -> Tuple[Entry, Opened]:
        """Creates and opens a file without a name, for O_TMPFILE. `mode` and the umask are as in `create`."""

    def statx(self, request: Request, node: int, flags: int, mask: int, file: Optional[OpenFile]) -> Tuple[Any, float]:
        """Returns a `Statx`, and for how many seconds the kernel may cache it."""


def _failing(method: Any) -> Any:
    """Returns the default of a method, which fails with ENOSYS."""
    @functools.wraps(method)
    def default(*_: Any) -> Any:
        raise OSError(errno.ENOSYS, "not implemented")
    return default


_SUCCEEDING = {"init", "destroy", "open", "release", "opendir", "releasedir", "statfs", "forget", "interrupt"}
for _name, _method in list(vars(FileSystem).items()):
    if not _name.startswith("_") and _name not in _SUCCEEDING:
        setattr(FileSystem, _name, _failing(_method))
