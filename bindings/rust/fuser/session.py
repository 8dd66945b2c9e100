#!/usr/bin/env python3
"""Makes calls on the mount of an example of the crate fuser, and prints what each returns.

Usage: session.py EXAMPLE FOLDER
EXAMPLE is hello, simple, ioctl, poll, notify_inval_entry or notify_inval_inode. run.sh compares what is printed for the
example over fuser with what is printed over this crate. So nothing is printed that two runs do not have in common,
such as times that were not set.
"""
import ctypes
import errno
import fcntl
import hashlib
import mmap
import os
import select
import stat
import struct
import sys
import time

LIBC = ctypes.CDLL(None, use_errno=True)


def show(name, call, *words):
    """Prints what a call returns, or its error. Returns it, if it succeeded."""
    try:
        result = call(*words)
    except OSError as error:
        print(name, errno.errorcode[error.errno])
        return None
    text = repr(result)
    print(name, text if len(text) < 200 else hashlib.sha256(text.encode()).hexdigest())
    return result


def attributes(path):
    """What lstat(2) says, but for times."""
    of = os.lstat(path)
    return [oct(of.st_mode), of.st_ino, of.st_nlink, of.st_uid, of.st_gid, of.st_size, of.st_blocks, of.st_blksize,
            of.st_rdev]


def times(path):
    """When it was read and changed last, in nanoseconds."""
    of = os.lstat(path)
    return of.st_atime_ns, of.st_mtime_ns


def statistics(path):
    """What it says of the file system, but for what is free, which others change."""
    of = os.statvfs(path)
    return of.f_bsize, of.f_frsize, of.f_blocks, of.f_files, of.f_namemax, of.f_flag


def read(path, size=1 << 20, offset=0):
    """`size` bytes of a file, by a descriptor of its own."""
    descriptor = os.open(path, os.O_RDONLY)
    try:
        return os.pread(descriptor, size, offset)
    finally:
        os.close(descriptor)


def write(path, data, offset=0, flags=os.O_WRONLY | os.O_CREAT, mode=0o644):
    """Writes bytes to a file, by a descriptor of its own, which may make it."""
    descriptor = os.open(path, flags, mode)
    try:
        return os.pwrite(descriptor, data, offset)
    finally:
        os.close(descriptor)


def exchange(old, new, flags):
    """renameat2(2), which Python does not have."""
    # (-100 is AT_FDCWD)
    if LIBC.renameat2(-100, old.encode(), -100, new.encode(), flags):
        raise OSError(ctypes.get_errno(), "renameat2")


def hello():
    """Its file, read in parts, and what it refuses."""
    for path in [".", "hello.txt", "none", "none/below"]:
        show(f"attributes {path}", attributes, path)
    show("list", os.listdir, ".")
    show("statistics", statistics, ".")
    for offset, size in [(0, 4096), (6, 3), (13, 10), (1000, 10)]:
        show(f"read {offset} {size}", read, "hello.txt", size, offset)
    show("write", write, "hello.txt", b"more")
    show("make", os.mkdir, "folder")
    show("link", os.readlink, "hello.txt")
    show("attribute", os.getxattr, "hello.txt", "user.none")
    show("access", os.access, "hello.txt", os.R_OK)
    show("list a file", os.listdir, "hello.txt")
    counted = sum(int(line) for line in read("stats-per-thread").split())
    print("some reads were counted", counted > 0)


def simple():
    """All that the example serves."""
    show("statistics", statistics, ".")
    directories()
    files()
    names()
    further()
    os.umask(0)
    show("another user", as_other, 1000)


def directories():
    """Folders with many names, long ones, and what rmdir refuses."""
    show("make", os.mkdir, "folder", 0o750)
    show("make again", os.mkdir, "folder")
    show("attributes of a folder", attributes, "folder")
    for number in range(60):
        os.close(os.open(f"folder/{'n' * 3 * number}{number}", os.O_CREAT | os.O_WRONLY))
    show("many items", lambda: sorted(os.listdir("folder")))
    show("remove what is not empty", os.rmdir, "folder")
    descriptor = os.open("folder", os.O_RDONLY)
    show("sync a folder", os.fsync, descriptor)
    os.close(descriptor)
    for name in os.listdir("folder"):
        os.unlink(f"folder/{name}")
    show("no items", os.listdir, "folder")
    show("remove", os.rmdir, "folder")
    show("it is gone", attributes, "folder")
    for length in [255, 256]:
        show(f"name of {length}", os.mkdir, "n" * length)


def files():
    """One file: its bytes, size, mode, owner, times, locks and maps."""
    exclusive = os.O_CREAT | os.O_EXCL | os.O_RDWR
    show("create", write, "file", b"0123456789", 0, exclusive, 0o640)
    show("create again", write, "file", b"", 0, exclusive)
    show("attributes", attributes, "file")
    show("part", read, "file", 4, 3)
    show("append", write, "file", b"abc", 0, os.O_WRONLY | os.O_APPEND)
    show("write far", write, "file", b"far", 100_000)
    show("whole", read, "file")
    data = bytes(range(256)) * 5000
    show("write much", write, "large", data)
    show("read much", lambda: read("large", len(data)) == data)
    for size in [5, 100]:
        show(f"truncate {size}", os.truncate, "file", size)
        show("attributes", attributes, "file")
        show("whole", read, "file")
    show("open and truncate", write, "file", b"new", 0, os.O_WRONLY | os.O_TRUNC)
    show("whole", read, "file")
    show("mode", os.chmod, "file", 0o4604)
    show("owner", os.chown, "file", 1000, 1001)
    # (times before 1970 differ with fuser)
    moment = (1_000_000_007, 2_000_000_000_000_000_009)
    show(f"set times {moment}", lambda: os.utime("file", ns=moment))
    show("times", times, "file")
    show("attributes", attributes, "file")
    descriptor = os.open("file", os.O_RDWR)
    show("sync", os.fsync, descriptor)
    show("sync data", os.fdatasync, descriptor)
    show("allocate", os.posix_fallocate, descriptor, 0, 9000)
    show("size", lambda: os.fstat(descriptor).st_size)
    for whence in [os.SEEK_END, os.SEEK_DATA, os.SEEK_HOLE]:
        show(f"seek {whence}", os.lseek, descriptor, 0, whence)
    show("lock", fcntl.lockf, descriptor, fcntl.LOCK_EX | fcntl.LOCK_NB)
    # (_IO('E', 0), a command of another example)
    show("command", fcntl.ioctl, descriptor, 0x4500)
    with mmap.mmap(descriptor, 4096) as mapped:
        mapped[:6] = b"mapped"
        show("sync mapped", mapped.flush)
    os.unlink("file")
    show("of no name", os.pread, descriptor, 8, 0)
    show("close", os.close, descriptor)
    show("copy", copy, "large", "copied")


def copy(old, new):
    """Copies a part of a file by copy_file_range(2): how much, and a checksum of what came of it."""
    source, target = os.open(old, os.O_RDONLY), os.open(new, os.O_CREAT | os.O_RDWR)
    try:
        copied = os.copy_file_range(source, target, 70_000, 1000, 10)
        return copied, hashlib.sha256(os.pread(target, 100_000, 0)).hexdigest()
    finally:
        os.close(source)
        os.close(target)


def names():
    """Links, names that change, and nodes of other kinds."""
    for name in "ab":
        write(name, name.encode())
    show("hard link", os.link, "a", "linked")
    show("attributes", attributes, "linked")
    show("rename", os.rename, "a", "c")
    show("rename over", os.rename, "c", "b")
    show("what it has", read, "b")
    os.mkdir("folder")
    write("folder/d", b"d")
    # RENAME_NOREPLACE, RENAME_EXCHANGE, RENAME_WHITEOUT.
    for flags in [1, 2, 4]:
        show(f"rename with {flags}", exchange, "b", "folder/d", flags)
        show("what is there", lambda: (sorted(os.listdir(".")), sorted(os.listdir("folder"))))
    show("rename a folder into itself", os.rename, "folder", "folder/below")
    show("symbolic link", os.symlink, "somewhere/" + "l" * 1000, "symbolic")
    show("where it leads", os.readlink, "symbolic")
    show("attributes of a link", attributes, "symbolic")
    show("pipe", os.mkfifo, "pipe")
    show("device", os.mknod, "device", 0o600 | stat.S_IFCHR, os.makedev(1, 3))
    show("remove nothing", os.unlink, "nothing")
    show("remove a folder as a file", os.unlink, "folder")


def further():
    """Extended attributes and access."""
    write("file", b"text")
    show("set", os.setxattr, "file", "user.one", b"1" * 300)
    show("set again", os.setxattr, "file", "user.one", b"", os.XATTR_CREATE)
    show("set two", os.setxattr, "file", "user.two", b"2")
    show("get", os.getxattr, "file", "user.one")
    show("get nothing", os.getxattr, "file", "user.none")
    show("names", lambda: sorted(os.listxattr("file")))
    show("remove", os.removexattr, "file", "user.one")
    show("names", lambda: sorted(os.listxattr("file")))
    show("access", lambda: [os.access("file", mask) for mask in range(8)])


def as_other(user):
    """What another user sees. Without allow_other the kernel answers for the file system."""
    reader, writer = os.pipe()
    child = os.fork()
    if child == 0:
        os.setresuid(user, user, user)
        try:
            found = repr(attributes("file"))
        except OSError as error:
            found = errno.errorcode[error.errno]
        os.write(writer, found.encode())
        os._exit(0)
    os.waitpid(child, 0)
    return os.read(reader, 1000)


def ioctl():
    """The size of the example's file, read and set by ioctl(2)."""
    descriptor = os.open("fioc", os.O_RDWR)
    # FIOC_GET_SIZE and FIOC_SET_SIZE of the example: _IOR and _IOW of 'E', 0 and 1, 8 bytes each.
    get_size, set_size = 0x80084500, 0x40084501
    show("list", os.listdir, ".")
    show("size", fcntl.ioctl, descriptor, get_size, bytes(8))
    show("set it", fcntl.ioctl, descriptor, set_size, struct.pack("Q", 10))
    show("size", fcntl.ioctl, descriptor, get_size, bytes(8))
    show("another command", fcntl.ioctl, descriptor, 0x4502)
    os.close(descriptor)


def poll():
    """Waits until files have something to read, three times."""
    waits, files = select.poll(), {}
    for name in sorted(os.listdir(".")):
        descriptor = os.open(name, os.O_RDONLY)
        files[descriptor] = name
        waits.register(descriptor, select.POLLIN)
    show("open again", read, "0")
    print("files", len(files))
    for _ in range(3):
        for descriptor in files:
            while os.read(descriptor, 100):
                pass
        # (the producer is a thread, which replies and notifies while no call is made)
        events = waits.poll(20_000)
        print("woken", bool(events), {event for _, event in events}, all(os.read(it, 100) for it, _ in events))


def notify_inval_entry():
    """A name that the server changes is no longer cached after its notice."""
    (old,) = os.listdir(".")
    attributes(old)
    time.sleep(1.2)
    show("the old name", attributes, old)
    print("there is a new name", os.listdir(".") != [old])


def notify_inval_inode():
    """Nor are data."""
    old = read("current_time")
    time.sleep(1.2)
    print("there are new data", read("current_time") != old)


EXAMPLES = {call.__name__: call for call in [hello, simple, ioctl, poll, notify_inval_entry, notify_inval_inode]}


def main():
    """Makes the calls of an example in a folder."""
    if len(sys.argv) == 3 and sys.argv[1] in EXAMPLES:
        os.chdir(sys.argv[2])
        EXAMPLES[sys.argv[1]]()
    else:
        print(__doc__.strip())
        sys.exit(0 if sys.argv[1:] in (["-h"], ["--help"]) else 2)


if __name__ == "__main__":
    main()
