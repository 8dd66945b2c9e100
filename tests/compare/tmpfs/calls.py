"""The same random system calls on two folders, for mirror.py. An operation is who asks, its name and its words."""
import ctypes
import fcntl
import hashlib
import mmap
import os
import shutil
import stat
import struct
import time

LIBC = ctypes.CDLL(None, use_errno=True)
NAMES = ["a", "b", "c", "d", "e", "f", "g", "h", "n" * 255]
MODES = [0o644, 0o755, 0o600, 0o4755, 0o777, 0o711, 0o1777, 0o2775, 0]
# User and group: mostly root, root in another group, and users.
WHO = [(0, 0)] * 12 + [(0, 5), (0, 6), (1000, 5), (1000, 0), (1001, 6)]
LENGTHS = [0, 1, 5, 100, 4096, 9000, 20000]
PLACES = [0, 1, 4095, 4096, 10000, 30000]
# Times of access and of change, in nanoseconds.
TIMES = [(10**9 + 7, 5), (1234567890123456789, 2**31 * 10**9 - 1), (0, 987654321)]
# Texts of symbolic links, which have 4095 bytes at most.
TEXTS = ["a", "b/c", "c", "nope", "x" * 300, "", "y" * 4095, "z" * 4096, "h"]
ATTRIBUTES = ["user.a", "trusted.b", "security.k", "user." + "n" * 250, "user." + "n" * 251, "user.", "other.a",
              *(f"trusted.{i}" for i in range(8))]
# How many files are held open at most.
SLOTS = 5
# FALLOC_FL_ of fallocate(2), the second with KEEP_SIZE; of renameat2(2) RENAME_NOREPLACE and RENAME_WHITEOUT.
KEEP_SIZE, PUNCH_HOLE, ZERO_RANGE, WHITEOUT_NEW = 1, 3, 16, 5
AT_FDCWD, AT_EMPTY_PATH = -100, 0x1000
# One entry more for user 1000, by the header of Linux.
NO_ONE = 2**32 - 1
# Version 2; entries of a tag, a permission and an id: owner, a user, group, mask, others.
ACL = struct.pack("<I", 2) + b"".join(struct.pack("<HHI", *entry) for entry in [
    (1, 6, NO_ONE), (2, 7, 1000), (4, 4, NO_ONE), (16, 7, NO_ONE), (32, 0, NO_ONE)])

# How often each comes.
OPERATIONS = {
    "creat": 8, "mkdir": 9, "symlink": 4, "link": 6, "unlink": 7, "rmdir": 6, "rename": 9, "rename2": 7, "whiteout": 1,
    "chmod": 5, "chown": 4, "truncate": 5, "write": 8, "append": 4, "read": 5, "stat": 5, "list": 4, "readlink": 2,
    "setxattr": 4, "getxattr": 3, "listxattr": 2, "removexattr": 2, "large attribute": 1, "acl": 1, "fallocate": 3,
    "fallocate other": 2, "utime": 3, "mknod": 2, "mknod special": 3, "open to truncate": 3, "O_TMPFILE": 1, "seek": 2,
    "copy": 3, "map": 2, "access": 2, "open": 4, "fd write": 3, "fd read": 3, "fd stat": 3, "fd truncate": 2,
    "fd seek": 1, "fd link": 2, "fd chmod": 1, "fd append": 2, "fd map": 2, "fd utime": 1, "fsync": 1, "close": 2,
}


def some_path(random):
    """A path of one to four names, mostly short ones, so that many are the same; seldom an odd one."""
    depth = random.choices([1, 2, 3, 4], [35, 40, 18, 7])[0]
    parts = [random.choice(NAMES) for _ in range(depth)]
    odd = random.random()
    if odd < 0.02:
        parts[-1] = "z" * random.choice([256, 300, 1200])
    elif odd < 0.04:
        parts += [random.choice([".", ".."]), random.choice(NAMES)]
    elif odd < 0.05:
        parts.append("")
    return "/".join(parts)


def generate(random):
    """A random operation, which depends on no state."""
    name = random.choices(list(OPERATIONS), list(OPERATIONS.values()))[0]
    path, other = some_path(random), some_path(random)
    mode, at, length = random.choice(MODES), random.choice(PLACES), random.choice(LENGTHS)
    byte, slot, key = random.randrange(256), random.randrange(SLOTS), random.choice(ATTRIBUTES)
    size = random.choice([0, 1, 100, 4096, 5000, 60000])
    words = {
        "creat": lambda: (path, random.choice([os.O_EXCL, 0, os.O_NOFOLLOW]) | random.choice([0, 1, 2]), mode),
        "mkdir": lambda: (path, mode), "chmod": lambda: (path, mode), "fd chmod": lambda: (slot, mode),
        "symlink": lambda: (random.choice(TEXTS), path),
        "chown": lambda: (path, random.choice([-1, 0, 1000]), random.choice([-1, 0, 5])),
        "rename2": lambda: (path, other, random.choice([1, 2, 2, 3, 8])),
        "truncate": lambda: (path, size), "fd truncate": lambda: (slot, size),
        "write": lambda: (path, at, length, byte), "append": lambda: (path, length, byte),
        "read": lambda: (path, at, length + 50),
        "setxattr": lambda: (path, key, random.choice([0, 5, 200, 3000]), byte, random.choice([0, 0, 1, 2])),
        "getxattr": lambda: (path, key), "removexattr": lambda: (path, key),
        "fallocate": lambda: (path, at, random.choice([1, 4096, 9000])),
        "fallocate other": lambda: (path, random.choice([KEEP_SIZE, PUNCH_HOLE, ZERO_RANGE]), at,
                                    random.choice([1, 4096, 9000])),
        "utime": lambda: (path, random.randrange(len(TIMES))), "fd utime": lambda: (slot, random.randrange(len(TIMES))),
        "mknod": lambda: (path, mode),
        "mknod special": lambda: (path, random.choice(["FIFO", "socket", "device"]), mode),
        "seek": lambda: (path, random.choice(["DATA", "HOLE"]), at), "copy": lambda: (path, other, at, length),
        "access": lambda: (path, random.choice([0, 1, 2, 4])),
        "open": lambda: (slot, path, random.choice([0, 2, 2 | os.O_CREAT, 2 | os.O_APPEND]), mode),
        "fd seek": lambda: (slot, random.choice(["DATA", "HOLE"]), at),
        "fd write": lambda: (slot, at, length, byte), "fd read": lambda: (slot, at, length + 9),
        "fd link": lambda: (slot, path), "fd append": lambda: (slot, random.choice([0, os.O_APPEND])),
    }
    if name in words:
        return (random.choice(WHO), name, *words[name]())
    if name in ("fd stat", "fd map", "fsync", "close"):
        return (random.choice(WHO), name, slot)
    if name in ("link", "rename", "whiteout"):
        return (random.choice(WHO), name, path, other)
    return (random.choice(WHO), name, path)


def check(status):
    """The status of a call of the C library; one below 0 is raised as the error."""
    if status < 0:
        number = ctypes.get_errno()
        raise OSError(number, os.strerror(number))
    return status


class Side:
    """A folder of one of the two, and what is open there."""
    def __init__(self, folder):
        """`slots` are descriptors that stay open from one operation to the next. `began` is before any time that is
        set now.
        """
        self.folder, self.slots = folder, [None] * SLOTS
        self.began = time.time_ns() - 10**10

    def at(self, path):
        """The path of a name on this side."""
        return f"{self.folder}/{path}"

    def is_directory(self, named):
        """Whether a path or a slot leads to a directory."""
        return os.path.isdir(self.at(named) if isinstance(named, str) else self.slots[named])

    def end(self):
        for slot in range(SLOTS):
            self.close(slot)

    # An operation has the function of its name. What it answers is held beside that of the other side.

    def creat(self, path, flags, mode):
        # (O_NONBLOCK: who opens a FIFO waits for nobody)
        os.close(os.open(self.at(path), flags | os.O_CREAT | os.O_NONBLOCK, mode))

    def mkdir(self, path, mode):
        os.mkdir(self.at(path), mode)

    def symlink(self, text, path):
        os.symlink(text, self.at(path))

    def link(self, path, other):
        os.link(self.at(path), self.at(other), follow_symlinks=False)

    def unlink(self, path):
        os.unlink(self.at(path))

    def rmdir(self, path):
        os.rmdir(self.at(path))

    def rename(self, path, other):
        os.rename(self.at(path), self.at(other))

    def rename2(self, path, other, flags):
        check(LIBC.renameat2(AT_FDCWD, os.fsencode(self.at(path)), AT_FDCWD, os.fsencode(self.at(other)), flags))

    def whiteout(self, path, other):
        """Undone again, since not all have it."""
        path, other = path.rstrip("/"), other.rstrip("/")

        def act():
            self.rename2(path, other, WHITEOUT_NEW)
            shown = as_root(lambda: self.stat(path))
            as_root(lambda: (os.unlink(self.at(path)), os.rename(self.at(other), self.at(path))))
            return shown["mode"], shown["rdev"], shown["nlink"], shown["uid"], shown["gid"]
        return self.unchanged(act, os.path.dirname(path), os.path.dirname(other))

    def chmod(self, path, mode):
        os.chmod(self.at(path), mode)

    def chown(self, path, user, group):
        # (a chown of nothing clears set-user-ID bits in some kernels; a link has none)
        is_link = stat.S_ISLNK(os.lstat(self.at(path)).st_mode)
        act = lambda: os.chown(self.at(path), user, group, follow_symlinks=False)
        return self.bits_after(path, act) if user == group == -1 and not is_link else act()

    def truncate(self, path, size):
        """To the size that it has, the times stay as they were, since not all do the same."""
        before = os.stat(self.at(path))
        os.truncate(self.at(path), size)
        if before.st_size == size and stat.S_ISREG(before.st_mode):
            moved = os.stat(self.at(path)).st_mtime_ns != before.st_mtime_ns
            as_root(lambda: os.utime(self.at(path), ns=(before.st_atime_ns, before.st_mtime_ns)))
            return "same size", moved
        return None

    def unchanged(self, act, *paths):
        """Does what changes modes and times of these, which then are as they were."""
        before = []
        for path in map(self.at, paths):
            try:
                before.append((path, os.stat(path)))
            except OSError:
                pass
        try:
            return act()
        finally:
            for path, is_so in before:
                times = (is_so.st_atime_ns, is_so.st_mtime_ns)
                as_root(lambda: (os.chmod(path, is_so.st_mode & 0o7777), os.utime(path, ns=times)))

    def bits_after(self, path, act):
        """The mode that something leaves, which is then as it was, since it does not change everywhere."""
        before = os.stat(self.at(path)).st_mode
        came = act()
        after = os.stat(self.at(path)).st_mode
        as_root(lambda: os.chmod(self.at(path), before & 0o7777))
        return came, oct(after)

    def opened(self, path, flags, act):
        """Does something with a file that is open meanwhile."""
        # (who opens a FIFO waits for nobody)
        file = os.open(self.at(path), flags | os.O_NONBLOCK)
        try:
            return act(file)
        finally:
            os.close(file)

    def write(self, path, at, length, byte):
        """Writes one byte many times, and another one each time, so that what is missing is seen."""
        return self.opened(path, os.O_WRONLY, lambda file: os.pwrite(file, bytes([byte]) * length, at))

    def append(self, path, length, byte):
        def act(file):
            # (the kernel keeps the bytes of a FIFO, and moves its times not everywhere)
            return None if stat.S_ISFIFO(os.fstat(file).st_mode) else os.write(file, bytes([byte]) * length)
        return self.opened(path, os.O_WRONLY | os.O_APPEND, act)

    def read(self, path, at, length):
        return self.opened(path, os.O_RDONLY, lambda file: os.pread(file, length, at))

    def stat(self, path):
        return self.shown(os.lstat(self.at(path)))

    def shown(self, is_so):
        """What is compared of a node: a time that is of now counts as such."""
        is_directory = stat.S_ISDIR(is_so.st_mode)
        # (from ten seconds before this side began until eleven days later)
        time_of = "now" if self.began < is_so.st_mtime_ns < self.began + 10**15 else is_so.st_mtime_ns
        return {"mode": oct(is_so.st_mode), "nlink": is_so.st_nlink, "uid": is_so.st_uid, "gid": is_so.st_gid,
                "rdev": is_so.st_rdev, "size": 0 if is_directory else is_so.st_size, "mtime": time_of}

    def list(self, path):
        """The names of a directory, each with its kind as the directory tells it."""
        with os.scandir(self.at(path)) as entries:
            return sorted((entry.name, entry.is_symlink(), entry.is_dir(follow_symlinks=False),
                           entry.is_file(follow_symlinks=False)) for entry in entries)

    def readlink(self, path):
        return os.readlink(self.at(path))

    def setxattr(self, path, key, length, byte, flags):
        os.setxattr(self.at(path), key, bytes([byte]) * length, flags, follow_symlinks=False)

    def getxattr(self, path, key):
        return os.getxattr(self.at(path), key, follow_symlinks=False)

    def listxattr(self, path):
        """(another user by setfsuid has root's capabilities, by which a tmpfs shows what is trusted)"""
        names = os.listxattr(self.at(path), follow_symlinks=False)
        return sorted(name for name in names if not name.startswith("trusted.") or is_root())

    def removexattr(self, path, key):
        os.removexattr(self.at(path), key, follow_symlinks=False)

    def large_attribute(self, path):
        """Undone again, since not all have room for it."""
        os.setxattr(self.at(path), "user.large", bytes(65536))
        os.removexattr(self.at(path), "user.large")

    def acl(self, path):
        """Undone again, since not all have it."""
        def act():
            os.setxattr(self.at(path), "system.posix_acl_access", ACL)
            as_root(lambda: os.removexattr(self.at(path), "system.posix_acl_access"))
        self.unchanged(act, path)

    def fallocate(self, path, at, length):
        return self.bits_after(path, lambda: self.opened(path, os.O_RDWR, lambda file: allocate(file, 0, at, length)))

    def fallocate_other(self, path, mode, at, length):
        """What is then read, and after it contents and times as they were, since not all have it."""
        def act(file):
            before = os.fstat(file)
            contents = os.pread(file, before.st_size, 0)
            allocate(file, mode, at, length)
            after = os.pread(file, 1 << 20, 0)
            os.ftruncate(file, before.st_size)
            os.pwrite(file, contents, 0)
            return after
        return self.unchanged(lambda: self.opened(path, os.O_RDWR, act), path)

    def utime(self, path, which):
        os.utime(self.at(path), ns=TIMES[which], follow_symlinks=False)
        return os.lstat(self.at(path)).st_mtime_ns

    def mknod(self, path, mode):
        os.mknod(self.at(path), stat.S_IFREG | mode)

    def mknod_special(self, path, kind, mode):
        """Makes a node that is no file, and tells its attributes."""
        kind = {"FIFO": stat.S_IFIFO, "socket": stat.S_IFSOCK, "device": stat.S_IFCHR}[kind]
        os.mknod(self.at(path), kind | mode, os.makedev(1, 3))
        return self.shown(os.lstat(self.at(path)))

    def open_to_truncate(self, path):
        return self.bits_after(path, lambda: self.opened(path, os.O_WRONLY | os.O_TRUNC, lambda file: None))

    def O_TMPFILE(self, path):
        self.opened(path, os.O_TMPFILE | os.O_RDWR, lambda file: None)

    def seek(self, path, whence, at):
        return self.opened(path, os.O_RDONLY, lambda file: os.lseek(file, at, getattr(os, "SEEK_" + whence)))

    def copy(self, path, other, at, length):
        def act(file):
            return self.opened(other, os.O_WRONLY, lambda to: os.copy_file_range(file, to, length, 0, at))
        return self.bits_after(other, lambda: self.opened(path, os.O_RDONLY, act))

    def map(self, path):
        """Writes the first byte and the last of a shared map, and reads them."""
        return self.opened(path, os.O_RDWR, map_ends)

    def written_as_mapped(self, named):
        """What a map of a path or a slot would have written, if there is none."""
        file = os.open(self.at(named) if isinstance(named, str) else f"/proc/self/fd/{self.slots[named]}", os.O_RDWR)
        if size := os.fstat(file).st_size:
            os.pwrite(file, b"M", 0)
            os.pwrite(file, b"N", size - 1)
        os.close(file)

    def access(self, path, how):
        # (0x200 is AT_EACCESS: as the user who asks now)
        check(LIBC.faccessat(AT_FDCWD, os.fsencode(self.at(path)), how, 0x200))

    # Files that are held open.

    def open(self, slot, path, flags, mode):
        self.close(slot)
        self.slots[slot] = os.open(self.at(path), flags | os.O_NONBLOCK, mode)

    def held(self, slot):
        """The descriptor in a slot."""
        if self.slots[slot] is None:
            # (EBADF)
            raise OSError(9, "nothing is open")
        return self.slots[slot]

    def fd_write(self, slot, at, length, byte):
        return os.pwrite(self.held(slot), bytes([byte]) * length, at)

    def fd_read(self, slot, at, length):
        return os.pread(self.held(slot), length, at)

    def fd_append(self, slot, flag):
        """Has what is written go to the end from now on, or not."""
        fcntl.fcntl(self.held(slot), fcntl.F_SETFL, flag | os.O_NONBLOCK)

    def fd_map(self, slot):
        return map_ends(self.held(slot))

    def fd_seek(self, slot, whence, at):
        return os.lseek(self.held(slot), at, getattr(os, "SEEK_" + whence))

    def fd_stat(self, slot):
        return self.shown(os.fstat(self.held(slot)))

    def fd_truncate(self, slot, size):
        """Sets the size of an open file."""
        # (what is of the same size already is a case of `truncate`)
        is_so = os.fstat(self.held(slot))
        if is_so.st_size != size or not stat.S_ISREG(is_so.st_mode):
            os.ftruncate(self.held(slot), size)

    def fd_link(self, slot, path):
        check(LIBC.linkat(self.held(slot), b"", AT_FDCWD, os.fsencode(self.at(path)), AT_EMPTY_PATH))

    def fd_chmod(self, slot, mode):
        os.fchmod(self.held(slot), mode)

    def fd_utime(self, slot, which):
        os.utime(self.held(slot), ns=TIMES[which])

    def fsync(self, slot):
        os.fsync(self.held(slot))

    def close(self, slot):
        if self.slots[slot] is not None:
            file, self.slots[slot] = self.slots[slot], None
            os.close(file)

    def whole(self):
        """All that can be seen below the folder, by name."""
        seen = {}
        for root, folders, files in os.walk(self.folder):
            for name in ["."] + folders + files:
                path = os.path.normpath(f"{root}/{name}")
                is_so = os.lstat(path)
                shown = self.shown(is_so)
                if stat.S_ISREG(is_so.st_mode):
                    with open(path, "rb") as file:
                        shown["contents"] = hashlib.sha1(file.read()).hexdigest()
                elif stat.S_ISLNK(is_so.st_mode):
                    shown["text"] = os.readlink(path)
                shown["attributes"] = {key: os.getxattr(path, key, follow_symlinks=False)
                                       for key in sorted(os.listxattr(path, follow_symlinks=False))}
                seen[os.path.relpath(path, self.folder)] = shown
        return seen


def map_ends(file):
    """Writes the first byte of a file and its last one, and answers how many it has."""
    is_so = os.fstat(file)
    size = is_so.st_size if stat.S_ISREG(is_so.st_mode) else 0
    if size:
        with mmap.mmap(file, size) as bytes_:
            bytes_[0:1] = b"M"
            bytes_[size - 1:size] = b"N"
            bytes_.flush()
    return size


def allocate(file, mode, at, length):
    """fallocate(2), for which Python has no mode."""
    check(LIBC.fallocate(file, mode, ctypes.c_int64(at), ctypes.c_int64(length)))


def become(user, group):
    """Asks as this user and group from here on, by the ids that file systems look at."""
    LIBC.setfsuid(0)
    LIBC.setfsgid(group)
    LIBC.setfsuid(user)


def is_root():
    """Whether the user is root now. (No user has the number -1, so none is set.)"""
    return LIBC.setfsuid(-1) == 0


def as_root(act):
    """Does something of the mirror's own as root, which it then stays."""
    become(0, 0)
    return act()


def asked(side, operation):
    """What a side answers: a value, or the name of an error."""
    who, name, *words = operation
    become(*who)
    try:
        return "ok", getattr(side, name.replace(" ", "_"))(*words)
    except OSError as error:
        return "error", error.errno
    except ValueError as error:
        return "error", str(error)
    finally:
        become(0, 0)


class Session:
    """Two folders, which begin empty."""
    LENGTH = 1500

    def __init__(self, folders, number):
        os.umask(0)
        # (or root's groups would count as those of each user)
        os.setgroups([])
        self.sides = []
        for folder in folders:
            # (by the process and a number, so that no two runs meet)
            own = f"{folder}/mirror-{os.getpid()}-{number}"
            os.mkdir(own, 0o777)
            self.sides.append(Side(own))

    def step(self, operation):
        """The names of what differs."""
        first, second = (asked(side, operation) for side in self.sides)
        if first == second:
            return []
        name = detailed(operation)
        if name.startswith("seek") and self.sides[1].is_directory(operation[2]):
            name = "seek of a directory"
        if operation[1] == "setxattr" and second[0] == "ok":
            # (not all have each kind: then neither has it)
            self.sides[1].removexattr(*operation[2:4])
        if operation[1] in ("map", "fd map") and second[0] == "ok" and second[1]:
            self.sides[0].written_as_mapped(operation[2])
        if first[0] == second[0] == "ok":
            if isinstance(first[1], dict):
                return [f"{name}: {key}" for key in first[1] if first[1][key] != second[1][key]]
            return [f"{name}: another value"]
        return [f"{name}: {told(first)}, {told(second)}"]

    def check(self):
        """The names of what differs in all that is seen."""
        first, second = (side.whole() for side in self.sides)
        if first.keys() != second.keys():
            return ["a name that one has alone"]
        return sorted({f"in the end: {key}" for path in first for key in first[path].keys() | second[path].keys()
                       if first[path].get(key) != second[path].get(key)})

    def finish(self):
        """Nothing is compared at the end that was not at each step."""
        return []

    def end(self):
        for side in self.sides:
            side.end()
            shutil.rmtree(side.folder)


def detailed(operation):
    """The name of an operation, with the kind of it that matters."""
    who, name, *words = operation
    if name in ("fallocate", "copy") and who[0] == 0:
        return f"{name} of root"
    if name == "fallocate other":
        return "fallocate " + {KEEP_SIZE: "KEEP_SIZE", PUNCH_HOLE: "PUNCH_HOLE", ZERO_RANGE: "ZERO_RANGE"}[words[1]]
    if name in ("mknod special", "seek", "fd seek"):
        return f"{name.split()[0]} {words[1]}".replace("fd", "seek")
    if name in ("setxattr", "getxattr", "removexattr"):
        return f"{name} {words[1].split('.')[0]}"
    if name == "chown" and words[1:] == [-1, -1]:
        return "chown of nothing"
    return f"rename2 {words[2]}" if name == "rename2" else name


def told(came):
    """What a call came to, by the name of its error."""
    import errno
    return "ok" if came[0] == "ok" else errno.errorcode.get(came[1], str(came[1]))


def shown(operation):
    """An operation as a line, with who makes it if that is not root."""
    (user, group), name, *words = operation
    return f"{name} {', '.join(map(short, words))}" + (f"   (as user {user} of group {group})" if user or group else "")


def short(word):
    """A word of an operation, cut if it is long."""
    if isinstance(word, (str, bytes)) and len(word) > 40:
        return f"{word[-1:]!r} at the end of {len(word)}"
    return repr(word)
