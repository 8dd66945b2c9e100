"""Random requests of FUSE to the library over the tree in memory, and the same by system calls on a tmpfs, for
mirror.py. Nodes are meant by a number that counts among those that are known, so that a part of a session is
one too."""
import ctypes
import errno
import fcntl
import os
import pathlib
import shutil
import stat
import struct
import sys
import time
import zlib

import calls

sys.path.append(str(pathlib.Path(__file__).resolve().parents[2] / "lib"))
from shapes import Op, record  # noqa: E402

LIBC = calls.LIBC
ROOM = 1 << 17
NAMES = [b"a", b"b", b"c", b"d", b"e", b"f", b"g", b"\xff\xfe", b"x" * 255, b".hid", b"sp ace"]
MODES = [0o644, 0o755, 0o600, 0o4755, 0o2755, 0o1777, 0]
GROUPS = [0, 0, 0, 5, 6]
ATTRIBUTES = [b"user.a", b"user.b", b"trusted.c", b"user." + b"n" * 250, *(b"security.%d" % i for i in range(12))]
FLAGS = [os.O_RDONLY, os.O_RDWR, os.O_WRONLY | os.O_TRUNC, os.O_RDWR | os.O_TRUNC | os.O_APPEND]
AT_EMPTY_PATH = 0x1000
IOCTL, STATX = 39, 52
# FS_IOC_GETFLAGS, FS_IOC_FSGETXATTR, FS_IOC_SETFLAGS and FS_IOC_FSSETXATTR of a flag that neither side has, and
# another, each with what is given, and as how many bytes it comes back.
COMMANDS = [(0x80086601, bytes(8), 4), (0x801C581F, bytes(28), 28), (0x40086602, b"\4" + bytes(7), 0),
            (0x401C5820, b"\1" + bytes(27), 0), (0x8004FF7F, bytes(4), 4)]
CLOCK_REALTIME_COARSE = 5
# How often each comes.
OPERATIONS = {
    "LOOKUP": 8, "CREATE": 8, "MKNOD": 4, "MKDIR": 8, "SYMLINK": 4, "LINK": 7, "UNLINK": 8, "RMDIR": 6, "RENAME": 14,
    "TMPFILE": 4, "SETATTR": 10, "READ": 6, "WRITE": 10, "OPEN": 4, "READLINK": 2, "READDIR": 4, "SETXATTR": 5, "GETXATTR": 3,
    "LISTXATTR": 2, "REMOVEXATTR": 3, "FALLOCATE": 3, "LSEEK": 4, "FORGET": 5, "GETATTR": 3,
    "STATX": 3, "IOCTL": 2,
}
# Kinds of nodes that are no files: the bits of the mode, and a device's number.
SPECIAL = {"FIFO": (stat.S_IFIFO, 0), "socket": (stat.S_IFSOCK, 0), "device": (stat.S_IFCHR, os.makedev(1, 3))}
WATCHED = {"d": "a directory", "f": "a file", "l": "a symbolic link", "s": "a FIFO, socket or device"}


def generate(random):
    """A random operation: a group, its name, and its words."""
    name = random.choices(list(OPERATIONS), list(OPERATIONS.values()))[0]

    def node(kinds="dfl", likely=0.93):
        """A node by kind and number: mostly of a kind that the operation wants, and else any."""
        return kinds if random.random() < likely else "dfl", random.randrange(1 << 16)

    def word():
        """A name, which is mostly one of a few, so that names meet; or one that is too long."""
        return random.choice(NAMES) if random.random() < 0.97 else random.choice([b"x" * 256, b"y" * 300])

    words = {
        "LOOKUP": lambda: (node("d"), word()), "UNLINK": lambda: (node("d"), word()),
        "RMDIR": lambda: (node("d"), word()), "CREATE": lambda: (node("d"), word(), random.choice(MODES)),
        "TMPFILE": lambda: (node("d"), random.choice(MODES), random.random() < 0.3),
        "MKNOD": lambda: (node("d"), word(), random.choice(["file", "file", *SPECIAL]), random.choice(MODES)),
        "MKDIR": lambda: (node("d"), word(), random.choice(MODES) & 0o1777),
        "SYMLINK": lambda: (node("d"), word(), random.choice([b"a", b"/x/y", b"t" * 200, b"u" * 4095])),
        "LINK": lambda: (node("fls", 0.85), node("d"), word()),
        "RENAME": lambda: (node("d"), word(), node("d"), word(), random.choice([0, 0, 0, 0, 1, 2, 2, 3, 4, 4, 5, 6])),
        "SETATTR": lambda: (node("dfls"), random.choice(["mode", "owner", "size", "size", "size", "times", "now"]),
                            random.choice(MODES),
                            random.choice([0, 1, 5, 100, 4095, 4096, 4097, 70000, random.randrange(9000)]),
                            random.choice([(0, 0), (3, 5), (0, 6)]), (random.randrange(2000), random.randrange(10**9))),
        "WRITE": lambda: (node("f"), random.choice([0, 0, 1, 10, 4000, 4096, random.randrange(80000)]),
                          random.choice([0, 1, 3, 100, 4096, random.randrange(9000)]), random.randrange(256)),
        "READ": lambda: (node("f"), random.choice([0, 0, 1, 4096, random.randrange(80000)]),
                         random.choice([0, 1, 100, 4096, 60000])),
        "OPEN": lambda: (node("f", 1), random.choice(FLAGS)), "READLINK": lambda: (node("l", 0.8),),
        "READDIR": lambda: (node("d"), random.random() < 0.5, random.choice([440, 600, 1000, 5000, 60000])),
        "SETXATTR": lambda: (node("fds", 1), random.choice(ATTRIBUTES), random.choice([0, 1, 10, 300]),
                             random.randrange(256), random.choice([0, 0, 1, 2, 3])),
        "GETXATTR": lambda: (node("fds", 1), random.choice(ATTRIBUTES)), "LISTXATTR": lambda: (node("fds", 1),),
        "REMOVEXATTR": lambda: (node("fds", 1), random.choice(ATTRIBUTES)),
        "FALLOCATE": lambda: (node("f", 1), random.choice([0, 1, 4096, random.randrange(20000)]),
                              random.choice([0, 1, 100, 5000]), random.choice([0, 0, 0, 1, 3])),
        "LSEEK": lambda: (node("f", 1), random.choice([os.SEEK_DATA, os.SEEK_HOLE]),
                          random.choice([0, 1, 4095, 4096, 4097, random.randrange(80000)])),
        "FORGET": lambda: (node("dfls"), random.random(), random.random() < 0.5), "GETATTR": lambda: (node("dfls"),),
        "STATX": lambda: (node("dfls"),), "IOCTL": lambda: (node("df", 1), random.choice(COMMANDS)),
    }
    return (random.choice(GROUPS), name, *words[name]())


def shown(operation):
    """An operation in words."""
    group, name, *words = operation
    words = [f"a node of {word[0]} ({word[1]})" if isinstance(word, tuple) and isinstance(word[0], str)
             else calls.short(word) for word in words]
    return f"{name} {', '.join(words)}" + (f"   (of group {group})" if group else "")


class Settings(ctypes.Structure):
    """The struct nizwarf_server_config of nizwarf_tree.h: the time, limits, whose the root is, and flags."""
    _fields_ = [(name, ctypes.c_uint64) for name in ("seconds", "nodes", "bytes", "file")] + [
        (name, ctypes.c_uint32) for name in ("nanoseconds", "uid", "gid", "mode")] + [("flags", ctypes.c_uint64)]


class Segment(ctypes.Structure):
    """The struct struct iovec."""
    _fields_ = [("at", ctypes.c_void_p), ("len", ctypes.c_size_t)]


class Library:
    """A server of the library over a tree of its own, by messages."""
    def __init__(self, file):
        """Loads the library, makes a server, and agrees on options as a kernel does."""
        self.of = ctypes.CDLL(file)
        self.server, self.length = ctypes.c_void_p(), ctypes.c_size_t()
        self.room = ctypes.create_string_buffer(ROOM)
        # (ctypes takes each argument and result for an int of 32 bits if it isn't told)
        self.of.nizwarf_server_copy_at.restype = ctypes.c_size_t
        self.of.nizwarf_server_set_time_at.argtypes = [ctypes.c_void_p, ctypes.c_uint64, ctypes.c_uint32]
        self.of.nizwarf_server_handle_at.argtypes = [ctypes.c_void_p, ctypes.c_void_p, ctypes.c_size_t, ctypes.c_size_t,
                                               ctypes.c_void_p]
        self.of.nizwarf_server_copy_at.argtypes = [ctypes.c_void_p, ctypes.c_size_t, ctypes.c_void_p, ctypes.c_size_t]
        settings = Settings(1000, 1 << 20, 1 << 32, 1 << 32, 0, 0, 0, 0o755)
        if self.of.nizwarf_server_new_at(ctypes.byref(self.server), 4096, 1 << 20, ctypes.byref(settings)):
            raise RuntimeError("there is no server")
        self.unique, self.group = 0, 0
        # (all options of 7.31 but 1 << 26, MAP_ALIGNMENT)
        self.ask(Op.INIT, 0, record(Op.INIT, major=7, minor=31, readahead=131072, flags=0x3BFFFFFB & ~(1 << 26)))

    def end(self):
        """Ends the server, with its tree."""
        self.of.nizwarf_server_free_at(ctypes.byref(self.server))

    def ask(self, opcode, node, body=b"", room=ROOM):
        """What is answered to a request, after its header; an error is raised."""
        self.unique += 1
        message = struct.pack("<IIQQIIII", 40 + len(body), opcode, self.unique, node, 0, self.group, 1, 0) + body
        # (in two pieces, as a kernel sends it, and every third in one)
        cut = 40 if self.unique % 3 else len(message)
        buffer = ctypes.create_string_buffer(message, len(message))
        at = ctypes.addressof(buffer)
        pieces = (Segment * 2)(Segment(at, cut), Segment(at + cut, len(message) - cut))
        server = ctypes.byref(self.server)
        # (a second later at each request, so that times that move are seen)
        self.of.nizwarf_server_set_time_at(server, 1000 + self.unique, self.unique % 1000)
        code = self.of.nizwarf_server_handle_at(server, pieces, 2, room, ctypes.byref(self.length))
        if code:
            raise RuntimeError(f"opcode {opcode} came to {code}")
        # (no reply: of a FORGET)
        length = self.length.value
        if not length:
            return b""
        self.of.nizwarf_server_copy_at(server, 0, self.room, length)
        reply = ctypes.string_at(self.room, length)
        # (the header of a reply)
        told, error, unique = struct.unpack_from("<IiQ", reply)
        if told != length or unique != self.unique:
            raise RuntimeError(f"a header of {told} bytes, to {unique}, in a reply of {length} to {self.unique}")
        if error:
            raise OSError(-error, "answered")
        return reply[16:]

    @staticmethod
    def attributes(bytes_, at=0):
        """A struct fuse_attr at this place of a reply."""
        of = struct.unpack_from("<QQQQQQIIIIIIII", bytes_, at)
        return {"size": of[1], "atime": (of[3], of[6]), "mtime": (of[4], of[7]), "ctime": (of[5], of[8]),
                "mode": of[9], "nlink": of[10], "uid": of[11], "gid": of[12], "rdev": of[13]}

    def entry(self, *words):
        """The node and the attributes of an entry."""
        bytes_ = self.ask(*words)
        return struct.unpack_from("<Q", bytes_)[0], self.attributes(bytes_, 40)

    def getattr(self, node):
        return self.attributes(self.ask(Op.GETATTR, node, record(Op.GETATTR)), 16)

    def statx(self, node):
        """All that statx(2) tells, the time of birth too."""
        return told(self.ask(STATX, node, struct.pack("<IIQII", 0, 0, 0, 0, 0xFFF))[32:])


def told(of):
    """What a `struct statx` says."""
    mask, _, _, nlink, uid, gid, mode, _, size, _, _ = struct.unpack_from("<IIQIIIHxxQQQQ", of)
    times = [struct.unpack_from("<qI", of, at) for at in (64, 80, 96, 112)]
    return {"mask": mask & 0xFFF, "nlink": nlink, "uid": uid, "gid": gid, "mode": mode, "size": size,
            "rdev": os.makedev(*struct.unpack_from("<II", of, 128)),
            **dict(zip(("atime", "btime", "ctime", "mtime"), times))}


def way(file):
    """A path to a file that is held with O_PATH, for calls that take no such descriptor."""
    return f"/proc/self/fd/{file}"


def keys_of(file):
    """The names of its extended attributes, sorted: their order is nobody's promise."""
    return sorted(map(os.fsencode, os.listxattr(way(file))))


def look(directory, name):
    return os.open(name, os.O_PATH | os.O_NOFOLLOW, dir_fd=directory)


def opened(file, flags, act):
    """Does something with a file that is opened meanwhile by its descriptor of O_PATH."""
    opened_ = os.open(way(file), flags)
    try:
        return act(opened_)
    finally:
        os.close(opened_)


class Node:
    """A node that is known: the descriptor of the file beside, and how many lookups of it were given."""
    def __init__(self, file):
        self.file, self.given, self.born = file, 0, None
        is_so = os.fstat(file)
        self.inode = is_so.st_ino
        self.kind = {stat.S_IFDIR: "d", stat.S_IFLNK: "l", stat.S_IFREG: "f"}.get(stat.S_IFMT(is_so.st_mode), "s")


class Session:
    """A tree, and a folder of a tmpfs, which begin empty."""
    LENGTH = 1500

    def __init__(self, places, number):
        library, folder = places
        os.umask(0)
        self.folder = f"{folder}/mirror-{os.getpid()}-{number}"
        os.mkdir(self.folder, 0o755)
        self.library = Library(library)
        self.nodes = {1: Node(os.open(self.folder, os.O_PATH))}
        self.found, self.is_slow, self.held = [], False, set()

    def pick(self, of):
        """The node that a choice of `generate` stands for: by a number, among those of these kinds."""
        kinds, number = of
        # (the root, if there is none of these kinds)
        fit = [node for node, is_so in self.nodes.items() if is_so.kind in kinds] or [1]
        return fit[number % len(fit)]

    def file(self, node):
        return self.nodes[node].file

    def step(self, operation):
        """Does an operation on both sides, and gives what differed."""
        group, name, *words = operation
        self.found, self.operation, self.library.group = [], name, group
        # (of the operation itself, so that a part of a session is as slow as the whole)
        self.is_slow = zlib.crc32(repr(operation).encode()) % 64 == 0
        getattr(self, name.lower())(*words)
        self.library.group = 0
        return self.found

    def note(self, what):
        """Notes a difference, with the operation that shows it."""
        self.found.append(f"{self.operation}: {what}")

    def both(self, request, call, watched=()):
        """The answers, if both have one; and whether times moved alike of the nodes that are watched. Within a
        tick of its clock a tmpfs may leave a time as it was: whether it does is looked at once in a while. That
        of access is looked at where on both sides it is no later than the last change, or on none."""
        watched = [node for node in dict.fromkeys(watched) if node in self.nodes]
        before = [self.times(node) for node in watched]
        if self.is_slow and watched:
            self.await_tick(before)
        first = second = None
        answers = []
        LIBC.setfsgid(self.library.group)
        try:
            second_answer = call()
        except OSError as error:
            second = error.errno
        finally:
            LIBC.setfsgid(0)
        try:
            answers.append(request())
        except OSError as error:
            first = error.errno
        if first != second:
            names = [errno.errorcode.get(number, str(number)) if number else "ok" for number in (first, second)]
            self.note(", ".join(names))
            return None
        if first:
            return None
        for node, (ours, theirs) in zip(watched, before):
            now = self.times(node)
            for at, which in enumerate(("mtime", "ctime", "atime")):
                if which == "atime" and (ours[2] <= max(ours[:2])) != (theirs[2] <= max(theirs[:2])):
                    continue
                moves = now[0][at] != ours[at]
                if moves != (now[1][at] != theirs[at]) and (self.is_slow or not moves):
                    self.note(f"{which} of {WATCHED[self.nodes[node].kind]} {'moves' if moves else 'does not move'}")
        return answers[0], second_answer

    def same(self, what, request, call, watched):
        """Whether both have an answer. Notes that these are another of what it is, if they differ."""
        answers = self.both(request, call, watched)
        if answers and answers[0] != answers[1]:
            self.note(what)
        return bool(answers)

    @staticmethod
    def await_tick(before):
        """Waits until the clock of a tmpfs is past all times of its nodes that aren't to come."""
        last = max((it for _, theirs in before for it in theirs if it <= time.time_ns()), default=0)
        time.sleep(0.011)
        while time.clock_gettime_ns(CLOCK_REALTIME_COARSE) <= last:
            time.sleep(0.001)

    def times(self, node):
        """Times of change, of status and of access, ours and those of the tmpfs."""
        ours, theirs = self.library.getattr(node), os.fstat(self.file(node))
        return (tuple(ours[which] for which in ("mtime", "ctime", "atime")),
                (theirs.st_mtime_ns, theirs.st_ctime_ns, theirs.st_atime_ns))

    def compare(self, node, ours=None):
        """Attributes side by side; what differs is then made the same."""
        ours, theirs, of = ours or self.library.getattr(node), os.fstat(self.file(node)), self.nodes[node]
        for key in ("mode", "nlink", "uid", "gid", "size", "rdev"):
            # (a tmpfs counts 20 bytes for each name of a directory)
            if ours[key] != getattr(theirs, "st_" + key) and (key != "size" or of.kind != "d"):
                self.note(f"{key} of {WATCHED[of.kind]}")
                if key == "mode" and of.kind != "l":
                    os.chmod(way(of.file), ours["mode"] & 0o7777)
                elif key in ("uid", "gid"):
                    LIBC.fchownat(of.file, b"", ours["uid"], ours["gid"], AT_EMPTY_PATH)

    def learn(self, answers):
        """An entry that was answered, and the descriptor of the same name."""
        (node, attributes), file = answers
        inode = os.fstat(file).st_ino
        if node in self.nodes:
            if self.nodes[node].inode != inode:
                self.note("a node leads to another inode")
            os.close(file)
        else:
            if any(of.inode == inode for of in self.nodes.values()):
                self.note("two nodes for one inode")
            self.nodes[node] = Node(file)
        self.nodes[node].given += 1
        self.compare(node, attributes)

    def known(self, directory, name):
        """The node of a name, if it is known."""
        try:
            file = look(self.file(directory), name)
        except OSError:
            return None
        inode = os.fstat(file).st_ino
        os.close(file)
        return next((node for node, of in self.nodes.items() if of.inode == inode), None)

    # A request each.

    def lookup(self, of, name):
        """LOOKUP, and open(2) with O_PATH."""
        parent = self.pick(of)
        if answers := self.both(lambda: self.library.entry(Op.LOOKUP, parent, name + b"\0"),
                                lambda: look(self.file(parent), name), (parent,)):
            self.learn(answers)

    def make(self, of, name, opcode, body, call):
        """A request that makes a name, and the call that does so in a directory."""
        parent = self.pick(of)

        def made():
            call(self.file(parent))
            return look(self.file(parent), name)

        if answers := self.both(lambda: self.library.entry(opcode, parent, body), made, (parent,)):
            self.learn(answers)
            self.compare(parent)

    def create(self, of, name, mode):
        """CREATE, and open(2) with O_CREAT and O_EXCL."""
        flags = os.O_CREAT | os.O_WRONLY | os.O_EXCL
        self.make(of, name, Op.CREATE, record(Op.CREATE, flags=flags, mode=0o100000 | mode) + name + b"\0",
                  lambda directory: os.close(os.open(name, flags, mode, dir_fd=directory)))

    def tmpfile(self, of, mode, is_alone):
        """TMPFILE, and open(2) with O_TMPFILE."""
        parent = self.pick(of)
        flags = os.O_TMPFILE | os.O_RDWR | (os.O_EXCL if is_alone else 0)
        body = record(Op.TMPFILE, flags=flags, mode=0o100000 | mode) + b"/\0"
        if answers := self.both(lambda: self.library.entry(Op.TMPFILE, parent, body),
                                lambda: os.open(".", flags, mode, dir_fd=self.file(parent)), (parent,)):
            self.learn(answers)

    def mknod(self, of, name, kind, mode):
        """MKNOD, and mknod(2)."""
        bits, device = SPECIAL.get(kind, (stat.S_IFREG, 0))
        self.make(of, name, Op.MKNOD, record(Op.MKNOD, mode=bits | mode, rdev=device) + name + b"\0",
                  lambda directory: os.mknod(name, bits | mode, device, dir_fd=directory))

    def mkdir(self, of, name, mode):
        self.make(of, name, Op.MKDIR, record(Op.MKDIR, mode=mode) + name + b"\0",
                  lambda directory: os.mkdir(name, mode, dir_fd=directory))

    def symlink(self, of, name, text):
        self.make(of, name, Op.SYMLINK, name + b"\0" + text + b"\0",
                  lambda directory: os.symlink(text, name, dir_fd=directory))

    def link(self, of, into, name):
        """LINK, and linkat(2)."""
        node, parent = self.pick(of), self.pick(into)

        def call():
            calls.check(LIBC.linkat(self.file(node), b"", self.file(parent), name, AT_EMPTY_PATH))
            return look(self.file(parent), name)

        body = record(Op.LINK, of_node=node) + name + b"\0"
        if answers := self.both(lambda: self.library.entry(Op.LINK, parent, body), call, (node, parent)):
            self.learn(answers)
            self.compare(node)

    def remove(self, of, name, opcode, call):
        """UNLINK or RMDIR, and the call for that."""
        parent = self.pick(of)
        victim = self.known(parent, name)
        watched = (parent, victim) if victim else (parent,)
        if self.both(lambda: self.library.ask(opcode, parent, name + b"\0"),
                     lambda: call(name, dir_fd=self.file(parent)), watched):
            for node in watched:
                self.compare(node)

    def unlink(self, of, name):
        self.remove(of, name, Op.UNLINK, os.unlink)

    def rmdir(self, of, name):
        self.remove(of, name, Op.RMDIR, os.rmdir)

    def rename(self, of, name, into, new, flags):
        """RENAME or RENAME2, and renameat2(2) with the same flags."""
        old_parent, new_parent = self.pick(of), self.pick(into)
        moved = [node for node in (self.known(old_parent, name), self.known(new_parent, new)) if node]
        names = name + b"\0" + new + b"\0"

        def request():
            if flags:
                body = record(Op.RENAME2, to_folder=new_parent, flags=flags) + names
                return self.library.ask(Op.RENAME2, old_parent, body)
            return self.library.ask(Op.RENAME, old_parent, record(Op.RENAME, to_folder=new_parent) + names)

        def call():
            calls.check(LIBC.renameat2(self.file(old_parent), name, self.file(new_parent), new, flags))

        watched = (old_parent, new_parent, *moved)
        if self.both(request, call, watched):
            for node in dict.fromkeys(watched):
                self.compare(node)

    def setattr(self, of, what, mode, size, owner, when):
        """SETATTR of a mode, an owner, a size or times, and the call for that."""
        node = self.pick(of)
        file, kind = self.file(node), self.nodes[node].kind
        if what == "mode" and kind == "l":
            return
        # (a kernel that leaves privileges to the tree asks for them by 0x800)
        # FATTR_: mode 1, uid and gid 6, size 8, times 0x30, and with `now` 0x180; 0x800 is KILL_SUIDGID.
        valid = {"mode": 1, "owner": 6 if kind == "d" else 0x806, "size": 8, "times": 0x30, "now": 0x1B0}[what]
        seconds, nanoseconds = when if what == "times" else (0, 0)
        body = record(Op.SETATTR, valid=valid, size=size, atime=seconds, mtime=seconds, atimensec=nanoseconds,
                      mtimensec=nanoseconds, mode=mode, uid=owner[0], gid=owner[1])
        same = what == "size" and kind == "f" and os.fstat(file).st_size == size

        def call():
            if what == "mode":
                os.chmod(way(file), mode)
            elif what == "owner":
                calls.check(LIBC.fchownat(file, b"", *owner, AT_EMPTY_PATH))
            elif what == "size":
                if kind == "l":
                    raise OSError(errno.EINVAL, "")
                os.truncate(way(file), size)
            else:
                times = struct.pack("<qqqq", seconds, nanoseconds, seconds, nanoseconds) if what == "times" else None
                calls.check(LIBC.utimensat(file, b"", times, AT_EMPTY_PATH))

        self.operation = "SETATTR of the size that it has" if same else f"SETATTR of {what}"
        ask = lambda: self.library.attributes(self.library.ask(Op.SETATTR, node, body), 16)
        if answers := self.both(ask, call, (node,)):
            self.compare(node, answers[0])
            if what == "times" and answers[0]["mtime"] != when:
                self.note("another time")

    def write(self, of, at, length, byte):
        """WRITE, and pwrite(2)."""
        node = self.pick(of)
        body = record(Op.WRITE, offset=at, size=length) + bytes([byte]) * length
        call = self.on_file(node, os.O_WRONLY, lambda file: os.pwrite(file, bytes([byte]) * length, at))
        ask = lambda: struct.unpack_from("<I", self.library.ask(Op.WRITE, node, body))[0]
        if self.same("another count", ask, call, (node,)):
            self.compare(node)

    def on_file(self, node, flags, act):
        """A call on a file that is opened for it. What a kernel would not send, of a link, is EINVAL."""
        def call():
            if self.nodes[node].kind == "l":
                raise OSError(errno.EINVAL, "")
            return opened(self.file(node), flags, act)
        return call

    def read(self, of, at, length):
        """READ, and pread(2)."""
        node = self.pick(of)
        body = record(Op.READ, offset=at, size=length)
        call = self.on_file(node, os.O_RDONLY, lambda file: os.pread(file, length, at))
        self.operation += "" if length else " of no byte"
        self.same("other bytes", lambda: self.library.ask(Op.READ, node, body, 16 + length), call, (node,))

    def open(self, of, flags):
        """OPEN, and open(2)."""
        node = self.pick(of)
        if self.nodes[node].kind == "f":
            if self.both(lambda: self.library.ask(Op.OPEN, node, record(Op.OPEN, flags=flags)),
                         lambda: opened(self.file(node), flags, lambda file: None), (node,)):
                self.compare(node)

    def readlink(self, of):
        """READLINK, and readlink(2)."""
        node = self.pick(of)

        def call():
            if self.nodes[node].kind != "l":
                raise OSError(errno.EINVAL, "")
            return os.readlink(b"", dir_fd=self.file(node))

        self.same("another text", lambda: self.library.ask(Op.READLINK, node), call, (node,))

    def may_have(self, node, key):
        """Whether a kernel hands on what is asked of an attribute."""
        return self.nodes[node].kind in ("df" if key.startswith(b"user.") else "dfs")

    def setxattr(self, of, key, length, byte, flags):
        """SETXATTR, and setxattr(2)."""
        node = self.pick(of)
        if self.may_have(node, key):
            value = bytes([byte]) * length
            body = record(Op.SETXATTR, size=length, flags=flags) + key + b"\0" + value
            self.both(lambda: self.library.ask(Op.SETXATTR, node, body),
                      lambda: os.setxattr(way(self.file(node)), key, value, flags), (node,))

    def getxattr(self, of, key):
        """GETXATTR, and getxattr(2)."""
        node = self.pick(of)
        if self.may_have(node, key):
            self.same("another value", lambda: self.value(node, key, 1000),
                      lambda: os.getxattr(way(self.file(node)), key), (node,))

    def value(self, node, key, size):
        return self.library.ask(Op.GETXATTR, node, record(Op.GETXATTR, size=size) + key + b"\0")

    def keys(self, node):
        return sorted(self.library.ask(Op.LISTXATTR, node, record(Op.LISTXATTR, size=60000)).split(b"\0")[:-1])

    def listxattr(self, of):
        """LISTXATTR, and listxattr(2), in the order of names."""
        node = self.pick(of)
        if self.nodes[node].kind != "l":
            self.same("other names", lambda: self.keys(node), lambda: keys_of(self.file(node)), (node,))

    def removexattr(self, of, key):
        """REMOVEXATTR, and removexattr(2)."""
        node = self.pick(of)
        if self.may_have(node, key):
            self.both(lambda: self.library.ask(Op.REMOVEXATTR, node, key + b"\0"),
                      lambda: os.removexattr(way(self.file(node)), key), (node,))

    def fallocate(self, of, at, length, mode):
        """FALLOCATE, and fallocate(2)."""
        node = self.pick(of)
        if self.nodes[node].kind != "f":
            return
        if mode:
            self.operation += " " + {1: "KEEP_SIZE", 3: "PUNCH_HOLE"}[mode]
        if mode < calls.PUNCH_HOLE:
            self.held.add(self.nodes[node].inode)
        before = opened(self.file(node), os.O_RDONLY, lambda file: os.pread(file, 1 << 20, 0))
        call = lambda: opened(self.file(node), os.O_RDWR, lambda file: calls.allocate(file, mode, at, length))
        body = record(Op.FALLOCATE, offset=at, length=length, mode=mode)
        if self.both(lambda: self.library.ask(Op.FALLOCATE, node, body), call, (node,)):
            self.compare(node)
        elif self.found:
            # Of the two one alone has it: the bytes are as they were.
            opened(self.file(node), os.O_RDWR,
                   lambda file: (os.ftruncate(file, len(before)), os.pwrite(file, before, 0)))

    def lseek(self, of, whence, at):
        """LSEEK for data or a hole, and lseek(2)."""
        node = self.pick(of)
        if self.nodes[node].kind != "f":
            return
        if self.nodes[node].inode in self.held:
            self.operation += " after FALLOCATE"
        body = record(Op.LSEEK, offset=at, whence=whence)
        call = self.on_file(node, os.O_RDONLY, lambda file: os.lseek(file, at, whence))
        ask = lambda: struct.unpack("<Q", self.library.ask(Op.LSEEK, node, body))[0]
        self.same("another place", ask, call, (node,))

    def getattr(self, of):
        self.compare(self.pick(of))

    def statx(self, of):
        """STATX, which is held against statx(2) and against GETATTR, and whose birth stays."""
        node = self.pick(of)
        buffer = ctypes.create_string_buffer(256)
        if LIBC.statx(self.file(node), b"", AT_EMPTY_PATH, 0xFFF, buffer):
            raise OSError(ctypes.get_errno(), "statx")
        ours, theirs = self.library.statx(node), told(buffer.raw)
        seen, kind = self.nodes[node], WATCHED[self.nodes[node].kind]
        for key in ("mask", "mode", "nlink", "uid", "gid", "size", "rdev"):
            if ours[key] != theirs[key] and (key != "size" or seen.kind != "d"):
                self.note(f"{key} of {kind}")
        if any(ours[key] != value for key, value in self.library.getattr(node).items() if "time" in key):
            self.note(f"times of {kind}, which GETATTR does not tell")
        born = ours["btime"], theirs["btime"]
        seen.born = seen.born or born
        if seen.born != born or not ours["btime"][0]:
            self.note(f"birth of {kind}")

    def ioctl(self, of, command):
        """IOCTL, and ioctl(2)."""
        node, (number, given, length) = self.pick(of), command
        body = struct.pack("<QIIQII", 0, 0, number, 0, 0 if length else len(given), length) + (b"" if length else given)
        call = self.on_file(node, os.O_RDONLY, lambda file: bytes(16) + fcntl.ioctl(file, number, given)[:length])
        self.same("another value", lambda: self.library.ask(IOCTL, node, body), call, (node,))

    def forget(self, of, part, batch):
        """Gives back some or all lookups of a node, by FORGET or BATCH_FORGET."""
        node = self.pick(of)
        given = self.nodes[node].given
        if node == 1 or not given:
            return
        count = given if part < 0.5 else max(1, int(given * part))
        if batch:
            self.library.ask(Op.BATCH_FORGET, 0, record(Op.BATCH_FORGET, count=1) + struct.pack("<QQ", node, count))
        else:
            self.library.ask(Op.FORGET, node, record(Op.FORGET, lookups=count))
        self.nodes[node].given -= count
        if not self.nodes[node].given:
            os.close(self.nodes.pop(node).file)

    def readdir(self, of, plus, size):
        self.listing(self.pick(of), plus, size)

    def listing(self, node, plus, size=60000):
        """The names of a directory, in pieces."""
        if self.nodes[node].kind != "d":
            try:
                self.pieces(node, plus, size)
                self.note("what is no directory is read")
            except OSError as error:
                if error.errno != errno.ENOTDIR:
                    self.note(f"{errno.errorcode[error.errno]}, ENOTDIR")
            return []

        def call():
            found = [(b".", 4), (b"..", 4)]
            with os.scandir(way(self.file(node))) as entries:
                for entry in entries:
                    mode = entry.stat(follow_symlinks=False).st_mode
                    found.append((os.fsencode(entry.name), stat.S_IFMT(mode) >> 12))
            return found

        # (one that was taken out Linux doesn't read, so no time of it moves)
        watched = (node,) if os.fstat(self.file(node)).st_nlink else ()
        answers = self.both(lambda: self.pieces(node, plus, size), call, watched)
        if not answers:
            return []
        ours, theirs = answers
        if len(set(ours)) != len(ours):
            self.note("a name twice")
        if sorted(ours) != sorted(theirs):
            self.note("other names")
        return ours

    def pieces(self, node, plus, size):
        """The names of a directory and their kinds, by as many requests of this size as it takes."""
        at, names = 0, []
        opcode = Op.READDIRPLUS if plus else Op.READDIR
        while bytes_ := self.library.ask(opcode, node, record(opcode, offset=at, size=size), 16 + size):
            place = 0
            while place < len(bytes_):
                entry = bytes_[place:place + 128] if plus else None
                place += 128 if plus else 0
                inode, at, length, kind = struct.unpack_from("<QQII", bytes_, place)
                name = bytes_[place + 24:place + 24 + length]
                # (a record of 24 bytes and its name, up to a multiple of 8)
                place += (24 + length + 7) // 8 * 8
                names.append((name, kind))
                if plus and struct.unpack_from("<Q", entry)[0]:
                    self.learn(((inode, self.library.attributes(entry, 40)), look(self.file(node), name)))
        return names

    def check(self):
        """All of the tree, side by side. What is looked up for it is forgotten again."""
        self.found, self.operation = [], "in the end"
        before = {node: of.given for node, of in self.nodes.items()}
        self.walk(1, 0)
        for node, of in list(self.nodes.items()):
            given = of.given - before.get(node, 0)
            if given and node != 1:
                self.library.ask(Op.FORGET, node, record(Op.FORGET, lookups=given))
            of.given -= given
            if node not in before:
                os.close(self.nodes.pop(node).file)
        return self.found

    def walk(self, node, depth):
        """Compares a node, and all below it."""
        self.compare(node)
        of = self.nodes[node]
        if of.kind == "f":
            theirs = opened(of.file, os.O_RDONLY, lambda file: os.pread(file, 1 << 20, 0))
            ours = b""
            while piece := self.library.ask(Op.READ, node, record(Op.READ, offset=len(ours), size=60000)):
                ours += piece
            if ours != theirs:
                self.note("contents")
        elif of.kind == "l" and self.library.ask(Op.READLINK, node) != os.readlink(b"", dir_fd=of.file):
            self.note("text of a symbolic link")
        if of.kind != "l":
            keys = self.keys(node)
            if keys != keys_of(of.file):
                self.note("attributes")
            for key in keys if keys == keys_of(of.file) else []:
                if self.value(node, key, 60000) != os.getxattr(way(of.file), key):
                    self.note("value of an attribute")
        # (a loop of directories would be a fault, and must come to an end)
        if of.kind == "d" and depth < 40:
            # (READDIRPLUS and READDIR by turns)
            for name, _ in self.listing(node, depth % 2 == 0):
                if name not in (b".", b".."):
                    child = self.library.entry(Op.LOOKUP, node, name + b"\0")
                    self.learn((child, look(of.file, name)))
                    self.walk(child[0], depth + 1)

    def finish(self):
        """Takes all apart: nothing may be left."""
        self.found, self.operation = [], "in the end"
        self.empty(1)
        for node, of in self.nodes.items():
            if of.given and node != 1:
                self.library.ask(Op.FORGET, node, record(Op.FORGET, lookups=of.given))
        for key in os.listxattr(way(self.file(1))):
            self.library.ask(Op.REMOVEXATTR, 1, os.fsencode(key) + b"\0")
        blocks, free, _, files, left = struct.unpack_from("<QQQQQ", self.library.ask(Op.STATFS, 1))
        # (the root stays)
        if free != blocks or left != files - 1:
            self.note("something is left once all is given back")
        return self.found

    def end(self):
        for of in self.nodes.values():
            os.close(of.file)
        self.library.end()
        shutil.rmtree(self.folder)

    def empty(self, node):
        """Removes all below a node."""
        for name, kind in self.pieces(node, False, 60000):
            if name not in (b".", b".."):
                if kind == 4:
                    child = self.library.entry(Op.LOOKUP, node, name + b"\0")
                    self.learn((child, look(self.file(node), name)))
                    self.empty(child[0])
                self.library.ask(Op.RMDIR if kind == 4 else Op.UNLINK, node, name + b"\0")
