"""Well-formed requests by a seed, for replaced.py, and what of their replies does not depend on the folder."""
import collections
import os
import struct

import requests
from shapes import SHAPES, Op

ROOT = 1
# How many requests a session begins with, by which it gets its first nodes and handles.
FIRST = 17
# Those of `fill`, some that are there nowhere, and some for what is made.
NAMES = [*(b"f%d" % i for i in range(30)), *2 * (b"d1", b"d2", b"l", b"h2", b"none", b".", b"..", b"new"),
         *(b"n%d" % i for i in range(8))]
# Numbers of nodes that may not be there.
INODES = 0, 1, 99999, 2**64 - 1
ENTRIES = {1, 6, 8, 9, 13, 35}
LISTINGS = {28, 44}
# A number that each daemon gave out: of a node, or of an open file or directory, or of the node of that.
Ref = collections.namedtuple("Ref", "kind at")
# `parts` are bytes and numbers, a number is one of 8 bytes or a Ref.
Request = collections.namedtuple("Request", "opcode node parts room cuts owner extensions")
# Fields of attributes that depend on the folder: the inode number, the times and their nanoseconds.
OF_FOLDER = (0, 8), (24, 48), (48, 60)
# How many bytes of a reply's statistics say how full the file system is.
FULLNESS = 16, 56
ATTRIBUTES = b"user.one", b"user.two", b"trusted.x", b"bad"
# How often each opcode is asked, and two numbers that are none.
OPCODES = {**{opcode: shape.often for opcode, shape in SHAPES.items() if shape.often}, 52: .3, 99: .3}


def fill(folder):
    """Makes the files of a new session in an empty folder."""
    os.makedirs(folder + "/d1/d2")
    for i in range(30):
        with open(f"{folder}/d1/f{i}", "wb") as file:
            file.write(bytes([i]) * (i * 97))
    os.symlink("d1/f3", folder + "/l")
    os.link(folder + "/d1/f2", folder + "/h2")
    os.setxattr(folder + "/d1/f1", "user.one", b"1")


def tree(folder):
    """All that is in a folder, but for times."""
    found = []
    for at, folders, files in os.walk(folder):
        for path in sorted(os.path.join(at, name) for name in folders + files):
            stat = os.lstat(path)
            kind = stat.st_mode >> 12
            if kind == 8:
                with open(path, "rb") as file:
                    content = hash(file.read(1 << 20))
            else:
                content = os.readlink(path) if kind == 10 else None
            sizes = (stat.st_nlink, stat.st_size) if kind != 4 else ()
            names = sorted(os.listxattr(path, follow_symlinks=False))
            values = [(name, os.getxattr(path, name, follow_symlinks=False)) for name in names]
            found.append((os.path.relpath(path, folder), stat.st_mode, stat.st_uid, stat.st_gid, stat.st_rdev, sizes,
                          content, values))
    return sorted(found)


class Client:
    """What a client of one daemon has: its nodes, and its open files and directories with their nodes."""

    def __init__(self):
        """What a client was given so far, which its requests may name. The root is there from the beginning."""
        self.had = {"node": [ROOT], "file": [], "file's node": [], "directory": [], "directory's node": []}
        self.folders = {0}

    def number(self, it):
        """The number that a server gave for it: each server has its own."""
        return self.had[it.kind][it.at] if isinstance(it, Ref) else it

    def build(self, it):
        """A line of the request."""
        body = b"".join(part if isinstance(part, bytes) else struct.pack("<Q", self.number(part)) for part in it.parts)
        uid, gid = it.owner
        made = requests.request(it.opcode, body, node=self.number(it.node), uid=uid, gid=gid, extensions=it.extensions // 8)
        return requests.line(it.room, made, [cut for cut in it.cuts if cut < len(made)])

    def take(self, reply, mode):
        """Learns the node at the beginning of an entry, and puts its place in the list instead."""
        nodes, number = self.had["node"], struct.unpack_from("<Q", reply)[0]
        if number == 0:
            return
        if number not in nodes:
            nodes.append(number)
        at = nodes.index(number)
        if mode >> 12 == 4:
            self.folders.add(at)
        struct.pack_into("<Q", reply, 0, at + 1)

    def plain(self, request, reply):
        """Learns from a reply, and gives it without what depends on the folder and on the daemon."""
        reply, opcode = bytearray(reply), request.opcode
        if len(reply) <= 16:
            return bytes(reply)
        if opcode in ENTRIES:
            self.entry(reply, 16)
        if opcode in (Op.GETATTR, Op.SETATTR):
            hide(reply, 32)
        if opcode == Op.STATFS:
            reply[FULLNESS[0]:FULLNESS[1]] = bytes(FULLNESS[1] - FULLNESS[0])
        if opcode in LISTINGS:
            self.listing(reply, opcode == Op.READDIRPLUS)
        if opcode in (Op.OPEN, Op.OPENDIR, Op.CREATE):
            at = 16 + 128 * (opcode == Op.CREATE)
            kind = "directory" if opcode == Op.OPENDIR else "file"
            node = struct.unpack_from("<Q", reply, 16)[0] - 1 if opcode == Op.CREATE else None
            self.had[kind].append(struct.unpack_from("<Q", reply, at)[0])
            self.had[kind + "'s node"].append(self.number(request.node) if node is None else self.had["node"][node])
            struct.pack_into("<Q", reply, at, 1)
        return bytes(reply)

    def entry(self, reply, at):
        """Learns the entry in a reply at this place, and takes out of it what depends on the folder."""
        part = reply[at:at + 128]
        self.take(part, struct.unpack_from("<I", part, 100)[0])
        reply[at:at + 128] = part
        hide(reply, at + 40)

    def listing(self, reply, plus):
        """Takes out of each record of a directory what depends on it; `plus` has entries before them."""
        at = 16
        while at < len(reply):
            if plus:
                self.entry(reply, at)
                at += 128
            reply[at:at + 8] = bytes(8)
            # A record is 24 bytes and the name, and begins at a multiple of 8.
            at += 24 + (struct.unpack_from("<I", reply, at + 16)[0] + 7 & ~7)


def hide(reply, at):
    """Zeros in place of what differs from run to run: numbers of the folder's file system, and times."""
    for start, end in OF_FOLDER:
        reply[at + start:at + end] = bytes(end - start)


class Maker:
    """Makes requests of what a client has, by a generator of random numbers."""

    def __init__(self, rng, client, options):
        self.rng, self.client = rng, client
        # SETXATTR_EXT, SECURITY_CTX and CREATE_SUPP_GROUP of INIT's options.
        self.long_setxattr = options >> 29 & 1
        self.contexts, self.groups = options >> 32 & 1, options >> 34 & 1

    def some(self, *of):
        return self.rng.choice(of)

    def node(self):
        """A node that is known, or seldom a number that may be none."""
        if self.rng.random() < .04:
            return self.some(*INODES)
        return Ref("node", self.rng.randrange(len(self.client.had["node"])))

    def folder(self):
        """A node that is known as a folder, or seldom any."""
        if self.rng.random() < .1:
            return self.node()
        return Ref("node", self.some(*sorted(self.client.folders)))

    def opened(self, kind):
        """The node and the handle of an open file or directory, seldom of two that are not one."""
        count = len(self.client.had[kind])
        if not count or self.rng.random() < .03:
            return self.node(), self.some(0, 424242)
        # Mostly one of the last: the others may be closed.
        at = max(0, count - 1 - int(self.rng.expovariate(.4)))
        node = self.node() if self.rng.random() < .05 else Ref(kind + "'s node", at)
        return node, Ref(kind, at)

    def name(self):
        return self.rng.choice(NAMES) + b"\0"

    def first(self):
        """The requests by which a session gets its first nodes and handles."""
        folder = Ref("node", 1)
        yield Request(1, ROOT, [b"d1\0"], "144", [40], (0, 0), 0)
        for i in range(8):
            yield Request(1, folder, [b"f%d\0" % i], "144", [40], (0, 0), 0)
        for i in range(2, 8):
            yield Request(14, Ref("node", i), [struct.pack("<II", 2, 0)], "32", [40], (0, 0), 0)
        for node in (ROOT, folder):
            yield Request(27, node, [bytes(8)], "32", [40], (0, 0), 0)

    def session(self, count):
        """That many requests, each made once the one before it was answered."""
        yield from self.first()
        for _ in range(count - FIRST):
            yield self.make()

    def make(self):
        """One request, by how often its opcode is asked, with its room and its cuts."""
        opcode = self.rng.choices(list(OPCODES), OPCODES.values())[0]
        node, parts, room = self.body(opcode)
        extensions = self.extensions() if opcode in SHAPES and "extensions" in SHAPES[opcode].parts else b""
        # (more room than the reply needs; FORGET and BATCH_FORGET have none)
        if self.rng.random() < .03 and opcode not in (2, 42):
            room += self.some(8, 100)
        uid = self.some(0, 0, 0, 1000)
        cuts = sorted({*((40,) if self.rng.random() < .7 else ()),
                       *(self.rng.randrange(1, 200) for _ in range(self.some(0, 0, 0, 1, 4)))})
        return Request(opcode, node, [*parts, extensions], self.cut(room), cuts, (uid, uid), len(extensions))

    def cut(self, room):
        """A room of `room` bytes in pieces, as `16+8`."""
        pieces = []
        for _ in range(self.some(0, 0, 1, 1, 2, 5)):
            pieces.append(self.some(16, self.rng.randint(1, room)) if room else 0)
            if not 0 < pieces[-1] < room:
                pieces.pop()
                break
            room -= pieces[-1]
        return "+".join(map(str, [*pieces, room]))

    def extensions(self):
        """Blocks of extensions, in either order, as far as the session agreed on them."""
        context = group = b""
        if self.contexts:
            value = self.some(b"system_u:object_r:x:s0\0", b"v", self.rng.randbytes(40))
            body = struct.pack("<II", len(value), 0) + self.some(b"security.selinux\0", b"user.context\0") + value
            body += bytes(-len(body) % 8)
            context = struct.pack("<II", 8 + len(body), 1) + body
            if self.rng.random() < .15:
                context = struct.pack("<II", 8, 0)
        if self.groups and self.rng.random() < .3:
            group = struct.pack("<IIII", 16, 32, 1, self.some(0, 6, 1000))
        return self.some(context + group, group + context)

    def body(self, opcode):
        """The node, the parts of the body, and the room for the reply."""
        shape = SHAPES.get(opcode)
        if not shape or shape.about == "unread":
            return self.node(), [bytes(64)], 16 + 40
        if opcode == Op.BATCH_FORGET:
            # (two pairs, of a node and how many lookups are given back)
            return 0, [struct.pack("<II", 2, 0), self.node(), self.some(0, 1), self.node(), 1], 0
        if opcode in (Op.GETATTR, Op.SETATTR):
            return self.attributes(opcode)
        values = {it.name: self.some(*it.values or [0]) for it in shape.fields}
        node = self.refer(shape.about, values)
        after = [self.part(it) for it in shape.parts if it != "extensions"]
        if opcode in (Op.WRITE, Op.SETXATTR):
            # (the size of what follows the record)
            values["size"] = len(after[-1])
        record = [values[it.name] if it.size == 8 else struct.pack("<I", values[it.name]) for it in shape.fields]
        if opcode == Op.SETXATTR and self.long_setxattr:
            record.append(struct.pack("<II", self.some(0, 1), 0))
        return node, [*record, *after], self.room(shape, values)

    def refer(self, about, values):
        """The node that a request is about; the fields that are nodes and handles are filled in."""
        if "to_folder" in values:
            values["to_folder"] = self.folder()
        if "of_node" in values:
            values["of_node"] = self.node()
        if "to_node" in values:
            values["to_node"], values["to_handle"] = self.opened("file")
        if about not in ("file", "directory"):
            return self.folder() if about == "folder" else self.node()
        node, values["handle"] = self.opened(about)
        return node

    def part(self, what):
        """What follows a record: the bytes of a name, a text or a value."""
        if what == "name":
            return self.name()
        if what == "attribute":
            return self.some(*ATTRIBUTES) + b"\0"
        if what == "text":
            return self.some(b"to", b"d1/f3", b"x" * 200) + b"\0"
        return self.rng.randbytes(self.some(0, 3, 300) if what == "value" else self.some(0, 1, 100, 4096, 70000))

    def room(self, shape, values):
        """For the reply: for the length of an attribute too, and for the longest link."""
        if shape.reply is None:
            return 16 + max(values.get("size", 4096), 8 if shape.about == "node" else 0)
        return shape.reply or self.some(0, 16)

    def attributes(self, opcode):
        """A GETATTR or SETATTR, of a node or by an open file: node, parts and room."""
        node, pack = self.node(), struct.pack
        owner, handle = self.opened("file")
        has = self.some(0, 0, 1)
        if opcode == Op.GETATTR:
            return owner if has else node, [pack("<II", has, 0), handle], 120
        # Bits of FATTR_: mode, uid, gid, size, times by value or now, the handle, ctime, and 1 << 11 for privileges.
        valid = self.some(1, 2, 4, 8, 16 + 32, 0x80 + 0x100 + 16 + 32, 8 + 64, 0x400, 6, 1 << 11, 0)
        size, mode = self.some(0, 10, 5000, 2**40), self.some(0o644, 0o4755, 0o100600)
        rest = pack("<QQQQQIIIIIIII", size, 0, 100, 200, 300, 1, 2, 3, mode, 0, self.some(0, 5), self.some(0, 6), 0)
        return owner if valid & 64 else node, [pack("<II", valid, 0), handle, rest], 120
