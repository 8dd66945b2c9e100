#!/usr/bin/env python3
"""Makes sessions of requests, as vfs_demo and test_sessions read them: the same for the same seed.

Usage: sessions.py SEED COUNT FOLDER script|memory
Writes sessions of COUNT requests in all, a file each, named by its number and its kind. `script` ones
are for the scripted file system of test_sessions, `memory` ones for the files in memory of vfs_demo. The
kinds take turns:

    valid        each opcode several times, as a kernel asks
    mixed        the same with a truncation, another length, bytes after it or other bytes here and there
    truncated    each beginning of a message
    lengths      each `len` in the header of a message
    rooms        each size of the room for its reply
    cuts         a message cut at each place, into single bytes, into random pieces with empty ones
    extensions   security contexts and groups, good and bad, in each order
    directories  READDIR and READDIRPLUS, of sizes that entries just fit or do not
    transfers    READ and WRITE of few and many bytes, to the last offset
    entries      requests that are answered an entry, in rooms that it fits and in smaller ones
    limits       a first line that sets the server's limit, and requests about its size
    hostile      bytes without sense, and headers that lead somewhere with bytes without sense after them
    mutated      requests that a kernel asked, with a byte, a number or a piece of them changed
    full         long runs of one opcode; in memory a thousand files and more
    told         scripted answers at their extremes: nodes, handles, errors, options, long and odd names of items
    badline      a line that is none, at the end

Beside them stand the sessions that kernels were recorded to ask, in the folder recorded.
"""
import pathlib
import random
import struct
import sys

HERE = pathlib.Path(__file__).resolve().parent
sys.path.append(str(HERE.parents[1] / "lib"))
import shapes  # noqa: E402
from shapes import SHAPES, Op  # noqa: E402

KINDS = ["valid", "mixed", "truncated", "lengths", "rooms", "cuts", "extensions", "directories", "transfers",
         "entries", "limits", "hostile", "mutated", "full", "told", "badline"]
# How many requests a session has, and those of other sizes.
LINES = 320
SIZES = {"full": 1070, "badline": 6}
# About how many bytes the answers to a session may have: a program that is tried writes at most 1 MiB.
MOST_ANSWERED = 800_000

SECURITY_CTX, CREATE_SUPP_GROUP, SETXATTR_EXT, INIT_EXT = 1 << 32, 1 << 34, 1 << 29, 1 << 30
ALL_EXTENSIONS = INIT_EXT | SECURITY_CTX | CREATE_SUPP_GROUP
# The bits of INIT's options that FUSE 7.38 has, and those that virtiofsd takes.
KNOWN = 0x117fbffffff
SUPPORTED = 0x10448449829
EVERY_BIT = (1 << 64) - 1
OPCODES = list(Op)
NAMING = shapes.having(lambda it: {"name", "attribute"} & set(it.parts))
ANSWERING_ENTRIES = shapes.having(lambda it: it.reply in (144, 160))
EXTENDED = shapes.having(lambda it: "extensions" in it.parts)
DIRECTORY = [Op.READDIR, Op.READDIRPLUS]
# What makes no call that is answered.
UNANSWERED = [Op.FORGET, Op.INTERRUPT, Op.DESTROY, Op.BATCH_FORGET]
# Numbers that are no opcode.
NO_OPCODES = [0, 7, 19, 52, 0xffffffff]


def u16(n):
    """Numbers as the protocol has them: little-endian, and cut to their width, so that any number can be asked for.
    """
    return struct.pack("<H", n & 0xffff)


def u32(n):
    return struct.pack("<I", n & 0xffffffff)


def u64(n):
    return struct.pack("<Q", n & 0xffffffffffffffff)


def recorded():
    """The recorded sessions: for each its name and its lines."""
    return [(file.stem, file.read_text().splitlines()) for file in sorted(HERE.glob("recorded/*.lines"))]


# (longer ones would fill a session)
RECORDED_LINES = [line for _, lines in recorded() for line in lines if len(line) < 4000]


class Session:
    """The lines of a session, one kind after another, until there are enough of them."""

    def __init__(self, rng, files, size):
        self.rng, self.files, self.size = rng, files, size
        self.lines, self.answered = [], 0
        self.unique = self.options = self.process = 0

    # Numbers and names, odd ones often.

    def odd64(self):
        """A number of 8 bytes, at an edge of something or any."""
        r = self.rng
        return r.choice([0, 1, 2, 3, 5, 7, 255, 4096, 65534, 65535, 65536, 1 << 20, 1 << 32, (1 << 63) - 1,
                         1 << 63, EVERY_BIT - 8, EVERY_BIT - 1, EVERY_BIT, r.getrandbits(64), r.getrandbits(16)])

    def odd32(self):
        """A number of 4 bytes, likewise."""
        r = self.rng
        return r.choice([0, 1, 2, 3, 4, 5, 6, 7, 8, 64, 100, 0o644, 0x1000, 0xffff, 1 << 20, (1 << 20) + 1,
                         0x7fffffff, 0x80000000, 0xffffffff, r.getrandbits(32), r.getrandbits(12)])

    def node(self):
        """A node: those that the files have, or any."""
        if self.files == "memory":
            return self.rng.choice([1, 1, 1, 1, 2, 2, 2, 3, 3, 4, 5, 0, 6, self.odd64()])
        return self.rng.choice([1, 1, 1, 2, 3, 1005, 0, self.odd64()])

    def parent(self):
        """Mostly the root, in which names are; or any node."""
        return 1 if self.rng.random() < 0.85 else self.node()

    def name(self):
        """The bytes of a name, which may be none."""
        r = self.rng
        if self.files == "memory":
            return r.choice([b"a", b"a", b"b", b"c", b"d", b"file", b".", b"..", b"", b"x" * r.randrange(1, 40)])
        length = r.choice([0, 1, 1, 1, 2, 3, 8, 30, 255])
        return bytes(r.choice(b"abcdefgxyz./\xff\x01") for _ in range(length))

    def a_process(self):
        """The scripted files answer by it: a fault where its rest by 8 is 7."""
        r = self.rng
        p = r.choice([r.getrandbits(32), r.randrange(1 << 12), r.randrange(1 << 12), 8 * r.randrange(500)])
        # (fewer faults than that, so that more calls are answered)
        if p % 8 == 7 and r.random() < 0.6:
            p -= 1
        if self.files == "script" and p >= 1 << 31 and r.random() < 0.8:
            p >>= 8
        return p

    # What follows the header.

    def context_block(self, count=None, good=True):
        """A block with that many security contexts, 0 or 1 if no count is given; or one that is cut or says another size."""
        r = self.rng
        count = (1 if r.random() < 0.85 else 0) if count is None else count
        value = r.randbytes(r.randrange(1, 12))
        label = r.choice([b"security.selinux", b"s", b""])
        body = u32(len(value)) + u32(r.choice([0, 0, r.getrandbits(32)])) + label + b"\0" + value
        if count == 0 and r.random() < 0.7:
            body = b""
        body += bytes(r.choice([0, 0, -len(body) % 8, 3]))
        if not good:
            body = r.choice([
                u32(0) + u32(0) + label + b"\0" + value,
                u32(len(value) + 1) + u32(0) + label + b"\0" + value,
                u32(len(value)) + u32(0) + b"no end",
                u32(len(value)) + u32(0),
                u32(len(value))[:r.randrange(5)],
                u32(0xffffffff) + u32(0) + label + b"\0" + value,
            ])
        return u32(8 + len(body)) + u32(count) + body

    def group_block(self, good=True):
        """A block with a group, or one that is wrong."""
        r = self.rng
        body = u32(1) + u32(r.choice([0, 1000, 0xffffffff])) + r.randbytes(r.choice([0, 0, 8, 1]))
        if not good:
            body = r.choice([u32(0) + u32(1), u32(2) + u32(1) + u32(2), u32(1), u32(1) + b"\1\2\3", b"", b"\1"])
        return u32(8 + len(body)) + u32(32) + body

    def extensions(self, wild=0.05):
        """The blocks that the session agreed on, in any order; with this chance one is spoilt, and then again with it."""
        r = self.rng
        blocks = []
        if self.options & SECURITY_CTX:
            blocks.append(self.context_block(good=r.random() >= wild / 2))
        if self.options & CREATE_SUPP_GROUP and r.random() < 0.6:
            blocks.append(self.group_block())
        r.shuffle(blocks)
        while r.random() < wild:
            self.spoil(blocks)
        return b"".join(blocks)

    def spoil(self, blocks):
        """Adds a block, takes one away or changes one."""
        r = self.rng
        what = r.randrange(9)
        at = r.randrange(len(blocks) + 1)
        if what == 0:
            blocks.insert(at, self.context_block(count=r.choice([0, 1, 2, 31])))
        elif what == 1:
            blocks.insert(at, self.context_block(count=1, good=False))
        elif what == 2:
            blocks.insert(at, self.group_block(good=r.random() < 0.3))
        elif what == 3:
            blocks.insert(at, u32(8 + at) + u32(r.choice([33, 64, 1 << 31, 0xffffffff])) + bytes(at))
        elif what == 4:
            blocks.insert(at, u32(r.randrange(8)) + u32(r.choice([0, 1, 32, 99])) + bytes(8))
        elif what == 5:
            blocks.insert(at, u32(r.choice([9, 40, 0x7fffffff, 0xffffffff])) + u32(r.choice([0, 1, 32, 99])))
        elif what == 6 and blocks:
            blocks.pop(r.randrange(len(blocks)))
        elif what == 7:
            blocks.append(r.randbytes(r.randrange(1, 8)))
        elif blocks:
            i = r.randrange(len(blocks))
            changed = bytearray(blocks[i])
            changed[r.randrange(len(changed))] = r.choice([0, 1, 7, 8, 255, r.getrandbits(8)])
            blocks[i] = bytes(changed)

    def field(self, it):
        """The bytes of a field of a record."""
        if it.name == "-":
            return bytes(it.size)
        if it.name == "umask":
            return u32(0o22)
        if it.name in ("to_folder", "of_node"):
            return u64(self.node())
        return u64(self.odd64()) if it.size == 8 else u32(self.odd32())

    def part(self, what):
        return self.extensions() if what == "extensions" else self.name() + b"\0"

    def record(self, opcode):
        """The record of an opcode. Fields that an answer depends on have values that matter."""
        r = self.rng
        if opcode == Op.SETATTR:
            return u32(r.choice([0, 0x40, 0xdbf, 0xffffffff, self.odd32()])) + r.randbytes(84)
        if opcode in (Op.MKNOD, Op.MKDIR):
            return r.randbytes(shapes.size(opcode))
        if opcode in (Op.RELEASE, Op.RELEASEDIR):
            flags = r.choice([0, 1, 2, 3, self.odd32()])
            return u64(self.odd64()) + u32(self.odd32()) + u32(flags) + u64(self.odd64())
        if opcode in (Op.GETXATTR, Op.LISTXATTR):
            return u32(r.choice([0, 1, 100, 1 << 20, (1 << 20) + 1, 0xffffffff])) + u32(0)
        if opcode == Op.FLUSH:
            return u64(self.odd64()) + r.randbytes(8) + u64(self.odd64())
        return b"".join(map(self.field, SHAPES[opcode].fields))

    def reply(self, opcode):
        """How long the scripted files make a reply whose length depends."""
        word = self.process >> 3
        if opcode == Op.READLINK:
            return 16 + word % 300
        return 24 if word % 3 == 0 else 16 + word // 3 % 500

    def body(self, opcode):
        """What follows the header, and how long the reply is at most, as far as it can be known."""
        r, shape = self.rng, SHAPES.get(opcode)
        if not shape:
            return r.randbytes(r.randrange(40)), 16
        if shape.about == "unread":
            return r.choice([b"", r.randbytes(r.randrange(60))]), shape.reply
        if opcode in (Op.READ, Op.WRITE):
            return self.transfer(opcode)
        if opcode in DIRECTORY:
            size = r.choice([0, 8, 23, 24, 31, 32, 96, 151, 152, 160, 319, 320, 480, 512, 1000, 4096])
            offset = r.choice([0, 0, 0, 1, 2, 3, 7, 22, self.odd64()])
            return shapes.record(opcode, handle=self.odd64(), offset=offset, size=size), 16 + size
        if opcode == Op.SETXATTR:
            return self.setxattr_body(), shape.reply
        if opcode == Op.INIT:
            return self.init_body(), shape.reply
        if opcode == Op.INTERRUPT:
            return r.choice([b"", u64(self.odd64())]), shape.reply
        if opcode == Op.BATCH_FORGET:
            return self.pairs(), 16
        if shape.fields and all(it.name == "-" for it in shape.fields):
            return r.choice([b"", bytes(shapes.size(opcode))]), shape.reply
        made = self.record(opcode) + b"".join(map(self.part, shape.parts))
        return made, self.reply(opcode) if shape.reply is None else shape.reply

    def setxattr_body(self):
        """The body of SETXATTR, whose record is longer if that was agreed on."""
        r = self.rng
        value = r.randbytes(r.choice([0, 1, 5, 300]))
        size = len(value) if r.random() < 0.9 else self.odd32()
        flags = u32(self.odd32())
        if self.options & SETXATTR_EXT:
            flags += u32(self.odd32()) + u32(0)
        return u32(size) + flags + self.name() + b"\0" + value

    def pairs(self):
        """The body of BATCH_FORGET, whose count may not be that of its pairs."""
        r = self.rng
        pairs = r.choice([0, 1, 2, 3, 20])
        count = pairs if r.random() < 0.85 else r.choice([pairs + 1, 65536, 65537, 0xffffffff, 0x10000000])
        return u32(count) + u32(0) + b"".join(u64(self.node()) + u64(self.odd64()) for _ in range(pairs))

    def transfer(self, opcode):
        """The body of a READ or WRITE, and how long its reply is."""
        r = self.rng
        size = r.choice([0, 1, 2, 3, 5, 8, 16, 64, 100])
        offset = r.choice([0, 0, 0, 1, 2, 3, 5, 60, self.odd64()])
        record = u64(self.odd64()) + u64(offset) + u32(size) + u32(self.odd32()) + u64(self.odd64())
        record += u32(self.odd32()) + u32(0)
        if opcode == Op.READ:
            return record, 16 + size
        return record + r.randbytes(r.choice([size, size, size, 0, max(0, size - 1), size + 1, size + 7])), 24

    def init_body(self):
        """The body of INIT."""
        r = self.rng
        flags = r.choice([KNOWN, EVERY_BIT, r.getrandbits(64), INIT_EXT | SECURITY_CTX, SETXATTR_EXT, 0,
                          INIT_EXT | CREATE_SUPP_GROUP, ALL_EXTENSIONS | SETXATTR_EXT, SUPPORTED])
        major, minor = r.choice([(7, 38)] * 8 + [(7, 27), (7, 26), (6, 99), (8, 0), (0, 0), (7, 0xffffffff),
                                                 (0xffffffff, 0)])
        body = u32(major) + u32(minor) + u32(self.odd32()) + u32(flags)
        if flags & INIT_EXT or r.random() < 0.3:
            body += u32(flags >> 32) + r.choice([bytes(44), r.randbytes(44)])
        return body

    # Messages and lines.

    def header(self, opcode, length, node, process):
        """A header with the next `unique`, of a message of this length."""
        self.unique += 1
        return u32(length) + u32(opcode) + u64(self.unique) + u64(node) + bytes(8) + u32(process) + bytes(4)

    def message(self, opcode):
        """A message, and how long its reply is."""
        r = self.rng
        self.unique += 1
        self.process = process = self.a_process()
        node = self.parent() if opcode in NAMING + DIRECTORY else self.node()
        body, reply = self.body(opcode)
        ids = u32(r.choice([0, 1000, 0xffffffff])) + u32(r.choice([0, 100, 0xffffffff]))
        unique = self.unique if r.random() < 0.95 else self.odd64()
        # The length of extensions in units of 8 bytes, which nobody looks at, and padding.
        tail = u16(r.choice([0, 0, len(body) // 8, 0xffff])) + u16(r.choice([0, 0, 0xffff]))
        head = u32(40 + len(body)) + u32(opcode) + u64(unique) + u64(node) + ids + u32(process) + tail
        return head + body, reply

    def cutting(self, length, wild):
        """Lengths that sum to this one: often one, else random ones, some of them 0."""
        r = self.rng
        if r.random() >= wild:
            return [length]
        pieces, left = [], length
        # (many pieces of no byte would come to no end)
        while left > 0 and len(pieces) < 400:
            piece = min(left, r.choice([0, 0, 1, 1, 2, 3, 8, 16, 39, 40, 41, r.randrange(0, left + 1)]))
            pieces.append(piece)
            left -= piece
        if left:
            pieces.append(left)
        return pieces + [0] * r.choice([0, 0, 1, 2]) or [0]

    def put(self, rooms, segments):
        """A line, or a STATFS where its answer might be too long."""
        room, length = sum(rooms), sum(len(it) for it in segments)
        # About how many characters the answer takes, in hexadecimal: of `full` the call has no data.
        cost = 2 * room + 20 if self.size > 1000 else 3 * room + 4 * length + 300
        if self.answered + cost > MOST_ANSWERED:
            rooms, segments, cost = [96], [self.header(Op.STATFS, 40, 1, 0)], 500
        self.answered += cost
        self.lines.append("+".join(map(str, rooms)) + " " + "+".join(it.hex() for it in segments))

    def line(self, message, room, wild=0.35):
        """Adds a request, with its message and its room cut with this chance."""
        segments, at = [], 0
        for length in self.cutting(len(message), wild):
            segments.append(message[at:at + length])
            at += length
        self.put(self.cutting(room, wild), segments)

    def room(self, reply):
        """A room for a reply of `reply` bytes: mostly of that size, else larger or smaller."""
        r = self.rng
        more = [reply + r.randrange(1, 40)] * 2
        less = [reply - 1, 16, 15, 0, r.randrange(0, reply + 2)]
        return max(0, r.choice([reply] * 6 + more + less))

    def good(self, opcode):
        """A message that breaks no rule."""
        message, reply = self.message(opcode)
        self.line(message, reply)

    def agree(self, flags=None):
        """A session's INIT. The scripted files want what the call before says."""
        r = self.rng
        # (the scripted file system takes its options by the process of the call before: those below, by the rest by 6)
        q = r.randrange(6) + 6 * r.randrange(20) if flags is None else 1
        if flags is None:
            flags = r.choice([EVERY_BIT, KNOWN, INIT_EXT | SECURITY_CTX, INIT_EXT | CREATE_SUPP_GROUP, SETXATTR_EXT,
                              ALL_EXTENSIONS | SETXATTR_EXT])
        # What the file system wants: that in memory DO_READDIRPLUS.
        wanted = 1 << 13
        if self.files == "script":
            self.line(self.header(Op.GETATTR, 56, 1, q * 8) + bytes(16), 120, 0)
            wanted = [0, KNOWN, SECURITY_CTX, SETXATTR_EXT, SECURITY_CTX | SETXATTR_EXT,
                      1 << 13 | 1 << 17 | 1 << 28 | SETXATTR_EXT | SECURITY_CTX][q % 6]
        body = u32(7) + u32(38) + u32(131072) + u32(flags)
        if flags & INIT_EXT:
            body += u32(flags >> 32) + bytes(44)
        # (without INIT_EXT there is no upper half)
        capable = flags & KNOWN if flags & INIT_EXT else flags & KNOWN & 0xffffffff
        self.options = capable & (wanted | SUPPORTED)
        self.line(self.header(Op.INIT, 40 + len(body), 0, 0) + body, 80, 0)

    # The kinds. Each adds some lines, and is asked again while there are too few.

    def valid(self):
        """Each opcode several times, in any order."""
        self.agree()
        opcodes = OPCODES * 3 + NAMING * 2 + [*DIRECTORY, Op.READ, Op.WRITE] * 3
        if self.files == "memory":
            opcodes += [Op.LOOKUP, Op.GETATTR, Op.CREATE, Op.UNLINK, Op.READ, Op.WRITE, *DIRECTORY] * 6
        self.rng.shuffle(opcodes)
        for opcode in opcodes:
            if opcode in (Op.INIT, Op.DESTROY) and self.rng.random() < 0.7:
                continue
            self.good(opcode)
            if opcode == Op.DESTROY:
                self.options = 0
                self.agree()

    def mixed(self):
        """Any requests, many of them changed, in rooms of any size."""
        r = self.rng
        if r.random() < 0.8:
            self.agree()
        for _ in range(120):
            opcode = r.choice(OPCODES + [15, 16, 28, 44, 35, 6, 9] * 2 + NO_OPCODES)
            message, reply = self.message(opcode)
            self.line(self.changed(message), self.room(reply))

    def changed(self, message):
        """The message, or in two of five times another."""
        r = self.rng
        what = r.randrange(10)
        if what == 0:
            return message[:r.randrange(len(message) + 1)]
        if what == 1:
            length = len(message)
            return u32(r.choice([0, 39, 40, 41, length - 1, length + 1, length + 7, 1052672, 1052673,
                                 0xffffffff])) + message[4:]
        if what == 2:
            return message + r.randbytes(r.randrange(1, 20))
        if what == 3:
            changed = bytearray(message)
            for _ in range(r.randrange(1, 4)):
                changed[r.randrange(len(changed))] = r.choice([0, 0, 1, 255, r.getrandbits(8)])
            return bytes(changed)
        return message

    def truncated(self):
        """Each beginning of a message."""
        self.agree()
        message, reply = self.message(self.rng.choice(OPCODES))
        for length in range(min(len(message), 300) + 1):
            self.line(message[:length], reply, 0.1)

    def lengths(self):
        """Each `len` in a message's header."""
        self.agree()
        message, reply = self.message(self.rng.choice(OPCODES))
        for length in [*range(min(len(message), 300) + 2), 1052672, 1052673, 0x80000000, 0xffffffff]:
            self.line(u32(length) + message[4:], reply, 0.1)

    def rooms(self):
        """Each room for a message's reply."""
        self.agree()
        message, reply = self.message(self.rng.choice(OPCODES))
        for room in range(min(reply, 200) + 2):
            self.line(message, room, 0.2)

    def cuts(self):
        """A message cut at each place, into single bytes, and into random pieces."""
        self.agree()
        message, reply = self.message(self.rng.choice(OPCODES))
        if len(message) > 300:
            message = message[:300]
        self.line(message, reply, 0)
        rooms = self.cutting(reply, 1)
        for at in range(len(message) + 1):
            self.put(rooms, [message[:at], message[at:]])
        self.put([1] * reply or [0], [bytes([it]) for it in message])
        for _ in range(10):
            self.line(message, reply, 1)

    def extensions_of_all_sorts(self):
        """Requests with extensions: many are spoilt, and some are of messages that say fewer bytes."""
        r = self.rng
        self.agree(r.choice([INIT_EXT | SECURITY_CTX, INIT_EXT | CREATE_SUPP_GROUP, ALL_EXTENSIONS, ALL_EXTENSIONS, 0]))
        plain = self.extensions
        self.extensions = lambda: plain(r.choice([0, 0.2, 0.6, 0.8]))
        for _ in range(150):
            message, reply = self.message(r.choice(EXTENDED))
            if r.random() < 0.1:
                message = u32(len(message) - r.randrange(1, 10)) + message[4:]
            self.line(message, reply)
        self.extensions = plain

    def create(self, name, extensions=b""):
        body = bytes(16) + name + b"\0" + extensions
        self.line(self.header(Op.CREATE, 40 + len(body), 1, 0) + body, 160, 0)

    def directories(self):
        """Directories read with sizes about what one entry takes."""
        r = self.rng
        self.agree()
        if self.files == "memory":
            for _ in range(r.choice([0, 3, 8])):
                name = bytes(r.choice(b"bcdefg") for _ in range(r.choice([1, 2, 7, 8, 9, 40])))
                self.create(name, self.extensions(0))
        for _ in range(100):
            size = r.choice([r.randrange(0, 700), r.randrange(0, 4000), 24 * r.randrange(30), 152 * r.randrange(9),
                             8 * r.randrange(100)])
            room = max(0, size + r.choice([16, 16, 16, 15, 0, -1, -8, 8, r.randrange(0, 60)]))
            offset = r.choice([0, 0, 0, 0, 1, 2, 3, 10, EVERY_BIT])
            self.read_directory(r.choice(DIRECTORY), size, room, offset)
        if r.random() < 0.1:
            self.read_directory(r.choice(DIRECTORY), 60_000, 60_016, 0, 8 * (30 + 62 * r.randrange(9)))

    def read_directory(self, opcode, size, room, offset, process=None):
        """Adds a READDIR or READDIRPLUS."""
        node = 1 if self.rng.random() < 0.9 else self.node()
        process = self.a_process() if process is None else process
        body = u64(0) + u64(offset) + u32(size) + bytes(20)
        self.line(self.header(opcode, 80, node, process) + body, room)

    def transfers(self):
        """READ and WRITE of sizes and offsets up to the last one."""
        r = self.rng
        self.agree()
        for _ in range(120):
            opcode = r.choice([Op.READ, Op.WRITE])
            size = r.choice([r.randrange(0, 30), r.randrange(0, 300), 0, 1, 65536, 70000, 0xffffffff])
            offset = r.choice([0, 0, r.randrange(0, 80), 65530 + r.randrange(10), EVERY_BIT - r.randrange(40), 1 << 63,
                               self.odd64()])
            data = b""
            if opcode == Op.WRITE:
                data = r.randbytes(r.choice([size if size < 1000 else 50, r.randrange(0, 60), 0]))
                if r.random() < 0.005:
                    # (seldom: it takes as much of a session as many others)
                    data = r.randbytes(70000)
            body = u64(self.odd64()) + u64(offset) + u32(size) + u32(self.odd32()) + u64(self.odd64())
            body += u32(self.odd32()) + u32(0) + data
            process = r.choice([8 * r.randrange(1 << 12), self.a_process()])
            node = r.choice([2, 2, 2, 3, 1]) if self.files == "memory" else self.node()
            message = self.header(opcode, 40 + len(body), node, process) + body
            reply = 24 if opcode == Op.WRITE else 16 + min(size, 400)
            self.line(message, reply if r.random() < 0.8 else self.room(reply), 0.6)

    def entries(self):
        """Requests that are answered an entry, in rooms that it fits or not, and some FORGETs."""
        r = self.rng
        self.agree(r.choice([None, 0]))
        for _ in range(100):
            opcode = r.choice(ANSWERING_ENTRIES)
            message, reply = self.message(opcode)
            self.line(message, r.choice([reply, r.randrange(0, 17), r.randrange(0, reply + 1), reply - 1]))
            if r.random() < 0.1:
                self.good(Op.FORGET)

    def limits(self):
        """Sizes about the limit of data, and about that of a message, which is 4096 above it."""
        r = self.rng
        limit = 1 << 20
        if not self.lines:
            limit = r.choice([4096, 4097, 8192, 65535, 65536, 1 << 20, (1 << 20) + 1, 1 << 27, r.randrange(4096, 200_000)])
            self.lines.append(f"limit {limit}")
            self.size += 1
        self.agree()
        about = [limit - 1, limit, limit + 1, limit + 4096, limit + 4097, 0, r.randrange(0, 2 * limit)]
        for _ in range(60):
            opcode = r.choice([22, 23, 28, 44, 42, 15, 16, 26, 1, 3, 35])
            message, reply = self.message(opcode)
            what, size = r.random(), r.choice(about)
            if opcode in DIRECTORY and size < 20_000:
                self.read_directory(opcode, size, size + r.choice([16, 16, 15]), 0)
                continue
            if what < 0.3:
                message = u32(r.choice(about)) + message[4:]
            elif what < 0.8 and len(message) >= 60:
                # Where the size or the count is: of GETXATTR, LISTXATTR and BATCH_FORGET after the header, of a READ or
                # WRITE 16 bytes later.
                at = {22: 40, 23: 40, 42: 40, 28: 56, 44: 56, 15: 56, 16: 56}.get(opcode, 40)
                value = r.choice(about) // (16 if opcode == Op.BATCH_FORGET else 1) + r.choice([0, 0, 1])
                message = message[:at] + u32(value) + message[at + 4:]
            self.line(message, self.room(reply))

    def hostile(self):
        """Bytes without sense, most after the length and the opcode of a header."""
        r = self.rng
        if r.random() < 0.7:
            self.agree(r.choice([None, EVERY_BIT]))
        for _ in range(150):
            n = r.choice([0, 1, 39, 40, 41, 48, 56, 80, 128, r.randrange(0, 400)])
            message = r.choice([r.randbytes(n), bytes(r.choice([0, 0, 1, 0x61, 255]) for _ in range(n))])
            if r.random() < 0.85:
                length = r.choice([n, n, n, n + 1, max(0, n - 1), r.randrange(0, 500)])
                message = u32(length) + u32(r.choice(OPCODES + NO_OPCODES)) + message[8:]
            self.line(message, r.choice([0, 8, 15, 16, 24, 80, 144, 160, 400, r.randrange(0, 300)]))

    def mutated(self):
        """Sixty recorded requests, each changed in up to two places."""
        r = self.rng
        if r.random() < 0.5:
            self.agree()
        start = r.randrange(len(RECORDED_LINES))
        for line in RECORDED_LINES[start:start + 60]:
            rooms, segments = line.split(" ")
            # (shorter, so that a session has more of them)
            rooms = [min(int(it), 600) for it in rooms.split("+")]
            message = bytearray(bytes.fromhex(segments.replace("+", "")))
            for _ in range(r.choice([0, 1, 1, 2])):
                self.mutate(message)
            self.line(bytes(message), max(0, sum(rooms) + r.choice([0, 0, 0, -1, -8, 8])))

    def mutate(self, message):
        """Changes a byte, a number or a piece."""
        r = self.rng
        if not message:
            return
        at, what = r.randrange(len(message)), r.randrange(6)
        if what == 0:
            message[at] ^= 1 << r.randrange(8)
        elif what == 1:
            message[at] = r.choice([0, 1, 127, 128, 255])
        elif what == 2:
            # (the number of 4 bytes that this place is in, and below one of 8)
            message[at & ~3:(at & ~3) + 4] = u32(self.odd32())
        elif what == 3:
            message[at & ~7:(at & ~7) + 8] = u64(self.odd64())
        elif what == 4:
            del message[at:at + r.randrange(1, 9)]
        else:
            message[at:at] = r.choice([b"\0", b"\0\0\0\0", message[at:at + 8]])
        if r.random() < 0.7 and len(message) >= 4:
            message[:4] = u32(len(message))

    def full(self):
        """Over scripted answers 200 requests of an opcode; in memory a thousand files, or thirty, and requests for them."""
        r = self.rng
        if self.files == "script":
            self.agree()
            opcode = r.choice(OPCODES)
            for _ in range(200):
                self.good(opcode)
            return
        most = r.choice([30, 1003])
        for number in range(most):
            self.create(b"f%d" % number)
        for _ in range(60):
            name = r.choice([b"f%d" % r.randrange(most + 2), b"a", b"new%d" % r.randrange(9)])
            opcode = r.choice([1, 10, 35, 35, 28, 44])
            if opcode in DIRECTORY:
                size = r.choice([300, 2000, 2000, 12_000])
                self.read_directory(opcode, size, size + 16, r.randrange(most + 4))
            else:
                body = (bytes(16) if opcode == Op.CREATE else b"") + name + b"\0"
                self.line(self.header(opcode, 40 + len(body), 1, 0) + body, 160, 0)

    def tell(self, answer):
        """What the next call is answered."""
        self.answered += len(answer)
        self.lines.append(f"answer {answer}")

    def told_fault(self):
        """An answer that is a fault, of a number at an edge."""
        r = self.rng
        return "fault " + str(r.choice(["none", 1, 2, 133, 134, 135, 511, 512, 4095, 4096, 65535, 65536, (1 << 31) - 2,
                                        (1 << 31) - 1, r.randrange(1, 1 << 31)]))

    def told_value(self):
        """A number that the file system of the test answers, or in one of five an error."""
        return self.told_fault() if self.rng.random() < 0.2 else str(self.odd64())

    def told_items(self, long):
        """Items of a directory, one with a long name if that is wanted, and the bytes of their names."""
        r = self.rng
        names = []
        for _ in range(r.randrange(1, 7)):
            length = r.choice([0, 1, 2, 3, 7, 8, 9, 255, 256, r.randrange(300), r.randrange(301, 3000)])
            odd = bytes(r.randrange(1, 256) for _ in range(length))
            names.append(r.choice([b".", b"..", b"..", b"...", b"..a", b"..\xff", b".a", b"a..", b"/", odd, odd, odd]))
        if long:
            names.insert(r.randrange(2), b"n" * r.choice([65535, 65536, 65537]))
        items = [f"{self.odd64()},{self.odd64()},{self.odd32()},{name.hex()}" for name in names]
        return r.choice(["items ", "items ", "items ", "endless "]) + " ".join(items), names

    def told_directory(self, long=False):
        """A directory whose items are told, read with a size that they just fit, or about that."""
        r = self.rng
        opcode = r.choice(DIRECTORY)
        answer, names = self.told_items(long)
        self.tell(answer)
        fits = sum(24 + len(name) + -len(name) % 8 + (128 if opcode == Op.READDIRPLUS else 0) for name in names)
        if opcode == Op.READDIRPLUS:
            for _ in range(r.choice([0, 1, len(names)])):
                self.tell(self.told_value())
        # (24 bytes a record and its name, up to a multiple of 8; with READDIRPLUS 128 more for the entry)
        size = fits if long else r.choice([fits, fits, fits - 1, fits + 100, max(0, fits - r.randrange(200))])
        self.read_directory(opcode, max(0, size), size + 16, 0)

    def told(self):
        """Answers at their extremes, told before the request that they are for. Files in memory can't be told."""
        if self.files == "memory":
            self.mixed()
            return
        self.agree()
        opcodes = [it for it in OPCODES if it not in UNANSWERED + DIRECTORY]
        opcodes += ANSWERING_ENTRIES * 2 + [Op.OPEN, Op.OPENDIR, Op.INIT] * 2
        for at in range(40):
            self.told_directory(long=at == 0 and self.answered < MOST_ANSWERED // 4)
            opcode = self.rng.choice(opcodes)
            message, reply = self.message(opcode)
            self.tell(self.told_value())
            self.line(message, reply if opcode not in (5, 22, 23) else 600)
            self.options = 0 if opcode == Op.INIT else self.options

    def badline(self):
        """Good lines, and one at the end that is none."""
        r = self.rng
        for _ in range(self.size - 1):
            self.good(r.choice(OPCODES))
        self.lines = self.lines[:self.size - 1]
        good = self.header(Op.STATFS, 40, 1, 0).hex()
        self.lines.append(r.choice([
            "16", "", " ", "16  " + good, "16 " + good + " ", "16 " + good[:-1], "16 " + good + "g0", "1a " + good,
            "+16 " + good, "16+ " + good, "16++1 " + good, "00000016 " + good, "2097153 " + good, "2097152+1 " + good,
            "-1 " + good, "16 " + good + "\r", " " + good, "16\t" + good, "16 0x" + good, "16,16 " + good, "limit 8192",
            "answer", "16 +" + good + "+z", "limit 4095", "Limit 4096", "answer x", "answer fault 0", "answer fault -1",
            "answer items 1,2,3", "answer items 1,2,4294967296,61", "answer items 1,2,3,6100", "answer items 1,2,3,6",
            "answer endless", "answer 18446744073709551616", "answer fault 2147483648",
        ]))

    def text(self, kind):
        """The text of a session of this kind."""
        add = self.extensions_of_all_sorts if kind == "extensions" else getattr(self, kind)
        while len(self.lines) < self.size:
            add()
        return "\n".join(self.lines[:self.size]) + "\n"


def size_of(number):
    """How many requests a session has."""
    return SIZES.get(KINDS[number % len(KINDS)], LINES)


def session(seed, files, number, size=None):
    """The name of a session, and its text."""
    kind = KINDS[number % len(KINDS)]
    made = Session(random.Random(f"{seed}/{files}/{number}"), files, size or size_of(number))
    return f"{number:05}-{kind}", made.text(kind)


def numbers(count):
    """The sessions that have that many requests: the number and the size of each."""
    found, number = [], 0
    while count > 0:
        size = min(size_of(number), count)
        found.append((number, size))
        count -= size
        number += 1
    return found


def requests_of(text):
    """The lines of a session that are answered, each with its number."""
    lines = text.splitlines()
    return [(number, line) for number, line in enumerate(lines, 1)
            if not line.startswith("answer ") and (number > 1 or not line.startswith("limit "))]


def flat(text):
    """The same session with each request in one segment and one room."""
    lines = []
    for line in text.splitlines():
        rooms, space, segments = line.partition(" ")
        if space and rooms not in ("limit", "answer"):
            line = f"{sum(map(int, rooms.split('+')))} {segments.replace('+', '')}"
        lines.append(line)
    return "\n".join(lines) + "\n"


def main(args):
    """Writes the sessions into a folder."""
    if len(args) != 4 or args[3] not in ("script", "memory") or not args[1].isdigit():
        sys.exit(__doc__)
    seed, count, folder, files = args
    pathlib.Path(folder).mkdir(parents=True, exist_ok=True)
    for number, size in numbers(int(count)):
        name, text = session(seed, files, number, size)
        (pathlib.Path(folder) / name).write_text(text)


if __name__ == "__main__":
    main(sys.argv[1:])
