"""A vhost-user front end for tests: it plays the virtual machine and its monitor for a virtio-fs device.

It owns the memory of its guest, has as many queues as a test wants, and keeps as many requests in flight as the queues
hold. submit() puts a request on a queue and returns it; wait() returns its error and the body of its reply; ask() does
both. The methods named after file operations return the result, or raise OSError with the error of the reply, so
that a test reads like one that calls the operating system.

    with FrontEnd(path) as client:
        client.init()
        node = client.lookup(b"file")
        handle = client.open(node, os.O_RDONLY)
        assert client.read(node, handle, 100) == b"content"
"""
import collections
import mmap
import os
import select
import socket
import struct
import threading
import time

from file_operations import PAGE, FileOperations
from shapes import SHAPES, Op

# Messages of vhost-user.
GET_FEATURES, SET_FEATURES, SET_OWNER, SET_MEM_TABLE, SET_LOG_BASE, SET_LOG_FD = 1, 2, 3, 5, 6, 7
SET_VRING_NUM, SET_VRING_ADDR, SET_VRING_BASE, GET_VRING_BASE, SET_VRING_KICK, SET_VRING_CALL = 8, 9, 10, 11, 12, 13
GET_PROTOCOL_FEATURES, SET_PROTOCOL_FEATURES, GET_QUEUE_NUM, SET_VRING_ENABLE = 15, 16, 17, 18
SET_DEVICE_STATE_FD, CHECK_DEVICE_STATE = 42, 43
# Features of the device, and of the protocol.
INDIRECT_DESC, EVENT_IDX, VERSION_1, PROTOCOL_FEATURES, LOG_ALL = 1 << 28, 1 << 29, 1 << 32, 1 << 30, 1 << 26
MQ, LOG_SHMFD, REPLY_ACK, DEVICE_STATE = 1 << 0, 1 << 1, 1 << 3, 1 << 19
# SET_DEVICE_STATE_FD: the direction, and the bit of a reply that carries no descriptor.
SAVE, LOAD, NO_DESCRIPTOR = 0, 1, 1 << 8
# Flags of a descriptor.
NEXT, WRITE, INDIRECT = 1, 2, 4
# Where the guest sees its memory, and where its monitor does: SET_MEM_TABLE carries both.
GUEST, USER = 1 << 31, 1 << 40
IN_HEADER, OUT_HEADER = struct.Struct("<IIQQIIIHH"), struct.Struct("<IiQ")
# How long a reply is waited for, in seconds, where a test does not say otherwise. On a busy machine a server with the
# sanitizer of threads takes more than twenty for some states.
PATIENCE = 120

Reply = collections.namedtuple("Reply", "error body")


class Request:
    """A request on a queue, whose reply is written at `at`. `reply` is the bytes of the reply, or None while the request
    is in flight."""

    def __init__(self, queue, unique, opcode, at):
        self.queue, self.unique, self.opcode, self.at = queue, unique, opcode, at
        self.reply = None


class Queue:
    """A split queue: where its rings are in memory, and the requests in flight by the head of their chain."""

    def __init__(self, number, size, at, call, kick):
        self.number, self.size, self.call, self.kick = number, size, call, kick
        self.descriptors, self.available = at, at + 16 * size
        self.used = self.available + 8 + 2 * size & ~3
        self.end = self.used + 8 + 8 * size
        self.free, self.flying = collections.deque(), {}
        # How many chains were made available, how many were at the last kick, and how many used ones were seen.
        self.made, self.kicked, self.seen = 0, 0, 0


class FrontEnd(FileOperations):
    """One connection to a vhost-user socket, with its memory and queues.

    `queues` counts the high-priority queue 0. A queue has `queue_size` descriptors; a request takes two of them, or
    one with `indirect`. Each has `slot_size` bytes for itself and its reply. Memory is `regions` parts of one memfd,
    of `memory_size` bytes (as many as needed if 0), with huge pages if `memfd_flags` says so. `features` are enabled
    besides VERSION_1 and PROTOCOL_FEATURES. With begin=False the connection is made, and nothing is sent."""

    def __init__(self, path, queues=2, queue_size=64, slot_size=160 << 10, regions=1, memory_size=0, memfd_flags=0,
                 features=0, protocol=MQ | LOG_SHMFD | REPLY_ACK | DEVICE_STATE, indirect=False, begin=True):
        self.socket = connect(path)
        self.features = VERSION_1 | PROTOCOL_FEATURES | features | (INDIRECT_DESC if indirect else 0)
        self.protocol, self.slot_size, self.indirect, self.log = protocol, slot_size, indirect, None
        # (the high-priority queue's FORGET has no unique number of its own in Linux; here each request has)
        self.unique, self.barrier, self.queues = 0, threading.Lock(), []
        at = 0
        for number in range(queues):
            queue = Queue(number, queue_size, at, os.eventfd(0, os.EFD_NONBLOCK), os.eventfd(0, os.EFD_NONBLOCK))
            self.queues.append(queue)
            at = queue.end + PAGE - 1 & ~(PAGE - 1)
        self.slots = at
        for queue in self.queues:
            queue.free.extend(range(0, queue_size, 1 if indirect else 2))
        self.size = memory_size or at + queues * len(self.queues[0].free) * slot_size
        self.size += -self.size % (regions * PAGE)
        self.memory = os.memfd_create("guest", memfd_flags)
        os.ftruncate(self.memory, self.size)
        self.view = mmap.mmap(self.memory, self.size)
        part = self.size // regions
        self.regions = [(GUEST + i * part, part, USER + i * part, i * part) for i in range(regions)]
        if begin:
            self.begin()

    def __enter__(self):
        return self

    def __exit__(self, *_):
        self.close()

    def close(self):
        """Disconnects, and frees the memory and descriptors."""
        if self.socket.fileno() < 0:
            return
        self.socket.close()
        for it in (self.view, self.log):
            if it:
                it.close()
        for it in [self.memory] + [fd for queue in self.queues for fd in (queue.kick, queue.call)]:
            os.close(it)

    # The socket's messages.

    def send(self, message, *values, shape=None, fds=(), flags=1):
        """Sends a message with a body of 64-bit values, or of this shape."""
        body = struct.pack("<" + (shape or "Q" * len(values)), *values)
        socket.send_fds(self.socket, [struct.pack("<III", message, flags, len(body)) + body], fds)

    def receive(self):
        """Returns the body of the next reply. Bit 2 of its flags says that it is one."""
        head = self.socket.recv(12, socket.MSG_WAITALL)
        if len(head) < 12:
            raise ConnectionError("the device disconnected")
        _, flags, size = struct.unpack("<III", head)
        if not flags & 4:
            raise ConnectionError(f"a reply with flags {flags}")
        return self.socket.recv(size, socket.MSG_WAITALL)

    def query(self, message, *values, **more):
        """Sends a message and returns the number that is its reply."""
        self.send(message, *values, **more)
        return struct.unpack("<Q", self.receive())[0]

    def begin(self):
        """Negotiates features, shares the memory and starts all queues."""
        self.query(GET_FEATURES)
        self.send(SET_PROTOCOL_FEATURES, self.protocol & self.query(GET_PROTOCOL_FEATURES))
        self.send(SET_OWNER)
        self.send(SET_FEATURES, self.features)
        self.share_memory()
        for queue in self.queues:
            self.start(queue)
        # (a reply to this one says that all before it are done)
        self.query(GET_FEATURES)

    def share_memory(self, *more):
        """Sends the memory table, which replaces the one before it, with more regions: each as those of `regions`, and the
        descriptor of its file."""
        regions = [*((*it, self.memory) for it in self.regions), *more]
        self.send(SET_MEM_TABLE, len(regions), 0, *(it for region in regions for it in region[:4]),
                  shape="II" + "QQQQ" * len(regions), fds=[it[4] for it in regions])

    def start(self, queue, base=None):
        """Starts a queue where it was stopped, or at this index of the available ring."""
        self.send(SET_VRING_NUM, queue.number, queue.size, shape="II")
        self.send(SET_VRING_BASE, queue.number, (queue.made if base is None else base) & 0xffff, shape="II")
        self.place(queue)
        self.send(SET_VRING_CALL, queue.number, fds=[queue.call])
        self.send(SET_VRING_KICK, queue.number, fds=[queue.kick])
        self.send(SET_VRING_ENABLE, queue.number, 1, shape="II")

    def place(self, queue, flags=0, log=None):
        """Sends the addresses of a queue's rings; with flag 1 the used ring's writes are logged, as writes to this address
        of the guest."""
        self.send(SET_VRING_ADDR, queue.number, flags, USER + queue.descriptors, USER + queue.used,
                  USER + queue.available, GUEST + queue.used if log is None else log, shape="IIQQQQ")

    def stop(self, queue):
        """Stops a queue and returns the index where it stopped."""
        self.send(GET_VRING_BASE, queue.number, 0, shape="II")
        return struct.unpack("<II", self.receive())[1]

    def stop_all(self):
        """Stops the queues, as a source does before it saves."""
        for queue in self.queues:
            self.stop(queue)

    # Migration.

    def follow(self, other, state):
        """Loads the state of another front end's device, and goes on with its memory and rings, as a guest does that
        migrates. This one was made with begin=False. Returns whether the device takes the state."""
        self.send(SET_PROTOCOL_FEATURES, self.protocol)
        if not self.load(state):
            return False
        self.view[:] = other.view[:]
        self.unique = other.unique
        for queue, before in zip(self.queues, other.queues):
            queue.made, queue.kicked, queue.seen, queue.free = before.made, before.kicked, before.seen, before.free
        self.begin()
        return True

    def save(self):
        """Returns the state of the device, or None if the device reports that it failed."""
        ours, theirs = os.pipe2(os.O_CLOEXEC)
        reply = self.query(SET_DEVICE_STATE_FD, SAVE, 0, shape="II", fds=[theirs])
        os.close(theirs)
        with open(ours, "rb") as pipe:
            state = pipe.read()
        return state if reply == NO_DESCRIPTOR and self.query(CHECK_DEVICE_STATE) == 0 else None

    def load(self, state):
        """Returns whether the device takes this state."""
        theirs, ours = os.pipe2(os.O_CLOEXEC)
        reply = self.query(SET_DEVICE_STATE_FD, LOAD, 0, shape="II", fds=[theirs])
        os.close(theirs)
        try:
            with open(ours, "wb") as pipe:
                pipe.write(state)
        except BrokenPipeError:
            pass
        return reply == NO_DESCRIPTOR and self.query(CHECK_DEVICE_STATE) == 0

    def share_log(self, size, file_size=0, memfd_flags=0, offset=0, begin=True):
        """Shares a log of `size` bytes, one bit a page of memory from address 0 of the guest on, and has writes marked
        there from now on, unless `begin` is False. It is the part at `offset` of a file of `file_size` bytes, if that is
        given."""
        log = os.memfd_create("log", memfd_flags)
        os.ftruncate(log, file_size or size)
        self.send(SET_LOG_BASE, size, offset, fds=[log])
        self.receive()
        self.log, self.log_at = mmap.mmap(log, file_size or size), offset
        os.close(log)
        if begin:
            self.send(SET_FEATURES, self.features | LOG_ALL)
            self.query(GET_FEATURES)

    def take_marked(self):
        """Returns the numbers of the guest's pages that were marked, and clears the log. Pages are marked after they
        were written, so a message comes first, whose reply waits for requests that are not quite done."""
        self.query(GET_FEATURES)
        assert not any(self.log[:self.log_at]), "the file is written before the log"
        pages = {8 * i + bit for i, byte in enumerate(self.log[self.log_at:]) if byte for bit in range(8) if byte >> bit & 1}
        self.log[:] = bytes(len(self.log))
        return pages

    # Requests.

    def number(self, at):
        """Returns the 16-bit number at an offset of the memory."""
        return struct.unpack_from("<H", self.view, at)[0]

    def put(self, at, number):
        """Puts a 16-bit number there, in one step: struct.pack_into() writes zeros first, which the device may see."""
        self.view[at:at + 2] = struct.pack("<H", number & 0xffff)

    def submit(self, opcode, body=b"", node=1, queue=1, reply_size=None, uid=0, gid=0, pid=1, extensions=0, kick=True):
        """Puts a request on a queue and returns it. `reply_size` counts the reply's header; by default it is that of
        the opcode, and a page where it depends. The device is kicked if it wants to be, unless `kick` is False."""
        queue, shape = self.queues[queue], SHAPES.get(opcode)
        if reply_size is None:
            reply_size = PAGE if shape is None or shape.reply is None else shape.reply
        if not queue.free:
            self.collect(queue)
        head = queue.free.popleft()
        self.unique += 2
        size = IN_HEADER.size + len(body)
        at = self.slots + (queue.number * queue.size + head) // (1 if self.indirect else 2) * self.slot_size
        reply = at + 64 + size + 63 & ~63
        if reply + reply_size > at + self.slot_size or reply + reply_size > self.size:
            raise ValueError("the request does not fit: use a larger slot_size")
        IN_HEADER.pack_into(self.view, at + 64, size, opcode, self.unique, node, uid, gid, pid, extensions, 0)
        self.view[at + 64 + IN_HEADER.size:at + 64 + size] = body
        self.view[reply:reply + reply_size] = bytes(reply_size)
        request = Request(queue, self.unique, opcode, reply)
        queue.flying[head] = request
        first = 0 if self.indirect else head
        chain = struct.pack("<QIHH", GUEST + at + 64, size, NEXT if reply_size else 0, first + 1 if reply_size else 0)
        if reply_size:
            chain += struct.pack("<QIHH", GUEST + reply, reply_size, WRITE, 0)
        where = at if self.indirect else queue.descriptors + 16 * head
        self.view[where:where + len(chain)] = chain
        if self.indirect:
            struct.pack_into("<QIHH", self.view, queue.descriptors + 16 * head, GUEST + at, len(chain), INDIRECT, 0)
        self.put(queue.available + 4 + 2 * (queue.made % queue.size), head)
        queue.made += 1
        self.put(queue.available + 2, queue.made)
        if kick:
            self.kick(queue)
        return request

    def kick(self, queue, always=False):
        """Kicks the device after chains were made available, if it wants to be kicked for one of them."""
        # (the lock is a memory barrier: the device must see the chain, or this must see that it wants a kick)
        with self.barrier:
            pass
        if self.features & EVENT_IDX:
            event = self.number(queue.used + 4 + 8 * queue.size)
            wanted = queue.made - event - 1 & 0xffff < queue.made - queue.kicked
        else:
            wanted = not self.number(queue.used) & 1
        queue.kicked = queue.made
        if wanted or always:
            os.eventfd_write(queue.kick, 1)

    def collect(self, queue):
        """Takes the used chains of a queue, with their replies, and frees their slots. With EVENT_IDX it has the device
        call for the next one."""
        while queue.seen & 0xffff != self.number(queue.used + 2):
            head, length = struct.unpack_from("<II", self.view, queue.used + 4 + 8 * (queue.seen % queue.size))
            # (a head that is not in flight is a KeyError: the device returned a chain twice)
            request = queue.flying.pop(head)
            request.reply = self.view[request.at:request.at + length]
            queue.free.append(head)
            queue.seen += 1
            self.put(queue.available + 4 + 2 * queue.size, queue.seen)

    def is_done(self, request):
        """Whether the device has returned the request's chain."""
        if request.reply is None:
            self.collect(request.queue)
        return request.reply is not None

    def wait(self, request, timeout=PATIENCE):
        """Waits for a request, and returns the error and body of its reply: an error of None if it has no reply."""
        end = time.monotonic() + timeout
        while not self.is_done(request):
            if select.select([self.socket], [], [], 0.0002)[0]:
                raise ConnectionError(f"the device disconnected at {Op(request.opcode).name}")
            if time.monotonic() > end:
                raise TimeoutError(f"{Op(request.opcode).name} has no reply within {timeout} seconds")
        if len(request.reply) < OUT_HEADER.size:
            return Reply(None, b"")
        length, error, unique = OUT_HEADER.unpack_from(request.reply)
        if (length, unique) != (len(request.reply), request.unique):
            raise AssertionError(f"a reply of {length} bytes to {unique} came as {len(request.reply)} to {request.unique}")
        return Reply(-error, request.reply[OUT_HEADER.size:])

    def ask(self, opcode, body=b"", node=1, timeout=PATIENCE, **more):
        """Submits a request and waits for it."""
        return self.wait(self.submit(opcode, body, node, **more), timeout)


def connect(path, timeout=PATIENCE):
    """Connects to a socket, and waits until somebody listens there: the name is there before that."""
    end = time.monotonic() + timeout
    while True:
        it = socket.socket(socket.AF_UNIX)
        it.settimeout(timeout)
        try:
            it.connect(path)
            return it
        except (FileNotFoundError, ConnectionRefusedError):
            it.close()
            if time.monotonic() > end:
                raise
            time.sleep(0.01)
