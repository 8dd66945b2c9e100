"""A front end for requests that break rules: a test says each byte of a request, and where its chain of descriptors is cut."""
import os
import select
import struct
import time

from vhost_user import DEVICE_STATE, GUEST, LOG_ALL, NEXT, SET_FEATURES, SET_PROTOCOL_FEATURES, WRITE, FrontEnd, Reply

# Where a request lies in memory, and where its room does: the data of a WRITE, and those of a READ in a room that follows one
# of 16 bytes for the header, begin with a page. O_DIRECT requires that of some file systems.
REQUEST, ROOM = (1 << 20) - 80, (4 << 20) - 16
# What ask_line() returns if a chain is not completed in time, and if the device disconnects.
NONE, HUNG_UP = "none", "hung up"


class Asking(FrontEnd):
    """One connection, whose device loads a state first if there is one. A request is a line, ROOMS SEGMENTS, as requests.line()
    makes it: lengths joined by `+`, and hexadecimal digits joined by `+`. Each segment, and each room that is not empty, has a
    descriptor of its own. One request is in flight at a time."""

    def __init__(self, path, state=None, patience=60):
        super().__init__(path, queue_size=128, slot_size=64 << 10, protocol=DEVICE_STATE, begin=False)
        self.patience = patience
        if state is not None:
            self.send(SET_PROTOCOL_FEATURES, self.protocol)
            if not self.load(state):
                raise ConnectionError("the device does not take the state")
        self.begin()

    def send_line(self, text):
        """Puts a request on the queue, and returns how many bytes its rooms have together."""
        rooms, segments = (it.split("+") for it in text.split(" "))
        chain, at = [], REQUEST
        for it in map(bytes.fromhex, segments):
            self.view[at:at + len(it)] = it
            chain.append((at, len(it), 0))
            at += len(it)
        at = ROOM
        for size in map(int, rooms):
            chain.append((at, size, WRITE))
            at += size
        # (so that it shows what was written)
        self.view[ROOM:at] = bytes(at - ROOM)
        queue, chain = self.queues[1], [it for it in chain if it[1]]
        for number, (place, size, flags) in enumerate(chain, 1):
            flags |= NEXT if number < len(chain) else 0
            struct.pack_into("<QIHH", self.view, queue.descriptors + 16 * (number - 1), GUEST + place, size, flags, number)
        self.put(queue.available + 4 + 2 * (queue.made % queue.size), 0)
        queue.made = queue.seen = queue.made + 1
        self.put(queue.available + 2, queue.made)
        self.kick(queue, always=True)
        return at - ROOM

    def ask_line(self, text):
        """Returns the length that the device completed the chain with, and that many bytes of the rooms in hexadecimal digits.
        If it wrote bytes after those, ` after ` and all of the rooms follow."""
        total, queue, end = self.send_line(text), self.queues[1], time.monotonic() + self.patience
        while self.number(queue.used + 2) != queue.made & 0xffff:
            ready = select.select([self.socket, queue.call], [], [], max(0, end - time.monotonic()))[0]
            if not ready:
                return NONE
            if self.socket in ready:
                return HUNG_UP
            os.eventfd_read(queue.call)
        length = struct.unpack_from("<II", self.view, queue.used + 4 + 8 * ((queue.made - 1) % queue.size))[1]
        room = self.view[ROOM:ROOM + total]
        is_more = len(room.rstrip(b"\0")) > length
        return f"{length} {room[:length].hex()}" + (f" after {room.hex()}" if is_more else "")

    def reply(self, text):
        """Asks a line, and returns the error and body of its reply: an error of None if it has no reply."""
        answer = self.ask_line(text)
        if answer in (NONE, HUNG_UP):
            raise ConnectionError(f"{answer} came of {text[:200]}")
        reply = bytes.fromhex(answer.split()[1]) if " " in answer.rstrip() else b""
        return Reply(-struct.unpack_from("<i", reply, 4)[0], reply[16:]) if len(reply) >= 16 else Reply(None, b"")

    def leave(self):
        """Stops the queues, as the source of a migration does, and returns the state; None if the device says that it failed."""
        self.send(SET_FEATURES, self.features | LOG_ALL)
        self.stop_all()
        return self.save()
