"""The bytes of a nizwarf-share state (programs/share/passthrough_state.h), made by a test that plays another server.

    state = Device(agreed=saved_agreed)
    below = state.directory(b"d")
    state.node(2, b"file", below)
    client.load(state.bytes())
"""
import ctypes
import os
import struct

HEADER, RECORD, NODE, FILE, END = "<8sIIQ", "<II", "<QQIIIiBBH", "<QQI", "<QQQ"
END_KIND, MOUNT_KIND, NODE_KIND, FILE_KIND, DIRECTORY_KIND = range(5)
MAGIC, VERSION, BY_PATHS, BY_HANDLES, ROOT, NOWHERE = b"nizwarf", 2, 0, 1, 0, 2**32 - 1
REGULAR, DIRECTORY = 0o100000, 0o40000


def header_of(state):
    """The version, the mode, and the options of INIT of a state that was saved."""
    return struct.unpack_from(HEADER, state)[1:]


def entries_of(state):
    """The records of a saved state: their kinds and bytes."""
    at, records = struct.calcsize(HEADER), []
    while at < len(state):
        kind, size = struct.unpack_from(RECORD, state, at)
        records.append((kind, state[at + 8:at + 8 + size]))
        at += 8 + size
    return records


def handle_of(path):
    """The type and the bytes of a file's handle, by name_to_handle_at(2); None: its file system has none."""
    room = ctypes.create_string_buffer(struct.pack("<Ii", 128, 0) + bytes(128))
    mount = ctypes.c_int()
    if ctypes.CDLL(None, use_errno=True).name_to_handle_at(-100, os.fsencode(path), room, ctypes.byref(mount), 0):
        return None
    size, kind = struct.unpack_from("<Ii", room.raw)
    return kind, room.raw[8:8 + size]


def node_record(number, name=b"", parent=ROOT, kind=REGULAR, lookups=1, handle=(0, b""), mount=0):
    """A node. Its parent is an entry; one without a name is in no directory."""
    head = struct.pack(NODE, number, lookups, parent if name else NOWHERE, kind, mount, handle[0], len(handle[1]), 0, 0)
    return NODE_KIND, head + handle[1] + name


def directory_record(name, parent=ROOT):
    """A directory that the client does not know."""
    return DIRECTORY_KIND, struct.pack("<I", parent) + name


def file_record(number, node, flags=os.O_RDONLY):
    """An open file of a node."""
    return FILE_KIND, struct.pack(FILE, number, node, flags)


def state_of(header, records, nodes=None):
    """A state of these records, with its end: the sum is FNV-1a of 64 bits. It may say another number of nodes."""
    data = struct.pack(HEADER, *header) + b"".join(struct.pack(RECORD, kind, len(body)) + body for kind, body in records)
    total = 0xcbf29ce484222325
    for byte in data:
        total = (total ^ byte) * 0x100000001b3 & 2**64 - 1
    count, files = (sum(kind == wanted for kind, _ in records) for wanted in (NODE_KIND, FILE_KIND))
    return data + struct.pack(RECORD, END_KIND, 24) + struct.pack(END, nodes or count, files, total)


class Device:
    """A state with the shared folder in it. Entries are numbered as they are made; ROOT is the folder's."""

    def __init__(self, agreed=0, mode=BY_PATHS, version=VERSION):
        self.header, self.entries = (MAGIC, version, mode, agreed), 0
        self.records = [(MOUNT_KIND, b"")] if mode == BY_HANDLES else []
        self.node(1, kind=DIRECTORY, lookups=2)

    def add(self, record):
        self.records.append(record)
        self.entries += 1
        return self.entries - 1

    def node(self, *values, **more):
        """Adds a node, and returns its entry."""
        return self.add(node_record(*values, **more))

    def directory(self, name, parent=ROOT):
        """Adds a directory that the client does not know, and returns its entry."""
        return self.add(directory_record(name, parent))

    def file(self, *values):
        """Adds an open file of a node."""
        self.records.append(file_record(*values))

    def bytes(self):
        return state_of(self.header, self.records)
