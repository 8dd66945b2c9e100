"""File operations over FUSE: each sends the requests that it needs, and returns the result or raises OSError."""
import os
import struct

from shapes import Op, record

PAGE = 4096


class FileOperations:
    """What a class that has submit() and ask() inherits. Further arguments are those of submit()."""

    def expect(self, opcode, body=b"", node=1, **more):
        """Submits a request and returns the body of its reply; an error is raised as OSError."""
        error, reply = self.ask(opcode, body, node, **more)
        if error:
            raise OSError(error, f"{Op(opcode).name}: {os.strerror(error)}")
        return reply

    def init(self, flags=0x7bfffffb, flags2=15, minor=38, **more):
        """Begins the session with these flags of INIT, and returns the body of the reply."""
        body = struct.pack("<IIIII", 7, minor, 131072, flags, flags2) + bytes(44)
        return self.expect(Op.INIT, body, 0, **more)

    def lookup(self, name, parent=1, **more):
        """Returns the node of a name."""
        return struct.unpack_from("<Q", self.expect(Op.LOOKUP, name + b"\0", parent, **more))[0]

    def forget(self, node, lookups=1, **more):
        self.expect(Op.FORGET, record(Op.FORGET, lookups=lookups), node, **more)

    def getattr(self, node, **more):
        """Returns the attributes as Linux's struct fuse_attr has them."""
        return self.expect(Op.GETATTR, record(Op.GETATTR), node, **more)[16:]

    def open(self, node, flags=os.O_RDWR, **more):
        """Returns a handle of a file, or of a directory with O_DIRECTORY."""
        opcode = Op.OPENDIR if flags & os.O_DIRECTORY else Op.OPEN
        return struct.unpack_from("<Q", self.expect(opcode, record(opcode, flags=flags), node, **more))[0]

    def create(self, name, parent=1, flags=os.O_RDWR, mode=0o644, **more):
        """Creates a file, and returns its node and a handle."""
        body = record(Op.CREATE, flags=flags | os.O_CREAT, mode=0o100000 | mode) + name + b"\0"
        reply = self.expect(Op.CREATE, body, parent, **more)
        return struct.unpack_from("<Q", reply)[0], struct.unpack_from("<Q", reply, 128)[0]

    def read(self, node, handle, size=PAGE, offset=0, opcode=Op.READ, **more):
        """Returns the data; with opcode=Op.READDIR, the entries of a directory."""
        body = record(opcode, handle=handle, size=size, offset=offset)
        return self.expect(opcode, body, node, reply_size=16 + size, **more)

    def write(self, node, handle, data, offset=0, flags=0, write_flags=0, **more):
        """Returns how many bytes were written."""
        body = record(Op.WRITE, handle=handle, size=len(data), offset=offset, flags=flags, write_flags=write_flags)
        return struct.unpack_from("<I", self.expect(Op.WRITE, body + data, node, **more))[0]

    def setlk(self, node, handle, owner, kind, wait=False, start=0, end=(1 << 63) - 1, flock=False, pid=1, **more):
        """Sets a lock of this kind (fcntl.F_WRLCK ..). With `wait` it is SETLKW, and the request is returned."""
        opcode = Op.SETLKW if wait else Op.SETLK
        body = record(opcode, handle=handle, lock_owner=owner, start=start, end=end, type=kind, pid=pid,
                      lock_flags=1 if flock else 0)
        return (self.submit if wait else self.expect)(opcode, body, node, **more)

    def mkdir(self, name, parent=1, mode=0o755, **more):
        """Creates a directory and returns its node."""
        return struct.unpack_from("<Q", self.expect(Op.MKDIR, record(Op.MKDIR, mode=mode) + name + b"\0", parent, **more))[0]

    def unlink(self, name, parent=1, **more):
        self.expect(Op.UNLINK, name + b"\0", parent, **more)

    def flush(self, node, handle, owner=0, **more):
        self.expect(Op.FLUSH, record(Op.FLUSH, handle=handle, lock_owner=owner), node, **more)

    def release(self, node, handle, opcode=Op.RELEASE, **more):
        """Releases a handle of a file, or of a directory with opcode=Op.RELEASEDIR."""
        self.expect(opcode, record(opcode, handle=handle), node, **more)
