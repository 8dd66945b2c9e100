"""A client of examples/c/hello.c: it sends requests as a kernel does over a socket, and compares the replies.

Usage: hello_client.py PROGRAM, which runs `PROGRAM --fd N`
"""
import errno
import itertools
import socket
import struct
import subprocess
import sys

import requests
from shapes import Op, record

TEXT = b"Hello, world!\n"
ROOT = 1
# Where an entry has its attributes, and attributes their size and their mode; how long a record of a short name is.
ATTRIBUTES, SIZE, MODE, ITEM = 40, 8, 60, 32


class Peer:
    """The end of a socket at which a file system is served, and that end of it, `theirs`."""

    def __init__(self):
        self.socket, self.theirs = socket.socketpair(socket.AF_UNIX, socket.SOCK_SEQPACKET)
        self.socket.settimeout(10)
        self.numbers = itertools.count(1)

    def send(self, opcode, node, body=b""):
        """Sends a request, and returns its number."""
        unique = next(self.numbers)
        self.socket.send(requests.request(opcode, body, unique=unique, node=node))
        return unique

    def expect(self, unique, error=0):
        """Returns what follows the header of the next reply, which is one to this request, and has this error."""
        reply = self.socket.recv(1 << 14)
        assert struct.unpack_from("<IiQ", reply) == (len(reply), -error, unique)
        return reply[16:]

    def ask(self, opcode, node, body=b"", error=0):
        """Sends a request, and returns what follows the header of its reply, which has this error."""
        return self.expect(self.send(opcode, node, body), error)


class Client(Peer):
    """A process of hello, and the socket to it."""

    def __init__(self, program, **more):
        super().__init__()
        with self.theirs:
            served = str(self.theirs.fileno())
            self.process = subprocess.Popen([program, "--fd", served], pass_fds=[self.theirs.fileno()], **more)


def look(client):
    """A file is found, and read; another is not there."""
    client.ask(Op.LOOKUP, ROOT, b"none\0", errno.ENOENT)
    entry = client.ask(Op.LOOKUP, ROOT, b"hello\0")
    node, _, entry_valid, attr_valid = struct.unpack_from("<QQQQ", entry)
    assert len(entry) == 128 and entry_valid == attr_valid == 1
    assert struct.unpack_from("<I", entry, ATTRIBUTES + MODE)[0] == 0o100444
    assert struct.unpack_from("<Q", entry, ATTRIBUTES + SIZE)[0] == len(TEXT)
    attributes = client.ask(Op.GETATTR, ROOT, record(Op.GETATTR))
    assert len(attributes) == 104 and struct.unpack_from("<I", attributes, 16 + MODE)[0] == 0o040555
    assert len(client.ask(Op.OPEN, node, record(Op.OPEN))) == 16
    assert client.ask(Op.READ, node, record(Op.READ, offset=7, size=4096)) == TEXT[7:]
    # (after the end: none, and no overflow)
    assert client.ask(Op.READ, node, record(Op.READ, offset=2**64 - 1, size=4096)) == b""
    # (the table has no function for it)
    client.ask(Op.WRITE, node, record(Op.WRITE), errno.ENOSYS)


def list_root(client):
    """The root is listed, in one reading and in three, since one record fits in 40 bytes, and two do not."""
    whole = client.ask(Op.READDIR, ROOT, record(Op.READDIR, size=4096))
    assert len(whole) == 3 * ITEM and whole[2 * ITEM + 24:].startswith(b"hello")
    for at in range(3):
        item = client.ask(Op.READDIR, ROOT, record(Op.READDIR, offset=at, size=40))
        assert len(item) == ITEM and struct.unpack_from("<Q", item, 8)[0] == at + 1
    assert client.ask(Op.READDIR, ROOT, record(Op.READDIR, offset=3, size=40)) == b""


def check_hello(program, **more):
    """Compares the replies of a program, which must end with status 0 once the socket is closed."""
    client = Client(program, **more)
    try:
        assert len(client.ask(Op.INIT, 0, record(Op.INIT, major=7, minor=38))) == 64
        look(client)
        list_root(client)
        client.send(Op.FORGET, 2, record(Op.FORGET, lookups=1))
        client.ask(9999, ROOT, error=errno.ENOSYS)
        client.send(Op.DESTROY, 0)
        client.socket.close()
        assert client.process.wait(10) == 0
    finally:
        client.process.kill()
        client.process.wait()


if __name__ == "__main__":
    check_hello(sys.argv[1])
