"""The example check.c, which stands before a server: no request holds it up, and no notice is taken for a reply.

It is linked with --wrap=setsockopt and a function in its place that does nothing. So its messages have 208 KiB at most,
and a longer one cannot be passed on. The server behind it is this file: test_example_check.py HOW DESCRIPTOR."""
import errno
import os
import pathlib
import socket
import struct
import subprocess
import sys

INIT, GETATTR = 26, 3
HEAD, REPLY = struct.Struct("<IIQQIIIHH"), struct.Struct("<IiQ")
# In bytes: longer than a message may be where setsockopt does nothing; and longer than any message here.
LONG, LONGEST = 300 << 10, 1 << 20


def serve(how, descriptor):
    """Replies to each INIT and GETATTR until the peer is gone; with `notices`, sends a notice before its first reply."""
    behind = socket.socket(fileno=int(descriptor))
    while request := behind.recv(LONGEST):
        _, opcode, unique, *_ = HEAD.unpack_from(request)
        if opcode == INIT and how == "notices":
            behind.send(REPLY.pack(REPLY.size + 8, 1, 0) + bytes(8))
        body = struct.pack("<IIIIHHI", 7, 38, 0, 0, 0, 0, LONGEST).ljust(64, b"\0") if opcode == INIT else bytes(104)
        behind.send(REPLY.pack(REPLY.size + len(body), 0, unique) + body)


if __name__ == "__main__":
    serve(*sys.argv[1:])
    sys.exit()

import pytest  # noqa: E402


class Check:
    """A process of check.c with its server, and the peer's end of the socket."""

    def __init__(self, program, how):
        self.peer, other = socket.socketpair(socket.AF_UNIX, socket.SOCK_SEQPACKET)
        self.peer.settimeout(10)
        # (twice the most that a process without privileges may have)
        self.peer.setsockopt(socket.SOL_SOCKET, socket.SO_SNDBUF, LONGEST)
        self.process = subprocess.Popen([program, str(other.fileno()), sys.executable, os.path.abspath(__file__), how],
                                        pass_fds=[other.fileno()], stderr=subprocess.PIPE)
        other.close()

    def request(self, opcode, unique, size):
        """The error of the reply to a request of this many bytes."""
        body = struct.pack("<IIII", 7, 38, 0, 0) if opcode == INIT else bytes(16)
        self.peer.send(HEAD.pack(size, opcode, unique, 1, 0, 0, 0, 0, 0) + body.ljust(size - HEAD.size, b"\0"))
        while True:
            # (a notice has another number)
            _, error, of = REPLY.unpack_from(self.peer.recv(LONGEST))
            if of == unique:
                return error

    def end(self):
        """Disconnects. The process must end with status 0."""
        self.peer.close()
        _, said = self.process.communicate(timeout=10)
        assert self.process.returncode == 0, said


@pytest.fixture
def check(built):
    """Starts check.c with a server that behaves so: check(HOW)."""
    narrow = pathlib.Path(built.folder) / "narrow.c"
    narrow.write_text("int __wrap_setsockopt(void) { return 0; }")
    program, started = built.compile("examples/c/check.c", narrow, "-Wl,--wrap=setsockopt"), []

    def start(how):
        started.append(Check(program, how))
        return started[-1]

    yield start
    for it in started:
        it.process.kill()
        it.process.communicate()
        it.peer.close()


def test_an_init_that_cannot_be_passed_on_is_EIO_and_the_next_one_is_answered(check):
    it = check("plainly")
    assert it.request(INIT, 2, LONG) == -errno.EIO
    assert it.request(INIT, 4, HEAD.size + 64) == 0
    assert it.request(GETATTR, 6, HEAD.size + 16) == 0
    it.end()


def test_a_notice_is_not_taken_for_a_reply(check):
    it = check("notices")
    assert it.request(INIT, 2, HEAD.size + 64) == 0
    assert it.request(GETATTR, 4, HEAD.size + 16) == 0
    it.end()
