r"""The examples of a file system of one file, `hello`, in each language, built for tests; and a client of one that is
served at a socket.

    with Client(EXAMPLES["python"](folder)) as client:
        assert client.ask(LOOKUP, ROOT, b"none\0").error == -errno.ENOENT
"""
import collections
import os
import pathlib
import shutil
import socket
import struct
import subprocess

import pytest

REPOSITORY = pathlib.Path(__file__).resolve().parents[2]
IN_HEADER, OUT_HEADER = struct.Struct("<IIQQIIIHH"), struct.Struct("<IiQ")
LOOKUP, FORGET, GETATTR, UNLINK, INIT, INTERRUPT, BATCH_FORGET = 1, 2, 3, 10, 26, 36, 42
ROOT = 1
# The record of an INIT of 7.38 that offers nothing, and that of a GETATTR without a handle.
INIT_RECORD, GETATTR_RECORD = struct.pack("<IIII", 7, 38, 0, 0), bytes(16)
# How long a program may take for a reply, and for its end, in seconds.
PATIENCE = 20

Reply = collections.namedtuple("Reply", "error unique body")
# A built example: `command` runs it, with the mount point after it, or the words `served` to serve at a socket: FD is its
# number there, and it is standard input too.
Example = collections.namedtuple("Example", "language command served", defaults=[["--fd", "FD"]])


def run(*command, **more):
    """Runs a command that must succeed."""
    done = subprocess.run(command, stdout=subprocess.PIPE, stderr=subprocess.STDOUT, text=True, timeout=1800, **more)
    assert done.returncode == 0, f"{command}:\n{done.stdout}"
    return done.stdout


def transport(script):
    """Runs lines of bash with the functions of tools/lib/transport.sh, and returns the words that they printed."""
    found = subprocess.run(["bash", "-euc", f". tools/lib/usage.sh; . tools/lib/transport.sh; {script}"], cwd=REPOSITORY,
                           stdout=subprocess.PIPE, text=True, timeout=1800)
    if found.returncode:
        pytest.fail("the library for C does not build")
    return found.stdout.split()


def library():
    """The paths of the library for C, with its C files, and of what it needs."""
    return transport("find_library nizwarf_codec >&2; echo ${library[*]}")


def build_c(folder, sources=REPOSITORY / "examples/c"):
    """Builds hello.c of a folder."""
    run("make", "-s", "-B", "-C", folder, "-f", REPOSITORY / "programs/Makefile", "hello", f"LIBRARY={' '.join(library())}",
        f"INCLUDE={REPOSITORY / 'include'}", "CFLAGS=-O2 -Wall -Wextra -Werror", f"VPATH={sources}")
    return Example("c", [str(folder / "hello")])


def build_shared(folder):
    """Links the shared library, which Python and Go load."""
    transport(f"link_shared '{folder}' >&2")
    return folder


def build_python(folder):
    library_path = build_shared(folder) / "libnizwarf.so.1"
    return Example("python", ["env", f"NIZWARF_LIB={library_path}", str(REPOSITORY / "bindings/python/hello.py")])


def build_go(folder):
    if not shutil.which("go"):
        pytest.skip("requires go")
    build_shared(folder)
    run("go", "build", "-o", folder / "hello", "./examples/hello", cwd=REPOSITORY / "bindings/go",
        env={**os.environ, "GOCACHE": str(REPOSITORY / "out/bindings/go-cache"), "GOFLAGS": "-mod=mod", "GOPROXY": "off",
             "CGO_CFLAGS": "-O2", "CGO_LDFLAGS": f"-L{folder}"})
    return Example("go", ["env", f"LD_LIBRARY_PATH={folder}", str(folder / "hello")])


def build_rust(folder, example="hello"):
    if not shutil.which("cargo"):
        pytest.skip("requires cargo")
    for it in transport("find_library nizwarf_codec >&2; echo $archive $heap"):
        shutil.copy(it, folder)
    target = REPOSITORY / "out/rust"
    run("cargo", "build", "--quiet", "--offline", "--example", example, "--target-dir", target,
        cwd=REPOSITORY / "bindings/rust", env={**os.environ, "NIZWARF_LIB_DIR": str(folder)})
    shutil.copy(target / "debug/examples" / example, folder)
    return Example("rust", [str(folder / example)], ["-"])


EXAMPLES = {"c": build_c, "python": build_python, "go": build_go, "rust": build_rust}


class Client:
    """The other end of a socket at which a program serves: it plays the kernel. At the end the program must end with
    status 0."""

    def __init__(self, example):
        self.ours, theirs = socket.socketpair(socket.AF_UNIX, socket.SOCK_SEQPACKET)
        self.ours.settimeout(PATIENCE)
        self.unique = 0
        served = [str(theirs.fileno()) if it == "FD" else it for it in example.served]
        self.process = subprocess.Popen([*example.command, *served], stdin=theirs, stdout=subprocess.PIPE,
                                        stderr=subprocess.PIPE, text=True, pass_fds=[theirs.fileno()])
        theirs.close()

    def send(self, opcode, node, body=b"", length=None):
        """Sends a request, whose header says another length than its own if that is given, and returns its number."""
        self.unique += 1
        length = IN_HEADER.size + len(body) if length is None else length
        self.ours.send(IN_HEADER.pack(length, opcode, self.unique, node, 0, 0, 0, 0, 0) + body)
        return self.unique

    def receive(self):
        message = self.ours.recv(1 << 17)
        assert message, f"the program has ended: {self.end()}"
        length, error, unique = OUT_HEADER.unpack_from(message)
        assert length == len(message)
        return Reply(error, unique, message[OUT_HEADER.size:])

    def ask(self, opcode, node, body=b"", length=None):
        unique, reply = self.send(opcode, node, body, length), self.receive()
        assert reply.unique == unique
        return reply

    def end(self):
        """Closes the socket, and returns the status of the program and what it printed as errors."""
        self.ours.close()
        try:
            _, errors = self.process.communicate(timeout=PATIENCE)
        except subprocess.TimeoutExpired:
            self.process.kill()
            self.process.communicate()
            raise
        return self.process.returncode, errors

    def __enter__(self):
        return self

    def __exit__(self, kind, *_):
        if self.process.returncode is None:
            status, errors = self.end()
            assert kind or status == 0, errors
