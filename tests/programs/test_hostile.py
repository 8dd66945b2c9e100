"""Requests that break a rule come to an error, and the queue is served on: those of hostile sessions that other servers get too
(tests/compare), of sessions made of a number, numbers and names that are made up, offsets that Linux has no number for, any
requests, and memory that is changed while it is read. All is released at the end."""
import os
import random
import socket
import stat
import struct

import generate
import pytest
import requests
import shapes
from asking import HUNG_UP, NONE, Asking
from building import run
from conftest import has_sanitizer
from requests import line, request, transfer
from shapes import SHAPES, Op, record

pytestmark = [pytest.mark.root, pytest.mark.sanitizers]
ENOENT, ENXIO, EBADF, ENOTDIR, EINVAL, EFBIG, ELOOP, ESTALE = 2, 6, 9, 20, 22, 27, 40, 116
ENOSYS = "16 10000000daffffff0700000000000000"
INIT = requests.FIRST[1]
NO_SANDBOX = "--sandbox=none", "--seccomp=none"
# With the last ones names and ids are others on the host, and more is decoded.
OPTIONS = {"sandbox": ("--xattr", "--announce-submounts"),
           "one-worker": ("--xattr", "--announce-submounts", "--thread-pool-size=1", *NO_SANDBOX),
           "translated": ("--xattrmap=:map::user.virtiofs.:", "--translate-uid=map:1000:100000:65536",
                          "--translate-gid=squash-guest:1000:100000:65536", "--allow-direct-io", "--no-killpriv-v2")}


class Front(Asking):
    """A front end that can ask anything."""

    def hold(self, name, text, *errors):
        """Asks, and one of these errors must come."""
        assert self.reply(text).error in errors, name


@pytest.fixture(params=OPTIONS.values(), ids=OPTIONS)
def server(request, serve, scratch, directory):
    """A server of files, of what is not to be opened, and of another file system."""
    os.mkfifo(directory / "pipe")
    os.mknod(directory / "null", stat.S_IFCHR | 0o666, os.makedev(1, 3))
    os.symlink("/etc/passwd", directory / "link")
    for name in ("directory", "mounted"):
        (directory / name).mkdir()
    for i in range(50):
        (directory / f"file{i}").touch()
        (directory / f"some{i}").touch()
    run("mount", "-t", "tmpfs", "none", directory / "mounted")
    # (a socket was left over, on which nobody listens)
    with socket.socket(socket.AF_UNIX) as left:
        left.bind(str(scratch / "socket0"))
    return serve(*request.param, "--log-level=warn")


@pytest.fixture
def one(server):
    with Front(server.socket) as it:
        it.ask_line(INIT)
        yield it


def test_a_queue_is_served_after_each_hostile_session(server):
    for items, _ in requests.sessions():
        answers = []
        with Front(server.socket) as one:
            for _, text in items:
                answers.append(one.ask_line(text(answers) if callable(text) else text))
                if answers[-1] in (NONE, HUNG_UP):
                    break
        assert answers[-1] == ENOSYS, f"{items[-2][0]}: {answers}"


def test_a_queue_is_served_after_each_session_made_of_a_number(server):
    for number in range(300):
        with Front(server.socket) as one:
            one.ask_line(INIT)
            for made in generate.session(7, number):
                one.ask_line(line("16+4096", made or b"\0"))
            assert one.ask_line(requests.LAST[1]) == ENOSYS, number


def filled(opcode, **numbers):
    """What follows a header: these numbers, where the record has a place for them, and names and data."""
    fields = {it.name for it in SHAPES[opcode].fields}
    made = record(opcode, **{name: number for name, number in numbers.items() if name in fields})
    return made + b"".join({"name": b"a\0", "text": b"b\0", "data": bytes(8)}.get(it, b"") for it in SHAPES[opcode].parts)


def test_numbers_that_are_made_up_are_stale_nodes_and_bad_handles(one):
    others = {Op.FORGET, Op.LINK, Op.ACCESS, *shapes.having(lambda it: "attribute" in it.parts), Op.LISTXATTR}
    of_nodes = [it for it in shapes.having(lambda it: it.about in ("folder", "node")) if it not in others]
    for node in (0, 2**32 + 1, 12345, 2**63, 2**64 - 1):
        for opcode in of_nodes:
            body = filled(opcode, to_folder=1, valid=1)
            one.hold(f"{opcode.name} of node {node}", line("16+144", request(opcode, body, node=node)), ESTALE)
        for opcode in (Op.RENAME, Op.LINK):
            body = filled(opcode, to_folder=node, of_node=node)
            one.hold(f"{opcode.name} to or of node {node}", line("16+128", request(opcode, body)), ESTALE)
    for handle in (0, 1, 2**32 + 1, 12345, 2**64 - 1):
        for opcode in shapes.having(lambda it: it.about in ("file", "directory")):
            body = filled(opcode, handle=handle, size=8, to_node=1, to_handle=handle, length=1)
            one.hold(f"{opcode.name} of handle {handle}", line("16+4096", request(opcode, body)), EBADF)


def test_a_mount_below_the_directory_is_announced_and_nothing_else(one, server):
    if "--announce-submounts" not in server.process.args:
        pytest.skip("mounts are not announced")
    for name, flags in ((b"mounted", 1), (b"directory", 0)):
        assert struct.unpack_from("<I", one.reply(line("16+128", request(1, name + b"\0"))).body, 124)[0] == flags, name


def test_names_that_are_made_up_name_nothing(one):
    names = b".", b"..", b"/", b"a/b", b"../x", b"directory/.."
    for name, error in ((b"", ENOENT), *((it, EINVAL) for it in names)):
        for opcode in shapes.having(lambda it: it.about == "folder" and it.parts.count("name") == 1):
            body = record(opcode) + name + (b"\0text\0" if opcode == Op.SYMLINK else b"\0")
            if opcode != Op.LINK:
                one.hold(f"{opcode.name} of {name}", line("16+144", request(opcode, body)), error)
    one.hold("LOOKUP in a symbolic link", line("16+128", request(1, b"passwd\0", node=one.lookup(b"link"))), ENOTDIR)


def test_a_new_directory_is_owned_by_the_user_that_asks_for_it(one, server, directory):
    for uid, error in ((7, 0), (2**32 - 1, EINVAL)):
        body = struct.pack("<II", 0o2755, 0) + b"made%d\0" % uid
        one.hold(f"MKDIR of user {uid}", line("16+128", request(9, body, uid=uid, gid=uid)), error)
    made = os.stat(directory / "made7")
    assert (made.st_uid, made.st_gid) == (7, 7) and not os.path.exists(directory / f"made{2**32 - 1}")


def test_what_would_wait_or_do_something_is_not_opened(one):
    link, pipe, null = (one.lookup(it) for it in (b"link", b"pipe", b"null"))
    for flags in (0, 1, 2, 0o1000, 0o2001):
        for name, node, errors in (("link", link, (ELOOP,)), ("pipe", pipe, (ENXIO,)), ("null", null, (ENXIO,))):
            one.hold(f"OPEN of a {name} with {flags}",
                     line("16+16", request(14, struct.pack("<II", flags, 0), node=node)), *errors)
        # (a client opens what is there by OPEN, and asks who may)
        one.hold(f"CREATE of a pipe with {flags}",
                 line("16+144", request(35, struct.pack("<IIII", flags | 0o100, 0o644, 0, 0) + b"pipe\0")), ESTALE)
    size = struct.pack("<IIQQ", 8, 0, 0, 5) + bytes(64)
    for name, node, error in (("link", link, ELOOP), ("pipe", pipe, ENXIO), ("null", null, ENXIO)):
        one.hold(f"SETATTR of the size of a {name}", line("16+104", request(4, size, node=node)), error)


def test_offsets_that_linux_has_no_number_for_are_refused(one, directory):
    node, handle = one.create(b"far")
    for offset in (2**63, 2**63 + 1, 2**64 - 1, 2**63 - 1):
        one.hold(f"WRITE at {offset}", line("16+8", transfer(16, 3, b"abc", offset, node, handle)), EINVAL, EFBIG)
        if offset >= 2**63:
            one.hold(f"READ at {offset}", line("16+8", transfer(15, 3, b"", offset, node, handle)), EINVAL)
    assert os.stat(directory / "far").st_size == 0
    one.hold("READDIR of a file", line("16+400", transfer(28, 400, b"", 0, node, handle)), ENOTDIR)


def test_each_write_says_whether_it_goes_to_the_end(one, directory):
    """One of a page that was mapped does not."""
    node, handle = one.create(b"ends", flags=os.O_RDWR | os.O_APPEND)
    for data, cached, flags, wanted in ((b"012345", 0, 0o2002, b"012345"), (b"XYZ", 1, 0o2002, b"XYZ345"),
                                        (b"AB", 0, 2, b"ABZ345"), (b"CD", 0, 0o2002, b"ABZ345CD")):
        body = struct.pack("<QQIIQII", handle, 0, len(data), cached, 0, flags, 0) + data
        one.hold("WRITE of a file with O_APPEND", line("16+8", request(16, body, node=node)), 0)
        assert (directory / "ends").read_bytes() == wanted


def test_any_request_has_an_answer(one):
    """Requests by chance, always the same: of things that are there and that aren't, cut and made longer."""
    chance, (node, _) = random.Random(7), one.create(b"ends", flags=os.O_RDWR | os.O_APPEND)
    opened = [struct.unpack_from("<Q", one.reply(line("16+16", request(opcode, bytes(8), node=it))).body)[0]
              for opcode, it in ((14, one.lookup(b"file1")), (27, 1))]
    numbers = [0, 1, 2, 3, 7, 4096, 65536, 2**62 + 1, 2**63 - 1, 2**63, 2**64 - 1, *opened]
    nodes = [1, 1, node, *(one.lookup(it) for it in (b"link", b"pipe", b"null", b"directory", b"file0")), 12345,
             2**32 + 1]
    texts = [b"file0\0", b"new\0", b"directory\0", b"..\0", b"a/b\0", b"link\0", b"pipe\0", b"user.a\0", b"\0",
             b"x" * 300 + b"\0", b"none", b"\xff\0"]
    opcodes = [opcode for opcode in requests.NAMES if opcode not in (26, 38)]
    for i in range(5000):
        most = chance.choice((0, 1, 2, 3, 5, 7, 11))
        body = b"".join(struct.pack("<Q", chance.choice(numbers)) for _ in range(most))
        body += b"".join(chance.choice(texts) for _ in range(chance.choice((0, 1, 1, 2))))
        if chance.random() < 0.2:
            body = body[:chance.randrange(len(body) + 1)]
        asked = request(chance.choice(opcodes), body, node=chance.choice(nodes))
        if chance.random() < 0.1:
            asked = struct.pack("<I", chance.choice((0, 39, 40, len(asked) + 1, 2**32 - 1))) + asked[4:]
        cuts = sorted(chance.randrange(1, len(asked)) for _ in range(chance.randrange(4)))
        room = chance.choice(("16+144", "16+4096", "160", "0", "15", "10+10+200", "16"))
        answer = one.ask_line(line(room, asked, tuple(dict.fromkeys(cuts))))
        assert answer.split()[0].isdigit(), f"request {i}, {asked.hex()}"


@pytest.mark.parametrize("how", ["DESTROY", "INIT"])
def test_all_is_released_by_the_end_of_a_session_and_by_the_next_one(one, server, how):
    before = len(server.descriptors())
    nodes = [one.lookup(b"some%d" % i) for i in range(50)]
    # (they are known already)
    assert nodes == [one.lookup(b"some%d" % i) for i in range(50)]
    for i in range(10):
        one.hold("OPEN", line("16+16", request(14, bytes(8), node=nodes[i])), 0)
        one.hold("OPENDIR", line("16+16", request(27, bytes(8))), 0)
    assert len(server.descriptors()) >= before + 70
    if how == "DESTROY":
        one.ask_line(line("0", request(38)))
    one.ask_line(INIT)
    assert len(server.descriptors()) == before
    one.hold("a node of before it", line("16+104", request(3, bytes(16), node=nodes[0])), ESTALE)


def test_memory_that_is_changed_while_it_is_read_ends_no_server_and_leaves_no_descriptor(serve, directory, build, share):
    """Chains, rings and requests change, indices jump, and memory is cut."""
    # The thread sanitizer takes it for a race if two workers write where a guest lends one place twice.
    server = serve("--log-level=warn", *["--thread-pool-size=1"] if has_sanitizer(share) else [])
    server.connect().close()
    server.connect()
    before = len(server.descriptors())
    server.clients.pop().close()
    for seed in range(1, 5):
        run(build("rings.c"), server.socket, str(seed), "2000", seconds=600)
        server.connect()
        assert len(server.descriptors()) == before
        server.clients.pop().close()
