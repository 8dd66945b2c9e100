"""Messages of a vhost-user front end: what the protocol forbids is disconnected, and what it allows at the same limits is
taken. The protocol is QEMU's docs/interop/vhost-user.rst, the sizes and places of rings are those of virtio 1.2, 2.7."""
import os
import signal
import socket
import struct
import time

import pytest
from vhost_user import GET_FEATURES, SET_FEATURES, VERSION_1

# Requests, and the size of the payload of each but the table of memory.
SET_OWNER, RESET_OWNER, SET_MEM_TABLE = range(3, 6)
SET_NUM, SET_ADDR, SET_BASE, GET_BASE, SET_KICK, SET_CALL, SET_ERR = range(8, 15)
GET_PROTOCOL, SET_PROTOCOL, GET_QUEUES, SET_ENABLE = range(15, 19)
SET_LOG_BASE, SET_LOG_FD, SET_STATE_FD, CHECK_STATE = 6, 7, 42, 43
SIZES = {GET_FEATURES: 0, SET_FEATURES: 8, SET_OWNER: 0, RESET_OWNER: 0, SET_NUM: 8, SET_ADDR: 40, SET_BASE: 8,
         GET_BASE: 8, SET_KICK: 8, SET_CALL: 8, SET_ERR: 8, GET_PROTOCOL: 0, SET_PROTOCOL: 8, GET_QUEUES: 0,
         SET_ENABLE: 8, SET_LOG_BASE: 16, SET_LOG_FD: 0, SET_STATE_FD: 8, CHECK_STATE: 0}
NO_DESCRIPTOR, WANTS_REPLY, REPLY_ACK = 1 << 8, 1 << 3, 1 << 3
PAGE, USER = 4096, 1 << 32


def message(request, body=b"", flags=1, size=None):
    """A message to the device, whose header may say another size than the body has."""
    return struct.pack("<III", request, flags, len(body) if size is None else size) + body


def number(request, value):
    return message(request, struct.pack("<Q", value))


def state(request, queue, value):
    return message(request, struct.pack("<II", queue, value))


def rings(queue=0, flags=0, descriptors=USER, used=USER + 4, available=USER + 2):
    """Where the rings of a queue are, in addresses of the VMM; by default at the alignment that each may least have.
    """
    return message(SET_ADDR, struct.pack("<IIQQQQ", queue, flags, descriptors, used, available, 0))


def table(*regions, count=None):
    """Of regions (guest, size, user, offset)."""
    body = struct.pack("<II", len(regions) if count is None else count, 0)
    return message(SET_MEM_TABLE, body + b"".join(struct.pack("<QQQQ", *it) for it in regions))


def region(guest=0, size=PAGE, user=USER, offset=0):
    return guest, size, user, offset


def headers():
    """Messages (name, bytes, descriptors) whose header can't be."""
    for flags in (0, 2, 3, 1 | 1 << 2):
        yield f"flags {flags}", message(GET_FEATURES, flags=flags), 0
    for request in (0, 19, 24, 37, 38, 41, 44, 77, 0xFFFFFFFF):
        yield f"request {request}", message(request), 0
    for request, size in SIZES.items():
        yield f"request {request} with more", message(request, bytes(size + 4)), 0
        yield f"request {request} of 4 GiB", message(request, bytes(300), size=0xFFFFFFFF), 0
        yield f"request {request} with a descriptor too many", message(request, bytes(size)), 2
        if size:
            yield f"request {request} with nothing", message(request), 0
            yield f"request {request} with less", message(request, bytes(size - 4)), 0


def queues():
    """The same of queues."""
    for request in (SET_NUM, SET_BASE, GET_BASE, SET_ENABLE):
        for queue in (256, 0xFFFFFFFF):
            yield f"request {request} of queue {queue}", state(request, queue, 1), 0
    for size in (0, 3, 32767, 32769, 65536, 1 << 31):
        yield f"a queue of {size}", state(SET_NUM, 0, size), 0
    yield "an index of 17 bits", state(SET_BASE, 0, 65536), 0
    yield "neither enabled nor disabled", state(SET_ENABLE, 0, 2), 0
    yield "rings of queue 256", rings(queue=256), 0
    for flags in (2, 3, 1 << 31):
        yield f"rings with the flags {flags}", rings(flags=flags), 0
    yield "descriptors at 8", rings(descriptors=USER + 8), 0
    yield "an available ring at 1", rings(available=USER + 1), 0
    yield "a used ring at 2", rings(used=USER + 2), 0
    for request in (SET_KICK, SET_CALL, SET_ERR):
        yield f"request {request} without its descriptor", number(request, 0), 0
        yield f"request {request} with one that it has not", number(request, NO_DESCRIPTOR), 1
    for bit in (0, 27, 34, 63):
        yield f"feature {bit}", number(SET_FEATURES, 1 << 32 | 1 << bit), 0
    for bit in (2, 9, 15, 18, 63):
        yield f"feature {bit} of the protocol", number(SET_PROTOCOL, 1 << bit), 0


def log(size=PAGE, offset=0):
    return message(SET_LOG_BASE, struct.pack("<QQ", size, offset))


def logs():
    """The same of logs, in a file of 16 pages, and of states."""
    yield "a log without a descriptor", log(), 0
    yield "an empty log", log(0), 1
    yield "a log past its file", log(16 * PAGE + 1), 1
    yield "a log whose end is past its file", log(PAGE, 16 * PAGE), 1
    yield "a log past the offsets of files", log((1 << 63) - PAGE, PAGE), 1
    yield "a log past all numbers", log((1 << 64) - PAGE, 2 * PAGE), 1
    yield "who is told of a log, without a descriptor", message(SET_LOG_FD), 0
    for words in ((2, 0), (0, 1), (1, 1), (1 << 31, 0)):
        yield f"a state that goes by {words}", state(SET_STATE_FD, *words), 1
    yield "a state without a descriptor", state(SET_STATE_FD, 0, 0), 0


def tables():
    """The same of tables of memory, whose descriptors are of a file of 16 pages."""
    two = region(), region(guest=PAGE, user=USER + PAGE)
    yield "two regions, one descriptor", table(*two), 1
    yield "two regions, three descriptors", table(*two), 3
    yield "a region without a descriptor", table(region()), 0
    yield "two regions that are said to be one", table(*two, count=1), 1
    yield "one region that is said to be two", table(region(), count=2), 2
    yield "regions without end", table(region(), count=0xFFFFFFFF), 1
    yield "nine regions", table(*(region(guest=i * PAGE, user=USER + i * PAGE) for i in range(9))), 8
    yield "more descriptors than regions can be", table(*two), 12
    yield "a table without a count", message(SET_MEM_TABLE), 0
    yield "half a region", message(SET_MEM_TABLE, struct.pack("<II", 1, 0) + bytes(16)), 1
    yield "an empty region", table(region(size=0)), 1
    yield "an empty region with an offset", table(region(size=0, offset=PAGE)), 1
    yield "a region past the guest's addresses", table(region(guest=(1 << 64) - PAGE + 1)), 1
    yield "a region past the front end's addresses", table(region(user=(1 << 64) - PAGE + 1)), 1
    yield "a region past the offsets of files", table(region(offset=(1 << 63) - PAGE)), 1
    yield "an offset that is none", table(region(offset=(1 << 64) - PAGE)), 1
    yield "a region of all addresses", table(region(size=(1 << 64) - 1)), 1
    yield "a region past its file", table(region(size=16 * PAGE + 1)), 1
    yield "a region whose end is past its file", table(region(offset=16 * PAGE)), 1
    yield "the same region twice", table(region(), region()), 2
    yield "regions with a byte in common", table(region(size=PAGE + 1), two[1]), 2
    yield "the same in the other order", table(two[1], region(size=PAGE + 1)), 2
    yield "a region in another", table(region(size=8 * PAGE), region(guest=PAGE, size=1)), 2
    yield "the first and the last of three", table(region(size=3 * PAGE), region(guest=4 * PAGE),
                                                   region(guest=2 * PAGE)), 3


def right():
    """Messages that are to be taken."""
    for size in (1, 128, 32768):
        yield f"a queue of {size}", state(SET_NUM, 255, size), 0
    yield "the last index", state(SET_BASE, 0, 65535), 0
    for value in (0, 1):
        yield f"enabled: {value}", state(SET_ENABLE, 0, value), 0
    yield "rings as near as they may be", rings(), 0
    yield "rings of the last queue", rings(queue=255), 0
    yield "rings that are logged", rings(flags=1), 0
    for request in (SET_KICK, SET_CALL, SET_ERR):
        yield f"request {request} without a descriptor", number(request, NO_DESCRIPTOR | 255), 0
    yield "an event for errors", number(SET_ERR, 0), 1
    yield "no features", number(SET_FEATURES, 0), 0
    yield "features that every device has", number(SET_FEATURES, 1 << 32 | 1 << 30), 0
    yield "indirect tables, and events by index", number(SET_FEATURES, 1 << 32 | 1 << 29 | 1 << 28), 0
    yield "a log of all", number(SET_FEATURES, 1 << 32 | 1 << 26), 0
    yield "a log in a file, and a state", number(SET_PROTOCOL, 1 << 19 | 1 << 1), 0
    yield "who is told of a log", message(SET_LOG_FD), 1
    yield "no region", table(), 0
    yield "a region", table(region()), 1
    yield "a region that is all of its file", table(region(size=16 * PAGE)), 1
    yield "a region at the end of its file", table(region(offset=15 * PAGE)), 1
    yield "the last of all addresses", table(region(guest=(1 << 64) - 1 - PAGE, user=(1 << 64) - 1 - PAGE)), 1
    yield "neighbours", table(region(), region(guest=PAGE)), 2
    yield "neighbours in the other order", table(region(guest=PAGE), region()), 2
    yield "eight regions", table(*(region(guest=i * PAGE, user=USER + i * PAGE) for i in range(8))), 8


def cut():
    """Messages that end before they should."""
    whole = table(region())
    for size in (1, 11, 12, 19, len(whole) - 1):
        yield f"a message of {size} bytes", whole[:size], 1


def is_served(server, said, descriptors, is_cut):
    """Sends a message from a new front end, and then asks for the features, or sends no more. Returns whether they are
    answered."""
    front = server.connect(begin=False).socket
    front.settimeout(60)
    try:
        socket.send_fds(front, [said], descriptors)
        if is_cut:
            front.shutdown(socket.SHUT_WR)
        else:
            front.sendall(message(GET_FEATURES))
        answer = front.recv(20, socket.MSG_WAITALL)
    except (BrokenPipeError, ConnectionResetError):
        return False
    finally:
        server.clients.pop().close()
    return answer[:12] == struct.pack("<III", GET_FEATURES, 5, 8)


@pytest.mark.sanitizers
@pytest.mark.parametrize("cases, wanted", [(headers, False), (queues, False), (tables, False), (logs, False), (cut, False),
                                           (right, True)])
def test_a_front_end_that_sends_what_cannot_be_is_disconnected_and_leaves_nothing(serve, cases, wanted):
    server = serve("--log-level=warn")
    client = server.connect()
    before = len(server.descriptors())
    client.close()
    memory = os.memfd_create("memory")
    os.ftruncate(memory, 16 * PAGE)
    wrong = [name for name, said, count in cases() if is_served(server, said, [memory] * count, cases is cut) != wanted]
    os.close(memory)
    assert wrong == []
    server.connect()
    assert len(server.descriptors()) == before, server.descriptors()


@pytest.mark.sanitizers
@pytest.mark.parametrize("request_", [SET_KICK, SET_CALL])
def test_a_descriptor_that_is_no_event_ends_no_server(serve, directory, request_):
    (directory / "file").touch()
    server = serve()
    with open(directory / "file") as no_event:
        client = server.connect(begin=False)
        socket.send_fds(client.socket, [number(request_, 1)], [no_event.fileno()])
        time.sleep(0.1)
        client.close()
    server.connect().getattr(1)


def test_a_reply_that_is_wanted_comes_if_that_was_agreed_on(serve):
    client = serve().connect(begin=False)
    client.socket.sendall(number(SET_PROTOCOL, REPLY_ACK) + message(SET_NUM, struct.pack("<II", 0, 128), 1 | WANTS_REPLY))
    assert client.socket.recv(20, socket.MSG_WAITALL) == struct.pack("<IIIQ", SET_NUM, 5, 8, 0)


def test_a_message_in_parts_is_received_by_a_server_that_was_stopped_meanwhile(serve, directory):
    server = serve()
    client = server.connect(begin=False)
    client.query(GET_FEATURES)
    message = struct.pack("<IIIQ", SET_FEATURES, 1, 8, VERSION_1) + struct.pack("<III", GET_FEATURES, 1, 0)
    # (within a header, within a body)
    for part in (message[:5], message[5:15], message[15:]):
        client.socket.sendall(part)
        time.sleep(0.2)
        os.kill(server.pid, signal.SIGSTOP)
        time.sleep(0.1)
        os.kill(server.pid, signal.SIGCONT)
    (features,) = struct.unpack("<Q", client.receive())
    assert features & VERSION_1


def test_a_message_that_is_not_whole_holds_up_the_next_front_end_no_longer_than_it_is_there(serve, directory):
    server = serve()
    client = server.connect(begin=False)
    client.socket.sendall(b"\0" * 5)
    client.close()
    server.connect(begin=False).query(GET_FEATURES)
