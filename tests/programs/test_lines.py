"""Lines on standard error: nobody has to read them for requests to be served, and a guest cannot fill a log."""
import contextlib
import errno
import os
import socket
import struct

import pytest
from vhost_user import GET_FEATURES, GUEST

# A message of vhost-user that no device knows.
UNKNOWN = 77


def break_ring(client, queue):
    """Puts an index into an available ring that is more than the queue's size ahead, and kicks."""
    client.put(queue.available + 2, queue.made + 1000)
    os.eventfd_write(queue.kick, 1)


def test_a_full_standard_error_does_not_hold_up_the_next_front_end(serve, directory, full_pipe):
    server = serve(stderr=full_pipe)
    for _ in range(5):
        client = server.connect(begin=False)
        client.query(GET_FEATURES)
        client.send(UNKNOWN)
        assert client.socket.recv(1) == b""
        client.close()
    server.connect().getattr(1)


def test_a_full_standard_error_does_not_hold_up_other_queues_or_messages(serve, directory, full_pipe):
    client = serve("--thread-pool-size=4", stderr=full_pipe).connect(queues=3)
    break_ring(client, client.queues[2])
    for _ in range(20):
        client.getattr(1, queue=1)
        client.share_memory()
        client.query(GET_FEATURES)


def test_a_full_standard_error_does_not_hold_up_who_reaches_a_limit(serve, directory, full_pipe):
    for i in range(20):
        (directory / f"{i}").touch()
    client = serve("--node-limit=5", stderr=full_pipe).connect()
    with pytest.raises(OSError) as limit:
        for i in range(20):
            client.lookup(b"%d" % i)
    assert limit.value.errno == errno.ENFILE
    client.getattr(1)


def test_a_full_standard_error_does_not_hold_up_who_loads_what_is_no_state(serve, directory, full_pipe):
    client = serve(stderr=full_pipe).connect(init=False)
    assert not client.load(b"no state" * 100)
    assert not client.load(b"")
    client.init()


def test_invalid_rings_and_chains_are_reported_once_and_counted(serve, directory):
    server = serve("--thread-pool-size=4")
    client = server.connect(queues=3)
    for _ in range(50):
        queue = client.queues[2]
        break_ring(client, queue)
        client.stop(queue)
        # (its chains are of descriptors that lie in no memory)
        client.view[queue.descriptors:queue.descriptors + 16] = struct.pack("<QIHH", GUEST - 4096, 64, 0, 0)
        client.put(queue.available + 4, 0)
        client.put(queue.available + 2, 1)
        client.put(queue.used + 2, 0)
        client.start(queue, 0)
        os.eventfd_write(queue.kick, 1)
        client.query(GET_FEATURES)
        client.stop(queue)
        client.start(queue, 0)
    client.getattr(1)
    client.send(UNKNOWN)
    with contextlib.suppress(ConnectionResetError):
        assert client.socket.recv(1, socket.MSG_WAITALL) == b""
    client.close()
    server.connect().getattr(1)
    server.end()
    lines = server.stderr().splitlines()
    # (that it is served, why the front end was disconnected, requests by outcome, chains, and two lines of rings)
    assert len(lines) <= 8, lines
    assert len([it for it in lines if "rings are invalid" in it]) == 2, lines
