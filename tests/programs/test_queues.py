"""Queues of a vhost-user client: a request is served at once if a worker is idle, and none is ever lost."""
import fcntl
import random
import time

import pytest
from shapes import Op, record
from vhost_user import EVENT_IDX

# What a slow request takes, in seconds, as faults.c says, and when one that should not wait for it counts as having waited.
SLOW, LATE = 1.2, 0.8


@pytest.fixture
def slow_share(serve, fault, directory):
    """A server with 16 workers whose disk is slow."""
    (directory / "file").touch()
    return serve("--sandbox=none", "--seccomp=none", "--posix-lock", "--thread-pool-size=16", environment=fault("slow_disk"))


def submit_fsyncs(client, node, handle, queues):
    """Puts a slow request on each of these queues, and kicks them afterwards, so that each kick brings all of its own."""
    body = record(Op.FSYNC, handle=handle)
    requests = [client.submit(Op.FSYNC, body, node, queue=it, kick=False) for it in queues]
    for it in sorted(set(queues)):
        client.kick(client.queues[it])
    return requests


@pytest.mark.parametrize("features", [0, EVENT_IDX], ids=["flags", "indices"])
def test_idle_workers_take_requests_of_all_queues(slow_share, features):
    client = slow_share.connect(queues=5, features=features)
    node = client.lookup(b"file")
    handle = client.open(node)
    took = []
    for _ in range(6):
        begin = time.monotonic()
        for it in submit_fsyncs(client, node, handle, [1, 1, 2, 2, 3, 3, 4, 4]):
            assert client.wait(it).error == 0
        took.append(time.monotonic() - begin)
    # (eight requests on sixteen workers take as long as one)
    assert max(took) < SLOW + LATE, took


def test_a_request_behind_a_slow_one_does_not_wait_while_workers_are_idle(slow_share):
    client = slow_share.connect(queues=3)
    node = client.lookup(b"file")
    handle = client.open(node)
    took = []
    for _ in range(10):
        slow = [client.submit(Op.FSYNC, record(Op.FSYNC, handle=handle), node, queue=it, kick=False) for it in (1, 1, 2)]
        begin = time.monotonic()
        quick = client.submit(Op.GETATTR, record(Op.GETATTR), node, queue=2, kick=False)
        for it in (1, 2):
            client.kick(client.queues[it])
        assert client.wait(quick).error == 0
        took.append(time.monotonic() - begin)
        assert [client.wait(it).error for it in slow] == [0] * 3
    assert max(took) < LATE, took


def test_a_granted_lock_is_reported_while_workers_are_idle(slow_share):
    client = slow_share.connect(queues=4)
    node = client.lookup(b"file")
    handle = client.open(node)
    took = []
    for _ in range(8):
        client.setlk(node, handle, 1, fcntl.F_WRLCK, queue=3)
        waiting = client.setlk(node, handle, 2, fcntl.F_WRLCK, wait=True, queue=2)
        time.sleep(0.1)
        assert not client.is_done(waiting)
        slow = submit_fsyncs(client, node, handle, [1, 1, 2, 2])
        time.sleep(0.1)
        client.setlk(node, handle, 1, fcntl.F_UNLCK, queue=3)
        begin = time.monotonic()
        assert client.wait(waiting).error == 0
        took.append(time.monotonic() - begin)
        assert [client.wait(it).error for it in slow] == [0] * 4
        client.setlk(node, handle, 2, fcntl.F_UNLCK, queue=3)
    assert max(took) < LATE, took


@pytest.mark.parametrize("features", [0, EVENT_IDX], ids=["flags", "indices"])
@pytest.mark.parametrize("in_flight", [1, 2, 30])
def test_no_request_is_lost_by_a_client_that_kicks_only_if_it_is_told_to(serve, directory, features, in_flight):
    """A chain that the server neither saw nor wanted a kick for would wait for ever: wait() fails then."""
    (directory / "file").write_bytes(b"content")
    client = serve("--thread-pool-size=8").connect(queues=3, features=features)
    node = client.lookup(b"file")
    handle = client.open(node)
    read = record(Op.READ, handle=handle, size=100)
    kicks, pause = random.Random(in_flight), time.monotonic() + 4
    requests = []
    while time.monotonic() < pause:
        queue = kicks.randrange(1, 3)
        requests.append(client.submit(Op.READ, read, node, queue=queue, reply_size=116))
        if len(requests) == in_flight:
            # (a client's next request comes a moment later, or at once)
            answered = client.wait(requests.pop(kicks.randrange(len(requests))))
            assert answered == (0, b"content")
            if kicks.random() < 0.1:
                time.sleep(kicks.random() * 0.0003)
    for it in requests:
        assert client.wait(it) == (0, b"content")


def test_no_request_is_lost_while_memory_and_queues_change(serve, directory):
    (directory / "file").write_bytes(b"content")
    client = serve("--thread-pool-size=8").connect(queues=9, features=EVENT_IDX)
    node = client.lookup(b"file")
    handle = client.open(node)
    read = record(Op.READ, handle=handle, size=100)
    chance, end = random.Random(7), time.monotonic() + 6
    requests = []
    while time.monotonic() < end:
        for _ in range(chance.randrange(1, 40)):
            requests.append(client.submit(Op.READ, read, node, queue=chance.randrange(1, 9), reply_size=116))
        match chance.randrange(4):
            case 0:
                client.share_memory()
            case 1:
                queue = client.queues[chance.randrange(1, 9)]
                base = client.stop(queue)
                client.collect(queue)
                # (what was taken was given back, so it goes on behind the last one that is used)
                assert base == queue.seen & 0xffff
                client.start(queue, base)
            case 2:
                client.place(client.queues[chance.randrange(1, 9)])
        while requests and (chance.random() < 0.9 or len(requests) > 100):
            assert client.wait(requests.pop(chance.randrange(len(requests)))) == (0, b"content")
    for it in requests:
        assert client.wait(it) == (0, b"content")
