"""Locks under stress: processes and threads that lock, wait, close, are interrupted and are killed lose no step of a counter;
and a guest that sends any requests in any order leaves no lock, no descriptor, and no request without a reply.

NIZWARF_LOCK_SECONDS is how many seconds these tests take together, 20 without it."""
import contextlib
import errno
import fcntl
import os
import random
import struct
import subprocess
import time

import pytest
from conftest import wait_until
from shapes import Op, record
from test_share_mount import drop_caches

KINDS, MOUNTS = ("flock", "fcntl"), (0, 1, 2)
SECONDS = float(os.environ.get("NIZWARF_LOCK_SECONDS", "20")) / (len(KINDS) * len(MOUNTS) + 1)
# What may come of a lock: it is granted or refused, or its open file is gone.
ERRORS = {0, errno.EAGAIN, errno.EINTR, errno.ENOLCK, errno.EDEADLK, errno.EBADF, errno.ESTALE}


@pytest.mark.parametrize("kind", KINDS)
@pytest.mark.parametrize("mounts", MOUNTS)
def test_no_step_is_lost_under_a_lock(build, mount, directory, kind, mounts):
    """On a directory, on a mount, and on a directory and two mounts of it. (With --cache=never each read is the host's.)"""
    servers = [mount("--flock", "--posix-lock", "--cache=never") for _ in range(mounts)]
    paths = [place / "counters" for place in [it.path for it in servers] + ([directory] if mounts != 1 else [])]
    before = [len(it.descriptors()) for it in servers]
    paths[0].touch()
    seconds = max(1, round(SECONDS))
    came = subprocess.run([build("lock_stress.c"), kind, str(seconds), *paths], stdout=subprocess.PIPE, text=True,
                          timeout=seconds + 120)
    print(came.stdout)
    assert came.returncode == 0, came.stdout
    (directory / "counters").unlink()
    assert wait_until(lambda: has_forgotten(servers, before)), [it.descriptors() for it in servers]


def has_forgotten(servers, before):
    """Whether the servers have no more descriptors than before, once Linux has forgotten the files that nobody uses."""
    drop_caches()
    return all(len(it.descriptors()) <= count for it, count in zip(servers, before))


class AnyOrder:
    """A guest with requests in flight on several queues, chosen by chance."""

    def __init__(self, client, chance):
        self.client, self.chance, self.node = client, chance, client.lookup(b"file")
        self.handles, self.flying = [self.open() for _ in range(6)], []

    def open(self):
        return self.client.open(self.node, self.chance.choice((os.O_RDWR, os.O_RDWR, os.O_RDONLY)))

    def submit(self, opcode, **fields):
        """Sends a request, if its queue has a place. (The queue 1 is for what is waited for.)"""
        queue = self.client.queues[self.chance.randrange(2, len(self.client.queues))]
        self.take_done()
        if queue.free:
            body = record(opcode, **fields)
            self.flying.append(self.client.submit(opcode, body, self.node, queue=queue.number, reply_size=64))

    def send_one(self):
        chance, handle = self.chance, self.chance.choice(self.handles)
        owner, first = chance.randrange(1, 5), chance.randrange(20)
        opcode = chance.choice([Op.SETLK] * 4 + [Op.SETLKW] * 6 + [Op.GETLK, Op.FLUSH, Op.RELEASE, Op.INTERRUPT])
        if opcode == Op.INTERRUPT:
            self.submit(opcode, unique=chance.choice(self.flying).unique if self.flying else 2)
        elif opcode == Op.RELEASE:
            self.submit(opcode, handle=handle, release_flags=chance.randrange(4), lock_owner=owner)
            self.handles.remove(handle)
            self.handles.append(self.open())
        elif opcode == Op.FLUSH:
            self.submit(opcode, handle=handle, lock_owner=owner)
        else:
            self.submit(opcode, handle=handle, lock_owner=owner, start=first, end=first + chance.randrange(20), pid=owner,
                        type=chance.choice((fcntl.F_RDLCK, fcntl.F_WRLCK, fcntl.F_UNLCK)), lock_flags=chance.randrange(2))

    def take_done(self):
        for it in [it for it in self.flying if self.client.is_done(it)]:
            self.flying.remove(it)
            error = self.client.wait(it).error
            assert error is None or error in ERRORS, (Op(it.opcode).name, errno.errorcode.get(error, error))

    def finish(self):
        """Interrupts what still waits, until all have a reply."""
        end = time.monotonic() + 20
        while self.flying:
            assert time.monotonic() < end, [Op(it.opcode).name for it in self.flying]
            for it in [it for it in self.flying if it.opcode != Op.INTERRUPT]:
                self.client.ask(Op.INTERRUPT, struct.pack("<Q", it.unique), queue=0, reply_size=0)
            self.take_done()


def test_any_order_of_requests_leaves_nothing(serve, directory):
    (directory / "file").write_bytes(bytes(100))
    server, chance = serve("--flock", "--posix-lock"), random.Random()
    server.connect().close()
    before, end = len(server.descriptors()), time.monotonic() + SECONDS
    while time.monotonic() < end:
        guest = AnyOrder(server.connect(queues=4, queue_size=32, slot_size=4096), chance)
        for _ in range(chance.randrange(50, 1000)):
            guest.send_one()
        if chance.randrange(2):
            guest.finish()
        if chance.randrange(3) == 0:
            # (the client begins anew, with what is in flight)
            guest.client.init()
        guest.client.close()
    end = time.monotonic() + 20
    with open(directory / "file", "rb+") as file:
        for lock in fcntl.flock, fcntl.lockf:
            while True:
                with contextlib.suppress(BlockingIOError):
                    lock(file, fcntl.LOCK_EX | fcntl.LOCK_NB)
                    break
                assert time.monotonic() < end, "a lock is left"
                time.sleep(0.01)
    while len(server.descriptors()) > before:
        assert time.monotonic() < end, server.descriptors()
        time.sleep(0.01)
