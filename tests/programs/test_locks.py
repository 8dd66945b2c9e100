"""Locks of nizwarf-share: what Linux and POSIX say of flock(2) and fcntl(2), over a mount and over vhost-user.

Over vhost-user each test is a guest of its own making: the order of requests is exact, so a request that Linux sends late
comes late. There a lock owner is a number, as Linux has one for each process (fcntl), or for each open file (flock)."""
import contextlib
import errno
import fcntl
import os
import pathlib
import random
import shutil
import struct
import subprocess
import sys
import threading
import time

import pytest
from building import run
from shapes import Op, record

READ, WRITE, NONE = fcntl.F_RDLCK, fcntl.F_WRLCK, fcntl.F_UNLCK
OFD_SETLK = 37
LATER = 0.3
OPTIONS = "--flock", "--posix-lock"


class Guest:
    """A guest and a file of the shared directory."""

    def __init__(self, server, directory, **more):
        self.path = directory / "file"
        self.path.write_bytes(b"0123456789" * 10)
        self.server, self.client = server, server.connect(**more)
        self.node = self.client.lookup(b"file")

    def open(self, flags=os.O_RDWR):
        return self.client.open(self.node, flags)

    def lock(self, handle, owner, kind=WRITE, **more):
        """The error of SETLK, or 0; with wait=True, the request of SETLKW."""
        try:
            done = self.client.setlk(self.node, handle, owner, kind, **more)
        except OSError as refused:
            return refused.errno
        return done if more.get("wait") else 0

    def flush(self, handle, owner):
        self.client.flush(self.node, handle, owner)

    def release(self, handle, owner):
        """RELEASE of an open file that flock(2) was called on. (The second bit of its flags says so.)"""
        body = record(Op.RELEASE, handle=handle, release_flags=2, lock_owner=owner)
        self.client.expect(Op.RELEASE, body, self.node)

    def is_waiting(self, request):
        time.sleep(LATER)
        return not self.client.is_done(request)

    def host_may(self, how, first=0, count=0):
        """Whether a program of the host gets a lock of fcntl(2), or of flock(2) without a range."""
        with open(self.path, "rb+") as file, contextlib.suppress(BlockingIOError):
            if count:
                fcntl.lockf(file, how | fcntl.LOCK_NB, count, first)
            else:
                fcntl.flock(file, how | fcntl.LOCK_NB)
            return True
        return False


@pytest.fixture
def guest(serve, directory):
    return Guest(serve(*OPTIONS), directory)


def bytes_of(first, last):
    return {"start": first, "end": last}


# flock(2): the lock is the open file's.


def test_late_release_does_not_take_the_lock_of_the_next_open_file(guest):
    first, second = guest.open(), guest.open()
    assert guest.lock(first, owner=5, flock=True) == 0
    # Linux closed the first one, and the second one has its address, and so its owner.
    assert guest.lock(second, owner=5, flock=True) == 0
    guest.release(first, owner=5)
    assert not guest.host_may(fcntl.LOCK_SH)
    guest.release(second, owner=5)
    assert guest.host_may(fcntl.LOCK_EX)


def test_late_release_does_not_take_a_shared_lock_of_the_next_open_file(guest):
    first, second = guest.open(), guest.open()
    assert [guest.lock(it, 5, READ, flock=True) for it in (first, second)] == [0, 0]
    guest.release(first, owner=5)
    assert not guest.host_may(fcntl.LOCK_EX)


def test_flock_keeps_out_another_open_file(guest):
    first, second = guest.open(), guest.open()
    assert guest.lock(first, 5, flock=True) == 0
    assert guest.lock(second, 6, flock=True) == errno.EAGAIN
    assert guest.lock(second, 6, NONE, flock=True) == 0
    assert not guest.host_may(fcntl.LOCK_SH)


def test_flock_that_is_granted_after_another_thread_unlocks_is_held(guest):
    holder, waiter = guest.open(), guest.open()
    assert guest.lock(holder, 5, flock=True) == 0
    waits = guest.lock(waiter, 6, flock=True, wait=True)
    assert guest.is_waiting(waits)
    assert guest.lock(waiter, 6, NONE, flock=True) == 0
    assert guest.lock(holder, 5, NONE, flock=True) == 0
    assert guest.client.wait(waits).error == 0
    assert not guest.host_may(fcntl.LOCK_SH)


def test_refused_conversion_by_flock_loses_the_lock(guest):
    first, second = guest.open(), guest.open()
    assert [guest.lock(first, 5, READ, flock=True), guest.lock(second, 6, READ, flock=True)] == [0, 0]
    assert guest.lock(first, 5, WRITE, flock=True) == errno.EAGAIN
    assert guest.lock(second, 6, WRITE, flock=True) == 0


# fcntl(2): the lock is the owner's.


def test_lock_that_is_granted_after_another_thread_closes_is_held(guest):
    handle = guest.open()
    assert guest.lock(handle, 5) == 0
    waits = guest.lock(handle, 6, wait=True)
    assert guest.is_waiting(waits)
    guest.flush(handle, 6)
    assert guest.lock(handle, 5, NONE) == 0
    assert guest.client.wait(waits).error == 0
    assert not guest.host_may(fcntl.LOCK_SH, 0, 10)
    guest.flush(handle, 6)
    assert guest.host_may(fcntl.LOCK_EX, 0, 10)


def test_close_gives_up_all_locks_of_its_owner_and_no_other_ones(guest):
    handle = guest.open()
    assert guest.lock(handle, 5, **bytes_of(0, 9)) == guest.lock(handle, 5, **bytes_of(20, 29)) == 0
    assert guest.lock(handle, 6, **bytes_of(10, 19)) == 0
    guest.flush(handle, 5)
    assert [guest.host_may(fcntl.LOCK_EX, first, 10) for first in (0, 10, 20)] == [True, False, True]


def test_unlocking_the_middle_leaves_both_ends(guest):
    handle = guest.open()
    assert guest.lock(handle, 5, **bytes_of(0, 29)) == 0
    assert guest.lock(handle, 5, NONE, **bytes_of(10, 19)) == 0
    assert [guest.host_may(fcntl.LOCK_EX, first, 10) for first in (0, 10, 20)] == [False, True, False]


def test_lock_of_an_open_file_goes_with_its_release(guest):
    """F_OFD_SETLK: Linux names its owner by the open file, and sends no FLUSH for it."""
    first, second = guest.open(), guest.open()
    assert guest.lock(first, 70, **bytes_of(0, 9)) == guest.lock(second, 80, **bytes_of(10, 19)) == 0
    guest.client.release(guest.node, first)
    assert [guest.host_may(fcntl.LOCK_EX, first, 10) for first in (0, 10)] == [True, False]


def test_getlk_reports_the_range_and_the_process(guest):
    handle = guest.open()
    assert guest.lock(handle, 5, pid=77, **bytes_of(10, 19)) == guest.lock(handle, 5, pid=77, **bytes_of(20, 29)) == 0
    assert guest.lock(handle, 6, READ, pid=88, **bytes_of(40, 49)) == 0
    for first, wanted in (0, (10, 29, WRITE, 77)), (35, (40, 49, READ, 88)):
        body = record(Op.GETLK, handle=handle, lock_owner=9, start=first, end=99, type=WRITE)
        assert struct.unpack("<QQII", guest.client.expect(Op.GETLK, body, guest.node, reply_size=40)) == wanted


def runs(bytes_locked):
    """The ranges of bytes of one kind that touch, as (first, last, kind)."""
    ranges = []
    for at, kind in sorted(bytes_locked.items()):
        if ranges and ranges[-1][1] == at - 1 and ranges[-1][2] == kind:
            ranges[-1] = (ranges[-1][0], at, kind)
        else:
            ranges.append((at, at, kind))
    return ranges


@pytest.mark.parametrize("seed", range(3))
def test_locks_of_many_ranges_are_those_of_posix(guest, seed):
    """A model has each byte that each owner has locked. Locks conflict by bytes, a new one replaces the owner's own."""
    chance, handle, size = random.Random(seed), guest.open(), 24
    model = {owner: {} for owner in (5, 6, 7)}
    for _ in range(400):
        owner, kind = chance.choice(list(model)), chance.choice((READ, WRITE, NONE))
        first = chance.randrange(size)
        last = chance.randrange(first, size)
        others = {it: model[it] for it in model if it != owner}
        if chance.randrange(20) == 0:
            guest.flush(handle, owner)
            model[owner].clear()
            continue
        clash = [it for it, had in others.items() for at in range(first, last + 1)
                 if at in had and WRITE in (kind, had[at]) and kind != NONE]
        if kind != NONE and chance.randrange(3) == 0:
            body = record(Op.GETLK, handle=handle, lock_owner=owner, start=first, end=last, type=kind)
            found = struct.unpack("<QQII", guest.client.expect(Op.GETLK, body, guest.node, reply_size=40))
            assert (found[2] != NONE) == bool(clash)
            assert not clash or found[:3] in [it for had in others.values() for it in runs(had)]
            assert not clash or found[:3] in runs(others[found[3]])
            continue
        assert guest.lock(handle, owner, kind, pid=owner, **bytes_of(first, last)) == (errno.EAGAIN if clash else 0)
        if not clash:
            for at in range(first, last + 1):
                model[owner].pop(at, None) if kind == NONE else model[owner].update({at: kind})
        if chance.randrange(40) == 0:
            assert migrates(guest) == (not any(model.values()))
    for owner in model:
        guest.flush(handle, owner)
    assert guest.host_may(fcntl.LOCK_EX, 0, size)
    assert migrates(guest)


def test_file_that_is_open_for_reading_takes_no_write_lock(guest):
    handle = guest.open(os.O_RDONLY)
    assert guest.lock(handle, 5, WRITE) == errno.EBADF
    assert guest.lock(handle, 5, READ) == 0


def test_write_lock_by_a_second_open_file_keeps_the_read_locks_of_the_first(guest):
    reads, writes = guest.open(os.O_RDONLY), guest.open(os.O_RDWR)
    assert guest.lock(reads, 5, READ, **bytes_of(0, 9)) == guest.lock(reads, 5, READ, **bytes_of(20, 29)) == 0
    assert guest.lock(writes, 5, WRITE, **bytes_of(40, 49)) == 0
    assert [guest.host_may(fcntl.LOCK_EX, first, 10) for first in (0, 10, 20, 30, 40)] == [False, True, False, True, False]
    # (and the owner's own locks are not in its way)
    assert guest.lock(writes, 5, WRITE, **bytes_of(0, 49)) == 0
    guest.flush(reads, 5)
    assert guest.host_may(fcntl.LOCK_EX, 0, 50)


def test_read_lock_that_waits_while_its_owner_locks_for_writing_is_held(guest):
    reads, writes = guest.open(os.O_RDONLY), guest.open(os.O_RDWR)
    with open(guest.path, "rb+") as host:
        fcntl.lockf(host, fcntl.LOCK_EX, 10, 0)
        waits = guest.lock(reads, 5, READ, wait=True, **bytes_of(0, 29))
        assert guest.is_waiting(waits)
        assert guest.lock(writes, 5, WRITE, **bytes_of(20, 49)) == 0
        assert guest.is_waiting(waits)
    assert guest.client.wait(waits).error == 0
    # (it made what was locked for writing a read lock)
    assert [guest.host_may(fcntl.LOCK_EX, first, 10) for first in (0, 20, 40)] == [False, False, False]
    assert [guest.host_may(fcntl.LOCK_SH, first, 10) for first in (0, 20, 40)] == [True, True, False]


# Waiting locks and the queue.


@pytest.mark.parametrize("indirect, places", [(False, 32), (True, 64)])
@pytest.mark.parametrize("flock", [False, True])
def test_waiting_locks_take_half_of_a_queue(serve, directory, indirect, places, flock):
    guest = Guest(serve(*OPTIONS), directory, queue_size=64, indirect=indirect)
    holder, files = guest.open(), [guest.open() for _ in range(places)]
    for _ in range(2):
        assert guest.lock(holder, 1, flock=flock) == 0
        waits = [guest.lock(files[i], 100 + i, READ, wait=True, flock=flock) for i in range(places // 2)]
        time.sleep(LATER)
        assert [guest.client.is_done(it) for it in waits] == [False] * len(waits)
        refused = guest.lock(files[-1], 200, READ, wait=True, flock=flock)
        assert guest.client.wait(refused, 2).error == errno.ENOLCK
        # What ends the waiting gets through.
        assert guest.lock(holder, 1, NONE, flock=flock) == 0
        assert [guest.client.wait(it).error for it in waits] == [0] * len(waits)
        assert [guest.lock(files[i], 100 + i, NONE, flock=flock) for i in range(places // 2)] == [0] * (places // 2)


def test_each_queue_has_places_of_its_own(serve, directory):
    guest = Guest(serve(*OPTIONS), directory, queues=3, queue_size=8)
    handle = guest.open()
    assert guest.lock(handle, 1) == 0
    waits = [guest.lock(handle, 10 * queue + i, READ, wait=True, queue=queue) for queue in (1, 2) for i in (0, 1)]
    time.sleep(LATER)
    assert not any(guest.client.is_done(it) for it in waits)
    assert guest.client.wait(guest.lock(handle, 30, READ, wait=True, queue=2), 2).error == errno.ENOLCK
    assert guest.lock(handle, 1, NONE) == 0
    assert [guest.client.wait(it).error for it in waits] == [0] * 4


# What waits holds nothing up: the server has one worker.

WAITERS = 12


@pytest.fixture
def busy(serve, directory):
    return Guest(serve(*OPTIONS, "--thread-pool-size=1", "--log-level=warn"), directory)


def waiting(guest, flock):
    """Has the owner 1 lock the file, and others wait for it: handles by owners, and the requests that wait."""
    owners = [1, 2, *range(10, 10 + WAITERS)]
    handles = {it: guest.open() for it in owners} if flock else dict.fromkeys(owners, guest.open())
    assert guest.lock(handles[1], 1, flock=flock) == 0
    waits = [guest.lock(handles[it], it, READ, wait=True, flock=flock) for it in owners[2:]]
    for _ in range(20):
        guest.client.getattr(guest.node)
    time.sleep(LATER)
    assert not any(guest.client.is_done(it) for it in waits)
    return handles, waits


def interrupt(guest, unique):
    """Sends an INTERRUPT, which comes back without a reply."""
    assert guest.client.ask(Op.INTERRUPT, struct.pack("<Q", unique), reply_size=0).error is None


def test_init_agrees_on_both_kinds_of_locks(serve):
    reply = serve(*OPTIONS).connect(init=False).init()
    # (FUSE_POSIX_LOCKS and FUSE_FLOCK_LOCKS)
    assert struct.unpack_from("<I", reply, 12)[0] & 0x402 == 0x402


@pytest.mark.sanitizers
@pytest.mark.parametrize("flock", [False, True])
def test_each_lock_that_waits_is_granted_once_it_is_free_or_interrupted(busy, flock):
    handles, waits = waiting(busy, flock)
    interrupt(busy, waits[0].unique)
    assert busy.client.wait(waits[0]).error == errno.EINTR
    assert busy.lock(handles[1], 1, NONE, flock=flock) == 0
    assert [busy.client.wait(it).error for it in waits[1:]] == [0] * (WAITERS - 1)


@pytest.mark.sanitizers
@pytest.mark.parametrize("flock", [False, True])
def test_an_interrupt_that_comes_before_its_request_ends_its_waiting(busy, flock):
    handles, _ = waiting(busy, flock)
    interrupt(busy, busy.client.unique + 4)
    assert busy.client.wait(busy.lock(handles[2], 2, wait=True, flock=flock)).error == errno.EINTR
    # (there is no request of this number)
    interrupt(busy, 16)


@pytest.mark.sanitizers
@pytest.mark.parametrize("flock", [False, True])
@pytest.mark.parametrize("stops", [True, False], ids=["queue", "memory"])
def test_locks_that_wait_fail_before_their_queue_stops_or_memory_is_shared_anew(busy, flock, stops):
    client, (_, waits) = busy.client, waiting(busy, flock)
    if stops:
        assert client.stop(client.queues[1]) == client.queues[1].made
    else:
        client.share_memory()
    assert [client.wait(it).error for it in waits] == [errno.ENOLCK] * WAITERS


@pytest.mark.sanitizers
def test_a_front_end_that_goes_while_locks_wait_leaves_no_lock(busy, directory):
    waiting(busy, False)
    busy.client.close()
    after = Guest(busy.server, directory)
    assert after.lock(after.open(), 5) == 0


@pytest.mark.sanitizers
def test_a_signal_ends_a_server_while_locks_wait(busy):
    waiting(busy, False)
    busy.server.process.terminate()
    busy.server.finish()
    assert busy.server.stderr() == ""


def test_a_flush_does_not_wait_for_the_host_to_report_which_lock_is_in_the_way(serve, directory, fault):
    guest = Guest(serve(*OPTIONS, "--thread-pool-size=2", environment=fault("late_lock")), directory)
    handle = guest.open()
    assert guest.lock(handle, 1) == 0
    asked = guest.client.submit(Op.GETLK, record(Op.GETLK, handle=handle, lock_owner=2, end=2**63 - 1, type=READ), guest.node,
                                reply_size=40)
    time.sleep(LATER)
    begun = time.monotonic()
    for owner in (3, 1):
        guest.flush(handle, owner)
    # (the locks of who closes are free at once)
    assert guest.lock(handle, 3) == 0
    assert time.monotonic() - begun < 3
    assert guest.client.wait(asked).error == 0


# Migration.


def migrates(guest):
    """Whether the state of the device can be saved."""
    client = guest.client
    client.stop(client.queues[1])
    state = client.save()
    client.start(client.queues[1])
    return state is not None


def test_refused_flock_does_not_stop_a_migration(guest):
    handle = guest.open()
    with open(guest.path, "rb+") as host:
        fcntl.flock(host, fcntl.LOCK_EX)
        assert guest.lock(handle, 5, flock=True) == errno.EAGAIN
    assert migrates(guest)
    assert guest.lock(handle, 5, flock=True) == 0
    assert not migrates(guest)
    assert guest.lock(handle, 5, NONE, flock=True) == 0
    assert migrates(guest)


def test_lock_that_was_given_up_does_not_stop_a_migration(guest):
    handle = guest.open()
    assert guest.lock(handle, 5, **bytes_of(0, 9)) == guest.lock(handle, 5, NONE, **bytes_of(0, 9)) == 0
    with open(guest.path, "rb+") as host:
        fcntl.lockf(host, fcntl.LOCK_SH)
        assert migrates(guest)


def test_any_byte_that_is_locked_stops_a_migration(guest):
    handle = guest.open()
    assert guest.lock(handle, 5, **bytes_of(0, 29)) == guest.lock(handle, 5, NONE, **bytes_of(0, 28)) == 0
    assert not migrates(guest)
    assert "holds locks" in guest.server.stderr()
    assert guest.lock(handle, 5, NONE, **bytes_of(29, 29)) == 0
    assert migrates(guest)


def test_wait_that_a_migration_ends_holds_no_lock(guest):
    handle = guest.open()
    with open(guest.path, "rb+") as host:
        fcntl.lockf(host, fcntl.LOCK_EX)
        waits = guest.lock(handle, 5, wait=True)
        assert guest.is_waiting(waits)
        assert migrates(guest)
        assert guest.client.wait(waits).error == errno.ENOLCK


# Deadlocks, which POSIX reports for fcntl(2), and Linux for flock(2) does not.


def test_two_owners_that_wait_for_one_another_are_a_deadlock(guest):
    handle = guest.open()
    assert guest.lock(handle, 5, **bytes_of(0, 9)) == guest.lock(handle, 6, **bytes_of(10, 19)) == 0
    waits = guest.lock(handle, 5, wait=True, **bytes_of(10, 19))
    assert guest.is_waiting(waits)
    second = guest.lock(handle, 6, wait=True, **bytes_of(0, 9))
    assert guest.client.wait(second).error == errno.EDEADLK
    assert guest.lock(handle, 6, NONE) == 0
    assert guest.client.wait(waits).error == 0


def test_deadlock_is_found_over_several_owners_and_files(serve, directory):
    (directory / "other").write_bytes(b"x")
    guest = Guest(serve(*OPTIONS), directory)
    handle, other = guest.open(), guest.client.lookup(b"other")
    there = guest.client.open(other)
    assert guest.lock(handle, 5, **bytes_of(0, 0)) == guest.lock(handle, 6, **bytes_of(1, 1)) == 0
    guest.client.setlk(other, there, 7, WRITE)
    waits = [guest.lock(handle, 5, wait=True, **bytes_of(1, 1)), guest.client.setlk(other, there, 6, WRITE, wait=True)]
    time.sleep(LATER)
    assert guest.client.wait(guest.lock(handle, 7, wait=True, **bytes_of(0, 0))).error == errno.EDEADLK
    guest.client.setlk(other, there, 7, NONE)
    assert guest.client.wait(waits[1]).error == 0
    assert guest.lock(handle, 6, NONE) == 0
    assert guest.client.wait(waits[0]).error == 0


def test_two_readers_that_both_want_to_write_are_a_deadlock(guest):
    handle = guest.open()
    assert guest.lock(handle, 5, READ) == guest.lock(handle, 6, READ) == 0
    waits = guest.lock(handle, 5, WRITE, wait=True)
    assert guest.is_waiting(waits)
    assert guest.client.wait(guest.lock(handle, 6, WRITE, wait=True)).error == errno.EDEADLK
    assert guest.lock(handle, 6, NONE) == 0
    assert guest.client.wait(waits).error == 0


def test_many_that_wait_for_one_owner_are_no_deadlock(guest):
    handle = guest.open()
    assert guest.lock(handle, 5) == 0
    waits = [guest.lock(handle, 6 + i, wait=True) for i in range(8)]
    time.sleep(LATER)
    assert not any(guest.client.is_done(it) for it in waits)
    assert guest.lock(handle, 5, NONE) == 0
    left = dict(enumerate(waits, 6))
    while left:
        # (one has it, and gives it up)
        time.sleep(0.01)
        for owner in [it for it in left if guest.client.is_done(left[it])]:
            assert guest.client.wait(left.pop(owner)).error == 0
            guest.flush(handle, owner)


def test_flock_has_no_deadlock(serve, directory):
    (directory / "other").write_bytes(b"x")
    guest = Guest(serve(*OPTIONS), directory)
    other = guest.client.lookup(b"other")
    first, second = [guest.open(), guest.client.open(other)], [guest.open(), guest.client.open(other)]
    assert guest.lock(first[0], 5, flock=True) == 0
    guest.client.setlk(other, second[1], 6, WRITE, flock=True)
    waits = [guest.client.setlk(other, first[1], 5, WRITE, flock=True, wait=True),
             guest.lock(second[0], 6, flock=True, wait=True)]
    time.sleep(LATER)
    assert not any(guest.client.is_done(it) for it in waits)
    assert guest.lock(first[0], 5, NONE, flock=True) == 0
    assert guest.client.wait(waits[1]).error == 0
    guest.client.setlk(other, second[1], 6, NONE, flock=True)
    assert guest.client.wait(waits[0]).error == 0


# Over a mount, as programs see it. The plain directory says what is expected.

WAITS_FOR_ANOTHER = """
import errno, fcntl, sys
with open(sys.argv[1], "rb+") as file:
    mine = int(sys.argv[2])
    fcntl.lockf(file, fcntl.LOCK_EX, 1, mine)
    print("locked", flush=True)
    sys.stdin.readline()
    try:
        fcntl.lockf(file, fcntl.LOCK_EX, 1, 1 - mine)
        print("granted", flush=True)
    except OSError as refused:
        print("deadlock" if refused.errno == errno.EDEADLK else refused, flush=True)
"""


@pytest.fixture(params=["directory", "mount"])
def place(request, mount, directory):
    return directory if request.param == "directory" else mount(*OPTIONS).path


@pytest.mark.sanitizers
@pytest.mark.parametrize("options", [(), ("--cache=always", "--writeback", "--inode-file-handles=prefer")], ids=" ".join)
def test_locks_of_a_mount_are_those_of_any_file_system_and_of_the_host(share_mount, directory, options):
    (directory / "file").touch()
    path = share_mount(*OPTIONS, "--thread-pool-size=2", *options).path
    run(sys.executable, "-B", pathlib.Path(__file__).with_name("locks.py"), path / "file", seconds=600)
    for one, other in ((path, directory), (directory, path)):
        with open(one / "file") as locked, open(other / "file") as file:
            fcntl.flock(locked, fcntl.LOCK_EX)
            with pytest.raises(BlockingIOError):
                fcntl.flock(file, fcntl.LOCK_EX | fcntl.LOCK_NB)


def test_one_of_two_processes_that_wait_for_one_another_is_told(place):
    (place / "file").write_bytes(b"xx")
    pair = [subprocess.Popen([sys.executable, "-c", WAITS_FOR_ANOTHER, place / "file", str(i)], stdin=subprocess.PIPE,
                             stdout=subprocess.PIPE, text=True) for i in (0, 1)]
    try:
        assert [it.stdout.readline() for it in pair] == ["locked\n"] * 2
        for it in pair:
            it.stdin.write("\n")
            it.stdin.flush()
        assert sorted(it.communicate(timeout=10)[0] for it in pair) == ["deadlock\n", "granted\n"]
    finally:
        for it in pair:
            it.kill()
            it.wait()


def test_program_that_is_locked_for_reading_can_be_run(place, directory):
    shutil.copy("/bin/true", directory / "program")
    with open(place / "program", "rb") as file:
        fcntl.lockf(file, fcntl.LOCK_SH)
        fcntl.flock(file, fcntl.LOCK_EX)
        assert subprocess.run([directory / "program"], timeout=10).returncode == 0


def test_lock_of_an_open_file_ends_when_it_is_closed(place, directory):
    (place / "file").write_bytes(b"x" * 10)
    range_of = struct.pack("hhqqi4x", WRITE, os.SEEK_SET, 0, 0, 0)
    with open(place / "file", "rb+") as file, open(place / "file", "rb+") as other:
        fcntl.fcntl(file, OFD_SETLK, range_of)
        # (another one of the same process gives up nothing of it)
        os.close(os.open(place / "file", os.O_RDWR))
        with pytest.raises(BlockingIOError):
            fcntl.fcntl(other, OFD_SETLK, range_of)
    end = time.monotonic() + 5
    with open(directory / "file", "rb+") as file:
        # (Linux does not wait for RELEASE)
        while True:
            with contextlib.suppress(BlockingIOError):
                fcntl.lockf(file, fcntl.LOCK_EX | fcntl.LOCK_NB)
                break
            assert time.monotonic() < end
            time.sleep(0.01)


def test_more_than_a_thousand_threads_may_wait(place):
    (place / "file").touch()
    came, threads = [], []

    def wait():
        with open(place / "file", "rb") as file:
            try:
                fcntl.flock(file, fcntl.LOCK_SH)
                came.append(0)
            except OSError as refused:
                came.append(refused.errno)

    threading.stack_size(256 << 10)
    try:
        with open(place / "file", "rb") as holder:
            fcntl.flock(holder, fcntl.LOCK_EX)
            threads = [threading.Thread(target=wait) for _ in range(1100)]
            for it in threads:
                it.start()
            time.sleep(2)
            assert not came
            fcntl.flock(holder, fcntl.LOCK_UN)
            for it in threads:
                it.join(60)
    finally:
        threading.stack_size(0)
    assert came == [0] * len(threads)
