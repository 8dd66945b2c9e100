"""Optional operations, which virtiofsd lacks, as programs see them: examples/c/news.c, mounted. It keeps all for a day, so
a change shows after its notice and not before. Each test runs over read(2), and over io_uring if Linux offers it; plainly,
and with the sanitizers of addresses and of threads."""
import contextlib
import ctypes
import errno
import fcntl
import os
import pathlib
import random
import select
import signal
import struct
import subprocess
import sys
import threading
import time

import pytest
from building import PLAIN, find_fuse, run

pytestmark = pytest.mark.fuse
# Commands of ioctl(2) of news.c: _IOR('n', 1, int) and _IOWR('n', 2) of 64 bytes.
LENGTH, COUNT = 0x80046E01, 0xC0406E02
# How many locks news.c keeps; how many wait at a time, which is the most over io_uring; processes of the stress, and its
# seconds; seconds within which a thing must come; MNT_FORCE and MNT_DETACH of umount2(2).
LOCKS, KEPT, PROCESSES, STRESSED, SOON, FORCE, LAZY = 256, 4, 12, 4, 10, 1, 2
# Errors of a call on a mount that is aborted or gone.
ENDS = ("ECONNABORTED", "ENOTCONN", "EIO")
libc = ctypes.CDLL(None)


def wait_for(fact):
    """Whether it is a fact soon."""
    until = time.monotonic() + SOON
    while not fact() and time.monotonic() < until:
        time.sleep(0.01)
    return fact()


class News:
    """news.c, mounted: its file is `news`, and lines that it reads change it."""

    def __init__(self, program, folder, by_ring):
        self.folder, self.file, self.by_ring = folder, folder / "news", by_ring
        with open(folder.parent / "stderr", "wb") as log:
            self.process = subprocess.Popen([program, *["--io_uring"] * by_ring, folder], stdin=subprocess.PIPE,
                                            stdout=subprocess.PIPE, stderr=log, text=True)
        # (a call on a mount that hangs does not return until its server is gone)
        self.limit = threading.Timer(300, self.process.kill)
        self.limit.start()
        assert wait_for(lambda: os.path.ismount(folder)), self.stderr()
        # (the first reply comes after that to INIT)
        os.stat(folder)

    def stderr(self):
        return (self.folder.parent / "stderr").read_text()

    def say(self, line):
        """Has the program do this, and returns the lines that it prints."""
        self.process.stdin.write(line + "\n")
        self.process.stdin.flush()
        said = []
        while (one := self.process.stdout.readline().strip()) not in ("done", ""):
            said.append(one)
        return said

    def shown(self, *words):
        """The lines of `show` that begin with one of these words: `held` and `waits` are of locks."""
        return [it for it in self.say("show") if it.startswith(words)]

    def waits(self, count):
        """Whether so many locks wait in the program, soon."""
        return wait_for(lambda: len(self.shown("waits")) == count)

    def read(self, name="news"):
        """The text of a file of the mount, or the name of an error."""
        try:
            return (self.folder / name).read_text().strip()
        except OSError as error:
            return errno.errorcode[error.errno]

    def finish(self, status=0):
        """Waits for the end, which must have this status."""
        try:
            assert self.process.wait(20) == status, self.stderr()
            # (otherwise requests came by read(2) again)
            assert not self.by_ring or "io_uring" not in self.stderr()
        finally:
            self.end()

    def end(self):
        self.limit.cancel()
        self.process.kill()
        self.process.wait()
        self.process.stdin.close()
        self.process.stdout.close()
        libc.umount2(os.fsencode(self.folder), LAZY)


@pytest.fixture
def start_news(request, built_with_threads, scratch):
    """Mounts news.c, by the way of the parameter; whoever calls it ends it."""
    program, folder, started = built_with_threads.folder / "c-news", scratch / "mounted", []
    folder.mkdir()
    if not program.exists():
        built_with_threads.compile("examples/c/news.c", *find_fuse(), "-pthread")

    def start():
        started.append(News(program, folder, request.param == "io_uring"))
        return started[-1]

    yield start
    for it in started:
        it.end()


def pytest_generate_tests(metafunc):
    if "start_news" in metafunc.fixturenames:
        metafunc.parametrize("start_news", ["read", pytest.param("io_uring", marks=pytest.mark.io_uring)], indirect=True)


@pytest.fixture
def news(start_news):
    """news.c, mounted. It must end well with its mount, and keep no lock then."""
    it = start_news()
    yield it
    # (Linux waits for no RELEASE, which gives up the last locks)
    assert wait_for(lambda: not it.shown("held", "waits")), it.say("show")
    libc.umount2(os.fsencode(it.folder), 0)
    it.finish()


@contextlib.contextmanager
def opened(path, flags=os.O_RDONLY, *mode):
    """The descriptor of a file, which is closed at the end."""
    file = os.open(path, flags, *mode)
    try:
        yield file
    finally:
        os.close(file)


def refused(does, *arguments):
    """The name of the error of a call, or nothing if it succeeds."""
    try:
        does(*arguments)
    except OSError as error:
        return errno.errorcode[error.errno]
    return ""


@pytest.mark.parametrize("built", [PLAIN], indirect=True, ids=["plain"])
def test_without_a_thread_for_its_lines_it_ends_and_leaves_no_mount(built, scratch):
    (scratch / "no_thread.c").write_text("int no_thread(void) { return 11; }")
    program = built.compile("examples/c/news.c", *find_fuse(), "-pthread", "-Dpthread_create=no_thread",
                            scratch / "no_thread.c")
    (scratch / "mounted").mkdir()
    run(program, scratch / "mounted", status=1, seconds=20, stdin=subprocess.DEVNULL)
    assert not os.path.ismount(scratch / "mounted")


# ---- notices

def test_text_that_is_kept_changes_after_INVAL_INODE_and_not_before(news):
    assert news.read() == "old"
    news.say("quiet one")
    assert news.read() == "old"
    news.say("set two")
    assert news.read() == "two"
    assert news.file.stat().st_size == len("two\n")


def test_STORE_puts_text_into_what_is_kept_and_RETRIEVE_brings_it(news):
    with opened(news.file) as file:
        os.read(file, 100)
        news.say("store three by a notice")
        assert os.pread(file, 100, 0) == b"three by a notice\n"
        # (the text is printed once the kernel sent it)
        said = news.say("retrieve")
        assert wait_for(lambda: said or said.extend(news.shown("retrieved")) or said)
        assert said[:1] == ["retrieved 77 2 0 three by a notice"]


def test_a_name_that_is_kept_changes_after_INVAL_ENTRY_and_not_before(news):
    assert news.read("other") == "ENOENT"
    news.say("quietname other")
    assert news.read("other") == "ENOENT"
    news.say("quietname news")
    news.say("name other")
    assert (news.read("news"), news.read("other")) == ("ENOENT", "old")


def test_a_name_that_is_kept_is_gone_after_DELETE(news):
    assert news.read() == "old"
    news.say("delete news")
    assert news.read() == "ENOENT"
    news.say("name news")
    assert news.read() == "old"


@pytest.mark.parametrize("notice", ["epoch", "resend", "prune"])
def test_a_notice_that_linux_may_lack_breaks_nothing(news, notice):
    # (Linux 6.18 may not have it)
    assert news.say(notice) in ([], [f"{notice}: Invalid argument"])
    assert news.read() == "old"


# ---- STATX, IOCTL, POLL, TMPFILE

def test_an_ioctl_puts_data_in_and_out_and_an_unknown_command_is_ENOTTY(news):
    with opened(news.file) as file:
        assert struct.unpack("I", fcntl.ioctl(file, LENGTH, bytes(4))) == (news.file.stat().st_size,)
        assert struct.unpack("I", fcntl.ioctl(file, COUNT, b"four".ljust(64, b"\0"))[:4]) == (4,)
        assert refused(fcntl.ioctl, file, LENGTH + 7, bytes(4)) == "ENOTTY"


def test_statx_returns_the_time_of_birth(news):
    # (news.c says this one)
    assert run("stat", "-c", "%W %s", news.file).split() == ["1234567890", "4"]


def test_poll_waits_until_the_notice_of_an_event(news):
    poll, woken = select.poll(), []
    with opened(news.file) as file:
        poll.register(file, select.POLLIN)
        assert poll.poll(0) == []

        def wait():
            begun = time.monotonic()
            woken.extend((poll.poll(5000), time.monotonic() - begun))
        thread = threading.Thread(target=wait)
        thread.start()
        time.sleep(0.4)
        news.say("set new")
        news.say("poll")
        thread.join()
    events, seconds = woken
    assert [it for _, it in events] == [select.POLLIN] and seconds < 4


def test_a_file_without_a_name_has_what_was_written_and_holes_of_zeros(news):
    with opened(news.folder, os.O_TMPFILE | os.O_RDWR, 0o600) as file:
        os.write(file, b"no name")
        assert (os.pread(file, 100, 0), os.fstat(file).st_nlink) == (b"no name", 0)
    with opened(news.folder, os.O_TMPFILE | os.O_RDWR, 0o600) as file:
        os.pwrite(file, b"end", 4)
        assert os.pread(file, 100, 0) == b"\0\0\0\0end"


# ---- locks

def test_locks_are_as_posix_and_linux_say(news):
    # (Linux does not report to a server that a description with a lock of F_OFD_SETLK is closed)
    print(run(sys.executable, "-B", pathlib.Path(__file__).with_name("locks.py"), "--no-ofd-close", news.file))


def lock_of_other(file, at):
    """The kind and the range of the lock that another process finds in its way there."""
    reads, writes = os.pipe()
    pid = os.fork()
    if not pid:
        os.write(writes, fcntl.fcntl(file, fcntl.F_GETLK, struct.pack("hhqqi4x", fcntl.F_WRLCK, 0, at, 1, 0)))
        os._exit(0)
    os.close(writes)
    kind, _, start, length, _ = struct.unpack("hhqqi4x", os.read(reads, 32))
    os.close(reads)
    os.waitpid(pid, 0)
    return kind, start, length


def test_a_lock_beyond_the_most_is_ENOLCK_and_changes_none(news):
    with opened(news.file, os.O_RDWR) as file:
        fcntl.lockf(file, fcntl.LOCK_EX, 10, 10000)
        for i in range(LOCKS - 1):
            fcntl.lockf(file, fcntl.LOCK_EX, 1, 2 * i)
        assert len(news.shown("held")) == LOCKS
        assert refused(fcntl.lockf, file, fcntl.LOCK_EX, 1, 20000) == "ENOLCK"
        # (each of these would split one into several)
        assert refused(fcntl.lockf, file, fcntl.LOCK_UN, 1, 10004) == "ENOLCK"
        assert refused(fcntl.lockf, file, fcntl.LOCK_SH, 1, 10004) == "ENOLCK"
        assert lock_of_other(file, 10007) == (fcntl.F_WRLCK, 10000, 10)
        assert refused(fcntl.lockf, file, fcntl.LOCK_UN, 1, 10009) == ""
        assert refused(fcntl.lockf, file, fcntl.LOCK_UN) == ""


class Waiter:
    """A process on the first processor that locks the file with flock(2)."""

    def __init__(self, path):
        reads, writes = os.pipe()
        self.reads, self.pid = reads, os.fork()
        if self.pid:
            os.close(writes)
            return
        os.sched_setaffinity(0, {min(os.sched_getaffinity(0))})
        # (a handler that raises, because Python begins the call anew after one that returns)
        signal.signal(signal.SIGUSR1, interrupt)
        os.write(writes, (refused(lambda: fcntl.flock(os.open(path, os.O_RDONLY), fcntl.LOCK_EX)) or "got").encode())
        os._exit(0)

    def outcome(self):
        """`got`, the name of an error, nothing if the process was killed, or `waits` if it had to be."""
        os.set_blocking(self.reads, False)
        said = []

        def is_said():
            with contextlib.suppress(BlockingIOError):
                said.append(os.read(self.reads, 100).decode())
            return said
        if not wait_for(is_said):
            os.kill(self.pid, signal.SIGKILL)
            said.append("waits")
        os.waitpid(self.pid, 0)
        os.close(self.reads)
        return said[0]


def interrupt(*_):
    raise InterruptedError(errno.EINTR, "")


def started(news, count):
    """So many processes that wait for the lock, one after another."""
    waiters = []
    for i in range(count):
        waiters.append(Waiter(news.file))
        assert news.waits(i + 1)
    return waiters


def test_locks_that_wait_hold_up_no_request_and_end_by_a_signal_a_kill_or_the_lock(news):
    with opened(news.file) as file:
        fcntl.flock(file, fcntl.LOCK_EX)
        waiters = started(news, KEPT)
        if news.by_ring:
            assert Waiter(news.file).outcome() == "ENOLCK"
        for i in range(3):
            # (a name that no one looked for yet, so that the server must reply)
            stat = ["taskset", "-c", str(min(os.sched_getaffinity(0))), "timeout", "5", "stat", news.folder / f"none{i}"]
            assert subprocess.run(stat, stdout=subprocess.DEVNULL, stderr=subprocess.DEVNULL).returncode == 1
        os.kill(waiters[0].pid, signal.SIGUSR1)
        assert waiters[0].outcome() == "EINTR"
        os.kill(waiters[1].pid, signal.SIGKILL)
        assert waiters[1].outcome() == ""
        assert news.waits(KEPT - 2)
        waiters[:2] = [Waiter(news.file), Waiter(news.file)]
        assert news.waits(KEPT)
        fcntl.flock(file, fcntl.LOCK_UN)
        assert [it.outcome() for it in waiters] == ["got"] * KEPT


@pytest.mark.parametrize("how", ["aborted", "two signals", "killed"])
def test_locks_that_wait_end_with_the_connection_or_the_program(start_news, how):
    news = start_news()
    held = os.open(news.file, os.O_RDONLY)
    fcntl.flock(held, fcntl.LOCK_EX)
    waiters = started(news, KEPT)
    if how == "aborted":
        libc.umount2(os.fsencode(news.folder), FORCE)
    elif how == "killed":
        news.process.kill()
    else:
        news.process.send_signal(signal.SIGTERM)
        assert wait_for(lambda: not os.path.ismount(news.folder))
        news.process.send_signal(signal.SIGTERM)
    assert not [it for it in [one.outcome() for one in waiters] if it not in ENDS]
    news.finish(-signal.SIGKILL if how == "killed" else 0)
    with contextlib.suppress(OSError):
        os.close(held)


def stress(path, seed):
    """Locks and unlocks parts of the file while signals come, and returns an error that must not come, or nothing."""
    chance = random.Random(seed)
    signal.signal(signal.SIGALRM, interrupt)
    file, until = os.open(path, os.O_RDONLY), time.monotonic() + STRESSED
    while time.monotonic() < until:
        try:
            signal.setitimer(signal.ITIMER_REAL, chance.choice([0, 0.001, 0.003, 0.02]) or 0.5)
            start, kind = chance.randrange(4), chance.choice([fcntl.F_RDLCK, fcntl.F_RDLCK, fcntl.F_UNLCK])
            if chance.random() < 0.4:
                fcntl.flock(file, chance.choice([fcntl.LOCK_EX, fcntl.LOCK_UN]))
            else:
                fcntl.fcntl(file, fcntl.F_SETLKW, struct.pack("hhqqi4x", kind, 0, start, 2, 0))
        except InterruptedError:
            pass
        except OSError as error:
            if error.errno not in (errno.EINTR, errno.ENOLCK, errno.EDEADLK):
                return error.errno
    return 0


def test_processes_that_lock_and_unlock_while_signals_come_all_return(news):
    left, statuses = set(), []
    for i in range(PROCESSES):
        pid = os.fork()
        if not pid:
            status = 255
            try:
                status = stress(news.file, i)
            except InterruptedError:
                # (the last signal, between two calls)
                status = 0
            finally:
                os._exit(status)
        left.add(pid)

    def gone():
        # (none is waited for, because one that hangs must not hold up the others)
        for pid in list(left):
            done, status = os.waitpid(pid, os.WNOHANG)
            if done:
                left.discard(pid)
                statuses.append(os.waitstatus_to_exitcode(status))
        return not left
    time.sleep(STRESSED)
    try:
        assert wait_for(gone), f"{len(left)} hang"
        assert statuses == [0] * PROCESSES
    finally:
        for pid in left:
            os.kill(pid, signal.SIGKILL)
    assert news.waits(0)
