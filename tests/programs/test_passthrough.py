"""Files that a mount's kernel reads and writes by itself, by --passthrough: random calls come to what they do on a plain
directory, no READ or WRITE is a request where none is needed, and all is released. The process that names files to Linux has
little, and is missed by nobody."""
import ctypes
import fcntl
import mmap
import os
import pathlib
import random
import re
import signal
import statistics
import time

import pytest
from building import run
from conftest import come_to, has_sanitizer, wait_until
from requirements import setting
from test_share_calls import put
from test_share_socket import CAPABILITIES, capabilities_of

pytestmark = [pytest.mark.fuse, pytest.mark.sanitizers]
LIBC = ctypes.CDLL(None, use_errno=True)
ROUNDS = 1500
# How many pieces of 1 MiB are timed at once, and how many times.
PIECES, TURNS = 32, 31
CAP_SYS_ADMIN = 1 << 21


@pytest.fixture
def passthrough(share_mount):
    """Mounts a directory whose files the kernel has by itself."""
    return lambda *options: share_mount("--passthrough", *options)


def processes(server):
    """The process that serves, and the one that names files for it: the latter is None once it has ended."""
    below = setting(f"/proc/{server.process.pid}/task/{server.process.pid}/children").split()
    names = {setting(f"/proc/{pid}/comm"): int(pid) for pid in below}
    naming = names.pop("nizwarf-backing", None)
    return next(iter(names.values()), server.process.pid), naming


def got(path):
    with open(path, "rb") as file:
        return file.read()


# ---- random calls

class Beside:
    """Descriptors of a file of the mount, and of a plain one."""
    FLAGS = (os.O_RDONLY, os.O_RDWR, os.O_WRONLY, os.O_RDWR | os.O_APPEND, os.O_WRONLY | os.O_TRUNC, os.O_RDWR | os.O_SYNC,
             os.O_RDWR | os.O_CREAT, os.O_RDONLY)

    def __init__(self, chance, mount, folder, plain):
        """`opened` has pairs of descriptors, one of either side."""
        self.chance, self.opened, self.names = chance, [], ["a", "b"]
        self.places, self.folders = (mount, plain), (folder, plain)

    def open(self):
        flags, name = self.chance.choice(self.FLAGS), self.chance.choice(self.names)
        files = [come_to(os.open, f"{place}/{name}", flags) for place in self.places]
        if not all(isinstance(file, int) for file in files):
            return [isinstance(file, int) or file for file in files]
        self.opened.append(files)
        return [0, 0]

    def close(self):
        if self.opened:
            for file in self.opened.pop(self.chance.randrange(len(self.opened))):
                os.close(file)
        return [0, 0]

    def each(self, act):
        """An act on a pair of descriptors."""
        if not self.opened:
            return self.open()
        return [come_to(act, file) for file in self.chance.choice(self.opened)]

    def mapped(self, write):
        """Reads or writes five bytes by a map of each side's file, unless that is too short: beyond its end is
        SIGBUS.
        """
        at, data = self.chance.randrange(9000), self.chance.randbytes(5)

        def act(file):
            size = os.fstat(file).st_size
            if size < at + 5:
                return "short"
            with mmap.mmap(file, size, prot=mmap.PROT_READ | (mmap.PROT_WRITE if write else 0)) as bytes_:
                if write:
                    bytes_[at:at + 5] = data
                return bytes(bytes_[:])
        return self.each(act)

    def one(self):
        """A call by chance, of both sides: what each came to."""
        chance = self.chance
        at, data = chance.randrange(20000), chance.randbytes(chance.choice((1, 7, 4096, 9000)))
        flags = chance.choice((0, os.O_APPEND))
        name, other = chance.sample(("a", "b", "c"), 2)
        return chance.choice((
            self.open, self.open, self.close, lambda: self.mapped(True), lambda: self.mapped(False),
            lambda: self.each(lambda file: os.pread(file, 30000, at)),
            lambda: self.each(lambda file: os.pwrite(file, data, at)),
            lambda: self.each(lambda file: os.write(file, data)),
            lambda: self.each(lambda file: os.ftruncate(file, at)),
            lambda: self.each(lambda file: os.lseek(file, 0, os.SEEK_END)),
            lambda: self.each(lambda file: os.fstat(file).st_size),
            lambda: self.each(lambda file: LIBC.fallocate(file, 0, ctypes.c_int64(at), ctypes.c_int64(5000))),
            lambda: self.each(lambda file: LIBC.fallocate(file, 3, ctypes.c_int64(at), ctypes.c_int64(5000))),
            lambda: self.each(lambda file: fcntl.fcntl(file, fcntl.F_SETFL, flags)),
            lambda: self.each(lambda file: come_to(os.fsync, file)),
            lambda: [come_to(os.rename, f"{place}/{name}", f"{place}/{other}") for place in self.places],
            lambda: [come_to(os.truncate, f"{place}/{name}", at) for place in self.places],
            lambda: [come_to(got, f"{place}/{name}") for place in self.places],
            lambda: [come_to(got, f"{place}/{name}") for place in self.folders],
            lambda: [come_to(os.write, *given) for given in ((-1, b""), (-1, b""))],
        ))()


@pytest.mark.parametrize("seed", range(3))
def test_random_calls_come_to_what_they_do_on_a_plain_directory(passthrough, directory, scratch, seed):
    plain = scratch / "plain"
    plain.mkdir()
    for place in (directory, plain):
        for name in "ab":
            put(place / name, b"0123456789" * 1000)
    beside = Beside(random.Random(seed), passthrough().path, directory, plain)
    for step in range(ROUNDS):
        here, there = beside.one()
        assert here == there, f"step {step}"
        if len(beside.opened) > 9:
            beside.close()
    while beside.opened:
        beside.close()
    for name in "abc":
        assert come_to(got, directory / name) == come_to(got, plain / name)


# ---- what is a request

class Traced:
    """A mount that traces its requests."""

    def __init__(self, server):
        self.server, self.path = server, server.path

    def asked(self, *names):
        """How many requests of these names there were."""
        time.sleep(0.1)
        return sum(line.split()[0] in names for line in self.server.stderr().splitlines() if line.strip())


@pytest.fixture
def traced(passthrough, directory):
    put(directory / "file", b"x" * 100000)
    put(directory / "set", b"x", 0o4755)
    return Traced(passthrough("--trace"))


def test_reads_and_writes_are_no_requests_and_each_side_sees_what_the_other_wrote(traced, directory):
    path = traced.path
    with open(path / "file", "r+b") as writer, open(path / "file", "rb") as reader:
        def read():
            return os.pread(reader.fileno(), 99, 0)

        os.pwrite(writer.fileno(), b"new", 50000)
        assert os.pread(reader.fileno(), 3, 50000) == got(directory / "file")[50000:50003] == b"new"
        put(directory / "file", b"of the host")
        assert read() == b"of the host"
        assert wait_until(lambda: os.fstat(reader.fileno()).st_size == 11)
        os.rename(path / "file", path / "moved")
        os.pwrite(writer.fileno(), b"THE", 3)
        assert read() == b"of THE host"
        os.remove(path / "moved")
        os.pwrite(writer.fileno(), b"old", 3)
        assert read() == b"of old host"
        put(path / "moved", b"another")
        assert got(path / "moved") == b"another"
    put(path / "made", b"y" * 70000)
    unnamed = os.open(path, os.O_TMPFILE | os.O_RDWR)
    os.write(unnamed, b"unnamed")
    assert os.pread(unnamed, 9, 0) == b"unnamed"
    os.close(unnamed)
    assert traced.asked("READ", "WRITE") == 0


def test_a_write_that_appends_or_that_a_set_user_id_bit_wants_is_a_request(traced, directory):
    put(traced.path / "made", b"y" * 70000)
    with open(traced.path / "made", "ab", buffering=0) as file:
        file.write(b"z")
        assert traced.asked("WRITE") == 1
        with open(traced.path / "made", "rb") as held, mmap.mmap(held.fileno(), 70001, prot=mmap.PROT_READ) as bytes_:
            assert bytes_[70000:] == b"z"
    with open(traced.path / "set", "r+b", buffering=0) as file:
        file.write(b"y")
        # (root keeps the bit)
        assert traced.asked("WRITE") == 2 and os.stat(directory / "set").st_mode == 0o104755


def test_with_o_direct_a_file_is_opened_and_read_as_the_directory_lets_it(traced, directory):
    """A file system that has no O_DIRECT refuses both."""
    with open(traced.path / "file", "rb") as held:
        files = [come_to(os.open, place / "file", os.O_RDONLY | os.O_DIRECT) for place in (traced.path, directory)]
        is_opened = [isinstance(it, int) for it in files]
        assert is_opened[0] == is_opened[1], files
        if is_opened[0]:
            assert os.pread(files[0], 10, 3) == b"x" * 10 and traced.asked("READ") == 1
            assert os.pread(held.fileno(), 10, 3) == b"x" * 10 and traced.asked("READ") == 1
    for it in files:
        if isinstance(it, int):
            os.close(it)


def test_a_users_write_takes_a_set_user_id_bit_that_the_file_got_while_it_was_open(passthrough, directory):
    put(directory / "bits", b"x", 0o666)
    path = passthrough("-oallow_other").path / "bits"
    child = os.fork()
    if not child:
        os.setresuid(1000, 1000, 1000)
        file = os.open(path, os.O_WRONLY)
        os.kill(os.getpid(), signal.SIGSTOP)
        os._exit(os.write(file, b"y") != 1)
    os.waitpid(child, os.WUNTRACED)
    os.chmod(path, 0o6777)
    os.kill(child, signal.SIGCONT)
    assert os.waitpid(child, 0)[1] == 0
    assert [oct(it.stat().st_mode) for it in (directory / "bits", path)] == ["0o100777"] * 2


# ---- what is left

def test_a_thousand_files_leave_no_descriptor_and_a_removed_one_no_space(passthrough, directory):
    # (what takes space is counted in a file system of its own)
    run("mount", "-t", "tmpfs", "none", directory)
    server = passthrough()

    def descriptors():
        return [len(os.listdir(f"/proc/{pid}/fd")) for pid in processes(server) if pid]

    put(server.path / "first", b"x")
    before = descriptors()
    for i in range(1000):
        put(server.path / f"f{i % 10}", b"x" * 100)
        assert got(server.path / f"f{i % 10}") == b"x" * 100
    for i in range(10):
        os.remove(server.path / f"f{i}")
    # (the first one may have been open still)
    assert wait_until(lambda: all(now <= then for now, then in zip(descriptors(), before))), descriptors()
    free = os.statvfs(directory)
    put(server.path / "large", b"x" * (32 << 20))
    with open(server.path / "large", "rb"):
        os.remove(server.path / "large")
    assert wait_until(lambda: (os.statvfs(directory).f_bfree - free.f_bfree) * free.f_frsize > -(16 << 20))


def test_a_program_that_is_only_read_can_be_run_also_if_it_was_written(passthrough, directory):
    run("cp", "/bin/true", directory / "program")
    path = passthrough().path / "program"
    with open(path, "r+b"):
        held = os.open(path, os.O_RDONLY)
    assert wait_until(lambda: come_to(lambda: run(directory / "program")) == "")
    os.close(held)


# ---- the process that names files

def test_both_processes_have_the_capabilities_that_they_need_and_a_filter(passthrough, share):
    server = passthrough()
    is_limited, naming = has_sanitizer(share), processes(server)[1]
    for pid, bits in zip(processes(server), (CAPABILITIES, CAP_SYS_ADMIN)):
        status = pathlib.Path(f"/proc/{pid}/status").read_text()
        has = dict(re.findall(r"(NoNewPrivs|Seccomp):\t(\w+)", status))
        # (without a sandbox the server keeps what it was started with)
        if pid == naming or not is_limited:
            assert capabilities_of(pid) == {"Inh": 0, "Prm": bits, "Eff": bits, "Bnd": 0, "Amb": 0}
            assert has["NoNewPrivs"] == "1"
        is_filtered = not is_limited and "with libseccomp" in run(share, "--version")
        assert has["Seccomp"] == ("2" if is_filtered else "0")
    descriptors = f"/proc/{naming}/fd"
    assert sorted(os.listdir(descriptors)) == ["0", "1"] and os.readlink(f"{descriptors}/0") == "/dev/fuse"


def test_files_are_served_by_requests_once_the_process_that_names_them_has_ended(passthrough):
    server = passthrough("--log-level=warn")
    naming, one, two = processes(server)[1], server.path / "one", server.path / "two"
    os.kill(naming, signal.SIGTERM)
    put(one, b"1")
    assert got(one) == b"1"
    with open(one, "rb") as held:
        os.kill(naming, signal.SIGKILL)
        put(two, b"2")
        with open(one, "r+b") as file:
            file.write(b"3")
        assert (os.pread(held.fileno(), 9, 0), got(two)) == (b"3", b"2")
    put(one, b"4")
    assert got(one) == b"4"
    server.end()
    assert "files are read and written by requests" in server.stderr()


@pytest.mark.parametrize("way_of_end", [signal.SIGTERM, signal.SIGKILL])
def test_a_signal_unmounts_and_leaves_no_process_and_an_open_file_is_served_to_its_end(passthrough, directory, share, way_of_end):
    is_kill = way_of_end == signal.SIGKILL
    if is_kill and has_sanitizer(share):
        pytest.skip("without a sandbox nobody unmounts after a server that is killed")
    server = passthrough()
    serving, naming = processes(server)
    with open(server.path / "late", "wb", buffering=0) as file, open(server.path / "last", "ab", buffering=0) as last:
        os.kill(serving if is_kill else server.process.pid, way_of_end)
        assert wait_until(lambda: not os.path.ismount(server.path))
        if not is_kill:
            file.write(b"late")
            last.write(b"last")
    server.finish(int(is_kill))
    assert is_kill or (got(directory / "late"), got(directory / "last")) == (b"late", b"last")
    assert wait_until(lambda: not os.path.exists(f"/proc/{naming}/fd/0"))


def test_the_time_of_a_read_and_of_a_write_is_printed(passthrough, directory):
    """Nothing is compared: -s shows what 1 MiB takes of what it takes in the directory."""
    put(directory / "speed", bytes(PIECES << 20))
    buffer, files = bytearray(1 << 20), [os.open(it / "speed", os.O_RDWR) for it in (passthrough().path, directory)]

    def time_pieces(act, file):
        begun = time.perf_counter()
        for at in range(0, PIECES * len(buffer), len(buffer)):
            act(file, [buffer], at)
        return time.perf_counter() - begun

    for act in (os.preadv, os.pwritev):
        turns = [[time_pieces(act, file) for file in files] for _ in range(TURNS)]
        print(f"{act.__name__} takes {statistics.median(here / there for here, there in turns):.2f} of its time there.")
    for file in files:
        os.close(file)
