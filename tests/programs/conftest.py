"""Fixtures for tests of nizwarf-share, nizwarf-mount and nizwarf-vhost: built programs, a directory, and servers over a
socket or on a mount point.

    def test_something(serve, directory):
        (directory / "file").write_text("content")
        client = serve("--cache=never").connect()

Each server must end with status 0, and must not have printed a report of a sanitizer. A server that does not end in time is
killed, and its test fails."""
import contextlib
import os
import pathlib
import re
import signal
import subprocess
import time

import pytest
from building import REPOSITORY
from requirements import enter_mount_namespace, require, setting
from vhost_user import FrontEnd

# How long a server may take to begin, and to end, in seconds.
BEGIN, END = 30, 30
SANDBOXES = "namespace", "chroot", "none"
REPORT = re.compile(r"ERROR: \w+Sanitizer|WARNING: ThreadSanitizer|runtime error:")


def pytest_configure():
    enter_mount_namespace()


@pytest.fixture(scope="session")
def build(tmp_path_factory):
    """Compiles a source in C beside the tests: build("name.c", flags..) returns the path of a program, or of a library
    to preload with the flag -shared. A flag may be another source. Includes are those of the transports."""
    folder, built = tmp_path_factory.mktemp("built"), {}

    def compile_one(source, *flags, compiler=("cc", "-std=c11")):
        if (source, *flags) not in built:
            path = folder / f"{len(built)}"
            subprocess.run([*compiler, "-O2", "-Wall", "-Wextra", "-Werror", "-fPIC", "-pthread",
                            "-I", REPOSITORY / "include", "-I", REPOSITORY / "programs/transport", "-o", path,
                            pathlib.Path(__file__).parent / source, *flags], check=True, timeout=300)
            built[source, *flags] = str(path)
        return built[source, *flags]

    return compile_one


@pytest.fixture
def fault(request, build):
    """The environment in which functions of the C library fail or are late: fault("no_listen"), as faults.c says."""
    if "share" in request.fixturenames and has_sanitizer(request.getfixturevalue("share")):
        pytest.skip("a sanitizer must be loaded before any other library")
    return lambda name: {"LD_PRELOAD": build("faults.c", "-shared"), "FAULT": name}


@pytest.fixture
def full_pipe():
    """The writing end of a pipe that is full, and that nobody reads."""
    ours, theirs = os.pipe()
    os.set_blocking(theirs, False)
    with contextlib.suppress(BlockingIOError):
        while True:
            os.write(theirs, bytes(4096))
    os.set_blocking(theirs, True)
    yield theirs
    os.close(ours)
    os.close(theirs)


@pytest.fixture
def directory(scratch):
    """A new directory to share."""
    path = scratch / "shared"
    path.mkdir()
    return path


def has_sanitizer(program):
    return any(it in pathlib.Path(program).read_bytes() for it in (b"__asan_init", b"__tsan_init"))


def wait_until(fact, seconds=BEGIN):
    """Returns whether a fact comes to be within this time."""
    end = time.monotonic() + seconds
    while not fact():
        if time.monotonic() > end:
            return False
        time.sleep(0.02)
    return True


def come_to(act, *given):
    """Returns what an act comes to, or its error, so that both can be compared."""
    try:
        return act(*given)
    except OSError as error:
        return f"error {error.errno}"


def last_child(pid):
    """The last child of a process, or the process itself if it has none."""
    return int((setting(f"/proc/{pid}/task/{pid}/children").split() or [pid])[-1])


class Server:
    """A running nizwarf-share. `process` is what was started; `pid` is the process that serves."""

    def __init__(self, share, scratch, directory, options, environment, stderr=None):
        self.directory, self.number = directory, len(list(scratch.glob("stderr*")))
        self.log = scratch / f"stderr{self.number}"
        if has_sanitizer(share):
            # (it makes system calls of its own, and reads /proc; a preloaded library comes before it)
            options += ("--sandbox=none", "--seccomp=none")
            environment = {"ASAN_OPTIONS": "verify_asan_link_order=0", **environment}
        with open(self.log, "wb") as log:
            self.process = subprocess.Popen([share, *options, *filter(None, [directory]), *self.where(scratch)],
                                            stdin=subprocess.DEVNULL, stdout=log, stderr=stderr or log,
                                            env={**os.environ, **environment})

    @property
    def pid(self):
        """The last child of the process that keeps the sandbox, or that process if there is no other one."""
        return last_child(self.process.pid)

    def descriptors(self):
        """What the open descriptors of the serving process are."""
        links = []
        for it in os.listdir(f"/proc/{self.pid}/fd"):
            with contextlib.suppress(OSError):
                links.append(os.readlink(f"/proc/{self.pid}/fd/{it}"))
        return links

    def memory(self):
        """How many bytes of memory the serving process has in use."""
        return 1024 * int(re.search(r"VmRSS:\s*(\d+) kB", setting(f"/proc/{self.pid}/status"))[1])

    def stderr(self):
        """What the server has printed so far."""
        return self.log.read_text(errors="replace")

    def finish(self, status=0, seconds=END):
        """Waits for the end of the process, and checks its status and what it printed."""
        try:
            came = self.process.wait(seconds)
        except subprocess.TimeoutExpired:
            self.kill()
            pytest.fail(f"the server does not end within {seconds} seconds:\n{self.stderr()}")
        assert came == status, f"the server's status is {came}:\n{self.stderr()}"
        assert not REPORT.search(self.stderr()), self.stderr()

    def kill(self):
        for pid in {self.pid, self.process.pid}:
            with contextlib.suppress(ProcessLookupError):
                os.kill(pid, signal.SIGKILL)
        self.process.wait()


class SocketServer(Server):
    """A server on a vhost-user socket, whose path is `socket`."""

    def where(self, scratch):
        self.socket, self.clients = str(scratch / f"socket{self.number}"), []
        return ["--socket-path=" + self.socket]

    def connect(self, init=True, **more):
        """Returns a front end (see vhost_user.FrontEnd) whose session has begun."""
        client = FrontEnd(self.socket, **more)
        self.clients.append(client)
        if init and more.get("begin", True):
            client.init()
        return client

    def end(self, status=0):
        """Disconnects all front ends and ends the server by SIGTERM, if that was not done yet."""
        for client in self.clients:
            client.close()
        if self.process.returncode is None:
            if self.process.poll() is None:
                self.process.terminate()
            self.finish(status)


class MountServer(Server):
    """A server of a mount, whose mount point is `path`."""

    def where(self, scratch):
        self.path = scratch / f"mount{self.number}"
        self.path.mkdir()
        return [self.path]

    def await_mount(self):
        end = time.monotonic() + BEGIN
        while not os.path.ismount(self.path):
            if self.process.poll() is not None or time.monotonic() > end:
                self.kill()
                pytest.fail(f"nothing was mounted:\n{self.stderr()}")
            time.sleep(0.02)

    def end(self, status=0):
        """Unmounts it and waits for the end of the server, if that was not done yet."""
        if self.process.returncode is None:
            subprocess.run(["umount", self.path], timeout=END, stderr=subprocess.DEVNULL)
            self.finish(status)
        assert not os.path.ismount(self.path)


@pytest.fixture
def serve(share, scratch, directory):
    """Serves a directory on a vhost-user socket: serve("--option", .., folder=.., environment={..}, stderr=..)."""
    servers = []

    def start(*options, folder=directory, environment=None, stderr=None):
        servers.append(SocketServer(share, scratch, folder, options, environment or {}, stderr))
        return servers[-1]

    yield start
    end_all(servers)


@pytest.fixture
def mount(share, scratch, directory):
    """Mounts a directory over /dev/fuse: mount("--option", .., folder=.., environment={..}, stderr=..)."""
    require("fuse")
    servers = []

    def start(*options, folder=directory, environment=None, stderr=None):
        servers.append(MountServer(share, scratch, folder, options, environment or {}, stderr))
        servers[-1].await_mount()
        return servers[-1]

    yield start
    end_all(servers)


@pytest.fixture(params=["no_io_uring", pytest.param("io_uring", marks=pytest.mark.io_uring)])
def way(request):
    """The option of a mount by which its requests come to the server."""
    return request.param


@pytest.fixture
def share_mount(mount, way):
    """The same as `mount`, by each way of requests."""
    return lambda *options, **more: mount("-o", way, *options, **more)


@pytest.fixture
def started(share):
    """Starts nizwarf-share, or a copy of it, with these arguments alone, by a command if one is given, and waits for nothing:
    started(argument, .., environment={..}, command=[..], program=..)."""
    processes = []

    def start(*arguments, environment=None, command=(), program=share, **more):
        processes.append(subprocess.Popen([*command, program, *arguments], stdin=subprocess.DEVNULL,
                                          env={**os.environ, **(environment or {})}, **more))
        return processes[-1]

    yield start
    for it in processes:
        it.kill()
        it.wait()


@pytest.fixture
def mount_tree(tree_mount, scratch):
    """Mounts a new tree in memory: mount_tree("option,option..", environment={..})."""
    require("fuse")
    servers = []

    def start(options="", environment=None):
        servers.append(MountServer(tree_mount, scratch, None, ("-o", options) if options else (), environment or {}))
        servers[-1].await_mount()
        return servers[-1]

    yield start
    end_all(servers)


def end_all(servers):
    """Ends all of them, also where one does not end as it should."""
    with contextlib.ExitStack() as stack:
        for it in servers:
            stack.callback(it.end)
