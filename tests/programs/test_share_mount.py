"""A directory that nizwarf-share mounts, by each way in which a mount's requests come: programs see there what they see on a
plain directory, and nothing is left when it ends, however that comes."""
import errno
import fcntl
import mmap
import os
import pathlib
import re
import signal
import threading
import time

import pytest
from building import REPOSITORY, judge, run
from conftest import SANDBOXES, last_child, wait_until

pytestmark = pytest.mark.fuse
IN_SANDBOXES = pytest.mark.parametrize("sandbox", ["namespace", "none"])
NO_SANDBOX = "--sandbox=none", "--seccomp=none"
# An answer in a trace, in the form that nizwarf-decode reads.
ANSWER = re.compile(r"ok 0|ok [0-9]+ [0-9a-f]+|err [0-9A-Za-z]+( [0-9]+ [0-9]+)?")


def drop_caches():
    """Has the kernel release the names that it remembers and nobody uses."""
    pathlib.Path("/proc/sys/vm/drop_caches").write_text("2")


def is_mounted(path):
    """Whether something is mounted there, by a file that no server has to answer for."""
    return f" {path} " in pathlib.Path("/proc/self/mounts").read_text()


def as_user(user, path, flags):
    """Opens a file as another user, and returns what it has, or the error's number."""
    os.setegid(user)
    os.seteuid(user)
    try:
        with open(os.open(path, flags)) as file:
            return file.read()
    except OSError as refused:
        return refused.errno
    finally:
        os.seteuid(0)
        os.setegid(0)


# ---- sessions

@pytest.mark.parametrize("options", [
    ("--thread-pool-size=1",), pytest.param(("--thread-pool-size=4", "--xattr"), marks=pytest.mark.sanitizers),
    ("--thread-pool-size=4", "--writeback"), ("--cache=always", "--xattr", *NO_SANDBOX),
    ("--cache=never", "--no-readdirplus"), ("--inode-file-handles=prefer", "--xattr"),
    ("--inode-file-handles=mandatory", "-o", "entry_timeout=0.5,attr_timeout=0", "--sandbox=chroot"),
    ("--passthrough", "--watch", "--cache=always"), ("--inode-file-handles=prefer", "--rlimit-nofile=100"),
    ("--posix-acl",)], ids=" ".join)
def test_a_session_of_a_person_succeeds_and_leaves_no_descriptor(share_mount, way, options):
    server = share_mount("-o", "allow_other", "--log-level=warn", *options)
    os.listdir(server.path)
    assert any("io_uring" in it for it in server.descriptors()) == (way == "io_uring")
    before = len(server.descriptors())
    lists = ["--acl"] if "--posix-acl" in options else []
    judge(REPOSITORY / "tests/programs/session.sh", "--shared", *lists, server.path)
    drop_caches()
    # (one more may be that of the mount, by which file handles are opened)
    assert wait_until(lambda: len(server.descriptors()) <= before + 1, 5), server.descriptors()


@pytest.mark.parametrize("options", [("--inode-file-handles=prefer", "--rlimit-nofile=100"), ("--rlimit-nofile=100",),
                                     ("--node-limit=30",)], ids=" ".join)
def test_files_that_were_removed_are_in_the_way_of_no_other_where_few_may_be_known(share_mount, fault, options):
    path = share_mount(*options, environment=fault("late_forgets")).path
    for _ in range(200):
        (path / "file").touch()
        (path / "file").unlink()
        os.listdir(path)


# ---- names

@IN_SANDBOXES
def test_a_file_that_is_known_is_opened_whatever_takes_its_name(share_mount, directory, sandbox):
    (directory / "file").write_text("this\n")
    path = share_mount(f"--sandbox={sandbox}", "--cache=always").path
    assert (path / "file").read_text() == "this\n"
    os.rename(directory / "file", directory / "moved")
    os.mkfifo(directory / "file")
    # (to open the pipe would wait for a writer)
    assert run("cat", path / "file") == "this\n"
    (directory / "file").unlink()
    (directory / "file").write_text("other\n")
    run("sh", "-c", 'echo more >> "$0"', path / "file")
    assert [(directory / it).read_text() for it in ("moved", "file")] == ["this\nmore\n", "other\n"]


@IN_SANDBOXES
def test_a_directory_that_is_known_is_read_whatever_takes_its_name(share_mount, directory, sandbox):
    (directory / "place").mkdir()
    (directory / "place/one").touch()
    place = os.open(share_mount(f"--sandbox={sandbox}", "--cache=always").path / "place", os.O_PATH)
    os.rename(directory / "place", directory / "went")
    (directory / "place").mkdir()
    (directory / "place/other").touch()
    names = run("ls", cwd=f"/proc/self/fd/{place}", pass_fds=[place])
    os.close(place)
    assert names == "one\n"


@IN_SANDBOXES
def test_a_missing_name_is_remembered_as_long_as_negative_timeout_says(share_mount, directory, sandbox):
    path = share_mount(f"--sandbox={sandbox}", "--cache=always", "-o", "negative_timeout=2").path / "none"
    assert not path.exists()
    (directory / "none").touch()
    assert not path.exists()
    time.sleep(2.1)
    assert path.exists()


@pytest.mark.parametrize("mode, wanted", [(0o600, errno.EACCES), (0o666, "content")])
def test_a_file_that_came_after_its_missing_name_was_remembered_is_opened_by_who_may(share_mount, directory, mode, wanted):
    directory.chmod(0o1777)
    path = share_mount("-o", "allow_other,negative_timeout=60").path / "file"
    assert not path.exists()
    (directory / "file").write_text("content")
    (directory / "file").chmod(mode)
    assert as_user(65534, path, os.O_RDWR | os.O_CREAT) == wanted


# ---- requests that fail for want of space or of files, which are repeated over io_uring

MAKE = {"MKDIR": os.mkdir, "MKNOD": os.mknod, "SYMLINK": lambda it: os.symlink("text", it), "FIFO": os.mkfifo,
        "LINK": lambda it: os.link(it.parent / "file", it),
        "CREATE": lambda it: os.close(os.open(it, os.O_CREAT | os.O_EXCL | os.O_RDWR)),
        "TMPFILE": lambda it: os.close(os.open(it.parent, os.O_TMPFILE | os.O_RDWR))}


def error_of(call, *arguments):
    """The error's number of a call, or 0."""
    try:
        call(*arguments)
    except OSError as failed:
        return failed.errno
    return 0


@pytest.mark.parametrize("make", MAKE.values(), ids=MAKE)
def test_what_is_made_while_the_kernel_has_no_file_left_is_made_once_or_not_at_all(share_mount, way, directory, fault, make):
    (directory / "file").touch()
    path = share_mount(environment=fault("full_table")).path
    error = error_of(make, path / "made")
    # (a node that is known is not opened, and so its LINK succeeds)
    assert error == (0 if way == "io_uring" or make == MAKE["LINK"] else errno.ENFILE)
    made = set() if error or make == MAKE["TMPFILE"] else {"made"}
    assert set(os.listdir(directory)) == set(os.listdir(path)) == {"file"} | made


@pytest.mark.parametrize("make", [MAKE["MKDIR"], MAKE["MKNOD"], MAKE["SYMLINK"], MAKE["CREATE"]],
                         ids=["MKDIR", "MKNOD", "SYMLINK", "CREATE"])
def test_what_is_made_and_cannot_be_removed_is_not_made_a_second_time(share_mount, directory, fault, make):
    path = share_mount(environment=fault("full_table")).path
    # (in such a directory names are made, and none is removed)
    run("chattr", "+a", directory)
    try:
        assert error_of(make, path / "made") == errno.EIO
        assert os.listdir(directory) == ["made"]
    finally:
        run("chattr", "-a", directory)


@pytest.mark.parametrize("call", [os.fsync, os.fdatasync], ids=["fsync", "fdatasync"])
def test_data_that_did_not_fit_on_the_disk_are_reported(share_mount, fault, call):
    file = os.open(share_mount(environment=fault("full_disk")).path / "file", os.O_CREAT | os.O_RDWR)
    os.write(file, b"data")
    error = error_of(call, file)
    os.close(file)
    assert error == errno.ENOSPC


def test_data_that_a_synchronous_write_appends_are_appended_once(share_mount, directory, fault):
    path = share_mount(environment=fault("full_disk")).path / "file"
    file = os.open(path, os.O_CREAT | os.O_WRONLY | os.O_APPEND | os.O_DSYNC)
    error = error_of(os.write, file, b"data")
    os.close(file)
    assert (error, (directory / "file").read_text()) == (errno.ENOSPC, "data")


# ---- what the server may do, and does

@pytest.mark.parametrize("options, wanted", [
    ((), (True, False, True)), (("--modcaps=+SYS_ADMIN:-mknod",), (True, True, True)),
    (("--modcaps=-chown:-sys_admin",), (True, False, False))])
def test_the_server_has_the_capabilities_that_modcaps_says(mount, options, wanted):
    path = mount("--xattr", *options).path / "file"
    path.touch()

    def may(call, *arguments):
        try:
            call(path, *arguments)
            return True
        except PermissionError:
            return False

    came = (may(os.setxattr, "user.a", b"1"), may(os.setxattr, "trusted.a", b"1"), may(os.chown, 5, 5))
    assert came == wanted
    for name, is_set in (("user.a", came[0]), ("trusted.a", came[1])):
        assert not is_set or (os.getxattr(path, name) == b"1" and name in os.listxattr(path))


@pytest.mark.parametrize("options, wanted", [((), errno.ENODEV), (("--allow-mmap",), "Mapped")], ids=["never", "allowed"])
def test_without_a_cache_a_file_is_mapped_if_allow_mmap_says_so(mount, directory, options, wanted):
    (directory / "mapped").write_text("mapped")
    with open(mount("--cache=never", *options).path / "mapped", "r+b") as file:
        try:
            with mmap.mmap(file.fileno(), 0) as text:
                text[:1] = b"M"
                text.flush()
            came = (directory / "mapped").read_text()
        except OSError as refused:
            came = refused.errno
    assert came == wanted


def in_child(act, close=()):
    """Starts a process on the first processor that this one may use."""
    child = os.fork()
    if not child:
        for it in close:
            os.close(it)
        os.sched_setaffinity(0, {min(os.sched_getaffinity(0))})
        act()
        os._exit(0)
    return child


def test_requests_behind_those_of_one_processor_that_take_long_are_answered(share_mount, directory):
    """A program opens a file with a lease of this process, and Linux waits for that; and while the server is at it, another
    file is looked at on the same processor: so as long as one of the server's four workers is left."""
    for i in range(3):
        (directory / f"leased{i}").touch()
        (directory / f"other{i}").touch()
    path = share_mount().path
    signal.signal(signal.SIGIO, signal.SIG_IGN)
    leases = [os.open(directory / f"leased{i}", os.O_RDWR) for i in range(3)]
    for it in leases:
        fcntl.fcntl(it, fcntl.F_SETLEASE, fcntl.F_WRLCK)
    waiting = []

    def ends(child):
        """Whether a child ends, and well."""
        ended = []
        wait_until(lambda: ended.append(os.waitpid(child, os.WNOHANG)) or ended[-1][0], 20)
        return ended[-1] == (child, 0)

    for i in range(3):
        # (so that it waits where it is opened)
        os.stat(path / f"leased{i}")
        waiting.append(in_child(lambda it=path / f"leased{i}": os.open(it, os.O_RDONLY), leases))
        time.sleep(0.004)
        assert ends(in_child(lambda it=path / f"other{i}": os.stat(it), leases)), f"behind {i + 1} that wait"
        assert os.waitpid(waiting[-1], os.WNOHANG) == (0, 0)
    for it in leases:
        os.close(it)
    assert all(ends(it) for it in waiting)


def test_an_idle_server_does_not_wake(share_mount):
    server = share_mount("--thread-pool-size=4")
    os.listdir(server.path)
    time.sleep(0.5)

    def wakings():
        """How often the thread that waits for the end came to run."""
        return int(re.search(r"^voluntary_ctxt_switches:\s*(\d+)", pathlib.Path(f"/proc/{server.pid}/status").read_text(),
                             re.MULTILINE)[1])

    before = wakings()
    time.sleep(1)
    assert wakings() - before <= 5


def test_a_trace_says_which_request_is_answered_later(share_mount, directory, scratch):
    (directory / "file").touch()
    server = share_mount("--log-level=error", "--flock", f"--trace={scratch}/trace")
    with open(directory / "file") as host, open(server.path / "file") as file:
        fcntl.flock(host, fcntl.LOCK_EX)
        unlocks = threading.Timer(1, fcntl.flock, (host, fcntl.LOCK_UN))
        unlocks.start()
        fcntl.flock(file, fcntl.LOCK_EX)
        unlocks.join()
    server.end()
    answers = (scratch / "trace").read_text().splitlines()[1::2]
    assert answers.count("err AnsweredLater") == 1
    assert [it for it in answers if not ANSWER.fullmatch(it)] == []


def test_without_standard_descriptors_none_of_them_is_another_file(started, scratch, directory, way):
    path, trace = scratch / "mount", scratch / "trace"
    path.mkdir()
    process = started("-o", way, f"--trace={trace}", directory, path, command=("sh", "-c", 'exec "$0" "$@" <&- >&- 2>&-'))
    assert wait_until(lambda: os.path.ismount(path))
    (path / "touched").touch()
    assert [os.readlink(f"/proc/{last_child(process.pid)}/fd/{it}") for it in range(3)] == ["/dev/null"] * 3
    # (what is traced is its owner's)
    assert trace.stat().st_mode & 0o777 == 0o600
    run("umount", path)
    assert process.wait(30) == 0


def test_with_daemonize_it_is_mounted_once_the_command_has_ended(share, scratch, directory):
    path = scratch / "mount"
    path.mkdir()
    run(share, "--daemonize", "--log-level=error", directory, path)
    assert os.path.ismount(path)
    run("umount", path)


# ---- ends

@IN_SANDBOXES
@pytest.mark.parametrize("name", [None, "unmount_first"])
def test_a_signal_unmounts_and_an_open_file_is_served_to_its_end(share_mount, request, directory, sandbox, name):
    environment = request.getfixturevalue("fault")(name) if name else None
    server = share_mount("--log-level=error", f"--sandbox={sandbox}", environment=environment)
    with open(server.path / "open", "w") as file:
        server.process.terminate()
        assert wait_until(lambda: not os.path.ismount(server.path))
        file.write("late")
    server.finish()
    assert (directory / "open").read_text() == "late"


def test_no_mount_is_left_of_a_server_that_is_killed(share_mount):
    server = share_mount("--log-level=off")
    os.kill(server.pid, signal.SIGKILL)
    server.finish(status=1)
    assert not os.path.ismount(server.path)


@IN_SANDBOXES
def test_a_mount_that_cannot_be_unmounted_is_reported_and_a_failure(share_mount, fault, sandbox):
    server = share_mount("--log-level=error", f"--sandbox={sandbox}", environment=fault("no_unmount"))
    server.process.terminate()
    server.finish(status=1)
    run("umount", "-l", server.path)
    assert f"cannot unmount '{server.path}': Operation not permitted" in server.stderr()


@pytest.mark.parametrize("name", ["late_read", "aborted_read"])
def test_workers_that_are_late_to_see_the_end_are_waited_for(share_mount, fault, name):
    server = share_mount("--log-level=error", environment=fault(name))
    server.end()
    assert server.stderr() == ""


@pytest.mark.parametrize("sandbox", SANDBOXES)
def test_a_signal_just_after_the_mount_leaves_no_mount(share, scratch, directory, fault, way, sandbox):
    (scratch / "mount").mkdir()
    run(share, "--log-level=error", f"--sandbox={sandbox}", "-o", way, directory, scratch / "mount",
        env={**os.environ, **fault("early_signal")}, seconds=600)
    assert not is_mounted(scratch / "mount")


@pytest.mark.parametrize("sandbox", SANDBOXES)
@pytest.mark.parametrize("name", ["no_answer", "no_answer_mounted", "no_bind", "no_unlink"])
def test_a_signal_ends_it_while_a_file_system_does_not_answer(started, scratch, directory, fault, way, sandbox, name):
    path, socket = scratch / "mount", scratch / "socket"
    path.mkdir()
    is_mount = name.startswith("no_answer")
    if name == "no_answer":
        # (what is mounted there before must stay)
        run("mount", "-t", "tmpfs", "none", path)
    where = ["-o", way, directory, path] if is_mount else [f"--socket-path={socket}", directory]
    process = started("--log-level=error", f"--sandbox={sandbox}", *where, environment=fault(name))
    # (without a sandbox a thread waits to do it)
    assert wait_until(lambda: last_child(process.pid) != process.pid or len(os.listdir(f"/proc/{process.pid}/task")) > 1)
    # (a call that looks at the mount point would wait too)
    assert name != "no_answer_mounted" or wait_until(lambda: is_mounted(path))
    process.terminate()
    status = process.wait(30)
    # (the process that keeps a namespace of processes ends by SIGALRM, if it cannot remove the socket)
    assert status == 0 or (status, sandbox, name) == (-signal.SIGALRM, "namespace", "no_unlink")
    assert name == "no_unlink" or not list(scratch.glob("socket*"))
    if name == "no_answer":
        run("umount", path)
    assert not is_mounted(path)
