"""nizwarf-share on a socket of its own: the files that it makes and removes, the programs that start it and what it tells them,
whose socket it is, and what it may do as root, as another user and in a chroot."""
import contextlib
import grp
import os
import pathlib
import re
import shutil
import signal
import socket
import subprocess

import pytest
from building import run
from conftest import SANDBOXES, wait_until
from shapes import Op
from vhost_user import FrontEnd

pytestmark = pytest.mark.root
NOBODY = 65534
BY_USER = ["setpriv", f"--reuid={NOBODY}", f"--regid={NOBODY}", "--clear-groups"]
OF_SANDBOXES = pytest.mark.parametrize("sandbox", ["namespace", "none"])
# CAP_CHOWN, DAC_OVERRIDE, FOWNER, FSETID, SETGID, SETUID, MKNOD and SETFCAP; and by handles DAC_READ_SEARCH.
CAPABILITIES, READ_SEARCH = 0x880000DB, 4


@pytest.fixture
def path(scratch):
    """Where the socket is, with the file of its process beside it as `socket.pid`."""
    (scratch / "own").mkdir()
    return scratch / "own/socket"


def files_beside(path):
    return sorted(os.listdir(path.parent))


def is_listening(path):
    """Whether there is a socket, and the file of its process is whole."""
    pid = path.with_name("socket.pid")
    return wait_until(lambda: path.is_socket() and pid.exists() and pid.read_text())


def end(process, status=0):
    process.terminate()
    assert process.wait(30) == status


# ---- the socket, and the file that says which process serves

@OF_SANDBOXES
def test_a_file_beside_the_socket_has_the_number_of_the_process_and_goes_with_it(started, directory, path, sandbox):
    process = started("--log-level=error", f"--sandbox={sandbox}", f"--socket-path={path}", directory)
    assert is_listening(path)
    assert path.with_name("socket.pid").read_text().strip() == str(process.pid)
    end(process)
    assert files_beside(path) == []


def test_the_file_has_the_number_of_the_process_in_the_background(share, directory, path):
    run(share, "--log-level=error", "--daemonize", f"--socket-path={path}", directory)
    pid = int(path.with_name("socket.pid").read_text())
    assert os.path.samefile(f"/proc/{pid}/exe", share)
    os.kill(pid, signal.SIGTERM)
    assert wait_until(lambda: files_beside(path) == [])


@pytest.mark.parametrize("place", [os.symlink, os.link, lambda _, name: os.mkfifo(name)], ids=["symlink", "link", "fifo"])
def test_a_file_of_another_program_in_place_of_that_of_the_process_stays(share, directory, path, place):
    other, pid = path.with_name("other"), path.with_name("socket.pid")
    other.write_text("other")
    place(other, pid)
    ended = subprocess.run([share, f"--socket-path={path}", directory], stderr=subprocess.PIPE, text=True, timeout=100)
    assert ended.returncode != 0 and "cannot use pid file" in ended.stderr and "socket.pid': " in ended.stderr
    assert other.read_text() == "other" and os.path.lexists(pid)


@pytest.mark.parametrize("sandbox", SANDBOXES)
def test_a_socket_and_a_file_of_another_server_stay(started, directory, path, sandbox):
    process = started("--log-level=error", f"--sandbox={sandbox}", f"--socket-path={path}", directory)
    assert is_listening(path)
    # (as a server does that found that nobody listens there any more)
    path.unlink()
    path.with_name("socket.pid").unlink()
    with socket.socket(socket.AF_UNIX) as other:
        other.bind(str(path))
    path.with_name("socket.pid").write_text("other")
    end(process)
    assert path.is_socket() and path.with_name("socket.pid").read_text() == "other"


@pytest.mark.parametrize("sandbox", SANDBOXES)
def test_a_socket_whose_path_begins_at_the_working_directory_is_removed(started, directory, path, sandbox):
    process = started("--log-level=error", f"--sandbox={sandbox}", "--socket-path=socket", directory, cwd=path.parent)
    assert is_listening(path)
    end(process)
    assert files_beside(path) == []


@OF_SANDBOXES
@pytest.mark.parametrize("why", ["full", "no_listen"])
def test_a_server_that_fails_once_it_has_a_socket_leaves_nothing(share, directory, path, fault, sandbox, why):
    if why == "full":
        # (there is no space for the number of the process)
        run("mount", "-t", "tmpfs", "-o", "size=4k", "none", path.parent)
        path.with_name("filled").write_bytes(bytes(4096))
    before = files_beside(path)
    ended = subprocess.run([share, f"--sandbox={sandbox}", f"--socket-path={path}", directory], stderr=subprocess.PIPE,
                           timeout=100, env={**os.environ, **(fault(why) if why == "no_listen" else {})})
    assert ended.returncode != 0 and ended.stderr
    assert files_beside(path) == before


@pytest.mark.parametrize("sandbox", SANDBOXES)
@pytest.mark.parametrize("is_daemon", [False, True])
def test_a_signal_just_after_the_socket_leaves_no_socket(share, directory, path, fault, sandbox, is_daemon):
    # (of a daemon the child serves, and has the signal)
    subprocess.run([share, "--log-level=error", f"--sandbox={sandbox}", *["--daemonize"] * is_daemon, f"--socket-path={path}",
                    directory], env={**os.environ, **fault("early_signal")}, timeout=600, check=not is_daemon,
                   stderr=subprocess.DEVNULL if is_daemon else None)
    assert wait_until(lambda: files_beside(path) == [], 60 if is_daemon else 0)


def test_the_socket_of_a_group_has_its_mode_and_owner(started, directory, path):
    group = grp.getgrgid(NOBODY)
    process = started("--log-level=error", f"--socket-path={path}", f"--socket-group={group.gr_name}", directory)
    assert is_listening(path)
    seen = path.stat()
    assert (seen.st_mode & 0o7777, seen.st_uid, seen.st_gid) == (0o660, 0, group.gr_gid)
    end(process)


def test_what_takes_the_place_of_a_groups_socket_is_not_given_to_the_group(share, directory, path, fault):
    target = directory / "target"
    target.touch(mode=0o600)
    ended = subprocess.run([share, f"--socket-path={path}", f"--socket-group={grp.getgrgid(NOBODY).gr_name}", directory],
                           env={**os.environ, **fault("swap_socket"), "TARGET": str(target)}, timeout=200)
    assert ended.returncode == 1
    seen = target.stat()
    assert (seen.st_mode & 0o7777, seen.st_uid, seen.st_gid) == (0o600, 0, 0)


# ---- who starts it

@pytest.fixture
def manager(path):
    """A socket on which a manager of services is told that one is ready (sd_notify(3))."""
    with socket.socket(socket.AF_UNIX, socket.SOCK_DGRAM) as it:
        it.setsockopt(socket.SOL_SOCKET, socket.SO_PASSCRED, 1)
        it.bind(str(path.with_name("notify")))
        it.settimeout(20)
        yield it


def notifies(manager):
    return {"NOTIFY_SOCKET": manager.getsockname()}


@pytest.mark.parametrize("is_given", [False, True], ids=["path", "fd"])
def test_the_process_that_a_manager_started_notifies_it(started, directory, path, manager, is_given):
    with socket.socket(socket.AF_UNIX) as listening:
        listening.bind(str(path.with_name("listening")))
        listening.listen(1)
        where = f"--fd={listening.fileno()}" if is_given else f"--socket-path={path}"
        process = started("--log-level=error", where, directory, environment=notifies(manager), pass_fds=[listening.fileno()])
        said, beside, _, _ = manager.recvmsg(100, 100)
        # (systemd believes the process alone that it started: its number is in struct ucred)
        assert said == b"READY=1\n" and int.from_bytes(beside[0][2][:4], "little") == process.pid
        end(process)


@pytest.mark.parametrize("sandbox, name, is_read", [
    ("namespace", None, False), ("namespace", None, True), ("none", None, False), ("none", None, True),
    ("namespace", "no_signalfd", False)])
def test_a_manager_that_takes_no_message_holds_up_no_signal(started, request, directory, path, manager, sandbox, name, is_read):
    with socket.socket(socket.AF_UNIX, socket.SOCK_DGRAM) as full, contextlib.suppress(BlockingIOError):
        full.connect(manager.getsockname())
        full.setblocking(False)
        while True:
            full.send(b"")
    # (without a descriptor for a signalfd(2) it does not wait for long)
    environment = request.getfixturevalue("fault")(name) if name else {}
    process = started("--log-level=error", f"--sandbox={sandbox}", f"--socket-path={path}", directory,
                      environment={**notifies(manager), **environment})
    assert wait_until(path.exists)
    wait_until(lambda: False, 0.5)
    while is_read and manager.recv(100) != b"READY=1\n":
        pass
    end(process)
    assert not path.exists()


@pytest.mark.parametrize("options", [
    ["-o", "source={doubled}"],
    ["-o", "source={doubled},cache=none,sandbox=chroot,xattr,no_flock,no_posix_lock", "--thread-pool-size=16", "-d"],
    ["-o", "source={doubled},cache=always,sandbox=namespace,no_xattr"],
    ["--shared-dir", "{folder}"],
    ["--shared-dir", "{folder}", "--cache", "never", "--sandbox", "chroot", "--xattr", "--thread-pool-size=16",
     "--rlimit-nofile=1024", "--log-level", "debug"]])
def test_it_serves_as_libvirt_9_and_11_start_a_daemon(started, scratch, path, options):
    folder = scratch / "a,b"
    folder.mkdir()
    options = [it.format(folder=folder, doubled=str(folder).replace(",", ",,")) for it in options]
    with socket.socket(socket.AF_UNIX) as listening:
        listening.bind(str(path))
        listening.listen(1)
        number = listening.fileno()
        process = started(f"--fd={number}", *options, pass_fds=[number], stderr=subprocess.DEVNULL)
    with FrontEnd(str(path)) as client:
        client.init()
        client.mkdir(b"made")
    assert pathlib.Path(f"/proc/{process.pid}/cmdline").read_text().split("\0")[2:-1] == options
    end(process)
    assert (folder / "made").is_dir()


LOG = pathlib.Path("/dev/log")


@pytest.fixture
def system_log(path):
    """The socket of the system's log, which is this test's own for its time."""
    is_there = LOG.exists()
    with socket.socket(socket.AF_UNIX, socket.SOCK_DGRAM) as log:
        log.settimeout(20)
        log.bind(str(path.with_name("log") if is_there else LOG))
        if is_there:
            run("mount", "--bind", path.with_name("log"), LOG.resolve())
        yield log
    run("umount", LOG.resolve()) if is_there else LOG.unlink()


def test_with_syslog_messages_go_to_the_log_alone(serve, system_log):
    server, lines = serve("--syslog", "--tag=data"), []

    def receive(words):
        while not any(words in it for it in lines):
            lines.append(system_log.recv(2000).decode())

    receive(": serving ")
    # (a front end that sends what cannot be)
    server.connect(begin=False).socket.sendall(bytes(12))
    receive("disconnecting")
    assert any("nizwarf-share[" in it and ": warning: ignoring --tag=data:" in it for it in lines)
    # (13: a notice of a user's program)
    assert all(it.startswith("<13>") for it in lines)
    server.end()
    assert server.stderr() == ""


def test_with_syslog_a_log_that_is_missing_is_named_and_messages_go_to_standard_error(serve):
    if LOG.exists():
        pytest.skip("requires a machine without a log")
    server = serve("--syslog")
    front = server.connect(begin=False).socket
    front.sendall(bytes(12))
    assert front.recv(1) == b""
    server.end()
    # (other messages go to standard error, too)
    assert "--syslog: cannot connect to '/dev/log': " in server.stderr() and "disconnecting" in server.stderr()


# ---- what it may do

def capabilities_of(pid):
    status = pathlib.Path(f"/proc/{pid}/status").read_text()
    return {name: int(bits, 16) for name, bits in re.findall(r"Cap(\w+):\t(\w+)", status)}


@pytest.mark.parametrize("sandbox", [[], ["--sandbox=namespace"], ["--sandbox=chroot"], ["--sandbox=none"]], ids="".join)
@pytest.mark.parametrize("handles", ["never", "prefer"])
def test_a_server_has_the_capabilities_that_it_needs_and_no_directory_above_the_shared_one(serve, directory, sandbox, handles):
    server = serve(*sandbox, f"--inode-file-handles={handles}")
    may = CAPABILITIES | (READ_SEARCH if handles == "prefer" else 0)
    wanted = {"Inh": 0, "Prm": may, "Eff": may, "Bnd": 0, "Amb": 0}
    assert wait_until(lambda: capabilities_of(server.pid) == wanted), capabilities_of(server.pid)
    if sandbox == ["--sandbox=none"]:
        return
    process = f"/proc/{server.pid}"
    for it in [f"{process}/cwd", *(f"{process}/fd/{fd}" for fd in os.listdir(f"{process}/fd"))]:
        # (in a chroot the root's parent is outside, where a process in it doesn't come)
        if os.path.isdir(it) and not (sandbox == ["--sandbox=chroot"] and os.path.samefile(it, directory)):
            assert os.path.samefile(f"{it}/.", f"{it}/.."), os.readlink(it)


def test_a_chroot_serves_without_cap_sys_admin_and_warns(started, directory, path):
    process = started("--log-level=error", "--sandbox=chroot", f"--socket-path={path}", directory, stderr=subprocess.PIPE,
                      command=["setpriv", "--bounding-set=-sys_admin"], text=True)
    with FrontEnd(str(path)) as client:
        client.init()
        client.mkdir(b"made")
    end(process)
    assert (directory / "made").is_dir() and "CAP_SYS_ADMIN" in process.stderr.read()


IN_CHROOT = """
for folder in /bin /lib /lib64 /usr /proc /dev; do
    if [ -L "$folder" ]; then
        cp -P "$folder" "$0/"
    elif [ -d "$folder" ]; then
        mkdir -p "$0$folder"
        mount --rbind "$folder" "$0$folder"
    fi
done
exec chroot "$0" /share --log-level=error --socket-path=/own/socket "${@:2}" /shared
"""


@pytest.mark.parametrize("sandbox", [None, "chroot", "none"])
def test_where_the_root_is_no_mount_point_another_sandbox_serves_and_is_named(started, share, scratch, directory, path, sandbox):
    shutil.copy(share, scratch / "share")
    options = [f"--sandbox={sandbox}"] if sandbox else []
    process = started(*options, stderr=subprocess.PIPE, text=True,
                      command=["unshare", "--mount", "bash", "-euc", IN_CHROOT, scratch])
    if sandbox:
        assert wait_until(path.is_socket)
        end(process)
    else:
        assert process.wait(200) == 1
        assert "--sandbox=chroot" in process.stderr.read()


# ---- a user who is not root

@pytest.fixture
def user(started, share, scratch):
    """Starts the program as another user, who shares a directory of its own: the process, the directory and the socket."""
    if subprocess.run([*BY_USER, "unshare", "--user", "true"], stderr=subprocess.DEVNULL).returncode:
        pytest.skip("requires namespaces that users can make")
    folder, program = scratch / "user", scratch / "program"
    folder.mkdir()
    os.chown(folder, NOBODY, NOBODY)
    shutil.copy(share, program)

    def start(*options, **more):
        process = started(*options, f"--socket-path={folder}/socket", folder, program=program, command=BY_USER, **more)
        return process, folder, folder / "socket"

    return start


@contextlib.contextmanager
def subordinate_ids(scratch):
    """Ids of subuid(5) and subgid(5) for the user, in this namespace of mounts."""
    files = [pathlib.Path("/etc/subuid"), pathlib.Path("/etc/subgid")]
    if not shutil.which("newuidmap") or not all(it.exists() for it in files):
        pytest.skip("requires newuidmap: apt-get install uidmap")
    for it, first in zip(files, (200000, 300000)):
        (scratch / it.name).write_text(f"nobody:{first}:1000\n")
        run("mount", "--bind", scratch / it.name, it)
    yield
    for it in files:
        run("umount", it)


OWN = "--uid-map=:0:65534:1:", "--gid-map=+0+65534+1+"
OF_RANGES = *OWN, "--uid-map=:1:200000:1000:", "--gid-map=:1:300000:1000:"


@pytest.mark.parametrize("options, owners", [
    ((), {(NOBODY, NOBODY)}), (OWN, {(NOBODY, NOBODY)}), (OF_RANGES, {(NOBODY, NOBODY), (200006, 300004)})],
    ids=["none", "own", "ranges"])
def test_a_share_by_a_user_makes_files_of_the_ids_that_are_mapped(user, scratch, options, owners):
    with subordinate_ids(scratch) if options == OF_RANGES else contextlib.nullcontext():
        process, folder, path = user("--log-level=warn", *options)
        with FrontEnd(str(path)) as client:
            client.init()
            # (by others than are mapped it fails)
            for name, uid, gid in ((b"made1", 0, 0), (b"made2", 7, 5)):
                client.ask(Op.MKDIR, b"\xed\x01\0\0\0\0\0\0" + name + b"\0", uid=uid, gid=gid)
        end(process)
    made = {(it.stat().st_uid, it.stat().st_gid) for it in folder.glob("made*")}
    assert made == owners and not path.exists()


@pytest.mark.parametrize("option, wanted", [("--log-level=error", 0), ("--preserve-noatime", 1)])
def test_another_users_file_is_opened_without_o_noatime_or_not_at_all(user, scratch, option, wanted):
    """As virtiofsd does."""
    process, folder, path = user("--log-level=error", option)
    (folder / "others").write_text("others")
    with FrontEnd(str(path)) as client:
        client.init()
        node = client.lookup(b"others")
        assert client.ask(Op.OPEN, (os.O_RDONLY | os.O_NOATIME).to_bytes(8, "little"), node).error == wanted
    end(process)


@pytest.mark.parametrize("options", [
    "--uid-map=0:65534:1", "--uid-map=:0:65534:1", "--uid-map=:0:65534:0:", "--gid-map=:0:65534:1:1:", "--gid-map=:0:x:1:",
    "--gid-map=:0:4294967295:1:", "--uid-map=:0:65534:1: --sandbox=none"])
def test_a_map_of_ids_that_cannot_be_is_named(user, options):
    process = user(*options.split(), stderr=subprocess.PIPE, text=True)[0]
    assert process.wait(200) == 2
    assert options.split("=")[0] in process.stderr.read()
