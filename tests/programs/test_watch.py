"""What others change in a directory is seen, by --watch, in a mount of it that remembers all for an hour. A test looks at
something, so that the mount remembers it, changes it in the directory, and looks again until it sees what is there."""
import mmap
import os
import signal
import subprocess
import threading
import time

import pytest
from conftest import come_to, wait_until

pytestmark = [pytest.mark.fuse, pytest.mark.sanitizers]
HOUR = "--cache=always", "-oentry_timeout=3600,attr_timeout=3600,negative_timeout=3600"
# In seconds: how long what names a file first is remembered, and when a change must be seen.
FIRST, SOON = 1.1, 10
# How long both sides change a directory at once.
SECONDS = float(os.environ.get("NIZWARF_WATCH_SECONDS", "8"))
# More than wait to be taken (fs.fanotify.max_queued_events).
MANY = 20000


def put(path, data, mode="w"):
    with open(path, mode) as file:
        file.write(data)


def got(path):
    with open(path) as file:
        return file.read()


def look_at(path):
    seen = os.lstat(path)
    is_file, is_folder = seen.st_mode & 0o170000 == 0o100000, seen.st_mode & 0o170000 == 0o040000
    inside = got(path) if is_file else sorted(os.listdir(path)) if is_folder else os.readlink(path)
    return oct(seen.st_mode), seen.st_uid, seen.st_size * is_file, seen.st_nlink, seen.st_mtime, inside


def mapped(path, data):
    """Writes by a mapping, and closes it."""
    file = os.open(path, os.O_RDWR)
    with mmap.mmap(file, len(data)) as bytes_:
        os.close(file)
        bytes_[:] = data


# Each: what it is, what is looked at, and what changes it, of which `at` is a path in the directory.
STEPS = (
    ("data of the same length", ["data"], lambda at: put(at("data"), "NEW")),
    ("a file that grows", ["grows"], lambda at: put(at("grows"), " more", "a")),
    ("a file that is cut", ["cut"], lambda at: os.truncate(at("cut"), 1)),
    ("a mode", ["mode"], lambda at: os.chmod(at("mode"), 0o600)),
    ("an owner", ["owner"], lambda at: os.chown(at("owner"), 5, 5)),
    ("times", ["times"], lambda at: os.utime(at("times"), (5, 5))),
    ("a mapping", ["mapping"], lambda at: mapped(at("mapping"), b"MAP")),
    ("a file that is replaced", ["replaced", "by"], lambda at: os.rename(at("by"), at("replaced"))),
    ("a file that is renamed", ["from", "to"], lambda at: os.rename(at("from"), at("to"))),
    ("a file that goes", ["gone"], lambda at: os.remove(at("gone"))),
    ("a file that comes", ["comes"], lambda at: put(at("comes"), "new")),
    ("a file that comes again", ["again"], lambda at: (os.remove(at("again")), put(at("again"), "2"))),
    ("a file in a folder that is listed", ["list", "list/two"], lambda at: put(at("list/two"), "2")),
    ("a file that leaves a folder that is listed", ["less", "less/one"], lambda at: os.remove(at("less/one"))),
    ("a folder that goes", ["empty"], lambda at: os.rmdir(at("empty"))),
    ("a folder that is renamed", ["folder", "folder/in", "named", "named/in"],
     lambda at: os.rename(at("folder"), at("named"))),
    ("a folder's mode", ["closed"], lambda at: os.chmod(at("closed"), 0o711)),
    ("a link that leads elsewhere", ["link"], lambda at: (os.remove(at("link")), os.symlink("b", at("link")))),
    # (by a name in a folder that the client never looked at)
    ("another name of a file", ["names"], lambda at: (os.link(at("names"), at("unseen/other")),
                                                      put(at("unseen/other"), "by a link"))),
    ("a file that leaves for a folder that is not known", ["left"], lambda at: os.rename(at("left"), at("unseen/left"))),
)


class Watching:
    """A mount of a directory with files, and what it shows of them."""

    def __init__(self, server, directory):
        self.server, self.path, self.directory = server, server.path, directory

    def change(self, act):
        act(lambda name: f"{self.directory}/{name}")

    def differing(self, names):
        """Names that the mount does not show as the directory has them."""
        return [it for it in names if come_to(look_at, self.path / it) != come_to(look_at, self.directory / it)]

    def see(self, *names):
        """Waits until the mount shows these names as the directory has them."""
        assert wait_until(lambda: not self.differing(names), SOON), self.differing(names)

    def remember(self):
        """Has the mount remember what there is, for as long as it may."""
        for _ in range(2):
            self.differing(name for _, names, _ in STEPS for name in names)
            time.sleep(FIRST)


@pytest.fixture(params=[(), ("--passthrough", "--sandbox=chroot")], ids=["plain", "passthrough"])
def watch(request, share_mount, directory):
    """Mounts a directory with files, which the mount remembers for an hour."""
    for name in ("list", "less", "empty", "folder", "closed", "unseen"):
        (directory / name).mkdir()
    for name in ("data", "grows", "cut", "mode", "owner", "times", "mapping", "replaced", "by", "from", "gone", "again",
                 "list/one", "less/one", "less/two", "folder/in", "names", "left", "held"):
        put(directory / name, "old")
    os.symlink("a", directory / "link")
    return lambda *options: Watching(share_mount("--log-level=error", *HOUR, *request.param, *options), directory)


def until_remembered(part):
    """Of three times once: the machine may have dropped its caches meanwhile."""
    assert any(part() for _ in range(3))


def test_each_change_by_others_is_seen_in_time_and_stays_so(watch, directory):
    it = watch("--watch")
    it.remember()
    with open(it.path / "held") as held, mmap.mmap(held.fileno(), 3, prot=mmap.PROT_READ) as bytes_:
        assert (held.read(), bytes_[:]) == ("old", b"old")
        for what, names, change in STEPS:
            print(what)
            it.change(change)
            it.see(*names)
            it.see(*names)
        put(directory / "held", "HLD")
        assert wait_until(lambda: (os.pread(held.fileno(), 9, 0), bytes_[:]) == (b"HLD", b"HLD"), SOON)
    it.see("")


def test_a_directory_in_use_that_goes_is_seen(watch, directory):
    it = watch("--watch")
    (directory / "used").mkdir()
    it.see("used")
    place = os.open(it.path / "used", os.O_PATH)
    (directory / "used").rmdir()
    it.see("used")
    assert come_to(lambda: os.open("x", os.O_CREAT, dir_fd=place)) == "error 2"
    os.close(place)


def test_without_watch_the_same_changes_are_not_seen(watch, request, directory):
    """So the steps would find what is remembered."""
    if "passthrough" in request.node.name:
        pytest.skip("what a kernel reads by itself it does not remember")
    it = watch()
    it.remember()
    for _, _, change in STEPS:
        it.change(change)
    time.sleep(0.2)
    assert sum(bool(it.differing(names)) for _, names, _ in STEPS) >= len(STEPS) - 2


def test_what_the_client_writes_itself_it_need_not_read(watch):
    it = watch("--watch", "--trace")

    def part():
        with open(it.path / "own", "wb") as file:
            for _ in range(100):
                file.write(b"x" * 4096)
                file.flush()
        time.sleep(0.2)
        assert len(got(it.path / "own")) == 409600
        os.rename(it.path / "own", it.path / "list/own")
        time.sleep(0.2)
        before = len(it.server.stderr())
        for _ in range(10):
            os.stat(it.path / "list")
            assert len(got(it.path / "list/own")) == 409600
        time.sleep(0.1)
        asked = [line.split()[0] for line in it.server.stderr()[before:].splitlines() if line and line[:2] != "->"]
        return asked.count("READ") == 0 and asked.count("LOOKUP") <= 1

    until_remembered(part)


def test_more_changes_than_can_wait_to_be_taken_are_all_seen(watch, directory):
    (directory / "many").mkdir()
    it = watch("--watch")
    it.remember()
    it.see("many")
    # (a process that names files is a child of the server's parent, too)
    children = subprocess.run(["pgrep", "-P", str(it.server.process.pid)], stdout=subprocess.PIPE, text=True).stdout.split()
    below = [child for child in children if got(f"/proc/{child}/comm") != "nizwarf-backing\n"]
    pid = int((below or [it.server.process.pid])[-1])
    os.kill(pid, signal.SIGSTOP)
    for i in range(MANY):
        put(directory / f"many/{i}", "")
    for _, _, change in STEPS:
        it.change(change)
    os.kill(pid, signal.SIGCONT)
    for _, names, _ in STEPS:
        it.see(*names)
    assert len(os.listdir(it.path / "many")) == MANY


def change_as_others_do(stop, place, who):
    """Changes names, files and modes of a directory."""
    turn = 0
    while not stop.is_set():
        turn += 1
        name = f"{place}/busy/{turn % 50}"
        come_to(put, name, who * (turn % 9), "wa"[turn % 2])
        come_to(os.chmod, name, (0o600, 0o644, 0o755)[turn % 3])
        come_to(os.rename, name, f"{place}/busy/{turn % 7}{who}")
        come_to(os.remove, f"{place}/busy/{turn % 13}{who}")
        come_to(os.mkdir, f"{place}/busy/d{turn % 5}")
        come_to(os.rmdir, f"{place}/busy/d{turn % 3}")
        come_to(os.listdir, f"{place}/busy")
        come_to(got, f"{place}/busy/{turn % 20}")


@pytest.mark.parametrize("is_ended", [False, True])
def test_changes_from_both_sides_at_once_come_to_an_end_and_to_one_directory(watch, directory, is_ended):
    (directory / "busy").mkdir()
    it, stop = watch("--watch", "--thread-pool-size=2"), threading.Event()
    threads = [threading.Thread(target=change_as_others_do, args=(stop, place, who))
               for place, who in ((it.path, "m"), (it.path, "n"), (directory, "f"), (directory, "g"))]
    for thread in threads:
        thread.start()
    time.sleep(SECONDS)
    if is_ended:
        it.server.process.terminate()
        time.sleep(0.5)
    stop.set()
    for thread in threads:
        thread.join(SOON)
        assert not thread.is_alive()
    if not is_ended:
        it.see("busy", *(f"busy/{name}" for name in os.listdir(directory / "busy")))
    it.server.end()


def test_where_few_files_may_be_watched_the_others_are_remembered_for_a_second(watch, started, scratch, directory):
    """In a namespace of users, where Linux lets no process name files either."""
    path = scratch / "few"
    path.mkdir()
    few = 'echo 3 > /proc/sys/user/max_fanotify_marks && exec "$0" "$@"'
    process = started(*HOUR, "--watch", "--passthrough", "--sandbox=none", "--seccomp=none", "--log-level=warn", directory, path,
                      command=["unshare", "--user", "--map-root-user", "--mount", "sh", "-c", few], stderr=subprocess.PIPE,
                      text=True)

    def is_mounted():
        with open(f"/proc/{process.pid}/mountinfo") as lines:
            return f" {path} " in lines.read()

    if not wait_until(lambda: process.poll() is not None or is_mounted(), SOON) or process.poll() is not None:
        pytest.skip("requires that users can mount in a namespace of theirs")

    def look(*names):
        return [come_to(got, f"/proc/{process.pid}/root{path}/{it}") for it in names]

    look("data", "mode", "owner", "times", "mapping", "gone")
    put(directory / "mapping", "NEW")
    os.remove(directory / "gone")
    assert wait_until(lambda: look("mapping", "gone") == ["NEW", "error 2"], SOON)
    process.terminate()
    said = process.communicate(timeout=60)[1]
    assert "cannot watch all files" in said and "files are read and written by requests" in said
