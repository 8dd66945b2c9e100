"""Load and faults for nizwarf-share, for load.sh.

Usage: load.py SHARE REFUSING WORK MINUTES [DAEMON]
SHARE is the program, REFUSING the same one linked with refuse_some.c, WORK an empty folder, DAEMON virtiofsd over the
layer here, whose machines migrate. It wants root and stress-ng.

One server is mounted and one serves machines from beginning to end; others are started for a part of it. Parts
follow each other until the minutes are over; each ends with what is held there: what was written and synced is
there, byte by byte; no descriptor of the server is left but those it began with; its memory is bounded."""
import contextlib
import errno
import hashlib
import os
import random
import re
import signal
import struct
import subprocess
import sys
import tempfile
import threading
import time

sys.path.insert(0, os.path.dirname(os.path.abspath(__file__)) + "/../lib")
import requests
import rounds
from loaded import MOST_MEMORY, PATIENCE, Machine, Server, count, counts, drop_caches, empty, faults, hold_descriptors
from loaded import hold_end, wait_for, wrong
from requests import line, request, transfer

MIB = 1 << 20
STRESSORS = ("access", "chdir", "chmod", "chown", "dentry", "dir", "dirdeep", "dirmany", "fallocate",
             "fcntl", "filename", "flock", "fpunch", "fstat", "getdent", "hdd", "iomix", "link", "lockf", "mknod",
             "open", "rename", "symlink", "sync-file", "touch", "utime", "xattr")
# Each of these two holds thousands of files open; a server with few descriptors may have 140.
FEW_OPEN = ("--chdir-dirs", "64", "--open-max", "32")
# What a program may be told of a full disk, of descriptors that ran out, and of refused allocations.
FULL = {errno.ENOSPC}
SCARCE = {errno.EMFILE, errno.ENFILE}
REFUSED = {errno.ENOMEM, errno.EIO}


class Keeper:
    """Writes files through a mount, with errors that may come, and remembers those that were synced."""

    def __init__(self, mount, folder, allowed, chance):
        self.mount, self.folder, self.allowed, self.chance = mount + "/kept", folder + "/kept", allowed, chance
        self.files, self.number = {}, 0
        self.retry(lambda: os.makedirs(self.mount, exist_ok=True))

    def retry(self, act):
        """Acts until no error that may come does."""
        for i in range(1, 1001):
            try:
                return act()
            except OSError as error:
                if not self.note(error, "a call"):
                    return None
                # (all descriptors may be of names that nobody uses, and the kernel remembers)
                if error.errno in SCARCE and i % 100 == 0:
                    drop_caches()
                time.sleep(0.001)
        return wrong("a thousand errors one after another")

    def note(self, error, what):
        """Whether it is an error that may come."""
        count(f"{errno.errorcode[error.errno]} came through")
        if error.errno not in self.allowed:
            wrong(f"{what}: {error}")
        return error.errno in self.allowed

    def hold_undone(self, error, name):
        """What finds no descriptor makes no name."""
        # (looked for in the folder: through the mount that may want a descriptor too)
        if error.errno in SCARCE and os.path.lexists(f"{self.folder}/{name}"):
            wrong(f"{name} was made, and refused: {error}")

    def is_there(self, name):
        def look():
            try:
                return bool(os.lstat(f"{self.mount}/{name}"))
            except FileNotFoundError:
                return False
        return self.retry(look)

    def remove(self, name):
        """Removes a file, which an earlier try may have removed before it failed."""
        def act():
            try:
                os.remove(f"{self.mount}/{name}")
            except FileNotFoundError:
                pass
        self.retry(act)
        self.files.pop(name, None)

    def write(self, size):
        """Writes a file, which is remembered if no error came, and removed if one did."""
        name = f"file{self.number}"
        self.number += 1
        data = self.chance.randbytes(size)
        opened = False
        try:
            with open(f"{self.mount}/{name}", "wb", buffering=0) as file:
                opened, at = True, 0
                while at < size:
                    at += file.write(data[at:at + self.chance.choice((100, 4096, 65536, MIB))])
                # (what a disk that is full refuses later would otherwise come at no call)
                os.fsync(file.fileno())
        except OSError as error:
            self.note(error, "a write")
            if not opened:
                self.hold_undone(error, name)
            self.remove(name)
            return False
        # (their sums alone: all files together may be larger than memory)
        self.files[name] = hashlib.sha256(data).digest()
        count("files kept")
        return True

    def change(self):
        """Renames a file, links it, or removes it."""
        if not self.files:
            return
        name, other = self.chance.choice(sorted(self.files)), f"other{self.number}"
        self.number += 1
        what = self.chance.choice(("rename", "link", "remove"))
        try:
            if what == "rename":
                os.rename(f"{self.mount}/{name}", f"{self.mount}/{other}")
                self.files[other] = self.files.pop(name)
            elif what == "link":
                os.link(f"{self.mount}/{name}", f"{self.mount}/{other}")
                self.files[other] = self.files[name]
            else:
                os.remove(f"{self.mount}/{name}")
                del self.files[name]
        except OSError as error:
            self.note(error, what)
            if what != "remove":
                self.hold_undone(error, other)
            # (an error for want of memory may come after what was done)
            for it in (name, other):
                if self.is_there(it):
                    self.files.setdefault(it, self.files.get(name) or self.files.get(other))
                else:
                    self.files.pop(it, None)

    def hold(self, what):
        """What is remembered is there, through the mount and beside it, and nothing else."""
        for folder in (self.mount, self.folder):
            there = set(self.retry(lambda folder=folder: os.listdir(folder)))
            if there != set(self.files):
                wrong(f"{what}: names in {folder}: {sorted(there ^ set(self.files))[:10]}")
            for name in there & set(self.files):
                if self.retry(lambda path=f"{folder}/{name}": digest(path)) != self.files[name]:
                    wrong(f"{what}: {folder}/{name} is another one")
        count("files held against what was written", len(self.files))


def digest(path):
    with open(path, "rb") as file:
        return hashlib.sha256(file.read()).digest()


def keep(keeper, until, size):
    """Writes and changes files until a time."""
    while time.monotonic() < until:
        if not keeper.write(keeper.chance.randrange(size)):
            time.sleep(0.01)
        keeper.change()
        # (so that a small disk isn't full of these alone)
        if len(keeper.files) > 50:
            for name in sorted(keeper.files)[:25]:
                keeper.remove(name)


def hold_failure(said, killed):
    """A stressor says what failed: that may be a full disk, or a want of descriptors, which all clients share. Of one
    that was killed the counters are wrong, and its folder is removed while children of its go on."""
    name = re.search(r"fail:\s+\[\d+\] ([\w-]+)", said)
    if not name or name[1] == "metrics-check" or name[1].replace("_", "-") in killed:
        return
    if any(f"errno={it} " in said for it in (errno.ENOSPC, errno.EMFILE, errno.ENFILE)):
        count("stressors that met a full disk or a want of descriptors")
    else:
        wrong("stress-ng: " + said.strip())


def kill_one(pids, killed, chance):
    """Kills a process of stress-ng, and remembers which stressor it was."""
    # (it may have ended by now: then nothing is killed)
    pid = int(chance.choice(pids))
    try:
        with open(f"/proc/{pid}/cmdline") as words:
            killed.add(words.read().split()[0].replace("stress-ng-", "", 1))
        os.kill(pid, signal.SIGKILL)
        count("processes on a mount killed by SIGKILL")
    except (ProcessLookupError, FileNotFoundError, IndexError):
        pass


def stress(place, chance, seconds):
    """Programs that stress a mount; some are killed."""
    names = chance.sample(STRESSORS, 6)
    words = [word for name in names for word in (f"--{name}", "1")]
    os.makedirs(place + "/stress", exist_ok=True)
    log, killed = tempfile.TemporaryFile("w+", dir=work), set()
    running = subprocess.Popen(["stress-ng", "--temp-path", place + "/stress", "--timeout", str(seconds), "--verify",
                                "--hdd-bytes", "8m", "--iomix-bytes", "8m", "--fallocate-bytes", "8m", *FEW_OPEN,
                                *words],
                               stdout=log, stderr=log, start_new_session=True)
    began = time.monotonic()
    until = began + seconds
    while running.poll() is None and time.monotonic() < until + PATIENCE:
        time.sleep(0.5)
        workers = subprocess.run(["pgrep", "-P", str(running.pid)], capture_output=True, text=True, check=False)
        workers = workers.stdout.split()
        if workers and chance.random() < 0.3:
            kill_one(workers, killed, chance)
    if running.poll() is None:
        wrong(f"stress-ng does not end: {names}")
    # (those that were killed leave children)
    try:
        os.killpg(running.pid, signal.SIGKILL)
    except ProcessLookupError:
        pass
    running.wait()
    # (1: its words can't be; 2: a stressor failed, as it does if it is killed)
    if running.returncode == 1 and time.monotonic() < began + seconds / 2:
        wrong(f"stress-ng ended at once: {names}")
    log.seek(0)
    for said in log:
        hold_failure(said, killed)
    count("runs of stress-ng, of six of its stressors")


def stress_and_keep(server, chance, what, seconds=20):
    """Load by many, while one looks after files of its own, whose bytes nobody else changes: none may be lost or
    mixed up.
    """
    before = server.descriptors()
    # (by default each file that is known takes a descriptor, of which a machine may have few)
    keeper = Keeper(server.mount, server.folder, FULL | SCARCE, chance)
    keeping = threading.Thread(target=keep, args=(keeper, time.monotonic() + seconds, 300000))
    keeping.start()
    stress(server.mount, chance, seconds)
    keeping.join()
    if server.process.poll() is not None:
        wrong(f"{what}: the server ended with {server.process.returncode}: {server.said()}")
        return
    empty(server.mount + "/stress")
    keeper.hold(what)
    empty(server.mount)
    if os.listdir(server.folder):
        wrong(f"{what}: left in the folder: {os.listdir(server.folder)[:10]}")
    hold_descriptors(server, before, what)


def with_words(chance):
    """A server with other options, stressed."""
    words = chance.choice((["--writeback", "-o", "allow_other"], ["--cache=always", "--xattr"], ["--cache=never"],
                           ["--inode-file-handles=prefer", "--xattr"], ["--thread-pool-size=1"],
                           ["--cache=metadata", "--no-readdirplus"], ["--rlimit-nofile=600", "--inode-file-handles=prefer"]))
    server = Server(share, work + "/others", *words, mount=work + "/mounted")
    if not server.is_up:
        return wrong(f"no server with {words}: {server.said()}")
    # (one descriptor more may be that of a mount, by which file handles are opened)
    with open(work + "/mounted/one", "w"):
        pass
    os.remove(work + "/mounted/one")
    stress_and_keep(server, chance, f"with {words}", 15)
    return hold_end(server, f"with {words}")


def full_disk(chance):
    """The disk is full: an error comes through, what was synced is there, and it goes on once there is space."""
    words = chance.choice(([], ["--writeback"], ["--cache=always"], ["--cache=never"]))
    folder, mount = work + "/small", work + "/mounted"
    os.makedirs(folder, exist_ok=True)
    subprocess.run(["mount", "-t", "tmpfs", "-o", "size=16m,nr_inodes=300", "none", folder], check=True)
    server = Server(share, folder, *words, mount=mount)
    before = server.descriptors()
    keeper = Keeper(mount, folder, FULL, chance)
    for size in (3 * MIB, 200000, 1000, 0):
        for _ in range(400):
            if not keeper.write(size):
                break
        else:
            wrong(f"a disk that is never full of files of {size} bytes, with {words}")
        keeper.hold(f"a full disk, with {words}")
        for name in sorted(keeper.files)[::2]:
            keeper.remove(name)
        if not keeper.write(100000):
            wrong(f"no file can be written once there is space, with {words}")
    keeper.hold(f"a disk that was full, with {words}")
    empty(mount)
    hold_descriptors(server, before, f"a full disk, with {words}")
    hold_end(server, f"a full disk, with {words}")
    subprocess.run(["umount", folder], check=True)
    count("disks filled, of files of four sizes each")


def make_each(keeper, name, until):
    """Makes names in all ways, and removes them: each is made and told, or neither."""
    makers = (lambda path: os.close(os.open(path, os.O_CREAT | os.O_EXCL | os.O_WRONLY)), os.mkdir, os.mkfifo,
              lambda path: os.symlink("text", path), lambda path: os.link(keeper.mount + "/" + name + "linked", path))
    while time.monotonic() < until:
        for i, make in enumerate(makers):
            try:
                make(f"{keeper.mount}/{name}{i}")
                count("names made beside a want of descriptors")
                if not os.path.lexists(f"{keeper.folder}/{name}{i}"):
                    wrong(f"{name}{i} was told, and not made")
            except OSError as error:
                keeper.note(error, "a maker")
                keeper.hold_undone(error, f"{name}{i}")
        for i, _ in enumerate(makers):
            path = f"{keeper.mount}/{name}{i}"
            if os.path.lexists(f"{keeper.folder}/{name}{i}"):
                keeper.retry(lambda path=path, i=i: os.rmdir(path) if i == 1 else os.remove(path))


def makers_without():
    """Each request that makes a name, with so few descriptors left: what is refused for want of one leaves no name.
    A LINK wants none, by POSIX and Linux, where link() has no such error."""
    folder, socket = work + "/others", work + "/makers"
    for i in range(64):
        with open(f"{folder}/some{i}", "w"):
            pass
    makers = {13: lambda node: struct.pack("<Q", node) + b"made\0", 6: lambda _: b"made\0text\0",
              8: lambda _: struct.pack("<IIII", 0o100644, 0, 0, 0) + b"made\0",
              9: lambda _: struct.pack("<II", 0o755, 0) + b"made\0",
              35: lambda _: struct.pack("<IIII", 0o102, 0o644, 0, 0) + b"made\0"}
    for words in ([], ["--inode-file-handles=prefer"]):
        server = Server(share, folder, "--rlimit-nofile=64", "--thread-pool-size=1", *words, socket=socket)
        one = Machine(socket)
        for opcode, body in makers.items():
            for left in range(6):
                hold_maker(one, folder, opcode, body, left, words)
        one.close()
        hold_end(server, f"makers of names, with {words}")
    empty(folder)


def hold_maker(one, folder, opcode, body, left, words):
    """Asks a request that makes a name, where the server can open `left` more descriptors."""
    one.reply(requests.FIRST[1])
    node = number(one.reply(line("16+128", request(1, b"some0\0")))[1])
    held, error = [], 0
    for i in range(1, 64):
        error, entry = one.reply(line("16+128", request(1, b"some%d\0" % i)))
        if error:
            break
        held.append(number(entry))
    # (where files are held by handles, those that are open run out)
    while not error:
        error, entry = one.reply(line("16+16", request(27, bytes(8))))
    if error not in SCARCE:
        wrong(f"{error} came of a want of descriptors, with {words}")
    for it in held[-left - 1:]:
        one.reply(line("0", request(2, struct.pack("<Q", 1), node=it)))
    # (the last one that is there is taken by a file that wasn't known)
    one.reply(line("16+128", request(1, b"some%d\0" % len(held))))
    error, entry = one.reply(line("16+144", request(opcode, body(node))))
    is_there = os.path.lexists(folder + "/made")
    what = f"{requests.NAMES[opcode]} with {left} descriptors left, and {words}"
    if error not in {0, *SCARCE} or is_there == bool(error):
        wrong(f"{what}: error {error}, and the name is {'there' if is_there else 'not there'}")
    if opcode == 13 and (error or number(entry) != node or struct.unpack_from("<I", entry, 104)[0] != 2):
        wrong(f"{what}: error {error}, {entry.hex()}")
    count("names made, or refused for want of a descriptor")
    if is_there:
        one.reply(line("16", request(11 if opcode == 9 else 10, b"made\0")))
    one.reply(line("0", request(38)))


def many_directories():
    """A directory that is open many times: each lists all of its names, and what the server keeps is bounded."""
    folder, socket, times = work + "/others", work + "/directories", 2000
    for i in range(800):
        with open(f"{folder}/name{i}", "w"):
            pass
    server = Server(share, folder, socket=socket)
    one = Machine(socket)
    one.reply(requests.FIRST[1])
    handles = [number(one.reply(line("16+16", request(27, bytes(8))))[1]) for _ in range(times)]
    before, seen = server.memory()[0], [[] for _ in handles]
    places = [0] * times
    for size in (1000, 40000):
        for i, handle in enumerate(handles):
            names, places[i] = names_in(one.reply(line(f"16+{size}", transfer(28, size, b"", places[i], 1, handle)))[1])
            seen[i] += names
    wanted = sorted([".", "..", *os.listdir(folder)])
    if any(sorted(it) != wanted for it in seen):
        wrong("a directory that is open many times isn't listed once by each")
    if server.memory()[0] > before + 32 * 1024:
        wrong(f"{times} open directories take {server.memory()[0] - before} KiB")
    one.close()
    hold_end(server, "many directories")
    empty(folder)
    count("listings of a directory at once", times)


def names_in(body):
    """The names of a reply to READDIR, and the offset of the last."""
    names, at, place = [], 0, 0
    while at < len(body):
        place, size = struct.unpack_from("<QI", body, at + 8)
        names.append(body[at + 24:at + 24 + size].decode())
        at += (24 + size + 7) // 8 * 8
    return names, place


def few_descriptors(chance):
    """Descriptors run out: an error comes through, and it goes on once some are given back."""
    mount = work + "/mounted"
    server = Server(share, work + "/others", "--rlimit-nofile=64", mount=mount)
    before = server.descriptors()
    keeper = Keeper(mount, work + "/others", SCARCE, chance)
    opened, names = [], [f"maker{i}-" for i in range(4)]
    for name in names:
        with open(f"{mount}/kept/{name}linked", "w"):
            pass
    for i in range(200):
        try:
            opened.append(open(f"{mount}/kept/held{i}", "wb"))
        except OSError as error:
            keeper.note(error, "an open")
    if not 5 < len(opened) < 64:
        wrong(f"{len(opened)} of 200 files could be opened with 64 descriptors")
    # (a few are left to those who make names at once)
    for i in range(chance.randrange(5)):
        opened.pop(0).close()
        keeper.remove(f"held{i}")
    making = [threading.Thread(target=make_each, args=(keeper, name, time.monotonic() + 2)) for name in names]
    for it in making:
        it.start()
    keep(keeper, time.monotonic() + 2, 100000)
    for it in making:
        it.join()
    for file in opened:
        try:
            file.close()
        except OSError as error:
            keeper.note(error, "a close")
    drop_caches()
    for name in [f"held{i}" for i in range(200)] + [f"{it}linked" for it in names]:
        keeper.remove(name)
    # (the kernel gives a name back later than it closes it)
    keeper.retry(lambda: os.listdir(mount + "/kept"))
    keeper.hold("few descriptors")
    keeper.retry(lambda: empty(mount))
    empty(work + "/others")
    hold_descriptors(server, before, "few descriptors")
    hold_end(server, "few descriptors")
    count("times descriptors ran out")


def few_allocations(chance):
    """One allocation in many is refused: errors come, and nothing is lost."""
    mount, environment = work + "/mounted", {"REFUSE_FROM": "200", "REFUSE_ONE_IN": str(chance.choice((3, 20, 300)))}
    server = Server(refusing, work + "/others", "--xattr", mount=mount, environment=environment)
    if not server.is_up:
        return wrong(f"no server with refused allocations: {server.said()}")
    before = server.descriptors()
    keeper = Keeper(mount, work + "/others", REFUSED, chance)
    keep(keeper, time.monotonic() + 8, 200000)
    keeper.hold("refused allocations")
    for name in sorted(keeper.files):
        keeper.remove(name)
    keeper.retry(lambda: os.rmdir(keeper.mount))
    hold_descriptors(server, before, "refused allocations")
    hold_end(server, "refused allocations")
    return count("runs with allocations refused by chance")


def asked_by_chance(chance, nodes, handles):
    """A line of a request of what may be there."""
    node, handle = chance.choice(nodes), chance.choice(handles)
    name = b"name%d\0" % chance.randrange(40)
    other = b"name%d\0" % chance.randrange(40)
    size, place = chance.choice((0, 100, 4096, 65536, MIB)), chance.randrange(1 << 20)
    what = chance.randrange(16)
    return [lambda: line("16+128", request(1, name, node=node)),
            lambda: line("16+104", request(3, bytes(16), node=node)),
            lambda: line("16+128", request(9, struct.pack("<II", 0o755, 0) + name, node=node)),
            lambda: line("16+144", request(35, struct.pack("<IIII", 0o102, 0o644, 0, 0) + name, node=node)),
            lambda: line("16+16", request(14, struct.pack("<II", 2, 0), node=node)),
            lambda: line("16+16", request(27, bytes(8), node=node)),
            lambda: line(f"16+{size}", transfer(15, size, b"", place, node, handle)),
            lambda: line("16+8", transfer(16, size // 16, bytes(size // 16), place, node, handle)),
            lambda: line(f"16+{size}", transfer(44, size, b"", 0, node, handle)),
            lambda: line(f"16+{size}", transfer(28, size, b"", 0, node, handle)),
            lambda: line("16", request(10, name, node=node)),
            lambda: line("16", request(11, name, node=node)),
            lambda: line("16", request(12, struct.pack("<Q", chance.choice(nodes)) + name + other, node=node)),
            lambda: line("16", request(18, struct.pack("<Q", handle) + bytes(16), node=node)),
            lambda: line("16", request(21, struct.pack("<II", 3, 0) + b"user.a\0abc", node=node)),
            lambda: line("0", request(2, struct.pack("<Q", 1), node=node))][what]()


def machines(server, chance, socket):
    """Machines that disconnect amid a request, one after another, as those do that are killed."""
    one = Machine(socket)
    one.reply(requests.FIRST[1])
    before = server.descriptors()
    one.close()
    for _ in range(20):
        one, nodes, handles = Machine(socket), [1], [0]
        one.reply(requests.FIRST[1])
        for _ in range(chance.randrange(300)):
            text = asked_by_chance(chance, nodes, handles)
            error, body = one.reply(text)
            count("requests of machines")
            if error == 0 and len(body) in (128, 144):
                nodes = (nodes + [struct.unpack_from("<Q", body)[0]])[-20:]
            if error == 0 and len(body) in (16, 144):
                handles = (handles + [struct.unpack_from("<Q", body, len(body) - 16)[0]])[-20:]
        one.send_line(asked_by_chance(chance, nodes, handles))
        one.close()
        count("machines that are gone amid a request")
        if server.process.poll() is not None:
            return wrong(f"machines: the server ended with {server.process.returncode}: {server.said()}")
    one = Machine(socket)
    one.reply(requests.FIRST[1])
    if not wait_for(lambda: server.descriptors() <= before):
        wrong(f"machines: {server.descriptors()} descriptors, and {before} before them")
    if server.memory()[0] > MOST_MEMORY:
        wrong(f"machines: {server.memory()} KiB")
    return one.close()


def number(body, at=0):
    """A number in a reply; 0 if it isn't as long."""
    return struct.unpack_from("<Q", body, at)[0] if len(body) >= at + 8 else 0


class Steps:
    """A session of one machine: each step until it isn't refused, and what came of it."""

    def __init__(self, one):
        self.one, self.came = one, []

    def ask(self, text, *others, makes=None):
        """The body of the reply. Errors besides may come. What makes a name, in a node, leaves none if it is refused."""
        for _ in range(3):
            error, body = self.one.reply(text)
            if error not in (errno.ENOMEM, errno.ENFILE, None):
                break
            count("requests refused for want of memory or a descriptor")
            if makes and self.one.reply(line("16+128", request(1, makes[1], node=makes[0])))[0] != errno.ENOENT:
                wrong(f"{makes[1]} was made, and refused")
        self.came.append(0 if error in others else error)
        return body

    def hold(self, fact):
        self.came.append(0 if fact else -1)

    def write_and_read(self):
        made = self.ask(line("16+144", request(35, struct.pack("<IIII", 0o102, 0o644, 0, 0) + b"file\0")),
                        makes=(1, b"file\0"))
        node, handle = number(made), number(made, 128)
        data = b"x" * 70000
        self.ask(line("16+8", transfer(16, 70000, data, 0, node, handle), range(40, 70120, 4096)))
        read = self.ask(line("+".join(["16"] + 30 * ["4000"]), transfer(15, 70000, b"", 0, node, handle)))
        self.hold(read[:70000] == data)
        again = number(self.ask(line("16+16", request(14, struct.pack("<II", 2, 0), node=node))))
        for it in (handle, again):
            self.ask(line("16", request(18, struct.pack("<Q", it) + bytes(16), node=node)))
        return node

    def name_and_list(self, node):
        self.ask(line("16+128", request(9, struct.pack("<II", 0o755, 0) + b"folder\0")), makes=(1, b"folder\0"))
        folder = number(self.ask(line("16+128", request(1, b"folder\0"))))
        for i in range(3):
            self.ask(line("16+128", request(6, b"link%d\0text\0" % i, node=folder)), makes=(folder, b"link%d\0" % i))
        self.ask(line("16+128", request(13, struct.pack("<Q", node) + b"second\0", node=folder)),
                 makes=(folder, b"second\0"))
        self.ask(line("16+128", request(8, struct.pack("<IIII", 0o100644, 0, 0, 0) + b"plain\0", node=folder)),
                 makes=(folder, b"plain\0"))
        handle = number(self.ask(line("16+16", request(27, bytes(8), node=folder))))
        listed = self.ask(line("16+65536", transfer(44, 65536, b"", 0, folder, handle)))
        self.hold(all(name in listed for name in (b"link0", b"link1", b"link2", b"second", b"plain")))
        self.ask(line("16", request(29, struct.pack("<Q", handle) + bytes(16), node=folder)))
        self.ask(line("16", request(12, struct.pack("<Q", 1) + b"second\0third\0", node=folder)))

    def run(self):
        self.ask(requests.FIRST[1])
        node = self.write_and_read()
        self.ask(line("16", request(21, struct.pack("<II", 60000, 0) + b"user.a\0" + b"v" * 60000, node=node)),
                 errno.ENOSPC, errno.E2BIG)
        self.ask(line("16+1024", request(23, struct.pack("<II", 1024, 0), node=node)))
        self.name_and_list(node)
        self.ask(line("16+80", request(17)))
        self.ask(line("16", request(10, b"file\0")))
        self.one.reply(line("0", request(38)))
        return self.came


def in_turn(what, variable):
    """Each allocation of a session is refused, or each openat, one a run, until one meets no refusal."""
    folder, socket, number, is_refused = work + "/others", work + "/in-turn", 0, True
    wanted = None
    while is_refused:
        empty(folder)
        server = Server(refusing, folder, "--xattr", "--sandbox=none", "--thread-pool-size=1", socket=socket,
                        environment={variable: str(number)})
        one = None
        if server.is_up:
            # (a server may end as it is connected to)
            with contextlib.suppress(OSError):
                one = Machine(socket)
        if one and one.ask_line(requests.LAST[1])[0].isdigit():
            before, came = server.descriptors(), Steps(one).run()
            wanted = wanted or came
            if came != wanted:
                wrong(f"{what} {number} is refused, and {came} came for {wanted}")
            if server.descriptors() > before:
                wrong(f"{what} {number} is refused, and {server.descriptors()} descriptors are left of {before}")
            one.close()
            hold_end(server, f"{what} {number} is refused")
        elif not wait_for(lambda: server.process.poll()) or len(server.said().splitlines()) < 2:
            wrong(f"{what} {number} is refused: status {server.process.poll()}, {server.said()}")
        is_refused = number == 0 or "is refused" in server.said()
        number += 1
    empty(folder)
    count(f"{what}s refused in turn", number - 2)
    if any(wanted):
        wrong(f"a session that is refused nothing comes to {wanted}")


def main(minutes):
    """The seed is printed, so that a round that failed can be made again."""
    seed = random.SystemRandom().randrange(1 << 32)
    chance = random.Random(seed)
    print(f"Load for {minutes} minutes, by seed {seed}.", flush=True)
    for name in ("folder", "mount", "others", "mounted", "served"):
        os.mkdir(f"{work}/{name}")
    subprocess.run(["mount", "-t", "tmpfs", "-o", "size=256m,nr_inodes=100k", "none", work + "/folder"], check=True)
    until = time.monotonic() + minutes * 60
    in_turn("allocation", "REFUSE_FROM")
    in_turn("openat", "REFUSE_OPEN")
    makers_without()
    many_directories()
    # (it has more files than some machines let it have descriptors)
    mounted = Server(share, work + "/folder", "--xattr", "--inode-file-handles=prefer", mount=work + "/mount")
    served = Server(share, work + "/served", "--xattr", socket=work + "/socket")
    first = {it: it.memory()[0] for it in (mounted, served)}
    parts = (lambda: stress_and_keep(mounted, chance, "the mount"), lambda: machines(served, chance, work + "/socket"),
             lambda: with_words(chance), lambda: full_disk(chance), lambda: few_descriptors(chance),
             lambda: few_allocations(chance), lambda: rounds.come_and_go(share, work, chance),
             *(lambda it=it: rounds.migrate(it, work, chance) for it in (share, *sys.argv[5:])))
    turns = 0
    while time.monotonic() < until and len(faults) < 20:
        for part in parts:
            part()
        turns += 1
        print(f"Round {turns}: the mounted server has {mounted.descriptors()} descriptors and {mounted.memory()[0]} "
              f"KiB, that of machines {served.descriptors()} and {served.memory()[0]} KiB.", flush=True)
    for server in (mounted, served):
        print(f"A server of {turns} rounds: {first[server]} KiB at first, {server.memory()[0]} at its end.")
        hold_end(server, "the end")
    subprocess.run(["umount", work + "/folder"], check=True)
    for what in sorted(counts):
        print(f"{counts[what]:>10} {what}")
    print(f"{turns} rounds, {len(faults)} wrong.")
    return 1 if faults else 0


if __name__ == "__main__":
    share, refusing, work = sys.argv[1:4]
    sys.exit(main(float(sys.argv[4])))
