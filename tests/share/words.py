"""What comes of virtiofsd's words, as a machine sees it, asked over vhost-user as root: for
tests/programs/test_virtiofsd_options.py, and for tests/compare/test_servers.py, which asks virtiofsd itself.

    words.py WORK (--write | --compare | --known) DAEMON..: an empty folder on a file system with attributes of users,
    and the program with words of its own. Lines of what came are written to words.txt,
    which has those of virtiofsd 1.13.2, or compared with it; with --known those of KNOWN differ, as these say.
"""
import errno
import fcntl
import itertools
import os
import pathlib
import shutil
import socket
import struct
import subprocess
import sys
import time

sys.path.insert(0, os.path.dirname(os.path.abspath(__file__)) + "/../lib")
from asking import Asking
from requests import line, request
from shapes import Op, record

STORED = pathlib.Path(__file__).with_suffix(".txt")
KILLPRIV_V2, SECURITY_CTX, ALLOW_MMAP = 1 << 28, 1 << 32, 1 << 36
OPTIONS = {KILLPRIV_V2: "HANDLE_KILLPRIV_V2", SECURITY_CTX: "SECURITY_CTX", ALLOW_MMAP: "DIRECT_IO_ALLOW_MMAP"}
INIT_EXT, ASYNC_READ, CREATE_SUPP_GROUP = 1 << 30, 1, 1 << 34
MODE, UID, GID, SIZE = 1, 2, 4, 8
LAST = 2**32 - 2

# What nizwarf-share does on purpose, and why.
KNOWN = {
    # (it takes the bits away without a word, since a client that does may be late)
    "options of no word": "HANDLE_KILLPRIV_V2",
    "options of --allow-mmap": "HANDLE_KILLPRIV_V2 DIRECT_IO_ALLOW_MMAP",
    "options of --security-label": "HANDLE_KILLPRIV_V2 SECURITY_CTX",
    # (the error is that of a permission, which virtiofsd's code means too)
    "ids forbid-guest: MKDIR of 6": "EPERM",
    "ids forbid-guest: SETATTR to 6": "EPERM",
    "ids forbid-guest: MKDIR of the group 6": "EPERM",
    # (it is kept where the server may have it)
    "flags of O_NOATIME without a word": "O_NOATIME",
    # (an attribute that is set is no change of the file)
    "capabilities after SETXATTR of another": "there",
    "capabilities after a change of a link's owner": "0",
    # (the host holds modes and lists together, by the name that it knows)
    "word --posix-acl --xattrmap=:map::user.virtiofs.:": "refused",
    # (O_DIRECT takes no bytes that lie anywhere, and a client's cache has such)
    "O_DIRECT: after a WRITE of nine bytes from a cache": "",
    # (a new file goes by the host's cache as others do)
    "flags of a new O_DIRECT without a word": "",
}
came = {}


def name_of(error):
    return errno.errorcode.get(error, str(error))


class Daemon:
    """One that shares a new folder, with a front end that asks it."""
    def __init__(self, *words, flags=SECURITY_CTX | CREATE_SUPP_GROUP | ALLOW_MMAP | KILLPRIV_V2):
        """A folder with one file, anew for each server: what was tried before leaves nothing."""
        self.folder, self.socket = WORK + "/folder", WORK + "/socket"
        shutil.rmtree(self.folder, ignore_errors=True)
        os.mkdir(self.folder)
        os.chmod(self.folder, 0o777)
        with open(self.folder + "/file", "wb") as file:
            file.write(bytes(8192))
        self.words, self.flags = words, flags

    def __enter__(self):
        self.server = subprocess.Popen([*DAEMON, *self.words, "--shared-dir", self.folder, "--socket-path", self.socket])
        self.front = Asking(self.socket)
        self.error, said = self.ask(Op.INIT, struct.pack("<IIIII44x", 7, 38, 65536, INIT_EXT | self.flags & 0xFFFFFFFF,
                                                         self.flags >> 32), node=0, room=64)
        self.agreed = 0
        if not self.error:
            self.agreed = struct.unpack_from("<I", said, 12)[0] | struct.unpack_from("<I", said, 32)[0] << 32
        return self

    def __exit__(self, *_):
        self.front.close()
        self.server.terminate()
        self.server.wait(20)
        # (virtiofsd leaves both)
        for path in (self.socket, self.socket + ".pid"):
            if os.path.exists(path):
                os.unlink(path)

    def ask(self, opcode, body=b"", node=1, room=144, uid=0, gid=0, extensions=b"", cuts=(40,)):
        """The error, and what is after the header."""
        made = request(opcode, body + extensions, node=node, uid=uid, gid=gid, extensions=len(extensions) // 8)
        error, said = self.front.reply(line(f"16+{room}", made, cuts))
        if error is None:
            raise SystemExit(f"{DAEMON[0]} {' '.join(self.words)}: opcode {opcode} has no reply")
        return error, said

    def look_up(self, name, node=1):
        """The node of a name; 0: there is none."""
        error, said = self.ask(Op.LOOKUP, name.encode() + b"\0", node)
        return struct.unpack_from("<Q", said)[0] if not error else 0

    def open(self, node, flags):
        error, said = self.ask(Op.OPEN, struct.pack("<II", flags, 0), node)
        return error, struct.unpack_from("<Q", said)[0] if not error else 0

    def flags_of(self, name):
        """The flags with which the server has the file open."""
        processes = [str(self.server.pid)]
        with open(f"/proc/{self.server.pid}/task/{self.server.pid}/children") as children:
            processes += children.read().split()
        found = []
        for process in processes:
            for fd in os.listdir(f"/proc/{process}/fd"):
                try:
                    with open(f"/proc/{process}/fdinfo/{fd}") as info:
                        flags = int(info.read().split("flags:")[1].split()[0], 8)
                    if os.readlink(f"/proc/{process}/fd/{fd}").endswith("/" + name) and not flags & os.O_PATH:
                        found.append(flags)
                except OSError:
                    pass
        return " ".join(it for it in ("O_DIRECT", "O_NOATIME") if any(flags & getattr(os, it) for flags in found)) \
            if found else "none is open"


def label(name, value):
    """The extension by which a client says a label."""
    rest = name.encode() + b"\0" + value
    size = 16 + len(rest)
    size += -size % 8
    return (struct.pack("<IIII", size, 1, len(value), 0) + rest).ljust(size, b"\0")


def attributes(path):
    return {it: os.getxattr(path, it, follow_symlinks=False).decode("latin-1")
            for it in sorted(os.listxattr(path, follow_symlinks=False))}


def shortened(name):
    """A name that a line of the stored answers has room for."""
    return name if len(name) < 100 else f"one of {len(name)} letters"


def changes(before, path):
    """Attributes of a file that aren't as they were."""
    after = attributes(path)
    return " ".join(f"{shortened(it)}={after.get(it, 'gone')}" for it in sorted({*before, *after})
                    if before.get(it) != after.get(it)) or "nothing changed"


def options():
    """Which options of INIT words agree on, and what labels a server with --security-label refuses."""
    for words in ([], ["--allow-mmap"], ["--killpriv-v2"], ["--no-killpriv-v2"], ["--security-label"],
                  ["-o", "killpriv_v2,no_killpriv_v2,security_label,no_security_label"]):
        with Daemon(*words) as one:
            agreed = " ".join(name for bit, name in OPTIONS.items() if one.agreed & bit)
            came[f"options of {' '.join(words) or 'no word'}"] = agreed
    with Daemon("--security-label") as one:
        for what, name, value in (("a long name", "user." + "n" * 300, b"1"), ("another kind", "kind", b"1"),
                                  ("a list", "system.posix_acl_access", b"1"), ("a long value", "user.l", bytes(65537))):
            made = what.replace(" ", "-")
            body = record(Op.MKDIR, mode=0o755) + made.encode() + b"\0"
            error, _ = one.ask(Op.MKDIR, body, extensions=label(name, value))
            is_there = os.path.exists(f"{one.folder}/{made}")
            came[f"a label of {what}"] = f"{name_of(error)}, {'made' if is_there else 'not made'}"
        error, _ = one.ask(Op.MKDIR, struct.pack("<II", 0o755, 0) + b"none\0", extensions=struct.pack("<II", 8, 0))
        came["no label"] = f"{name_of(error)}, {os.path.exists(one.folder + '/none')}"
    with Daemon("--security-label", flags=ASYNC_READ) as one:
        came["a client without labels"] = name_of(one.error)


def labels():
    """What is made with a label has it, or is not made, by each way to map attributes."""
    for words in (["--security-label"], ["--security-label", "--xattrmap=:map::user.virtiofs.:"],
                  ["--security-label", "--xattrmap=:unsupported:all:user.l:user.l: :ok:all:::"],
                  ["--security-label", "--xattrmap=:bad:all:user.l:user.l: :ok:all:::"]):
        with Daemon(*words) as one:
            for name, opcode, body in (("made", Op.CREATE, struct.pack("<IIII", os.O_RDWR, 0o644, 0, 0) + b"made\0"),
                                       ("directory", Op.MKDIR, struct.pack("<II", 0o755, 0) + b"directory\0"),
                                       ("node", Op.MKNOD, struct.pack("<IIII", 0o100644, 0, 0, 0) + b"node\0"),
                                       ("link", Op.SYMLINK, b"link\0text\0")):
                error, _ = one.ask(opcode, body, room=160, extensions=label("user.label", b"secret"))
                path = f"{one.folder}/{name}"
                there = changes({}, path) if os.path.lexists(path) else "it isn't there"
                came[f"label of {name}, {' '.join(words)}"] = f"{name_of(error)}: {there}"


# The first three are those of virtiofsd's documentation, over attributes of users.
RULES = (
    ":prefix:all::user.virtiofs.::bad:all:::",
    "/prefix/all/user.a/user.virtiofs./\n /bad/server//user.a/ /bad/client/user.virtiofs.//\t/ok/all///",
    "/bad/all/user.a/user.a/ /ok/all///",
    ":map::user.virtiofs.:",
    "xmapxuser.axuser.virtiofs.x",
    ":unsupported:all:user.a:user.a: /ok/all///",
    ":ok:client:user.a:: :ok:server::user.b: :bad:client::: :bad:server:::",
    ":prefix:client:user.a:user.virtiofs.: :prefix:server::user.virtiofs.user.: :ok:all:::",
)


def rules():
    """What each map of attributes makes of names of the guest and of the host."""
    for text in RULES:
        with Daemon(f"--xattrmap={text}") as one:
            shown = " ".join(text.split())
            path = one.folder + "/file"
            for name in ("user.a", "user.b", "user.virtiofs.user.a", "user.virtiofs.user.b"):
                os.setxattr(path, name, b"of the host")
            node = one.look_up("file")
            _, said = one.ask(Op.LISTXATTR, struct.pack("<II", 4096, 0), node, 4096)
            came[f"list, {shown}"] = " ".join(sorted(it.decode() for it in said.split(b"\0") if it)) or "nothing"
            for name in ("user.a", "user.b", "user.virtiofs.user.a", "system.posix_acl_access", "user." + "n" * 240):
                body, key = name.encode() + b"\0", f"{shortened(name)}, {shown}"
                error, said = one.ask(Op.GETXATTR, struct.pack("<II", 100, 0) + body, node, 100)
                came[f"get {key}"] = name_of(error) + (" " + said.decode() if said else "")
                for what, opcode, asked in (("set", Op.SETXATTR, struct.pack("<II", 1, 0) + body + b"1"),
                                            ("remove", Op.REMOVEXATTR, body)):
                    before = attributes(path)
                    error, _ = one.ask(opcode, asked, node, 0)
                    came[f"{what} {key}"] = f"{name_of(error)}, {changes(before, path)}"


def capabilities():
    """What is left of a file's capabilities that the host doesn't know as such."""
    def hold(what, act, name="file"):
        with Daemon("--xattrmap=:map::user.virtiofs.:") as one:
            path = one.folder + "/file"
            os.setxattr(path, "user.virtiofs.security.capability", b"c")
            os.symlink("text", one.folder + "/link")
            error = act(one, one.look_up(name))
            left = "there" if "user.virtiofs.security.capability" in os.listxattr(path) else "gone"
            came[f"capabilities after {what}"] = name_of(error) if error or name == "link" else left

    def set_attr(**fields):
        return lambda one, node: one.ask(Op.SETATTR, record(Op.SETATTR, **fields), node)[0]

    def write(one, node):
        handle = one.open(node, os.O_RDWR)[1]
        return one.ask(Op.WRITE, struct.pack("<QQIIQII", handle, 0, 1, 0, 0, 0, 0) + b"w", node)[0]

    hold("OPEN to read", lambda one, node: one.open(node, os.O_RDONLY)[0])
    hold("OPEN with O_TRUNC", lambda one, node: one.open(node, os.O_RDWR | os.O_TRUNC)[0])
    hold("WRITE", write)
    hold("a change of the mode", set_attr(valid=MODE, mode=0o100600))
    hold("a change of the size", set_attr(valid=SIZE, size=1))
    hold("a change of the owner", set_attr(valid=UID | GID, uid=7, gid=7))
    hold("a change of a link's owner", set_attr(valid=UID, uid=7), "link")
    attribute = struct.pack("<II", 1, 0) + b"user.x\0001"
    hold("SETXATTR of another", lambda one, node: one.ask(Op.SETXATTR, attribute, node, 0)[0])


def flags():
    """Which flags of open(2) come to the host's file, by its own /proc."""
    for words in ([], ["--allow-direct-io"], ["--preserve-noatime"], ["-o", "allow_direct_io"],
                  ["-o", "allow_direct_io,no_allow_direct_io"]):
        with_words = " ".join(words) or "a word"
        for flag in ("O_DIRECT", "O_NOATIME"):
            if flag == "O_NOATIME" and "direct" in with_words:
                continue
            with Daemon(*words) as one:
                error, _ = one.open(one.look_up("file"), os.O_RDWR | getattr(os, flag))
                key = f"flags of {flag} with{'out' if not words else ''} {with_words}"
                came[key] = one.flags_of("file") if not error else name_of(error)
        if words in ([], ["--allow-direct-io"]):
            with Daemon(*words) as one:
                one.ask(Op.CREATE, struct.pack("<IIII", os.O_RDWR | os.O_DIRECT, 0o644, 0, 0) + b"made\0", room=160)
                came[f"flags of a new O_DIRECT with{'out' if not words else ''} {with_words}"] = one.flags_of("made")


def direct():
    """What is written and read past the host's cache lies by pages; and what a client writes out of its own cache goes by
    the host's from then on."""
    def write(one, node, handle, size, cached):
        body = struct.pack("<QQIIQII", handle, 0, size, cached, 0, 0, 0) + b"w" * size
        return name_of(one.ask(Op.WRITE, body, node, 8, cuts=(40, 80))[0])

    with Daemon("--allow-direct-io") as one:
        node = one.look_up("file")
        handle = one.open(node, os.O_RDWR | os.O_DIRECT)[1]
        came["O_DIRECT: WRITE of a page"] = write(one, node, handle, 4096, 0)
        error, said = one.ask(Op.READ, struct.pack("<QQIIQII", handle, 0, 8192, 0, 0, 0, 0), node, 8192)
        came["O_DIRECT: READ of two"] = f"{name_of(error)} {said == b'w' * 4096 + bytes(4096)}"
        write(one, node, handle, 9, 1)
        came["O_DIRECT: after a WRITE of nine bytes from a cache"] = one.flags_of("file")


# Words, who asks (a user and a group), and the owners of host's files that are looked at.
TRANSLATIONS = (
    ("map", ["--translate-uid=map:0:1000:10", "--translate-gid=map:0:2000:10"], (0, 9, 10, 1000, LAST), (0, 999, 1000,
                                                                                             1009, 1010, LAST)),
    ("one way", ["--translate-uid=guest:5:50:1", "--translate-uid=host:60:6:2", "--translate-gid=guest:5:50:1"], (4, 5, 6),
     (50, 59, 60, 61, 62)),
    ("squash", ["--translate-uid=squash-guest:0:3000:4294967295", "--translate-uid=squash-host:1:77:4294967294",
                "--translate-gid=squash-guest:1:0:10"], (0, 1, 9, LAST), (0, 1, 3000, LAST)),
    ("forbid-guest", ["--translate-uid=forbid-guest:6:1", "--translate-gid=Forbid-Guest/6/1"], (5, 6, 7), (5, 6, 7)),
    ("the last", [f"--translate-uid=map:{LAST}:9:1"], (LAST, LAST - 1), (9, LAST)),
    ("of no id", ["--translate-uid=map:4:40:0"], (4,), (40,)),
)


def ids():
    """How each translation of users and groups makes and shows files."""
    for what, words, asking, looked in TRANSLATIONS:
        with Daemon(*words) as one:
            one.look_up("file")
            path = one.folder + "/file"
            for id_ in looked:
                os.chown(path, id_, id_)
                os.chmod(path, 0o640)
                node = one.look_up("file")
                _, said = one.ask(Op.GETATTR, bytes(16), node)
                came[f"ids {what}: GETATTR of {id_}"] = "%d:%d" % struct.unpack_from("<II", said, 16 + 68)
                may = [name_of(one.ask(Op.ACCESS, struct.pack("<II", 2, 0), node, 0, uid, 1)[0]) for uid in asking]
                came[f"ids {what}: ACCESS to that of {id_}"] = " ".join(may)
            for id_ in asking:
                for name, user, group in (("", id_, 1), ("the group ", 1, id_)):
                    made = f"{name[:1]}{id_}"
                    body = record(Op.MKDIR, mode=0o755) + made.encode() + b"\0"
                    error, _ = one.ask(Op.MKDIR, body, uid=user, gid=group)
                    path = f"{one.folder}/{made}"
                    owner = os.path.exists(path) and f"{os.stat(path).st_uid}:{os.stat(path).st_gid}"
                    came[f"ids {what}: MKDIR of {name}{id_}"] = owner if not error else name_of(error)
                error, said = one.ask(Op.SETATTR, record(Op.SETATTR, valid=UID | GID, uid=id_, gid=id_), node)
                owner = os.stat(one.folder + "/file")
                came[f"ids {what}: SETATTR to {id_}"] = name_of(error) if error else \
                    f"{owner.st_uid}:{owner.st_gid}, told %d:%d" % struct.unpack_from("<II", said, 16 + 68)


def pid_file():
    """The file SOCKET.pid is there, names the process, and is locked."""
    with Daemon() as one:
        path = one.socket + ".pid"
        with open(path) as file:
            came["SOCKET.pid"] = "the process" if file.read() == f"{one.server.pid}\n" else "another one"
            try:
                fcntl.flock(file, fcntl.LOCK_EX | fcntl.LOCK_NB)
                came["SOCKET.pid is"] = "free"
            except BlockingIOError:
                came["SOCKET.pid is"] = "locked"
        came["the mode of SOCKET.pid"] = oct(os.stat(path).st_mode)
        second = subprocess.run([*DAEMON, "--shared-dir", one.folder, "--socket-path", one.socket], check=False,
                                capture_output=True, timeout=20)
        came["a second one on the socket"] = "refused" if second.returncode else "served"
        came["and the first one then"] = name_of(one.ask(Op.GETATTR, bytes(16))[0])


WRONG = (
    *(f"--xattrmap={it}" for it in ("", " ", ":", ":ok", ":ok:all", ":ok:all::", ":ok:some:::", ":some:all:::", ":map::a::",
                                    ":map:a:b: :ok:all:::", ":map:a:b::map:c:d:", ":ok:all:::x", ":ok:client:user.::",
                                    ":Ok:all:::")),
    *(f"--translate-{of}={it}" for of in ("uid", "gid")
      for it in ("", "map", "map:1:2", "map:1:2:3:4", "map:1:2:x", "map:1:2:-1", "map::1:2", "some:1:2:3", ":1:2:3",
                 "map:1:2:4294967296", "map:4294967295:0:1", "map:0:4294967295:1", "host:4294967295:1:1",
                 "forbid-guest:1:2:3", "guest:1:2", "map:1:2/3")),
    "--translate-uid=guest:1:2:3 --translate-uid=guest:3:9:1",
    "--translate-uid=host:1:2:3 --translate-uid=map:9:3:1",
    "--translate-uid=map:1:2:3 --translate-uid=forbid-guest:2:1",
    "--translate-uid=map:1:2:3 --posix-acl", "--translate-gid=map:1:2:3 --posix-acl",
    "--tag=", "--tag=" + "t" * 37, "--inode-file-handles=always", "--allow-mmap=1", "--syslog=yes", "--no-such-word",
    "-o no_such_option", "-o xattrmap=:ok:", "--log-level=loud",
)
RIGHT = ("--tag=" + "t" * 36, "--inode-file-handles=fallback", "--log-level=WARN", "--cache=Never", "-d", "-f",
         "--thread-pool-size=100", "-o xattrmap=:map::user.virtiofs.:", "--translate-uid=map|1|2|3", "--writeback",
         "--posix-acl --xattrmap=:map::user.virtiofs.:",
         "--posix-acl --xattrmap=:ok:all:system.posix_acl_:system.posix_acl_::map::user.virtiofs.:",
         "--translate-uid=map:0:0:4294967295 --translate-gid=map:0:0:4294967295",
         "--translate-uid=guest:1:2:3 --translate-uid=host:1:2:3 --translate-uid=guest:4:2:3")


def is_served(server, path):
    """Whether a daemon answers on its socket, asked for features of vhost-user (GET_FEATURES), or ends."""
    until = time.monotonic() + 60
    while server.poll() is None and time.monotonic() < until:
        with socket.socket(socket.AF_UNIX) as one:
            one.settimeout(1)
            try:
                one.connect(path)
                one.sendall(struct.pack("<III", 1, 1, 0))
                if one.recv(100):
                    return True
            except OSError:
                time.sleep(0.005)
    return False


def starts(text):
    """Whether a daemon with these words serves, or refuses them and says what it can't take."""
    given = [text] if text.startswith("--xattrmap") else text.split(" ")
    path = WORK + "/socket"
    with open(WORK + "/said", "w+b") as said:
        server = subprocess.Popen([*DAEMON, *given, "--shared-dir", WORK + "/folder", "--socket-path", path],
                                  stdout=said, stderr=said)
        is_right = is_served(server, path)
        server.terminate()
        server.wait(20)
        if os.path.exists(path):
            os.unlink(path)
        if not is_right:
            said.seek(0)
            what = said.read().decode(errors="replace")
            if HOW == "--known" and given[-1].split("=")[0] not in what:
                raise SystemExit(f"{text} is not named in: {what}")
    return "taken" if is_right else "refused"


def all_words():
    """Which words start a server, and which end it at once."""
    for text in (*WRONG, *RIGHT):
        came[f"word {' '.join(text.split(' '))}"] = starts(text)


def main():
    for part in (options, labels, rules, capabilities, flags, direct, ids, pid_file, all_words):
        part()
    lines = [f"{key}: {value}".replace("\n", " ") for key, value in came.items()]
    if HOW == "--write":
        STORED.write_text("\n".join(lines) + "\n")
        return 0
    wanted = STORED.read_text().splitlines()
    for key, value in KNOWN.items() if HOW == "--known" else ():
        theirs = [it for it in wanted if it.startswith(f"{key}: ")]
        # (what is no case, or no difference, is no longer known)
        wanted[wanted.index(theirs[0])] = f"{key}: {value}" if theirs != [f"{key}: {value}"] else f"{key}: another"
    faults = [f"{here}, and not {there}" for here, there in itertools.zip_longest(lines, wanted) if here != there]
    for fault in faults:
        print(fault, file=sys.stderr)
    print(f"{len(wanted) - len(faults)} of {len(wanted)} came to what they must.")
    return 1 if faults else 0


WORK, HOW, *DAEMON = sys.argv[1:]
sys.exit(main())
