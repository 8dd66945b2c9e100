#!/usr/bin/env python3
"""Moves a session from one virtiofsd to another by the daemon's own state, as QEMU migrates a machine with a mounted share,
and goes on with nodes and handles of before.

Usage: migrated.py FOLDER REPLACED THEIRS..
REPLACED is the daemon with the layer here, and THEIRS are the words that start virtiofsd. Each
gets a session from each, in both modes of --migration-mode, over a folder made in FOLDER. What virtiofsd forgets as it
migrates is the groups and the longer record of SETXATTR that INIT agreed on; the one with the layer here must not.
Status 0: all came to what they must; 1: not so.
"""
import errno
import os
import struct
import sys
import tempfile

import daemon
from shapes import Op, record

# (a file is found by its handle with this capability alone)
WORDS = ["--sandbox", "none", "--seccomp", "none", "--xattr", "--posix-acl", "--log-level", "error",
         "--modcaps=+dac_read_search"]
MODES = "find-paths", "file-handles"
USER, GROUP = 1000, 2000


class Daemon(daemon.Daemon):
    """A daemon over a folder, and what asks it."""

    def __init__(self, at, name, words, mode, state=None):
        words = [*words, "--socket-path", "SOCKET", "--shared-dir", "SHARE", f"--migration-mode={mode}", *WORDS]
        super().__init__(words, f"{at}/{name}", f"{at}/share", state=state)


def written(path):
    with open(path, "rb") as file:
        return file.read()


def names_of(items):
    """The names in the records of a directory, and the offset after the last."""
    found, at, offset = set(), 0, 0
    while at + 24 <= len(items):
        offset, length = struct.unpack_from("<QI", items, at + 8)
        found.add(items[at + 24:at + 24 + length])
        at += 24 + (length + 7 & ~7)
    return found, offset


def listed(client, node, handle):
    """The names of a directory that is read to its end: it may have more than one reply has room for."""
    found, offset = set(), 0
    while items := client.read(node, handle, 4000, offset, Op.READDIR):
        more, offset = names_of(items)
        found |= more
    return found


def begin(client, folder):
    """A session of the source: nodes and handles by name."""
    # (all options of `flags`, and those of `flags2` with groups)
    client.init()
    had = {"d": client.lookup(b"d")}
    had["d opened"] = client.open(had["d"], os.O_DIRECTORY)
    had["file"] = client.lookup(b"file", had["d"])
    had["file opened"] = client.open(had["file"])
    had["made"], had["made opened"] = client.create(b"made", had["d"])
    client.write(had["file"], had["file opened"], b"abc", 10)
    if written(folder + "/d/file") != b"0123456789abc":
        raise OSError("WRITE wrote something else")
    return had


def go_on(client, had, folder, is_here, mode):
    """What differs from what it must be, once the target goes on. A request that must succeed raises its error."""
    faults, name = [], "file"

    def hold(what, came, wanted):
        if came != wanted:
            faults.append(f"{what}: {came} and not {wanted}")

    def opened(of):
        return had[of], had[of + " opened"]

    if mode == "file-handles":
        # (a handle is of the file, wherever that is)
        name = "moved"
        os.rename(folder + "/d/file", folder + "/d/moved")
    hold("READ", client.read(*opened("file")), b"0123456789abc")
    hold("WRITE", client.write(*opened("file"), b"def", 13), 3)
    hold("what was written", written(f"{folder}/d/{name}"), b"0123456789abcdef")
    hold("WRITE to what was made", client.write(*opened("made"), b"made"), 4)
    hold("what was made", written(folder + "/d/made"), b"made")
    hold("GETATTR", struct.unpack_from("<Q", client.getattr(had["file"]), 8)[0], 16)
    hold("LOOKUP", client.lookup(name.encode(), had["d"]), had["file"])
    hold("READDIR", listed(client, *opened("d")) >= {b".", b"..", name.encode(), b"made", b"other"}, True)
    hold("a new node has a number of its own", client.lookup(b"other", had["d"]) in had.values(), False)
    # A user whose group alone may write there, as the extension says.
    groups = struct.pack("<IIII", 16, 32, 1, GROUP)
    made = client.ask(Op.MKDIR, record(Op.MKDIR, mode=0o755) + b"new\0" + groups, had["d"], uid=USER, gid=USER, extensions=2)
    hold("MKDIR by a group", made.error, 0 if is_here else errno.EACCES)
    if is_here:
        client.expect(Op.SETXATTR, struct.pack("<IIII", 1, 0, 0, 0) + b"user.a\0v", had["file"])
        hold("SETXATTR", os.getxattr(f"{folder}/d/{name}", "user.a"), b"v")
    for of in ("file", "made"):
        client.release(*opened(of))
    client.release(*opened("d"), Op.RELEASEDIR)
    released = record(Op.READ, handle=had["file opened"], size=1)
    hold("READ of what is released", client.ask(Op.READ, released, had["file"]).error, errno.EBADF)
    # The machine starts again.
    client.init()
    client.lookup(b"d")
    return faults


def fill(at):
    """Makes the folder that is shared, and returns its path."""
    folder = at + "/share"
    os.makedirs(folder + "/d")
    # (the user of MKDIR goes through it)
    os.chmod(at, 0o755)
    for name, data in (("file", b"0123456789"), ("other", b"")):
        with open(f"{folder}/d/{name}", "wb") as file:
            file.write(data)
    os.chown(folder + "/d", 0, GROUP)
    os.chmod(folder + "/d", 0o770)
    return folder


def migrate(mode, source_words, target_words, is_here):
    """What differs once a session is moved."""
    with tempfile.TemporaryDirectory(dir=FOLDER) as at:
        folder = fill(at)
        source = Daemon(at, "source", source_words, mode)
        target = None
        try:
            had = begin(source.asking, folder)
            state = source.asking.leave()
            if state is None:
                return ["the source does not save its state"]
            target = Daemon(at, "target", target_words, mode, state)
            return go_on(target.asking, had, folder, is_here, mode)
        except OSError as error:
            return [str(error)]
        finally:
            source.end()
            if target:
                target.end()


def main():
    """Moves sessions in each mode from each daemon to each."""
    faults = 0
    for mode in MODES:
        for source, target in ((True, True), (True, False), (False, True), (False, False)):
            name = f"--migration-mode={mode}, from {'here' if source else 'virtiofsd'} to {'here' if target else 'virtiofsd'}"
            found = migrate(mode, *(REPLACED if here else THEIRS for here in (source, target)), target)
            faults += len(found)
            print(f"{name}: {'; '.join(found) or 'goes on'}", flush=True)
    return int(faults > 0)


if __name__ == "__main__":
    FOLDER, *REPLACED = sys.argv[1:3]
    THEIRS = sys.argv[3:]
    sys.exit(main())
