#!/usr/bin/env python3
"""Connects to what serves a directory, as a machine does, for inside.sh: a user makes a file, and root no device.

connected.py SOCKET FOLDER: the vhost-user socket, and the directory that is served. Status 0: each came to what it must."""
import errno
import os
import pathlib
import stat
import sys

sys.path.append(str(pathlib.Path(__file__).resolve().parents[2] / "lib"))
from file_operations import Op, record  # noqa: E402
from vhost_user import FrontEnd  # noqa: E402

SOCKET, FOLDER = sys.argv[1:]
with FrontEnd(SOCKET) as client:
    client.init()
    # (the set-user-ID bit stays)
    node, handle = client.create(b"file", mode=stat.S_IFREG | 0o4755, uid=1000, gid=1000)
    client.write(node, handle, b"text\n")
    seen = os.stat(FOLDER + "/file")
    assert (seen.st_uid, seen.st_gid, stat.S_IMODE(seen.st_mode), seen.st_size) == (1000, 1000, 0o4755, 5), seen
    # (the first disk)
    device = record(Op.MKNOD, mode=stat.S_IFBLK | 0o600, rdev=os.makedev(8, 0)) + b"disk\0"
    assert client.ask(Op.MKNOD, device)[0] == errno.EPERM
