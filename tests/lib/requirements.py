"""What tests require of the machine beside packages: a test with a mark of these names is skipped if it is not here."""
import contextlib
import ctypes
import os
import pathlib
import shutil

import pytest

CLONE_NEWNS, MS_REC, MS_PRIVATE = 0x20000, 0x4000, 0x40000


def setting(path):
    """The text of a file in /proc or /sys, or none if it is not there."""
    with contextlib.suppress(OSError):
        return pathlib.Path(path).read_text().strip()
    return ""


# What a marked test requires: what a person reads, and whether it is here.
REQUIREMENTS = {
    "root": ("requires root", lambda: os.geteuid() == 0),
    "fuse": ("requires root and /dev/fuse", lambda: os.geteuid() == 0 and os.path.exists("/dev/fuse")),
    "io_uring": ("requires FUSE over io_uring: echo Y > /sys/module/fuse/parameters/enable_uring",
                 lambda: setting("/sys/module/fuse/parameters/enable_uring") == "Y"),
    "qemu": ("requires qemu-system-x86_64", lambda: shutil.which("qemu-system-x86_64")),
}


def require(name):
    """Skips the test if something that it requires is not here."""
    reason, is_here = REQUIREMENTS[name]
    if not is_here():
        pytest.skip(reason)


def enter_mount_namespace():
    """Lets nobody else see what root mounts by this process and its children."""
    if os.geteuid() != 0:
        return
    libc = ctypes.CDLL(None, use_errno=True)
    if libc.unshare(CLONE_NEWNS) or libc.mount(b"none", b"/", None, MS_REC | MS_PRIVATE, None):
        raise OSError(ctypes.get_errno(), "cannot enter a mount namespace")
