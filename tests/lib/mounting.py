"""A mount that a program of a test serves."""
import contextlib
import os
import subprocess
import time

from building import run


@contextlib.contextmanager
def mounted(point, *command, seconds=60, status=0, **more):
    """Starts a server that mounts on a directory, and unmounts it after the block; then the server must end with this status,
    or with any one if it is None."""
    server = subprocess.Popen(command, stdin=subprocess.DEVNULL, **more)
    try:
        until = time.monotonic() + seconds
        while not os.path.ismount(point):
            assert server.poll() is None and time.monotonic() < until, f"{command[0]} mounts nothing"
            time.sleep(0.02)
        yield server
        run("umount", point)
        assert server.wait(seconds) == status or status is None
        assert not os.path.ismount(point)
    finally:
        server.kill()
        server.wait()
