"""A mount whose file system replies wrongly: the caller gets an error, and the mount goes on (mounted.c)."""
import pytest
from building import find_fuse, run


@pytest.mark.fuse
def test_a_mount_goes_on_after_replies_that_linux_refuses(built):
    run("timeout", "-k", "5", "60", built.compile("tests/programs/mounted.c", *find_fuse(), "-pthread"))
    assert "mounted-" not in open("/proc/self/mounts").read()
