"""File systems here come to the same as a tmpfs at random: errors, attributes, which times move, contents, listings.

Calls are those of root and of others, on names, descriptors and maps; requests are those of a kernel. The size and blocks of
a directory are not compared, nor by calls times of access, because a kernel reads by itself what it keeps. What is known
to differ has a row in tmpfs/known.txt. Of another difference the smallest sequence that shows it is printed. tmpfs/mirror.py
compares any two directories."""
import pathlib
import sys

import pytest
from building import find_library, judge, run
from mounting import mounted

HERE = pathlib.Path(__file__).resolve().parent / "tmpfs"
# What the kernel does with what is written.
CACHES = ["write-through", "writeback"]
pytestmark = [pytest.mark.root, pytest.mark.slow]


@pytest.fixture
def tmpfs(scratch):
    """A new tmpfs with two directories, beside an empty one to mount on."""
    for it in ("mount", "tmpfs"):
        (scratch / it).mkdir()
    run("mount", "-t", "tmpfs", "-o", "mode=755", "none", scratch / "tmpfs")
    for it in ("beside", "shared"):
        (scratch / "tmpfs" / it).mkdir()
    return scratch / "tmpfs"


@pytest.fixture
def compare(requests, seed, tmpfs):
    """Compares another place with a directory of the tmpfs, by calls or by requests: compare("calls", KIND, PLACE)."""
    def run_mirror(way, kind, place):
        judge(sys.executable, "-B", HERE / "mirror.py", way, kind, str(seed), str(requests(20000)), HERE / "known.txt", place,
              tmpfs / "beside")

    return run_mirror


def test_requests_to_the_library_over_the_tree(compare, tmp_path):
    *_, archive, code = find_library("nizwarf_tree")
    run("cc", "-shared", "-o", tmp_path / "library.so", "-Wl,--whole-archive", archive, "-Wl,--no-whole-archive", code)
    compare("requests", "library", tmp_path / "library.so")


@pytest.mark.fuse
@pytest.mark.parametrize("options", ["", "writeback"], ids=CACHES)
def test_calls_on_a_mount_of_the_tree(compare, tmpfs, tree_mount, options):
    # (no device is opened there either)
    run("mount", "-o", "remount,nodev", tmpfs)
    point = tmpfs.parent / "mount"
    with mounted(point, tree_mount, "-o", "allow_other,size=1g" + f",{options}" * bool(options), point):
        compare("calls", f"fuse.nizwarf {options}", point)


@pytest.mark.fuse
@pytest.mark.parametrize("options", [[], ["--writeback"]], ids=CACHES)
def test_calls_on_a_shared_directory_of_a_tmpfs(compare, tmpfs, share, options):
    point = tmpfs.parent / "mount"
    with mounted(point, share, "-o", "allow_other,suid,dev", "--xattr", "--log-level=warn", *options, tmpfs / "shared", point):
        compare("calls", f"fuse.nizwarf-share {' '.join(options)}", point)
