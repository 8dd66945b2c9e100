"""What all tests in pytest share: the libraries for C, programs that are compiled with them, and a new directory.
nizwarf-share is built once, or is that of the environment variable NIZWARF_SHARE, such as one with a sanitizer.

A proved library is taken if it is built and no source is newer. Otherwise tools/lib/unproved.sh builds one without a
proof, in a minute. With --prove the libraries are proved first, which takes up to half an hour. A run in which no test
passed is no success, because it judged nothing."""
import os
import pathlib
import subprocess
import sys
import tempfile

import pytest
from building import ADDRESS, PLAIN, REPOSITORY, THREAD, Built, built_program, find_library, run
from requirements import REQUIREMENTS, require, setting

sys.dont_write_bytecode = True


def pytest_addoption(parser):
    parser.addoption("--prove", action="store_true", help="prove the libraries for C before their tests")
    parser.addoption("--requests", type=int, metavar="N", help="how many requests a test of tests/compare generates")
    parser.addoption("--seed", type=int, default=1, metavar="N", help="by which they are generated")
    parser.addoption("--quick", action="store_true", help="fewer cases of the suites of tests/compare")
    parser.addoption("--jobs", type=int, metavar="N", help="how many processors a test of tests/compare uses")


def pytest_configure(config):
    """Declares the marks of what tests require."""
    for name, (reason, _) in REQUIREMENTS.items():
        config.addinivalue_line("markers", f"{name}: {reason}")
    config.addinivalue_line("markers", "sanitizers: tests/share/check.sh runs it with sanitizers too")


def pytest_runtest_setup(item):
    for name in REQUIREMENTS:
        if item.get_closest_marker(name):
            require(name)


def pytest_sessionfinish(session, exitstatus):
    """Ends with the status of a run without tests if each of them was skipped."""
    reporter = session.config.pluginmanager.get_plugin("terminalreporter")
    if exitstatus == 0 and not session.config.option.collectonly and not reporter.stats.get("passed"):
        session.exitstatus = pytest.ExitCode.NO_TESTS_COLLECTED


@pytest.fixture(scope="session")
def libraries(request):
    """The libraries nizwarf_codec and nizwarf_tree, each by its C files and its static library, and the C code that both need."""
    if request.config.getoption("--prove", False):
        for name in ("nizwarf_tree", "nizwarf_codec", "nizwarf_border"):
            run("rt", "lib", cwd=REPOSITORY / "crates" / name, seconds=3600)
    return [*find_library("nizwarf_codec")[:-1], *find_library("nizwarf_tree")]


@pytest.fixture(scope="session")
def share():
    """The path of nizwarf-share."""
    return os.environ.get("NIZWARF_SHARE") or built_program("share", "nizwarf_codec")


@pytest.fixture(scope="session")
def tree_mount():
    """The path of nizwarf-mount, which mounts a tree in memory."""
    return built_program("mount")


@pytest.fixture(scope="session")
def tree_vhost():
    """The path of nizwarf-vhost, which serves such a tree on a vhost-user socket."""
    return built_program("vhost")


@pytest.fixture(scope="session")
def build_program():
    """Builds a program with flags of the compiler: build_program(NAME, LIBRARY, FLAG..) returns its path."""
    return built_program


def built_with(request):
    """The fixture's programs, which are compiled with the flags of its parameter."""
    folder = request.getfixturevalue("tmp_path_factory").mktemp("built")
    built = Built(folder, request.getfixturevalue("libraries"), request.param)
    if not built.has_flags():
        pytest.skip(f"the compiler lacks {' '.join(request.param)}")
    return built


@pytest.fixture(scope="session", params=[PLAIN, pytest.param(ADDRESS, marks=pytest.mark.slow)], ids=["plain", "address"])
def built(request):
    """Programs that are compiled plainly, and with the sanitizers of addresses and of undefined behaviour."""
    return built_with(request)


@pytest.fixture(scope="session", ids=["plain", "address", "thread"],
                params=[PLAIN, *(pytest.param(it, marks=pytest.mark.slow) for it in (ADDRESS, THREAD))])
def built_with_threads(request):
    """The same, and with the sanitizer of threads too."""
    return built_with(request)


@pytest.fixture
def scratch():
    """A new directory for sockets and mount points, in memory if there is a file system in memory."""
    yield from new_directory("/dev/shm" if os.path.isdir("/dev/shm") else None)


@pytest.fixture
def scratch_in_tmp():
    """The same in /tmp, which is often on the file system of the root."""
    yield from new_directory("/tmp")


def new_directory(parent):
    """Makes a directory, yields its path, and removes it with all that is mounted below."""
    path = pathlib.Path(tempfile.mkdtemp(dir=parent))
    # (servers that change their user look below it)
    path.chmod(0o755)
    yield path
    # (nothing that is mounted there may lose its files: what cannot be unmounted stays)
    below = [line.split()[1] for line in setting("/proc/self/mounts").splitlines() if f" {path}/" in line]
    for it in reversed(below):
        subprocess.run(["umount", "-l", it], stderr=subprocess.DEVNULL, timeout=30)
    subprocess.run(["rm", "-rf", "--one-file-system", path], timeout=30)
