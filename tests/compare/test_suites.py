"""Suites that others wrote come to the same on a file system here as on the one beside it, but for suites/reasons.txt.

What a suite requires and the machine does not have, apt-get downloads, and it is unpacked below out/suites and never
installed: 250 MB. coreutils is built there, in some minutes. A suite that cannot be had is skipped. All that it prints, and
what each of its cases came to, is in out/suites/logs. A server must end well, with nothing left of what the suite made.

With --quick a suite has fewer cases, and --jobs says on how many file systems it runs at once (1). Environment variables:
SUITES_OPTIONS are options of nizwarf-share or nizwarf-mount, SUITES_ON is a directory whose file system is shared instead of
a tmpfs, SUITES_SANITIZER names a sanitizer with which the server is built, as address,undefined or thread, and SUITES_FOLDERS
are two directories to compare, with a colon between them."""
import os
import pathlib
import subprocess
import sys

import pytest
from building import REPOSITORY, built_program, run, shell
from requirements import setting

OUT = REPOSITORY / "out/suites"
LOGS = OUT / "logs" / str(os.getpid())
CONNECTIONS = "/sys/fs/fuse/connections"
sys.path.append(str(pathlib.Path(__file__).resolve().parent / "suites"))
import suites  # noqa: E402

OPTIONS = os.environ.get("SUITES_OPTIONS", "").split()
SANITIZER = [it for name in [os.environ.get("SUITES_SANITIZER")] if name
             for it in ("-g", "-O1", f"-fsanitize={name}", "-fno-sanitize-recover=all")]
FOLDERS = os.environ.get("SUITES_FOLDERS", "")
ALL = [it for it in suites.ABOUT if it not in suites.TWO]
# libfuse's passthrough programs open a descriptor for each file, so they may have as many as there can be.
MANY_FILES = ["bash", "-c", 'ulimit -n "$(ulimit -Hn)"; exec "$@"', "bash"]
PASSTHROUGH = {"passthrough_ll": ["-f", "-o", "allow_other,default_permissions,suid,dev,xattr,source=FOLDER", "MOUNT"],
               "passthrough_hp": ["--foreground", "FOLDER", "MOUNT"]}
pytestmark = [pytest.mark.fuse, pytest.mark.slow]


def get(name):
    """Downloads and builds what a suite or a server needs, or skips the test."""
    LOGS.mkdir(parents=True, exist_ok=True)
    shell('quietly "$1" tests/compare/suites/get.sh "$2" "$3" || { echo "requires $2, which cannot be had: see $1" >&2; exit 2; }',
          LOGS / f"get-{name}", name, OUT)


@pytest.fixture
def compare(request, scratch):
    """Compares a suite on several file systems: compare(SUITE, (NAME, KIND, HOW, WORD..)..), as suites.Column has them."""
    quick, jobs = request.config.getoption("--quick"), request.config.getoption("--jobs") or 1
    place, there = scratch / "run", scratch / "there"
    for it in (place, there):
        it.mkdir()
    # (suites.py aborts a connection there on which something hangs)
    if not os.path.ismount(CONNECTIONS):
        subprocess.run(["mount", "-t", "fusectl", "none", CONNECTIONS], stderr=subprocess.DEVNULL)

    def run_suite(suite, *columns):
        get(suite)
        # (others than root look there too, wherever the repository is)
        run("mount", "--bind", OUT, there)
        made = [suites.Column(place / f"column{at}", *column) for at, column in enumerate(columns)]
        print(f"Linux {os.uname().release}, {suite} {setting(OUT / f'have-{suite}')}")
        assert not suites.run_all(suite, made, suites.Options(there, LOGS, quick, jobs))

    on = os.environ.get("SUITES_ON")
    below = pathlib.Path(on, f"nizwarf-suites-{os.getpid()}") if on else None
    if below:
        below.mkdir()
    run("mount", *(["--bind", below] if below else ["-t", "tmpfs", "-o", "mode=755", "none"]), place)
    # (a suite has a namespace with copies of the mounts: what is unmounted here is unmounted there)
    run("mount", "--make-shared", place)
    yield run_suite
    if below:
        run("umount", "-l", place)
        run("rm", "-rf", "--one-file-system", below)


@pytest.mark.parametrize("suite", ALL)
def test_the_tree_is_as_a_tmpfs(compare, suite):
    tree = built_program("mount", "nizwarf_tree", *SANITIZER)
    compare(suite, ("tmpfs", "tmpfs", "tmpfs"),
            ("the tree", "fuse.nizwarf", "mount", tree, "-o", "allow_other", *OPTIONS, "MOUNT"))


@pytest.mark.parametrize("suite", suites.ABOUT)
def test_a_shared_directory_is_as_the_directory(compare, suite):
    share = built_program("share", "nizwarf_codec", *SANITIZER)
    # (the filter of system calls lacks those of a sanitizer)
    common = [share, "-o", "allow_other,suid,dev", "--xattr", "--log-level=warn",
              *["--sandbox=none", "--seccomp=none"] * bool(SANITIZER)]
    ways = {"share, 1 worker": ["--thread-pool-size=1"], "share, 4 workers": ["--thread-pool-size=4"],
            "share, writeback": ["--thread-pool-size=4", "--writeback"]}
    if OPTIONS:
        ways = {f"share {' '.join(OPTIONS)}": OPTIONS}
    compare(suite, ("the folder", "folder", "bare"),
            *((name, f"fuse.nizwarf-share {name}", "mount", *common, *options, "FOLDER", "MOUNT") for name, options in ways.items()))


@pytest.fixture(scope="module")
def libfuse():
    """The folder of libfuse's library over this layer, and of its own, with their examples, but for the end of its name."""
    for kind in ([], ["--unmodified"]):
        shell('tools/libfuse.sh --all "$@" >&2', *kind)
    return f"{REPOSITORY}/out/libfuse/{shell('. /etc/os-release; echo $VERSION_CODENAME')}"


@pytest.mark.parametrize("suite", ALL)
@pytest.mark.parametrize("program", PASSTHROUGH)
def test_libfuse_over_this_layer_is_as_libfuse(compare, libfuse, suite, program):
    compare(suite, *((name, f"fuse.{program}", "mount", "env", f"LD_LIBRARY_PATH={libfuse}-{kind}/build/lib", *MANY_FILES,
                      f"{libfuse}-unmodified/build/example/{program}", *PASSTHROUGH[program])
                     for name, kind in ((program, "unmodified"), ("over this layer", "nizwarf"))))


@pytest.mark.skipif(not FOLDERS, reason="requires two directories in SUITES_FOLDERS")
@pytest.mark.parametrize("suite", suites.ABOUT)
def test_a_directory_is_as_another_one(compare, suite):
    compare(suite, *((it, shell('kind_of "$1"', it), "folder", os.path.realpath(it)) for it in reversed(FOLDERS.split(":"))))
