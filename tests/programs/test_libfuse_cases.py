"""libfuse's own tests judge file systems over this layer: its examples of notices, POLL and IOCTL, as libfuse_examples.c
has them, and its passthroughs, for which nizwarf-share is here (passthrough.sh).

The tests are those of Debian's sid, by libfuse's own runner, clients and test_syscalls: tests/compare/suites/get.sh unpacks and
builds them below out/suites. Left out are the cases of CUSE, of libfuse's options of a mount, of its debugging lines, and
of what its source does not build. A passthrough_ll shares a copy of the root without mounts, so cases run in /tmp."""
import platform
import re
import shutil
import subprocess
import sys

import pytest
from building import REPOSITORY, find_fuse, shell

pytestmark = [pytest.mark.fuse, pytest.mark.slow]
SUITES = REPOSITORY / "out/suites"
EXAMPLES = ["ioctl", "poll", "invalidate_path", *(f"notify_{it}" for it in ("inval_inode", "inval_entry", "store_retrieve",
                                                                           "prune"))]
CASES = ["notify/*", *(f"examples/{it}" for it in ("hello-direct", "ioctl", "poll", "passthrough-hp", "passthrough-hp-nocache",
                                                  "passthrough-ll", "passthrough-ll-writeback"))]
# What the runner asks of fusermount3 is to unmount, and of printcap what the kernel can do.
FUSERMOUNT = """#!/bin/sh
[ "$1" != -z ] || { shift && set -- "$@" -l; }
shift
exec umount "$@"
"""


@pytest.fixture(scope="session")
def libfuse():
    """The folder of libfuse's tests, built."""
    SUITES.mkdir(parents=True, exist_ok=True)
    shell('tests/compare/suites/get.sh libfuse "$1" >&2 || { echo "requires libfuse\'s sources of Debian\'s sid" >&2; exit 2; }', SUITES)
    return SUITES / "libfuse"


@pytest.fixture(scope="module")
def file_systems(libfuse, built_with_threads, build_program):
    """libfuse's folder of programs, in which the file systems are those here."""
    folder = built_with_threads.folder / "libfuse"
    shutil.copytree(libfuse / "built", folder, symlinks=True)
    shutil.copy(built_with_threads.compile("tests/programs/libfuse_examples.c", *find_fuse(), "-pthread"), folder / "example/hello")
    for name in EXAMPLES:
        (folder / "example" / name).unlink(missing_ok=True)
        (folder / "example" / name).symlink_to("hello")
    # (the filter of system calls lacks those of a sanitizer)
    sanitized = any("sanitize" in it for it in built_with_threads.flags)
    share = build_program("share", "nizwarf_codec", *built_with_threads.flags * sanitized)
    options = "--sandbox=none --seccomp=none" if sanitized else ""
    # (EXPIRE_ONLY came with Linux 6.2)
    version = tuple(int(it) for it in re.findall(r"\d+", platform.release())[:2])
    able = ["WRITEBACK_CACHE", *["EXPIRE_ONLY"] * (version >= (6, 2))]
    passthrough = f'#!/bin/sh\nexec "{REPOSITORY}/tests/programs/passthrough.sh" "{share}" "$0" {options} "$@"\n'
    for name, text in {"util/fusermount3": FUSERMOUNT, "example/passthrough_ll": passthrough,
                       "example/passthrough_hp": passthrough,
                       "example/printcap": "#!/bin/sh\n" + "".join(f"echo '\tFUSE_CAP_{it}'\n" for it in able)}.items():
        (folder / name).unlink(missing_ok=True)
        (folder / name).write_text(text)
        (folder / name).chmod(0o755)
    return folder


@pytest.mark.parametrize("case", CASES)
def test_a_case_of_libfuse_passes(libfuse, file_systems, scratch_in_tmp, case):
    for attempt in ("first", "second"):
        ran = subprocess.run([sys.executable, "-B", libfuse / "test/run-tests.py", "-j", "2", "--build-dir", file_systems,
                              "--run-dir", scratch_in_tmp / attempt, "--keep-logs", f"--test={case}"], stdout=subprocess.PIPE,
                             stderr=subprocess.STDOUT, text=True, timeout=900)
        shown = ran.stdout + "".join(it.read_text(errors="replace") for it in scratch_in_tmp.glob("*/**/logs/*.out"))
        assert not re.search("Sanitizer|runtime error", shown), shown
        # (a name that changes each second may be gone before a slow machine looks: so there is one more try)
        if not ran.returncode:
            break
    assert ran.returncode == 0, shown
    assert re.search(r"^[1-9]\d* tests: ", ran.stdout, re.M), ran.stdout
