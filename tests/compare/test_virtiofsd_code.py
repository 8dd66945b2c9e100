"""The programs here reply and call as virtiofsd's own code does (virtiofsd_code/README.md).

The code is that of Debian's package of virtiofsd's source, or in the folder of the environment variable VIRTIOFSD_SOURCE.
It is built in out/oracle. WRONG_BODIES has a part of the lines of wrong-bodies.txt that are tried, if not all are."""
import os
import pathlib
import re
import subprocess
import sys

import pytest
from building import REPOSITORY, judge, need, run, shell

HERE = pathlib.Path(__file__).resolve().parent / "virtiofsd_code"
# So many words in a row are no accident; shorter runs are in any two programs of the same protocol.
RUN = 12
pytestmark = pytest.mark.slow


@pytest.fixture(scope="module")
def source():
    """The options by which build.sh finds virtiofsd's source."""
    return [it for folder in [os.environ.get("VIRTIOFSD_SOURCE")] if folder for it in ("--source", folder)]


@pytest.fixture(scope="module")
def code(source):
    """The folder of the programs `raw`, `mended` and `later`, which are built of virtiofsd's code."""
    need("rustc", "rustc")
    shell('tests/compare/virtiofsd_code/build.sh "$@" >&2', *source)
    return REPOSITORY / "out/oracle"


@pytest.mark.parametrize("program", ["raw", "mended", "later"])
def test_the_faults_of_virtiofsds_code_are_there_and_mended(code, program):
    for text in (HERE / "differences.txt").read_text().split("\nfiles ")[1:]:
        files, *lines = text.splitlines()
        parts = [line.split(None, 1) for line in lines if line and not line.startswith("#")]
        requests = "".join(f"{rest}\n" for kind, rest in parts if kind == "line")
        said = {it: [rest for kind, rest in parts if kind == it] for it in ("raw", "mended", "later")}
        # (`later` replies as `mended` does if nothing else is said)
        wanted = said[program] or (program == "later" and said["mended"])
        ran = subprocess.run([code / program, files], input=requests, stdout=subprocess.PIPE, text=True, timeout=60)
        # (lines that are indented are calls)
        assert [line for line in ran.stdout.splitlines() if not line.startswith("  ")] == wanted


def test_requests_come_to_the_replies_and_calls_of_virtiofsds_code(code, requests, seed, jobs):
    programs = shell('build_programs "$@"; for it in "$@"; do path_of "$it"; done', "test_sessions", "vfs_demo").split()
    judge(sys.executable, "-B", HERE / "compare.py", str(seed), str(requests(1000000)), str(jobs), code / "later", *programs)


def test_such_requests_reveal_each_wrong_body_of_virtiofsds_code(code, requests, seed, jobs, tmp_path):
    judge(sys.executable, "-B", HERE / "sharpness.py", str(seed), str(requests(40000)), str(jobs), code, tmp_path,
          os.environ.get("WRONG_BODIES", ""))


def test_no_line_of_the_repository_is_virtiofsds(code):
    def runs(line):
        words = re.findall(r"\w+", line)
        return (tuple(words[at:at + RUN]) for at in range(len(words) - RUN + 1))

    sys.path.append(str(HERE))
    import edits
    source = pathlib.Path((code / "built").read_text().splitlines()[0])
    theirs = {it for text in edits.read_source(source).values() for it in runs(text)}
    names = run("git", "ls-files", "-z", "--cached", "--others", "--exclude-standard", cwd=REPOSITORY).split("\0")
    found = []
    for name in names:
        # (licences are the same words everywhere)
        if not (REPOSITORY / name).is_file() or name.startswith("LICENSE"):
            continue
        text = (REPOSITORY / name).read_bytes().decode("latin-1")
        for number, line in enumerate(text.split("\n"), 1):
            # (methods of the crate's trait have virtiofsd's names and arguments, as NOTICE.md says; long ones have
            # lines of arguments alone)
            is_method = name.startswith("bindings/rust/src/") and re.fullmatch(
                r"\s*(fn .*[;{]|(&(mut )?self, )?(\w+: [^=(){};]*,)+)", line)
            # (the texts in edits.py have the end of a line as two signs)
            if not is_method and not theirs.isdisjoint(runs(line.replace("\\n", " "))):
                found.append(f"{name}:{number}: {line.strip()[:200]}")
    assert len(names) > 100 and not found
