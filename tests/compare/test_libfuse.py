"""libfuse's library over this layer, which tools/libfuse.sh builds in out/libfuse, is as libfuse's own.

Environment variables: LIBFUSE_SUITE is the suite of Debian whose libfuse it is, as sid, if not the machine's own;
LIBFUSE_CLEAN, if it is not empty, has all this run on a new Debian 12 too, which takes 20 minutes, and stays if it is `keep`."""
import os
import pathlib
import re
import subprocess
import sys
import tempfile

import pytest
from building import REPOSITORY, judge, need, run, shell
from mounting import mounted

HERE = pathlib.Path(__file__).resolve().parent / "libfuse"
FOLDER = REPOSITORY / "out/libfuse"
OWN = shell(". /etc/os-release; echo $VERSION_CODENAME")
SUITE = os.environ.get("LIBFUSE_SUITE") or OWN
SANITIZED = ["-fsanitize=address", "-fsanitize=undefined", "-fno-sanitize-recover=undefined"]
PROGRAMS = re.findall(r"^([a-z]\S*) \|", (HERE / "programs.txt").read_text(), re.M)
# What each of four processes does at once in the mount `mnt` of the directory `src`.
WORK = """for i in 1 2 3 4 5; do
    ls -l mnt > "list.$0" 2>&1 || true # (another one removes names meanwhile)
    cmp mnt/large src/large
    for j in $(seq 30); do echo x > "mnt/new.$0.$j"; rm "mnt/new.$0.$j"; done
done"""
pytestmark = [pytest.mark.fuse, pytest.mark.slow]


def library(*options):
    """Builds a library of libfuse, and returns the folder that has it."""
    return pathlib.Path(shell('tools/libfuse.sh --suite "$@"', SUITE, *options, FOLDER))


@pytest.fixture(scope="module")
def ours():
    """The folder of the library over this layer."""
    return library()


@pytest.fixture(scope="module")
def theirs():
    """The folder of libfuse's own library."""
    return library("--unmodified")


@pytest.fixture
def compile_with_layer(ours, tmp_path):
    """Compiles a source with that of libfuse over this layer: compile_with_layer(SOURCE, FLAG..) returns the program."""
    def compile_one(source, *flags):
        shell('find_library nizwarf_codec; compile_libfuse "$@"', FOLDER, SUITE, source, tmp_path / "program", *flags)
        return tmp_path / "program"

    return compile_one


def test_both_libraries_have_the_same_symbols_and_are_linked_with_the_same(ours, theirs):
    def symbols(folder):
        file = next(it for it in folder.glob("libfuse3.so.*") if it.suffix != ".new")
        names = [line.split(maxsplit=1)[1] for line in run("nm", "-D", "--defined-only", file).splitlines()]
        return sorted(names), sorted(re.findall(r"\((SONAME|NEEDED)\).*\[(.*)\]", run("readelf", "-d", file)))

    assert symbols(ours) == symbols(theirs) and all(symbols(theirs))


def test_a_wrong_answer_of_a_file_system_comes_to_its_caller_alone(compile_with_layer):
    judge(compile_with_layer(HERE / "wrong.c", *SANITIZED), "answers")


@pytest.mark.parametrize("refused", ["memory", "keys"])
def test_nothing_is_lost_when_allocations_are_refused(compile_with_layer, refused):
    judge(compile_with_layer(HERE / "wrong.c", "-DREFUSE"), refused)


def test_requests_that_other_threads_answer_race_with_nothing(compile_with_layer):
    judge(compile_with_layer(HERE / "wrong.c", "-fsanitize=thread"), "threads")


def test_four_processes_in_a_mount_race_with_nothing_of_this_layer(compile_with_layer, ours, tmp_path):
    program = compile_with_layer(FOLDER / f"{SUITE}-nizwarf/tree/example/passthrough_ll.c", "-fsanitize=thread")
    for it in ("mnt", "src"):
        (tmp_path / it).mkdir()
    for i in range(100):
        (tmp_path / f"src/{i}").write_text(f"{i}\n")
    (tmp_path / "src/large").write_bytes(os.urandom(3000000))
    # (the sanitizer's status is 66 if it has reports, of which some are libfuse's own: another worker reads INIT's options)
    with mounted(tmp_path / "mnt", program, "-f", "-o", f"source={tmp_path}/src,cache=never", tmp_path / "mnt", status=None,
                 env={**os.environ, "TSAN_OPTIONS": f"log_path={tmp_path}/report"}):
        workers = [subprocess.Popen(["bash", "-euc", WORK, str(it)], cwd=tmp_path) for it in range(4)]
        assert [it.wait(300) for it in workers] == [0] * 4
    reports = "".join(it.read_text() for it in tmp_path.glob("report*"))
    assert not re.findall(r"^SUMMARY.*/(?:requests|replies|notices|codec|listings|interrupts)\.h.*", reports, re.M)


@pytest.mark.parametrize("program", PROGRAMS)
def test_a_program_that_links_libfuse_shows_and_writes_the_same_tree(ours, program):
    suite = ["--suite", SUITE] * (SUITE != OWN)
    for lib in ("-", ours):
        print(shell('tests/compare/libfuse/programs.sh "$@"', *suite, lib, FOLDER / "programs", program))


@pytest.mark.parametrize("suite", ["portal", "rofiles", "nbdfuse", "raw", "qcow2", "bindfs", "overlay"])
def test_tests_of_programs_that_link_libfuse_come_to_the_same(ours, suite):
    if (suite in ("bindfs", "overlay")) != (SUITE == "sid"):
        pytest.skip(f"requires LIBFUSE_SUITE={'' if SUITE == 'sid' else 'sid'}")
    print(shell('tests/compare/libfuse/others.sh "$@"', ours, FOLDER, suite, seconds=7200))


def test_libfuses_own_tests_pass_as_with_its_own_library():
    need("fusermount3", "fuse3")
    library("--all")
    library("--unmodified", "--all")

    def run_tests(kind, names=()):
        """What each case came to, of all or of those that are named."""
        tree, build = (FOLDER / f"{SUITE}-{kind}" / it for it in ("tree", "build"))
        # (the name of a socket at the end of such a path twice over has room for 107 bytes)
        with tempfile.TemporaryDirectory() as short:
            if (tree / "test/run-tests.py").exists():
                command = [sys.executable, tree / "test/run-tests.py", "--build-dir", build, "--run-dir", f"{short}/run", "-j", "2",
                           *(f"-t{it}" for it in names)]
                form = r"^\+ +[0-9.]+s (PASS|FAIL|SKIP) +(\S+) "
            else:
                command = ["/usr/bin/python3", "-m", "pytest", "-p", "no:cacheprovider", "--maxfail=1000", "-rA", *(names or ["test/"])]
                form = r"^(PASS|FAIL)ED (\S+)"
            ran = subprocess.run(["unshare", "-m", "--propagation", "private", *command], cwd=build, stdout=subprocess.PIPE,
                                 stderr=subprocess.STDOUT, text=True, timeout=3600, env={**os.environ, "TMPDIR": short})
        print(ran.stdout)
        return {case: came for came, case in re.findall(form, ran.stdout, re.M)}

    wanted, came = run_tests("unmodified"), run_tests("nizwarf")
    failed = [it for it in came if (came[it], wanted.get(it)) == ("FAIL", "PASS")]
    # (many go by the clock)
    for _ in range(2 * bool(failed)):
        again = run_tests("nizwarf", failed)
        failed = [it for it in failed if again.get(it) == "FAIL"]
    assert wanted and came and not failed


@pytest.mark.skipif(not os.environ.get("LIBFUSE_CLEAN"), reason="requires LIBFUSE_CLEAN=yes")
def test_all_this_passes_on_a_new_debian():
    judge(HERE / "clean.sh", *["--keep"] * (os.environ["LIBFUSE_CLEAN"] == "keep"), seconds=7200)
