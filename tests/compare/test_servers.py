"""Servers of FUSE that others wrote, beside the server here: hostile sessions, virtiofsd's options, and virtiofsd over this layer.

apt-get downloads the others and what builds them by lists of its own, into out/beside and out/virtiofsd, and installs nothing:
1.5 GB until they are built. Environment variables: SERVERS_SUITE is the suite of Debian whose servers they are, if not sid
for hostile sessions and trixie for virtiofsd; SERVERS has a part of the names of the servers that get them, if not all do.
WORDS=--write has virtiofsd's replies written to tests/share/words.txt."""
import gzip
import os
import pathlib
import re
import shutil
import subprocess
import sys

import pytest
from building import REPOSITORY, STRICT, built_program, find_library, judge, run, shell

HERE = pathlib.Path(__file__).resolve().parent / "servers"
OUT, VIRTIOFSD = REPOSITORY / "out/beside", REPOSITORY / "out/virtiofsd"
SUITE, ONLY = os.environ.get("SERVERS_SUITE"), os.environ.get("SERVERS", "")
OPTIONS = "--socket-path SOCKET --shared-dir SHARE --sandbox none --seccomp none --no-announce-submounts --xattr".split()
# An error of either sanitizer ends the program.
SANITIZED = ["-fsanitize=address", "-fsanitize=undefined", "-fno-sanitize-recover=undefined"]
pytestmark = [pytest.mark.root, pytest.mark.slow]


def python(program, *arguments, seconds=3600):
    judge(sys.executable, "-B", program, *map(str, arguments), seconds=seconds)


def compiled(program, source, *flags):
    """Compiles a source in C, and returns the program's path."""
    run("cc", *STRICT, "-O2", "-g", "-I", REPOSITORY / "include", "-o", program, REPOSITORY / source, *flags)
    return program


def virtiofsd(suite="trixie", folder=None):
    """The command of the virtiofsd of a suite of Debian, by its own loader and libraries."""
    script = 'need_x86_64; find_virtiofsd "$1" "$2" >&2; printf "%s\\n" "$version" "${virtiofsd[@]}"'
    version, *command = shell(script, suite, folder or OUT / suite).splitlines()
    if suite == "trixie" and "1.13.2" not in version:
        pytest.skip(f"requires virtiofsd 1.13.2, and {suite} has {version}")
    return command


def package_version(suite):
    """Debian's own version of a suite's virtiofsd."""
    with gzip.open(OUT / suite / "usr/share/doc/virtiofsd/changelog.Debian.gz", "rt") as changes:
        return re.search(r"\(([^)]*)\)", changes.readline())[1]


@pytest.fixture
def servers(scratch):
    """The servers, each as a line for servers/others.py. Those that cannot be had or built are left out."""
    suite = SUITE or "sid"
    library = find_library("nizwarf_codec")
    built, work = OUT / f"servers-{suite}", OUT / f"work.{os.getpid()}"
    built.mkdir(parents=True, exist_ok=True)
    version = ".".join(re.findall(r"^#define NIZWARF_VERSION_(?:MAJOR|MINOR|PATCH) (\d+)$",
                                  (REPOSITORY / "include/nizwarf.h").read_text(), re.M))
    lines = [("pair", "Nizwarf", version, compiled(scratch / "nizwarf", HERE / "nizwarf.c", *library, *SANITIZED), "DESCRIPTOR")]
    try:
        for name in ("libfuse", "fuser", "go-fuse"):
            if not (built / name).exists() and ONLY in f"{name} behind the check":
                subprocess.run([HERE / "get.sh", name, suite, built / name, work], stdin=subprocess.DEVNULL, timeout=3600)
            if (built / name).exists():
                lines.append(("pair", name, (built / f"{name}.version").read_text().strip(), built / name, "DESCRIPTOR"))
    finally:
        shutil.rmtree(work, ignore_errors=True)
    if (built / "libfuse").exists():
        check = compiled(scratch / "check", "examples/c/check.c", *library, *SANITIZED)
        lines.append(("pair", "libfuse behind the check", lines[1][2], check, "DESCRIPTOR", built / "libfuse"))
    if ONLY in "libfuse over this layer" and shutil.which("meson") and shutil.which("ninja"):
        shell('tools/libfuse.sh --suite "$2" "$1" >&2; find_library nizwarf_codec; compile_libfuse "$@"', OUT / "libfuse", suite,
              HERE / "libfuse.c", scratch / "layer", *SANITIZED)
        version = (OUT / f"libfuse/source-{suite}/debian-version").read_text().strip()
        lines.append(("pair", "libfuse over this layer", version, scratch / "layer", "DESCRIPTOR"))
    for it in sorted({"trixie", suite}) if ONLY in "virtiofsd" else ():
        command = virtiofsd(it)  # (it unpacks the package, which has the version)
        lines.append(("vhost", "virtiofsd", package_version(it), *command, *OPTIONS))
    (scratch / "servers").write_text("".join("\t".join(map(str, line)) + "\n" for line in lines if ONLY in line[1]))
    return scratch / "servers"


def test_no_hostile_session_ends_or_misleads_a_server_over_this_layer(servers, scratch, requests, seed):
    python(HERE / "others.py", "--seed", seed, "--count", requests(300), servers, scratch)


def test_hostile_requests_come_to_the_known_kinds_here_and_at_virtiofsd(scratch):
    suite = SUITE or "trixie"
    command = virtiofsd(suite)
    python(HERE / "beside.py", "show" if SUITE else "compare", built_program("vhost"), scratch,
           f"Debian's package {package_version(suite)} of virtiofsd", *command, *OPTIONS)


def test_options_do_what_they_do_at_virtiofsd(share, scratch):
    (scratch / "words").mkdir()
    words = [REPOSITORY / "tests/share/words.py", scratch / "words"]
    python(*words, os.environ.get("WORDS", "--compare"), *virtiofsd(), "--sandbox=none", "--seccomp=none", "--log-level=off",
           seconds=300)
    python(*words, "--known", share, "--log-level=warn", seconds=300)


@pytest.fixture(scope="module")
def with_layer():
    """The path of virtiofsd over this layer, whose own tests have passed."""
    return shell('tools/virtiofsd.sh --test "$1"', VIRTIOFSD).splitlines()[-1]


def test_virtiofsd_over_this_layer_passes_its_own_tests(with_layer):
    assert os.access(with_layer, os.X_OK)


def test_virtiofsd_over_this_layer_migrates_to_virtiofsd_and_back(scratch, with_layer):
    python(HERE / "migrated.py", scratch, with_layer, *virtiofsd(folder=VIRTIOFSD / "debian"))


def test_virtiofsd_over_this_layer_replies_as_virtiofsd(scratch, with_layer, requests, seed):
    python(HERE / "replaced.py", scratch, seed, requests(20000), with_layer, *virtiofsd(folder=VIRTIOFSD / "debian"))
