"""What compiles programs with the libraries for C, and runs them."""
import pathlib
import shutil
import subprocess
import sys

import pytest

REPOSITORY = pathlib.Path(__file__).resolve().parents[2]
HERE = REPOSITORY / "tests/c"
STRICT = ("-std=c11", "-Wall", "-Wextra", "-Werror")
# How programs are compiled.
PLAIN = ("-O2",)
ADDRESS = ("-g", "-O1", "-fsanitize=address,undefined", "-fno-sanitize-recover=all")
THREAD = ("-g", "-O1", "-fsanitize=thread", "-pthread")
# With these a program counts its allocations and refuses each in turn.
COUNTED = tuple(f"-Wl,--wrap={it}" for it in ("malloc", "realloc", "free"))


def run(*command, seconds=120, status=0, **more):
    """Runs a command, which must end with this status in time, and returns what it printed."""
    ended = subprocess.run(command, stdout=subprocess.PIPE, stderr=subprocess.STDOUT, text=True, timeout=seconds, **more)
    assert ended.returncode == status, f"status {ended.returncode}:\n{ended.stdout}"
    return ended.stdout


def need(command, package):
    if not shutil.which(command):
        pytest.skip(f"requires {command}: apt-get install {package}")


def judge(*command, seconds=3600, **more):
    """Runs a program that must end with status 0 in time. pytest shows its output if it does not; with -s, as it comes."""
    status = subprocess.run(command, timeout=seconds, stdin=subprocess.DEVNULL, **more).returncode
    assert status == 0, f"status {status} of {' '.join(map(str, command))}"


def shell(script, *arguments, seconds=3600):
    """Runs lines of bash with the functions of tools/lib, and returns what they printed. If they end with status 2,
    something that they require is not here: the test is skipped for what their last line says."""
    libraries = "".join(f". tools/lib/{it}.sh; " for it in ("usage", "transport", "messages", "debian", "libfuse"))
    ended = subprocess.run(["bash", "-euc", libraries + script, "bash", *map(str, arguments)], cwd=REPOSITORY,
                           stdin=subprocess.DEVNULL, stdout=subprocess.PIPE, stderr=subprocess.PIPE, text=True, timeout=seconds)
    print(ended.stderr, end="", file=sys.stderr)
    if ended.returncode == 2:
        pytest.skip(ended.stderr.strip().splitlines()[-1])
    assert ended.returncode == 0, f"status {ended.returncode}:\n{ended.stderr}"
    return ended.stdout.strip()


def find_library(name):
    """The paths of a library for C: its C files, its static library, which is proved or built without a proof, and last the C
    code that it needs."""
    return shell('find_library "$1"; printf "%s\n" "${library[@]}"', name).splitlines()


def find_fuse():
    """The paths of the C files of libnizwarf-fuse, which need the library of nizwarf_codec."""
    return shell('find_fuse; printf "%s\n" "${sources[@]}"').splitlines()


def built_program(name, library="nizwarf_tree", *flags):
    """Builds the program nizwarf-NAME with a library for C and flags of the compiler, and returns its path."""
    return shell('build_transport "$@" >&2; echo "$transport"', name, library, *flags)


class Built:
    """Programs that are compiled with the same flags, below a folder of their own."""

    def __init__(self, folder, libraries, flags):
        self.folder, self.libraries, self.flags = folder, libraries, flags

    def has_flags(self):
        """Whether the compiler has these flags, and what it makes with them runs."""
        source, program = self.folder / "flags.c", self.folder / "flags"
        source.write_text("int main(void) { return 0; }")
        made = subprocess.run(["cc", *self.flags, "-o", program, source], stderr=subprocess.DEVNULL)
        return made.returncode == 0 and subprocess.run([program], stderr=subprocess.DEVNULL).returncode == 0

    def compile(self, source, *more):
        """Compiles a source of the repository with other sources or flags, and returns the program's path."""
        program = self.folder / f"c-{pathlib.Path(source).stem}"
        run("cc", *STRICT, "-I", REPOSITORY / "include", "-o", program, REPOSITORY / source, *more, *self.libraries,
            *self.flags, seconds=900)
        return program

    def make(self, name):
        """Builds an example with programs/Makefile, and returns the program's path."""
        need("make", "make")
        run("make", "-s", "-B", "-C", self.folder, "-f", REPOSITORY / "programs/Makefile", name,
            "CFLAGS=" + " ".join([*STRICT[1:], *self.flags]), "LIBRARY=" + " ".join(self.libraries), "BORDER=",
            f"INCLUDE={REPOSITORY}/include")
        return self.folder / name
