"""The libraries as tools/package.sh packs them: installed, linked by pkg-config, shared and static, and removed."""
import os
import re
import types

import pytest
from building import REPOSITORY, STRICT, need, run
from hello_client import check_hello

pytestmark = pytest.mark.slow
VERSION = """#include "nizwarf.h"
int main(void) { return nizwarf_version() != NIZWARF_VERSION; }"""


@pytest.fixture(scope="module")
def packages(tmp_path_factory, libraries):
    """A folder into which tools/package.sh put its packages, beside those of an older version and of something else."""
    need("pkg-config", "pkg-config")
    folder = tmp_path_factory.mktemp("packages")
    for name in ("libnizwarf1", "virtiofsd-nizwarf"):
        (folder / f"{name}_0.1.deb").touch()
    print(run(REPOSITORY / "tools/package.sh", "--unproved", "--no-demo", "--out", folder, seconds=1800))
    return folder


@pytest.fixture(scope="module")
def installed(tmp_path_factory, packages):
    """The folder into which the tarball is installed, and the environment in which programs are built and run with it."""
    folder = tmp_path_factory.mktemp("installed")
    run("tar", "-xzf", *packages.glob("*.tar.gz"), "-C", folder)
    installer, root = next(folder.glob("nizwarf-*/install.sh")), folder / "root"
    run(installer, root, "/usr/local")
    environment = {**os.environ, "PKG_CONFIG_SYSROOT_DIR": str(root), "LD_LIBRARY_PATH": str(root / "usr/local/lib"),
                   "PKG_CONFIG_LIBDIR": str(root / "usr/local/lib/pkgconfig")}
    return types.SimpleNamespace(folder=folder, root=root, installer=installer, environment=environment)


@pytest.fixture(scope="module", params=["shared", "static"])
def linked(request, installed):
    """Compiles a program with what pkg-config says of a package alone: linked.compile(SOURCE, PACKAGE) returns its path."""
    static = request.param == "static"

    def compile_one(source, package="nizwarf"):
        flags = run("pkg-config", "--cflags", "--libs", *["--static"] * static, package, env=installed.environment).split()
        program = installed.folder / f"{source.stem}-{request.param}"
        run("cc", "-O2", "-o", program, source, *flags, *["-static"] * static, env=installed.environment)
        return program

    return types.SimpleNamespace(static=static, compile=compile_one, **vars(installed))


@pytest.fixture(scope="module")
def examples(linked):
    """The folder in which the installed examples serve and hello are built with the installed Makefile."""
    run("make", "-s", "-B", "-C", linked.folder, "-f", linked.root / "usr/local/share/doc/nizwarf/examples/Makefile",
        "serve", "hello", "CFLAGS=" + " ".join(["-O2", *STRICT[1:]]), *["STATIC=yes"] * linked.static,
        env=linked.environment)
    return linked.folder


def needed_by(program):
    """The shared libraries that a program requires."""
    return re.findall(r"NEEDED.*\[(.*)\]", run("readelf", "-d", program))


def test_the_folder_of_packages_keeps_one_version_and_what_is_not_ours(packages):
    assert not (packages / "libnizwarf1_0.1.deb").exists()
    assert (packages / "virtiofsd-nizwarf_0.1.deb").exists()


def test_the_library_has_the_version_of_its_header(linked, tmp_path):
    (tmp_path / "version.c").write_text(VERSION)
    run(linked.compile(tmp_path / "version.c"), env=linked.environment)


def test_installed_examples_build_and_run(linked, examples):
    run(examples / "serve", env=linked.environment)
    check_hello(examples / "hello", env=linked.environment)
    assert ("libnizwarf-fuse.so.1" in needed_by(examples / "hello")) != linked.static


def test_hello_c_needs_the_libraries_alone(linked):
    """It is compiled by itself, as its first lines say."""
    hello = linked.compile(linked.root / "usr/local/share/doc/nizwarf/examples/hello.c", "nizwarf-fuse")
    check_hello(hello, env=linked.environment)
    needed = {it for it in needed_by(hello) if not it.startswith("libc.")}
    assert needed == (set() if linked.static else {"libnizwarf-fuse.so.1", "libnizwarf.so.1"})


def test_the_installer_removes_all_that_it_installed(tmp_path, installed):
    run(installed.installer, tmp_path, "/usr/local")
    assert (tmp_path / "usr/local/include/nizwarf.h").exists()
    run(installed.installer, "--uninstall", tmp_path, "/usr/local")
    assert not [it for it in tmp_path.rglob("*") if not it.is_dir()]
