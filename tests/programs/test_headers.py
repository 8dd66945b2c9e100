"""The public headers, for who builds a program with them in C or C++; and the shared libraries, whose functions it finds."""
import pathlib
import shutil

import pytest
from building import REPOSITORY, run
from examples import build_shared

HERE = pathlib.Path(__file__).parent


@pytest.fixture(scope="module")
def shared(tmp_path_factory):
    """The folder of the shared libraries."""
    return build_shared(tmp_path_factory.mktemp("shared"))


@pytest.mark.parametrize("compiler, standard", [(it, standard) for it in ("gcc", "clang") for standard in ("c99", "c11")] +
                         [(it, standard) for it in ("g++", "clang++") for standard in ("c++11", "c++17")])
def test_a_program_compiles_without_a_warning_and_links(shared, tmp_path, compiler, standard):
    if not shutil.which(compiler):
        pytest.skip(f"requires {compiler}")
    run(compiler, f"-std={standard}", *["-x", "c++"] * ("++" in compiler), "-Wall", "-Wextra", "-Wpedantic", "-Wconversion",
        "-Werror", "-I", REPOSITORY / "include", HERE / "header.c", "-x", "none", "-o", tmp_path / "program", f"-L{shared}",
        "-lnizwarf-fuse", "-lnizwarf")
    printed = run(tmp_path / "program", env={"LD_LIBRARY_PATH": str(shared)}, seconds=20)
    assert "nizwarf-fuse: the size of a nizwarf_transport is 8, but this library supports" in printed
    assert "header: the number of workers is 65, but must be 1 to 64\n" in printed


@pytest.mark.parametrize("header", sorted(it.name for it in (REPOSITORY / "include").iterdir()))
@pytest.mark.parametrize("compiler, standard", [("gcc", "c99"), ("clang", "c11"), ("g++", "c++17"), ("clang++", "c++17")])
def test_each_header_compiles_alone(tmp_path, compiler, standard, header):
    if not shutil.which(compiler):
        pytest.skip(f"requires {compiler}")
    source = tmp_path / ("alone.cc" if "++" in compiler else "alone.c")
    source.write_text(f'#include "{header}"\n')
    run(compiler, f"-std={standard}", "-Wall", "-Wextra", "-Wpedantic", "-Wconversion", "-Werror", "-I",
        REPOSITORY / "include", "-fsyntax-only", source)
