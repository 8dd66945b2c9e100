"""The headers and the libraries by themselves: languages, names, stack; and the records and numbers of the
crates, which are those of the kernel's headers and of nizwarf.h."""
import pytest
from building import HERE, REPOSITORY, need, run


def test_headers_compile_as_c99():
    run("cc", "-std=c99", "-pedantic", "-Wall", "-Wextra", "-Wconversion", "-Werror", "-I", REPOSITORY / "include",
        "-fsyntax-only", "-xc", "-", input='#include "nizwarf_fuse.h"\n')


@pytest.fixture(scope="session", params=["gcc", "clang"])
def objects(request, libraries, tmp_path_factory):
    """The C files of the library as objects of C99, compiled without a warning."""
    need(request.param, request.param)
    folder = tmp_path_factory.mktemp("objects")
    run(request.param, "-std=c99", "-Wall", "-Wextra", "-Wpedantic", "-Wconversion", "-Werror", "-O2", "-I", REPOSITORY / "include",
        "-c", *[it for it in libraries if it.endswith(".c")], cwd=folder)
    return [*folder.glob("*.o")]


@pytest.fixture(scope="session")
def archives(libraries):
    """The static libraries nizwarf_codec and nizwarf_tree, and the C code that both need."""
    return [it for it in libraries if it.endswith(".a")]


@pytest.mark.parametrize("standard", ["c++11", "c++20"])
@pytest.mark.parametrize("compiler", ["g++", "clang++"])
def test_headers_compile_and_link_in_cpp(objects, archives, tmp_path, compiler, standard):
    need(compiler, "g++ clang")
    run(compiler, f"-std={standard}", "-Wall", "-Wextra", "-Wpedantic", "-Wconversion", "-Werror", "-I",
        REPOSITORY / "include", "-o", tmp_path / "linked", HERE / "linked.cc", *objects, *archives)
    run(tmp_path / "linked")


def test_libraries_define_only_names_that_begin_with_nizwarf(objects, archives):
    # (three columns: address, kind, name)
    rows = [it.split() for it in run("nm", "--defined-only", "--extern-only", *objects, *archives[:2]).splitlines()]
    names = {it[2] for it in rows if len(it) == 3}
    assert names and not [it for it in names if not it.startswith("nizwarf_")]


def test_no_function_takes_64_kib_of_stack(archives):
    run(REPOSITORY / "tools/dev/stack.py", "--most", "65535", *archives[:2])


def test_records_and_numbers_are_those_of_the_kernels_header():
    print(run(HERE / "kernel.py"))


def test_data_of_the_codec_is_that_of_nizwarf_h():
    print(run(HERE / "data.py"))


@pytest.mark.slow
def test_records_and_numbers_are_those_of_debians_newest_header(tmp_path):
    headers = REPOSITORY / "out/headers"
    if not headers.is_dir():
        script = f""". tools/lib/debian.sh; quietly "$0/said" use_suite sid "$0/apt" &&
            quietly "$0/said" unpack_packages "$0/headers" linux-libc-dev && mkdir -p out && mv "$0/headers/usr/include" {headers}"""
        try:
            run("bash", "-uc", script, tmp_path, cwd=REPOSITORY, seconds=300)
        except AssertionError:
            pytest.skip("requires Debian's package linux-libc-dev of sid, which cannot be downloaded")
    print(run(HERE / "kernel.py", "--headers", headers))
