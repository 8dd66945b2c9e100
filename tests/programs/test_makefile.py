"""The Makefile of the examples, as it is installed: it builds a program of the reader's own, and removes it again."""
import os
import shutil
import subprocess

import pytest
from examples import REPOSITORY, library, run


@pytest.fixture
def make(tmp_path):
    """Runs make in a new folder, with a source of the reader's own in it."""
    shutil.copy(REPOSITORY / "examples/c/hello.c", tmp_path / "kv.c")
    words = ["make", "-s", "-C", tmp_path, "-f", REPOSITORY / "programs/Makefile", f"LIBRARY={' '.join(library())}",
             f"INCLUDE={REPOSITORY / 'include'}"]
    return lambda *more: run(*words, *more)


def test_clean_removes_what_was_made(make, tmp_path):
    make("kv", "hello")
    make("clean")
    assert os.listdir(tmp_path) == ["kv.c"]


def test_what_is_built_after_clean_has_the_new_flags(make, tmp_path):
    make("kv")
    make("clean", "kv", "LDFLAGS=-static")
    segments = subprocess.run(["readelf", "-l", tmp_path / "kv"], stdout=subprocess.PIPE, text=True, check=True).stdout
    assert "INTERP" not in segments


def test_clean_keeps_what_it_did_not_make(make, tmp_path):
    (tmp_path / "kv").mkdir()
    (tmp_path / "kv/file").write_text("text")
    (tmp_path / "run.c").write_text("")
    (tmp_path / "run").write_text("#!/bin/sh\n")
    for name in ("alone", "a", "a b", "a b.c", "-v", "-v.c"):
        (tmp_path / name).write_bytes(b"\x7fELF")
    before = sorted(os.listdir(tmp_path))
    make("clean")
    assert sorted(os.listdir(tmp_path)) == before
    assert (tmp_path / "kv/file").read_text() == "text"
