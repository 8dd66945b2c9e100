"""The examples in C, Python, Go and Rust do what a server over a hostile or ordinary kernel must do: each is a model
that others begin with."""
import errno
import importlib.util
import os
import re
import shutil
import signal
import subprocess
import sys
import time

import pytest
from examples import (BATCH_FORGET, EXAMPLES, FORGET, GETATTR, GETATTR_RECORD, INIT, INIT_RECORD, LOOKUP, PATIENCE, REPOSITORY,
                      ROOT, Client, build_c, build_rust)


@pytest.fixture(scope="session", params=EXAMPLES)
def example(request, tmp_path_factory):
    """The example in each language."""
    return EXAMPLES[request.param](tmp_path_factory.mktemp(request.param))


@pytest.fixture
def client(example):
    """A client whose session has begun."""
    with Client(example) as it:
        assert it.ask(INIT, 0, INIT_RECORD).error == 0
        yield it


MALFORMED = {
    "a name without an end": (LOOKUP, b"hello", None),
    "no name": (LOOKUP, b"", None),
    "a record that is cut": (GETATTR, b"", None),
    "a length above the message": (LOOKUP, b"hello\0", 1000),
}


@pytest.mark.parametrize("opcode, body, length", MALFORMED.values(), ids=MALFORMED)
def test_a_malformed_request_is_eio_and_the_next_is_served(client, opcode, body, length):
    assert client.ask(opcode, ROOT, body, length).error == -errno.EIO
    reply = client.ask(GETATTR, ROOT, GETATTR_RECORD)
    assert reply.error == 0 and len(reply.body) == 104


@pytest.mark.parametrize("opcode", [FORGET, BATCH_FORGET])
def test_a_malformed_forget_has_no_reply(client, opcode):
    # (the next reply is that of the next request)
    client.send(opcode, ROOT)
    assert client.ask(GETATTR, ROOT, GETATTR_RECORD).error == 0


def test_messages_without_a_number_end_nothing(client, example):
    if example.language == "c":
        pytest.skip("the transport in C ends at what no kernel sends")
    client.ours.send(b"1234567")
    assert client.ask(GETATTR, ROOT, GETATTR_RECORD).error == 0


def mounted(path):
    """Whether something is mounted there, which may be served by nobody."""
    with open("/proc/self/mounts") as mounts:
        return any(line.split()[1] == str(path) for line in mounts)


def await_that(condition, what):
    end = time.monotonic() + PATIENCE
    while not condition():
        assert time.monotonic() < end, what
        time.sleep(0.02)


def end_by(number, folder, command, *more):
    """Mounts, reads the file, sends a signal, and returns the status of the program and what it printed."""
    folder.mkdir()
    # (whoever starts the tests in the background of a shell has SIGINT ignored, and so would have the program)
    process = subprocess.Popen([*command, folder, *more], stdout=subprocess.PIPE, stderr=subprocess.STDOUT, text=True,
                               preexec_fn=lambda: signal.signal(signal.SIGINT, signal.SIG_DFL))
    try:
        await_that(lambda: mounted(folder) or process.poll() is not None, "nothing is mounted")
        assert (folder / "hello").read_text() == "Hello, world!\n"
        process.send_signal(number)
        said, _ = process.communicate(timeout=PATIENCE)
    finally:
        process.kill()
        process.wait()
    # (fusermount3 unmounts a moment after the end of a program in Rust)
    await_that(lambda: not mounted(folder), "the mount is left behind")
    return process.returncode, said


@pytest.mark.fuse
@pytest.mark.parametrize("number", [signal.SIGINT, signal.SIGTERM])
def test_a_signal_unmounts(example, scratch, number):
    if example.language == "rust" and not shutil.which("fusermount3"):
        pytest.skip("requires fusermount3")
    status, said = end_by(number, scratch / "mount", example.command)
    # (nothing in Rust catches the signal: the end of the process unmounts)
    assert status == (-number if example.language == "rust" else 0), said
    assert os.listdir(scratch / "mount") == []
    assert said == ""


@pytest.mark.fuse
@pytest.mark.parametrize("number", [signal.SIGINT, signal.SIGTERM])
def test_a_signal_unmounts_what_check_rs_mounts(scratch, tmp_path, number):
    check, hello = (build_rust(tmp_path, it) for it in ("check", "hello"))
    status, said = end_by(number, scratch / "mount", check.command, *hello.command, *hello.served)
    assert status == 0, said
    assert os.listdir(scratch / "mount") == []


def test_hello_py_can_be_imported(tmp_path, monkeypatch, capfd):
    monkeypatch.setattr(sys, "argv", ["other", "word"])
    monkeypatch.syspath_prepend(REPOSITORY / "bindings/python")
    spec = importlib.util.spec_from_file_location("hello", REPOSITORY / "bindings/python/hello.py")
    module = importlib.util.module_from_spec(spec)
    spec.loader.exec_module(module)
    assert capfd.readouterr() == ("", "")
    assert callable(module.main)


def test_a_number_that_is_no_error_is_said_once(tmp_path):
    """A newcomer's first mistake in a copy of hello.c: an error is returned as libfuse's high level wants it."""
    source = (REPOSITORY / "examples/c/hello.c").read_text()
    assert source.count("return ENOENT") == 1
    (tmp_path / "hello.c").write_text(source.replace("return ENOENT", "return -ENOENT"))
    with Client(build_c(tmp_path, tmp_path)) as client:
        client.ask(INIT, 0, INIT_RECORD)
        for _ in range(3):
            assert client.ask(LOOKUP, ROOT, b"none\0").error == -errno.EIO
        assert client.ask(LOOKUP, ROOT, b"hello\0").error == 0
        status, errors = client.end()
    assert status == 0
    assert re.fullmatch(rf"hello: .*-{errno.ENOENT}\b.*\n", errors), errors


def test_hello_c_says_nothing_of_errors_of_linux(tmp_path):
    with Client(build_c(tmp_path)) as client:
        client.ask(INIT, 0, INIT_RECORD)
        assert client.ask(LOOKUP, ROOT, b"none\0").error == -errno.ENOENT
        assert client.end() == (0, "")
