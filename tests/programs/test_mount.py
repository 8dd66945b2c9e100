"""nizwarf-mount and nizwarf-vhost as programs: options, signals, sockets, and the limits of the tree in memory."""
import contextlib
import errno
import itertools
import os
import pathlib
import signal
import subprocess
import sys
import time

import pytest
from building import run

MIB = 1 << 20


def ends(process, seconds=20):
    """The status of a process that must end in time."""
    try:
        return process.wait(seconds)
    except subprocess.TimeoutExpired:
        process.kill()
        process.wait()
        pytest.fail(f"it did not end within {seconds} seconds")


def is_asleep(pid):
    """Whether the first thread of a process is in clock_nanosleep(2), by its number on x86-64."""
    return pathlib.Path(f"/proc/{pid}/syscall").read_text().startswith("230 ")


# ---- options

@pytest.mark.parametrize("options, message", [
    ("--vers", "unrecognized option '--vers'"), ("--no-such-option", "unrecognized option '--no-such-option'"),
    ("-x", "unrecognized option '-x'"), ("--version=1", "option '--version' doesn't allow an argument"),
    ("-o", "option '-o' requires an argument"), ("-o none", "unrecognized option '-o none'"),
    ("-o size", "option '-o size' requires an argument"), ("-o size=x", "invalid number 'x' for option '-o size'"),
    ("more", "unexpected argument 'more'")])
def test_an_option_that_is_wrong_is_refused_by_its_name(tree_mount, scratch, options, message):
    ended = subprocess.run([tree_mount, scratch, *options.split()], capture_output=True, text=True, timeout=10)
    assert ended.returncode == 2
    assert ended.stderr == f"nizwarf-mount: {message}\nTry 'nizwarf-mount --help' for more information.\n"


@pytest.mark.parametrize("arguments, message", [
    ([], "missing socket path"), (["--no-such-option"], "unrecognized option '--no-such-option'"),
    (["socket", "more"], "unexpected argument 'more'")])
def test_arguments_of_nizwarf_vhost_that_are_wrong_are_refused_by_name(tree_vhost, arguments, message):
    ended = subprocess.run([tree_vhost, *arguments], capture_output=True, text=True, timeout=10)
    assert ended.returncode == 2
    assert ended.stderr == f"nizwarf-vhost: {message}\nTry 'nizwarf-vhost --help' for more information.\n"


def test_the_version_begins_with_the_name_of_the_program(tree_mount):
    name, version = run(tree_mount, "--version", seconds=10).split(maxsplit=1)
    assert name == "nizwarf-mount" and version[0].isdigit()


def test_options_set_size_inodes_root_and_name_of_the_mount(mount_tree):
    server = mount_tree("ro,size=1m,nr_inodes=10,mode=711,uid=7,gid=8,fsname=check")
    mounts = [it.split() for it in pathlib.Path("/proc/self/mounts").read_text().splitlines()]
    assert [it[0] for it in mounts if it[1:3] == [str(server.path), "fuse.nizwarf-mount"]] == ["check"]
    of, root = os.statvfs(server.path), os.stat(server.path)
    assert (of.f_blocks * of.f_frsize, of.f_files) == (MIB, 10)
    assert (root.st_mode, root.st_uid, root.st_gid) == (0o040711, 7, 8)
    with pytest.raises(OSError) as refused:
        (server.path / "a").touch()
    assert refused.value.errno == errno.EROFS


# ---- signals

def test_a_signal_unmounts_and_is_a_good_end(mount_tree):
    server = mount_tree()
    server.process.send_signal(signal.SIGINT)
    server.finish()
    assert not os.path.ismount(server.path)


@pytest.mark.fuse
def test_a_signal_just_after_the_mount_leaves_no_mount(tree_mount, scratch, fault):
    run(tree_mount, scratch, env={**os.environ, **fault("early_signal")})
    assert not os.path.ismount(scratch)


def test_a_signal_just_after_the_socket_leaves_no_socket(tree_vhost, scratch, fault):
    run(tree_vhost, scratch / "socket", env={**os.environ, **fault("early_signal")})
    assert not (scratch / "socket").exists()


def test_a_socket_on_which_it_cannot_listen_is_a_failure_and_removed(tree_vhost, scratch, fault):
    ended = subprocess.run([tree_vhost, scratch / "socket"], env={**os.environ, **fault("no_listen")}, timeout=60)
    assert ended.returncode > 0
    assert not (scratch / "socket").exists()


@pytest.mark.parametrize("name", ["no_bind", "no_unlink"])
def test_a_signal_ends_it_while_the_directory_of_its_socket_does_not_answer(tree_vhost, scratch, fault, name):
    process = subprocess.Popen([tree_vhost, scratch / "socket"], env={**os.environ, **fault(name)})
    until = time.monotonic() + 10
    # (bind(2) does not return, so there is no socket)
    while not (is_asleep(process.pid) if name == "no_bind" else (scratch / "socket").exists()):
        assert time.monotonic() < until
        time.sleep(0.05)
    process.terminate()
    assert ends(process) == 0


def test_a_mount_that_cannot_be_unmounted_is_reported_and_a_failure(mount_tree, fault):
    server = mount_tree(environment=fault("no_unmount"))
    server.process.terminate()
    server.finish(status=1)
    subprocess.run(["umount", "-l", server.path], check=True)
    assert f"cannot unmount '{server.path}': Operation not permitted" in server.stderr()


# ---- sockets

def test_a_socket_is_removed_with_its_server(tree_vhost, scratch):
    with serving(tree_vhost, scratch / "socket"):
        pass
    assert not (scratch / "socket").exists()


def test_a_socket_that_another_one_bound_meanwhile_stays(tree_vhost, scratch):
    with serving(tree_vhost, scratch / "socket"):
        # (as a program does that found that nobody listens there)
        (scratch / "socket").unlink()
        script = "import socket, sys; socket.socket(socket.AF_UNIX).bind(sys.argv[1])"
        subprocess.run([sys.executable, "-c", script, scratch / "socket"], check=True)
    assert (scratch / "socket").is_socket()


@contextlib.contextmanager
def serving(program, socket):
    """Serves a tree on a socket, and ends that by SIGTERM, which must be a good end."""
    process, until = subprocess.Popen([program, socket]), time.monotonic() + 10
    while not socket.is_socket() and time.monotonic() < until:
        time.sleep(0.05)
    try:
        assert socket.is_socket()
        yield
    finally:
        process.terminate()
        assert ends(process) == 0


# ---- limits

def test_a_removed_file_gives_its_space_to_the_next_one(mount_tree):
    path = mount_tree("size=16m,nr_inodes=20000").path / "most"
    for _ in range(40):
        path.write_bytes(bytes(12 * MIB))
        path.unlink()


def fill_names(files, i):
    # (of 250 letters, about the longest)
    os.link(files[i % 600], files[0].parent / f"{i:0250}")


def fill_attributes(files, i):
    # (400 a file, each of which counts 128 bytes and its name)
    os.setxattr(files[i // 400], f"user.{i}", b"")


def fill_bytes(files, i):
    with open(files[i % 600], "ab", 0) as file:
        if file.write(bytes(4096)) < 4096:
            raise OSError(errno.ENOSPC, "")


def test_limits_bound_the_memory_of_the_server_also_once_all_was_removed(mount_tree):
    server = mount_tree("size=16m,nr_inodes=20000")
    for fill in (fill_names, fill_attributes, fill_bytes):
        # (600 files, because a file has at most 65,000 names, and attributes of 64 KiB)
        files = [server.path / str(i) for i in range(600)]
        for it in files:
            it.touch()
        with pytest.raises(OSError) as full:
            for i in itertools.count():
                fill(files, i)
        assert full.value.errno == errno.ENOSPC
        print(fill.__name__, i, server.memory())
        # 16 MiB of bytes and 20,000 nodes take less than 128 MiB in any mix.
        assert server.memory() < 128 * MIB
        for it in server.path.iterdir():
            it.unlink()
