"""Messages of nizwarf-share about a command line that cannot be served: they name the option or the path that is wrong, in
the words of getopt(3), and point to --help where that helps. The errors of a path are those of Linux."""
import json
import os
import shutil
import subprocess

import pytest
from building import run

HINT = "Try 'nizwarf-share --help' for more information.\n"


@pytest.fixture
def refuse(share, tmp_path):
    """Returns what is printed, once the status is the expected one."""
    def run(*options, status=2, user=None, program=share):
        if user:
            # (the program may lie where the user has no access)
            program = shutil.copy(share, "/dev/shm/nizwarf-share-of-a-user")
        try:
            ran = subprocess.run([program, *options], stdin=subprocess.DEVNULL, stdout=subprocess.DEVNULL,
                                 stderr=subprocess.PIPE, text=True, timeout=60, user=user, group=user,
                                 extra_groups=[] if user else None)
        finally:
            if user:
                os.remove(program)
        assert ran.returncode == status, ran.stderr
        return ran.stderr.replace("nizwarf-share: ", "", 1)

    return run


@pytest.fixture
def point(scratch):
    path = scratch / "point"
    path.mkdir()
    return path


@pytest.mark.parametrize("option, message", [
    ("--no-such-option", "unrecognized option '--no-such-option'\n"),
    ("-x", "unrecognized option '-x'\n"),
    ("--cahce=always", "unrecognized option '--cahce=always' (did you mean '--cache'?)\n"),
    ("--xatt", "unrecognized option '--xatt' (did you mean '--xattr'?)\n"),
    ("--xattr=1", "option '--xattr' doesn't allow an argument\n"),
    ("-oallow_others", "unrecognized option '-o allow_others'\n")])
def test_an_unknown_option_is_named_and_help_is_pointed_to(refuse, directory, point, option, message):
    assert refuse(option, directory, point) == message + HINT


def test_an_option_without_its_argument_is_named(refuse, directory, point):
    assert refuse(directory, point, "--cache") == "option '--cache' requires an argument\n" + HINT


@pytest.mark.parametrize("option, message", [
    ("-oxattr=yes", "option '-o xattr' doesn't allow an argument\n"),
    ("-oallow_other=1", "option '-o allow_other' doesn't allow an argument\n"),
    ("-oattr_timeout", "option '-o attr_timeout' requires an argument\n"),
    ("-othread_pool_size", "option '-o thread_pool_size' requires an argument\n"),
    ("-oattr_timeout=0x1", "-o attr_timeout must be a number of seconds from 0 to 1000000000, not '0x1'\n"),
    ("--cache=some", "--cache must be one of never, auto, always, metadata, not 'some'\n"),
    ("--node-limit=1", "--node-limit must be a number from 2 to 2147483647, not '1'\n"),
    ("--thread-pool-size=-1", "--thread-pool-size must be a number from 0 to 4294967295, not '-1'\n"),
    ("--modcaps=+some", "--modcaps: unknown capability 'some'\n"),
    ("--tag=", "--tag must have 1 to 36 bytes, not ''\n"),
    ("--allow-direct-io", "--allow-direct-io requires --socket-path or --fd\n")])
def test_a_value_that_cannot_be_is_named_with_those_that_can(refuse, directory, point, option, message):
    assert refuse(option, directory, point) == message


@pytest.mark.parametrize("options", [
    "--fd=77 {shared}", "--socket-path={scratch}/socket {shared} too-many", "{shared} {shared}/below", "--modcaps=sys_admin {all}",
    "--inode-file-handles=always {all}", "--inode-file-handles=auto {all}", "--uid-map=:0:1:1: {all}", "--sandbox=some {all}",
    "--passthrough --socket-path={scratch}/socket {shared}", "--watch --socket-path={scratch}/socket {shared}",
    "--passthrough --writeback {all}", "--watch --writeback {all}", "--passthrough --modcaps=-dac_override {all}",
    "--watch --inode-file-handles=prefer {all}", "--passthrough --xattrmap=:map::user.virtiofs.: {all}",
    "--migration-mode=find-paths {all}", "--migration-confirm-paths {all}", "--socket-path= {shared}",
    "--migration-mode=file-handles --migration-verify-handles --socket-path={scratch}/none {shared}",
    "--migration-mode=file-handles --migration-confirm-paths --socket-path={scratch}/none {shared}",
    "--migration-unlinked-files --socket-path={scratch}/none {shared}", "-o =5 {all}", "-o fsname= {all}"])
def test_options_that_cannot_be_combined_or_served_are_refused(refuse, directory, point, scratch, options):
    (directory / "below").mkdir()
    assert refuse(*options.format(shared=directory, scratch=scratch, all=f"{directory} {point}").split())


@pytest.mark.parametrize("options, name", [
    ("--cach=never", "never"), ("-o no-such-option", "no-such-option"), ("-o loglevel", "loglevel"), ("-o sandbox=some", "some"),
    ("--migration-mode=some", "some"), ("--migration-on-error=some", "some")])
def test_what_cannot_be_of_an_option_is_named(refuse, directory, point, options, name):
    assert name in refuse(directory, point, *options.split())


def test_how_many_files_can_be_open_is_reported_if_more_were_asked_for(share):
    asked = subprocess.run([share, "--rlimit-nofile=2147483647", "--socket-path=/", "/tmp"], stderr=subprocess.PIPE, text=True)
    assert "--rlimit-nofile=2147483647 exceeds the hard limit" in asked.stderr
    unasked = subprocess.run(["sh", "-c", 'ulimit -n 1000 && exec "$0" --socket-path=/ /tmp', share], stderr=subprocess.PIPE,
                             text=True)
    assert "hard limit" not in unasked.stderr


def test_help_warns_of_programs_that_a_guests_root_makes_and_capabilities_are_json(share):
    assert "set-user-ID" in run(share, "--help")
    assert json.loads(run(share, "--print-capabilities"))["type"] == "fs"


def test_missing_and_unexpected_arguments_are_named(refuse, directory, point):
    assert refuse() == "missing directory to share\n" + HINT
    assert refuse(directory) == "missing mount point or --socket-path\n" + HINT
    assert refuse(directory, point, "more") == "unexpected argument 'more'\n" + HINT


def test_a_directory_that_is_missing_or_a_file_is_named_itself(refuse, scratch, point):
    (scratch / "file").write_text("content")
    assert refuse(scratch / "file", point) == f"cannot open '{scratch}/file': Not a directory\n"
    assert refuse(scratch / "none", point) == f"cannot open '{scratch}/none': No such file or directory\n"
    assert refuse("--sandbox=none", f"--socket-path={scratch}/socket", scratch / "file") == \
        f"cannot open '{scratch}/file': Not a directory\n"


@pytest.mark.root
def test_a_directory_that_the_user_may_not_enter_is_named_itself(refuse, scratch, directory):
    directory.chmod(0o700)
    scratch.chmod(0o777)
    assert refuse(f"--socket-path={scratch}/socket", directory, user=65534) == \
        f"cannot open '{directory}': Permission denied\n"


def test_a_socket_whose_directory_is_missing_is_named(refuse, directory, scratch):
    path = f"{scratch}/none/socket"
    assert refuse(f"--socket-path={path}", directory, status=1) == \
        f"cannot create socket '{path}': No such file or directory\n"


@pytest.mark.root
def test_a_socket_whose_directory_may_not_be_written_is_named(refuse, directory, scratch):
    path = f"{scratch}/socket"
    assert refuse(f"--socket-path={path}", directory, user=65534, status=1) == \
        f"cannot create socket '{path}': Permission denied\n"


def test_a_socket_path_that_is_too_long_is_named_with_the_limit(refuse, serve, directory, scratch):
    assert "107 bytes" in refuse(f"--socket-path={scratch}/{'s' * 107}", directory)
    server = serve("--log-level=error")
    assert server.connect() and len(server.socket) <= 107


@pytest.mark.root
def test_options_of_another_user_are_named_with_who_may_use_them(refuse, directory, point):
    for option, message in (("--sandbox=chroot", "--sandbox=chroot requires root\n"),
                            ("--modcaps=-mknod", "--modcaps requires root\n")):
        assert refuse(option, "--socket-path=/dev/shm/none", directory, user=65534) == message
    assert refuse(directory, point, user=65534) == "mounting requires root\n"
    assert refuse("--passthrough", "--writeback", directory, point) == \
        "--passthrough and --writeback cannot be combined: Linux supports only one of them\n"


def test_the_requests_of_a_session_are_counted(serve, directory):
    server = serve()
    client = server.connect()
    client.getattr(1)
    client.close()
    server.end()
    assert "nizwarf-share: 2 requests served\n" in server.stderr()


@pytest.mark.fuse
@pytest.mark.parametrize("options, is_said", [(("-o", "allow_other"), True), (("-o", "allow_other", "--posix-acl"), False), ((), False)])
def test_allow_other_says_what_to_do_about_access_control_lists(mount, options, is_said):
    server = mount(*options)
    server.end()
    assert ("ignores access control lists" in server.stderr()) == is_said
