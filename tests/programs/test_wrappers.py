"""nizwarf-demo and nizwarf-decode take options as the other programs do."""
import subprocess

import pytest
from examples import REPOSITORY


@pytest.fixture(params=["nizwarf-demo", "nizwarf-decode"])
def wrapper(request, tmp_path):
    """A wrapper as it is packed: with its version filled in."""
    path = tmp_path / request.param
    path.write_text((REPOSITORY / "packaging" / request.param).read_text().replace("@VERSION@", "1.2.3"))
    path.chmod(0o755)
    return path


def call(*command):
    done = subprocess.run(command, stdin=subprocess.DEVNULL, capture_output=True, text=True, timeout=60)
    return done.returncode, done.stdout, done.stderr


def test_version_says_the_name_and_the_version(wrapper):
    assert call(wrapper, "--version") == (0, f"{wrapper.name} 1.2.3, FUSE 7.38\n", "")


@pytest.mark.parametrize("option", ["--help", "-h"])
def test_help_begins_with_the_usage(wrapper, option):
    status, said, errors = call(wrapper, option)
    assert (status, errors) == (0, "") and said.startswith(f"Usage: {wrapper.name} ")


def test_an_unknown_option_is_named(wrapper):
    assert call(wrapper, "--verison") == (2, "", f"{wrapper.name}: unrecognized option '--verison'\n")


def test_a_file_that_is_not_there_is_named(wrapper):
    assert call(wrapper, "/none") == (2, "", f"{wrapper.name}: cannot read '/none'\n")
