"""Fixtures for comparisons with what others wrote. Each is a program, whose output pytest shows if it fails, or with -s."""
import os

import pytest
from requirements import enter_mount_namespace


def pytest_configure():
    enter_mount_namespace()


@pytest.fixture
def requests(request):
    """How many requests a test makes: requests(DEFAULT), or as the option --requests says."""
    return lambda default: request.config.getoption("--requests") or default


@pytest.fixture
def seed(request):
    """By which requests are generated: the same seed makes the same requests."""
    return request.config.getoption("--seed")


@pytest.fixture(scope="session")
def jobs(request):
    """How many processors a comparison uses."""
    return request.config.getoption("--jobs") or os.cpu_count()
