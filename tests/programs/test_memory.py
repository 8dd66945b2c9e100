"""Memory that a vhost-user front end shares: what was mapped is unmapped when it goes, and a file that it cuts ends its
session, but not the server. Both hold for huge pages, of which Linux maps and unmaps whole ones alone."""
import os
import pathlib
import socket

import pytest
from building import REPOSITORY, find_library, run
from requirements import setting
from shapes import Op, record
from vhost_user import GET_FEATURES, GUEST, USER

HUGE = 2 << 20
# A log of all pages below 4 GiB, one bit each.
LOG = (4 << 30) // 4096 // 8
RESERVED = pathlib.Path("/proc/sys/vm/nr_hugepages")


@pytest.fixture
def huge_pages():
    """Reserves huge pages for a test."""
    if "Hugepagesize:       2048 kB" not in setting("/proc/meminfo") or not os.access(RESERVED, os.W_OK):
        pytest.skip("requires root and huge pages of 2 MiB")
    before = setting(RESERVED)
    RESERVED.write_text(str(int(before) + 8))
    try:
        if int(setting(RESERVED)) < int(before) + 8:
            pytest.skip("requires 16 MiB of memory for huge pages")
        yield os.MFD_HUGETLB
    finally:
        RESERVED.write_text(before)


@pytest.fixture(params=["pages", "huge_pages"])
def memfd_flags(request):
    return 0 if request.param == "pages" else request.getfixturevalue("huge_pages")


def connect(server, memfd_flags, cut_by):
    """A front end with one region that ends that many bytes before its file does."""
    client = server.connect(begin=False, queue_size=16, memory_size=4 * HUGE, memfd_flags=memfd_flags)
    client.regions = [(GUEST, client.size - cut_by, USER, 0)]
    client.begin()
    client.init()
    return client


def mappings(server, name="memfd:guest"):
    """The mappings of guests' memory in the serving process, or of files of another name."""
    return [it for it in setting(f"/proc/{server.pid}/maps").splitlines() if name in it]


@pytest.mark.parametrize("cut_by", [0, 4096, HUGE - 4096])
def test_memory_of_a_front_end_that_has_gone_is_unmapped(serve, directory, memfd_flags, cut_by):
    server = serve()
    for _ in range(3):
        connect(server, memfd_flags, cut_by).close()
        # (the next one is served once the one before was parted with)
        last = server.connect(begin=False)
        last.query(GET_FEATURES)
        assert mappings(server) == []
        last.close()


def test_a_new_table_of_memory_replaces_the_mapping(serve, directory, memfd_flags):
    server = serve()
    client = connect(server, memfd_flags, 4096)
    for _ in range(3):
        client.share_memory()
        client.getattr(1)
        assert len(mappings(server)) == 1


def test_a_log_is_unmapped_when_another_one_replaces_it_and_when_its_front_end_goes(serve, directory, memfd_flags):
    server = serve()
    client = connect(server, memfd_flags, 4096)
    for _ in range(3):
        client.share_log(LOG, HUGE, memfd_flags)
        client.getattr(1)
        marked = client.take_marked()
        assert (GUEST + client.queues[1].used) // 4096 in marked
        assert all(GUEST <= page * 4096 < GUEST + client.size for page in marked)
        assert len(mappings(server, "memfd:log")) == 1
    client.close()
    server.connect(begin=False).query(GET_FEATURES)
    assert mappings(server, "memfd:log") == []


@pytest.mark.parametrize("cut_by", [0, 4096])
def test_a_front_end_that_cuts_its_memory_is_disconnected_and_the_next_one_served(serve, directory, memfd_flags, cut_by):
    server = serve()
    client = connect(server, memfd_flags, cut_by)
    client.submit(Op.GETATTR, record(Op.GETATTR), kick=False)
    os.ftruncate(client.memory, 0)
    # (nothing here may touch the memory any more)
    os.eventfd_write(client.queues[1].kick, 1)
    assert client.socket.recv(1, socket.MSG_WAITALL) == b""
    client.close()
    server.connect().getattr(1)
    # (that of the next front end)
    assert len(mappings(server)) == 1


@pytest.mark.parametrize("sanitizer", ["address,undefined", "thread"])
def test_a_late_answer_goes_into_the_memory_that_it_was_asked_in(build, sanitizer):
    """By the queues alone, since no front end is told when memory changes."""
    transport = REPOSITORY / "programs/transport"
    run(build("late_answer.c", "-O1", "-g", f"-fsanitize={sanitizer}", transport / "vhost_queue.c", transport / "later.c",
              *find_library("nizwarf_border")))
