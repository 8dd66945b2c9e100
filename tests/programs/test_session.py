"""A session of either transport: a file of the shared directory is looked up and read."""
import errno
import os

import pytest


def test_socket_serves_a_file(serve, directory):
    (directory / "file").write_bytes(b"content")
    client = serve().connect()
    node = client.lookup(b"file")
    handle = client.open(node, os.O_RDONLY)
    assert client.read(node, handle, 100) == b"content"
    client.release(node, handle)
    with pytest.raises(OSError) as missing:
        client.lookup(b"missing")
    assert missing.value.errno == errno.ENOENT


@pytest.mark.parametrize("options", [{}, {"indirect": True}, {"features": 1 << 29}, {"regions": 3}])
def test_queues_serve_many_requests_in_flight(serve, directory, options):
    (directory / "file").write_bytes(bytes(range(256)) * 64)
    client = serve().connect(queues=4, **options)
    node, handle = client.create(b"new")
    assert client.write(node, handle, b"written") == 7
    assert (directory / "new").read_bytes() == b"written"
    nodes = {client.lookup(b"file", queue=i % 3 + 1) for i in range(90)}
    assert len(nodes) == 1
    reading = [client.submit(3, bytes(16), node, queue=i % 3 + 1) for i in range(90)]
    assert [client.wait(it).error for it in reading] == [0] * 90


def test_mount_serves_a_file(mount, directory):
    (directory / "file").write_bytes(b"content")
    server = mount()
    assert (server.path / "file").read_bytes() == b"content"
    (server.path / "new").write_bytes(b"written")
    assert (directory / "new").read_bytes() == b"written"
