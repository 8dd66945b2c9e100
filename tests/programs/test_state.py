"""The state of a device, which a vhost-user front end saves and loads by a descriptor of its own."""
import fcntl
import os
import time

from vhost_user import GET_FEATURES, NO_DESCRIPTOR, SAVE, SET_DEVICE_STATE_FD

F_SETPIPE_SZ, PAGE = 1031, 4096


def test_state_is_saved_and_loaded(serve, directory):
    for i in range(400):
        (directory / f"{i:03}{'x' * 60}").touch()
    source = serve().connect()
    nodes = [source.lookup(b"%03d" % i + b"x" * 60) for i in range(400)]
    for queue in source.queues:
        source.stop(queue)
    state = source.save()
    assert len(state) > 400 * 60
    target = serve().connect(init=False)
    assert target.load(state)
    assert [target.getattr(it)[:8] for it in nodes] == [
        os.stat(directory / f"{i:03}{'x' * 60}").st_ino.to_bytes(8, "little") for i in range(400)]


def test_a_front_end_that_does_not_read_its_state_holds_up_the_next_one_no_longer_than_it_is_there(serve, directory):
    """It may clear O_NONBLOCK of its pipe, since the server has the same open file, so that write(2) waits."""
    for i in range(400):
        (directory / f"{i:03}{'x' * 60}").touch()
    server = serve()
    client = server.connect()
    for i in range(400):
        client.lookup(b"%03d" % i + b"x" * 60)
    ours, theirs = os.pipe()
    fcntl.fcntl(theirs, F_SETPIPE_SZ, PAGE)
    assert client.query(SET_DEVICE_STATE_FD, SAVE, 0, shape="II", fds=[theirs]) == NO_DESCRIPTOR
    # (the server waits until it may write again; then it does, into a pipe that lets it wait)
    time.sleep(0.3)
    fcntl.fcntl(theirs, fcntl.F_SETFL, 0)
    os.read(ours, PAGE)
    time.sleep(0.3)
    client.close()
    # (the pipe stays open here, unread, as in a process that outlives the front end)
    server.connect(begin=False).query(GET_FEATURES)
    os.close(ours)
    os.close(theirs)
