"""Rounds of load.py: mounts that come and go, and machines that migrate. Each takes the programs that it needs, a
folder for its files, and chance."""
import os
import signal
import subprocess
import sys
import tempfile

sys.path[:0] = [f"{os.path.dirname(os.path.abspath(__file__))}/../{it}" for it in ("compare/servers", "lib")]
import migrated
from loaded import PATIENCE, Server, count, empty, wait_for, wrong

# How a mount goes, whether with a file that is open, and the status of its server.
ENDS = {"umount": (False, 0), "umount -l": (True, 0), "a signal": (True, 0), "a server that is killed": (False, 1)}
MOVES = 5


def end_by(server, how):
    """Ends a mount or its server; `umount` is tried again while somebody is at a file."""
    if how.startswith("umount"):
        wait_for(lambda: not subprocess.call([*how.split(), server.mount], stderr=subprocess.DEVNULL))
    elif how == "a signal":
        server.process.terminate()
    else:
        os.kill(server.pid(), signal.SIGKILL)


def use_and_end(server, how, chance):
    """What is written is in the folder, also what is written to an open file of a mount that goes."""
    is_open, wanted = ENDS[how]
    name, data = os.path.basename(server.mount), chance.randbytes(chance.randrange(100000))
    with open(f"{server.mount}/{name}", "wb", buffering=0) as file:
        file.write(data)
        # (a lazy unmount and a signal leave an open file to its user: what is written later must come too)
        if is_open:
            end_by(server, how)
            file.write(b"late")
            data += b"late"
    if not is_open:
        end_by(server, how)
    try:
        came = server.process.wait(PATIENCE)
    except subprocess.TimeoutExpired:
        server.process.kill()
        came = "no end"
    if came != wanted or os.path.ismount(server.mount):
        wrong(f"{how}: status {came}, mounted {os.path.ismount(server.mount)}, {server.said()}")
    with open(f"{server.folder}/{name}", "rb") as file:
        if file.read() != data:
            wrong(f"{how}: {name} is another one")
    count(f"mounts that came, and went by {how}")


def come_and_go(share, work, chance):
    """Mounts of one folder at once, which end in each way."""
    folder = work + "/others"
    for _ in range(8):
        servers = []
        # (several over one folder, each with words of its own)
        for i in range(chance.randrange(1, 5)):
            words = chance.choice(([], ["--sandbox=chroot"], ["--xattr", "--cache=always"], ["--thread-pool-size=1"],
                                   ["--flock", "--posix-lock"]))
            point = f"{work}/point{i}"
            os.makedirs(point, exist_ok=True)
            servers.append(Server(share, folder, *words, mount=point))
            if not servers[-1].is_up:
                return wrong(f"no mount with {words}: {servers[-1].said()}")
        for server in servers:
            use_and_end(server, chance.choice(list(ENDS)), chance)
            os.rmdir(server.mount)
        empty(folder)
    return None


class Moving:
    """A machine whose session goes from daemon to daemon, with files that it holds open: node, handle, data."""

    def __init__(self, client, directory, chance):
        self.client, self.directory, self.chance, self.files = client, directory, chance, {}

    def make(self, name):
        """Makes a file, and notes node, handle and bytes, which the next machine must find again."""
        self.files[name] = [*self.client.create(name, self.directory), b""]
        self.add(name)

    def add(self, name):
        """Writes after what the file has."""
        node, handle, data = self.files[name]
        more = self.chance.randbytes(self.chance.randrange(1, 3000))
        if self.client.write(node, handle, more, len(data)) != len(more):
            wrong(f"a machine that migrates: WRITE of {name} is not whole")
        self.files[name][2] += more

    def hold(self, folder):
        """Each file is what was written, by its handle and in the folder."""
        for name, (node, handle, data) in self.files.items():
            with open(folder + "/" + name.decode(), "rb") as file:
                if self.client.read(node, handle, 1 << 15) != data or file.read() != data:
                    wrong(f"a machine that migrates: {name} is another one")
        for name in self.chance.sample(sorted(self.files), len(self.files) // 2):
            node, handle, _ = self.files.pop(name)
            self.client.release(node, handle)


def move(daemon, at, mode, chance):
    """Moves a session some times. What differs at its end."""
    folder = at + "/share"
    one = migrated.Daemon(at, "daemon0", [daemon], mode)
    try:
        had = migrated.begin(one.asking, folder)
        machine = Moving(one.asking, had["d"], chance)
        for i in range(1, MOVES + 1):
            for k in range(chance.randrange(1, 30)):
                machine.make(b"of%d-%d" % (i, k))
            state = one.asking.leave()
            if state is None:
                return ["the source does not save its state"]
            one.end()
            one = migrated.Daemon(at, f"daemon{i}", [daemon], mode, state)
            machine.client = one.asking
            for name in list(machine.files):
                machine.add(name)
            machine.hold(folder + "/d")
            count("moves of a session from daemon to daemon")
        return migrated.go_on(one.asking, had, folder, True, mode)
    except OSError as error:
        return [f"{type(error).__name__}: {error}"]
    finally:
        one.end()


def migrate(daemon, work, chance):
    """A machine of nizwarf-share, or of virtiofsd over the layer here, is moved some times, in each mode."""
    for mode in migrated.MODES:
        with tempfile.TemporaryDirectory(dir=work) as at:
            migrated.fill(at)
            for it in move(daemon, at, mode, chance):
                wrong(f"a machine that migrates by {mode}: {it}")


