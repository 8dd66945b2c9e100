"""What the parts of load.py have in common: what is counted, what is wrong, and a server."""
import os
import subprocess
import sys
import tempfile
import time

from asking import Asking
from vhost_user import Reply

# How many seconds what ends may take to do so: on a machine with other work a process may not run for minutes.
PATIENCE = 600
# What a server may keep, in KiB.
MOST_MEMORY = 128 * 1024

faults = []
counts = {}


def wrong(what):
    """Says at once what failed, and goes on: more may be wrong."""
    faults.append(what)
    print(f"WRONG: {what}", file=sys.stderr, flush=True)


def count(what, times=1):
    counts[what] = counts.get(what, 0) + times


def wait_for(fact, seconds=PATIENCE):
    """Whether a fact came to be."""
    until = time.monotonic() + seconds
    while not fact():
        if time.monotonic() > until:
            return False
        time.sleep(0.05)
    return True


class Server:
    """A server, which is mounted, or listens on a socket."""

    def __init__(self, program, folder, *words, mount=None, socket=None, environment=None):
        self.mount, self.folder = mount, folder
        self.log = tempfile.TemporaryFile("w+")
        place = [folder, mount] if mount else [f"--socket-path={socket}", folder]
        self.process = subprocess.Popen([program, "--log-level=error", *words, *place], stderr=self.log,
                                        env=dict(os.environ, **(environment or {})))
        self.is_up = wait_for(lambda: self.process.poll() is not None or
                              (os.path.ismount(mount) if mount else os.path.exists(socket)))
        self.is_up = self.is_up and self.process.poll() is None
        if self.is_up and mount:
            os.listdir(mount)

    def pid(self):
        """That of what serves: it may be the child of what stands by."""
        with open(f"/proc/{self.process.pid}/task/{self.process.pid}/children") as children:
            return int((children.read().split() or [self.process.pid])[0])

    def descriptors(self):
        """How many the process has that serves."""
        return len(os.listdir(f"/proc/{self.pid()}/fd"))

    def memory(self):
        """What is resident, in KiB, and the most that was."""
        with open(f"/proc/{self.pid()}/status") as status:
            lines = dict(it.split(":", 1) for it in status)
        return int(lines["VmRSS"].split()[0]), int(lines["VmHWM"].split()[0])

    def said(self):
        self.log.seek(0)
        return self.log.read()

    def end(self):
        """Its status, once it is unmounted, or a signal came."""
        if self.process.poll() is None:
            if self.mount:
                wait_for(lambda: not subprocess.call(["umount", self.mount], stderr=subprocess.DEVNULL))
                if os.path.ismount(self.mount):
                    users = subprocess.run(["fuser", "-vm", self.mount], capture_output=True, text=True, check=False)
                    print(users.stdout, users.stderr, file=sys.stderr)
            else:
                self.process.terminate()
        try:
            return self.process.wait(PATIENCE)
        except subprocess.TimeoutExpired:
            self.process.kill()
            return "no end"


class Machine(Asking):
    """A machine, of which is noted what is wrong."""

    def reply(self, text):
        try:
            return super().reply(text)
        except ConnectionError as error:
            return wrong(str(error)) or Reply(None, b"")


def drop_caches():
    """Has the kernel give back the names that it remembers, and nobody uses."""
    with open("/proc/sys/vm/drop_caches", "w") as drop:
        drop.write("2")


def hold_end(server, what):
    """A server must end with 0, also after load."""
    status = server.end()
    if status != 0:
        wrong(f"{what}: the server ended with {status}: {server.said()}")


def hold_descriptors(server, before, what):
    """The kernel gives back what it doesn't remember, if it is asked to; with it goes what the server held."""
    def are_back():
        drop_caches()
        return server.descriptors() <= before
    if not wait_for(are_back):
        wrong(f"{what}: {server.descriptors()} descriptors, and {before} before it")
    resident, most = server.memory()
    counts["most memory of a server, KiB"] = max(counts.get("most memory of a server, KiB", 0), most)
    if resident > MOST_MEMORY:
        wrong(f"{what}: {resident} KiB resident")


def empty(folder):
    """Empties a folder: by find(1), and what that could not remove once more."""
    subprocess.run(["find", folder, "-mindepth", "1", "-delete"], stderr=subprocess.DEVNULL, check=False)
    subprocess.run(f"rm -rf {folder}/* {folder}/.[!.]*", shell=True, check=False)
