"""Measures vhost-user daemons of virtio-fs in turns, for tools/measure/share-speed.sh.

Usage: pace.py [--rounds N] [--ms N] [--depths LIST] [--classes LIST] [--clock] PACE WORK DAEMONS

PACE is the built pace.c, which sends requests as a guest of Linux does, and WORK an empty directory in memory. DAEMONS is a
file with a line for each daemon, whose fields are separated by tabs: its name, and its command with arguments. In these,
{socket}, {folder} and {sandbox} are replaced by the socket, the shared directory, and the sandbox.

It prints a table in Markdown. For each class of requests and each number of requests in flight, the table has the processor
time of the first daemon, in microseconds per request, and for each other daemon the median of the ratios to it, with the
quartiles in brackets. With --clock, a second table has the same for the time by the clock."""
import argparse
import contextlib
import os
import random
import statistics
import subprocess
import sys

CLASSES = {
    "getattr": "GETATTR", "lookup": "LOOKUP", "read-4k": "READ of 4 KiB", "write-4k": "WRITE of 4 KiB",
    "read-1m": "READ of 1 MiB", "write-1m": "WRITE of 1 MiB", "readdir": "READDIR of 1,000", "readdirplus": "READDIRPLUS of 1,000",
}
# How often all daemons are started anew: where Linux has once put a daemon's threads it tends to leave them, and one
# processor may be slower than another one, so that the rounds of one pass share that fault.
PASSES = 5
# The default of all daemons, and what is left where the machine lets nobody make namespaces.
SANDBOXES = "namespace", "chroot"


def options():
    """The options of the command. It ends where a class does not exist."""
    parser = argparse.ArgumentParser(add_help=False)
    parser.add_argument("--rounds", type=int, default=45)
    parser.add_argument("--ms", type=int, default=10)
    parser.add_argument("--depths", type=lambda text: [int(it) for it in text.split(",")], default=[1, 16])
    parser.add_argument("--classes", type=lambda text: text.split(","), default=list(CLASSES))
    parser.add_argument("--clock", action="store_true")
    for name in ("pace", "work", "daemons"):
        parser.add_argument(name)
    given = parser.parse_args()
    for name in given.classes:
        if name not in CLASSES:
            sys.exit(f"pace.py: unknown class '{name}': must be one of {', '.join(CLASSES)}")
    return given


def fill(folder):
    """Makes what is shared: a file of 32 MiB, and a folder of 1,000 names."""
    if os.path.exists(folder):
        return
    os.makedirs(f"{folder}/names")
    with open(f"{folder}/file", "wb") as file:
        # (bytes that no file system keeps as holes)
        file.write(os.urandom(1 << 20) * 32)
    for number in range(1000):
        with open(f"{folder}/names/name-{number}", "w", encoding="utf-8"):
            pass


class Front:
    """The processes of a daemon and of the front end that asks it, which growth.py starts otherwise."""

    process = front = None

    def send(self, kind, depth, count):
        """Begins a class of requests; take() waits for its end."""
        with contextlib.suppress(BrokenPipeError):
            self.front.stdin.write(f"{kind} {depth} {count}\n")
            self.front.stdin.flush()

    def take(self):
        """Returns nanoseconds by the clock, those of the processor, and the bytes of all replies; or None where the daemon
        does not serve."""
        return tuple(int(it) for it in self.front.stdout.readline().split()) or None

    def ask(self, kind, depth, count):
        """A class of requests, up to their end."""
        self.send(kind, depth, count)
        return self.take()

    def end(self):
        """Ends both processes. A daemon ends by itself when its front end is gone."""
        with contextlib.suppress(BrokenPipeError):
            self.front.stdin.close()
        self.front.wait()
        try:
            self.process.wait(2)
        except subprocess.TimeoutExpired:
            self.process.terminate()
            self.process.wait()


class Daemon(Front):
    """A daemon that serves a front end. The front end has a processor of its own, and all daemons have the others."""

    def __init__(self, given, number, name, words, sandbox):
        self.name, self.socket = name, f"{given.work}/socket-{number}"
        places = {"socket": self.socket, "folder": f"{given.work}/shared", "sandbox": sandbox}
        front, *rest = sorted(os.sched_getaffinity(0))
        self.said = open(f"{given.work}/said-{number}", "w+", encoding="utf-8")
        self.process = subprocess.Popen([it.format(**places) for it in words], stdin=subprocess.DEVNULL,
                                        stdout=self.said, stderr=self.said,
                                        preexec_fn=lambda: os.sched_setaffinity(0, rest or [front]))
        self.front = subprocess.Popen([given.pace, self.socket, str(self.process.pid)], text=True,
                                      stdin=subprocess.PIPE, stdout=subprocess.PIPE, stderr=self.said,
                                      preexec_fn=lambda: os.sched_setaffinity(0, [front]))

    def must(self, kind, depth, count):
        """The same, but it ends where the daemon does not serve."""
        found = self.ask(kind, depth, count)
        if not found:
            sys.exit(f"{self.name} does not serve {kind}:\n{self.what_it_said()}")
        return found

    def what_it_said(self):
        self.said.seek(0)
        return self.said.read()[-2000:]

    def end(self):
        super().end()
        # (virtiofsd leaves it)
        if os.path.exists(self.socket):
            os.remove(self.socket)
        self.said.close()


def start(given):
    """Starts all daemons, in the first sandbox by which each of them serves. Returns them and that sandbox."""
    with open(given.daemons, encoding="utf-8") as file:
        lines = [line.rstrip("\n").split("\t") for line in file]
    for sandbox in SANDBOXES:
        daemons = [Daemon(given, number, name, words, sandbox) for number, (name, *words) in enumerate(lines)]
        failed = [it for it in daemons if not it.ask("getattr", 1, 4)]
        if not failed:
            return daemons, sandbox
        said = f"{failed[0].name} does not serve, with --sandbox={sandbox}:\n{failed[0].what_it_said()}"
        print(said, file=sys.stderr)
        for daemon in daemons:
            daemon.end()
    sys.exit("No sandbox lets all of them serve.")


def rounds_of(daemons, kind, depth, given):
    """Some rounds of a class: of each daemon the nanoseconds of a request, by the clock and of the processor."""
    # Twice as many until they take half the time that is wanted, then as many as take all of it.
    count = 4 * depth
    while (wall := daemons[0].must(kind, depth, count)[0]) < given.ms * 500_000:
        count = max(2 * count, count * given.ms * 1_000_000 // max(wall, 1) // 2)
    count = max(depth, count * given.ms * 1_000_000 // wall)
    rounds = []
    for number in range(max(1, given.rounds // PASSES)):
        # In another order in each round, so that no daemon always finds in the caches what the same other one left there;
        # but in the same orders in each run.
        order = random.Random(number).sample(daemons, len(daemons))
        asked = {it: it.must(kind, depth, count) for it in order}
        first, *rest = daemons
        length = asked[first][2]
        for it in rest:
            # (another length is another answer, whose time says nothing)
            if asked[it][2] != length:
                sys.exit(f"{kind}: {it.name} replies {asked[it][2]} bytes, and {first.name} {length}.")
        rounds.append([(wall / count, ran / count) for wall, ran, _ in (asked[it] for it in daemons)])
    return rounds


def cells_of(rounds, part):
    """The cells of a class: the first daemon's microseconds, and the ratios of the others."""
    mid = statistics.median(it[0][part] for it in rounds) / 1000
    cells = [f"{mid:.3g} us" if mid < 1000 else f"{mid:,.0f} us"]
    for which in range(1, len(rounds[0])):
        found = [it[which][part] / it[0][part] for it in rounds]
        low, _, high = statistics.quantiles(found, n=4, method="inclusive") if len(found) > 1 else found * 3
        cells.append(f"{statistics.median(found):.2f} [{low:.2f}-{high:.2f}]")
    return cells


def show(daemons, found, part, given):
    """Prints a table. `part` is 0 for the clock and 1 for the processor."""
    columns = [f"{it.name}, {depth} in flight" if depth == given.depths[0] else f"{depth} in flight"
               for it in daemons for depth in given.depths]
    print("| Request | " + " | ".join(columns) + " |\n|---" + "|---" * len(columns) + "|")
    for kind in given.classes:
        # (the figures of one daemon side by side, as the heads are)
        cells = zip(*(cells_of(found[kind, depth], part) for depth in given.depths))
        print(f"| {CLASSES[kind]} | " + " | ".join(it for pair in cells for it in pair) + " |")


def main():
    """Measures, and prints the tables."""
    given = options()
    fill(f"{given.work}/shared")
    found = {(kind, depth): [] for kind in given.classes for depth in given.depths}
    for number in range(PASSES):
        daemons, sandbox = start(given)
        for kind, depth in found:
            print(f"pass {number + 1} of {PASSES}: {CLASSES[kind]}, {depth} in flight", file=sys.stderr)
            found[kind, depth] += rounds_of(daemons, kind, depth, given)
        for daemon in daemons:
            daemon.end()
    rounds = len(found[given.classes[0], given.depths[0]])
    print(f"Each daemon has `--sandbox={sandbox}` and its filter of system calls; {rounds} rounds of {given.ms} ms in turns, "
          f"in {PASSES} passes.\n")
    show(daemons, found, 1, given)
    if given.clock:
        print("\nThe same by the clock:\n")
        show(daemons, found, 0, given)


if __name__ == "__main__":
    main()
