"""Measures the use of files over mounts of several servers in turns, for share-speed.sh and libfuse-speed.sh.

Usage: share_speed.py [--rounds N] [--jobs N] [--classes LIST] [--clock] [--calls] SPEED WORK REPOSITORY SERVERS

SPEED is the built share_speed.c, WORK an empty directory in memory, and REPOSITORY a clone whose files some classes use.
SERVERS is a file with a line for each server, whose fields are separated by tabs: its name, its kind (see KINDS), and its
command with arguments, in which {folder} and {mount} are replaced by the shared directory and the mount point.

It prints a table in Markdown. Its cells are ratios of the first server's processor time to that of another one: that of the
server alone, with the quartiles in brackets, and that of the server and the programs together, because a server may leave
work to the kernel's part of a program that another server does itself. With --clock, a second table has the same for the
time by the clock. With --calls, it counts system calls by strace instead."""
import argparse
import collections
import ctypes
import os
import shutil
import signal
import statistics
import subprocess
import sys
import time

# Of each class: what a row is called, and how many of what one run has.
CLASSES = {
    "getattr": ("GETATTR", 2000, "file"), "lookup": ("first LOOKUP of a file", 2000, "file"),
    "missing": ("LOOKUP of a name that does not exist", 2000, "name"), "open-close": ("open and close", 2000, "file"),
    "create-unlink": ("create and unlink", 2000, "file"), "rename": ("rename", 2000, "file"),
    "readdir": ("readdir of 10,000 names", 50000, "name"), "ls-l": ("readdir and lstat of 10,000 files", 10000, "file"),
    "read-4k": ("READ of 4 KiB, random", 3000, "block"), "write-4k": ("WRITE of 4 KiB, random", 3000, "block"),
    "read-1m": ("READ, sequential, by 1 MiB", 48, "MiB"), "write-1m": ("WRITE, sequential, by 1 MiB", 48, "MiB"),
    "overwrite-1m": ("the same over existing bytes", 48, "MiB"),
    "git-status": ("git status of this repository", 1, "run"), "untar": ("untar of this repository", 1, "run"),
    "names-100k": ("create, ls -l, find and rm -r of 100,000 files", 1, "run"),
}
COMMANDS = {"git-status": ["git", "-C", "clone", "status"], "untar": ["tar", "-xf", "../../archive"]}
DATA = ("read-4k", "write-4k", "read-1m", "write-1m", "overwrite-1m")
# The classes that are run where none is named: the others take long, or are of a tree.
USUAL = [it for it in CLASSES if it not in ("overwrite-1m", "names-100k")]
# What a server of a kind can do. `folder` shares a folder. `data` does too, and is only of interest for data. `tree` has
# its files itself, and `tmpfs` is the kernel's.
KINDS = {"folder": CLASSES, "data": DATA, "tree": CLASSES, "tmpfs": CLASSES}
# Of mount(2).
MS_REMOUNT = 32
# Seconds that nothing here takes: a server that hangs ends the measurement.
LONGEST = 300


class Server:
    """A server of a folder, which is started anew for each run."""

    def __init__(self, given, name, kind, words):
        self.given, self.name, self.kind = given, name, kind
        self.folder, self.mount = f"{given.work}/folder", f"{given.work}/mount"
        self.words = [word.format(folder=self.folder, mount=self.mount) for word in words]
        self.process = None

    def begin(self):
        """Starts it, and waits until it is mounted."""
        if self.kind == "tmpfs":
            subprocess.run(["mount", "-t", "tmpfs", "none", self.mount], check=True)
            return
        with open(f"{self.given.work}/said", "w", encoding="utf-8") as said:
            self.process = subprocess.Popen(self.words, stdin=subprocess.DEVNULL, stdout=said, stderr=said)
        until = time.monotonic() + LONGEST
        while not os.path.ismount(self.mount):
            if self.process.poll() is not None or time.monotonic() > until:
                with open(f"{self.given.work}/said", encoding="utf-8") as said:
                    sys.exit(f"{self.name} ended with {self.process.returncode}: {self.words}\n{said.read()[-2000:]}")
            time.sleep(0.01)

    def end(self):
        subprocess.run(["umount", self.mount], check=True)
        if self.process:
            self.process.wait()

    def set_out(self, what):
        """Creates the files of a class, and starts the server."""
        if self.kind in ("folder", "data"):
            self.fill(self.folder, what)
            self.begin()
            return
        self.begin()
        self.fill(self.mount, what)
        self.forget()

    def run(self, what, server, **more):
        """Runs a class over the mount."""
        words = [self.given.speed, "run" if what in COMMANDS else what, self.mount, str(self.given.jobs), server]
        return subprocess.run([*words, *COMMANDS.get(what, [])], text=True, check=False, timeout=LONGEST,
                              env=dict(os.environ, GIT_OPTIONAL_LOCKS="0"), **more)

    def fill(self, folder, what):
        """Creates what a class needs in a folder."""
        subprocess.run([self.given.speed, "run" if what in COMMANDS else what, folder, str(self.given.jobs)], check=True)
        if what == "git-status":
            for job in range(self.given.jobs):
                shutil.copytree(f"{self.given.work}/clone", f"{folder}/job-{job}/clone", symlinks=True)

    def forget(self):
        """Has the kernel forget what it knows of the files, of which they were just made through the mount."""
        if ctypes.CDLL(None).mount(None, os.fsencode(self.mount), None, MS_REMOUNT, None):
            sys.exit(f"{self.mount} could not be mounted anew")

    def pid(self):
        return str(self.process.pid) if self.process else "0"

    def count(self):
        """Begins to count system calls. Returns a function that ends it and returns how many of each name there were."""
        attached, found = [], [self.pid()]
        for pid in found:
            attached += ["-p", pid]
            found += children_of(pid)
        path = f"{self.given.work}/calls"
        tracer = subprocess.Popen(["strace", "-f", "-c", "-o", path, *attached], stderr=subprocess.DEVNULL)
        # (strace does not say when it is attached)
        time.sleep(0.7)

        def end():
            tracer.send_signal(signal.SIGINT)
            tracer.wait()
            with open(path, encoding="utf-8") as said:
                lines = [it.split() for it in said]
            # (its table: % time, seconds, usecs/call, calls, errors if there are any, name)
            return {it[-1]: int(it[3]) for it in lines if len(it) > 4 and it[3].isdigit() and it[-1] != "total"}
        return end

    def measure(self, what, calls=False):
        """Returns the seconds of a run by the clock, of the server and of the programs; or the server's system calls.
        None: the class fails over this server."""
        os.mkdir(self.folder)
        os.mkdir(self.mount)
        self.set_out(what)
        counted = self.count() if calls else dict
        ran = self.run(what, self.pid(), stdout=subprocess.PIPE, stderr=subprocess.DEVNULL)
        counts = counted()
        self.end()
        os.rmdir(self.mount)
        shutil.rmtree(self.folder)
        if ran.returncode:
            return None
        # (the last line is that of share_speed.c)
        return counts if calls else [float(it) for it in ran.stdout.split("\n")[-2].split()]


def children_of(pid):
    """The processes that the threads of a process have started."""
    found = []
    for task in os.listdir(f"/proc/{pid}/task"):
        with open(f"/proc/{pid}/task/{task}/children", encoding="utf-8") as children:
            found += children.read().split()
    return found


def options():
    parser = argparse.ArgumentParser(add_help=False)
    parser.add_argument("--rounds", type=int, default=11)
    parser.add_argument("--jobs", type=int, default=1)
    parser.add_argument("--classes", type=lambda text: text.split(","), default=USUAL)
    parser.add_argument("--clock", action="store_true")
    parser.add_argument("--calls", action="store_true")
    for name in ("speed", "work", "repository", "servers"):
        parser.add_argument(name)
    given = parser.parse_args()
    for name in given.classes:
        if name not in CLASSES:
            sys.exit(f"share_speed.py: unknown class '{name}': must be one of {', '.join(CLASSES)}")
    return given


def rounds_of(servers, what, given):
    """The times of a class over each server that can do it: a list of rounds for each name."""
    able = [it for it in servers if what in KINDS[it.kind]]
    print(f"{time.strftime('%H:%M:%S')} {CLASSES[what][0]}", file=sys.stderr)
    times = {it.name: [] for it in able}
    # (what takes long has three rounds at most)
    for turn in range(min(given.rounds, 3) if what == "names-100k" else given.rounds):
        for i in range(len(able)):
            # Each round begins with another server, so that none always finds the machine warm.
            server = able[(i + turn) % len(able)]
            times[server.name].append(server.measure(what))
    if None in times[servers[0].name]:
        sys.exit(f"{servers[0].name} fails at {CLASSES[what][0]}.")
    return {name: of for name, of in times.items() if None not in of}


def ratio(ours, theirs, part, with_spread=True):
    """A cell: the median of the ratios of the rounds, and the quartiles. `part` takes one figure of a run."""
    found = [part(mine) / part(its) for mine, its in zip(ours, theirs) if part(its)]
    if not found:
        return "-"
    low, _, high = statistics.quantiles(found, n=4, method="inclusive") if len(found) > 1 else found * 3
    return said(statistics.median(found)) + (f" [{said(low)}-{said(high)}]" if with_spread else "")


def said(number):
    return f"{number:.2f}" if number < 10 else f"{number:.0f}"


def of_server(run):
    return run[1]


def of_both(run):
    return run[1] + run[2]


def of_clock(run):
    return run[0]


def head(first, *columns):
    print("| " + " | ".join((first, *columns)) + " |\n|---" + "|---" * len(columns) + "|")


def each_time(of, what, part, jobs):
    """A cell: the median of a figure for each file, name or block; in milliseconds for one of a whole run."""
    _, count, unit = CLASSES[what]
    seconds = statistics.median(map(part, of)) / count / jobs
    return f"{seconds * 1000:.0f} ms" if unit == "run" else f"{seconds * 1e6:.3g} us" if seconds < 1e-3 else f"{seconds * 1e6:,.0f} us"


def show_times(servers, given):
    """Measures all classes, and prints the tables."""
    ours, *others = [it.name for it in servers]
    head("Class", f"{ours}: server", *(it for other in others for it in (f"by {other}: server", "server and client")))
    kept = {}
    for what in given.classes:
        times = kept[what] = rounds_of(servers, what, given)
        cells = [each_time(times[ours], what, of_server, given.jobs)]
        for other in others:
            of = times.get(other, [])
            cells += [ratio(times[ours], of, of_server), ratio(times[ours], of, of_both, False)]
        print("| " + " | ".join((CLASSES[what][0], *cells)) + " |", flush=True)
    if not given.clock:
        return
    print("\nThe same by the clock:\n")
    head("Class", ours, *(f"by {other}" for other in others))
    for what, times in kept.items():
        cells = [ratio(times[ours], times.get(other, []), of_clock) for other in others]
        print("| " + " | ".join((CLASSES[what][0], each_time(times[ours], what, of_clock, given.jobs), *cells)) + " |")


def show_calls(servers, given):
    """Counts system calls, and prints the table of them."""
    head("Class", *(it.name for it in servers))
    for what in given.classes:
        name_of, count, unit = CLASSES[what]
        if unit == "run":
            continue
        if what == "readdir":
            # (of a listing: a name takes a small part of a call)
            count, unit = count // 10000, "listing"
        print(f"{time.strftime('%H:%M:%S')} {name_of}", file=sys.stderr)
        cells = []
        for server in servers:
            counts = server.measure(what, calls=True) if what in KINDS[server.kind] else None
            each = [(name, made / count) for name, made in collections.Counter(counts or {}).most_common()]
            shown = ", ".join(f"{name} {made:.2f}".replace(".00", "") for name, made in each if made >= 0.05)
            cells.append("-" if counts is None else shown or "fewer")
        print(f"| {name_of}, each {unit} | " + " | ".join(cells) + " |", flush=True)


def main():
    """Reads what the servers are, and measures."""
    given = options()
    with open(given.servers, encoding="utf-8") as file:
        lines = [line.rstrip("\n").split("\t") for line in file]
    servers = [Server(given, name, kind, words) for name, kind, *words in lines]
    archive = ["git", "-C", given.repository, "archive", "--output", f"{given.work}/archive", "--format=tar", "HEAD"]
    subprocess.run(archive, check=True)
    subprocess.run(["git", "clone", "-q", given.repository, f"{given.work}/clone"], check=True)
    (show_calls if given.calls else show_times)(servers, given)


if __name__ == "__main__":
    main()
