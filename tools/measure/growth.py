"""Measures how the memory and time of daemons grow, for growth.sh.

Usage: growth.py PACE WORK MOST SHARE PASSTHROUGH_LL VIRTIOFSD..

PACE is the built tools/measure/pace.c, WORK an empty directory in memory, and MOST the largest number of files. The others
are the daemons."""
import os
import socket
import subprocess
import sys
import time

from pace import Front

# Numbers of files and of names in a folder; of queues, of requests in flight, of machines.
SIZES = 1_000, 10_000, 100_000, 1_000_000, 3_000_000
FOLDERS = 10, 1_000, 100_000, 1_000_000
QUEUES, DEPTHS, MACHINES = (1, 2, 4, 8), (1, 4, 16, 64), 8
# How many files are looked up again at each size, and how many requests are timed; passthrough_ll has a descriptor for
# each file, and walks a list of them.
AGAIN, REQUESTS, MOST_OF_LIST = 20_000, 40_000, 10_000
SHARE, HELD, VIRTIOFSD, LIBFUSE = "nizwarf-share", "nizwarf-share, descriptors", "virtiofsd", "passthrough_ll"


def say(what):
    """Prints the progress on standard error, because the tables go to standard output."""
    print(f"{time.strftime('%H:%M:%S')} {what}", file=sys.stderr)


class Daemon(Front):
    """A daemon, with a front end that asks it."""

    def __init__(self, name, words, queues=1):
        """Starts a daemon by its words, and pace.c with that many queues; passthrough_ll and it have two ends of a socket."""
        Daemon.count = getattr(Daemon, "count", 0) + 1
        self.name, path, ours, theirs = name, f"{work}/socket-{Daemon.count}", None, None
        if name == LIBFUSE:
            ours, theirs = socket.socketpair(socket.AF_UNIX, socket.SOCK_SEQPACKET)
            for end in (ours, theirs):
                end.setsockopt(socket.SOL_SOCKET, socket.SO_SNDBUF, 4 << 20)
            # (libfuse serves a descriptor that is open already by this name)
            words, path = [*words, f"/dev/fd/{theirs.fileno()}"], str(ours.fileno())
        else:
            words = [*words, f"--socket-path={path}"]
        kept = [end.fileno() for end in (ours, theirs) if end]
        self.process = subprocess.Popen(words, stdin=subprocess.DEVNULL, stdout=subprocess.DEVNULL,
                                        stderr=subprocess.DEVNULL, pass_fds=kept[1:])
        self.front = subprocess.Popen([pace, path, str(self.process.pid), str(queues)], text=True, pass_fds=kept[:1],
                                      stdin=subprocess.PIPE, stdout=subprocess.PIPE)
        for end in (ours, theirs):
            if end:
                end.close()

    def take(self):
        return super().take() or sys.exit(f"{self.name} can't be asked")

    def memory(self):
        """The bytes that are its own."""
        with open(f"/proc/{self.process.pid}/status", encoding="utf-8") as file:
            return next(int(line.split()[1]) * 1024 for line in file if line.startswith("RssAnon"))


def words_of(name, pool=0):
    """The command of a daemon. (Without a thread of a pool virtiofsd answers by the thread of its queue.)"""
    if name == LIBFUSE:
        return [passthrough_ll, "-f", "-o", f"source={shared},cache=auto"]
    is_ours = name in (SHARE, HELD)
    own = [share, f"--node-limit={2 * SIZES[-1]}"] if is_ours else virtiofsd
    return [*own, f"--shared-dir={shared}", "--sandbox=none", "--seccomp=none", "--no-announce-submounts",
            "--inode-file-handles=" + ("never" if name == HELD else "prefer"), f"--thread-pool-size={pool or int(is_ours)}"]


def fill():
    """The folder `many`, those that are listed, whose names are of one file, and what pace.c wants."""
    os.makedirs(shared + "/names")
    os.makedirs(shared + "/many")
    with open(shared + "/file", "wb") as file:
        file.write(bytes(32 << 20))
    for number in range(1000):
        os.mknod(f"{shared}/names/name-{number}")
    for number in range(most):
        os.mknod(f"{shared}/many/{number:07}")
        if number % 500_000 == 0:
            say(f"file {number:,} of {most:,}")
    for size in FOLDERS:
        os.mkdir(f"{shared}/list-{size}")
        # (links of one file, since only names are listed)
        for number in range(min(size, most)):
            os.link(shared + "/file", f"{shared}/list-{size}/{number:07}")


def table(head, rows):
    """Prints a table."""
    print("\n| " + " | ".join(head) + " |\n|" + "---|" * len(head))
    for row in rows:
        print("| " + " | ".join(row) + " |")
    sys.stdout.flush()


def grow(name):
    """Of each size the bytes of a file, and the nanoseconds of the first LOOKUP and a later one; and the nanoseconds of a
    file of a FORGET of all, and those in all of a DESTROY and an INIT."""
    daemon, rows, known = Daemon(name, words_of(name)), {}, 0
    # (so that what a daemon allocates once is not counted as a file's)
    daemon.ask("getattr", 1, 1000)
    begun = daemon.memory()
    for size in sizes:
        if name in (HELD, LIBFUSE) and size > MOST_OF_LIST:
            break
        say(f"{name}, {size:,} files")
        first = daemon.ask("know", 16, size - known)[1] / (size - known)
        held = (daemon.memory() - begun) / size
        # (what is allocated in larger pieces says nothing of few)
        rows[size] = f"{held:,.0f}", f"{first / 1000:,.1f}", f"{daemon.ask('again', 16, AGAIN)[1] / AGAIN / 1000:,.1f}"
        known = size
    say(f"{name}: FORGET, DESTROY, INIT")
    forget = f"{daemon.ask('forget', 1, 1)[1] / known:,.0f}"
    left = f"{max(daemon.memory() - begun, 0) / known:,.0f}"
    # (a million are enough to see the time of a file)
    known = min(known, 1_000_000)
    daemon.ask("know", 16, known)
    destroy = f"{daemon.ask('destroy', 1, 1)[0] / known:,.0f}"
    left += f", {max(daemon.memory() - begun, 0) / max(rows):,.0f}"
    init = f"{daemon.ask('init', 1, 1)[0] / 1_000_000:,.2f}" if name != LIBFUSE else "-"
    daemon.end()
    return rows, (forget, left, destroy, init)


def list_folders(name):
    """Of each folder the nanoseconds of a name."""
    daemon = Daemon(name, words_of(name))
    cells = []
    for size in FOLDERS:
        if size > most:
            break
        say(f"{name}, a folder of {size:,}")
        # (20,000 names at least, so that few are not lost in the clock's steps)
        times = max(1, 20_000 // size)
        cells.append(f"{sum(daemon.ask('list', 1, size)[1] for _ in range(times)) / times / size:,.0f}")
    daemon.end()
    return cells


def rate(asked):
    """Thousands of requests a second of daemons that are asked at once: each of them is told the depth."""
    for daemon, depth in asked:
        daemon.send("getattr", depth, REQUESTS)
    taken = [daemon.take() for daemon, _ in asked]
    # (nanoseconds: times a million is thousands a second; all are done once the slowest is)
    return len(asked) * REQUESTS / max(wall for wall, *_ in taken) * 1e6, sum(ran for _, ran, _ in taken) / len(asked) / REQUESTS / 1000


def in_flight(name, queues, pool):
    """Of each depth thousands of requests a second, and the microseconds of each."""
    daemon = Daemon(name, words_of(name, pool), queues)
    cells = ["{:,.0f} ({:.1f})".format(*rate([(daemon, depth)])) for depth in DEPTHS]
    daemon.end()
    return cells


def machines(name, count):
    """The same of `count` daemons at once, each with its own front end."""
    daemons = [Daemon(name, words_of(name)) for _ in range(count)]
    cells = "{:,.0f} ({:.1f})".format(*rate([(daemon, 4) for daemon in daemons]))
    for daemon in daemons:
        daemon.end()
    return cells


def main():
    """Fills the folder, measures, and prints each table as soon as it is complete."""
    names = SHARE, HELD, VIRTIOFSD, LIBFUSE
    fill()
    grown = {name: grow(name) for name in names}

    def cells(size, form):
        """A row of the table; `-` where a server could not have that many."""
        return [f"{size:,}", *(form.format(*grown[name][0][size]) if size in grown[name][0] else "-" for name in names)]

    print("\nBytes of a known file beyond the daemon's memory at its start, without the kernel's part of descriptors.")
    table(["Files", *names], [cells(size, "{0}") for size in sizes])
    print("\nMicroseconds of the first LOOKUP of a file, and of a later one of any of them.")
    table(["LOOKUP among", *names], [cells(size, "{1}, {2}") for size in sizes])
    print("\nNanoseconds a file of a BATCH_FORGET of all, by processor time, and of a DESTROY of a million, by the clock;\n"
          "milliseconds of an INIT and four requests; and the bytes of a file that are left after the FORGET and the DESTROY.")
    table(["Daemon", "FORGET, ns", "left, bytes", "DESTROY, ns", "INIT, ms"], [[name, *grown[name][1]] for name in names])
    print("\nNanoseconds per name of a directory of that many, by LOOKUP, OPENDIR, READDIR of 256 KiB up to the end, and RELEASEDIR.")
    table(["Daemon", *(f"{size:,}" for size in FOLDERS if size <= most)], [[name, *list_folders(name)] for name in (SHARE, VIRTIOFSD, LIBFUSE)])
    print("\nThousands of GETATTR a second by the clock, by the number in flight over all queues, and in brackets the microseconds of\n"
          "processor time of each. One thread sends them, which shares the processors with the daemon.")
    pool = len(os.sched_getaffinity(0))
    rows = []
    for name, queues, size in (*((SHARE, queues, pool) for queues in QUEUES), (VIRTIOFSD, 1, 0), (VIRTIOFSD, 1, pool)):
        say(f"{name}, {queues} queues")
        rows.append([f"{name}, {queues} queue{'s' * (queues > 1)}, " + (f"{size} workers" if size else "no pool"), *in_flight(name, queues, size)])
    table(["Daemon", *(f"{depth} in flight" for depth in DEPTHS)], rows)
    print("\nThe same of machines at once, each with a daemon of its own, one worker and 4 in flight.")
    rows = []
    for name in (SHARE, VIRTIOFSD):
        say(f"{name}, machines")
        rows.append([name, *(machines(name, count) for count in (1, MACHINES))])
    table(["Daemon", "1 machine", f"{MACHINES} machines"], rows)


if __name__ == "__main__":
    pace, work, most, share, passthrough_ll = sys.argv[1:6]
    virtiofsd, shared, most = sys.argv[6:], work + "/shared", int(most)
    sizes = [size for size in SIZES if size <= most]
    main()
