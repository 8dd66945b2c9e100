#!/usr/bin/env python3
"""Locks as programs see them, the same on any file system that keeps them.

Usage: tests/programs/locks.py [--no-ofd-close] [--cases] FILE [OTHER]

It locks FILE by flock(2) and fcntl(2), from processes of its own: shared and exclusive, ranges that split and join,
F_GETLK, waiting, which a signal or a kill ends, and what a close or an exit gives up. Whom it locks out opens OTHER, if
that is another path of the file, as on a second mount. It prints a line for each step, `ok` or `WRONG`, and their count;
with --cases its number and name, a tab, and `ok` or what it came to. With --no-ofd-close the last step is left out: Linux
tells a FUSE server of no close of a description that has a lock of F_OFD_SETLK. Status 0: all are as POSIX and Linux say;
1: some are not.
"""
import errno
import fcntl
import os
import signal
import struct
import sys
import time

READ, WRITE, NONE = fcntl.F_RDLCK, fcntl.F_WRLCK, fcntl.F_UNLCK
EXCLUSIVE, SHARED, AT_ONCE, UNLOCK = fcntl.LOCK_EX, fcntl.LOCK_SH, fcntl.LOCK_NB, fcntl.LOCK_UN
# F_OFD_SETLK of fcntl.h, which this Python may lack.
OFD_SETLK = 37
# In seconds: after which a thing counts as waited for, and as too late.
LATER, LONG = 0.2, 5
counts = {"ok": 0, "WRONG": 0}
as_cases = False


class Alarm(Exception):
    """A signal came."""


def step(what, got, wanted):
    """Tells of a step, and counts it as right or wrong."""
    word = "ok" if got == wanted else "WRONG"
    counts[word] += 1
    if as_cases:
        print(f"{sum(counts.values()):02} {what}\t{word if word == 'ok' else f'failed: {got}'}", flush=True)
        return
    print(word, what, got, "" if word == "ok" else f"in place of {wanted}", flush=True)


def started(path, does):
    """A process that opens the file and does this, and a pipe that has what it tells."""
    reads, writes = os.pipe()
    pid = os.fork()
    if pid:
        os.close(writes)
        return pid, reads
    os.close(reads)
    try:
        said = does(os.open(path, os.O_RDWR), lambda: os.write(writes, b"w"))
    except OSError as error:
        said = errno.errorcode[error.errno]
    # (after a blank: before it may stand the byte by which it told that it waits)
    os.write(writes, f" {said}".encode())
    os._exit(0)


def ended(process):
    """What a process told, once it ended."""
    pid, reads = process
    said = b""
    # (up to the end, which is that of the process, also of one that is killed)
    while some := os.read(reads, 100):
        said += some
    os.close(reads)
    os.waitpid(pid, 0)
    return said.decode().strip()


def named(does):
    """`got`, or the name of the error."""
    try:
        does()
        return "got"
    except OSError as error:
        return errno.errorcode[error.errno]


def flock(fd, how):
    """What flock(2) comes to."""
    return named(lambda: fcntl.flock(fd, how))


def packed(kind, start, length):
    """A struct flock: l_type, l_whence, which is SEEK_SET, l_start, l_len, l_pid."""
    return struct.pack("hhqqi4x", kind, 0, start, length, 0)


def setlk(fd, kind, start=0, length=0, command=fcntl.F_SETLK):
    """What F_SETLK comes to, or another command. (a length of 0 is up to the end, whatever that is)"""
    return named(lambda: fcntl.fcntl(fd, command, packed(kind, start, length)))


def getlk(fd, kind, start, length):
    """What is in the way of a lock, by F_GETLK: kind, start, length, and whose it is. (Asked by a child of its holder)"""
    found = fcntl.fcntl(fd, fcntl.F_GETLK, packed(kind, start, length))
    kind, _, start, length, pid = struct.unpack("hhqqi4x", found)
    return kind, start, length, "mine" if pid == os.getppid() else "other" if kind != NONE else ""


def timed(does):
    """What it came to, and whether that took as long as something that waits."""
    begun = time.time()
    said = does()
    return f"{said} {'late' if LATER < time.time() - begun < LONG else 'at once'}"


def waits(lock):
    """What a process does that waits for a lock, for `started`."""
    def does(fd, tell):
        tell()
        return timed(lambda: lock(fd))
    return does


def interrupted(lock):
    """A lock that an alarm ends, which comes after twice LATER: what a process does, for `started`."""
    def ring(*_):
        # (after a handler that returns Python would begin the call anew)
        raise Alarm

    def does(fd, _):
        signal.signal(signal.SIGALRM, ring)
        # (late enough to count as waiting)
        signal.setitimer(signal.ITIMER_REAL, 2 * LATER)

        def until_alarm():
            try:
                return lock(fd)
            except Alarm:
                return "interrupted"
        return timed(until_alarm)
    return does


def setlkw(fd):
    """What a lock of the whole file comes to that is waited for."""
    return setlk(fd, WRITE, command=fcntl.F_SETLKW)


class Locks:
    """The steps, over one descriptor of this process, and those of others."""
    def __init__(self, path, other):
        self.path, self.others = path, other
        self.fd = os.open(path, os.O_RDWR)

    def other(self, does):
        """What another process comes to that opens the file."""
        return ended(started(self.others, lambda fd, _: does(fd)))

    def waiting(self, lock, release):
        """What another process comes to that waits for what is released meanwhile."""
        process = started(self.others, waits(lock))
        os.read(process[1], 1)
        time.sleep(2 * LATER)
        release()
        return ended(process)

    def given_up(self, lock):
        """What a lock comes to whose holder has ended, or closed the file. (Linux waits for no RELEASE of a FUSE server's. What
        is asked next may come before it, on another mount, and on the ring of another processor.)"""
        until = time.time() + LONG
        while (said := lock()) != "got" and time.time() < until:
            time.sleep(0.05)
        return said

    def flocks(self):
        """flock(2): exclusive and shared, waiting, and what an exit gives up."""
        step("flock", flock(self.fd, EXCLUSIVE), "got")
        step("flock by another", self.other(lambda fd: flock(fd, EXCLUSIVE | AT_ONCE)), "EAGAIN")
        step("a shared one by another", self.other(lambda fd: flock(fd, SHARED | AT_ONCE)), "EAGAIN")
        step("fcntl beside it", self.other(lambda fd: setlk(fd, WRITE)), "got")
        step("down to a shared one", flock(self.fd, SHARED), "got")
        step("a shared one by another", self.other(lambda fd: flock(fd, SHARED | AT_ONCE)), "got")
        step("flock by another", self.other(lambda fd: flock(fd, EXCLUSIVE | AT_ONCE)), "EAGAIN")
        said = self.waiting(lambda fd: flock(fd, EXCLUSIVE), lambda: step("unlock", flock(self.fd, UNLOCK), "got"))
        step("one that waited", said, "got late")
        step("flock after an exit", self.given_up(lambda: flock(self.fd, EXCLUSIVE | AT_ONCE)), "got")
        step("unlock", flock(self.fd, UNLOCK), "got")

    def ranges(self):
        """fcntl(2): ranges that split and join, F_GETLK, and waiting."""
        step("10 to 19", setlk(self.fd, WRITE, 10, 10), "got")
        step("what is in the way", self.other(lambda fd: getlk(fd, WRITE, 0, 0)), str((WRITE, 10, 10, "mine")))
        step("before it nothing", self.other(lambda fd: getlk(fd, WRITE, 0, 10)), str((NONE, 0, 10, "")))
        step("its last byte by another", self.other(lambda fd: setlk(fd, READ, 19, 1)), "EAGAIN")
        step("after it by another", self.other(lambda fd: setlk(fd, WRITE, 20, 0)), "got")
        step("12 to 14 unlocked", setlk(self.fd, NONE, 12, 3), "got")
        step("the hole by another", self.other(lambda fd: setlk(fd, WRITE, 12, 3)), "got")
        step("after the hole", self.other(lambda fd: getlk(fd, WRITE, 13, 100)), str((WRITE, 15, 5, "mine")))
        step("read from 30 on", setlk(self.fd, READ, 30, 0), "got")
        step("read by another", self.other(lambda fd: setlk(fd, READ, 40, 5)), "got")
        step("write by another", self.other(lambda fd: setlk(fd, WRITE, 40, 5)), "EAGAIN")
        step("to the end", self.other(lambda fd: getlk(fd, WRITE, 40, 5)), str((READ, 30, 0, "mine")))
        said = self.waiting(setlkw, lambda: step("unlock", setlk(self.fd, NONE), "got"))
        step("one that waited", said, "got late")

    def interrupts(self):
        """Waiting that a signal or a kill ends."""
        step("all", setlk(self.fd, WRITE), "got")
        step("waiting interrupted", ended(started(self.others, interrupted(setlkw))), "interrupted late")
        step("flock", flock(self.fd, EXCLUSIVE), "got")
        said = ended(started(self.others, interrupted(lambda fd: flock(fd, EXCLUSIVE))))
        step("waiting for flock interrupted", said, "interrupted late")
        process = started(self.others, waits(setlkw))
        os.read(process[1], 1)
        time.sleep(2 * LATER)
        os.kill(process[0], signal.SIGKILL)
        step("waiting killed", ended(process), "")
        step("unlock", setlk(self.fd, NONE), "got")
        step("after the killed one", self.other(lambda fd: setlk(fd, WRITE)), "got")

    def closes(self):
        """What a close of any descriptor of the file gives up."""
        step("all", setlk(self.fd, WRITE), "got")
        # POSIX: any close of the file by a process gives up its locks of fcntl(2).
        os.close(os.open(self.path, os.O_RDONLY))
        step("unlocked by another descriptor's close", self.other(lambda fd: setlk(fd, WRITE)), "got")
        step("all", setlk(self.fd, WRITE), "got")
        step("unlock", flock(self.fd, UNLOCK), "got")
        step("flock", flock(self.fd, EXCLUSIVE), "got")
        os.close(self.fd)
        said = self.other(lambda fd: self.given_up(lambda: flock(fd, EXCLUSIVE | AT_ONCE)))
        step("flock after a close", said, "got")
        step("fcntl after a close", self.other(lambda fd: setlk(fd, WRITE)), "got")

    def descriptions(self, with_close):
        """Locks of an open file description, by F_OFD_SETLK."""
        one, other = os.open(self.path, os.O_RDWR), os.open(self.others, os.O_RDWR)
        step("a description's lock", setlk(one, WRITE, command=OFD_SETLK), "got")
        step("by another description", setlk(other, WRITE, 5, 1, OFD_SETLK), "EAGAIN")
        if with_close:
            os.close(one)
            time.sleep(LATER)
            step("after its close", setlk(other, WRITE, 5, 1, OFD_SETLK), "got")
        else:
            step("unlocked", setlk(one, NONE, command=OFD_SETLK), "got")


def main():
    """Goes through all steps, by the words of the command."""
    global as_cases
    words = sys.argv[1:]
    with_close, as_cases = "--no-ofd-close" not in words, "--cases" in words
    words = [word for word in words if word not in ("--no-ofd-close", "--cases")]
    if len(words) not in (1, 2) or words[0].startswith("-"):
        print(__doc__.strip())
        return 0 if words in (["-h"], ["--help"]) else 2
    locks = Locks(words[0], words[-1])
    locks.flocks()
    locks.ranges()
    locks.interrupts()
    locks.closes()
    locks.descriptions(with_close)
    if not as_cases:
        print(f"{counts['ok'] + counts['WRONG']} steps, {counts['WRONG']} wrong")
    return 1 if counts["WRONG"] else 0


sys.exit(main())
