#!/usr/bin/env python3
"""Asks virtiofsd, and the virtiofsd whose protocol layer is replaced, the same requests over equal folders.

Usage: replaced.py FOLDER SEED COUNT REPLACED THEIRS..
REPLACED is the daemon with the layer here, and THEIRS are the words that start virtiofsd. Both get the options of DAEMON and a folder of their own, made in FOLDER. Asked are
  the hostile requests of requests.py, each session of a new process: the replaced one must answer the
    request after it, and answer all as virtiofsd does, if that goes on
  COUNT well-formed requests by SEED, in sessions with the options of OPTIONS: the replies must be the same,
    and after each session the folders, and the number of open descriptors
  entries and handles in rooms that are too short for them: the replaced one must give them back to its file
    system, which shows in its number of descriptors
  COUNT requests by SEED of which most are broken, of the replaced one alone: each must be completed
Of a reply the numbers of nodes, handles and inodes, the times, and how full the file system is do not count.
Status 0: all were; 1: not so; 2: it could not start.
"""
import collections
import os
import random
import re
import struct
import sys
import tempfile

import beside
import daemon
from asking import HUNG_UP, NONE
import generate
import generated
from beside import over
import requests
from shapes import Op, record

DAEMON = ["--socket-path", "SOCKET", "--shared-dir", "SHARE", "--sandbox", "none", "--seccomp", "none",
          "--no-announce-submounts", "--xattr"]
# Words that change what a session is like; a session has those of its seed.
OPTIONS = ([], ["--cache=always", "--writeback"], ["--posix-acl", "--security-label"], ["--thread-pool-size=4"],
           ["--allow-direct-io", "--cache=never"], ["--no-readdirplus"])
LENGTH = 1000
# Longer files than of that many bytes can't be made, as by a FALLOCATE: the folders are on a real disk.
LIMIT = "prlimit", f"--fsize={1 << 24}"
INIT = requests.line("16+64", requests.init(flags2=15))
# In what two replies may differ that virtiofsd's own fault explains.
PAST_SIZE = "READ whose room is longer than its size: virtiofsd reads past the size, and answers EIO"


class Daemon(daemon.Daemon):
    """A daemon with a folder of its own, and a client of it."""

    def __init__(self, words, at, options):
        """Starts the words with options, over a new folder below `at`."""
        self.folder, self.log = at + "/share", open(at + "/log", "w+", encoding="utf-8", errors="replace")
        os.mkdir(self.folder)
        generated.fill(self.folder)
        # (the signal of that limit stays ignored, as it is here, so that a call answers EFBIG)
        super().__init__([*LIMIT, *words, *DAEMON, *options], at + "/socket", self.folder, self.log,
                         restore_signals=False)
        self.client = generated.Client()

    def descriptors(self):
        """How many it has open: of each node that a client knows there is one."""
        return len(os.listdir(f"/proc/{self.process.pid}/fd"))

    def end(self, seconds=0):
        super().end(seconds)
        self.log.close()


def plain(client, request, answer):
    """What of an answer counts. Bytes after the reply, if there are any, are left as they are."""
    parts = answer.split(" ")
    if not re.fullmatch(r"\d+", parts[0]) or len(parts) < 2 or parts[1] == "after":
        return answer
    reply = bytes.fromhex(parts[1])
    if len(reply) >= 16 and reply[4:8] == bytes(4):
        reply = client.plain(request, reply)
    return " ".join([parts[0], reply.hex(), *parts[2:]])


def why(request, there, here):
    """Why two answers differ, if it is known."""
    room = sum(map(int, request.room.split("+")))
    # A READ (15) that is EIO there (-5, 0xfb), and here no error.
    if request.opcode == 15 and there.startswith("16 10000000fbffffff") and re.match(r"\d+ .{8}0{8}", here):
        return PAST_SIZE if room > 16 + struct.unpack_from("<I", request.parts[2])[0] else None
    return None


def options_of(answer):
    """The options in the reply to INIT."""
    reply = bytes.fromhex(answer.split(" ")[1])
    # (`flags` of INIT's reply, and `flags2` above them)
    return struct.unpack_from("<I", reply, 28)[0] | struct.unpack_from("<I", reply, 48)[0] << 32


def ask(daemon, request):
    """Asks a daemon, and again if openat2(2) failed with EAGAIN: it does so for `..` if anything is renamed on the machine."""
    line = daemon.client.build(request)
    for _ in range(100):
        answer = daemon.ask(line)
        if not answer.startswith("16 10000000f5ffffff"):
            break
    return answer


def compare(session):
    """What came of a session of well-formed requests: counts, what differed, and whether the folders are equal."""
    seed, count = session
    options = OPTIONS[seed % len(OPTIONS)]
    rng = random.Random(seed)
    found, shown, errors = collections.Counter(), [], 0
    with tempfile.TemporaryDirectory(dir=beside.folder) as at:
        os.mkdir(at + "/there")
        os.mkdir(at + "/here")
        with Daemon(beside.theirs, at + "/there", options) as there, Daemon([replaced], at + "/here", options) as here:
            first = there.ask(INIT), here.ask(INIT)
            found["same" if first[0] == first[1] else "INIT differs"] += 1
            if not first[0].startswith("80 ") or not first[1].startswith("80 "):
                raise beside.Stopped(f"virtiofsd can't be asked with {options}: {first}")
            maker = generated.Maker(rng, there.client, options_of(first[0]))
            for n, request in enumerate(maker.session(count)):
                try:
                    answers = [ask(daemon, request) for daemon in (there, here)]
                # (it is of a node or handle that only the other daemon gave out)
                except IndexError:
                    shown.append(f"session {seed}, {n}: the daemons gave out different numbers before")
                    break
                alike = [plain(daemon.client, request, answer)
                         for daemon, answer in zip((there, here), answers)]
                known = None if alike[0] == alike[1] else why(request, *alike)
                found["same" if alike[0] == alike[1] else known or "differs"] += 1
                # (16 bytes whose error is not 0)
                errors += bool(re.match(r"16 10000000(?!0{8})", alike[1]))
                if alike[0] != alike[1] and not known:
                    shown.append(f"session {seed} {options}, {n}: {requests.NAMES.get(request.opcode)} "
                                 f"{there.client.build(request)[:200]}\n  virtiofsd {answers[0][:300]}\n"
                                 f"  replaced  {answers[1][:300]}")
                    # (one of them is gone, so what follows says nothing)
                    if {NONE, HUNG_UP} & set(alike):
                        break
            # What the sessions did to the folders, and how many nodes are held open at the end.
            trees = [generated.tree(daemon.folder) for daemon in (there, here)]
            found["sessions whose folders are equal" if trees[0] == trees[1] else "folders differ"] += 1
            counts = [daemon.descriptors() for daemon in (there, here)]
            found["sessions with as many descriptors" if counts[0] == counts[1] else "descriptors differ"] += 1
            if counts[0] != counts[1]:
                shown.append(f"session {seed}: {counts[0]} descriptors there, {counts[1]} here")
            if trees[0] != trees[1]:
                shown.append(f"session {seed}: " + "\n".join(
                    f"{a}\n{b}" for a, b in zip(*trees) if a != b)[:600])
    found["errors"] += errors
    return found, shown


def broken(rng, line):
    """A request that is another one in some of its bytes or lengths, in a room of another size."""
    room, pieces = line.split(" ")
    made = bytearray(generate.broken(bytes.fromhex(pieces.replace("+", "")), rng))
    if len(made) >= 8 and rng.random() < .2:
        # (of another opcode, or of a number that is none)
        struct.pack_into("<I", made, 4, rng.choice((rng.randrange(60), rng.randrange(2**32))))
    if len(made) >= 64 and struct.unpack_from("<I", made, 4)[0] == 43:
        # A FALLOCATE past the end of a file takes what it asks for, whatever the limit: at most 64 KiB here.
        struct.pack_into("<Q", made, 56, struct.unpack_from("<Q", made, 56)[0] & 0xFFFF)
    room = rng.choice((room, room, "0", "15", "16", "17", "8+8", "1+1+1", "4096"))
    return requests.line(room, bytes(made), [cut for cut in (40, rng.randrange(1, 200)) if rng.random() < .5])


def survive(session):
    """How many requests, of which most are broken, the replaced one completed, and what it did not."""
    seed, count = session
    rng = random.Random(-seed)
    found = collections.Counter()
    with tempfile.TemporaryDirectory(dir=beside.folder) as at:
        with Daemon([replaced], at, OPTIONS[seed % len(OPTIONS)]) as here:
            maker = generated.Maker(rng, here.client, options_of(here.ask(INIT)))
            for n, request in enumerate(maker.session(count)):
                line = here.client.build(request)
                # (after those by which the session gets nodes and handles)
                is_broken = n >= generated.FIRST and rng.random() < .6
                line = broken(rng, line) if is_broken else line
                answer = here.ask(line)
                if not re.match(r"\d+ ", answer):
                    here.log.flush()
                    here.log.seek(0)
                    return found, [f"session {seed}, {n}: {line[:300]}\n  {answer}\n{here.log.read()[-1000:]}"]
                found["completed with no byte" if answer.startswith("0 ") else "answered"] += 1
                if not is_broken:
                    plain(here.client, request, answer)
    return found, []


def reply_to(daemon, line):
    """What is in a reply after its header."""
    return bytes.fromhex(daemon.ask(line).split(" ")[1])[16:]


def give_back():
    """Requests for entries and handles, each in a room that is too short for its reply, and what was kept."""
    create = record(Op.CREATE, flags=2, mode=0o644)
    asked = [(Op.LOOKUP, b"l\0", "143"), (Op.MKDIR, record(Op.MKDIR, mode=0o755) + b"a\0", "16+127"),
             (Op.MKNOD, record(Op.MKNOD, mode=0o100644) + b"b\0", "16"), (Op.SYMLINK, b"c\0d\0", "40"),
             (Op.LINK, record(Op.LINK, of_node=2) + b"e\0", "100"), (Op.OPEN, record(Op.OPEN), "16+15"),
             (Op.OPENDIR, record(Op.OPENDIR), "31"), (Op.CREATE, create + b"f\0", "16+128+15"),
             (Op.CREATE, create + b"g\0", "16")]
    with tempfile.TemporaryDirectory(dir=beside.folder) as at, Daemon([replaced], at, []) as here:
        here.ask(INIT)
        here.ask(requests.line("16+128", requests.request(1, b"h2\0")))
        before, faults = here.descriptors(), []
        for opcode, body, room in asked:
            answer = here.ask(requests.line(room, requests.request(opcode, body)))
            if not answer.startswith("0 ") or here.descriptors() != before:
                faults.append(f"{opcode.name} in a room of {room}: {answer}; {before} descriptors before it, "
                              f"{here.descriptors()} after it")
        # An item that does not fit, whose node the client does not know: it is looked up.
        handle = struct.unpack_from("<Q", reply_to(here, requests.line("32", requests.request(27, bytes(8)))))[0]
        items = reply_to(here, requests.line("4112", requests.transfer(28, 4096, handle=handle)))
        before, place, at = here.descriptors(), 0, 0
        # (to the first item that is neither `.` nor `..`)
        while not items[at + 24:].startswith((b"d1", b"l\0")):
            place, length = struct.unpack_from("<QI", items, at + 8)
            at += 24 + (length + 7 & ~7)
        answer = here.ask(requests.line("16+40", requests.transfer(44, 40, place=place, handle=handle)))
        if not answer.startswith("16 1000000000000000") or here.descriptors() != before:
            faults.append(f"READDIRPLUS in a room of 56: {answer}; {before} descriptors before it, "
                          f"{here.descriptors()} after it")
    return len(asked) + 1, faults


def hostile(session):
    """Of each judged request its name, its kind and its part, and whether both answered the last one."""
    return beside.judge(session, [*beside.theirs, *DAEMON], [replaced, *DAEMON], ["attributes"])


def in_sessions(seed, count):
    """Seeds and lengths of sessions that have this many requests together."""
    return [(seed + n, min(LENGTH, count - n * LENGTH)) for n in range((count + LENGTH - 1) // LENGTH)]


def show(rows, head):
    """Prints a table of two columns."""
    print(f"\n| {head} | How many |\n|---|---|")
    for name, count in rows:
        print(f"| {name} | {count} |")


def main(seed, count):
    """Asks all, prints the tables, and ends with 1 if there is a fault."""
    faults = []
    judged = list(over("Hostile requests", 8, hostile, requests.sessions()))
    kinds = beside.by_parts(judged)
    wrong = beside.count(kinds.get(None, {}))
    faults += [came for found, _, _ in judged for *_, came in found if came]
    went_on, theirs_went_on = (sum(it[at] for it in judged) for at in (1, 2))
    if went_on < len(judged):
        faults.append("The replaced one did not go on after each hostile session.")
    show([("the same bytes", beside.count(kinds.get(beside.SAME, {}))),
          ("the same, inode numbers and times apart", beside.count(kinds.get(beside.DIFFER, {}))),
          *((f"virtiofsd's queue ended ({part.split(';')[0]}), and the replaced one's did not", len(names))
            for kind in beside.ENDED for part, names in kinds.get(kind, {}).items()),
          ("of no kind", wrong),
          (f"sessions of {len(judged)} after which the replaced one answered", went_on),
          (f"sessions of {len(judged)} after which virtiofsd answered", theirs_went_on)],
         f"What came of {sum(map(beside.count, kinds.values()))} hostile requests")

    found = collections.Counter()
    for one, shown in over("Generated requests", 2, compare, in_sessions(seed, count)):
        found += one
        faults += shown
    errors = found.pop("errors", 0)
    asked = sum(number for name, number in found.items() if not re.search("folders|descriptors", name))
    show([("the same", f"{found.pop('same', 0):,} ({errors:,} of them errors)"),
          *((name, f"{number:,}") for name, number in sorted(found.items()))],
         f"What came of {asked:,} well-formed requests by the seed {seed}")

    found = collections.Counter()
    for one, shown in over("Broken requests", 2, survive, in_sessions(seed, count)):
        found += one
        faults += shown
    show([(name, f"{number:,}") for name, number in sorted(found.items())],
         f"What the replaced one made of {sum(found.values()):,} requests of which most are broken")
    tried, shown = give_back()
    faults += shown
    show([("given back", tried - len(shown)), ("kept", len(shown))], f"What became of {tried} entries and handles without room")
    for fault in faults[:20]:
        print(f"\n{fault}", file=sys.stderr)
    print(f"\n{len(faults)} faults.")
    sys.exit(bool(faults))


if __name__ == "__main__":
    if sys.argv[1:2] in (["-h"], ["--help"]):
        print(__doc__.rstrip())
        sys.exit()
    if len(sys.argv) < 6 or not all(word.isdigit() for word in sys.argv[2:4]):
        print(__doc__.rstrip(), file=sys.stderr)
        sys.exit(2)
    beside.folder, first_seed, many, replaced, *beside.theirs = sys.argv[1:]
    try:
        main(int(first_seed), int(many))
    except beside.Stopped as reason:
        print(f"replaced.py: {reason}", file=sys.stderr)
        sys.exit(2)
