#!/usr/bin/env python3
"""Asks several servers of FUSE the same sessions, and sorts what comes. tests/compare/test_servers.py builds them.

Usage: others.py [--seed N --count M] PEERS FOLDER
A line of the file PEERS has, with tabs between: `pair` or `vhost`, a name, a version, and the words that start it. Of a pair, DESCRIPTOR in them stands for a socket that keeps
messages apart, which it serves in place of /dev/fuse; of a vhost, SOCKET and SHARE stand for its socket and
the folder that it shares. FOLDER gets what it makes.

The sessions are those of requests.py, flat: each request is one message, without a room, and each session that
is then the same as one before is left out. In one more each request is whole. Each goes to a new process, and
one more request after it, by which it is judged:
  went on: that one was answered ENOSYS, and so was each before it to which a reply is due
  silent: it was, but one before it was not answered
  ended by design: it was not, after a DESTROY, an INIT of another version, or without an INIT
  ended by an error: it was not, after anything else
  panicked: the process said so, or was aborted
  read past: a sanitizer or a page that can't be read caught a look past the message
With --count it makes M sessions more, the same for each N of --seed, and shrinks what breaks a server, one for
each place in its source.
Status 1: the server here did not go on, or read past a message, alone, in front of another or below libfuse; 2: it could not
start.
"""
import argparse
import collections
import concurrent.futures
import errno
import itertools
import re
import select
import socket
import struct
import subprocess
import sys
import tempfile

import beside
import daemon
import generate
import requests

KINDS = WENT, SILENT, DESIGN, ERROR, PANIC, PAST = (
    "went on", "silent", "ended by design", "ended by an error", "panicked", "read past")
FORGET, INIT, INTERRUPT, DESTROY, NOTIFY_REPLY, BATCH_FORGET = 2, 26, 36, 38, 41, 42
NO_REPLY = FORGET, INTERRUPT, DESTROY, NOTIFY_REPLY, BATCH_FORGET
# As much room as a request of the largest payload needs.
ROOM = 1 << 20 | 4096
LONGEST = 1 << 21
LAYER = "libfuse over this layer"
OURS = "Nizwarf", "check", LAYER
# What a request is cut to while it is shrunk.
SIZES = 8, 39, 40, 41, 42, 44, 48, 52, 56, 60, 64, 72, 80, 96, 104, 128, 160

Peer = collections.namedtuple("Peer", "how name version words")
# What came, the place in the source, and of a check how many requests it got and how many it handed on.
Found = collections.namedtuple("Found", "kind place handed", defaults=((0, 0),))


def flat(line):
    """The bytes of a request. One that is made of the answer to a CREATE is made of node 1 and handle 0."""
    if callable(line):
        line = line(["160 " + (bytes(16) + struct.pack("<Q", 1) + bytes(136)).hex()])
    return beside.request_of(line)


def known_sessions():
    """Each with its name, its requests, and how many of its beginning are not judged."""
    seen = set()
    further = (([requests.FIRST, it, requests.LAST], 1) for it in requests.further())
    for items, skipped in itertools.chain(requests.sessions(), further):
        asked = [flat(line) for _, line in items[:-1]]
        if tuple(asked) not in seen:
            seen.add(tuple(asked))
            yield items[skipped][0], asked, skipped
    yield "each opcode, whole", [FIRST, *generate.whole()], 1


FIRST, LAST = flat(requests.FIRST[1]), flat(requests.LAST[1])


def opcode(request):
    """The opcode of a request, or None of one that is too short to have one."""
    return struct.unpack_from("<I", request, 4)[0] if len(request) >= 8 else None


def is_due(request):
    """Whether a reply is due. One whose header is cut short has no number to reply to."""
    return len(request) >= 40 and opcode(request) not in NO_REPLY


def is_end_by_design(asked):
    """Whether a session may end after these without a fault of the server."""
    for request in asked:
        if opcode(request) == DESTROY:
            return True
        if opcode(request) == INIT and len(request) >= 48:
            major, minor = struct.unpack_from("<II", request, 40)
            # (27 is the least minor version that virtiofsd takes)
            if major != 7 or minor < 27:
                return True
    return opcode(asked[0]) != INIT


def hear(end, seconds):
    """A message, None after so long without one, b"" once the other end is closed."""
    if not select.select([end], [], [], seconds)[0]:
        return None
    try:
        return end.recv(LONGEST)
    except ConnectionError:
        return b""


def talk(end, asked):
    """Which of the requests were answered, and how the last one was. Replies are told apart by the order and by
    the number of the last one."""
    answered, last = [False] * len(asked), None
    for at, request in enumerate((*asked, LAST)):
        try:
            end.send(request)
        except OSError:
            return answered, None
        is_last = at == len(asked)
        # (the first one waits for the process to start)
        # A busy machine may be late with a reply that is due; one that is not due comes soon or never.
        seconds = 5 if is_last else 0.05 if not is_due(request) else 4 if at == 0 else 1
        while (message := hear(end, seconds)) is not None:
            if not message:
                return answered, None
            if is_last and len(message) >= 16 and message[8:16] == LAST[8:16]:
                return answered, message
            answered[min(at, len(asked) - 1)] = True
            if not is_last:
                break
    return answered, last


def ask_pair(peer, asked):
    """Whether each request was answered, how the last one was, what the process printed, and how it ended."""
    ours, theirs = socket.socketpair(socket.AF_UNIX, socket.SOCK_SEQPACKET)
    with ours, tempfile.TemporaryFile("w+", encoding="utf-8", errors="replace", dir=folder) as log:
        for end in (ours, theirs):
            # (a message is sent whole or not at all)
            end.setsockopt(socket.SOL_SOCKET, socket.SO_SNDBUF, LONGEST)
        # (the process inherits its end by the same number)
        words = [str(theirs.fileno()) if word == "DESCRIPTOR" else word for word in peer.words]
        process = subprocess.Popen(words, stdin=subprocess.DEVNULL, stdout=log, stderr=log,
                                   pass_fds=[theirs.fileno()])
        theirs.close()
        try:
            answered, last = talk(ours, asked)
            ours.shutdown(socket.SHUT_RDWR)
        finally:
            daemon.end(process, 2)
        log.seek(0)
        return answered, last, log.read(), process.returncode


def ask_vhost(peer, asked):
    """The same, of a daemon of virtio-fs: an answer is a chain that it gave back, with bytes or without."""
    # (those that have no reply have no room either)
    lines = [requests.line("0" if opcode(request) in (FORGET, BATCH_FORGET) else f"16+{ROOM}", request)
             for request in (*asked, LAST)]
    beside.folder = folder
    _, answers, log = beside.ask_new(peer.words, lines)
    answered = [answer.startswith(tuple("123456789")) for answer in answers] + [False] * len(asked)
    last = answers[-1].split()
    whole = len(answers) == len(lines) and len(last) > 1
    return answered[:len(asked)], bytes.fromhex(last[1]) if whole else None, log, 0


def place_of(log):
    """Where in the source of another's server it broke: the first line of it in a trace."""
    if "ERROR: AddressSanitizer" in log:
        found = re.search(r"in (\w+) (?:\S*/)?lib/(\w+\.c:\d+)", log)
        return f"{found[2]}, {found[1]}" if found else "an unknown place"
    found = (re.search(r"panicked at (?:\S*/(?:fuser|virtiofsd)-[0-9.]*/)?(\S+?:\d+)", log) or
             re.search(r"\t\S*/go-fuse/(\S+\.go:\d+)", log))
    line = found[1].replace("src/", "") if found else ""
    refused = re.search(beside.REFUSALS, log)
    if refused:
        return (refused[1] or refused[2]) + (f" ({line})" if line else "")
    if found:
        return line
    ended = re.search(r'the session ended.*error: "([^"]*)"', log)
    number = re.search(r"the session ended: -(\d+)", log)
    return ended[1] if ended else errno.errorcode.get(int(number[1]), number[0]) if number else ""


def judge(peer, asked, skipped):
    """What came of one session, by what was answered and by how the process ended."""
    answered, last, log, status = (ask_pair if peer.how == "pair" else ask_vhost)(peer, asked)
    handed = re.search(r"^check: (\d+) requests, (\d+) passed on", log, re.M)
    handed = (int(handed[1]), int(handed[2])) if handed else (0, 0)
    # (SIGBUS and SIGSEGV: a page after each message can't be read)
    if "ERROR: AddressSanitizer" in log or status in (-7, -11):
        return Found(PAST, place_of(log), handed)
    alive = last is not None and last[:16].hex() == beside.ENOSYS.split()[1] and "the program has disconnected" not in log
    # (SIGABRT, as of an abort of Rust's or of the C library)
    if not alive and re.search(r"panicked at|^panic: |^fatal error: ", log, re.M) or status == -6:
        return Found(PANIC, place_of(log), handed)
    if not alive:
        return Found(DESIGN if is_end_by_design(asked) else ERROR, place_of(log), handed)
    missing = any(is_due(request) and not done for request, done in list(zip(asked, answered))[skipped:])
    return Found(SILENT if missing else WENT, "", handed)


def judge_all(peer, sessions):
    """What came of each session, in their order."""
    found = []
    # (a daemon that serves its queue no more is waited for)
    with concurrent.futures.ThreadPoolExecutor(2 if peer.how == "pair" else 6) as pool:
        for one in pool.map(lambda it: judge(peer, it[1], it[2]), sessions):
            found.append(one)
            if len(found) % 50 == 0:
                print(f"{peer.name}: {len(found)} of {len(sessions)} sessions", file=sys.stderr)
    return found


def shrink(peer, asked, wanted):
    """The smallest request found that breaks a server in the same place, after an INIT if there was one."""
    # How many sessions it may take: one over vhost-user waits longer for a queue that is served no more.
    tries = 60 if peer.how == "pair" else 20

    def breaks(rest):
        """Whether a shorter session still breaks the rule in the same way. There are only so many tries: each is a
        process.
        """
        nonlocal tries
        tries -= 1
        return tries >= 0 and judge(peer, [FIRST, *rest], 1)[:2] == wanted

    rest = asked[1:]
    for one in rest:
        if len(rest) > 1 and breaks([one]):
            rest = [one]
    for at in reversed(range(len(rest))):
        if len(rest) > 1 and breaks(rest[:at] + rest[at + 1:]):
            del rest[at]
    last = rest[-1]

    def take(made):
        nonlocal last
        if made != last and breaks([*rest[:-1], made]):
            last = made
            return True
        return False

    # Shorter messages first, then a length in the header that is true, then zeros in place of bytes.
    for size in SIZES:
        if size < len(last) and take(last[:size]):
            break
    if len(last) >= 4:
        take(struct.pack("<I", len(last)) + last[4:])
    for at in range(40, min(len(last), 120), 8):
        take(last[:at] + bytes(len(last[at:at + 8])) + last[at + 8:])
    return [*rest[:-1], last]


def shown(asked):
    """Requests in words: the opcode, and what is after the header."""
    made = []
    for request in asked:
        name = requests.NAMES.get(opcode(request), f"opcode {opcode(request)}")
        length = struct.unpack_from("<I", request)[0] if len(request) >= 4 else len(request)
        said = "" if length == len(request) else f" that says {length}"
        body = request[40:]
        body = f"{body[:24].hex()}{'..' if len(body) > 24 else ''}" if body else "no byte"
        made.append(f"{name} of {len(request)} bytes{said}, after the header {body}")
    return "; then ".join(made)


def plain(head, rows):
    """The lines of a table in columns."""
    rows = [head, *([str(cell) for cell in row] for row in rows)]
    widths = [max(len(row[at]) for row in rows) for at in range(len(head))]
    for row in rows:
        yield "  ".join(cell.ljust(width) for cell, width in zip(row, widths)).rstrip()


def of_one(peer):
    return f"{peer.name} {peer.version}"


def counts(peers, found, what):
    """How many sessions of each kind."""
    rows = []
    for peer in peers:
        number = collections.Counter(one.kind for one in found[peer])
        rows.append([of_one(peer), *(number[kind] for kind in KINDS)])
    yield from plain([what, *KINDS], rows)
    for peer in peers:
        asked, handed = (sum(one.handed[at] for one in found[peer]) for at in (0, 1))
        if asked:
            yield f"\n{of_one(peer)}: of {asked} requests, with those before and after, {handed} were handed on."


def broken(peers, found, names):
    """Of each server, of what came, and of each place, the names of the sessions, without those that are well."""
    made = collections.defaultdict(lambda: collections.defaultdict(list))
    for peer in peers:
        for name, one in zip(names, found[peer]):
            if one.kind in (SILENT, ERROR, PANIC, PAST):
                made[peer, one.kind][one.place].append(name)
    for (peer, kind), by_place in sorted(made.items(), key=lambda it: (peers.index(it[0][0]), KINDS.index(it[0][1]))):
        yield peer, kind, sorted(by_place.items(), key=lambda it: (-len(it[1]), it[0]))


def failures(peers, found, names):
    """Where each server broke, and by which requests."""
    rows = [[of_one(peer), kind, place or "-", len(which), "; ".join(which)]
            for peer, kind, by_place in broken(peers, found, names) for place, which in by_place]
    if rows:
        yield from plain(["Server", "What came", "Where", "How many", "Of which requests"], rows)


def smallest(peers, found, sessions):
    """Of each place in a server's source, the smallest request that was found."""
    rows = []
    for peer in peers:
        done = set()
        for (_, asked, _), one in zip(sessions, found[peer]):
            if one.kind in (ERROR, PANIC, PAST) and one[:2] not in done:
                done.add(one[:2])
                print(f"{of_one(peer)}: shrinking what breaks it in {one.place or 'an unknown place'}", file=sys.stderr)
                rows.append([of_one(peer), one.kind, one.place or "-", shown(shrink(peer, asked, one[:2]))])
    if rows:
        yield from plain(["Server", "What came", "Where", "The smallest found"], rows)


def show(lines):
    print("\n" + "\n".join(lines), flush=True)


def main(peers, seed, count):
    """Asks each server all sessions, and prints the tables. It ends with 1 if the server here broke."""
    known = list(known_sessions())
    names = [name for name, _, _ in known]
    print(f"{len(known)} sessions, each to a new process.")
    found = {peer: judge_all(peer, known) for peer in peers}
    show(counts(peers, found, f"What came of {len(known)} sessions"))
    show(failures(peers, found, names))
    bad = [it for peer in peers for it in faults_of(peer, found[peer], known)]
    if count:
        made = [(f"{seed}/{number}", [FIRST, *generate.session(seed, number)], 1) for number in range(count)]
        found = {peer: judge_all(peer, made) for peer in peers}
        bad += [it for peer in peers for it in faults_of(peer, found[peer], made)]
        show(counts(peers, found, f"What came of {count} generated sessions (--seed {seed})"))
        show(smallest(peers, found, made))
    for it in bad:
        print(f"A server over this layer did not go on: {it}", file=sys.stderr)
    sys.exit(bool(bad))


def faults_of(peer, found, sessions):
    """The names of the sessions that broke a peer over this layer, which must break nothing. To libfuse's loop a message of no
    byte is the end."""
    return [f"{peer.name}, {name}: {one.kind} {one.place}" for (name, asked, _), one in zip(sessions, found)
            if any(word in peer.name for word in OURS) and one.kind in (SILENT, ERROR, PANIC, PAST)
            and not (peer.name == LAYER and b"" in asked)]


def read_peers(path):
    """The servers in the file, a line each."""
    with open(path, encoding="utf-8") as lines:
        for line in lines:
            how, name, version, *words = line.rstrip("\n").split("\t")
            yield Peer(how, name, version, tuple(words))


if __name__ == "__main__":
    words = argparse.ArgumentParser(usage=__doc__.split("Usage: ")[1].split("\n")[0], add_help=False)
    words.add_argument("--seed", type=int, default=1)
    words.add_argument("--count", type=int, default=0)
    words.add_argument("peers")
    words.add_argument("folder")
    if sys.argv[1:2] in (["-h"], ["--help"]):
        print(__doc__.rstrip())
        sys.exit()
    given = words.parse_args()
    folder = given.folder
    try:
        main(list(read_peers(given.peers)), given.seed, given.count)
    except (OSError, ValueError, beside.Stopped) as why:
        print(f"others.py: {why}", file=sys.stderr)
        sys.exit(2)
