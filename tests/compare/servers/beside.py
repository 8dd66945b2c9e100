#!/usr/bin/env python3
"""Asks two daemons the same requests, and sorts what comes.

Usage: beside.py show|compare OURS FOLDER VERSIONS THEIRS..
OURS is the built programs/vhost/vhost.c. THEIRS are the words that start virtiofsd; in them
SOCKET and SHARE stand for its socket and the folder to share, which are made in FOLDER. What came is shown,
with VERSIONS, and with `compare` the numbers of requests are compared with EXPECTED, which are of virtiofsd 1.13.2.

It judges a request by what virtiofsd and the server here made of it:
  the same bytes
  served by both, which differ by their file systems: in attributes, in the options that INIT agrees on, or
    in whether, and by which number, the file system refused the call
  virtiofsd's queue is served no more: by a refusal of its protocol layer, which is completed with no byte
    here; by another panic of that layer; or by one of its file system
What is of no kind is printed whole. Status 1: something is of no kind, the server here did not go on, or
the numbers are not those expected; 2: it could not start.
"""
import collections
import concurrent.futures
import errno
import os
import re
import struct
import sys
import tempfile

from daemon import Daemon
from asking import HUNG_UP, NONE
import requests

# What comes of a line with a reply of 16 bytes with ENOSYS (-38, 0xda) to the request whose unique is 7: that of LAST in requests.py.
ENOSYS = "16 10000000daffffff0700000000000000"
# What virtiofsd prints as a refusal ends it, of 1.13.2 and of 1.14.0; and the files of its protocol layer.
REFUSALS = r"ProcessQueue\((\w+)|Failed to handle an incoming request: ([^:\n]+)"
LAYER = "fuse.rs", "descriptor_utils.rs", "filesystem.rs", "server.rs"
# Errors that the protocol layer makes, and that no difference of file systems explains.
OF_THE_LAYER = "EPROTO", "ENOMEM"
# The bytes of INIT's reply that have the options agreed on: `flags` and `flags2`.
OPTIONS = (28, 32), (48, 52)
# Where the mode is in a reply with attributes, by the reply's length: of GETATTR and SETATTR, of an entry.
MODES = {120: 92, 144: 116}

REFUSED, PANIC, OTHER_PANIC, LACKED, SAME, DIFFER = KINDS = (
    "refused by both protocol layers: virtiofsd serves its queue no more; completed with no byte here",
    "another panic of virtiofsd's protocol layer: its queue is served no more; completed here",
    "a panic of virtiofsd's file system: its queue is served no more; served here",
    "a call that virtiofsd has not, and the tree has: ENOSYS there; completed with no byte here",
    "the same bytes from both",
    "served by both, whose file systems differ")
ENDED = REFUSED, PANIC, OTHER_PANIC
# How many requests come to what, by kind and part; and how many sessions virtiofsd answers to the end.
EXPECTED = {
    REFUSED: {"DecodeMessage": 34, "EncodeMessage": 14, "InvalidCString": 12, "MissingParameter": 8, "InvalidXattrSize": 2},
    PANIC: {f"server.rs, line {line}; no byte here": 1 for line in (580, 1010, 1104, 1730)},
    OTHER_PANIC: {"file_traits.rs, line 153; EFBIG here": 1, "passthrough/mod.rs, line 2358; success here": 1},
    LACKED: {"": 3},
    SAME: {"": 54},
    DIFFER: {"the options that INIT agrees on": 23, "attributes": 12, "EBADF there, EISDIR here": 3,
             "EBADF there, ENOENT here": 1, "success there, ENOSYS here": 1}}
ANSWERED = 95
# What the tree serves beyond virtiofsd: IOCTL, TMPFILE, STATX.
OF_THE_TREE = 39, 51, 52


class Stopped(Exception):
    """It can't go on."""


def talk(daemon, lines):
    """The lines that were asked, each made of the answers before it, and the answers."""
    asked, answers = [], []
    for line in lines:
        try:
            asked.append(line(answers) if callable(line) else line)
        except ValueError as why:
            raise Stopped(why) from None
        answers.append(daemon.ask(asked[-1]))
        if answers[-1] in (NONE, HUNG_UP):
            break
    return asked, answers


def ask_new(words, lines):
    """What a new daemon is asked, what it answers, and what it printed."""
    with tempfile.TemporaryDirectory(dir=folder) as at:
        os.mkdir(at + "/share")
        with open(at + "/log", "w+", encoding="utf-8", errors="replace") as log:
            try:
                daemon = Daemon(words, at + "/socket", at + "/share", log)
            except OSError as why:
                log.seek(0)
                raise Stopped(f"{words[0]} can't be asked: {why}\n{log.read()}") from None
            try:
                asked, answers = talk(daemon, lines)
            finally:
                # (a second to end by itself, since what it prints then is looked at)
                daemon.end(1)
            log.seek(0)
            return asked, answers, log.read()


def request_of(line):
    return bytes.fromhex(line.split()[1].replace("+", ""))


def reply_of(answer, request):
    """The bytes of a reply that is whole, and of this request, or None."""
    found = re.fullmatch(r"(\d+) ((?:[0-9a-f]{2})*)", answer)
    reply = bytes.fromhex(found[2]) if found else b""
    # (Linux takes errors from -1 to -4095, and nothing after one)
    if len(reply) < 16 or not int(found[1]) == len(reply) == struct.unpack_from("<I", reply)[0]:
        return None
    error, unique = struct.unpack_from("<iQ", reply, 4)
    if unique != struct.unpack_from("<Q", request, 8)[0] or not (error == 0 or -4096 < error < 0 and len(reply) == 16):
        return None
    return reply


def outcome(reply):
    """The name of the error in a reply, or success."""
    number = -struct.unpack_from("<i", reply, 4)[0]
    return errno.errorcode.get(number, f"error {number}") if number else "success"


def without(reply, places):
    """A reply with zeros in these places."""
    for start, end in places:
        reply = reply[:start] + bytes(end - start) + reply[end:]
    return reply


def difference(there, here, opcode):
    """In what two replies differ that a file system decides, or None."""
    outcomes = outcome(there), outcome(here)
    if outcomes[0] != outcomes[1]:
        return None if set(outcomes) & set(OF_THE_LAYER) else "{} there, {} here".format(*outcomes)
    if outcomes[0] != "success" or there[:16] != here[:16]:
        return None
    if opcode == 26:
        return "the options that INIT agrees on" if without(there, OPTIONS) == without(here, OPTIONS) else None
    mode = MODES.get(len(here))
    kinds = mode and [struct.unpack_from("<I", reply, mode)[0] >> 12 for reply in (there, here)]
    # (the upper four bits of a mode are the kind of file)
    return "attributes" if kinds and kinds[0] == kinds[1] else None


def kind_of(line, theirs, ours, log):
    """The kind of what came to a request, or None, and what part of it. That virtiofsd's queue is served no
    more is a kind if its log says why."""
    if not re.match(r"\d+ ", ours):
        return None, ""
    if theirs == ours:
        return SAME, ""
    # A header that is cut short has no reply.
    request = request_of(line).ljust(40, b"\0")
    nothing, here, there = ours.startswith("0 "), reply_of(ours, request), reply_of(theirs, request)
    if theirs in (NONE, HUNG_UP) and (nothing or here):
        refusal = re.search(REFUSALS, log)
        panic = re.search(r"panicked at (?:\S*src/)?(\S+\.rs):(\d+)", log)
        if refusal:
            return (REFUSED if nothing else None), refusal[1] or refusal[2]
        if panic:
            came = "no byte" if nothing else outcome(here)
            return PANIC if panic[1] in LAYER else OTHER_PANIC, f"{panic[1]}, line {panic[2]}; {came} here"
        return None, ""
    opcode = struct.unpack_from("<I", request, 4)[0]
    if nothing and there and outcome(there) == "ENOSYS" and opcode in OF_THE_TREE:
        return LACKED, ""
    part = difference(there, here, opcode) if there and here else None
    return (DIFFER if part else None), part or ""


def judge(session, their_words, our_words, differences=None):
    """Of each judged request its name, its kind and its part, and what came if it has no kind; and whether the server
    here, and virtiofsd, answered the last one. The file systems may differ in these parts alone, if they are said."""
    items, skipped = session
    lines = [line for _, line in items]
    (_, there, log), (asked, here, said) = ask_new(their_words, lines), ask_new(our_words, lines)
    found = []
    for at in range(skipped, len(items) - 1):
        answers = [answers[at] if at < len(answers) else "not asked" for answers in (there, here)]
        kind, part = kind_of(asked[at], *answers, log) if at < len(asked) else (None, "")
        if kind == DIFFER and differences and part not in differences:
            kind = None
        # (all that is known of what has no kind)
        came = "" if kind else f"{items[at][0]}\n  virtiofsd {answers[0]}\n  here      {answers[1]}\n{log}{said}"
        found.append((items[at][0], kind, part, came))
    return found, here[-1] == ENOSYS, there[-1] == ENOSYS


def over(what, workers, function, sessions):
    """What a function makes of sessions, that many at a time. The first that can't be judged ends all."""
    sessions = list(sessions)
    with concurrent.futures.ThreadPoolExecutor(workers) as pool:
        try:
            for n, one in enumerate(pool.map(function, sessions), 1):
                yield one
                if n % 20 == 0 or n == len(sessions):
                    print(f"{what}: {n} of {len(sessions)} sessions", file=sys.stderr, flush=True)
        except BaseException:
            pool.shutdown(cancel_futures=True)
            raise


def by_parts(judged):
    """The names of the requests, by kind and part, of a kind the part with most first."""
    kinds = collections.defaultdict(lambda: collections.defaultdict(list))
    for found, _, _ in judged:
        for name, kind, part, _ in found:
            kinds[kind][part].append(name)
    return {kind: dict(sorted(parts.items(), key=lambda it: -len(it[1]))) for kind, parts in kinds.items()}


def count(parts):
    return sum(map(len, parts.values()))


def main(how, versions):
    """Judges all sessions, and shows what came by kind and part."""
    judged = list(over("Hostile requests", 8, lambda it: judge(it, theirs, [ours, "SOCKET"]), requests.sessions()))
    kinds = by_parts(judged)
    for kind in filter(kinds.get, (*KINDS, None)):
        parts = kinds[kind]
        print(f"\n{count(parts)}  {kind or 'of no kind'}")
        for part, names in parts.items():
            print(f"  {len(names)}  {part or 'of these'}: {'; '.join(names)}")
    for found, _, _ in judged:
        for *_, came in found:
            if came:
                print(f"\n{came}")
    answered = sum(there for _, _, there in judged)
    print(f"\nWith {versions}: of {len(judged)} sessions virtiofsd answered {answered} to the end.")
    if None in kinds or not all(here for _, here, _ in judged):
        print("Something is of no kind, or the server here did not go on.", file=sys.stderr)
        sys.exit(1)
    numbers = {kind: {part: len(names) for part, names in parts.items()} for kind, parts in kinds.items()}
    if how == "compare" and (numbers != EXPECTED or answered != ANSWERED):
        print(f"Expected were other numbers: {EXPECTED}, {ANSWERED} sessions.", file=sys.stderr)
        sys.exit(1)


if __name__ == "__main__":
    if sys.argv[1:2] in (["-h"], ["--help"]):
        print(__doc__.rstrip())
        sys.exit()
    if len(sys.argv) < 6 or sys.argv[1] not in ("show", "compare"):
        print(__doc__.rstrip(), file=sys.stderr)
        sys.exit(2)
    how_to_end, ours, folder, both, *theirs = sys.argv[1:]
    try:
        main(how_to_end, both)
    except Stopped as reason:
        print(f"beside.py: {reason}", file=sys.stderr)
        sys.exit(2)
