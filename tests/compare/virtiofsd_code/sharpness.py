#!/usr/bin/env python3
"""Builds the wrong bodies one after another, and reports which the sessions catch, for tests/compare/test_virtiofsd_code.py.

A body that does not end counts as caught.

Usage: sharpness.py SEED COUNT JOBS ORACLE FOLDER TEXT
ORACLE is the folder that build.sh made. TEXT is in the lines of the wrong bodies that are tried.
"""
import collections
import pathlib
import resource
import shutil
import subprocess
import sys
import threading
from concurrent.futures import ThreadPoolExecutor

import edits
import sessions

HERE = pathlib.Path(__file__).resolve().parent
STAND_INS = ["libc", "bitflags", "vm_memory", "virtio_queue", "vhost_user_backend"]
# How many seconds of processor time a program may take. A right one answers all sessions in ten.
SECONDS = 60
# In which ways a program is asked, and the sessions of each.
WAYS = {"script": "script", "memory": "memory", "rooms": "memory"}

# (of each thread, its folder)
place = threading.local()


def write_sessions(seed, count, folder):
    """The sessions over both file systems, cut and flat: one of each kind first, and the others after
    them. Answers the two folders."""
    for files in ("script", "memory"):
        for stage in ("first", "others"):
            (folder / stage / files).mkdir(parents=True)
        made = [(f"recorded-{name}", "\n".join(lines) + "\n") for name, lines in sessions.recorded()]
        made += [sessions.session(seed, files, number, size) for number, size in sessions.numbers(count // 2)]
        # (a wrong body is mostly caught by these few, which take no time)
        first = len(sessions.recorded()) + len(sessions.KINDS)
        for at, (name, text) in enumerate(made):
            into = folder / ("first" if at < first else "others") / files
            (into / f"{name}.cut").write_bytes(text.encode("latin-1"))
            if not name.endswith("badline"):
                (into / f"{name}.flat").write_bytes(sessions.flat(text).encode("latin-1"))
    return folder / "first", folder / "others"


def answers(program, stage, way, into):
    """What a program answers to the sessions of a folder, asked in one way: the text by session, or None
    where it does not end well."""
    shutil.rmtree(into, ignore_errors=True)
    into.mkdir(parents=True)
    # (a body that goes round for ever is ended by its processor time)
    limit = lambda: resource.setrlimit(resource.RLIMIT_CPU, (SECONDS, SECONDS))
    if subprocess.run([program, way, stage / WAYS[way], into], preexec_fn=limit).returncode:
        return None
    return {it.name: it.read_bytes() for it in into.iterdir()}


def workplace(folder):
    """The folder of this thread, with the sources: what is compiled there again takes less time."""
    if not hasattr(place, "folder"):
        place.folder = folder / f"work-{threading.get_ident()}"
        place.folder.mkdir()
        shutil.copytree(HERE / "src", place.folder / "src")
    return place.folder


def build(number, source, oracle, folder):
    """The program with a wrong body, or what edits.py or the compiler said."""
    words = [sys.executable, "-B", HERE / "edits.py", source, folder / "src", "later", str(number)]
    ran = subprocess.run(words, stderr=subprocess.PIPE, text=True)
    if ran.returncode:
        return None, ran.stderr
    stand_ins = oracle / "build" / "stand_ins"
    # (quick to compile: it is run a few seconds)
    rustc = ["rustc", "--edition", "2021", "-C", "opt-level=0", "-C", f"incremental={folder}/incremental",
             "--cap-lints", "allow", "-L", stand_ins]
    for name in STAND_INS:
        rustc += ["--extern", f"{name}={stand_ins}/lib{name}.rlib"]
    library = folder / "liboracle.rlib"
    parts = [["--crate-type", "rlib", "--crate-name", "oracle", "-o", library, folder / "src" / "lib.rs"],
             ["--cfg", "later", "--extern", f"oracle={library}", "-o", folder / "oracle",
              folder / "src" / "bin" / "oracle.rs"]]
    for part in parts:
        ran = subprocess.run([*rustc, *part], stderr=subprocess.PIPE, text=True)
        if ran.returncode:
            return None, ran.stderr[:600]
    return folder / "oracle", ""


def main(args):
    """Tries each wrong body on all sessions, that many at a time, and counts the ends."""
    if len(args) != 6:
        sys.exit(__doc__)
    seed, count, jobs, oracle, folder = args[0], int(args[1]), int(args[2]), *map(pathlib.Path, args[3:5])
    source = pathlib.Path((oracle / "built").read_text().splitlines()[0])
    bodies = [(at, line) for at, (line, *_) in enumerate(edits.wrong_bodies(), 1) if args[5] in line]
    if not bodies:
        sys.exit(f"No wrong body has {args[5]} in its line.")
    right = {(stage, way): answers(oracle / "later", stage, way, folder / "right")
             for stage in write_sessions(seed, count, folder) for way in WAYS}
    if None in right.values():
        sys.exit("The right program does not end well.")

    def attempt(body):
        """What comes of a wrong body, and what is to be said of it."""
        number, line = body
        work = workplace(folder)
        program, said = build(number, source, oracle, work)
        if program is None:
            return number, line, "not built", said
        for (stage, way), wanted in right.items():
            got = answers(program, stage, way, work / "answers")
            if got is None:
                return number, line, "caught", "it does not end well"
            differing = sum(got[it] != wanted[it] for it in wanted)
            if differing:
                return number, line, "caught", f"by {differing} of the {stage.name} {len(wanted)} sessions, {way}"
        return number, line, "survives", ""

    ends = collections.Counter()
    with ThreadPoolExecutor(jobs) as pool:
        for at, (number, line, end, said) in enumerate(pool.map(attempt, bodies), 1):
            ends[end] += 1
            if end != "caught":
                print(f"{end}: {line}\n{said}".rstrip(), flush=True)
            print(f"{at} of {len(bodies)}: {end} {said.splitlines()[0] if said else ''}", file=sys.stderr, flush=True)
    print(f"{len(bodies)} wrong bodies, {sum(map(len, right.values()))} answered sessions of {count:,} requests by seed"
          f" {seed}: {ends['caught']} caught, {ends['survives']} survive, {ends['not built']} not built")
    sys.exit(0 if ends["caught"] == len(bodies) else 1)


if __name__ == "__main__":
    main(sys.argv[1:])
