#!/usr/bin/env python3
"""Compares the programs of this repository with virtiofsd's own code, for tests/compare/test_virtiofsd_code.py.

Usage: compare.py SEED COUNT JOBS ORACLE PROGRAM ..
Each session goes to a program as it is cut, and with each request in one segment and one room:

    script sessions   to test_sessions: answers and calls
    memory sessions   to vfs_demo: answers; and, where they are of a form that it reads, to test_sessions after
                      its line `refusals`: outcomes, whole rooms and the options that are agreed after each
                      request

and the oracle says what must come. PROGRAM .. are the paths of the two.
"""
import collections
import multiprocessing
import pathlib
import re
import subprocess
import sys
import tempfile
import time

import sessions

TOP = pathlib.Path(__file__).resolve().parents[3]
sys.path.append(str(TOP / "tools/lib"))
import opcodes

# For each way of asking: the program, the sessions that it gets, and how the oracle is asked.
WAYS = {"test_sessions": ("test_sessions", "script", "script"), "vfs_demo": ("vfs_demo", "memory", "memory"),
        "refusals": ("test_sessions", "memory", "rooms")}
# Kinds with lines that are not read after the line `refusals`, or more calls than are noted there.
NO_ROOMS = ("badline", "limits", "full")
# How many sessions a task has, at most.
# (few enough that all processes have work up to the end)
SESSIONS = 48
OPCODES = opcodes.names()
ORDER = [OPCODES[number] for number in sorted(OPCODES)]
OUTCOMES = {"reply": "reply", "error": "error", "none": "none", "EncodeMessage": "Encode", "DecodeMessage": "Decode",
            "InvalidHeaderLength": "Length", "MissingParameter": "Missing", "InvalidCString": "CString",
            "InvalidCString2": "CString2", "InvalidXattrSize": "Xattr", "MissingExtension": "Extension",
            "bad line": "bad line"}
PART = re.compile(r"^request of a line; .*\nanswered\n(.*\nroom .*\nnow .*\n)", re.M)

# A difference: the line of the request, where it is, what the program said and what the oracle did.
Difference = collections.namedtuple("Difference", "request way session number text got wanted")

FORK = multiprocessing.get_context("fork")
done = FORK.Value("L", 0)


def blocks_of(way, output):
    """What was said to each request."""
    if way == "refusals":
        return PART.findall(output)
    blocks = []
    for line in output.splitlines():
        if line.startswith("  ") and blocks:
            blocks[-1] += line + "\n"
        else:
            blocks.append(line + "\n")
    return blocks


def wanted_blocks(way, output):
    """What must be said to each request; with rooms three lines are of each."""
    if way != "refusals":
        return blocks_of(way, output)
    lines = output.splitlines()
    return ["".join(f"{line}\n" for line in lines[at:at + 3]) for at in range(0, len(lines), 3)]


def ask(way, program, session):
    """The status and the output of a program for a session."""
    lines = (b"refusals\n" if way == "refusals" else b"") + session.read_bytes()
    ran = subprocess.run([program], input=lines, stdout=subprocess.PIPE, stderr=subprocess.DEVNULL, timeout=600)
    return ran.returncode, ran.stdout.decode("latin-1")


def opcode_of(line):
    """The name of the opcode of a request, or what there is in its place."""
    segments = line.partition(" ")[2].replace("+", "")
    if len(segments) < 16:
        return "no opcode"
    opcode = int.from_bytes(bytes.fromhex(segments[8:16]), "little")
    return OPCODES.get(opcode, "unknown")


def outcome_of(block):
    """Which outcome an answer is."""
    words = block.split("\n", 1)[0].split(" ")
    if words[0] == "err":
        return words[1]
    if words[0] != "ok":
        return "bad line"
    if words[1] == "0":
        return "none"
    # (the error of a reply's header, in hexadecimal)
    return "reply" if words[2][8:16] == "00000000" else "error"


def count(counts, lines, blocks):
    """Counts answers by opcode and outcome."""
    for line, block in zip(lines, blocks):
        outcome = outcome_of(block)
        counts["bad line" if outcome == "bad line" else opcode_of(line), outcome] += 1


def write_sessions(way, seed, chosen, folder):
    """Writes the sessions of a task, cut and flat: the text of each file."""
    _, files, _ = WAYS[way]
    texts = {}
    for number, size in chosen:
        if isinstance(number, int):
            name, text = sessions.session(seed, files, number, size)
        else:
            name, text = number, size
        if way == "refusals" and name.endswith(NO_ROOMS):
            continue
        texts[f"{name}.cut"] = text
        if not name.endswith("badline"):
            texts[f"{name}.flat"] = sessions.flat(text)
    for name, text in texts.items():
        (folder / name).write_bytes(text.encode("latin-1"))
    return texts


def differences_of(way, name, text, status, got, wanted):
    """The first difference of a session, if there is one."""
    bad = wanted.rpartition("\nbad line ")[1] or wanted.startswith("bad line ")
    # (a program ends so at a line that is none)
    wanted_status = 2 if bad else 0
    theirs, ours = wanted_blocks(way, wanted), blocks_of(way, got)
    asked, lines = sessions.requests_of(text), text.splitlines()
    for at, block in enumerate(theirs):
        mine = ours[at] if at < len(ours) else f"no answer, status {status}\n"
        if mine != block:
            number, line = asked[at] if at < len(asked) else (len(lines), lines[-1])
            return [Difference(line, way, name, number, text, mine, block)]
    if len(ours) != len(theirs) or status != wanted_status:
        mine = f"{len(ours)} answers, status {status}\n"
        block = f"{len(theirs)} answers, status {wanted_status}\n"
        return [Difference(lines[-1], way, name, len(lines), text, mine, block)]
    return []


def work(task):
    """Compares the sessions of a task: counts by opcode and outcome, how many answers were compared, and
    the differences."""
    way, path, seed, chosen, oracle = task
    counts, compared, differences = collections.Counter(), 0, []
    with tempfile.TemporaryDirectory(prefix="compare-") as folder:
        asked, answers = pathlib.Path(folder) / "asked", pathlib.Path(folder) / "answers"
        asked.mkdir()
        answers.mkdir()
        texts = write_sessions(way, seed, chosen, asked)
        subprocess.run([oracle, WAYS[way][2], asked, answers], check=True)
        for name, text in texts.items():
            status, got = ask(way, path, asked / name)
            wanted = (answers / name).read_text()
            blocks = wanted_blocks(way, wanted)
            compared += len(blocks)
            differences += differences_of(way, name, text, status, got, wanted)
            if name.endswith(".cut") and way != "refusals":
                count(counts, [line for _, line in sessions.requests_of(text)], blocks)
            with done.get_lock():
                done.value += len(blocks)
    return way, counts, compared, differences


def tasks_for(seed, total, oracle, paths):
    """The tasks: some sessions for one program each, asked in one way."""
    # (an odd total is one more for the first)
    halves = {"script": (total + 1) // 2, "memory": total // 2}
    tasks = []
    path_of = {pathlib.Path(path).name: path for path in paths}
    for way, (program, files, _) in WAYS.items():
        chosen = sessions.numbers(halves[files])
        chosen += [(f"recorded-{name}", "\n".join(lines) + "\n") for name, lines in sessions.recorded()]
        # (every parts-th session, so that each task has some of each kind)
        parts = len(chosen) // SESSIONS + 1
        tasks += [(way, path_of[program], seed, chosen[at::parts], oracle) for at in range(parts)]
    return tasks


def tell_counts(counts):
    """A table: a row for each opcode, a column for each outcome that came."""
    rows = sorted({opcode for opcode, _ in counts}, key=lambda it: ([*ORDER, it].index(it), it))
    columns = [it for it in OUTCOMES if any(outcome == it for _, outcome in counts)]
    print(" " * 16 + "".join(f"{OUTCOMES[it]:>10}" for it in columns) + f"{'all':>10}")
    for opcode in rows + ["all"]:
        numbers = [sum(n for (row, outcome), n in counts.items() if outcome == it and opcode in (row, "all"))
                   for it in columns]
        print(f"{opcode:16}" + "".join(f"{n or '':>10}" for n in numbers) + f"{sum(numbers):>10}")


def shown(text, most=1500):
    """As much of a text as is read."""
    return text if len(text) <= most else f"{text[:most]}.. ({len(text)} characters)\n"


def tell_difference(differences, folder):
    """Prints the smallest request that differs, and keeps the session up to it."""
    smallest = min(differences, key=lambda it: (len(it.request), it.session))
    folder.mkdir(parents=True, exist_ok=True)
    file = folder / "difference.lines"
    file.write_text("\n".join(smallest.text.splitlines()[:smallest.number]) + "\n")
    print(f"\n{len(differences)} sessions differ. The smallest request that does is line {smallest.number} of {smallest.session}"
          f" ({smallest.way}):\n  {shown(smallest.request)}")
    print(f"The program says:\n{shown(smallest.got)}\nvirtiofsd's code says:\n{shown(smallest.wanted)}")
    print(f"The session up to it is in {file.relative_to(TOP)}, and out/oracle/later {WAYS[smallest.way][2]} answers"
          " it as virtiofsd's code does.")


def main(args):
    """Compares all sessions by that many processes, and prints the table of outcomes, and what differs."""
    if len(args) != 6:
        sys.exit(__doc__)
    seed, total, jobs, oracle, *paths = args[0], int(args[1]), int(args[2]), *args[3:]
    started = last = time.monotonic()
    counts, compared, differences = collections.Counter(), collections.Counter(), []
    with FORK.Pool(jobs) as pool:
        results = [pool.apply_async(work, [task]) for task in tasks_for(seed, total, oracle, paths)]
        for result in results:
            # (progress: each second on a terminal, else every twenty)
            while not result.ready():
                result.wait(1)
                if sys.stderr.isatty() or time.monotonic() - last > 20:
                    last = time.monotonic()
                    end = "\r" if sys.stderr.isatty() else "\n"
                    parts = sum(it.ready() for it in results)
                    print(f"{parts} of {len(results)} parts, {done.value:,} answers, {last - started:.0f} s", end=end,
                          file=sys.stderr, flush=True)
            way, some, number, found = result.get()
            counts += some
            compared[way] += number
            differences += found
    tell_counts(counts)
    asked = sum(counts.values())
    print(f"\nSeed {seed}: {asked:,} requests, cut and flat: {sum(compared.values()):,} answers compared in"
          f" {time.monotonic() - started:.0f} s, of {', '.join(f'{way} {n:,}' for way, n in compared.items())}.")
    if differences:
        tell_difference(differences, TOP / "out" / "compare")
        sys.exit(1)
    print("No difference.")


if __name__ == "__main__":
    main(sys.argv[1:])
