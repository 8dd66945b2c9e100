"""Refuses allocations of test_sessions and vfs_demo, for check.sh, which says how: refuse.py FOLDER, where that has
refuse_allocation.so."""
import collections, glob, os, re, subprocess, sys, threading
from concurrent.futures import ThreadPoolExecutor

FOLDER = sys.argv[1]
# In hexadecimal: a byte of a room that nothing was written to; and of a reply with ENOMEM the length and the error,
# 16 and -12.
FILL = "00"
ENOMEM = "10000000f4ffffff"
# (more than any run allocates)
UNREFUSED = 1 << 40

Part = collections.namedtuple("Part", "name state answers now calls")
Run = collections.namedtuple("Run", "status output counts")


def built(name):
    """The path of a built program."""
    path = f"crates/{name}/out/{name}"
    sources = [it for kind in ("src", "specs", "proofs")
               for it in glob.glob(f"crates/*/{kind}/**", recursive=True) if os.path.isfile(it)]
    newest = max(os.path.getmtime(it) for it in ["crates.txt", *sources])
    if not os.path.exists(path) or os.path.getmtime(path) < newest:
        print(f"There is no {path} of today's sources. `rt ci` builds it, and so does "
              f"`rt run < stdin` in crates/{name}.", file=sys.stderr)
        sys.exit(2)
    return path


def run(program, stdin, part=0, number=UNREFUSED):
    """A run in which this allocation of this part is refused."""
    # (runs are side by side, and each thread has a file of its own)
    counts = f"{FOLDER}/{threading.get_ident()}"
    if os.path.exists(counts):
        os.remove(counts)
    names = {"LD_PRELOAD": f"{FOLDER}/refuse_allocation.so", "REFUSE_COUNTS": counts,
             "REFUSE_PART": str(part), "REFUSE_ALLOCATION": str(number)}
    ran = subprocess.run([program], input=stdin, env=names, timeout=60, capture_output=True)
    made = []
    if os.path.exists(counts):
        with open(counts) as file:
            made = [int(line) for line in file]
    return Run(ran.returncode, ran.stdout.decode(), made)


def refused(program, stdin, part, clean):
    """The runs in which an allocation of this part is refused, each in turn."""
    number = 1
    while True:
        it = run(program, stdin, part, number)
        # (it made fewer allocations in this part, so none was refused)
        if len(it.counts) > part and it.counts[part] < number:
            if it != clean:
                raise ValueError(f"a run that met no refusal differs, part {part}")
            return
        yield it
        number += 1


def parts_of(output):
    """The parts of what test_sessions wrote after its line `refusals`."""
    parts = []
    for text in output.split("request ")[1:]:
        head, answered, *lines = text.splitlines()
        name, _, state = head.partition("; ")
        at = next(at for at, line in enumerate(lines) if line.startswith("now"))
        answers = re.findall(r"^((?:Ok|Err).*)\n(?:room (.*)\n)?", "\n".join(lines[:at]) + "\n", re.M)
        now = lines[at].removeprefix("now ")
        if answered != "answered" or not answers:
            raise ValueError(f"no part: {text}")
        parts.append(Part(name, state, answers, now, lines[at + 1:]))
    return parts


def ending_of(clean, part):
    """Who answered that there was no memory, where a part ended so, or None."""
    count = len(clean.answers)
    changed = [at for at in range(count) if part.answers[at : at + 1] != clean.answers[at : at + 1]]
    state = clean.state if count == 1 else clean.now
    if part[:2] != clean[:2] or len(part.answers) != count or len(changed) != 1 or part.now != state:
        return None
    at, size = changed[0], len(clean.calls) // count
    calls, after = clean.calls[: size * at], clean.calls[size * (at + 1) :]
    outcome, room = part.answers[at]
    if outcome == "Err(OutOfMemory)" and room == FILL * (len(room) // 2):
        who = "the server" if state.startswith("options") else "a reader or a writer"
    elif outcome == "Ok(16)" and room == fault_in(clean.answers[at][1]):
        who = "the file system"
        calls += refused_calls(clean.calls[size * at :])
    else:
        return None
    return who if part.calls == calls + after else None


def fault_in(room):
    """The room that a reply fills, where it is the fault ENOMEM."""
    return ENOMEM + room[16:32] + FILL * (len(room) // 2 - 16)


def refused_calls(calls):
    """The calls of a request of which the first is answered ENOMEM."""
    # A scripted answer has a line of its own; another one is part of the call's line.
    if len(calls) > 1 and calls[1].startswith("  -> "):
        return [calls[0], "  -> fault 12"]
    return [re.sub(r"kind: \w+, value: \d+", "kind: Fault, value: 12", calls[0])]


faults = []


def wrong(what, it):
    """Notes a run that came to something else, and shows the end of what it said."""
    faults.append(what)
    print(f"{what}: status {it.status}\n{it.output[-2000:]}", file=sys.stderr)


class Refusals:
    """The runs of test_sessions on some lines after the line `refusals`."""

    def __init__(self, program, lines):
        self.program, self.lines = program, lines
        self.clean = run(program, self.stdin(), 0)
        self.parts = parts_of(self.clean.output)
        self.first_line = len(self.parts) - len(lines)
        self.counts = self.clean.counts[1:]
        if self.clean.status or len(self.counts) != len(self.parts):
            raise ValueError("test_sessions, refused nothing, does not end well")

    def stdin(self, but=None):
        """The session's lines, without one of them: what is answered then is what a refusal must leave."""
        return b"".join([b"refusals\n", *(line for at, line in enumerate(self.lines) if at != but)])

    def wanted(self, at):
        """The parts after this one, where it was refused."""
        if at < self.first_line:
            return self.parts[at + 1:]
        without = run(self.program, self.stdin(at - self.first_line))
        return parts_of(without.output)[at:]

    def endings(self, at):
        """How a part ends, of which each allocation is refused in turn."""
        if not self.counts[at]:
            return []
        after, endings = self.wanted(at), []
        for it in refused(self.program, self.stdin(), at + 1, self.clean):
            endings.append(self.ending(at, after, it))
            if endings[-1] is None:
                wrong(f"test_sessions, allocation {len(endings)} of {self.parts[at].name}", it)
        return endings

    def ending(self, at, after, it):
        """How this part ended in a run, where all others are as they should be, or None."""
        parts = parts_of(it.output) if it.status == 0 else []
        if parts[:at] != self.parts[:at] or parts[at + 1 :] != after:
            return None
        return ending_of(self.parts[at], parts[at])


def is_stopped(output, stored):
    """Whether these are some of the stored answers, from the first on, and then want of memory."""
    *answers, last = output.splitlines()
    return last == "out of memory" and answers == stored[: len(answers)]


def demo_ending(program, lines, stored, it):
    """How a run of vfs_demo ended, by who wanted memory, or None."""
    answers = it.output.splitlines()
    if it.status == 4 and is_stopped(it.output, stored):
        return "the program"
    if it.status or len(answers) != len(stored):
        return None
    if answers == stored:
        return "nobody, a smaller one was made in its place"
    at = next(at for at in range(len(stored)) if answers[at] != stored[at])
    unique = re.sub(rb"[^0-9a-f]", b"", lines[at].split(b" ")[1])[16:32].decode()
    ends = {"err OutOfMemory": "the server", f"ok 16 {ENOMEM}{unique}": "the file system"}
    # What a session answers that never had this line: nothing of it may be left.
    without = run(program, b"".join(line for i, line in enumerate(lines) if i != at))
    same = answers[at + 1:] == without.output.splitlines()[at:]
    return ends.get(answers[at]) if same else None


def try_demo(program, lines, stored):
    """How vfs_demo ends by each of its allocations, once it gave its stored answers with none refused."""
    stdin = b"".join(lines)
    clean = run(program, stdin)
    if clean.status or clean.output.splitlines() != stored:
        raise ValueError("vfs_demo, refused nothing, does not give its stored answers")
    with ThreadPoolExecutor(os.cpu_count()) as pool:
        numbers = range(1, clean.counts[0] + 2)
        runs = list(pool.map(lambda number: run(program, stdin, 0, number), numbers))
    if runs.pop() != clean:
        raise ValueError("vfs_demo wants more memory than it wanted")
    endings = [demo_ending(program, lines, stored, it) for it in runs]
    for number, (ending, it) in enumerate(zip(endings, runs), 1):
        if ending is None:
            wrong(f"vfs_demo, allocation {number}", it)
    return endings


def tell(what, endings):
    """Prints how many runs ended in which way."""
    counts = collections.Counter(endings)
    told = ", ".join(f"{it} {counts[it]}" for it in sorted(counts, key=str))
    print(f"{what}: {len(endings)} allocations refused in turn; answered by {told}", flush=True)


script, demo = built("test_sessions"), built("vfs_demo")
with open("crates/vfs_demo/stdin", "rb") as file:
    lines = file.readlines()
with open("crates/vfs_demo/stdout") as file:
    stored = file.read().splitlines()
# The LOOKUP of the stored session: a room of 144 bytes, 42 (0x2a) of opcode 1, of which the last two are `a` and a nul.
header = next(it[1] for it in (re.match(rb"(144 2a00000001[0-9a-f]*)61\+00\n", it) for it in lines) if it)
lookups = [header + b"+6100\n", header + b"61+00\n"]

print("1 of 2: each call of test_sessions, by itself ..", flush=True)
tried = Refusals(script, lines + lookups)
with ThreadPoolExecutor(os.cpu_count()) as pool:
    endings = list(pool.map(tried.endings, range(len(tried.parts))))
# (cut after its header it copies no name, and inside its name it does)
if endings[-2:] != [[], ["the server"]]:
    faults.append("LOOKUP of a")
    print(f"LOOKUP of a, cut after its header and in its name: {endings[-2:]}", file=sys.stderr)
wanting = sum(len(it) > 0 for it in endings)
print(f"test_sessions: {len(endings)} calls, of which {wanting} want memory")
tell("test_sessions", sum(endings, []))
print("2 of 2: a whole session of vfs_demo ..", flush=True)
tell("vfs_demo", try_demo(demo, lines, stored))
sys.exit(1 if faults else 0)
