"""Runs the suites of others on several file systems, and reports where they differ, for tests/compare/test_suites.py.

Each suite is a process of its own, in namespaces of its own, which prints a line for each case: its name, a tab,
and what came: ok, failed, skipped or something longer."""
import argparse
import fnmatch
import os
import signal
import subprocess
import sys
import tempfile
import time
import xml.etree.ElementTree
from collections import Counter, namedtuple
from concurrent.futures import ThreadPoolExecutor
from pathlib import Path

HERE = Path(__file__).resolve().parent
# In seconds, the time in which each suite ends; a quarter of it if it is quick.
SECONDS = {"cpython": 900, "coreutils": 1200, "test_syscalls": 60, "posixtest": 120, "stress-ng": 600, "fio": 240,
           "sqlite": 240, "pgbench": 300, "git": 300, "rsync": 180, "tar": 180, "cp": 180, "names": 600, "locks": 600,
           "two-mounts": 600}
ABOUT = {
    "cpython": "CPython's tests of files, of its package libpython3-testsuite, case by case",
    "coreutils": "the checks of GNU coreutils that make files, script by script",
    "test_syscalls": "libfuse's test of system calls",
    "posixtest": "go-fuse's test of what POSIX says",
    "stress-ng": "each stressor of stress-ng's class filesystem, with --verify",
    "fio": "fio with --verify: buffered, direct, mapped, with several jobs",
    "sqlite": "sqlite in each journal mode, by four writers, and killed; then its integrity_check",
    "pgbench": "PostgreSQL's pgbench; the server is killed, recovers, and its sums and checksums are checked",
    "git": "git: clone, fsck, gc, checkout, worktree, rebase",
    "rsync": "rsync -aHAX of files of all kinds, and what it kept",
    "tar": "tar of the same, and what it kept",
    "cp": "cp -a of the same, and what it kept",
    "names": "100,000 names in a directory",
    "locks": "flock(2) and fcntl(2): tests/programs/locks.py, stress-ng, CPython, two Perl modules, Samba's ping_pong",
    "two-mounts": "locks.py, ping_pong, sqlite and PostgreSQL over two mounts of one share",
}
# What a share has for a suite besides: a descriptor for each file may be more than there can be; locks are the host's;
# and who has a lock sees what was written before it.
OF_SHARE = {"names": ["--inode-file-handles=prefer"], "locks": ["--flock", "--posix-lock"],
            "two-mounts": ["--flock", "--posix-lock", "--cache=never"]}
# Those that want a second mount. A folder is beside itself.
TWO = {"two-mounts"}
NOBODY = ["setpriv", "--reuid=65534", "--regid=65534", "--clear-groups"]
# What is started so does not outlive this program.
ENDS_WITH_THIS = ["setpriv", "--pdeathsig=KILL"]
# Of a run the folder of what was downloaded, that of its logs, if it has fewer cases, and how many file systems at once.
Options = namedtuple("Options", "there logs quick jobs")


# What a suite has while it runs.

class Run:
    """The folder of a suite, that by a second mount, what it was given, and the environment of its programs."""
    def __init__(self, folder, second, there, quick):
        self.folder, self.second, self.there, self.quick = Path(folder), Path(second), Path(there), quick
        root = self.there / "root"
        programs = [f"{root}/{folder}" for folder in ("usr/bin", "usr/sbin", "bin", "sbin")]
        # (what was unpacked comes before what the machine has)
        path = ":".join([*programs, os.environ["PATH"], "/usr/sbin", "/sbin"])
        self.env = dict(os.environ, LC_ALL="C", TMPDIR=str(self.folder), HOME=str(self.folder), PATH=path)
        # (for what was unpacked, and is not where it would be installed)
        libraries = f"{root}/usr/lib/x86_64-linux-gnu"
        # (librados, which fio links, looks for its own where it would be installed)
        self.env["LD_LIBRARY_PATH"] = f"{libraries}:{root}/lib/x86_64-linux-gnu:{libraries}/ceph"

    def call(self, words, seconds=600, said=True, **more):
        """The status and what it said of a command, or of a line of the shell. Who is late is ended."""
        words = ["bash", "-c", words] if isinstance(words, str) else [str(word) for word in words]
        more = {"cwd": self.folder, "env": self.env} | more
        # (a session of its own, by which all that it started is ended)
        with subprocess.Popen(words, stdin=subprocess.DEVNULL, stdout=subprocess.PIPE, stderr=subprocess.STDOUT,
                              start_new_session=True, **more) as process:
            try:
                text, _ = process.communicate(timeout=seconds)
            except subprocess.TimeoutExpired:
                os.killpg(process.pid, signal.SIGKILL)
                text, _ = process.communicate()
                text += b"\n(it did not end)"
        text = text.decode(errors="replace")
        if said and (process.returncode or said == "always"):
            print(f"$ {' '.join(words)}\n{text}\n(status {process.returncode})", file=sys.stderr, flush=True)
        return process.returncode, text

    def case(self, name, came):
        """A line for each case, which run.sh compares with that of the folder itself."""
        print(f"{name}\t{came}", flush=True)

    def step(self, name, line, wanted=None, seconds=600, **more):
        """A case that is right if the line succeeds, and says what is wanted."""
        status, text = self.call(line, seconds, **more)
        came = "ok" if status == 0 and wanted in (None, text.strip()) else "failed"
        if came == "failed" and status == 0:
            print(f"$ {line}\nwanted: {wanted}\ncame: {text}", file=sys.stderr, flush=True)
        self.case(name, came)
        return came == "ok"


# CPython, coreutils, and the tests of libfuse and go-fuse.

CPYTHON = """test_os test_posix test_shutil test_pathlib test_glob test_mmap test_fcntl test_tempfile test_tarfile
    test_zipfile test_filecmp test_file test_fileio test_io test_stat test_genericpath test_posixpath test_mailbox
    test_dbm test_dbm_dumb test_dbm_gnu test_dbm_ndbm test_shelve test_unicode_file test_unicode_file_functions
    test_bz2 test_gzip test_lzma test_py_compile test_zipapp test_zipimport test_runpy
    test_cmd_line_script test_import test_importlib test_selectors test_netrc test_fileinput test_pkgutil
    test_modulefinder test_logging""".split()
CPYTHON_QUICK = "test_os test_posix test_shutil test_pathlib test_mmap test_fcntl test_tempfile test_tarfile".split()


def cpython(run, modules=None, those=()):
    """CPython's tests of these modules, of which only `those` cases, if any are named, by a report in XML."""
    python = run.there / "cpython/usr/bin/python3"
    modules = modules or (CPYTHON_QUICK if run.quick else CPYTHON)
    cases = run.folder / "cases.xml"
    env = dict(run.env)
    # (the unpacked interpreter finds its libraries by itself)
    del env["LD_LIBRARY_PATH"]
    _, text = run.call([python, "-m", "test", "-j2", "--timeout=200", f"--tempdir={run.folder}", "-u",
                        "all,-largefile,-network,-urlfetch,-audio,-gui,-cpu", "--ignore", "*LargeMmapTests*",
                        f"--junit-xml={cases}", *(f"--match={one}" for one in those), *modules],
                       SECONDS["cpython"], said="always", env=env)
    told = Counter()
    worst = ["ok", "skipped", "failed"]
    came = {}
    for case in xml.etree.ElementTree.parse(cases).iter("testcase"):
        parts = {part.tag for part in case}
        is_so = "failed" if parts & {"failure", "error"} else "skipped" if "skipped" in parts else "ok"
        name = case.get("name").split(" ")[0].removeprefix("test.")
        # (a case with several parts is as bad as its worst)
        came[name] = max(came.get(name, "ok"), is_so, key=worst.index)
        if is_so == "failed":
            told[name.split(".")[0]] += 1
    for name, is_so in came.items():
        run.case(name, is_so)
    # What failed as a whole, and has no case that did.
    for module in modules:
        for line in text.splitlines():
            # (after this are others, which it has not ended)
            words = line.partition(" -- running: ")[0].split()
            if module in words and ("failed" in words or "crashed" in words) and not told[module]:
                run.case(module, "failed")
                break


# The folders of coreutils' checks, of the last one only those of COREUTILS_MISC.
COREUTILS = ("cp mv rm ls touch ln mkdir rmdir install du dd chmod chown chgrp misc").split()
# Beside those of other matters, what takes minutes or wants a file system of its own.
COREUTILS_BUT = """*big* *abuse* *capability* *selinux* *chcon* *smack* dd/no-allocate* dd/stderr* du/long-from*
    ls/stat-free* rm/ext3-perf* rm/many-dir*""".split()
COREUTILS_MISC = """truncate* stat-* readlink* realpath* mknod* mktemp* tee* shred* sync* split-* tac* nl* tail* head*
    cat-* csplit* df* timeout-* sort-merge* ptx* test-N* fmt-long* coreutils*""".split()


def coreutils(run):
    """The scripts that make files, two at a time, as `make check` calls them."""
    built = run.there / "coreutils"
    env = dict(part.split("=", 1) for part in (built / "environment").read_bytes().decode().split("\0") if "=" in part)
    env |= {"TMPDIR": str(run.folder), "NON_ROOT_USERNAME": "nobody", "PWD": str(run.folder)}
    env["PATH"] = f"{built}/src:{run.env['PATH']}"
    root = run.there / "root/usr/lib/x86_64-linux-gnu"
    env["LD_LIBRARY_PATH"] = str(root)
    # The scripts name files beside them, and write into their folder: links give each run a folder of its own.
    for entry in built.iterdir():
        (run.folder / entry.name).symlink_to(entry)
    scripts = []
    for script in sorted((built / "tests").glob("*/*.sh")):
        name = f"{script.parent.name}/{script.stem}"
        if script.parent.name not in COREUTILS or any(fnmatch.fnmatch(name, but) for but in COREUTILS_BUT):
            continue
        if script.parent.name != "misc" or any(fnmatch.fnmatch(script.stem, of) for of in COREUTILS_MISC):
            scripts.append((name, script))
    if run.quick:
        scripts = [(name, script) for name, script in scripts if name.split("/")[0] in ("cp", "mv", "rm", "mkdir")]

    def check(named):
        name, script = named
        # 9 is where they say why they skip.
        status, text = run.call(f"exec 9>&2; exec /bin/sh {script}", 100, said=False,
                                env=env | {"CU_TEST_NAME": f"coreutils,{name.replace('/', '-')}"})
        if status:
            print(f"== {name}: {status}\n{text[-300 if status == 77 else -3000:]}", file=sys.stderr, flush=True)
        # (77 is how a check of automake skips; -9 how `call` ends what is late)
        return name, {0: "ok", 77: "skipped", -9: "did not end"}.get(status, "failed")

    with ThreadPoolExecutor(2) as pool:
        for name, came in pool.map(check, scripts):
            run.case(name, came)


def test_syscalls(run):
    """libfuse's test of system calls, a case for each of its tests."""
    (run.folder / "folder").mkdir()
    _, text = run.call([run.there / "test_syscalls", run.folder / "folder"], 50, said="always")
    for line in text.splitlines():
        # (as ` 12 [open_acc]     OK`, by the number of the test)
        if line[:4].strip().isdigit() and "[" in line:
            name = line[line.index("[") + 1:line.rindex("]")]
            run.case(name, "ok" if line.endswith("] OK") else "failed")


def posixtest(run):
    """go-fuse's test, a case for each of its tests."""
    _, text = run.call([run.there / "posixtest", "-test.v"], 110, said="always")
    for line in text.splitlines():
        words = line.split()
        if len(words) > 2 and words[0] == "---" and "/" in words[2]:
            run.case(words[2].split("/", 1)[1], {"PASS:": "ok", "SKIP:": "skipped"}.get(words[1], "failed"))


# Load, with what was written looked at.

# What mounts by itself, or is disabled.
STRESS_BUT = {"binderfs", "bind-mount", "ramfs", "quota"}


def stressors(run):
    """The stressors of stress-ng that are about file systems, but for those that are left out by name."""
    _, text = run.call(["stress-ng", "--class", "filesystem?"], 20, said=False)
    return [name for name in text.split(":", 1)[1].split() if name not in STRESS_BUT]


def stress_ng(run):
    """Each of them, or in a quick run one of four."""
    every = stressors(run)
    stress(run, every[::4] if run.quick else every, 1, 1)


def stress(run, names, instances, seconds):
    """Each stressor by itself, for some seconds."""
    for name in names:
        status, text = run.call(["stress-ng", f"--{name}", instances, "--timeout", f"{seconds}s", "--verify", "--oomable",
                                 "--temp-path", run.folder], 60, said=False)
        came = "ok"
        if status:
            # (3: no resources; 4: not implemented)
            came = {-9: "did not end", 3: "skipped", 4: "skipped"}.get(status, "failed")
        elif "skipped: 1" in text or "skipping" in text:
            came = "skipped"
        if came not in ("ok", "skipped"):
            print(f"== {name}: {status}\n{text}", file=sys.stderr, flush=True)
        run.case(name, came)


def fio(run):
    """Jobs that write, and verify what they wrote."""
    size = "8m" if run.quick else "64m"
    jobs = {
        "buffered, two jobs, crc32c": "--rw=randrw --bs=512-256k --numjobs=2 --verify=crc32c",
        "direct, md5": "--rw=randwrite --bs=4k --direct=1 --verify=md5",
        "mapped, sha1": "--ioengine=mmap --rw=randwrite --bs=4k --verify=sha1",
        "libaio, depth 16, xxhash": "--ioengine=libaio --iodepth=16 --direct=1 --rw=randwrite --bs=16k --verify=xxhash",
        "sequential, fsync, crc64": "--rw=write --bs=1m --fsync=8 --verify=crc64",
        "verified while written": "--rw=randwrite --bs=8k --verify=crc32c --verify_backlog=64",
    }
    for name, words in jobs.items():
        run.step(name, f"fio --name=v --directory=. --size={size} {words} --do_verify=1 --verify_fatal=1 --thread "
                 "--group_reporting --output-format=terse && rm -f v.*")


SQLITE = """PRAGMA journal_mode={mode}; CREATE TABLE a(i INTEGER PRIMARY KEY, t TEXT);
WITH RECURSIVE c(x) AS (SELECT 1 UNION ALL SELECT x+1 FROM c WHERE x<{rows})
INSERT INTO a SELECT x, hex(randomblob(20)) FROM c;
CREATE INDEX b ON a(t); DELETE FROM a WHERE i%3=0; VACUUM; PRAGMA integrity_check; SELECT count(*) FROM a;"""


def sqlite(run):
    """A database in each journal mode, by several writers, and by one that is killed."""
    rows = 9000 if run.quick else 90000
    for mode in ("delete", "truncate", "persist", "memory", "wal"):
        run.step(mode, f"sqlite3 {mode}.db '{SQLITE.format(mode=mode, rows=rows)}'", f"{mode}\nok\n{rows - rows // 3}")
    run.step("four writers, wal", """sqlite3 w.db 'PRAGMA journal_mode=WAL; CREATE TABLE q(i);' > w.mode
        for i in 1 2 3 4; do
            (for k in $(seq 25); do sqlite3 -cmd '.timeout 20000' w.db "INSERT INTO q VALUES($k)"; done) &
        done
        wait; sqlite3 w.db 'SELECT count(*) FROM q; PRAGMA integrity_check'""", "100\nok")
    run.call(["sqlite3", "k.db", "PRAGMA journal_mode=DELETE; CREATE TABLE a(i); INSERT INTO a VALUES(1)"])
    with subprocess.Popen(["sqlite3", "k.db"], stdin=subprocess.PIPE, cwd=run.folder, env=run.env) as writer:
        # (a small cache, so that pages are written before the commit)
        writer.stdin.write(b"PRAGMA cache_size=10; BEGIN;")
        writer.stdin.write(b"".join(b"INSERT INTO a VALUES(%d);\n" % i for i in range(20000)))
        writer.stdin.flush()
        time.sleep(1)
        writer.kill()
    run.step("killed in a transaction", "sqlite3 k.db 'SELECT count(*) FROM a; PRAGMA integrity_check'", "1\nok")


def kill_all(name):
    """Kills each process of a name, of those that the namespace of the suite has."""
    for folder in Path("/proc").glob("[0-9]*"):
        try:
            if (folder / "comm").read_text().strip() == name:
                os.kill(int(folder.name), signal.SIGKILL)
        except (FileNotFoundError, ProcessLookupError):
            pass


class Postgres:
    """A server of PostgreSQL, run by nobody, whose folder each of its calls names."""

    def __init__(self, run):
        """Makes its folder, and that of its socket, which are nobody's: PostgreSQL doesn't run as root."""
        self.run, self.own = run, run.folder / "postgres"
        self.own.mkdir()
        # Its socket is elsewhere, since a socket in the folder is a case of other suites: in a folder that goes with this
        # object, or with the process.
        self.kept = tempfile.TemporaryDirectory(prefix="nizwarf-")
        self.sockets = Path(self.kept.name)
        for folder in (self.own, self.sockets):
            os.chown(folder, 65534, 65534)
        # (the newest of those that are there)
        bins = [*Path("/usr/lib/postgresql").glob("*/bin"), *(run.there / "root/usr/lib/postgresql").glob("*/bin")]
        run.env |= {"PATH": f"{sorted(bins)[-1]}:{run.env['PATH']}", "PGHOST": str(self.sockets), "PGUSER": "postgres",
                    "PGDATABASE": "postgres"}
        self.client = {"env": run.env, "cwd": self.own}

    def as_nobody(self, name, words, wanted=None, own=None):
        """A step as a user that isn't root, as which PostgreSQL refuses to run."""
        return self.run.step(name, " ".join([*NOBODY, words]), wanted, 120, **self.client | {"cwd": own or self.own})

    def query(self, name, text, wanted):
        self.run.step(name, f'psql -AtX -c "{text}"', wanted, 60, **self.client)

    def init(self):
        """Makes a database with checksums of pages, so that bytes that were mixed up are seen."""
        return self.as_nobody("init", "initdb -D data -U postgres -A trust --data-checksums > made")

    def starting(self, sockets=None, said="said"):
        return (f"pg_ctl -w -t 60 -D data -l {said} -o '-k {sockets or self.sockets} -c listen_addresses= "
                "-c shared_buffers=16MB -c max_connections=20' start > started")

    def start(self, name, own=None):
        """Starts the server, and waits until it answers."""
        return self.as_nobody(name, self.starting(), own=own)

    def fill(self, scale):
        self.run.step("pgbench -i", f"pgbench -i -q -s {scale} > filled 2>&1", **self.client)

    def load(self, seconds):
        return subprocess.Popen(["bash", "-c", f"pgbench -n -c 4 -j 2 -T {seconds} > {self.sockets}/ran 2>&1"],
                                stdin=subprocess.DEVNULL, **self.client)

    def sums(self):
        """The sums of each table are those of the history, as pgbench keeps them."""
        for table in ("accounts", "branches", "tellers"):
            self.query(f"sum of {table}", f"SELECT (SELECT sum({table[0]}balance) FROM pgbench_{table}) = "
                       "(SELECT coalesce(sum(delta), 0) FROM pgbench_history)", "t")

    def done(self):
        """How many transactions the load came to."""
        done = [line for line in (self.sockets / "ran").read_text().splitlines() if "actually processed" in line]
        return int(done[0].split(":")[1].split("/")[0]) if done else 0

    def committed(self):
        """What clients were told is committed is there after a kill; they wrote how many that are."""
        done = self.done()
        self.query("nothing committed is lost", f"SELECT count(*) >= {done} AND {done} > 0 FROM pgbench_history", "t")

    def stop(self, own=None):
        self.as_nobody("stop", "pg_ctl -w -D data -m fast stop > stopped", own=own)

    def checksums(self):
        self.as_nobody("checksums", "pg_checksums --check -D data > checked")


def pgbench(run):
    """Load on a server that is killed, then recovers, and must have all that it said was done."""
    server = Postgres(run)
    server.init()
    if not server.start("start"):
        return
    server.fill(1 if run.quick else 3)
    with server.load(4 if run.quick else 12) as load:
        time.sleep(2 if run.quick else 8)
        kill_all("postgres")
        load.wait(60)
    # (its processes go on for a moment)
    time.sleep(0.5)
    if not server.start("recovery"):
        return
    server.committed()
    server.sums()
    server.query("vacuum", "VACUUM FULL pgbench_accounts", "VACUUM")
    server.stop()
    server.checksums()


# Locks.

def locks_py(run, *words):
    """Each step of tests/programs/locks.py, by one path of a file or by two."""
    prefix = "locks.py" if len(words) == 1 else "two: locks.py"
    words[0].touch()
    _, text = run.call([sys.executable, "-B", HERE.parent / "programs/locks.py", "--cases", *words], 100, said="always")
    for line in text.splitlines():
        if "\t" in line:
            name, came = line.split("\t")
            run.case(f"{prefix} {name}", came.split(":")[0])


def ping_pong(run, name, words, one, other):
    """Two processes that hand a lock of fcntl(2) on to each other, by two paths of a file, until they are told to end."""
    one.touch()
    # (3: one more lock than there are processes)
    line = "timeout -s INT {} {} {} '{}' 3"
    texts = []
    with ThreadPoolExecutor(2) as pool:
        for status, text in pool.map(lambda path: run.call(line.format(4, run.there / "ping_pong", words, path), 20,
                                                           said="always"), (one, other)):
            # (`N locks/sec` each second; 124 is the status of timeout)
            rates = [int(part.split()[-1]) for part in text.split(" locks/sec")[:-1]]
            texts.append(text if status == 124 and any(rates) and "failed" not in text else "")
    ok = all(texts) and ("w" not in words or all("increment = 2" in text for text in texts))
    run.case(name, "ok" if ok else "failed")


def perl(run, module, libraries):
    """The tests of a module of Perl, with these folders of libraries."""
    words = [f"-I{folder}" for folder in libraries]

    def check(test):
        with open(test, encoding="utf-8") as lines:
            tainted = ["-T"] if " -T" in lines.readline() else []
        return run.call(["perl", *tainted, *words, test], 100)[0]

    tests = sorted((run.there / module / "t").glob("*.t"))
    with ThreadPoolExecutor(4) as pool:
        for test, status in zip(tests, pool.map(check, tests)):
            run.case(f"{module} {test.name}", "ok" if status == 0 else "failed")


# Stressors of locks.
LOCKING = "flock lease locka lockf lockofd lockmix fd-race".split()


def locks(run):
    """Locks of one mount, as each of several programs tests them."""
    locks_py(run, run.folder / "file")
    ping_pong(run, "ping_pong", "-c", run.folder / "ping", run.folder / "ping")
    ping_pong(run, "ping_pong, data", "-rw", run.folder / "pong", run.folder / "pong")
    found = stressors(run)
    stress(run, [name for name in LOCKING if name in found], 4, 1 if run.quick else 4)
    perl(run, "File-FcntlLock", (run.there / "root/usr/lib/x86_64-linux-gnu/perl5").glob("*"))
    perl(run, "File-NFSLock", [run.there / "File-NFSLock/lib"])
    cpython(run, ["test_fcntl", "test_mailbox"], ["test_fcntl*", "*lock*"])


# A turn of a writer: a number that counts all turns, and rows that are made and removed by it.
TRANSFER = """BEGIN IMMEDIATE; UPDATE n SET i=i+1; INSERT INTO a SELECT i, hex(randomblob(200)) FROM n;
DELETE FROM a WHERE i%7=0; COMMIT;"""


def two_sqlite(run, name, mode, one, other):
    """Two processes, each by its own path of a database, write in turns as its locks let them."""
    count = 20 if run.quick else 100
    run.call(["sqlite3", one, f"PRAGMA journal_mode={mode}; CREATE TABLE n(i); INSERT INTO n VALUES(0); "
              "CREATE TABLE a(i, t); CREATE INDEX b ON a(t);"])
    line = "for i in $(seq {}); do echo '{}'; done | sqlite3 -bail -cmd '.timeout 30000' '{}'"
    with ThreadPoolExecutor(4) as pool:
        came = list(pool.map(lambda path: run.call(line.format(count, TRANSFER, path), 100)[0], (one, other) * 2))
    run.case(f"{name}, written", "ok" if not any(came) else "failed")
    for path, which in ((one, "one"), (other, "the other")):
        run.step(f"{name}, by {which}", f"sqlite3 '{path}' 'SELECT i, (SELECT count(*) FROM a) FROM n; "
                 "PRAGMA integrity_check;'", f"{4 * count}|{4 * count - 4 * count // 7}\nok")


def two_exclusive(run, one, other):
    """A write-ahead log without memory that is shared: who has the database locks out the other."""
    run.call(["sqlite3", one, "PRAGMA locking_mode=EXCLUSIVE; PRAGMA journal_mode=WAL; CREATE TABLE a(i);"])
    alone = "PRAGMA locking_mode=EXCLUSIVE; INSERT INTO a VALUES({});"
    with subprocess.Popen(["sqlite3", one], stdin=subprocess.PIPE, stdout=subprocess.PIPE, cwd=run.folder, env=run.env,
                          text=True) as holder:
        holder.stdin.write(alone.format(1) + "\nSELECT 'has it';\n")
        holder.stdin.flush()
        while holder.stdout.readline().strip() not in ("has it", ""):
            pass
        status, text = run.call(["sqlite3", other, alone.format(2)], said="always")
        run.case("wal, exclusive: the other is locked out", "ok" if status and "locked" in text else "failed")
        holder.stdin.close()
        holder.wait(60)
    run.step("wal, exclusive: then it writes", f"sqlite3 '{other}' '{alone.format(3)} SELECT count(*) FROM a; "
             "PRAGMA integrity_check;'", "exclusive\n2\nok")


def two_postgres(run):
    """A server by one path; a second one by the other is refused while it runs, and serves the same after it."""
    server, second = Postgres(run), run.second / "postgres"
    server.init()
    if not server.start("start"):
        return
    server.fill(1)
    with server.load(3 if run.quick else 6) as load:
        status, _ = run.call(" ".join([*NOBODY, server.starting(f"{server.sockets} -p 5433", "second")]), 90, said=False,
                             **server.client | {"cwd": second})
        text = (second / "second").read_text()
        run.case("a second server is refused", "ok" if status and 'lock file "postmaster.pid"' in text else "failed")
        load.wait(60)
    server.committed()
    server.stop()
    if not server.start("start by the other", second):
        return
    server.committed()
    server.sums()
    server.stop(second)
    server.checksums()


def two_mounts(run):
    """Locks and databases by two mounts of one folder."""
    locks_py(run, run.folder / "file", run.second / "file")
    ping_pong(run, "ping_pong", "-c", run.folder / "ping", run.second / "ping")
    ping_pong(run, "ping_pong, data", "-rw", run.folder / "pong", run.second / "pong")
    for mode in ("delete", "truncate", "persist", "wal"):
        two_sqlite(run, mode, mode, run.folder / f"{mode}.db", run.second / f"{mode}.db")
    two_exclusive(run, run.folder / "alone.db", run.second / "alone.db")
    two_postgres(run)


def git(run):
    """What git does with this repository's history, or with one that is made if there are too few commits."""
    source = HERE.parent.parent
    status, _ = run.call(["git", "-c", "safe.directory=*", "-C", source, "rev-parse", "HEAD~5"], said=False)
    run.env |= {f"GIT_{who}_{what}": "suites" for who in ("AUTHOR", "COMMITTER") for what in ("NAME", "EMAIL")}
    run.env |= {"GIT_CONFIG_COUNT": "2", "GIT_CONFIG_KEY_0": "safe.directory", "GIT_CONFIG_VALUE_0": "*",
                "GIT_CONFIG_KEY_1": "gc.auto", "GIT_CONFIG_VALUE_1": "0"}
    if status:
        run.call(f"git init -q made && cd made && cp -r '{source}/docs' . && git add . && git commit -qm 0 && "
                 "for i in $(seq 20); do echo $i >> docs/n && git add . && git commit -qm $i; done")
        source = run.folder / "made"
    _, commits = run.call(["git", "-C", source, "rev-list", "--count", "HEAD"], said=False)
    run.step("clone", f"git clone -q --no-hardlinks 'file://{source}' g" + (" --depth 50" if run.quick else ""))
    inside = {"cwd": run.folder / "g"}
    run.step("fsck", "git fsck --full 2>&1 | grep -v -e ^dangling -e ^notice; git status --short", "", **inside)
    if not run.quick:
        run.step("history", "git rev-list --count HEAD", commits.strip(), **inside)
    run.step("checkout", "git checkout -q HEAD~5 && git checkout -q - && git status --short", "", **inside)
    run.step("commit, and rebase on an earlier one", "echo x >> new && git add new && git commit -qm t && "
             "git checkout -qb b HEAD~3 && echo y > other && git add other && git commit -qm u && git rebase -q - && "
             "cat new other", "x\ny", **inside)
    run.step("worktree", "git worktree add -q ../w HEAD~2 && git -C ../w status --short && "
             "git worktree remove ../w", "", **inside)
    run.step("gc", "git gc -q --prune=now && git fsck --full 2>&1 | grep -v -e ^dangling -e ^notice || true", "",
             **inside)
    run.step("repack", "git repack -qadf --depth=5 && git fsck --full && git status --short", None, **inside)
    run.step("removed", "rm -rf g made && ls -A", "")


# What copies, and what it keeps.

def make_sample(folder):
    """Files of all kinds and modes, the same each time."""
    folder.mkdir(parents=True)
    for i in range(12):
        (folder / f"d{i}" / "below").mkdir(parents=True)
        for j in range(60):
            file = folder / f"d{i}" / ("below" if j % 2 else ".") / f"file {j}"
            # (of no bytes up to half a megabyte)
            file.write_bytes(b"%d " % (i * j) * (j * j * (40 if j % 20 == 19 else 1)))
            os.chown(file, j % 5, i % 7)
            file.chmod((0o644, 0o755, 0o600, 0o4755, 0o2755, 0o444, 0, 0o6711)[j % 8])
            if j % 7 == 0:
                os.link(file, folder / f"d{i}" / f"link {j}")
            if j % 9 == 0:
                (folder / f"d{i}" / f"symbolic {j}").symlink_to(file.name * (j % 4 + 1))
            if j % 11 == 0:
                os.setxattr(file, "user.nizwarf", b"value %d" % j)
    (folder / os.fsdecode(b"\xff\xfe \n\t")).write_text("an odd name")
    (folder / ("n" * 255)).write_text("a long name")
    with open(folder / "holes", "wb") as file:
        # A hole of 3 MiB before the first byte.
        file.seek(3 << 20)
        file.write(b"end")
    (folder / "empty").touch()
    for i, folder_too in enumerate(sorted(folder.glob("d*"))):
        folder_too.chmod((0o755, 0o1777, 0o2755, 0o700)[i % 4])
    for root, folders, files in os.walk(folder):
        for i, name in enumerate(sorted(folders + files)):
            # (nanoseconds: of access 2001, of changes a day apart, with parts of a second)
            times = (10**18 + i, (10**9 + 86400 * i) * 10**9 + 123456789 + i)
            os.utime(Path(root) / name, ns=times, follow_symlinks=False)


def make_trusted(folder):
    """Files with attributes that only CAP_SYS_ADMIN sees."""
    folder.mkdir()
    for i in range(5):
        (folder / f"file{i}").touch()
        os.setxattr(folder / f"file{i}", "trusted.nizwarf", bytes(range(i * 40)))


def make_special(folder):
    """A FIFO, a socket and devices."""
    folder.mkdir()
    os.mkfifo(folder / "fifo")
    os.mknod(folder / "character", 0o020640, os.makedev(1, 3))
    os.mknod(folder / "block", 0o060640, os.makedev(7, 77))
    os.mknod(folder / "socket", 0o140755)


def facts(folder):
    """Of each name below a folder what is to be kept, by kind."""
    found = {}
    for root, folders, files in os.walk(folder):
        for name in folders + files:
            path = os.path.join(root, name)
            is_so = os.lstat(path)
            # (S_IFMT: 0o100000 a file, 0o040000 a directory, 0o120000 a symbolic link)
            kind = is_so.st_mode & 0o170000
            xattrs = {}
            if kind in (0o100000, 0o040000):
                xattrs = {key: os.getxattr(path, key) for key in os.listxattr(path) if not key.startswith("security.")}
            contents = b""
            if kind == 0o100000:
                with open(path, "rb") as file:
                    contents = file.read()
            found[os.path.relpath(path, folder)] = {
                "modes": is_so.st_mode, "owners": (is_so.st_uid, is_so.st_gid), "times": is_so.st_mtime_ns,
                "hard links": is_so.st_nlink if kind != 0o040000 else 0, "devices": is_so.st_rdev,
                "contents": contents, "symbolic links": os.readlink(path) if kind == 0o120000 else "",
                "attributes": xattrs}
    return found


def kept(run, before, after):
    """A case for each kind of fact."""
    before, after = facts(before), facts(after)
    run.case("names", "ok" if before.keys() == after.keys() else "failed")
    for kind in ("modes", "owners", "times", "hard links", "devices", "contents", "symbolic links", "attributes"):
        differ = [name for name, has in before.items() if name in after and after[name][kind] != has[kind]]
        for name in differ[:5]:
            print(f"{name!r}: {kind}: {str(before[name][kind])[:60]}, {str(after[name][kind])[:60]}", file=sys.stderr)
        run.case(kind, "ok" if not differ else f"{len(differ)} not kept")


def copied(run, copy, again=None):
    """Files of all kinds are copied, looked at, copied onto themselves, removed; FIFOs and the like apart."""
    sample = run.there / "sample"
    ok = run.step("copied", copy.format(source=sample, to="copy"))
    if ok or (run.folder / "copy").exists():
        kept(run, sample, run.folder / "copy")
    if again:
        run.step("found the same", again.format(source=sample, to="copy"), "")
    if not run.quick:
        line = copy.format(source="/usr/share/doc", to="doc")
        run.step("/usr/share/doc", f"{line} && diff -r --no-dereference /usr/share/doc doc")
    for name, what in (("special", "FIFOs, sockets, devices"), ("trusted", "trusted attributes")):
        status, _ = run.call(copy.format(source=run.there / name, to=name))
        before, after = facts(run.there / name), facts(run.folder / name)
        # (tar leaves sockets out)
        is_kept = not status and after and all(before[file] == has for file, has in after.items())
        run.case(what, "ok" if is_kept else "failed")
    run.step("removed", "rm -rf copy doc special trusted t.tar && ls -A", "")


def rsync(run):
    """Copies a tree with links, lists and attributes, and then has rsync compare bytes."""
    copied(run, "mkdir {to} && rsync -aHAX {source}/ {to}/", "rsync -aHAX --checksum --itemize-changes {source}/ {to}/")


def tar(run):
    """The same by an archive, which tar compares with what it unpacked."""
    copied(run, "mkdir {to} && tar --xattrs --xattrs-include='*' -cf t.tar -C {source} . && "
           "tar --xattrs --xattrs-include='*' -xpf t.tar -C {to} && tar -df t.tar -C {to} && rm t.tar")


def cp(run):
    copied(run, "cp -a {source} {to}")


def names(run):
    """Many files in a directory: made, listed, renamed and removed while it is read."""
    count = 10000 if run.quick else 100000
    big = run.folder / "big"
    big.mkdir()
    for i in range(count):
        os.close(os.open(big / f"file{i}", os.O_CREAT | os.O_EXCL | os.O_WRONLY))
    listed = os.listdir(big)
    run.case("listed once each", "ok" if len(listed) == len(set(listed)) == count else "failed")
    run.step("find", "find big -type f | wc -l", str(count))
    run.step("ls -l", "ls -l big | wc -l", str(count + 1))
    for i in range(0, count, 2):
        os.rename(big / f"file{i}", big / f"name{i}")
    run.step("half renamed", "find big -name 'name*' | wc -l", str(count // 2))
    seen = 0
    with os.scandir(big) as entries:
        for entry in entries:
            os.unlink(entry.path)
            seen += 1
    run.case("removed while read", "ok" if seen == count and not os.listdir(big) else "failed")
    run.step("removed", "rmdir big && ls -A", "")


# What the suites run on.

class Column:
    """A folder, or what mounts one: its name and kind, and how it comes, with words. Paths of homes must be as long as each
    other, because a test may count on how long paths are."""
    def __init__(self, home, name, kind, how, *words):
        self.home, self.name, self.kind, self.how, self.words = home, name, kind, how, words
        self.word = "".join(letter if letter.isalnum() else "_" for letter in self.name)
        self.servers, self.mounts = [], []

    def start(self, suite):
        """The folder for a suite, and by its second mount, with servers of its own if it is mounted here."""
        if self.how == "folder":
            folder = Path(self.words[0]) / f"nizwarf-{suite}-{os.getpid()}"
            folder.mkdir()
            return folder, folder
        self.home.mkdir(exist_ok=True)
        self.at = self.home / suite
        self.at.mkdir()
        self.servers, self.mounts = [], [self.at / "mount"]
        if self.how == "mount" and suite in TWO:
            self.mounts.append(self.at / "other")
        for folder in (self.at / "folder", *self.mounts):
            folder.mkdir()
            folder.chmod(0o755)
        if self.how == "tmpfs":
            subprocess.run(["mount", "-t", "tmpfs", "-o", "mode=755", "none", self.mounts[0]], check=True)
        elif self.how == "mount":
            for mount in self.mounts:
                self.serve(suite, mount)
        (self.mounts[0] / "suite").mkdir()
        return self.mounts[0] / "suite", self.mounts[-1] / "suite"

    def serve(self, suite, mount):
        """Starts a server on a mount, and waits until that is there, half a minute at most."""
        words = [word.replace("FOLDER", f"{self.at}/folder").replace("MOUNT", str(mount)) for word in self.words]
        if self.kind.startswith("fuse.nizwarf-share"):
            words[1:1] = OF_SHARE.get(suite, [])
        with open(self.at / "said", "ab") as log:
            server = subprocess.Popen([*ENDS_WITH_THIS, *words], stdin=subprocess.DEVNULL, stdout=log, stderr=log,
                                      start_new_session=True)
        self.servers.append(server)
        until = time.monotonic() + 30
        while not os.path.ismount(mount):
            if server.poll() is not None or time.monotonic() > until:
                raise RuntimeError(f"{self.name} was not mounted: {(self.at / 'said').read_text()}")
            time.sleep(0.02)

    def end(self, suite, folder, ended):
        """Takes away what was made, and says what is wrong with a server, if anything is."""
        if self.how == "folder":
            if ended:
                subprocess.run(["rm", "-rf", folder], stderr=subprocess.DEVNULL)
            return ""
        wrong = ""
        if self.servers and ended:
            gone = [server.returncode for server in self.servers if server.poll() is not None]
            # (what was removed goes before the mount does)
            wrong = f"ended meanwhile, with {gone[0]}" if gone else self.left(folder)
        for mount in self.mounts:
            subprocess.run(["umount", mount], stderr=subprocess.DEVNULL)
            if os.path.ismount(mount):
                subprocess.run(["umount", "-l", mount], stderr=subprocess.DEVNULL)
        for server in self.servers:
            try:
                status = server.wait(60)
                if status and ended and not wrong:
                    wrong = f"ended with {status}"
            except subprocess.TimeoutExpired:
                server.kill()
                server.wait()
                wrong = wrong or "did not end after it was unmounted"
        if self.servers:
            text = (self.at / "said").read_text(errors="replace")
            if "Sanitizer" in text or "runtime error" in text:
                wrong = "a sanitizer found something"
            if text:
                print(f"{self.name}, {suite}, said:\n{text[-2000:]}", file=sys.stderr)
        self.servers = []
        subprocess.run(["rm", "-rf", "--one-file-system", self.at])
        return wrong

    def left(self, folder):
        """Removes what a suite made, and says what is left."""
        try:
            subprocess.run(["rm", "-rf", folder], timeout=300, stderr=subprocess.DEVNULL)
        except subprocess.TimeoutExpired:
            return "what was made could not be removed in five minutes"
        return f"{folder.name} could not be removed" if folder.exists() else ""

    def give_up(self):
        """Ends servers on which something hangs, and their connections to the kernel, so that nothing does."""
        if not self.servers:
            return
        with open("/proc/self/mountinfo", encoding="utf-8") as mounts:
            for line in mounts:
                words = line.split()
                # mountinfo: the third word is the device as 0:N, the fifth the mount point; N is the connection's number.
                if words[4] in map(str, self.mounts):
                    file = Path("/sys/fs/fuse/connections") / words[2].split(":")[1] / "abort"
                    if file.exists():
                        file.write_text("1")
        for server in self.servers:
            server.kill()


def run_one(column, suite, options):
    """What each case came to, and a case for the server if that is wrong."""
    limit = SECONDS[suite] // (4 if options.quick else 1)
    began = time.monotonic()
    try:
        folder, second = column.start(suite)
    except (OSError, RuntimeError) as error:
        return {"the mount": f"failed: {error}"}, 0
    came, log = options.logs / f"{suite}.{column.word}.cases", options.logs / f"{suite}.{column.word}.log"
    # (a namespace of processes, so that a suite that is ended leaves none)
    words = [*ENDS_WITH_THIS, "unshare", "--mount", "--propagation=slave", "--pid", "--fork", "--kill-child=KILL",
             "--mount-proc", sys.executable, "-B", __file__, suite, str(folder), str(second), str(options.there)]
    if options.quick:
        words.append("--quick")
    ended = True
    with open(came, "wb") as out, open(log, "wb") as err:
        process = subprocess.Popen(words, stdin=subprocess.DEVNULL, stdout=out, stderr=err, cwd="/",
                                   start_new_session=True)
        try:
            process.wait(limit)
        except subprocess.TimeoutExpired:
            ended = False
            os.killpg(process.pid, signal.SIGKILL)
            column.give_up()
            try:
                process.wait(30)
            except subprocess.TimeoutExpired:
                print(f"{suite} on {column.name} can't be killed.", file=sys.stderr)
    # (a case that is told twice is what it came to last)
    cases = dict(line.split("\t", 1) for line in came.read_text(errors="replace").splitlines() if "\t" in line)
    if not ended:
        cases["the suite"] = "did not end"
    elif process.returncode:
        cases["the suite"] = f"ended with {process.returncode}"
    elif not cases:
        cases["the suite"] = "has no case"
    wrong = column.end(suite, folder, ended)
    if wrong:
        cases["the server"] = wrong
    return cases, time.monotonic() - began


# What is said of it.

def reasons(file):
    """(kind, suite, case, why), of each line that is no comment."""
    with open(file, encoding="utf-8") as lines:
        return [tuple(map(str.strip, line.split("|"))) for line in lines if line.strip() and line[0] != "#"]


def short(cases):
    """How many cases came to what, in a few words."""
    counts = Counter(cases.values())
    order = sorted(counts, key=lambda word: (word != "ok", word != "skipped", word))
    shown = [f"{counts[word]} {word}" for word in order]
    return ", ".join(shown[:4] + (["..."] if len(shown) > 4 else []))


def compare(suite, column, cases, reference, known):
    """The reasons for which cases of a column differ from those of the reference, and what has none."""
    why, faults = Counter(), []
    for case in sorted(cases.keys() | reference.keys()):
        came, wanted = cases.get(case, "(missing)"), reference.get(case, "(missing)")
        if came == wanted and case != "the server":
            continue
        for row in known:
            if all(map(fnmatch.fnmatchcase, (column.kind, suite, case), row)):
                why[row] += 1
                break
        else:
            faults.append(f"{suite}, {case}: {column.name} {came}, {wanted} is wanted")
    return why, faults


def run_all(suite, columns, options):
    """Runs a suite on all columns, prints what its cases came to, and returns each difference from the first column that has
    no reason."""
    make_samples(options.there)
    with ThreadPoolExecutor(options.jobs) as pool:
        came = list(pool.map(lambda column: run_one(column, suite, options), columns))
    known = [row for row in reasons(HERE / "reasons.txt") if row[1] == suite]
    why, faults = Counter(), []
    for column, (cases, seconds) in zip(columns, came):
        print(f"{column.name}: {short(cases)} ({seconds:.0f} s)")
        if column is not columns[0]:
            found, new = compare(suite, column, cases, came[0][0], known)
            why |= found
            faults += new
    for row in known:
        if row in why:
            print(f"{why[row]} of {row[2]}: {row[3]}")
        elif not options.quick and any(fnmatch.fnmatchcase(column.kind, row[0]) for column in columns[1:]):
            print(f"This reason did not come: {' | '.join(row)}")
    return faults


def make_samples(there):
    """Makes the files that suites copy, if they are not there."""
    if not (there / "trusted").exists() or not (there / "sample/made").exists():
        subprocess.run(["rm", "-rf", there / "sample", there / "special", there / "trusted"], check=True)
        make_sample(there / "sample")
        make_special(there / "special")
        make_trusted(there / "trusted")
        (there / "sample/made").touch()


def reap(child):
    """The first process of a namespace waits for those whose own parent ended. The status is that of the child."""
    while True:
        process, status = os.wait()
        if process == child:
            return os.waitstatus_to_exitcode(status)


def main():
    """Runs one suite in a child, and waits for it."""
    options = argparse.ArgumentParser(description=main.__doc__)
    options.add_argument("suite", choices=ABOUT)
    for it in ("folder", "second", "there"):
        options.add_argument(it)
    options.add_argument("--quick", action="store_true", help="fewer cases")
    options = options.parse_args()
    if child := os.fork():
        return reap(child)
    os.umask(0o022)
    globals()[options.suite.replace("-", "_")](Run(options.folder, options.second, options.there, options.quick))
    return 0


if __name__ == "__main__":
    sys.exit(main())
