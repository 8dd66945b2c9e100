#!/usr/bin/env python3
"""Puts virtiofsd's four files into a folder, as they are or edited.

Usage: edits.py SOURCE OUT raw|mended|later [WRONG]
SOURCE has fuse.rs, descriptor_utils.rs, filesystem.rs and server.rs, or these names with .txt after,
itself or in a folder src. Status 1, with a word, where a place that is to be edited is not there as often
as it should be, and 2 where one of the files isn't. WRONG is the number of a wrong body in wrong-bodies.txt, counted from 1.

    edits.py SOURCE --check     says which of the four differ from virtiofsd 1.13.2
"""
import hashlib, pathlib, re, sys

HERE = pathlib.Path(__file__).resolve().parent
NAMES = ["descriptor_utils", "filesystem", "fuse", "server"]

# The checksums (SHA-256) of the four files of virtiofsd 1.13.2, each up to its test module, if it has one,
# and without the blanks at the end.
SUMS = {
    "descriptor_utils": "24f9ae8b1062230e79df8f0f8b84ac2af1eedf69a0ec4fa8d579f854471e6cf0",
    "filesystem": "eba16fecef1e9454680e55ef5a3e6ad9e48834a522c7fe83225b27ae771e41d2",
    "fuse": "0b306d5b19a5736fb6466fb27c5ab500081a7249abffcd17a7ed76cb2a91caa9",
    "server": "bf918315cec7d78fad1307da5fea5daa87a126af95be64eca2f383aa8aee7761",
}

# Each edit: the file, how often the place is there, the place, what is there then.

# What is needed to run the code at all.
RAW = [
    # A transfer is lent a file of the oracle's, not one of the system's.
    ("server", 1, "use std::fs::File;", "use crate::file::File;"),
    ("filesystem", 1, "use std::fs::File;", "use crate::file::File;"),
    # What was agreed is shown.
    ("server", 1, "    options: AtomicU64,\n", "    pub options: AtomicU64,\n"),
]

# The differences of docs/DIFFERENCES.md that a request can show.
MENDED = [
    # A transfer moves at most `count` bytes: the last slice that is lent is cut.
    ("descriptor_utils", 1, "let bytes_consumed = f(&bufs)?;", """let cut;
        let lent: usize = bufs.iter().map(|slice| slice.len()).sum();
        if lent > count {
            let last = bufs.pop().unwrap();
            cut = last.subslice(0, last.len() - (lent - count)).unwrap();
            bufs.push(&cut);
        }
        let bytes_consumed = f(&bufs)?;"""),
    # A file is not called where no byte is to be moved, though there are empty slices.
    ("descriptor_utils", 1, "if bufs.is_empty() {", "if buflen == 0 {"),
    # A block of extensions that says more bytes than there are is not decoded. The Rust panics.
    ("server", 1, "let (current_extension_bytes,", """if extension_size > remaining_bytes.len() {
            return Err(Error::DecodeMessage(einval()));
        }
        let (current_extension_bytes,"""),
    # READ, READDIR and READDIRPLUS without room for the header make no call. The Rust panics.
    ("server", 3, "w.split_at(size_of::<OutHeader>()).unwrap()",
     "w.split_at(size_of::<OutHeader>()).map_err(|_| Error::EncodeMessage(einval()))?"),
    # STREAM has its own bit, not that of CACHE_DIR.
    ("fuse", 1, "STREAM = FOPEN_CACHE_DIR;", "STREAM = FOPEN_STREAM;"),
    # The number of an error is 1 or more; another is none, and sent as EIO.
    ("server", 1, "-e.raw_os_error()", "-e.raw_os_error().filter(|number| *number > 0)"),
    # The page size is 4096, and not the system's.
    ("server", 1, "unsafe { libc::sysconf(libc::_SC_PAGESIZE).try_into().unwrap() }", "4096"),
    # What is answered is the reply's length, without what the writer had passed before.
    ("server", 2, "Ok(w.bytes_written())", "Ok(header.len as usize)"),
]

# The changed specification.
LATER = [
    # An entry whose reply does not fit is given back, but for node 0.
    ("server", 1, "    fn getattr(", """    fn entry_reply(&self, header: InHeader, node: u64, reply: Result<usize>) -> Result<usize> {
        if node != 0 && matches!(reply, Err(Error::EncodeMessage(_))) {
            self.fs.forget(Context::from(header), node.into(), 1);
        }
        reply
    }

    fn getattr("""),
    # LOOKUP, SYMLINK, MKNOD, MKDIR and LINK,
    ("server", 5, "EntryOut::from(entry);\n\n                reply_ok(Some(out), None, in_header.unique, w)",
     "EntryOut::from(entry);\n                let node = out.nodeid;\n"
     "                self.entry_reply(in_header, node, reply_ok(Some(out), None, in_header.unique, w))"),
    # and CREATE.
    ("server", 1, "reply_ok(\n                    Some(entry_out),",
     "let node = entry_out.nodeid;\n                self.entry_reply(in_header, node, reply_ok(\n"
     "                    Some(entry_out),"),
    ("server", 1, "Some(open_out.as_slice()),\n                    in_header.unique,\n                    w,\n                )",
     "Some(open_out.as_slice()),\n                    in_header.unique,\n                    w,\n                ))"),
    # The largest payload is chosen.
    ("server", 1, "const MAX_BUFFER_SIZE: u32 = 1 << 20;",
     "pub static LIMIT: std::sync::atomic::AtomicU32 = std::sync::atomic::AtomicU32::new(1 << 20);\n"
     "fn max_buffer() -> u32 {\n    LIMIT.load(Ordering::Relaxed)\n}"),
    ("server", 8, "MAX_BUFFER_SIZE", "max_buffer()"),
]

EDITS = {"raw": RAW, "mended": RAW + MENDED, "later": RAW + MENDED + LATER}
# What is before the test module, in virtiofsd and in Debian's package of it.
TESTS = re.compile(r"^(// .*\n)?#\[cfg\((debian_)?test\)\]$", re.M)


def stop(why, status=1):
    """Ends with the reason."""
    print(f"edits.py: {why}", file=sys.stderr)
    sys.exit(status)


def read_source(folder):
    """The texts of the four files."""
    texts = {}
    for name in NAMES:
        places = [folder / part / f"{name}.rs{end}" for part in ("", "src") for end in ("", ".txt")]
        found = [place for place in places if place.is_file()]
        if not found:
            stop(f"{folder} has no file {name}.rs", 2)
        texts[name] = found[0].read_text()
    return texts


def sum_of(text):
    """The sum of a source up to its tests, which are not used."""
    return hashlib.sha256(TESTS.split(text)[0].rstrip().encode()).hexdigest()


def edit(texts, edits):
    """Makes these edits, each as often as its place must be there."""
    for name, times, old, new in edits:
        found = texts[name].count(old)
        if found != times:
            stop(f"{name}.rs has {found} places, not {times}, with: {old}")
        texts[name] = texts[name].replace(old, new)


def wrong_bodies():
    """The wrong bodies: for each its line, the file, which of the places it is, the place, the edit."""
    bodies = []
    for line in (HERE / "wrong-bodies.txt").read_text().splitlines():
        if line and not line.startswith("#"):
            head, new = line.split(" ~> ") if " ~> " in line else (line.removesuffix(" ~>"), "")
            at, _, old = head.partition(": ")
            name, _, which = at.partition("/")
            old, new = (it.replace("\\n", "\n") for it in (old, new))
            bodies.append((line, name, int(which or 0), old, new))
    return bodies


def edit_wrong(texts, number):
    """Puts the wrong body of this number in its place."""
    line, name, which, old, new = wrong_bodies()[number - 1]
    # A place without a number must be there once; the third of three is between parts[2] and parts[3].
    parts = texts[name].split(old)
    if which == 0 and len(parts) != 2 or len(parts) <= max(which, 1):
        stop(f"{name}.rs has {len(parts) - 1} places for the wrong body: {line}")
    at = max(which, 1)
    texts[name] = old.join(parts[:at]) + new + old.join(parts[at:])


def main(args):
    """Checks the sources, or puts them, edited, into a folder."""
    if len(args) == 2 and args[1] == "--check":
        texts = read_source(pathlib.Path(args[0]))
        different = [f"{name}.rs" for name in NAMES if sum_of(texts[name]) != SUMS[name]]
        if different:
            stop(f"these files differ from those of virtiofsd 1.13.2: {', '.join(different)}")
        return
    if len(args) not in (3, 4) or args[2] not in EDITS:
        sys.exit(__doc__)
    texts = read_source(pathlib.Path(args[0]))
    edit(texts, EDITS[args[2]])
    if len(args) == 4:
        edit_wrong(texts, int(args[3]))
    for name in NAMES:
        (pathlib.Path(args[1]) / f"{name}.rs").write_text(texts[name])


if __name__ == "__main__":
    main(sys.argv[1:])
