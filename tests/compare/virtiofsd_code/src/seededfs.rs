//! The scripted file system of `vfs_bench::seeded`, written again for virtiofsd's trait, from the rules at the
//! head of the modules there: each answer is told, or else a function of the caller's process.
use crate::file::{File, Positioned};
use crate::filesystem::*;
use crate::fuse::{Attr, SetattrIn};
use crate::noted::{c, h, nothing, Argument, Notes};
use crate::request::hex;
use crate::seeds::{self, bare_entry, bytes, fault_of, none, opts, os, time, wanted};
use crate::told::{Answers, Item, Told};
use std::ffi::{CStr, CString};
use std::io;
use std::sync::atomic::{AtomicU32, Ordering};
use std::time::Duration;

pub struct SeededFs {
    word: AtomicU32,
    answers: Answers,
    notes: Notes,
}

/// What an answer that is no fault hangs on.
enum Source {
    /// A number that a line tells.
    Told(u64),
    /// The seed.
    Seed(u64),
}

impl Source {
    /// The seed, or what is told in its place.
    fn seed(self) -> u64 {
        match self {
            Source::Told(value) => value % (1 << 32),
            Source::Seed(q) => q,
        }
    }
    fn entry(self, name: &CStr, ctx: Context) -> Entry {
        match self {
            Source::Told(inode) => bare_entry(inode),
            Source::Seed(q) => seeds::entry(q, name, ctx),
        }
    }
    fn opening(self) -> (Option<u64>, OpenOptions) {
        match self {
            Source::Told(handle) => (Some(handle), OpenOptions::empty()),
            Source::Seed(q) => (seeds::handle(q), opts(q)),
        }
    }
    fn creation(self, name: &CStr, ctx: Context) -> (Entry, Option<u64>, OpenOptions) {
        match self {
            Source::Told(inode) => (bare_entry(inode), None, OpenOptions::empty()),
            Source::Seed(q) => (seeds::entry(q, name, ctx), seeds::handle(q), opts(q)),
        }
    }
}

impl SeededFs {
    pub fn new(answers: Answers, notes: Notes) -> SeededFs {
        SeededFs { word: AtomicU32::new(0), answers, notes }
    }
    /// Notes a call with its answer, as `told` has it. What a file does while it runs is
    /// between the two.
    fn noted<T>(
        &self,
        call: impl Into<String>,
        run: impl FnOnce() -> io::Result<T>,
        told: impl Fn(&T) -> String,
    ) -> io::Result<T> {
        self.notes.call(&call.into());
        let answer = run();
        self.notes.answer(&answer, told);
        answer
    }
    /// Keeps the word of a call that has a caller.
    fn keep(&self, ctx: Context) {
        self.word.store(ctx.pid as u32, Ordering::Relaxed);
    }
    /// The seed by the word, or its fault.
    fn by_word(&self) -> io::Result<Source> {
        let p = self.word.load(Ordering::Relaxed) as u64;
        fault_of(p)?;
        Ok(Source::Seed(p / 8))
    }
    fn told(&self, told: Told) -> io::Result<Source> {
        match told {
            Told::Value(value) => Ok(Source::Told(value)),
            Told::Fault(Some(number)) => os(number),
            Told::Fault(None) => none(),
            Told::Directory(..) => Ok(Source::Told(0)),
        }
    }
    /// What the answer of a call without a caller hangs on.
    fn source(&self) -> io::Result<Source> {
        match self.answers.take() {
            Some(told) => self.told(told),
            None => self.by_word(),
        }
    }
    /// The same of one that has a caller.
    fn source_by(&self, ctx: Context) -> io::Result<Source> {
        self.keep(ctx);
        self.source()
    }
    fn q(&self, ctx: Context) -> io::Result<u64> {
        Ok(self.source_by(ctx)?.seed())
    }
    fn done(&self, ctx: Context) -> io::Result<()> {
        self.source_by(ctx).map(drop)
    }
    fn entry(&self, name: &CStr, ctx: Context) -> io::Result<Entry> {
        Ok(self.source_by(ctx)?.entry(name, ctx))
    }
    fn file(&self, q: u64) -> File {
        File::new(ScriptFile { q, calls: 0, notes: self.notes.clone() })
    }
    fn parts<T: FnMut(&File, usize, u64) -> io::Result<usize>>(
        &self,
        q: u64,
        size: u32,
        off: u64,
        mut transfer: T,
    ) -> io::Result<usize> {
        let (f, size) = (self.file(q), size as usize);
        if (q / 40) % 2 == 0 {
            return transfer(&f, size, off);
        }
        let half = size / 2;
        let n = transfer(&f, half, off)?;
        if n < half {
            return Ok(n);
        }
        match off.checked_add(n as u64) {
            Some(off) => Ok(n + transfer(&f, size - n, off)?),
            None => Ok(n),
        }
    }
}

struct ScriptFile {
    q: u64,
    calls: u64,
    notes: Notes,
}
impl ScriptFile {
    /// How many of n bytes at `off` this call moves.
    fn moves(&mut self, off: u64, n: usize) -> io::Result<usize> {
        self.calls += 1;
        let fails = (self.q / 4) % 5;
        if fails != 0 && self.calls == fails {
            return if (self.q / 20) % 2 == 0 { os(libc::EIO) } else { none() };
        }
        let most = self.q % 4;
        let n = if most != 0 && self.calls <= 8 { n.min(most as usize) } else { n };
        if (self.q / 80) % 2 == 0 {
            return Ok(n);
        }
        Ok((n as u64).min(64u64.saturating_sub(off)) as usize)
    }
    fn note(&self, what: &str, off: u64, view: usize, n: &io::Result<usize>, data: &[u8]) {
        self.notes.add(match n {
            Ok(n) => format!("file {what} off={off} view={view} moved={n} {}", hex(&data[..*n])),
            Err(_) => format!("file {what} off={off} view={view} fault"),
        });
    }
}
impl Positioned for ScriptFile {
    fn get(&mut self, off: u64, room: usize) -> io::Result<Vec<u8>> {
        let n = self.moves(off, room);
        let data: Vec<u8> = match &n {
            Ok(n) => (0..*n as u64).map(|i| ((off % 251 + i + self.q) % 251) as u8).collect(),
            Err(_) => Vec::new(),
        };
        self.note("read", off, room, &n, &data);
        n.map(|_| data)
    }
    fn put(&mut self, off: u64, data: &[u8]) -> io::Result<usize> {
        let n = self.moves(off, data.len());
        self.note("write", off, data.len(), &n, data);
        n
    }
}

pub enum ScriptDir {
    Seeded(SeededDir),
    Told(ToldDir),
}
impl DirectoryIterator for ScriptDir {
    fn next(&mut self) -> Option<DirEntry<'_>> {
        match self {
            ScriptDir::Seeded(items) => items.next(),
            ScriptDir::Told(items) => items.next(),
        }
    }
}

/// A directory whose items are told, whatever the offset.
pub struct ToldDir {
    items: Vec<Item>,
    endless: bool,
    place: usize,
}
impl ToldDir {
    fn next(&mut self) -> Option<DirEntry<'_>> {
        if self.endless && self.place == self.items.len() {
            self.place = 0;
        }
        let item = self.items.get(self.place)?;
        self.place += 1;
        Some(DirEntry { ino: item.ino, offset: item.offset, type_: item.type_, name: &item.name })
    }
}

pub struct SeededDir {
    q: u64,
    k: u64,
    name: CString,
}
impl SeededDir {
    fn next(&mut self) -> Option<DirEntry<'_>> {
        let (q, k) = (self.q, self.k);
        if q % 31 != 30 && k >= q % 23 {
            return None;
        }
        self.k = k.saturating_add(1);
        let kk = k % 1000;
        self.name = if q % 2 == 0 && k < 2 {
            CString::new(&b".."[..k as usize + 1]).unwrap()
        } else {
            let len = if (q + kk) % 37 == 36 { 300 } else { (q + 7 * kk) % 40 };
            CString::new(vec![0x61 + ((q + kk) % 26) as u8; len as usize]).unwrap()
        };
        Some(DirEntry {
            ino: 100 + q + kk,
            offset: self.k,
            type_: if (q + kk) % 11 == 10 { u32::MAX } else { ((q + kk) % 16) as u32 },
            name: &self.name,
        })
    }
}

/// Methods of the trait. Each notes its name, its caller and its arguments by the names that these have here,
/// then gives the answer in braces, and notes that as the function after it has it.
macro_rules! calls {
    ($this:ident, $ctx:ident: $(
        $name:ident($($arg:ident: $T:ty),*) -> $R:ty { $($answer:tt)* } $told:expr;
    )*) => { $(
        fn $name(&$this, $ctx: Context, $($arg: $T),*) -> io::Result<$R> {
            let noted = [stringify!($name).into(), c($ctx), $($arg.noted(stringify!($arg))),*];
            $this.noted(noted.join(" "), || { $($answer)* }, $told)
        }
    )* };
}
/// Methods that are told nothing, not even who calls.
macro_rules! bare_calls {
    ($this:ident: $($name:ident)*) => { $(
        fn $name(&$this) -> io::Result<()> {
            $this.noted(stringify!($name), || $this.source().map(drop), nothing)
        }
    )* };
}

fn node(entry: &Entry) -> String {
    format!(" node={}", entry.inode)
}
fn opened(answer: &(Option<u64>, OpenOptions)) -> String {
    format!(" {}", h(answer.0, answer.1))
}
fn count(answer: &usize) -> String {
    format!(" count={answer}")
}

impl FileSystem for SeededFs {
    type Inode = u64;
    type Handle = u64;
    type DirIter = ScriptDir;

    fn init(&self, capable: FsOptions) -> io::Result<FsOptions> {
        self.noted(
            format!("init capable={:#x}", capable.bits()),
            || {
                let want = match self.source()? {
                    Source::Told(bits) => bits,
                    Source::Seed(q) => wanted(q),
                };
                Ok(FsOptions::from_bits_truncate(want))
            },
            |w| format!(" want={:#x}", w.bits()),
        )
    }
    fn destroy(&self) {
        self.notes.add("call destroy".into());
    }
    fn forget(&self, ctx: Context, inode: u64, count: u64) {
        self.notes.add(format!("call forget {} inode={inode} count={count}", c(ctx)));
        self.keep(ctx);
    }
    fn batch_forget(&self, ctx: Context, requests: Vec<(u64, u64)>) {
        let list: Vec<String> = requests.iter().map(|(n, k)| format!("{n}:{k}")).collect();
        self.notes.add(format!("call batch_forget {} requests={}", c(ctx), list.join(",")));
        self.keep(ctx);
    }
    calls! { self, ctx:
        lookup(parent: u64, name: &CStr) -> Entry {
            self.keep(ctx);
            let source = match (self.answers.take(), name.to_bytes().first()) {
                (Some(told), _) => self.told(told),
                (None, Some(b'x')) => os(libc::ENOENT),
                (None, Some(b'y')) => none(),
                (None, _) => self.by_word(),
            };
            Ok(source?.entry(name, ctx))
        } node;
        getattr(inode: u64, handle: Option<u64>) -> (Attr, Duration) {
            let t = self.q(ctx)? + inode % 1000 + handle.unwrap_or(0) % 7;
            Ok((seeds::attr(t, inode, ctx), time(t)))
        } nothing;
        setattr(inode: u64, attr: SetattrIn, handle: Option<u64>, valid: SetattrValid) -> (Attr, Duration) {
            let q = self.q(ctx)?;
            let a = Attr {
                size: attr.size,
                atime: attr.atime,
                mtime: attr.mtime,
                ctime: attr.ctime,
                atimensec: attr.atimensec,
                mtimensec: attr.mtimensec,
                ctimensec: attr.ctimensec,
                mode: attr.mode,
                uid: attr.uid,
                gid: attr.gid,
                nlink: if handle.is_some() { 77 } else { 1 },
                flags: valid.bits(),
                ..seeds::attr(q, inode, ctx)
            };
            Ok((a, time(q)))
        } nothing;
        readlink(inode: u64) -> Vec<u8> {
            let q = self.q(ctx)?;
            Ok(bytes(q, q % 300))
        } nothing;
        symlink(linkname: &CStr, parent: u64, name: &CStr, ext: Extensions) -> Entry {
            self.entry(name, ctx)
        } node;
        mknod(inode: u64, name: &CStr, mode: u32, rdev: u32, umask: u32, ext: Extensions) -> Entry {
            self.entry(name, ctx)
        } node;
        mkdir(parent: u64, name: &CStr, mode: u32, umask: u32, ext: Extensions) -> Entry {
            self.entry(name, ctx)
        } node;
        unlink(parent: u64, name: &CStr) -> () { self.done(ctx) } nothing;
        rmdir(parent: u64, name: &CStr) -> () { self.done(ctx) } nothing;
        rename(olddir: u64, oldname: &CStr, newdir: u64, newname: &CStr, flags: u32) -> () {
            self.done(ctx)
        } nothing;
        link(inode: u64, newparent: u64, newname: &CStr) -> Entry { self.entry(newname, ctx) } node;
        open(inode: u64, kill_priv: bool, flags: u32) -> (Option<u64>, OpenOptions) {
            Ok(self.source_by(ctx)?.opening())
        } opened;
        create(parent: u64, name: &CStr, mode: u32, kill_priv: bool, flags: u32, umask: u32, ext: Extensions)
            -> (Entry, Option<u64>, OpenOptions) {
            Ok(self.source_by(ctx)?.creation(name, ctx))
        } |a| node(&a.0) + &opened(&(a.1, a.2));
        flush(inode: u64, handle: u64, owner: u64) -> () { self.done(ctx) } nothing;
        fsync(inode: u64, datasync: bool, handle: u64) -> () { self.done(ctx) } nothing;
        fallocate(inode: u64, handle: u64, mode: u32, offset: u64, length: u64) -> () {
            self.done(ctx)
        } nothing;
        release(inode: u64, flags: u32, handle: u64, flush: bool, flock_release: bool, owner: Option<u64>)
            -> () {
            self.done(ctx)
        } nothing;
        statfs(inode: u64) -> libc::statvfs64 {
            let q = self.q(ctx)?;
            Ok(libc::statvfs64 {
                f_bsize: (q % 2 << 32) + 512 + q,
                f_frsize: 4096 + q,
                f_blocks: q * 3,
                f_bfree: q * 2,
                f_bavail: q,
                f_files: q + 7,
                f_ffree: q + 5,
                f_namemax: 255 + (q % 3 << 32),
            })
        } nothing;
        setxattr(inode: u64, name: &CStr, value: &[u8], flags: u32, extra: SetxattrFlags) -> () {
            self.done(ctx)
        } nothing;
        getxattr(inode: u64, name: &CStr, size: u32) -> GetxattrReply {
            let q = self.q(ctx)?;
            Ok(match q % 3 {
                0 => GetxattrReply::Count(q as u32),
                _ => GetxattrReply::Value(bytes(q, q / 3 % 500)),
            })
        } nothing;
        listxattr(inode: u64, size: u32) -> ListxattrReply {
            let q = self.q(ctx)?;
            Ok(match q % 3 {
                0 => ListxattrReply::Count(q as u32),
                _ => ListxattrReply::Names(bytes(q, q / 3 % 500)),
            })
        } nothing;
        removexattr(inode: u64, name: &CStr) -> () { self.done(ctx) } nothing;
        opendir(inode: u64, flags: u32) -> (Option<u64>, OpenOptions) {
            Ok(self.source_by(ctx)?.opening())
        } opened;
        readdir(inode: u64, handle: u64, size: u32, offset: u64) -> ScriptDir {
            self.keep(ctx);
            let source = match self.answers.take() {
                Some(Told::Directory(items, endless)) => {
                    return Ok(ScriptDir::Told(ToldDir { items, endless, place: 0 }));
                }
                Some(told) => self.told(told),
                None => self.by_word(),
            };
            Ok(ScriptDir::Seeded(SeededDir { q: source?.seed(), k: offset, name: CString::default() }))
        } nothing;
        fsyncdir(inode: u64, datasync: bool, handle: u64) -> () { self.done(ctx) } nothing;
        releasedir(inode: u64, flags: u32, handle: u64) -> () { self.done(ctx) } nothing;
        access(inode: u64, mask: u32) -> () { self.done(ctx) } nothing;
        lseek(inode: u64, handle: u64, offset: u64, whence: u32) -> u64 {
            let q = self.q(ctx)?;
            Ok(if q % 2 == 0 { offset } else { q })
        } |at| format!(" offset={at}");
        copyfilerange(inode_in: u64, handle_in: u64, offset_in: u64, inode_out: u64, handle_out: u64,
            offset_out: u64, len: u64, flags: u64) -> usize {
            Ok(len.min(self.q(ctx)?) as usize)
        } count;
        syncfs(inode: u64) -> () { self.done(ctx) } nothing;
    }
    fn read<W: ZeroCopyWriter>(
        &self,
        ctx: Context,
        inode: u64,
        handle: u64,
        mut w: W,
        size: u32,
        offset: u64,
        owner: Option<u64>,
        flags: u32,
    ) -> io::Result<usize> {
        let (caller, owner) = (c(ctx), owner.noted("owner"));
        self.noted(
            format!(
                "read {caller} inode={inode} handle={handle} size={size} offset={offset} {owner} \
                 flags={flags}"
            ),
            || self.parts(self.q(ctx)?, size, offset, |f, n, off| w.read_from_file_at(f, n, off)),
            count,
        )
    }
    fn write<R: ZeroCopyReader>(
        &self,
        ctx: Context,
        inode: u64,
        handle: u64,
        mut r: R,
        size: u32,
        offset: u64,
        owner: Option<u64>,
        delayed: bool,
        kill_priv: bool,
        flags: u32,
    ) -> io::Result<usize> {
        let (caller, owner) = (c(ctx), owner.noted("owner"));
        self.noted(
            format!(
                "write {caller} inode={inode} handle={handle} size={size} offset={offset} {owner} \
                 delayed_write={delayed} kill_priv={kill_priv} flags={flags}"
            ),
            || {
                self.parts(self.q(ctx)?, size, offset, |f, n, off| {
                    r.write_to_file_at(f, n, off, None)
                })
            },
            count,
        )
    }
    bare_calls! { self: getlk setlk setlkw ioctl bmap poll notify_reply }
    fn tmpfile(&self) -> io::Result<(Entry, Option<u64>, OpenOptions)> {
        self.noted("tmpfile", || self.source().and_then(|_| os(libc::ENOSYS)), nothing)
    }
}
