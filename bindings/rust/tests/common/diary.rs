//! A file system that records its calls, and for each call a request, written by hand from the protocol.

use super::{fault, padded, reply, words, Request};
use nizwarf::{
    Attr, Call, Context, DirEntry, DirectoryIterator, Entry, Extensions, Features, FileSystem, FsOptions,
    GetxattrReply, IoctlFlags, IoctlReply, ListxattrReply, Lock, LockType, OpenOptions, PollHandle,
    SetattrIn, SetattrValid, SetxattrFlags, Statvfs, Statx, ZeroCopyReader, ZeroCopyWriter,
};
use std::borrow::Cow;
use std::ffi::{CStr, CString};
use std::fs::File;
use std::io;
use std::sync::Mutex;
use std::time::Duration;

/// Records each call. Names that begin with `no` do not exist, and `panic` panics.
#[derive(Default)]
pub struct Diary {
    lines: Mutex<Vec<String>>,
    /// The file to read and write, if there is one.
    file: Option<File>,
}

impl Diary {
    fn write(&self, line: String) {
        self.lines.lock().unwrap().push(line);
    }

    /// One over this file.
    pub fn of(file: File) -> Self {
        Diary { file: Some(file), ..Diary::default() }
    }

    /// The lines since they were last read.
    pub fn take(&self) -> Vec<String> {
        std::mem::take(&mut *self.lines.lock().unwrap())
    }
}

/// Items with these names.
pub struct Names(std::vec::IntoIter<CString>, Option<CString>, u64);

impl Names {
    /// The handle selects them.
    fn of(handle: u64) -> Self {
        let names = match handle {
            1 => vec![".", "..", "a", "b"],
            2 => vec!["a", "none", "b"],
            3 => vec!["none"],
            4 => vec!["a", "panic"],
            8 => vec![".", "..", "a", "some-name", "none"],
            _ => vec![],
        };
        let names: Vec<_> = names.into_iter().map(|name| CString::new(name).unwrap()).collect();
        Names(names.into_iter(), None, 0)
    }
}

impl DirectoryIterator for Names {
    fn next(&mut self) -> Option<DirEntry<'_>> {
        self.1 = self.0.next();
        self.2 += 1;
        let offset = self.2;
        self.1.as_deref().map(|name| DirEntry { ino: 10 + offset, offset, type_: 8, name })
    }
}

fn text(name: &CStr) -> Cow<'_, str> {
    name.to_string_lossy()
}

fn lock_text(lock: Lock) -> String {
    format!("{}..{} {:?} {}", lock.start, lock.end, lock.kind, lock.pid)
}

/// The entry of each name.
fn node() -> Entry {
    Entry { inode: 50, ..Entry::default() }
}

/// Declares methods: of each the line that it records, and its result.
macro_rules! methods {
    ($($name:ident($($argument:tt: $type:ty),*) -> $result:ty: [$($line:tt)*] $value:expr;)*) => {
        $(fn $name(&self, $($argument: $type),*) -> io::Result<$result> {
            self.write(format!($($line)*));
            Ok($value)
        })*
    };
}

impl FileSystem for Diary {
    type Inode = u64;
    type Handle = u64;
    type DirIter = Names;

    fn destroy(&self) {
        self.write("destroy".into());
    }

    fn interrupt(&self, unique: u64) {
        self.write(format!("interrupt {unique}"));
    }

    fn features(&self) -> Features {
        Features::all()
    }

    fn lookup(&self, ctx: Context, parent: u64, name: &CStr) -> io::Result<Entry> {
        assert!(!text(name).starts_with("panic"));
        if text(name).starts_with("no") {
            self.write(format!("lookup {parent} {}: none", text(name)));
            return Err(io::Error::from_raw_os_error(2));
        }
        self.write(format!("lookup {parent} {} {} {}", text(name), ctx.uid, ctx.unique));
        Ok(node())
    }

    fn forget(&self, _: Context, inode: u64, count: u64) {
        assert_ne!(inode, 666);
        self.write(format!("forget {inode} {count}"));
    }

    fn read<W: ZeroCopyWriter>(
        &self, _: Context, inode: u64, handle: u64, mut w: W, size: u32, offset: u64,
        lock_owner: Option<u64>, flags: u32,
    ) -> io::Result<usize> {
        self.write(format!("read {inode} {handle} {size} {offset} {lock_owner:?} {flags}"));
        if let Some(file) = &self.file {
            return w.read_from_file_at(file, size as usize, offset);
        }
        if size < 300 {
            w.write_all(b"data")?;
            // For handle 9 it returns more than it put.
            return Ok(if handle == 9 { 5 } else { 4 });
        }
        // As much of longer data as fits.
        let mut put = 0;
        while let more @ 1.. = w.write(&[b'y'; 300][put..])? {
            put += more;
        }
        Ok(put)
    }

    fn write<R: ZeroCopyReader>(
        &self, _: Context, inode: u64, handle: u64, mut r: R, size: u32, offset: u64,
        lock_owner: Option<u64>, delayed_write: bool, kill_priv: bool, flags: u32,
    ) -> io::Result<usize> {
        if let Some(file) = &self.file {
            return r.write_to_file_at(file, size as usize, offset, None);
        }
        let mut data = String::new();
        let len = r.read_to_string(&mut data)?;
        assert!(len <= size as usize);
        self.write(format!(
            "write {inode} {handle} {data} {size} {offset} {lock_owner:?} {delayed_write} \
             {kill_priv} {flags}"
        ));
        Ok(if handle == 9 { 5 } else { len })
    }

    fn notify_reply(&self, unique: u64, inode: u64, offset: u64, data: &[u8]) {
        self.write(format!("notify_reply {unique} {inode} {offset} {data:?}"));
    }

    methods! {
        init(capable: FsOptions) -> FsOptions: ["init {capable:?}"] capable - FsOptions::POSIX_LOCKS;
        getattr(_: Context, inode: u64, handle: Option<u64>) -> (Attr, Duration):
            ["getattr {inode} {handle:?}"] (Attr { size: 5, ..Attr::default() }, Duration::from_secs(1));
        setattr(_: Context, inode: u64, attr: SetattrIn, handle: Option<u64>, valid: SetattrValid)
            -> (Attr, Duration):
            ["setattr {inode} {} {handle:?} {valid:?}", attr.size] (Attr::default(), Duration::ZERO);
        readlink(_: Context, inode: u64) -> Vec<u8>: ["readlink {inode}"] b"to".to_vec();
        symlink(_: Context, linkname: &CStr, parent: u64, name: &CStr, _: Extensions) -> Entry:
            ["symlink {} {parent} {}", text(linkname), text(name)] node();
        mknod(_: Context, inode: u64, name: &CStr, mode: u32, rdev: u32, umask: u32, _: Extensions) -> Entry:
            ["mknod {inode} {} {mode:o} {rdev} {umask:o}", text(name)] node();
        mkdir(_: Context, parent: u64, name: &CStr, mode: u32, umask: u32, extensions: Extensions) -> Entry:
            ["mkdir {parent} {} {mode:o} {umask:o}", text(name)] {
                assert!(extensions.secctx.map_or(true, |context| !context.secctx.is_empty()));
                node()
            };
        unlink(_: Context, parent: u64, name: &CStr) -> (): ["unlink {parent} {}", text(name)] ();
        rmdir(_: Context, parent: u64, name: &CStr) -> (): ["rmdir {parent} {}", text(name)] ();
        rename(_: Context, olddir: u64, oldname: &CStr, newdir: u64, newname: &CStr, flags: u32) -> ():
            ["rename {olddir} {} {newdir} {} {flags}", text(oldname), text(newname)] ();
        link(_: Context, inode: u64, newparent: u64, newname: &CStr) -> Entry:
            ["link {inode} {newparent} {}", text(newname)] node();
        open(_: Context, inode: u64, kill_priv: bool, flags: u32) -> (Option<u64>, OpenOptions):
            ["open {inode} {kill_priv} {flags}"] (Some(70), OpenOptions::KEEP_CACHE);
        create(ctx: Context, parent: u64, name: &CStr, mode: u32, kill_priv: bool, flags: u32, umask: u32,
            _: Extensions) -> (Entry, Option<u64>, OpenOptions):
            ["create {} {parent} {} {mode:o} {kill_priv} {flags} {umask:o}", ctx.pid, text(name)]
            (node(), Some(71), OpenOptions::empty());
        flush(_: Context, inode: u64, handle: u64, lock_owner: u64) -> ():
            ["flush {inode} {handle} {lock_owner}"] ();
        fsync(_: Context, inode: u64, datasync: bool, handle: u64) -> ():
            ["fsync {inode} {datasync} {handle}"] ();
        fallocate(_: Context, inode: u64, handle: u64, mode: u32, offset: u64, length: u64) -> ():
            ["fallocate {inode} {handle} {mode} {offset} {length}"] ();
        release(_: Context, inode: u64, flags: u32, handle: u64, flush: bool, flock_release: bool,
            lock_owner: Option<u64>) -> ():
            ["release {inode} {flags} {handle} {flush} {flock_release} {lock_owner:?}"] ();
        statfs(_: Context, inode: u64) -> Statvfs:
            ["statfs {inode}"] Statvfs { f_blocks: 3, ..Statvfs::default() };
        setxattr(_: Context, inode: u64, name: &CStr, value: &[u8], flags: u32, extra: SetxattrFlags) -> ():
            ["setxattr {inode} {} {value:?} {flags} {extra:?}", text(name)] ();
        getxattr(_: Context, inode: u64, name: &CStr, size: u32) -> GetxattrReply:
            ["getxattr {inode} {} {size}", text(name)] GetxattrReply::Value(b"value".to_vec());
        listxattr(_: Context, inode: u64, size: u32) -> ListxattrReply:
            ["listxattr {inode} {size}"] ListxattrReply::Count(8);
        removexattr(_: Context, inode: u64, name: &CStr) -> (): ["removexattr {inode} {}", text(name)] ();
        opendir(_: Context, inode: u64, flags: u32) -> (Option<u64>, OpenOptions):
            ["opendir {inode} {flags}"] (Some(72), OpenOptions::empty());
        readdir(_: Context, inode: u64, handle: u64, size: u32, offset: u64) -> Names:
            ["readdir {inode} {handle} {size} {offset}"] Names::of(handle);
        fsyncdir(_: Context, inode: u64, datasync: bool, handle: u64) -> ():
            ["fsyncdir {inode} {datasync} {handle}"] ();
        releasedir(_: Context, inode: u64, flags: u32, handle: u64) -> ():
            ["releasedir {inode} {flags} {handle}"] ();
        access(_: Context, inode: u64, mask: u32) -> (): ["access {inode} {mask}"] ();
        lseek(_: Context, inode: u64, handle: u64, offset: u64, whence: u32) -> u64:
            ["lseek {inode} {handle} {offset} {whence}"] (1 << 40) + 99;
        // Of 7 bytes it copies 6, and else all.
        copyfilerange(_: Context, node: u64, handle: u64, offset: u64, to_node: u64, to_handle: u64,
            to_offset: u64, len: u64, flags: u64) -> usize:
            ["copyfilerange {node} {handle} {offset} {to_node} {to_handle} {to_offset} {len} {flags}"]
            usize::try_from(if len == 7 { 6 } else { len }).unwrap();
        syncfs(_: Context, inode: u64) -> (): ["syncfs {inode}"] ();
        getlk(_: Context, inode: u64, handle: u64, owner: u64, lock: Lock) -> Lock:
            ["getlk {inode} {handle} {owner} {}", lock_text(lock)]
            Lock { start: 3, end: 1 << 32, kind: LockType::Unlock, pid: 9 };
        setlk(_: Context, inode: u64, handle: u64, owner: u64, lock: Lock, wait: bool, flock: bool) -> ():
            ["setlk {inode} {handle} {owner} {} {wait} {flock}", lock_text(lock)] ();
        bmap(_: Context, inode: u64, block: u64, block_size: u32) -> u64:
            ["bmap {inode} {block} {block_size}"] 1 << 40 | 2;
        ioctl(_: Context, inode: u64, handle: u64, flags: IoctlFlags, cmd: u32, arg: u64, input: &[u8],
            output_size: u32) -> IoctlReply:
            ["ioctl {inode} {handle} {flags:?} {cmd} {arg} {input:?} {output_size}"]
            IoctlReply::Done { result: 5, output: b"out!".to_vec() };
        poll(_: Context, inode: u64, handle: u64, wake: Option<PollHandle>, events: u32) -> u32:
            ["poll {inode} {handle} {wake:?} {events}"] events | 8;
        statx(_: Context, inode: u64, handle: Option<u64>, flags: u32, mask: u32) -> (Statx, Duration):
            ["statx {inode} {handle:?} {flags} {mask}"]
            (Statx { mask, size: 5, ..Statx::default() }, Duration::new(1, 2));
        tmpfile(ctx: Context, parent: u64, name: &CStr, mode: u32, kill_priv: bool, flags: u32, umask: u32,
            _: Extensions) -> (Entry, Option<u64>, OpenOptions):
            ["tmpfile {} {parent} {} {mode:o} {kill_priv} {flags} {umask:o}", ctx.pid, text(name)]
            (node(), Some(73), OpenOptions::empty());
    }
}

/// `fuse_lk_in`: a lock of the bytes 5 to 9.
pub fn lock(opcode: u32, kind: u32, flags: u32) -> Request {
    let request = Request::new(opcode, 5).u64(8).u64(44).u64(5).u64(9);
    request.u32(kind).u32(77).u32(flags).u32(0)
}

/// `fuse_read_in` and `fuse_write_in`.
pub fn moves(opcode: u32, handle: u64, size: u32) -> Request {
    Request::new(opcode, 5).u64(handle).u64(9).u32(size).u32(7).u64(44).u32(2).u32(0)
}

/// `fuse_entry_out` of the entries of the diary.
pub fn entry() -> Vec<u8> {
    padded(&[50], 128)
}

/// A request, with its call, its line in the diary and its replies.
pub struct Row {
    pub request: Request,
    /// Whether a call is that of the request.
    pub is: fn(&Call<'_>) -> bool,
    /// Its line in the diary.
    pub line: &'static str,
    /// The diary's reply, and that of the default method.
    pub reply: Vec<u8>,
    pub default: Vec<u8>,
}

/// Makes a table of requests, their calls, lines and replies; and, after `or`, the reply of the default
/// method, which otherwise is ENOSYS.
macro_rules! rows {
    (default) => { fault(38) };
    (default $default:expr) => { $default };
    (is $call:ident $Call:ident { $($pattern:tt)* } $(if $facts:expr)?) => {
        matches!($call, Call::$Call { $($pattern)* } $(if $facts)?)
    };
    ($($request:expr =>
        $Call:ident $pattern:tt $(if $facts:expr)?, $line:literal, $reply:expr $(, or $default:expr)?;
    )*) => {
        vec![$(Row {
            request: $request,
            is: |call| rows!(is call $Call $pattern $(if $facts)?),
            line: $line,
            reply: $reply,
            default: rows!(default $($default)?),
        }),*]
    };
}

fn is(name: &CStr, text: &str) -> bool {
    name.to_bytes() == text.as_bytes()
}

const READ: Lock = Lock { start: 5, end: 9, kind: LockType::Read, pid: 77 };
const WRITE: Lock = Lock { start: 5, end: 9, kind: LockType::Write, pid: 77 };

/// For each call a request.
#[allow(clippy::too_many_lines)] // a table
pub fn each_call() -> Vec<Row> {
    let r = Request::new;
    let numbers = |numbers: &[u32]| reply(&words(numbers));
    let done = || reply(&[]);
    let attr = padded(&[1, 0, 0, 0, 0, 0, 5], 104);
    let statx = [padded(&[1, 0, 2, 0, 0, 0, 0, 0, 0xfff], 32 + 40), padded(&[5], 288 - 72)].concat();
    let agreed = |flags| padded(&[7, 38, 0, flags, 65535 | 49149 << 16, 1 << 20, 1, 256], 64);
    let copy = |opcode| r(opcode, 1).u64(2).u64(3).u64(4).u64(5).u64(6).u64(7).u64(8);
    rows! {
        r(1, 1).name("a") => Lookup { parent: 1, name, .. } if is(name, "a"),
            "lookup 1 a 1000 7", reply(&entry());
        r(1, 1).name("none") => Lookup { parent: 1, name, .. } if is(name, "none"),
            "lookup 1 none: none", fault(2);
        r(2, 5).u64(3) => Forget { node: 5, count: 3, .. }, "forget 5 3", vec![], or vec![];
        r(3, 5).u32(1).u32(0).u64(8) => Getattr { node: 5, handle: Some(8), .. },
            "getattr 5 Some(8)", reply(&attr);
        r(4, 5).u32(8).u32(0).u64(8).u64(99).bytes(&[0; 64]) =>
            Setattr { node: 5, attr, handle: None, valid, .. }
                if attr.size == 99 && *valid == SetattrValid::SIZE,
            "setattr 5 99 None {SIZE}", reply(&[0; 104]);
        r(5, 5) => Readlink { node: 5, .. }, "readlink 5", reply(b"to");
        r(6, 5).name("l").name("to") =>
            Symlink { linkname, parent: 5, name, .. } if is(linkname, "to") && is(name, "l"),
            "symlink to 5 l", reply(&entry());
        r(8, 5).bytes(&words(&[0o10_600, 3, 0o22, 0])).name("p") =>
            Mknod { parent: 5, name, mode: 0o10_600, rdev: 3, umask: 0o22, .. } if is(name, "p"),
            "mknod 5 p 10600 3 22", reply(&entry());
        r(9, 5).u32(0o755).u32(0o22).name("d") =>
            Mkdir { parent: 5, name, mode: 0o755, umask: 0o22, .. } if is(name, "d"),
            "mkdir 5 d 755 22", reply(&entry());
        r(10, 5).name("a") => Unlink { parent: 5, name, .. } if is(name, "a"), "unlink 5 a", done();
        r(11, 5).name("a") => Rmdir { parent: 5, name, .. } if is(name, "a"), "rmdir 5 a", done();
        r(12, 5).u64(6).name("a").name("b") =>
            Rename { parent: 5, name, new_parent: 6, new_name, flags: 0, .. }
                if is(name, "a") && is(new_name, "b"),
            "rename 5 a 6 b 0", done();
        r(45, 5).u64(6).u32(1).u32(0).name("a").name("b") =>
            Rename { parent: 5, name, new_parent: 6, new_name, flags: 1, .. }
                if is(name, "a") && is(new_name, "b"),
            "rename 5 a 6 b 1", done();
        r(13, 5).u64(6).name("a") => Link { node: 6, new_parent: 5, new_name, .. } if is(new_name, "a"),
            "link 6 5 a", reply(&entry());
        r(14, 5).u32(2).u32(1) => Open { node: 5, kill_priv: true, flags: 2, .. },
            "open 5 true 2", numbers(&[70, 0, 2, 0]), or reply(&[0; 16]);
        moves(15, 8, 100) =>
            Read { node: 5, handle: 8, size: 100, offset: 9, lock_owner: Some(44), flags: 2, .. },
            "read 5 8 100 9 Some(44) 2", reply(b"data");
        moves(16, 8, 4).bytes(b"data") =>
            Write { node: 5, handle: 8, data, size: 4, offset: 9, lock_owner: Some(44), delayed_write: true,
                kill_priv: true, flags: 2, .. } if *data.to_cow() == *b"data",
            "write 5 8 data 4 9 Some(44) true true 2", numbers(&[4, 0]);
        r(17, 5) => Statfs { node: 5, .. }, "statfs 5",
            reply(&padded(&[3], 80)), or reply(&padded(&[0, 0, 0, 0, 0, 0, 0, 0, 0, 0, 512, 255], 80));
        r(18, 5).u64(8).u32(2).u32(3).u64(44) =>
            Release { node: 5, flags: 2, handle: 8, flush: true, flock_release: true, lock_owner: Some(44),
                .. },
            "release 5 2 8 true true Some(44)", done();
        r(20, 5).u64(8).u32(1).u32(0) => Fsync { node: 5, datasync: true, handle: 8, .. },
            "fsync 5 true 8", done();
        r(21, 5).u32(1).u32(2).name("a").bytes(b"v") =>
            Setxattr { node: 5, name, value, flags: 2, extra_flags, .. }
                if is(name, "a") && **value == *b"v" && extra_flags.is_empty(),
            "setxattr 5 a [118] 2 {}", done();
        r(22, 5).u32(9).u32(0).name("a") => Getxattr { node: 5, name, size: 9, .. } if is(name, "a"),
            "getxattr 5 a 9", reply(b"value");
        r(23, 5).u32(0).u32(0) => Listxattr { node: 5, size: 0, .. }, "listxattr 5 0", numbers(&[8, 0]);
        r(24, 5).name("a") => Removexattr { node: 5, name, .. } if is(name, "a"), "removexattr 5 a", done();
        r(25, 5).u64(8).u64(0).u64(44) => Flush { node: 5, handle: 8, lock_owner: 44, .. },
            "flush 5 8 44", done();
        r(27, 5).u32(2).u32(0) => Opendir { node: 5, flags: 2, .. },
            "opendir 5 2", numbers(&[72, 0, 0, 0]), or reply(&[0; 16]);
        moves(28, 0, 100) => Readdir { node: 5, handle: 0, size: 100, offset: 9, plus: false, .. },
            "readdir 5 0 100 9", done();
        moves(44, 0, 100) => Readdir { node: 5, handle: 0, size: 100, offset: 9, plus: true, .. },
            "readdir 5 0 100 9", done();
        r(29, 5).u64(8).u32(2).u32(0).u64(0) => Releasedir { node: 5, flags: 2, handle: 8, .. },
            "releasedir 5 2 8", done();
        r(30, 5).u64(8).u32(0).u32(0) => Fsyncdir { node: 5, datasync: false, handle: 8, .. },
            "fsyncdir 5 false 8", done();
        lock(31, 1, 0) => Getlk { node: 5, handle: 8, lock_owner: 44, lock: WRITE, .. },
            "getlk 5 8 44 5..9 Write 77", numbers(&[3, 0, 0, 1, 2, 9]);
        lock(32, 0, 0) => Setlk { node: 5, handle: 8, lock_owner: 44, lock: READ, flock: false, .. },
            "setlk 5 8 44 5..9 Read 77 false false", done();
        lock(33, 1, 1) => Setlkw { node: 5, handle: 8, lock_owner: 44, lock: WRITE, flock: true, .. },
            "setlk 5 8 44 5..9 Write 77 true true", done();
        r(34, 5).u32(4).u32(0) => Access { node: 5, mask: 4, .. }, "access 5 4", done();
        r(35, 5).bytes(&words(&[2, 0o600, 0o22, 1])).name("f") =>
            Create { parent: 5, name, mode: 0o600, kill_priv: true, flags: 2, umask: 0o22, .. }
                if is(name, "f"),
            "create 77 5 f 600 true 2 22", reply(&[entry(), words(&[71, 0, 0, 0])].concat());
        r(37, 5).u64(6).u32(512).u32(0) => Bmap { node: 5, block: 6, block_size: 512, .. },
            "bmap 5 6 512", numbers(&[2, 256]);
        r(39, 5).u64(8).u32(1 << 4 | 1 << 31).u32(21).u64(22).u32(3).u32(4).bytes(b"in!more") =>
            Ioctl { node: 5, handle: 8, flags: IoctlFlags::DIR, cmd: 21, arg: 22, input, output_size: 4, .. }
                if **input == *b"in!",
            "ioctl 5 8 {DIR} 21 22 [105, 110, 33] 4",
            reply(&[words(&[5, 0, 0, 0]), b"out!".to_vec()].concat());
        r(40, 5).u64(8).u64(6).u32(1).u32(4) => Poll { node: 5, handle: 8, wake: Some(_), events: 4, .. },
            "poll 5 8 Some(PollHandle(6)) 4", numbers(&[12, 0]);
        r(40, 5).u64(8).u64(6).u32(0).u32(1) => Poll { node: 5, handle: 8, wake: None, events: 1, .. },
            "poll 5 8 None 1", numbers(&[9, 0]);
        r(41, 5).u64(1).u64(6).u32(2).u32(0).u64(2).u64(3).bytes(b"data") =>
            NotifyReply { node: 5, offset: 6, data, .. } if *data.to_cow() == *b"da",
            "notify_reply 7 5 6 [100, 97]", vec![];
        r(51, 5).bytes(&words(&[2, 0o600, 0o22, 1])).name("/") =>
            Tmpfile { parent: 5, name, mode: 0o600, kill_priv: true, flags: 2, umask: 0o22, .. }
                if is(name, "/"),
            "tmpfile 77 5 / 600 true 2 22", reply(&[entry(), words(&[73, 0, 0, 0])].concat());
        r(52, 5).u32(1).u32(0).u64(8).u32(256).u32(0xfff) =>
            Statx { node: 5, handle: Some(8), flags: 256, mask: 0xfff, .. },
            "statx 5 Some(8) 256 4095", reply(&statx);
        r(52, 5).u32(0).u32(0).u64(8).u32(0).u32(0xfff) =>
            Statx { node: 5, handle: None, flags: 0, mask: 0xfff, .. },
            "statx 5 None 0 4095", reply(&statx);
        copy(53) => CopyFileRange64 { node_in: 1, handle_in: 2, offset_in: 3, node_out: 4, handle_out: 5,
                offset_out: 6, len: 7, flags: 8, .. },
            "copyfilerange 1 2 3 4 5 6 7 8", numbers(&[6, 0]);
        r(42, 0).u32(1).u32(0).u64(5).u64(3) => BatchForget { .. }, "forget 5 3", vec![], or vec![];
        r(43, 5).u64(8).u64(9).u64(10).u32(1).u32(0) =>
            Fallocate { node: 5, handle: 8, mode: 1, offset: 9, length: 10, .. },
            "fallocate 5 8 1 9 10", done();
        r(46, 5).u64(8).u64(9).u32(4).u32(0) => Lseek { node: 5, handle: 8, offset: 9, whence: 4, .. },
            "lseek 5 8 9 4", numbers(&[99, 256]);
        copy(47) => CopyFileRange { node_in: 1, handle_in: 2, offset_in: 3, node_out: 4, handle_out: 5,
                offset_out: 6, len: 7, flags: 8, .. },
            "copyfilerange 1 2 3 4 5 6 7 8", numbers(&[6, 0]);
        r(50, 5).u64(0) => Syncfs { node: 5, .. }, "syncfs 5", done();
        r(26, 0).u32(7).u32(38).u32(0).u32(1 << 29 | 2) =>
            Init { capable, readahead: 0, .. }
                if *capable == FsOptions::POSIX_LOCKS | FsOptions::SETXATTR_EXT,
            "init {POSIX_LOCKS, SETXATTR_EXT}", reply(&agreed(1 << 29)), or reply(&agreed(0));
        r(38, 0) => Destroy { .. }, "destroy", vec![], or vec![];
    }
}
