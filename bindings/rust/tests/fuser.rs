//! File systems that are written for fuser, over a socket that keeps messages apart: their replies, also
//! later and of another thread, how their sessions begin and end, and hostile requests.

mod common;
#[macro_use]
#[path = "common/folder.rs"]
mod folder;

use common::hostile::{delivered, seeds, word, Random, NODE};
use common::{fault, reading, record, reply, words, Peer, Request};
use nizwarf::fuser::{
    spawn_mount2, BackgroundSession, Config, Errno, FileAttr, FileHandle, FileType, Filesystem, FopenFlags,
    Generation, INodeNo, InitFlags, IoctlFlags, KernelConfig, LockOwner, MountOption, Notifier, OpenFlags,
    PollEvents, PollFlags, PollNotifier, ReplyAttr, ReplyCreate, ReplyData, ReplyDirectory,
    ReplyDirectoryPlus, ReplyEntry, ReplyIoctl, ReplyLock, ReplyOpen, ReplyPoll, ReplyStatfs, ReplyWrite,
    ReplyXattr, Request as Caller, Session, SessionACL, Version, WriteFlags,
};
use std::ffi::OsStr;
use std::fs::{self, File};
use std::io;
use std::os::unix::io::OwnedFd;
use std::sync::atomic::{AtomicI64, AtomicUsize, Ordering};
use std::sync::mpsc::{channel, Receiver, Sender};
use std::sync::{Arc, Mutex};
use std::thread;
use std::time::{Duration, UNIX_EPOCH};

const SECOND: Duration = Duration::from_secs(1);

fn attr(ino: u64) -> FileAttr {
    FileAttr {
        ino: INodeNo(ino),
        size: 3,
        blocks: 0,
        atime: UNIX_EPOCH,
        mtime: UNIX_EPOCH - Duration::from_millis(200),
        ctime: UNIX_EPOCH,
        crtime: UNIX_EPOCH,
        kind: if ino == 1 { FileType::Directory } else { FileType::RegularFile },
        perm: 0o644,
        nlink: 1,
        uid: 9,
        gid: 8,
        rdev: 0,
        blksize: 512,
        flags: 0,
    }
}

/// What tests see of a [`Files`] that a session has.
#[derive(Debug, Default)]
struct Seen {
    begun: AtomicUsize,
    ended: AtomicUsize,
    /// The lookups of one node.
    lookups: AtomicI64,
    version: Mutex<Option<Version>>,
}

/// A file system that begins as `begins` says, and keeps the replies to GETATTR of node 9 for the test.
#[derive(Debug)]
struct Files {
    seen: Arc<Seen>,
    later: Mutex<Sender<ReplyAttr>>,
    begins: Result<InitFlags, i32>,
}

impl Files {
    fn new(begins: Result<InitFlags, i32>) -> (Self, Arc<Seen>, Receiver<ReplyAttr>) {
        let (seen, (sender, later)) = (Arc::<Seen>::default(), channel());
        (Files { seen: Arc::clone(&seen), later: Mutex::new(sender), begins }, seen, later)
    }

    fn entry(&self) -> FileAttr {
        self.seen.lookups.fetch_add(1, Ordering::Relaxed);
        attr(NODE)
    }
}

impl Filesystem for Files {
    fn init(&mut self, req: &Caller, config: &mut KernelConfig) -> io::Result<()> {
        // (the INIT of a mount is the kernel's)
        if req.unique().0 == 7 {
            assert_eq!((req.uid(), req.gid(), req.pid()), (1000, 1001, 77));
        }
        self.seen.begun.fetch_add(1, Ordering::Relaxed);
        *self.seen.version.lock().unwrap() = Some(config.kernel_abi());
        config.add_capabilities(self.begins.map_err(io::Error::from_raw_os_error)?).unwrap();
        config.set_max_write(65536).unwrap();
        Ok(())
    }

    fn destroy(&mut self) {
        self.seen.ended.fetch_add(1, Ordering::Relaxed);
    }

    fn lookup(&self, _: &Caller, _: INodeNo, name: &OsStr, reply: ReplyEntry) {
        if name == "b" {
            return reply.error(Errno::ENOENT);
        }
        reply.entry(&SECOND, &self.entry(), Generation(3));
    }

    fn forget(&self, _: &Caller, ino: INodeNo, nlookup: u64) {
        if ino.0 == NODE {
            let count = i64::try_from(nlookup).unwrap_or(0);
            self.seen.lookups.fetch_sub(count, Ordering::Relaxed);
        }
    }

    fn getattr(&self, _: &Caller, ino: INodeNo, _: Option<FileHandle>, reply: ReplyAttr) {
        match ino.0 {
            9 => self.later.lock().unwrap().send(reply).unwrap(),
            10 => drop(reply),
            666 => panic!("as requested"),
            ino => reply.attr(&SECOND, &attr(ino)),
        }
    }

    fn readlink(&self, _: &Caller, ino: INodeNo, reply: ReplyData) {
        reply.data(&vec![b'l'; usize::try_from(ino.0).unwrap_or(0).min(5000)]);
    }

    fn mkdir(&self, _: &Caller, _: INodeNo, _: &OsStr, _: u32, _: u32, reply: ReplyEntry) {
        reply.entry(&SECOND, &self.entry(), Generation(0));
    }

    fn open(&self, _: &Caller, _: INodeNo, _: OpenFlags, reply: ReplyOpen) {
        assert!(reply.open_backing(File::open("/dev/null").unwrap()).is_err());
        reply.opened(FileHandle(5), FopenFlags::FOPEN_KEEP_CACHE | FopenFlags::FOPEN_PASSTHROUGH);
    }

    fn create(&self, _: &Caller, _: INodeNo, _: &OsStr, _: u32, _: u32, _: i32, reply: ReplyCreate) {
        reply.created(&SECOND, &self.entry(), Generation(0), FileHandle(5), FopenFlags::empty());
    }

    fn read(
        &self, _: &Caller, ino: INodeNo, _: FileHandle, offset: u64, size: u32, _: OpenFlags,
        _: Option<LockOwner>, reply: ReplyData,
    ) {
        assert!(i64::try_from(offset).is_ok());
        let more = u32::from(ino.0 == 8);
        reply.data(&vec![b'd'; (size.min(300) + more) as usize]);
    }

    fn write(
        &self, _: &Caller, _: INodeNo, _: FileHandle, _: u64, data: &[u8], write_flags: WriteFlags,
        _: OpenFlags, _: Option<LockOwner>, reply: ReplyWrite,
    ) {
        assert!(write_flags.bits() < 8);
        reply.written(u32::try_from(data.len()).unwrap());
    }

    fn readdir(&self, _: &Caller, ino: INodeNo, _: FileHandle, at: u64, mut reply: ReplyDirectory) {
        let names = [".", "..", "a", "some-name", if ino.0 == 8 { "a\0b" } else { "b" }];
        for (name, offset) in names.iter().zip(1..).skip(usize::try_from(at).unwrap_or(5)) {
            if reply.add(INodeNo(offset), offset, FileType::RegularFile, name) {
                break;
            }
        }
        reply.ok();
    }

    fn readdirplus(&self, _: &Caller, ino: INodeNo, _: FileHandle, at: u64, mut reply: ReplyDirectoryPlus) {
        let names = [".", "..", "a", if ino.0 == 8 { "a\0b" } else { "b" }, "some-name"];
        for (name, offset) in names.iter().zip(1..).skip(usize::try_from(at).unwrap_or(5)) {
            if reply.add(INodeNo(NODE), offset, name, &SECOND, &attr(NODE), Generation(0)) {
                break;
            }
            let is_looked_up = !matches!(*name, "." | ".." | "a\0b");
            self.seen.lookups.fetch_add(is_looked_up.into(), Ordering::Relaxed);
        }
        reply.ok();
    }

    fn statfs(&self, _: &Caller, _: INodeNo, reply: ReplyStatfs) {
        reply.statfs(1, 2, 3, 4, 5, 6, 7, 8);
    }

    fn getxattr(&self, _: &Caller, _: INodeNo, _: &OsStr, size: u32, reply: ReplyXattr) {
        if size == 0 {
            reply.size(7);
        } else {
            reply.data(b"1234567");
        }
    }

    fn getlk(
        &self, _: &Caller, _: INodeNo, _: FileHandle, _: LockOwner, start: u64, end: u64, typ: i32, pid: u32,
        reply: ReplyLock,
    ) {
        reply.locked(start, end, typ, pid);
    }

    fn ioctl(
        &self, _: &Caller, _: INodeNo, _: FileHandle, flags: IoctlFlags, _: u32, in_data: &[u8],
        out_size: u32, reply: ReplyIoctl,
    ) {
        assert!(!flags.contains(IoctlFlags::FUSE_IOCTL_UNRESTRICTED));
        reply.ioctl(1, &in_data[..in_data.len().min(out_size as usize)]);
    }

    fn poll(
        &self, _: &Caller, _: INodeNo, _: FileHandle, ph: PollNotifier, events: PollEvents, flags: PollFlags,
        reply: ReplyPoll,
    ) {
        if flags.contains(PollFlags::FUSE_POLL_SCHEDULE_NOTIFY) {
            ph.notify().unwrap();
        }
        reply.poll(events);
    }
}

/// A session at one end of a socket.
struct Served {
    client: Peer,
    session: Option<BackgroundSession>,
}

fn config(threads: usize) -> Config {
    let mut config = Config::default();
    config.n_threads = Some(threads);
    config
}

/// An INIT with all options.
fn init() -> Vec<u8> {
    common::init(4096, u32::MAX, u32::MAX).done()
}

/// Begins a session.
fn begin(files: Files, acl: SessionACL, threads: usize) -> (Peer, io::Result<Session<Files>>) {
    let (client, device) = Peer::new();
    // Requests before an INIT are refused.
    client.send(&Request::new(17, 1).done());
    client.send(&init());
    let session = Session::from_fd(files, OwnedFd::from(device), acl, config(threads));
    assert_eq!(client.receive(), fault(5));
    (client, session)
}

impl Served {
    fn new(files: Files, acl: SessionACL) -> Self {
        Self::on(2, files, acl)
    }

    /// One that this many threads serve.
    fn on(threads: usize, files: Files, acl: SessionACL) -> Self {
        let (client, session) = begin(files, acl, threads);
        let session = session.unwrap();
        assert_eq!(client.receive().len(), 80);
        Served { client, session: Some(session.spawn().unwrap()) }
    }

    /// Ends both threads, by reads of no bytes.
    fn end(&mut self) -> io::Result<()> {
        for _ in 0..2 {
            self.client.send(&[]);
        }
        self.session.take().unwrap().join()
    }
}

fn getattr(node: u64) -> Vec<u8> {
    common::getattr(node).done()
}

/// The record of the attributes of a node.
fn attr_record(ino: u32, mode: u32) -> Vec<u8> {
    // 200 milliseconds before 1970 are the second -1 and 800 milliseconds.
    let times = [0, 0, u32::MAX, u32::MAX, 0, 0, 0, 800_000_000, 0];
    let (begins, ends) = ([ino, 0, 3, 0, 0, 0], [mode, 1, 9, 8, 0, 512, 0]);
    words(&[&begins[..], &times[..], &ends[..]].concat())
}

#[test]
fn replies_are_those_of_the_protocol() {
    let (files, _, _) = Files::new(Ok(InitFlags::FUSE_DO_READDIRPLUS));
    let mut served = Served::new(files, SessionACL::All);
    let file = attr_record(50, 0o100_644);
    let entry = [words(&[50, 0, 3, 0, 1, 0, 1, 0, 0, 0]), file].concat();
    let reading = |opcode, node, offset, size| reading(opcode, node, offset, size).done();
    let first = [record(1, 1, 8, "."), record(2, 2, 8, "..")].concat();
    for (request, expected) in [
        (Request::new(1, 1).name("a").done(), reply(&entry)),
        (Request::new(1, 1).name("b").done(), fault(2)),
        (getattr(1), reply(&[words(&[1, 0, 0, 0]), attr_record(1, 0o40_644)].concat())),
        // Nobody answers.
        (getattr(10), fault(5)),
        (Request::new(5, 4).done(), reply(b"llll")),
        (Request::new(5, 4096).done(), fault(5)),
        (Request::new(14, 4).u32(2).u32(0).done(), reply(&words(&[5, 0, 2, 0]))),
        (reading(15, 4, 0, 3), reply(b"ddd")),
        (reading(15, 4, 0, 0), reply(b"")),
        // More than requested, and no offset in a file.
        (reading(15, 8, 0, 3), fault(5)),
        (reading(15, 4, 1 << 63, 3), fault(22)),
        (reading(28, 1, 0, 70), reply(&first)),
        (reading(28, 1, 2, 32), reply(&record(3, 3, 8, "a"))),
        (reading(28, 1, 0, 31), reply(b"")),
        (reading(28, 8, 0, 4096), fault(5)),
        (Request::new(17, 1).done(), {
            reply(&words(&[1, 0, 2, 0, 3, 0, 4, 0, 5, 0, 6, 7, 8, 0, 0, 0, 0, 0, 0, 0]))
        }),
        (Request::new(22, 5).u32(0).u32(0).name("user.a").done(), reply(&words(&[7, 0]))),
        (Request::new(22, 5).u32(6).u32(0).name("user.a").done(), fault(34)),
        (Request::new(22, 5).u32(7).u32(0).name("user.a").done(), reply(b"1234567")),
        // Methods that the file system does not have.
        (Request::new(9, 1).u32(0).u32(0).name("d").done(), {
            let entry = [words(&[50, 0, 0, 0, 1, 0, 1, 0, 0, 0]), attr_record(50, 0o100_644)];
            reply(&entry.concat())
        }),
        (Request::new(6, 1).name("a").name("b").done(), fault(1)),
        (Request::new(34, 1).u32(4).u32(0).done(), fault(38)),
        (Request::new(50, 1).u64(0).done(), fault(38)),
        // There is one INIT.
        (init(), fault(5)),
    ] {
        assert_eq!(served.client.exchange(&request), expected, "{request:?}");
    }
    served.end().unwrap();
}

#[test]
fn a_reply_comes_later_and_from_another_thread() {
    let (files, seen, later) = Files::new(Ok(InitFlags::empty()));
    let mut served = Served::new(files, SessionACL::All);
    let waiting: Vec<ReplyAttr> = (0..4)
        .map(|_| {
            served.client.send(&getattr(9));
            later.recv().unwrap()
        })
        .collect();
    assert_eq!(served.client.exchange(&Request::new(5, 4).done()), reply(b"llll"));
    let mut waiting = waiting.into_iter();
    let mut next = || waiting.next().unwrap();
    let (first, second, third, last) = (next(), next(), next(), next());
    thread::spawn(move || first.attr(&SECOND, &attr(9))).join().unwrap();
    let expected = [words(&[1, 0, 0, 0]), attr_record(9, 0o100_644)].concat();
    assert_eq!(served.client.receive(), reply(&expected));
    thread::spawn(move || second.error(Errno::EAGAIN)).join().unwrap();
    assert_eq!(served.client.receive(), fault(11));
    thread::spawn(move || drop(third)).join().unwrap();
    assert_eq!(served.client.receive(), fault(5));
    served.end().unwrap();
    assert_eq!(seen.ended.load(Ordering::Relaxed), 1);
    // One that comes after the end goes nowhere.
    last.attr(&SECOND, &attr(9));
    served.client.0.set_read_timeout(Some(SECOND)).unwrap();
    assert_eq!(served.client.receive(), b"");
}

/// A file system whose listings have an entry, and an invalid name. That of node 1 is answered when its entry
/// is forgotten.
#[derive(Debug, Default)]
struct Losing {
    kept: Mutex<Option<ReplyDirectoryPlus>>,
    forgotten: Arc<AtomicUsize>,
}

impl Filesystem for Losing {
    fn readdirplus(&self, _: &Caller, ino: INodeNo, _: FileHandle, _: u64, mut reply: ReplyDirectoryPlus) {
        for name in ["a", "\0"] {
            assert!(!reply.add(INodeNo(NODE), 1, name, &SECOND, &attr(NODE), Generation(0)));
        }
        if ino == INodeNo(1) {
            *self.kept.lock().unwrap() = Some(reply);
        } else {
            reply.ok();
        }
    }

    fn forget(&self, _: &Caller, _: INodeNo, _: u64) {
        self.forgotten.fetch_add(1, Ordering::Relaxed);
        let kept = self.kept.lock().unwrap().take();
        if let Some(reply) = kept {
            reply.ok();
        }
    }
}

#[test]
fn what_is_forgotten_may_answer_another_call() {
    let (client, device) = Peer::new();
    let files = Losing::default();
    let forgotten = Arc::clone(&files.forgotten);
    client.send(&init());
    let session = Session::from_fd(files, OwnedFd::from(device), SessionACL::All, config(1));
    let session = session.unwrap().spawn().unwrap();
    assert_eq!(client.receive().len(), 80);
    client.send(&reading(44, 1, 0, 4000).done());
    client.send(&reading(44, 2, 0, 4000).done());
    assert_eq!(client.receive(), fault(5));
    // When the second one's entry is forgotten, the first is answered; then its own is forgotten.
    for _ in 0..2 {
        client.send(&getattr(2));
    }
    let replies = [client.receive(), client.receive(), client.receive()];
    assert_eq!(replies, [fault(5), fault(38), fault(38)]);
    assert_eq!(forgotten.load(Ordering::Relaxed), 2);
    client.send(&[]);
    session.join().unwrap();
}

#[test]
fn a_session_begins_and_ends_once() {
    let count = |seen: &Seen| (seen.begun.load(Ordering::Relaxed), seen.ended.load(Ordering::Relaxed));
    // It is dropped before it is served.
    let (files, seen, _) = Files::new(Ok(InitFlags::FUSE_WRITEBACK_CACHE));
    let (client, session) = begin(files, SessionACL::All, 2);
    let answer = client.receive();
    // ASYNC_READ, BIG_WRITES, MAX_PAGES and INIT_EXT, and the options that were wanted; the longest WRITE.
    assert_eq!(word(&answer, 28), 1 | 1 << 5 | 1 << 16 | 1 << 22 | 1 << 30);
    assert_eq!((word(&answer, 24), word(&answer, 36)), (4096, 65536));
    let notifier: Notifier = session.as_ref().map(Session::notifier).unwrap();
    drop(session);
    assert_eq!(count(&seen), (1, 1));
    assert_eq!(*seen.version.lock().unwrap(), Some(Version(7, 38)));
    assert!(notifier.inval_inode(INodeNo(2), 0, 0).is_err());
    // It cannot begin.
    let (files, seen, _) = Files::new(Err(13));
    let (client, session) = begin(files, SessionACL::All, 2);
    assert_eq!(session.unwrap_err().raw_os_error(), Some(13));
    assert_eq!((client.receive(), count(&seen)), (fault(13), (1, 1)));
    // Its client is gone, or its configuration is wrong.
    let (client, device) = Peer::new();
    client.send(&[]);
    for (threads, expected) in [(0, io::ErrorKind::InvalidInput), (1, io::ErrorKind::NotConnected)] {
        let (files, seen, _) = Files::new(Ok(InitFlags::empty()));
        let device = OwnedFd::from(device.try_clone().unwrap());
        let failed = Session::from_fd(files, device, SessionACL::All, config(threads));
        assert_eq!(failed.unwrap_err().kind(), expected);
        assert_eq!(seen.begun.load(Ordering::Relaxed), 0);
    }
}

#[test]
fn a_panic_ends_a_session_after_its_caller_is_answered() {
    let (files, seen, _) = Files::new(Ok(InitFlags::empty()));
    let mut served = Served::new(files, SessionACL::All);
    std::panic::set_hook(Box::new(|_| ()));
    assert_eq!(served.client.exchange(&getattr(666)), fault(5));
    served.client.send(&[]);
    let ended = served.session.take().unwrap().join();
    let _ = std::panic::take_hook();
    assert_eq!(ended.unwrap_err().to_string(), "the file system panicked");
    assert_eq!(seen.ended.load(Ordering::Relaxed), 1);
}

#[test]
fn only_those_users_are_served_that_may() {
    // (the user of these requests is 1000)
    if !fs::metadata("/proc/self").map_or(false, |it| std::os::unix::fs::MetadataExt::uid(&it) == 0) {
        return eprintln!("users: this needs root.");
    }
    for (acl, expected) in [(SessionACL::Owner, 13), (SessionACL::RootAndOwner, 13)] {
        let (files, _, _) = Files::new(Ok(InitFlags::empty()));
        let mut served = Served::new(files, acl);
        assert_eq!(served.client.exchange(&Request::new(5, 4).done()), fault(expected));
        // The kernel reads for nobody.
        assert_eq!(served.client.exchange(&reading(15, 4, 0, 3).done()), reply(b"ddd"));
        let mut by_root = Request::new(5, 4).done();
        by_root[24..28].fill(0);
        assert_eq!(served.client.exchange(&by_root), reply(b"llll"));
        served.end().unwrap();
    }
}

#[test]
fn hostile_requests() {
    const ROUNDS: u32 = 30_000;
    const DESTROY: u32 = 38;
    let all = InitFlags::FUSE_DO_READDIRPLUS | InitFlags::FUSE_POSIX_LOCKS;
    let (files, seen, _) = Files::new(Ok(all));
    let mut served = Served::on(1, files, SessionACL::All);
    let (mut random, seeds) = (Random::new(), seeds());
    let lookups = || seen.lookups.load(Ordering::Relaxed);
    let (mut replies, mut faults) = (0, 0);
    for round in 0..ROUNDS {
        let mut request = random.request(&seeds);
        let opcode = if request.len() < 8 { 0 } else { word(&request, 4) };
        if opcode == DESTROY {
            continue;
        }
        let before = lookups();
        if request.len() >= 16 {
            request[8..16].copy_from_slice(&u64::from(round + 1000).to_le_bytes());
        }
        served.client.send(&request);
        served.client.send(&Request::new(17, 1).done());
        // (there is one thread, so its reply is there before that of the next request)
        let mut own = None;
        loop {
            let reply = served.client.receive();
            assert!(reply.len() >= 16, "round {round}: {request:?}");
            assert_eq!(word(&reply, 0) as usize, reply.len());
            match word(&reply, 8) {
                7 => break,
                0 => assert_eq!(word(&reply, 4), 1, "it is the notice of a POLL"),
                unique => {
                    assert_eq!((unique, &own), (round + 1000, &None), "{request:?}");
                    own = Some(reply);
                }
            }
        }
        // (a NOTIFY_REPLY has a reply only where it is not enabled)
        let (none, perhaps) = (matches!(opcode, 2 | 42), matches!(opcode, 36 | 41) || request.len() < 16);
        assert!(perhaps || own.is_some() != none, "round {round}: {request:?}");
        let own = own.unwrap_or_default();
        let is_fault = !own.is_empty() && word(&own, 4) != 0;
        replies += usize::from(!own.is_empty() && !is_fault);
        faults += usize::from(is_fault);
        if opcode != 2 && opcode != 42 {
            assert_eq!(lookups() - before, delivered(opcode, &own), "round {round}: {request:?}");
        }
    }
    served.end().unwrap();
    assert!(replies > 7000 && faults > 3000, "{replies} {faults}");
}

#[test]
fn a_mount_ends_with_its_session() {
    let folder = folder!("fuser");
    let mut config = config(2);
    config.mount_options = vec![MountOption::RO, MountOption::FSName("files".into())];
    for unmounts in [true, false] {
        let (files, seen, _) = Files::new(Ok(InitFlags::empty()));
        let session = match spawn_mount2(files, &folder.0, &config) {
            Ok(session) => session,
            Err(error) => return eprintln!("fuser: nothing is mounted: {error}"),
        };
        assert!(folder.line().unwrap().contains(" - fuse files "));
        assert_eq!(fs::metadata(folder.0.join("a")).unwrap().len(), 3);
        assert_eq!(fs::read_dir(&folder.0).unwrap().count(), 3);
        if unmounts {
            session.umount_and_join().unwrap();
            assert_eq!(seen.ended.load(Ordering::Relaxed), 1);
        } else {
            drop(session);
        }
        assert_eq!(folder.line(), None);
    }
    config.mount_options.push(MountOption::RW);
    let (files, _, _) = Files::new(Ok(InitFlags::empty()));
    let error = spawn_mount2(files, &folder.0, &config).unwrap_err();
    assert!(error.to_string().contains("RO and RW"), "{error}");
}
