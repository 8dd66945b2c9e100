//! Mounts of a file system that serves what virtiofsd does not: locks, notices, STATX, IOCTL, POLL and files
//! without a name. They need root and /dev/fuse: without them nothing is tested, as the output says.

#[macro_use]
#[path = "common/folder.rs"]
mod folder;

use folder::{comes, number, Folder};
use nizwarf::{
    kinds, spawn_mount, Attr, Call, Client, Context, Entry, Errno, Extensions, Features, FileSystem,
    FsOptions, IoctlFlags, IoctlReply, Limits, Lock, LockType, MountOption, Mounted, NoEntries, Notifier,
    OpenOptions, PollHandle, Scratch, Statx, StatxTime, To, ZeroCopyReader, ZeroCopyWriter,
};
use std::ffi::{CStr, CString};
use std::fs::{self, File};
use std::io::{self, Read, Seek, SeekFrom, Write};
use std::os::raw::{c_int, c_short, c_ulong, c_void};
use std::os::unix::fs::{FileExt, MetadataExt, OpenOptionsExt};
use std::os::unix::io::AsRawFd;
use std::process::Command;
use std::sync::{Arc, Mutex, MutexGuard};
use std::thread;
use std::time::{Duration, UNIX_EPOCH};

const NEWS: u64 = 2;
const UNNAMED: u64 = 3;
/// Everything is cached for a day.
const DAY: Duration = Duration::from_secs(86400);
const BORN: i64 = 1_234_567_890;

/// A lock of an owner.
#[derive(Clone, Copy)]
struct Held {
    owner: u64,
    lock: Lock,
    flock: bool,
}

/// A lock that waits.
struct Waiting {
    unique: u64,
    held: Held,
    to: To<kinds::Status>,
    client: Client,
}

#[derive(Default)]
struct State {
    text: String,
    name: CString,
    unnamed: Vec<u8>,
    held: Vec<Held>,
    waiting: Vec<Waiting>,
    polled: Option<PollHandle>,
    retrieved: Vec<(u64, u64, u64, Vec<u8>)>,
    notifier: Option<Notifier>,
    forgotten: u64,
}

impl State {
    fn in_the_way(&self, wanted: &Held) -> Option<Lock> {
        let is_other = |held: &&Held| held.flock == wanted.flock && held.owner != wanted.owner;
        let mut others = self.held.iter().filter(is_other);
        others.find(|held| held.lock.excludes(&wanted.lock)).map(|held| held.lock)
    }

    /// Removes a range from an owner's locks, and adds it unless its type is `Unlock`. Then answers the calls
    /// that wait.
    fn change(&mut self, wanted: Held) {
        let mut held = Vec::new();
        for other in self.held.drain(..) {
            let (own, new) = (other.lock, wanted.lock);
            let is_apart = own.end < new.start || new.end < own.start;
            if is_apart || other.owner != wanted.owner || other.flock != wanted.flock {
                held.push(other);
                continue;
            }
            if own.start < new.start {
                held.push(Held { lock: Lock { end: new.start - 1, ..own }, ..other });
            }
            if new.end < own.end {
                held.push(Held { lock: Lock { start: new.end + 1, ..own }, ..other });
            }
        }
        if wanted.lock.kind != LockType::Unlock {
            held.push(wanted);
        }
        self.held = held;
        let is_free = |waiting: &Waiting| self.in_the_way(&waiting.held).is_none();
        if let Some(at) = self.waiting.iter().position(is_free) {
            let Waiting { held, to, client, .. } = self.waiting.remove(at);
            self.change(held);
            client.send(to.answer(&mut Scratch::new(), Ok(())).reply()).unwrap();
        }
    }

    fn unlock(&mut self, owner: u64, flock: bool) {
        let lock = Lock { start: 0, end: u64::MAX, kind: LockType::Unlock, pid: 0 };
        self.change(Held { owner, lock, flock });
    }
}

/// A root with one file. Its text and its name change.
#[derive(Clone, Default)]
struct News(Arc<Mutex<State>>);

impl News {
    fn new() -> Self {
        let (text, name) = ("old\n".into(), CString::new("news").unwrap());
        News(Arc::new(Mutex::new(State { text, name, ..State::default() })))
    }

    fn state(&self) -> MutexGuard<'_, State> {
        self.0.lock().unwrap()
    }

    fn notifier(&self) -> Notifier {
        self.state().notifier.clone().unwrap()
    }

    fn attr(&self, inode: u64) -> Attr {
        let state = self.state();
        let (mode, size) = match inode {
            NEWS => (0o100_644, state.text.len()),
            UNNAMED => (0o100_600, state.unnamed.len()),
            _ => (0o40_755, 0),
        };
        let nlink = u32::from(inode != UNNAMED);
        Attr { ino: inode, mode, nlink, size: size as u64, ..Attr::default() }
    }

    fn entry(&self, inode: u64) -> Entry {
        let attr = self.attr(inode);
        Entry { inode, attr, attr_timeout: DAY, entry_timeout: DAY, ..Entry::default() }
    }

    /// Returns whether one waits for a lock in the end.
    fn waits(&self) -> bool {
        comes(|| !self.state().waiting.is_empty())
    }

    /// One that is mounted on a folder, and served by one thread.
    fn mounted(folder: &Folder) -> (Self, Mounted) {
        News::mounted_with(folder, 1)
    }

    fn mounted_with(folder: &Folder, threads: usize) -> (Self, Mounted) {
        let files = News::new();
        let mounted = spawn_mount(files.clone(), &folder.0, &[MountOption::Threads(threads)]).unwrap();
        (files, mounted)
    }
}

impl FileSystem for News {
    type Inode = u64;
    type Handle = u64;
    type DirIter = NoEntries;

    fn features(&self) -> Features {
        Features::all()
    }

    fn init(&self, _: FsOptions) -> io::Result<FsOptions> {
        Ok(FsOptions::POSIX_LOCKS | FsOptions::FLOCK_LOCKS | FsOptions::HAS_RESEND)
    }

    fn limits(&self) -> Limits {
        Limits { max_background: 20, time_gran: 1, ..Limits::default() }
    }

    fn begin(&self, client: &Client) {
        self.state().notifier = Some(client.notifier());
    }

    fn take<'r>(&self, ctx: Context, call: Call<'r>, client: &Client) -> Option<Call<'r>> {
        match call {
            Call::Setlkw { lock_owner: owner, lock, flock, to, .. } => {
                let held = Held { owner, lock, flock };
                let mut state = self.state();
                if lock.kind == LockType::Unlock || state.in_the_way(&held).is_none() {
                    state.change(held);
                    client.send(to.answer(&mut Scratch::new(), Ok(())).reply()).unwrap();
                } else if client.was_interrupted(ctx.unique) {
                    let mut scratch = Scratch::new();
                    client.send(to.fail(&mut scratch, &Errno::EINTR.into()).reply()).unwrap();
                } else {
                    let client = client.clone();
                    state.waiting.push(Waiting { unique: ctx.unique, held, to, client });
                }
                None
            }
            other => Some(other),
        }
    }

    fn interrupt(&self, unique: u64) {
        let mut state = self.state();
        if let Some(at) = state.waiting.iter().position(|waiting| waiting.unique == unique) {
            let Waiting { to, client, .. } = state.waiting.remove(at);
            let mut scratch = Scratch::new();
            client.send(to.fail(&mut scratch, &Errno::EINTR.into()).reply()).unwrap();
        }
    }

    fn getlk(&self, _: Context, _: u64, _: u64, owner: u64, lock: Lock) -> io::Result<Lock> {
        let other = self.state().in_the_way(&Held { owner, lock, flock: false });
        Ok(other.unwrap_or(Lock { kind: LockType::Unlock, ..lock }))
    }

    fn setlk(
        &self, _: Context, _: u64, _: u64, owner: u64, lock: Lock, wait: bool, flock: bool,
    ) -> io::Result<()> {
        assert!(!wait);
        let (wanted, mut state) = (Held { owner, lock, flock }, self.state());
        if lock.kind != LockType::Unlock && state.in_the_way(&wanted).is_some() {
            return Err(Errno::EAGAIN.into());
        }
        state.change(wanted);
        Ok(())
    }

    fn flush(&self, _: Context, _: u64, _: u64, lock_owner: u64) -> io::Result<()> {
        self.state().unlock(lock_owner, false);
        Ok(())
    }

    fn release(
        &self, _: Context, _: u64, _: u32, _: u64, _: bool, flock_release: bool, lock_owner: Option<u64>,
    ) -> io::Result<()> {
        if flock_release {
            self.state().unlock(lock_owner.unwrap_or(0), true);
        }
        Ok(())
    }

    fn lookup(&self, _: Context, _: u64, name: &CStr) -> io::Result<Entry> {
        let is_news = self.state().name.as_c_str() == name;
        // (also that there is no such name is cached for a day)
        let none = Entry { entry_timeout: DAY, ..Entry::default() };
        Ok(if is_news { self.entry(NEWS) } else { none })
    }

    fn forget(&self, _: Context, _: u64, count: u64) {
        self.state().forgotten += count;
    }

    fn getattr(&self, _: Context, inode: u64, _: Option<u64>) -> io::Result<(Attr, Duration)> {
        Ok((self.attr(inode), DAY))
    }

    fn statx(
        &self, _: Context, inode: u64, _: Option<u64>, _: u32, mask: u32,
    ) -> io::Result<(Statx, Duration)> {
        assert_ne!(mask & Statx::BTIME, 0);
        let Attr { ino, mode, size, nlink, .. } = self.attr(inode);
        let (mask, mode) = (Statx::BASIC | Statx::BTIME, u16::try_from(mode).unwrap());
        let btime = StatxTime { seconds: BORN, nanoseconds: 5 };
        Ok((Statx { mask, mode, ino, size, nlink, btime, ..Statx::default() }, DAY))
    }

    fn open(&self, _: Context, _: u64, _: bool, _: u32) -> io::Result<(Option<u64>, OpenOptions)> {
        Ok((None, OpenOptions::KEEP_CACHE))
    }

    fn tmpfile(
        &self, _: Context, _: u64, name: &CStr, mode: u32, _: bool, _: u32, _: u32, _: Extensions,
    ) -> io::Result<(Entry, Option<u64>, OpenOptions)> {
        assert_eq!((name.to_bytes(), mode & 0o777), (&b"/"[..], 0o600));
        Ok((self.entry(UNNAMED), Some(5), OpenOptions::empty()))
    }

    fn read<W: ZeroCopyWriter>(
        &self, _: Context, inode: u64, _: u64, mut w: W, size: u32, offset: u64, _: Option<u64>, _: u32,
    ) -> io::Result<usize> {
        let state = self.state();
        let all = if inode == UNNAMED { &state.unnamed[..] } else { state.text.as_bytes() };
        let left = all.get(usize::try_from(offset).unwrap()..).unwrap_or_default();
        let left = &left[..left.len().min(size as usize)];
        w.write_all(left).map(|()| left.len())
    }

    fn write<R: ZeroCopyReader>(
        &self, _: Context, _: u64, _: u64, mut r: R, _: u32, _: u64, _: Option<u64>, _: bool, _: bool, _: u32,
    ) -> io::Result<usize> {
        r.read_to_end(&mut self.state().unnamed)
    }

    fn ioctl(
        &self, _: Context, inode: u64, _: u64, flags: IoctlFlags, cmd: u32, _: u64, input: &[u8],
        output_size: u32,
    ) -> io::Result<IoctlReply> {
        assert!(flags.is_empty());
        let count = match u64::from(cmd) {
            LENGTH => self.attr(inode).size,
            COUNT => input.iter().take_while(|byte| **byte != 0).count() as u64,
            _ => return Err(Errno::ENOTTY.into()),
        };
        let output = u32::try_from(count).unwrap().to_le_bytes().to_vec();
        assert!(output_size >= 4);
        Ok(IoctlReply::Done { result: 7, output })
    }

    fn poll(&self, _: Context, _: u64, _: u64, wake: Option<PollHandle>, _: u32) -> io::Result<u32> {
        let mut state = self.state();
        state.polled = wake;
        Ok(u32::from(state.text != "old\n"))
    }

    fn notify_reply(&self, unique: u64, inode: u64, offset: u64, data: &[u8]) {
        self.state().retrieved.push((unique, inode, offset, data.to_vec()));
    }
}

/// `_IOR('n', 1, u32)` and `_IOWR('n', 2, char[64])`.
const LENGTH: u64 = 0x8004_6e01;
const COUNT: u64 = 0xc040_6e02;

/// `struct pollfd`.
#[repr(C)]
struct Polled {
    descriptor: c_int,
    events: c_short,
    came: c_short,
}

extern "C" {
    fn flock(file: c_int, operation: c_int) -> c_int;
    fn ioctl(file: c_int, command: c_ulong, ...) -> c_int;
    fn poll(polled: *mut Polled, count: c_ulong, milliseconds: c_int) -> c_int;
    fn umount2(folder: *const std::os::raw::c_char, flags: c_int) -> c_int;
}

const MNT_FORCE: c_int = 1;
const MNT_DETACH: c_int = 2;
const O_TMPFILE: c_int = 0o20_200_000;
const LOCK_EX: c_int = 2;
const LOCK_UN: c_int = 8;

fn done(result: c_int) -> Result<c_int, i32> {
    if result < 0 {
        Err(io::Error::last_os_error().raw_os_error().unwrap())
    } else {
        Ok(result)
    }
}

/// Locks or unlocks an open file, as `flock(2)`: threads exclude each other.
fn lock(file: &File, operation: c_int) -> Result<c_int, i32> {
    // SAFETY: the descriptor is open.
    done(unsafe { flock(file.as_raw_fd(), operation) })
}

fn open(folder: &Folder) -> File {
    File::open(folder.0.join("news")).unwrap()
}

/// Reads a file without its attributes, because the standard library wants the time of birth, too, which is
/// never cached.
fn read(folder: &Folder, name: &str) -> io::Result<String> {
    let (mut file, mut data) = (File::open(folder.0.join(name))?, [0; 100]);
    let len = file.read(&mut data)?;
    Ok(String::from_utf8_lossy(&data[..len]).into_owned())
}

/// Unmounts, as `umount2(2)`.
fn detach(folder: &Folder, flags: c_int) -> Result<c_int, i32> {
    let path = CString::new(folder.0.to_str().unwrap()).unwrap();
    // SAFETY: the string ends with a NUL.
    done(unsafe { umount2(path.as_ptr(), flags) })
}

/// Programs lock a mount. If one thread serves it, a lock that waits must not hold that thread.
#[test]
fn locks_are_those_of_linux() {
    let folder = folder!("programs");
    let program = concat!(env!("CARGO_MANIFEST_DIR"), "/../../tests/programs/locks.py");
    // (the packed crate does not have it)
    if fs::metadata(program).is_err() {
        return;
    }
    for threads in [1, 4] {
        let (files, mounted) = News::mounted_with(&folder, threads);
        let mut command = Command::new("python3");
        command.args([program, "--no-ofd-close"]).arg(folder.0.join("news"));
        match command.output() {
            Ok(said) => assert!(said.status.success(), "{said:?}"),
            Err(error) => eprintln!("programs: python3: {error}"),
        }
        let is_free = || {
            // (one guard: before Rust 1.68 a first one would live until the end of the statement)
            let state = files.state();
            state.held.is_empty() && state.waiting.is_empty()
        };
        // (with several threads the last RELEASE may still be on its way)
        assert!(comes(is_free));
        mounted.unmount().unwrap();
    }
}

/// Programs that wait for a lock are killed while they begin to wait, so that the interrupt, on another thread,
/// may come before its call is taken.
#[test]
fn no_interrupt_is_lost() {
    let folder = folder!("interrupts");
    let (files, mounted) = News::mounted_with(&folder, 4);
    let holder = open(&folder);
    lock(&holder, LOCK_EX).unwrap();
    for round in 0..40 {
        let mut command = Command::new("flock");
        let mut program = match command.arg(folder.0.join("news")).arg("true").spawn() {
            Ok(program) => program,
            Err(error) => {
                eprintln!("interrupts: flock: {error}");
                break;
            }
        };
        thread::sleep(Duration::from_micros(500 * round));
        program.kill().unwrap();
        assert!(comes(|| program.try_wait().unwrap().is_some()), "round {round}");
    }
    assert!(files.state().waiting.is_empty());
    drop(holder);
    mounted.unmount().unwrap();
}

#[test]
fn a_mount_ends_while_a_call_is_taken() {
    let folder = folder!("taken");
    for is_forced in [true, false] {
        let (files, mounted) = News::mounted(&folder);
        let (one, other) = (open(&folder), open(&folder));
        lock(&one, LOCK_EX).unwrap();
        thread::scope(|scope| {
            let waiter = scope.spawn(|| lock(&other, LOCK_EX));
            assert!(files.waits());
            if is_forced {
                // It ends all requests, and fails, since the mount is in use.
                assert!(detach(&folder, MNT_FORCE).is_err());
                let ended = waiter.join().unwrap();
                assert!(matches!(ended, Err(103 | 107 | 5)), "{ended:?}");
                assert_eq!(detach(&folder, MNT_DETACH), Ok(0));
            } else {
                // It goes with its last user.
                assert_eq!(detach(&folder, MNT_DETACH), Ok(0));
                assert_eq!(folder.line(), None);
                assert!(!waiter.is_finished());
                lock(&one, LOCK_UN).unwrap();
                assert_eq!(waiter.join().unwrap(), Ok(0));
            }
        });
        drop((one, other));
        // A reply that nobody waits for is dropped.
        let late: Vec<_> = files.state().waiting.drain(..).collect();
        assert_eq!(late.len(), usize::from(is_forced));
        for Waiting { to, client, .. } in late {
            client.send(to.answer(&mut Scratch::new(), Ok(())).reply()).unwrap();
        }
        mounted.unmount().unwrap();
        assert_eq!(number(files.notifier().inval_inode(NEWS, 0, 0)), Some(107));
    }
}

#[test]
fn a_notice_is_seen() {
    let folder = folder!("notices");
    let (files, mounted) = News::mounted(&folder);
    let notifier = mounted.notifier();
    let set = |text: &str| files.state().text = text.into();
    assert_eq!(read(&folder, "news").unwrap(), "old\n");
    set("quiet\n");
    assert_eq!(read(&folder, "news").unwrap(), "old\n");
    notifier.inval_inode(NEWS, 0, 0).unwrap();
    assert_eq!(read(&folder, "news").unwrap(), "quiet\n");
    let size = || open(&folder).seek(SeekFrom::End(0)).unwrap();
    set("attributes alone\n");
    assert_eq!(size(), 6);
    notifier.inval_inode(NEWS, -1, 0).unwrap();
    assert_eq!(size(), 17);
    assert_eq!(number(notifier.inval_inode(99, 0, 0)), Some(2));
    assert_eq!(read(&folder, "news").unwrap(), "attributes alone\n");
    // Data are put into the cache, and read from there.
    let file = open(&folder);
    notifier.store(NEWS, 0, b"stored\n").unwrap();
    let mut data = [0; 7];
    file.read_exact_at(&mut data, 0).unwrap();
    assert_eq!(&data, b"stored\n");
    notifier.retrieve(77, NEWS, 0, 7).unwrap();
    assert!(comes(|| !files.state().retrieved.is_empty()));
    assert_eq!(files.state().retrieved, [(77, NEWS, 0, b"stored\n".to_vec())]);
    drop(file);
    names_are_invalidated(&files, &notifier, &folder);
    // Linux 6.18 has the first two of these, and may not have the third.
    notifier.resend().unwrap();
    for sent in [notifier.expire_all(), notifier.prune(&[NEWS])] {
        assert!(sent.is_ok() || number(sent) == Some(22));
    }
    assert!(read(&folder, "news").is_ok());
    mounted.unmount().unwrap();
    for sent in [notifier.resend(), notifier.inval_inode(NEWS, 0, 0)] {
        assert_eq!(number(sent), Some(107));
    }
}

/// Notices about names.
fn names_are_invalidated(files: &News, notifier: &Notifier, folder: &Folder) {
    let (news, other) = (CString::new("news").unwrap(), CString::new("other").unwrap());
    let is_there = |name: &str| read(folder, name).is_ok();
    assert!(is_there("news") && !is_there("other"));
    files.state().name = other.clone();
    assert!(is_there("news") && !is_there("other"));
    notifier.inval_entry(1, &news).unwrap();
    notifier.inval_entry(1, &other).unwrap();
    assert!(!is_there("news") && is_there("other"));
    files.state().name = news.clone();
    notifier.expire_entry(1, &other).unwrap();
    notifier.expire_entry(1, &news).unwrap();
    assert!(is_there("news") && !is_there("other"));
    files.state().name = CString::default();
    notifier.delete(1, NEWS, &news).unwrap();
    assert!(!is_there("news"));
    files.state().name = news.clone();
    notifier.inval_entry(1, &news).unwrap();
    assert!(is_there("news"));
}

#[test]
fn poll_is_woken() {
    let folder = folder!("poll");
    let (files, mounted) = News::mounted(&folder);
    let file = open(&folder);
    let wait = |milliseconds| {
        let mut polled = Polled { descriptor: file.as_raw_fd(), events: 1, came: 0 };
        // SAFETY: there is one struct, which is valid for this call.
        let count = unsafe { poll(&mut polled, 1, milliseconds) };
        (count, polled.came)
    };
    assert_eq!(wait(0), (0, 0));
    thread::scope(|scope| {
        let waiter = scope.spawn(|| wait(20_000));
        assert!(comes(|| files.state().polled.is_some()));
        assert!(!waiter.is_finished());
        files.state().text = "new\n".into();
        let (notifier, handle) = (files.notifier(), files.state().polled.unwrap());
        notifier.wake(handle).unwrap();
        assert_eq!(waiter.join().unwrap(), (1, 1));
    });
    drop(file);
    mounted.unmount().unwrap();
}

#[test]
fn statx_ioctl_and_unnamed_files() {
    let folder = folder!("further");
    let (files, mounted) = News::mounted(&folder);
    let born = fs::metadata(folder.0.join("news")).unwrap().created().unwrap();
    let expected = Duration::new(u64::try_from(BORN).unwrap(), 5);
    assert_eq!(born.duration_since(UNIX_EPOCH).unwrap(), expected);
    let file = open(&folder);
    let control = |command: u64, buffer: &mut [u8; 64]| {
        // SAFETY: the descriptor is open, and no command has more than 64 bytes.
        done(unsafe { ioctl(file.as_raw_fd(), command, buffer.as_mut_ptr().cast::<c_void>()) })
    };
    let mut buffer = [0; 64];
    buffer[..4].copy_from_slice(b"four");
    assert_eq!(control(COUNT, &mut buffer), Ok(7));
    assert_eq!(buffer[..5], [4, 0, 0, 0, 0]);
    assert_eq!(control(LENGTH, &mut buffer), Ok(7));
    assert_eq!(buffer[..4], [4, 0, 0, 0]);
    assert_eq!(control(LENGTH + 9, &mut buffer), Err(25));
    drop(file);
    let mut options = File::options();
    options.read(true).write(true).mode(0o600).custom_flags(O_TMPFILE);
    let mut unnamed = options.open(&folder.0).unwrap();
    unnamed.write_all(b"no name").unwrap();
    let mut data = String::new();
    unnamed.read_to_string(&mut data).unwrap();
    let mut data = [0; 7];
    unnamed.read_exact_at(&mut data, 0).unwrap();
    assert_eq!((&data, unnamed.metadata().unwrap().nlink()), (b"no name", 0));
    assert_eq!(files.state().forgotten, 0);
    drop(unnamed);
    assert!(comes(|| files.state().forgotten > 0));
    mounted.unmount().unwrap();
}
