//! Mounts. They need root and /dev/fuse: without them nothing is tested, as the output says.

#[macro_use]
#[path = "common/folder.rs"]
mod folder;

use folder::{comes, number};
use nizwarf::{
    mount, spawn_mount, Attr, Context, Entry, Errno, FileSystem, FsOptions, GetxattrReply, ListxattrReply,
    MountOption, NoEntries, Server, SetattrIn, SetattrValid, ZeroCopyReader, ZeroCopyWriter, ROOT_ID,
};
use std::ffi::{c_void, CStr, CString};
use std::fs;
use std::io;
use std::os::raw::c_char;
use std::os::unix::ffi::OsStrExt;
use std::path::Path;
use std::process::{Command, Stdio};
use std::sync::atomic::{AtomicU32, AtomicUsize, Ordering};
use std::sync::{Arc, Mutex};
use std::time::Duration;

/// The state of the file system of a mount.
#[derive(Default)]
struct State {
    text: Mutex<Vec<u8>>,
    /// The user of the last GETATTR.
    uid: AtomicU32,
    ended: AtomicUsize,
}

/// A root with a file, `text`, which can be written, and files that give odd answers. It has no OPEN.
#[derive(Clone, Default)]
struct Odd(Arc<State>);

const TEXT: u64 = 2;
const LINK: u64 = 3;
const PANIC: u64 = 4;
/// Reading a file of this and a later number fails with one of these.
const BROKEN: u64 = 10;
const NUMBERS: [i32; 6] = [512, 524, 600, 0, -5, i32::MAX];

impl Odd {
    fn with_text() -> Self {
        let odd = Odd::default();
        *odd.0.text.lock().unwrap() = b"0123456789".to_vec();
        odd
    }
}

impl FileSystem for Odd {
    type Inode = u64;
    type Handle = u64;
    type DirIter = NoEntries;

    /// Wants only that the file system applies the umask.
    fn init(&self, capable: FsOptions) -> io::Result<FsOptions> {
        Ok(capable & FsOptions::DONT_MASK)
    }

    fn destroy(&self) {
        self.0.ended.fetch_add(1, Ordering::Relaxed);
    }

    fn lookup(&self, ctx: Context, _: u64, name: &CStr) -> io::Result<Entry> {
        let inode = match name.to_str().unwrap_or_default() {
            "text" => TEXT,
            "link" => LINK,
            "panic" => PANIC,
            name => name.parse().map_err(|_| Errno::ENOENT)?,
        };
        let (attr, _) = self.getattr(ctx, inode, None)?;
        Ok(Entry { inode, attr, ..Entry::default() })
    }

    fn getattr(&self, ctx: Context, inode: u64, _: Option<u64>) -> io::Result<(Attr, Duration)> {
        self.0.uid.store(ctx.uid, Ordering::Relaxed);
        assert_ne!(inode, PANIC);
        let (mode, size) = match inode {
            ROOT_ID => (0o40_777, 0),
            LINK => (0o120_777, 5000),
            TEXT => (0o100_666, self.0.text.lock().unwrap().len() as u64),
            _ => (0o100_666, 10),
        };
        Ok((Attr { ino: inode, mode, nlink: 1, size, ..Attr::default() }, Duration::ZERO))
    }

    fn setattr(
        &self, ctx: Context, inode: u64, attr: SetattrIn, _: Option<u64>, valid: SetattrValid,
    ) -> io::Result<(Attr, Duration)> {
        if valid.contains(SetattrValid::SIZE) {
            self.0.text.lock().unwrap().resize(usize::try_from(attr.size).unwrap(), 0);
        }
        self.getattr(ctx, inode, None)
    }

    fn readlink(&self, _: Context, _: u64) -> io::Result<Vec<u8>> {
        Ok(vec![b'x'; 5000])
    }

    fn read<W: ZeroCopyWriter>(
        &self, _: Context, inode: u64, _: u64, mut w: W, size: u32, offset: u64, _: Option<u64>, _: u32,
    ) -> io::Result<usize> {
        if let Some(number) = usize::try_from(inode - TEXT).ok().filter(|at| *at >= 8) {
            return Err(io::Error::from_raw_os_error(NUMBERS[number - 8]));
        }
        let text = self.0.text.lock().unwrap();
        let left = text.get(usize::try_from(offset).unwrap()..).unwrap_or_default();
        let left = &left[..left.len().min(size as usize)];
        w.write_all(left).map(|()| left.len())
    }

    fn write<R: ZeroCopyReader>(
        &self, _: Context, _: u64, _: u64, mut r: R, _: u32, offset: u64, _: Option<u64>, _: bool, _: bool,
        _: u32,
    ) -> io::Result<usize> {
        let (mut text, mut data) = (self.0.text.lock().unwrap(), Vec::new());
        let at = usize::try_from(offset).unwrap();
        let len = r.read_to_end(&mut data)?;
        if text.len() < at + len {
            text.resize(at + len, 0);
        }
        text[at..at + len].copy_from_slice(&data);
        Ok(len)
    }

    fn getxattr(&self, _: Context, _: u64, name: &CStr, _: u32) -> io::Result<GetxattrReply> {
        Ok(match name.to_bytes() {
            b"user.long" => GetxattrReply::Value(vec![1; 200]),
            b"user.longest" => GetxattrReply::Value(vec![1; 3 << 20]),
            b"user.value" => GetxattrReply::Value(b"value".to_vec()),
            b"user.count" => GetxattrReply::Count(5),
            _ => return Err(Errno::ENODATA.into()),
        })
    }

    fn listxattr(&self, _: Context, _: u64, _: u32) -> io::Result<ListxattrReply> {
        Ok(ListxattrReply::Names(vec![b'n'; 3 << 20]))
    }
}

extern "C" {
    fn getxattr(path: *const c_char, name: *const c_char, to: *mut c_void, size: usize) -> isize;
    fn listxattr(path: *const c_char, to: *mut c_char, size: usize) -> isize;
}

/// Returns the length of an attribute that is requested with a size, or the number of the error.
fn attribute(path: &Path, name: &str, size: usize) -> Result<usize, i32> {
    let path = CString::new(path.as_os_str().as_bytes()).unwrap();
    let name_of = CString::new(name).unwrap();
    let mut buffer = vec![0_u8; size];
    // SAFETY: the strings end with a NUL, and the buffer has this size.
    let len = unsafe {
        if name.is_empty() {
            listxattr(path.as_ptr(), buffer.as_mut_ptr().cast(), size)
        } else {
            getxattr(path.as_ptr(), name_of.as_ptr(), buffer.as_mut_ptr().cast(), size)
        }
    };
    usize::try_from(len).map_err(|_| io::Error::last_os_error().raw_os_error().unwrap())
}

#[test]
fn no_answer_ends_a_mount() {
    let folder = folder!("answers");
    let files = Odd::with_text();
    let options = [MountOption::Threads(3)];
    let mounted = spawn_mount(files.clone(), &folder.0, &options).unwrap();
    let text = mounted.folder().join("text");
    for (at, answered) in (BROKEN..).zip(NUMBERS) {
        let read = fs::read(folder.0.join(at.to_string()));
        assert_eq!(number(read), Some(5), "the error {answered}");
        assert_eq!(fs::read(&text).unwrap(), b"0123456789");
    }
    assert_eq!(number(fs::read_link(folder.0.join("link"))), Some(5));
    for (name, size, expected) in [
        ("user.long", 128, Err(34)),
        ("user.long", 200, Ok(200)),
        ("user.long", 0, Ok(200)),
        ("user.longest", 128, Err(34)),
        // Linux turns ERANGE into E2BIG for the largest size that there is.
        ("user.longest", 65536, Err(7)),
        ("user.value", 9, Ok(5)),
        ("user.count", 0, Ok(5)),
        ("user.count", 9, Err(5)),
        ("", 128, Err(34)),
        ("", 65536, Err(7)),
        ("user.none", 9, Err(61)),
    ] {
        assert_eq!(attribute(&text, name, size), expected, "{name} {size}");
    }
    assert_eq!(fs::read(&text).unwrap(), b"0123456789");
    assert_eq!(files.0.ended.load(Ordering::Relaxed), 0);
    mounted.unmount().unwrap();
    assert_eq!(files.0.ended.load(Ordering::Relaxed), 1);
    assert_eq!(folder.line(), None);
}

#[test]
fn without_open_a_file_is_truncated_and_the_caller_is_known() {
    let folder = folder!("truncation");
    let files = Odd::with_text();
    // Without DefaultPermissions, too, Linux mounts it.
    let mounted = spawn_mount(files.clone(), &folder.0, &[]).unwrap();
    fs::write(folder.0.join("text"), "ab\n").unwrap();
    assert_eq!(*files.0.text.lock().unwrap(), b"ab\n");
    assert_eq!(files.0.uid.load(Ordering::Relaxed), 0);
    drop(mounted);
    assert_eq!(folder.line(), None);
}

#[test]
fn options_are_those_of_the_mount() {
    let folder = folder!("options");
    for (options, words) in [
        (vec![], vec!["rw,", "nosuid,nodev,", " - fuse nizwarf "]),
        (
            vec![
                MountOption::FSName("a,b c".into()),
                MountOption::Subtype("odd".into()),
                MountOption::RO,
                MountOption::NoExec,
                MountOption::NoAtime,
                MountOption::AllowOther,
                MountOption::DefaultPermissions,
            ],
            vec![
                "ro,nosuid,nodev,noexec,noatime",
                " - fuse.odd a,b\\040c ",
                "allow_other",
                "default_permissions",
            ],
        ),
        (vec![MountOption::Dev, MountOption::Suid], vec![" rw,relatime "]),
    ] {
        let mounted = spawn_mount(Odd::default(), &folder.0, &options).unwrap();
        let line = folder.line().unwrap();
        for word in words {
            assert!(line.contains(word), "{word} is not in {line}");
        }
        mounted.unmount().unwrap();
    }
    // What can't be mounted says why.
    let none = folder.0.join("none");
    let error = mount(Odd::default(), &none, &[]).unwrap_err();
    assert_eq!(error.kind(), io::ErrorKind::NotFound);
    assert!(error.to_string().starts_with(&format!("{}: ", none.display())), "{error}");
    let name = MountOption::FSName("a\0".into());
    let error = mount(Odd::default(), &folder.0, &[name]).unwrap_err();
    assert!(error.to_string().contains("contains a NUL byte"), "{error}");
}

#[test]
fn a_panic_ends_a_mount_after_its_caller_is_answered() {
    let folder = folder!("panic");
    for catches in [true, false] {
        let server = Server::new(Odd::default()).catch_panics(catches);
        let mounted = server.spawn_mount(&folder.0, &[MountOption::Threads(2)]).unwrap();
        assert_eq!(number(fs::metadata(folder.0.join("panic"))), Some(5));
        if catches {
            assert!(fs::metadata(folder.0.join("text")).is_ok());
            mounted.unmount().unwrap();
        } else {
            let ended = std::panic::catch_unwind(std::panic::AssertUnwindSafe(|| mounted.join()));
            assert!(ended.is_err());
        }
        assert_eq!(folder.line(), None);
    }
}

#[test]
fn what_is_unmounted_is_what_was_mounted() {
    let folder = folder!("place");
    let (above, moved, other) = (folder.0.join("above"), folder.0.join("moved"), folder.0.join("other"));
    let point = above.join("point");
    let is_mounted = |path: &Path| {
        let lines = fs::read_to_string("/proc/self/mountinfo").unwrap();
        lines.contains(&format!(" {} ", path.display()))
    };
    let run = |program: &str, words: &[&str], path: &Path| {
        assert!(Command::new(program).args(words).arg(path).status().unwrap().success(), "{program}");
    };
    let cover = |path: &Path| run("mount", &["-t", "tmpfs", "none"], path);
    fs::create_dir_all(&point).unwrap();
    fs::create_dir_all(other.join("point")).unwrap();
    let has_helper = Command::new("fusermount3").arg("-V").output().is_ok();
    for options in [vec![], vec![MountOption::AutoUnmount]] {
        if !options.is_empty() && !has_helper {
            eprintln!("place: fusermount3 is not installed.");
            continue;
        }
        // A link takes the place of the folder above.
        let mounted = spawn_mount(Odd::default(), &point, &options).unwrap();
        cover(&other.join("point"));
        fs::rename(&above, &moved).unwrap();
        std::os::unix::fs::symlink(&other, &above).unwrap();
        drop(mounted);
        assert!(is_mounted(&other.join("point")) && !is_mounted(&moved.join("point")));
        run("umount", &[], &other.join("point"));
        fs::remove_file(&above).unwrap();
        fs::rename(&moved, &above).unwrap();
    }
    // Something else is mounted over it.
    let mounted = spawn_mount(Odd::default(), &point, &[]).unwrap();
    cover(&point);
    let error = mounted.unmount().unwrap_err();
    assert!(error.to_string().contains("another file system is mounted there"), "{error}");
    let kind = Command::new("stat").args(["-f", "-c", "%T"]).arg(&point).output().unwrap().stdout;
    assert_eq!(String::from_utf8_lossy(&kind).trim(), "tmpfs");
    run("umount", &[], &point);
    run("umount", &["-l"], &point);
    for path in [other.join("point"), other, point, above] {
        fs::remove_dir(path).unwrap();
    }
}

/// A word for a second process of this program, which mounts on this folder.
const MOUNTS: &str = "NIZWARF_MOUNTS";

#[test]
fn a_mount_ends_with_its_process() {
    if let Some(folder) = std::env::var_os(MOUNTS) {
        let options = [MountOption::AutoUnmount, MountOption::FSName("a,b".into())];
        return mount(Odd::default(), folder, &options).unwrap();
    }
    let folder = folder!("process");
    if Command::new("fusermount3").arg("-V").output().is_err() {
        return eprintln!("process: fusermount3 is not installed.");
    }
    let wait = |is_mounted: bool| {
        let is_so = comes(|| folder.line().is_some() == is_mounted);
        assert!(is_so, "it is not {is_mounted} that it is mounted");
    };
    for is_killed in [true, false] {
        let mut command = Command::new(std::env::current_exe().unwrap());
        let mut process = command
            .args(["--exact", "a_mount_ends_with_its_process"])
            .env(MOUNTS, &folder.0)
            .stdout(Stdio::null())
            .spawn()
            .unwrap();
        wait(true);
        assert!(folder.line().unwrap().contains(" - fuse a,b "));
        assert!(fs::metadata(folder.0.join("text")).is_ok());
        if is_killed {
            process.kill().unwrap();
        } else {
            assert!(Command::new("umount").arg(&folder.0).status().unwrap().success());
        }
        assert_eq!(process.wait().unwrap().success(), !is_killed);
        wait(false);
    }
}
