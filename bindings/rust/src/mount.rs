//! Mounts over `/dev/fuse`.
#![forbid(unsafe_code)]

use crate::errno::Errno;
use crate::file_system::FileSystem;
use crate::notifier::Notifier;
use crate::server::Server;
use crate::system;
use std::ffi::{CStr, CString, OsStr};
use std::fs::{canonicalize, metadata, File};
use std::io::{self, ErrorKind};
use std::ops::Deref;
use std::os::unix::ffi::OsStrExt;
use std::os::unix::fs::{MetadataExt, OpenOptionsExt};
use std::os::unix::io::{AsRawFd, OwnedFd};
use std::os::unix::net::UnixStream;
use std::panic::resume_unwind;
use std::path::{Path, PathBuf};
use std::process::{Child, Command, Output, Stdio};
use std::sync::atomic::{AtomicBool, Ordering};
use std::sync::Arc;
use std::thread::{self, JoinHandle};

/// An option of a mount. The names are those of the crate fuser, which mean the same there. Without any a
/// mount is writable, is for the user who mounts, has no devices and no set-user-ID programs, and is served
/// by one thread.
#[non_exhaustive]
#[derive(Clone, Debug, PartialEq, Eq)]
pub enum MountOption {
    /// The name of the file system, which `mount(8)` lists. It is `nizwarf` by default.
    FSName(String),
    /// The type is `fuse.` and this.
    Subtype(String),
    /// All users may use the mount. If another user than root mounts, `/etc/fuse.conf` must allow this.
    AllowOther,
    /// The kernel checks permissions, by the modes and owners of [`Attr`](crate::Attr). Without it the file
    /// system does.
    DefaultPermissions,
    /// Nothing can be written.
    RO,
    /// Programs cannot be run.
    NoExec,
    /// Reading does not change the time of the last access.
    NoAtime,
    /// Devices can be used. Only root may set this.
    Dev,
    /// Set-user-ID programs have their effect. Only root may set this.
    Suid,
    /// Writes are synchronous.
    Sync,
    /// Changes of directories are synchronous.
    DirSync,
    /// It is unmounted when this process ends for any reason: by `fusermount3`, which root needs for this,
    /// too.
    AutoUnmount,
    /// The number of threads that serve the mount: at least one.
    Threads(usize),
}

impl MountOption {
    /// Its option of `mount(8)`, and its flag of `mount(2)`.
    fn flag(&self) -> Option<(&'static str, u64)> {
        Some(match self {
            MountOption::RO => ("ro", 1),
            MountOption::NoExec => ("noexec", 8),
            MountOption::Sync => ("sync", 16),
            MountOption::DirSync => ("dirsync", 128),
            MountOption::NoAtime => ("noatime", 1024),
            _ => return None,
        })
    }

    /// Its option for the kernel's FUSE.
    fn word(&self) -> Option<&'static str> {
        match self {
            MountOption::AllowOther => Some("allow_other"),
            MountOption::DefaultPermissions => Some("default_permissions"),
            _ => None,
        }
    }
}

/// Mounts a file system on a folder, or a file, and serves it until it is unmounted, by `umount(8)` or
/// `fusermount3 -u`, and no other mount namespace has a copy of the mount.
///
/// Root mounts by `mount(2)`. Others, and root if that is not permitted, need the program `fusermount3`.
///
/// A signal that ends the process leaves a mount on which all operations fail, and which must be unmounted by
/// hand. So a program should mount with [`MountOption::AutoUnmount`], or handle its signals and call
/// [`Mounted::unmount`].
///
/// ```no_run
/// use nizwarf::{mount, FileSystem, MountOption, NoEntries};
///
/// struct Nothing;
///
/// impl FileSystem for Nothing {
///     type Inode = u64;
///     type Handle = u64;
///     type DirIter = NoEntries;
/// }
///
/// mount(Nothing, "/mnt", &[MountOption::RO, MountOption::FSName("nothing".into())])?;
/// # Ok::<(), std::io::Error>(())
/// ```
///
/// # Errors
/// If it cannot be mounted, or as [`Server::serve`].
///
/// # Panics
/// If a call panics: the folder is unmounted then.
pub fn mount<F: FileSystem + Sync>(
    file_system: F, folder: impl AsRef<Path>, options: &[MountOption],
) -> io::Result<()> {
    Server::new(file_system).mount(folder, options)
}

/// Mounts a file system as [`mount()`] does, and serves it in the background.
///
/// # Errors
/// If it cannot be mounted.
pub fn spawn_mount<F: FileSystem + Send + Sync + 'static>(
    file_system: F, folder: impl AsRef<Path>, options: &[MountOption],
) -> io::Result<Mounted> {
    Server::new(file_system).spawn_mount(folder, options)
}

impl<F: FileSystem + Sync> Server<F> {
    /// Mounts the file system, and serves it until it is unmounted, as [`mount()`](crate::mount()).
    ///
    /// # Errors
    /// If it cannot be mounted, or as [`serve`](Self::serve).
    ///
    /// # Panics
    /// If a call panics, and [`catch_panics`](Self::catch_panics) is not set: the folder is unmounted then.
    pub fn mount(&self, folder: impl AsRef<Path>, options: &[MountOption]) -> io::Result<()> {
        let point = Point::new(folder.as_ref(), options)?;
        self.serve_at(&point, threads(options))
    }

    /// Mounts the file system, and serves it in the background, as [`spawn_mount`](crate::spawn_mount).
    ///
    /// # Errors
    /// If it cannot be mounted.
    pub fn spawn_mount(self, folder: impl AsRef<Path>, options: &[MountOption]) -> io::Result<Mounted>
    where
        F: Send + 'static,
    {
        let point = Arc::new(Point::new(folder.as_ref(), options)?);
        let (at, count) = (Arc::clone(&point), threads(options));
        let server = thread::Builder::new().spawn(move || self.serve_at(&at, count))?;
        Ok(Mounted { mount: Ends(point), server })
    }

    /// Serves a mount on `count` threads. The first that fails ends it.
    pub(crate) fn serve_at(&self, point: &Point, count: usize) -> io::Result<()> {
        let serve = || {
            let _ends = Ends(point);
            self.serve_shared(&point.device)
        };
        thread::scope(|scope| {
            let begin = |_| thread::Builder::new().spawn_scoped(scope, serve);
            let others = (1..count).map(begin).collect::<io::Result<Vec<_>>>();
            if others.is_err() {
                // The threads that have begun end with the mount.
                let _ = point.unmount();
            }
            let (others, first) = (others?, serve());
            let join = |other: thread::ScopedJoinHandle<'_, _>| {
                other.join().unwrap_or_else(|panic| resume_unwind(panic))
            };
            others.into_iter().map(join).fold(first, Result::and)
        })
    }
}

fn threads(options: &[MountOption]) -> usize {
    let count = options.iter().rev().find_map(|option| match option {
        MountOption::Threads(count) => Some(*count),
        _ => None,
    });
    count.unwrap_or(1)
}

/// A mount that is served in the background. It is unmounted when this is dropped; if it is in use, it
/// disappears when its last user ends.
///
/// ```no_run
/// # use nizwarf::{FileSystem, NoEntries};
/// # struct Nothing;
/// # impl FileSystem for Nothing {
/// #     type Inode = u64;
/// #     type Handle = u64;
/// #     type DirIter = NoEntries;
/// # }
/// let mounted = nizwarf::spawn_mount(Nothing, "/mnt", &[])?;
/// assert!(std::fs::read("/mnt/hello").is_err());
/// mounted.unmount()?;
/// # Ok::<(), std::io::Error>(())
/// ```
#[must_use = "it is unmounted when this is dropped"]
#[derive(Debug)]
pub struct Mounted {
    mount: Ends<Arc<Point>>,
    server: JoinHandle<io::Result<()>>,
}

impl Mounted {
    getters! {
        /// Returns the path of the folder.
        folder: &Path = |it| &it.mount.0.folder;
        /// Returns a notifier for the client of this mount.
        notifier: Notifier = |it| Notifier::new(Arc::downgrade(&it.mount.0.device));
    }

    /// Blocks until it is unmounted.
    ///
    /// # Errors
    /// As [`Server::serve`].
    ///
    /// # Panics
    /// If a call panicked.
    pub fn join(self) -> io::Result<()> {
        self.server.join().unwrap_or_else(|panic| resume_unwind(panic))
    }

    /// Unmounts it, and waits for its last user.
    ///
    /// # Errors
    /// If it cannot be unmounted, or as [`Server::serve`].
    ///
    /// # Panics
    /// If a call panicked.
    pub fn unmount(self) -> io::Result<()> {
        self.mount.0.unmount()?;
        self.join()
    }
}

/// Unmounts when it is dropped.
#[derive(Debug)]
pub(crate) struct Ends<P: Deref<Target = Point>>(pub P);

impl<P: Deref<Target = Point>> Drop for Ends<P> {
    fn drop(&mut self) {
        // An error cannot be reported to anybody.
        let _ = self.0.unmount();
    }
}

/// The place of a mount, by which only this mount is unmounted. Somebody with write access to a folder above
/// could rename the folder in the meantime, replace it by a link, or mount another file system there.
#[derive(Debug)]
struct Place {
    /// The directory above, wherever that is now, and the name in it.
    above: File,
    name: CString,
    /// The mounts that the name leads to, before this mount and after it. `None` if unknown.
    before: Option<u64>,
    own: Option<u64>,
}

impl Place {
    /// Resolves the path. Returns `None` if this fails, for example without `/proc`.
    fn new(whole: &Path) -> Option<Self> {
        const O_PATH: i32 = 0o10_000_000;
        metadata("/proc/self/fd").ok()?;
        // (only the path of the root has no name)
        let name = whole.file_name().unwrap_or_else(|| OsStr::new("."));
        let name = c_string(name.as_bytes()).ok()?;
        let folder = whole.parent().unwrap_or(whole);
        let above = File::options().read(true).custom_flags(O_PATH).open(folder).ok()?;
        let before = system::number_of_mount(&above, &name);
        Some(Place { above, name, before, own: None })
    }

    fn number(&self) -> Option<u64> {
        system::number_of_mount(&self.above, &self.name)
    }

    /// A path of the directory above, even if that was renamed.
    fn directory(&self) -> String {
        format!("/proc/self/fd/{}", self.above.as_raw_fd())
    }

    fn path(&self) -> io::Result<CString> {
        let mut path = self.directory().into_bytes();
        path.push(b'/');
        path.extend(self.name.as_bytes());
        c_string(&path)
    }

    /// Whether this mount is the one at the place, as far as this is known. False if no file system is
    /// mounted there. An error if another one is.
    fn is_mounted(&self) -> io::Result<bool> {
        match (self.own, self.number()) {
            (Some(own), Some(there)) if own != there => {
                let other = "another file system is mounted there";
                let error = || io::Error::new(ErrorKind::Other, other);
                if self.before == Some(there) {
                    Ok(false)
                } else {
                    Err(error())
                }
            }
            _ => Ok(true),
        }
    }
}

/// A folder on which a device is mounted.
#[derive(Debug)]
pub(crate) struct Point {
    folder: PathBuf,
    /// `None` if unknown.
    place: Option<Place>,
    pub device: Arc<File>,
    /// The program that mounted it, unless this process did as root.
    helper: Option<Helper>,
    is_mounted: AtomicBool,
}

/// The program that mounted.
#[derive(Debug)]
struct Helper {
    name: &'static str,
    /// Its process and the socket, if it waits for the end of this process, which closes the socket.
    waits: Option<(Child, UnixStream)>,
}

impl Point {
    pub fn new(folder: &Path, options: &[MountOption]) -> io::Result<Self> {
        let of_folder = |error| named(folder.display(), &error);
        let whole = canonicalize(folder).map_err(of_folder)?;
        let mode = metadata(&whole).map_err(of_folder)?.mode();
        let mut place = Place::new(&whole);
        let is_own = !options.contains(&MountOption::AutoUnmount);
        let own = if is_own && system::user_and_group().0 == 0 {
            Some(mount_as_root(&path_of(&whole, place.as_ref())?, mode, options))
        } else {
            None
        };
        let (device, helper) = match own {
            Some(Ok(device)) => (device, None),
            Some(Err(error)) if !Errno::EPERM.is(&error) => return Err(of_folder(error)),
            _ => {
                let (device, helper) = mount_by_helper(&whole, options)?;
                (device, Some(helper))
            }
        };
        if let Some(place) = &mut place {
            place.own = place.number();
        }
        let device = Arc::new(device);
        Ok(Point { folder: whole, place, device, helper, is_mounted: AtomicBool::new(true) })
    }

    /// A device that another program has mounted, and unmounts.
    pub fn of_other(device: File) -> Self {
        let (folder, is_mounted) = (PathBuf::new(), AtomicBool::new(false));
        Point { folder, place: None, device: Arc::new(device), helper: None, is_mounted }
    }

    /// Unmounts, once, and only if it is still mounted.
    pub fn unmount(&self) -> io::Result<()> {
        let was_mounted = self.is_mounted.swap(false, Ordering::AcqRel);
        if !was_mounted || !system::is_connected(&self.device) {
            return Ok(());
        }
        let of_folder = |error| named(self.folder.display(), &error);
        if !self.place.as_ref().map_or(Ok(true), Place::is_mounted).map_err(of_folder)? {
            return Ok(());
        }
        match &self.helper {
            None => system::unmount(&path_of(&self.folder, self.place.as_ref())?).map_err(of_folder),
            Some(Helper { name, .. }) => {
                let mut command = Command::new(name);
                command.args(["-u", "-q", "-z", "--"]);
                match &self.place {
                    // The directory may have been renamed.
                    Some(place) => {
                        command.current_dir(place.directory()).arg(OsStr::from_bytes(place.name.as_bytes()))
                    }
                    None => command.arg(&self.folder),
                };
                succeeded(name, &command.output()?)
            }
        }
    }
}

impl Drop for Point {
    fn drop(&mut self) {
        // An error cannot be reported to anybody.
        let _ = self.unmount();
        if let Some((mut helper, socket)) = self.helper.as_mut().and_then(|it| it.waits.take()) {
            drop(socket);
            let _ = helper.wait();
        }
    }
}

/// A path of a folder: by its place, if that is known.
fn path_of(folder: &Path, place: Option<&Place>) -> io::Result<CString> {
    place.map_or_else(|| c_string(folder.as_os_str().as_bytes()), Place::path)
}

/// Mounts as root. Returns the device.
fn mount_as_root(folder: &CStr, mode: u32, options: &[MountOption]) -> io::Result<File> {
    const MS_NOSUID: u64 = 2;
    const MS_NODEV: u64 = 4;
    let device = File::options().read(true).write(true).open("/dev/fuse");
    let device = device.map_err(|error| named("/dev/fuse", &error))?;
    let (user, group) = system::user_and_group();
    // (the kernel accepts only the type of the mode)
    let mut data =
        format!("fd={},rootmode={:o},user_id={user},group_id={group}", device.as_raw_fd(), mode & 0o170_000);
    for word in options.iter().filter_map(MountOption::word) {
        data.push(',');
        data.push_str(word);
    }
    let mut flags = options.iter().filter_map(MountOption::flag).fold(0, |all, (_, flag)| all | flag);
    flags |= if options.contains(&MountOption::Suid) { 0 } else { MS_NOSUID };
    flags |= if options.contains(&MountOption::Dev) { 0 } else { MS_NODEV };
    let (source, subtype) = names(options);
    let kind = subtype.map_or_else(|| "fuse".into(), |subtype| format!("fuse.{subtype}"));
    system::mount_on(
        &c_string(source.as_bytes())?,
        folder,
        &c_string(kind.as_bytes())?,
        flags,
        &c_string(data.as_bytes())?,
    )?;
    Ok(device)
}

/// Mounts by `fusermount3`, or by an older `fusermount`. Returns the device, which the program sends.
fn mount_by_helper(folder: &Path, options: &[MountOption]) -> io::Result<(File, Helper)> {
    let mut missing = None;
    for name in ["fusermount3", "fusermount"] {
        let (ours, theirs) = UnixStream::pair()?;
        let mut command = Command::new(name);
        command.arg("-o").arg(helper_words(options)).arg("--").arg(folder);
        // It finds the other end of the socket at its standard input.
        command.stdin(OwnedFd::from(theirs)).env("_FUSE_COMMFD", "0").stderr(Stdio::piped());
        let helper = match command.spawn() {
            Err(error) if error.kind() == ErrorKind::NotFound => {
                missing.get_or_insert_with(|| named(name, &error));
                continue;
            }
            helper => helper?,
        };
        drop(command); // it has their end of the socket
        return match system::receive(&ours)? {
            Some(device) if options.contains(&MountOption::AutoUnmount) => {
                Ok((device, Helper { name, waits: Some((helper, ours)) }))
            }
            device => {
                succeeded(name, &helper.wait_with_output()?)?;
                let none = || io::Error::new(ErrorKind::Other, format!("{name} gave no device"));
                Ok((device.ok_or_else(none)?, Helper { name, waits: None }))
            }
        };
    }
    Err(missing.unwrap_or_else(|| ErrorKind::NotFound.into()))
}

/// The options for `fusermount3`.
fn helper_words(options: &[MountOption]) -> String {
    let (source, subtype) = names(options);
    let mut words = vec![format!("fsname={}", escaped(source))];
    words.extend(subtype.map(|subtype| format!("subtype={}", escaped(subtype))));
    words.extend(options.iter().filter_map(|option| match option {
        MountOption::Dev => Some("dev".into()),
        MountOption::Suid => Some("suid".into()),
        MountOption::AutoUnmount => Some("auto_unmount".into()),
        other => other.word().or_else(|| Some(other.flag()?.0)).map(String::from),
    }));
    words.join(",")
}

/// The value of an option, with commas escaped because a comma ends an option.
fn escaped(word: &str) -> String {
    word.replace('\\', "\\\\").replace(',', "\\,")
}

/// The source, and the subtype.
fn names(options: &[MountOption]) -> (&str, Option<&str>) {
    let (mut source, mut subtype) = ("nizwarf", None);
    for option in options {
        match option {
            MountOption::FSName(name) => source = name,
            MountOption::Subtype(name) => subtype = Some(name.as_str()),
            _ => {}
        }
    }
    (source, subtype)
}

/// An error with the name of its file or program.
fn named(what: impl std::fmt::Display, error: &io::Error) -> io::Error {
    io::Error::new(error.kind(), format!("{what}: {error}"))
}

fn c_string(bytes: &[u8]) -> io::Result<CString> {
    let of_bytes = || format!("{:?} contains a NUL byte", OsStr::from_bytes(bytes));
    CString::new(bytes).map_err(|_| io::Error::new(ErrorKind::InvalidInput, of_bytes()))
}

/// Returns an error with the messages of a program if that failed.
fn succeeded(helper: &str, output: &Output) -> io::Result<()> {
    if output.status.success() {
        return Ok(());
    }
    let said = String::from_utf8_lossy(&output.stderr);
    let said = if said.trim().is_empty() { output.status.to_string() } else { said.trim().into() };
    let said = if said.starts_with(helper) { said } else { format!("{helper}: {said}") };
    Err(io::Error::new(ErrorKind::Other, said))
}
