//! Sessions, as fuser has them.

use crate::client::Client;
use crate::device::Buffers;
use crate::errno::Errno;
use crate::flags::FsOptions;
use crate::fuser::adapter::Adapter;
use crate::fuser::config::{Config, SessionACL};
use crate::fuser::filesystem::Filesystem;
use crate::fuser::notify::Notifier;
use crate::mount::{Ends, Point};
use crate::notifier::Notifier as Own;
use crate::server::Server;
use std::fs::File;
use std::io;
use std::os::unix::io::{AsFd, BorrowedFd, OwnedFd};
use std::panic::{catch_unwind, AssertUnwindSafe};
use std::path::Path;
use std::sync::{Arc, Weak};
use std::thread::{self, JoinHandle};

/// Mounts a file system on a folder, and serves it until it is unmounted.
///
/// # Errors
/// If the options contradict each other or it cannot be mounted, the error of [`Filesystem::init`], and
/// errors of reading and writing the device. A panic of the file system is an error, too.
pub fn mount2<FS: Filesystem, P: AsRef<Path>>(
    filesystem: FS, mountpoint: P, options: &Config,
) -> io::Result<()> {
    Session::new(filesystem, mountpoint, options)?.run()
}

/// Mounts a file system as [`mount2`] does, and serves it in the background.
///
/// # Errors
/// As [`Session::new`].
pub fn spawn_mount2<FS: Filesystem, P: AsRef<Path>>(
    filesystem: FS, mountpoint: P, options: &Config,
) -> io::Result<BackgroundSession> {
    Session::new(filesystem, mountpoint, options)?.spawn()
}

/// A file system that is mounted, and not served yet. It is unmounted when this is dropped.
#[derive(Debug)]
pub struct Session<FS: Filesystem> {
    server: Server<Adapter<FS>>,
    mount: Ends<Arc<Point>>,
    threads: usize,
}

/// Options that are agreed on even if the file system does not want them, as fuser does.
const ALWAYS_AGREED: FsOptions = FsOptions::from_bits_truncate(
    FsOptions::ASYNC_READ.bits()
        | FsOptions::BIG_WRITES.bits()
        | FsOptions::MAX_PAGES.bits()
        | FsOptions::INIT_EXT.bits(),
);

impl<FS: Filesystem> Session<FS> {
    /// Mounts a file system, and begins its session.
    ///
    /// # Errors
    /// If the options contradict each other or it cannot be mounted, and the error of [`Filesystem::init`].
    pub fn new<P: AsRef<Path>>(filesystem: FS, mountpoint: P, options: &Config) -> io::Result<Session<FS>> {
        let threads = options.threads()?;
        let point = Point::new(mountpoint.as_ref(), &options.own_options()?)?;
        Self::begin(filesystem, point, options.acl, threads)
    }

    /// Begins the session of a device that another program has mounted. It must return one request for each
    /// read.
    ///
    /// # Errors
    /// If the configuration is wrong, and the error of [`Filesystem::init`].
    #[allow(clippy::needless_pass_by_value)] // as fuser has it
    pub fn from_fd(filesystem: FS, fd: OwnedFd, acl: SessionACL, config: Config) -> io::Result<Self> {
        let threads = config.threads()?;
        Self::begin(filesystem, Point::of_other(File::from(fd)), acl, threads)
    }

    fn begin(filesystem: FS, point: Point, acl: SessionACL, threads: usize) -> io::Result<Session<FS>> {
        let max_write = crate::codec::Session::default().max_buffer();
        let adapter = Adapter::new(filesystem, acl, max_write);
        let server = Server::new(adapter).always_agree(ALWAYS_AGREED);
        let session = Session { server, mount: Ends(Arc::new(point)), threads };
        session.shake_hands()?;
        Ok(session)
    }

    /// Serves requests up to the INIT.
    fn shake_hands(&self) -> io::Result<()> {
        let (device, adapter) = (&self.mount.0.device, self.server.file_system());
        let client = Client::new(device, &self.server.interrupts);
        let mut buffers = Buffers::new(&self.server.session());
        while !adapter.has_begun()? {
            if !self.server.serve_next(device, &client, &mut buffers, |it| adapter.see(it))? {
                return Err(Errno::ENOTCONN.into());
            }
        }
        Ok(())
    }

    /// Serves it until it is unmounted.
    pub(super) fn run(self) -> io::Result<()> {
        let serve = || self.server.serve_at(&self.mount.0, self.threads);
        // No part of it is used after a panic.
        catch_unwind(AssertUnwindSafe(serve)).unwrap_or_else(|_| Err(panicked()))
    }

    /// Serves it in the background.
    ///
    /// # Errors
    /// If no thread can be created.
    pub fn spawn(self) -> io::Result<BackgroundSession> {
        let mount = Ends(Arc::clone(&self.mount.0));
        let guard = thread::Builder::new().spawn(move || self.run())?;
        Ok(BackgroundSession { guard, mount })
    }

    /// Unmounts it.
    ///
    /// # Errors
    /// If it cannot be unmounted.
    pub fn unmount(&mut self) -> io::Result<()> {
        self.mount.0.unmount()
    }

    /// Returns an object that unmounts it, on any thread.
    pub fn unmount_callable(&mut self) -> SessionUnmounter {
        SessionUnmounter(Arc::downgrade(&self.mount.0))
    }

    /// Returns a notifier for the kernel.
    #[must_use]
    pub fn notifier(&self) -> Notifier {
        notifier_of(&self.mount)
    }
}

impl<FS: Filesystem> AsFd for Session<FS> {
    fn as_fd(&self) -> BorrowedFd<'_> {
        self.mount.0.device.as_fd()
    }
}

fn notifier_of(mount: &Ends<Arc<Point>>) -> Notifier {
    Notifier(Own::new(Arc::downgrade(&mount.0.device)))
}

fn panicked() -> io::Error {
    io::Error::new(io::ErrorKind::Other, "the file system panicked")
}

/// Unmounts a session, on any thread.
#[derive(Debug)]
pub struct SessionUnmounter(Weak<Point>);

impl SessionUnmounter {
    /// Unmounts the session, unless it is unmounted already.
    ///
    /// # Errors
    /// If it cannot be unmounted.
    pub fn unmount(&mut self) -> io::Result<()> {
        self.0.upgrade().map_or(Ok(()), |point| point.unmount())
    }
}

/// A session that is served in the background. It is unmounted when this is dropped.
#[derive(Debug)]
pub struct BackgroundSession {
    /// The thread that serves it.
    pub guard: JoinHandle<io::Result<()>>,
    mount: Ends<Arc<Point>>,
}

impl BackgroundSession {
    /// Unmounts it, and waits for its last user.
    ///
    /// # Errors
    /// If it cannot be unmounted, or as [`mount2`].
    pub fn umount_and_join(self) -> io::Result<()> {
        self.mount.0.unmount()?;
        self.join()
    }

    /// Returns a notifier for the kernel.
    #[must_use]
    pub fn notifier(&self) -> Notifier {
        notifier_of(&self.mount)
    }

    /// Blocks until it is unmounted.
    ///
    /// # Errors
    /// As [`mount2`].
    pub fn join(self) -> io::Result<()> {
        self.guard.join().unwrap_or_else(|_| Err(panicked()))
    }
}
