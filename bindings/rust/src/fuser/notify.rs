//! Notices to the kernel, as fuser has them.

use crate::errno::Errno;
use crate::fuser::types::INodeNo;
use crate::notifier::Notifier as Own;
use crate::optional::PollHandle as Handle;
use std::ffi::{CString, OsStr};
use std::io;
use std::os::unix::ffi::OsStrExt;

/// Informs the kernel of changes. It may be cloned and used on any thread, and does not keep a session.
///
/// Inside a method of the file system all but [`poll`](Self::poll) return EDEADLK, because the kernel may wait
/// for the end of the call. They must be sent on another thread.
#[derive(Clone, Debug)]
pub struct Notifier(pub(super) Own);

// The errors are those of the kernel, and ENOTCONN after the unmount.
#[allow(clippy::missing_errors_doc)]
impl Notifier {
    /// Reports that an event has occurred for which a POLL waits.
    pub fn poll(&self, kh: PollHandle) -> io::Result<()> {
        self.0.wake(Handle(kh.0))
    }

    /// Drops a name from the kernel's cache, if it has it.
    pub fn inval_entry(&self, parent: INodeNo, name: &OsStr) -> io::Result<()> {
        known(self.0.inval_entry(parent.0, &c_name(name)?))
    }

    /// Drops the cached attributes of a node, and `len` bytes of its cached data from `offset` on, or all
    /// data from there if `len` is 0. If `offset` is negative, only the attributes are dropped.
    pub fn inval_inode(&self, ino: INodeNo, offset: i64, len: i64) -> io::Result<()> {
        known(self.0.inval_inode(ino.0, offset, len))
    }

    /// Puts data into the cache of a file, if the kernel has it.
    pub fn store(&self, ino: INodeNo, offset: u64, data: &[u8]) -> io::Result<()> {
        known(self.0.store(ino.0, offset, data))
    }

    /// Drops the name of a node that was removed. Programs that watch it are notified.
    pub fn delete(&self, parent: INodeNo, child: INodeNo, name: &OsStr) -> io::Result<()> {
        known(self.0.delete(parent.0, child.0, &c_name(name)?))
    }
}

fn c_name(name: &OsStr) -> io::Result<CString> {
    CString::new(name.as_bytes()).map_err(|_| Errno::EINVAL.into())
}

/// Ignores ENOENT, because the kernel need not drop a node that it does not know.
fn known(sent: io::Result<()>) -> io::Result<()> {
    match sent {
        Err(error) if Errno::ENOENT.is(&error) => Ok(()),
        sent => sent,
    }
}

/// Identifies the caller that waits for an event of a file.
#[derive(Clone, Copy, Debug)]
pub struct PollHandle(pub u64);

/// Notifies the caller that waits for an event.
#[derive(Clone, Debug)]
pub struct PollNotifier {
    pub(super) handle: PollHandle,
    pub(super) notifier: Notifier,
}

impl PollNotifier {
    /// Returns the handle of the caller that waits. It is 0 if none does.
    #[must_use]
    pub fn handle(&self) -> PollHandle {
        self.handle
    }

    /// Reports that an event has occurred.
    ///
    /// # Errors
    /// As [`Notifier::poll`].
    pub fn notify(self) -> io::Result<()> {
        self.notifier.poll(self.handle)
    }
}
