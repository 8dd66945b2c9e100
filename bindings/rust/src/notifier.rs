//! Notices: messages that a server sends without a request.
#![forbid(unsafe_code)]

use crate::errno::Errno;
use crate::ffi::Notice;
use crate::optional::PollHandle;
use crate::system;
use std::cell::RefCell;
use std::ffi::CStr;
use std::fs::File;
use std::io::{self, IoSlice, Write};
use std::sync::Weak;

/// The longest notice without the data that follow it: a header, the longest record, and a name.
const LONGEST: usize = 16 + 24 + LONGEST_NAME + 1;
const LONGEST_NAME: usize = 1023;

/// Informs the client of changes that it did not make. It may be cloned and used on any thread and at any
/// time.
///
/// After the unmount each method returns ENOTCONN. A notifier does not keep a mount, or its server.
/// [`Mounted::notifier`](crate::Mounted::notifier), and [`FileSystem::begin`](crate::FileSystem::begin) by
/// its [`Client`](crate::Client), return one.
///
/// Notices are sent in the order of the calls here, but one may overtake a reply that was made before it.
///
/// [`inval_inode`](Self::inval_inode), [`inval_entry`](Self::inval_entry),
/// [`expire_entry`](Self::expire_entry), [`delete`](Self::delete) and [`store`](Self::store) return EDEADLK on
/// a thread that is inside a call of this client, and send nothing. Linux may wait in them for the end of a
/// call about the same node or directory, or for a WRITE of cached data, so that they and the call could wait
/// for each other forever. A file system must send them on another thread, and a call about the same node or
/// directory must not wait for that thread. The others may be sent inside a call.
///
/// ```no_run
/// # use nizwarf::{FileSystem, NoEntries};
/// # struct Nothing;
/// # impl FileSystem for Nothing {
/// #     type Inode = u64;
/// #     type Handle = u64;
/// #     type DirIter = NoEntries;
/// # }
/// let mounted = nizwarf::spawn_mount(Nothing, "/mnt", &[])?;
/// let notifier = mounted.notifier();
/// // Node 2 was changed: all that is cached of it is dropped.
/// notifier.inval_inode(2, 0, 0)?;
/// # Ok::<(), std::io::Error>(())
/// ```
#[derive(Clone, Debug)]
pub struct Notifier {
    device: Weak<File>,
}

// The errors are those of the kernel.
#[allow(clippy::missing_errors_doc)]
impl Notifier {
    pub(crate) fn new(device: Weak<File>) -> Self {
        Notifier { device }
    }

    /// Drops the cached attributes of a node, and `len` bytes of its cached data from `offset` on, or all
    /// data from there if `len` is 0. If `offset` is negative, only the attributes are dropped. ENOENT if the
    /// client does not know the node.
    pub fn inval_inode(&self, node: u64, offset: i64, len: i64) -> io::Result<()> {
        self.send_outside(Notice::InvalInode { node, offset, len }, &[])
    }

    /// Drops a cached name, with the names below it. ENOENT if the client does not cache it.
    pub fn inval_entry(&self, parent: u64, name: &CStr) -> io::Result<()> {
        self.send_name(Notice::InvalEntry { parent, flags: 0, name }, name)
    }

    /// Lets a name expire: it is looked up again when it is used. Linux supports this if it is capable of
    /// [`HAS_EXPIRE_ONLY`](crate::FsOptions::HAS_EXPIRE_ONLY).
    pub fn expire_entry(&self, parent: u64, name: &CStr) -> io::Result<()> {
        const FUSE_EXPIRE_ONLY: u32 = 1;
        self.send_name(Notice::InvalEntry { parent, flags: FUSE_EXPIRE_ONLY, name }, name)
    }

    /// Drops the name of a node that was removed. Programs that watch it, for example by `inotify(7)`, are
    /// notified.
    pub fn delete(&self, parent: u64, child: u64, name: &CStr) -> io::Result<()> {
        self.send_name(Notice::Delete { parent, child, name }, name)
    }

    /// Puts data into the cache of a file, from `offset` on. If they end after the file, that gets longer.
    pub fn store(&self, node: u64, offset: u64, data: &[u8]) -> io::Result<()> {
        let size = u32::try_from(data.len()).map_err(|_| Errno::EINVAL)?;
        self.send_outside(Notice::Store { node, offset, size }, data)
    }

    /// Requests cached data of a file. [`FileSystem::notify_reply`](crate::FileSystem::notify_reply) receives
    /// them with this number, if [`NOTIFY_REPLY`](crate::Features::NOTIFY_REPLY) is enabled.
    pub fn retrieve(&self, unique: u64, node: u64, offset: u64, size: u32) -> io::Result<()> {
        self.send(Notice::Retrieve { unique, node, offset, size }, &[])
    }

    /// Reports that an event has occurred for which a POLL waits: the file is polled again. It may be sent
    /// inside any call, such as the WRITE that makes the file readable.
    pub fn wake(&self, handle: PollHandle) -> io::Result<()> {
        self.send(Notice::Poll { handle: handle.0 }, &[])
    }

    /// Requests that all requests without a reply are sent again. Their numbers then have bit 63. Linux
    /// supports this if it is capable of [`HAS_RESEND`](crate::FsOptions::HAS_RESEND).
    pub fn resend(&self) -> io::Result<()> {
        self.send(Notice::Resend {}, &[])
    }

    /// Lets all names expire. Linux supports this since 6.16.
    pub fn expire_all(&self) -> io::Result<()> {
        self.send(Notice::IncEpoch {}, &[])
    }

    /// Requests that the client forgets these nodes, if they are not in use. Linux supports this since 6.19.
    pub fn prune(&self, nodes: &[u64]) -> io::Result<()> {
        let count = u32::try_from(nodes.len()).map_err(|_| Errno::EINVAL)?;
        let data: Vec<u8> = nodes.iter().flat_map(|node| node.to_le_bytes()).collect();
        self.send(Notice::Prune { count }, &data)
    }

    fn send_name(&self, notice: Notice<'_>, name: &CStr) -> io::Result<()> {
        if name.to_bytes().len() > LONGEST_NAME {
            return Err(Errno::ENAMETOOLONG.into());
        }
        self.send_outside(notice, &[])
    }

    /// Sends a notice, unless this thread is inside a call.
    fn send_outside(&self, notice: Notice<'_>, data: &[u8]) -> io::Result<()> {
        let device = self.device.as_ptr();
        // (a thread that ends is in no call)
        if CALLS.try_with(|calls| calls.borrow().contains(&device)).unwrap_or(false) {
            return Err(Errno::EDEADLK.into());
        }
        self.send(notice, data)
    }

    /// Sends a notice, and the data that follow it.
    fn send(&self, notice: Notice<'_>, data: &[u8]) -> io::Result<()> {
        let device = self.device.upgrade().ok_or(Errno::ENOTCONN)?;
        let mut head = [0; LONGEST];
        let len = notice.put(&mut head);
        if len == 0 {
            return Err(Errno::EINVAL.into()); // its length has more than 32 bits
        }
        let sent = write_both(&device, &head[..len], data);
        // The kernel accepts some notices even after the unmount.
        if system::is_connected(&device) {
            sent
        } else {
            Err(Errno::ENOTCONN.into())
        }
    }
}

thread_local! {
    /// The devices of the calls that this thread is inside.
    static CALLS: RefCell<Vec<*const File>> = const { RefCell::new(Vec::new()) };
}

/// This thread is inside a call until this is dropped.
pub(crate) struct Inside(());

impl Inside {
    pub fn new(device: &Weak<File>) -> Self {
        CALLS.with(|calls| calls.borrow_mut().push(device.as_ptr()));
        Inside(())
    }
}

impl Drop for Inside {
    fn drop(&mut self) {
        CALLS.with(|calls| calls.borrow_mut().pop());
    }
}

/// Writes one message to a device.
pub(crate) fn write_both(mut device: &File, head: &[u8], data: &[u8]) -> io::Result<()> {
    let sent = if data.is_empty() {
        device.write(head)
    } else {
        device.write_vectored(&[IoSlice::new(head), IoSlice::new(data)])
    };
    sent.map(drop)
}

#[cfg(test)]
mod tests {
    use super::*;
    use std::ffi::CString;
    use std::os::unix::io::OwnedFd;
    use std::os::unix::net::UnixStream;
    use std::sync::Arc;
    use std::thread;

    #[test]
    fn only_calls_of_this_client_on_this_thread_refuse_notices() {
        let ((device, _peer), (other, _other_peer)) =
            (UnixStream::pair().unwrap(), UnixStream::pair().unwrap());
        let [device, other] = [device, other].map(|socket| Arc::new(File::from(OwnedFd::from(socket))));
        let notifier = Notifier::new(Arc::downgrade(&device));
        let name = CString::new("a").unwrap();
        let send = || {
            [
                notifier.inval_inode(1, 0, 0),
                notifier.inval_entry(1, &name),
                notifier.expire_entry(1, &name),
                notifier.delete(1, 2, &name),
                notifier.store(1, 0, b"data"),
            ]
        };
        let are_sent = || send().iter().all(Result::is_ok);
        let are_refused = || send().iter().all(|sent| Errno::EDEADLK.is(sent.as_ref().unwrap_err()));
        assert!(are_sent());
        let outer = Inside::new(&Arc::downgrade(&device));
        assert!(are_refused());
        assert!(notifier.wake(PollHandle(1)).is_ok());
        let inner = Inside::new(&Arc::downgrade(&other));
        assert!(are_refused());
        assert!(thread::scope(|scope| scope.spawn(are_sent).join().unwrap()));
        drop(outer);
        drop(inner);
        assert!(are_sent());
        let _other = Inside::new(&Arc::downgrade(&other));
        assert!(are_sent());
    }
}
