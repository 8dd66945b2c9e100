//! The interface of the crate fuser, version 0.17.0: a file system that is written for it runs over this
//! layer if its `use fuser::..` becomes `use nizwarf::fuser::..`.
//!
//! Only names and signatures are fuser's, whose licence is MIT. The page `FROM-FUSER.md`, next to this
//! crate's README, has the differences.
//!
//! ```no_run
//! use nizwarf::fuser::{
//!     mount2, Config, Errno, FileAttr, FileHandle, FileType, Filesystem, INodeNo, MountOption, ReplyAttr, Request,
//! };
//! use std::time::{Duration, UNIX_EPOCH};
//!
//! /// An empty root.
//! struct Empty;
//!
//! impl Filesystem for Empty {
//!     fn getattr(&self, _: &Request, ino: INodeNo, _: Option<FileHandle>, reply: ReplyAttr) {
//!         if ino != INodeNo::ROOT {
//!             return reply.error(Errno::ENOENT);
//!         }
//!         let attr = FileAttr {
//!             ino,
//!             size: 0,
//!             blocks: 0,
//!             atime: UNIX_EPOCH,
//!             mtime: UNIX_EPOCH,
//!             ctime: UNIX_EPOCH,
//!             crtime: UNIX_EPOCH,
//!             kind: FileType::Directory,
//!             perm: 0o555,
//!             nlink: 2,
//!             uid: 0,
//!             gid: 0,
//!             rdev: 0,
//!             blksize: 4096,
//!             flags: 0,
//!         };
//!         reply.attr(&Duration::from_secs(1), &attr);
//!     }
//! }
//!
//! let mut config = Config::default();
//! config.mount_options = vec![MountOption::RO, MountOption::FSName("empty".into())];
//! mount2(Empty, "/mnt", &config)?;
//! # Ok::<(), std::io::Error>(())
//! ```
//!
//! # Replies
//! A method receives a reply object, by which it must answer once. It may do so before it returns, or keep
//! the object and answer later, on any thread. If the object is dropped, the reply is EIO. An answer after
//! the end of the session is dropped.
#![forbid(unsafe_code)]

mod adapter;
mod config;
mod errno;
mod filesystem;
#[macro_use]
mod flags;
mod notify;
mod reply;
mod session;
mod types;

pub use config::{Config, KernelConfig, MountOption, SessionACL};
pub use errno::Errno;
pub use filesystem::Filesystem;
pub use flags::{
    AccessFlags, BsdFileFlags, CopyFileRangeFlags, FopenFlags, InitFlags, IoctlFlags, PollEvents, PollFlags,
    RenameFlags, WriteFlags,
};
pub use notify::{Notifier, PollHandle, PollNotifier};
pub use reply::{
    BackingId, ReplyAttr, ReplyBmap, ReplyCreate, ReplyData, ReplyDirectory, ReplyDirectoryPlus, ReplyEmpty,
    ReplyEntry, ReplyIoctl, ReplyLock, ReplyLseek, ReplyOpen, ReplyPoll, ReplyStatfs, ReplyWrite, ReplyXattr,
};
pub use session::{mount2, spawn_mount2, BackgroundSession, Session, SessionUnmounter};
pub use types::{
    FileAttr, FileHandle, FileType, ForgetOne, Generation, INodeNo, LockOwner, OpenAccMode, OpenFlags,
    Request, RequestId, TimeOrNow, Version,
};

/// Numbers of the protocol.
pub mod consts {
    /// The lock is one of `flock(2)`.
    pub const FUSE_LK_FLOCK: u32 = 1;
    /// The maximum number of ranges in the answer to an IOCTL.
    pub const FUSE_IOCTL_MAX_IOV: u32 = 256;
    /// The minimum length of the buffer for requests.
    pub const FUSE_MIN_READ_BUFFER: usize = 8192;
}

// The types that a file system may keep, or send to another thread.
const _: () = {
    const fn are_sent<T: Send + Sync + 'static>() {}
    are_sent::<(Notifier, PollNotifier, SessionUnmounter)>();
    are_sent::<(ReplyAttr, ReplyBmap, ReplyCreate, ReplyData, ReplyDirectory, ReplyDirectoryPlus)>();
    are_sent::<(ReplyEmpty, ReplyEntry, ReplyIoctl, ReplyLock, ReplyLseek, ReplyOpen, ReplyPoll)>();
    are_sent::<(ReplyStatfs, ReplyWrite, ReplyXattr)>();
};
