//! The trait of a file system, as fuser has it.

use crate::fuser::config::KernelConfig;
use crate::fuser::errno::Errno;
use crate::fuser::flags::{
    AccessFlags, BsdFileFlags, CopyFileRangeFlags, FopenFlags, IoctlFlags, PollEvents, PollFlags,
    RenameFlags, WriteFlags,
};
use crate::fuser::notify::PollNotifier;
use crate::fuser::reply::{
    ReplyAttr, ReplyBmap, ReplyCreate, ReplyData, ReplyDirectory, ReplyDirectoryPlus, ReplyEmpty, ReplyEntry,
    ReplyIoctl, ReplyLock, ReplyLseek, ReplyOpen, ReplyPoll, ReplyStatfs, ReplyWrite, ReplyXattr,
};
use crate::fuser::types::{FileHandle, ForgetOne, INodeNo, LockOwner, OpenFlags, Request, TimeOrNow};
use std::ffi::OsStr;
use std::io;
use std::path::Path;
use std::time::SystemTime;

/// Declares methods of a trait. The reply of one without a body is ENOSYS.
macro_rules! methods {
    (body $($argument:ident)*, $body:block) => { $body };
    (body $reply:ident, ;) => { $reply.error(Errno::ENOSYS) };
    (body $first:ident $($others:ident)+, ;) => { methods!(body $($others)+, ;) };
    ($(
        $(#[$about:meta])*
        fn $name:ident (&$this:ident, $($argument:ident: $type:ty),* $(,)?) $body:tt
    )*) => {$(
        $(#[$about])*
        fn $name(&$this, $($argument: $type),*) {
            methods!(body $($argument)*, $body)
        }
    )*};
}

/// A file system. Each method except the first two is a call, and must answer by its `reply`. By default the
/// reply is ENOSYS, unless it is documented otherwise. [`FileSystem`](crate::FileSystem) documents each call
/// in more detail.
///
/// Each entry in a reply is a lookup of its node, which [`forget`](Self::forget) drops later.
#[allow(unused_variables, clippy::too_many_arguments, clippy::missing_errors_doc)]
pub trait Filesystem: Send + Sync + 'static {
    /// Begins the session. It is called once, before any other method. If it fails, the mount ends, and
    /// [`mount2`](crate::fuser::mount2) returns the error.
    fn init(&mut self, req: &Request, config: &mut KernelConfig) -> io::Result<()> {
        Ok(())
    }

    /// Ends the session. It is called once, after all other methods. Then the file system is dropped.
    fn destroy(&mut self) {}

    methods! {
        /// Looks a name up.
        fn lookup(&self, req: &Request, parent: INodeNo, name: &OsStr, reply: ReplyEntry);

        /// Drops lookups of a node. By default it does nothing.
        fn forget(&self, req: &Request, ino: INodeNo, nlookup: u64) {}

        /// Drops lookups of many nodes. By default it calls [`forget`](Self::forget) for each.
        fn batch_forget(&self, req: &Request, nodes: &[ForgetOne]) {
            for node in nodes {
                self.forget(req, node.nodeid(), node.nlookup());
            }
        }

        /// Returns attributes.
        fn getattr(&self, req: &Request, ino: INodeNo, fh: Option<FileHandle>, reply: ReplyAttr);

        /// Sets the attributes that are given, and returns all. Linux does not give the last four.
        fn setattr(
            &self, req: &Request, ino: INodeNo, mode: Option<u32>, uid: Option<u32>, gid: Option<u32>,
            size: Option<u64>, atime: Option<TimeOrNow>, mtime: Option<TimeOrNow>, ctime: Option<SystemTime>,
            fh: Option<FileHandle>, crtime: Option<SystemTime>, chgtime: Option<SystemTime>,
            bkuptime: Option<SystemTime>, flags: Option<BsdFileFlags>, reply: ReplyAttr,
        );

        /// Reads a symbolic link: at most 4095 bytes.
        fn readlink(&self, req: &Request, ino: INodeNo, reply: ReplyData);

        /// Creates a node.
        fn mknod(
            &self, req: &Request, parent: INodeNo, name: &OsStr, mode: u32, umask: u32, rdev: u32,
            reply: ReplyEntry,
        );

        /// Creates a directory.
        fn mkdir(
            &self, req: &Request, parent: INodeNo, name: &OsStr, mode: u32, umask: u32, reply: ReplyEntry,
        );

        /// Removes a file.
        fn unlink(&self, req: &Request, parent: INodeNo, name: &OsStr, reply: ReplyEmpty);

        /// Removes a directory.
        fn rmdir(&self, req: &Request, parent: INodeNo, name: &OsStr, reply: ReplyEmpty);

        /// Creates a symbolic link. By default it answers EPERM.
        fn symlink(
            &self, req: &Request, parent: INodeNo, link_name: &OsStr, target: &Path, reply: ReplyEntry,
        ) {
            reply.error(Errno::EPERM);
        }

        /// Renames a node.
        fn rename(
            &self, req: &Request, parent: INodeNo, name: &OsStr, newparent: INodeNo, newname: &OsStr,
            flags: RenameFlags, reply: ReplyEmpty,
        );

        /// Creates a hard link. By default it answers EPERM.
        fn link(&self, req: &Request, ino: INodeNo, newparent: INodeNo, newname: &OsStr, reply: ReplyEntry) {
            reply.error(Errno::EPERM);
        }

        /// Opens a file. By default it succeeds with the handle 0.
        fn open(&self, req: &Request, ino: INodeNo, flags: OpenFlags, reply: ReplyOpen) {
            reply.opened(FileHandle(0), FopenFlags::empty());
        }

        /// Reads at most `size` bytes. If there are more, the reply is EIO.
        fn read(
            &self, req: &Request, ino: INodeNo, fh: FileHandle, offset: u64, size: u32, flags: OpenFlags,
            lock_owner: Option<LockOwner>, reply: ReplyData,
        );

        /// Writes data.
        fn write(
            &self, req: &Request, ino: INodeNo, fh: FileHandle, offset: u64, data: &[u8],
            write_flags: WriteFlags, flags: OpenFlags, lock_owner: Option<LockOwner>, reply: ReplyWrite,
        );

        /// Flushes a file. It is called whenever a descriptor of an open file is closed. A file system that
        /// serves locks must release the POSIX locks of `lock_owner` on this file, because Linux calls no
        /// [`setlk`](Self::setlk) for that.
        fn flush(
            &self, req: &Request, ino: INodeNo, fh: FileHandle, lock_owner: LockOwner, reply: ReplyEmpty,
        );

        /// Closes a file. By default it succeeds.
        fn release(
            &self, req: &Request, ino: INodeNo, fh: FileHandle, flags: OpenFlags,
            lock_owner: Option<LockOwner>, flush: bool, reply: ReplyEmpty,
        ) {
            reply.ok();
        }

        /// Synchronizes a file: with `datasync` only its data.
        fn fsync(&self, req: &Request, ino: INodeNo, fh: FileHandle, datasync: bool, reply: ReplyEmpty);

        /// Opens a directory. By default it succeeds with the handle 0.
        fn opendir(&self, req: &Request, ino: INodeNo, flags: OpenFlags, reply: ReplyOpen) {
            reply.opened(FileHandle(0), FopenFlags::empty());
        }

        /// Returns the items of a directory after a position, which is that of an earlier item, or 0.
        fn readdir(&self, req: &Request, ino: INodeNo, fh: FileHandle, offset: u64, reply: ReplyDirectory);

        /// Returns the items with their entries. The kernel calls it only if [`init`](Self::init) added
        /// `FUSE_DO_READDIRPLUS`.
        fn readdirplus(
            &self, req: &Request, ino: INodeNo, fh: FileHandle, offset: u64, reply: ReplyDirectoryPlus,
        );

        /// Closes a directory. By default it succeeds.
        fn releasedir(
            &self, req: &Request, ino: INodeNo, fh: FileHandle, flags: OpenFlags, reply: ReplyEmpty,
        ) {
            reply.ok();
        }

        /// Synchronizes a directory.
        fn fsyncdir(&self, req: &Request, ino: INodeNo, fh: FileHandle, datasync: bool, reply: ReplyEmpty);

        /// Returns statistics. By default they are zeros, except blocks of 512 bytes and names of 255 bytes.
        fn statfs(&self, req: &Request, ino: INodeNo, reply: ReplyStatfs) {
            reply.statfs(0, 0, 0, 0, 0, 512, 255, 0);
        }

        /// Sets an extended attribute. `position` is 0 on Linux.
        fn setxattr(
            &self, req: &Request, ino: INodeNo, name: &OsStr, value: &[u8], flags: i32, position: u32,
            reply: ReplyEmpty,
        );

        /// Returns an extended attribute, or its length if `size` is 0.
        fn getxattr(&self, req: &Request, ino: INodeNo, name: &OsStr, size: u32, reply: ReplyXattr);

        /// Returns the names of all extended attributes, each with a NUL, or their length if `size` is 0.
        fn listxattr(&self, req: &Request, ino: INodeNo, size: u32, reply: ReplyXattr);

        /// Removes an extended attribute.
        fn removexattr(&self, req: &Request, ino: INodeNo, name: &OsStr, reply: ReplyEmpty);

        /// Checks whether the caller has these permissions.
        fn access(&self, req: &Request, ino: INodeNo, mask: AccessFlags, reply: ReplyEmpty);

        /// Creates and opens a file.
        fn create(
            &self, req: &Request, parent: INodeNo, name: &OsStr, mode: u32, umask: u32, flags: i32,
            reply: ReplyCreate,
        );

        /// Returns a lock that conflicts with this one, or one of type `F_UNLCK`. Linux calls this and
        /// [`setlk`](Self::setlk) only if [`init`](Self::init) added `FUSE_POSIX_LOCKS`.
        fn getlk(
            &self, req: &Request, ino: INodeNo, fh: FileHandle, lock_owner: LockOwner, start: u64, end: u64,
            typ: i32, pid: u32, reply: ReplyLock,
        );

        /// Sets or removes a lock. With `sleep` it should answer when there is no conflict any more.
        fn setlk(
            &self, req: &Request, ino: INodeNo, fh: FileHandle, lock_owner: LockOwner, start: u64, end: u64,
            typ: i32, pid: u32, sleep: bool, reply: ReplyEmpty,
        );

        /// Returns the number of the device's block in which this block of a file is stored.
        fn bmap(&self, req: &Request, ino: INodeNo, blocksize: u32, idx: u64, reply: ReplyBmap);

        /// Carries out a command of `ioctl(2)`.
        fn ioctl(
            &self, req: &Request, ino: INodeNo, fh: FileHandle, flags: IoctlFlags, cmd: u32, in_data: &[u8],
            out_size: u32, reply: ReplyIoctl,
        );

        /// Returns which events have occurred. With `FUSE_POLL_SCHEDULE_NOTIFY` it must notify `ph` when one
        /// occurs later.
        fn poll(
            &self, req: &Request, ino: INodeNo, fh: FileHandle, ph: PollNotifier, events: PollEvents,
            flags: PollFlags, reply: ReplyPoll,
        );

        /// Allocates or deallocates space of a file, as `fallocate(2)`.
        fn fallocate(
            &self, req: &Request, ino: INodeNo, fh: FileHandle, offset: u64, length: u64, mode: i32,
            reply: ReplyEmpty,
        );

        /// Finds data or holes, as `lseek(2)`.
        fn lseek(
            &self, req: &Request, ino: INodeNo, fh: FileHandle, offset: i64, whence: i32, reply: ReplyLseek,
        );

        /// Copies from one file to another, as `copy_file_range(2)`.
        fn copy_file_range(
            &self, req: &Request, ino_in: INodeNo, fh_in: FileHandle, offset_in: u64, ino_out: INodeNo,
            fh_out: FileHandle, offset_out: u64, len: u64, flags: CopyFileRangeFlags, reply: ReplyWrite,
        );
    }
}
