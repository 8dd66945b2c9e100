//! The trait of a file system, and its types.
#![forbid(unsafe_code)]

use crate::attr::{Attr, SetattrIn, Statvfs};
use crate::call::Call;
use crate::client::Client;
use crate::errno::Errno;
use crate::flags::{Features, FsOptions, IoctlFlags, OpenOptions, SetattrValid, SetxattrFlags, WritevFlags};
use crate::optional::{IoctlReply, Limits, Lock, PollHandle, Statx};
use std::ffi::{CStr, CString};
use std::fs::File;
use std::io;
use std::time::Duration;

/// The node number of the root directory.
pub const ROOT_ID: u64 = 1;

/// Declares methods of a trait. One without a body returns ENOSYS.
macro_rules! methods {
    (body ;) => { Err(Errno::ENOSYS.into()) };
    (body $body:block) => { $body };
    ($(
        $(#[$about:meta])*
        fn $name:ident $(<$Type:ident: $Bound:ident>)? (&self $(, $argument:ident: $type:ty)* $(,)?)
            -> io::Result<$result:ty> $body:tt
    )*) => {$(
        $(#[$about])*
        fn $name $(<$Type: $Bound>)? (&self $(, $argument: $type)*) -> io::Result<$result> {
            methods!(body $body)
        }
    )*};
}

/// The result of looking a name up, or of creating it.
#[derive(Clone, Copy, Debug, Default, PartialEq, Eq)]
pub struct Entry {
    /// The number of the node, for which this is one more lookup. 0 means that the name does not exist; this
    /// is valid for `entry_timeout`, and no lookup.
    pub inode: u64,
    /// The generation. The pair of number and generation must be unique for the life of the file system.
    pub generation: u64,
    /// The attributes.
    pub attr: Attr,
    /// How long the attributes are valid.
    pub attr_timeout: Duration,
    /// How long the name is valid.
    pub entry_timeout: Duration,
}

/// An item of a directory.
#[derive(Clone, Copy, Debug)]
pub struct DirEntry<'a> {
    /// The inode number that programs see.
    pub ino: u64,
    /// The position after the item, from which a later READDIR continues. It is not 0.
    pub offset: u64,
    /// Its type, such as [`DT_REG`](crate::DT_REG).
    pub type_: u32,
    /// Its name.
    pub name: &'a CStr,
}

/// An iterator over the items of a directory, which may lend their names.
///
/// ```
/// use nizwarf::{DirEntry, DirectoryIterator, DT_REG};
/// use std::ffi::CString;
///
/// /// Files with these names, from a position on.
/// struct Names(Vec<CString>, u64);
///
/// impl DirectoryIterator for Names {
///     fn next(&mut self) -> Option<DirEntry<'_>> {
///         let name = self.0.get(usize::try_from(self.1).ok()?)?;
///         self.1 += 1;
///         Some(DirEntry { ino: 100 + self.1, offset: self.1, type_: DT_REG, name })
///     }
/// }
///
/// let mut names = Names(vec![CString::new("a").unwrap(), CString::new("b").unwrap()], 1);
/// assert_eq!(names.next().unwrap().name.to_bytes(), b"b");
/// assert!(names.next().is_none());
/// ```
pub trait DirectoryIterator {
    /// Returns the next item, if there is one.
    fn next(&mut self) -> Option<DirEntry<'_>>;
}

/// The answer to a GETXATTR.
#[derive(Clone, Debug, PartialEq, Eq)]
pub enum GetxattrReply {
    /// The value, whatever `size` is: if it is 0, the length of the value is sent.
    Value(Vec<u8>),
    /// The length of the value. It may be returned only if `size` is 0.
    Count(u32),
}

/// The answer to a LISTXATTR.
#[derive(Clone, Debug, PartialEq, Eq)]
pub enum ListxattrReply {
    /// The names, each with a NUL, whatever `size` is: if it is 0, the length of the list is sent.
    Names(Vec<u8>),
    /// The length of the list. It may be returned only if `size` is 0.
    Count(u32),
}

/// The caller of a request.
#[derive(Clone, Copy, Debug, Default, PartialEq, Eq)]
pub struct Context {
    /// The user ID.
    pub uid: u32,
    /// The group ID.
    pub gid: u32,
    /// The process ID.
    pub pid: i32,
    /// The number of the request, by which an INTERRUPT refers to it.
    pub unique: u64,
}

/// Optional arguments of calls that create a node.
#[derive(Clone, Debug, Default, PartialEq, Eq)]
pub struct Extensions {
    /// A security attribute to set.
    pub secctx: Option<SecContext>,
    /// A supplementary group of the caller.
    pub sup_gid: Option<u32>,
}

/// A security attribute.
#[derive(Clone, Debug, Default, PartialEq, Eq)]
pub struct SecContext {
    /// Its name.
    pub name: CString,
    /// Its value.
    pub secctx: Vec<u8>,
}

/// The data of a WRITE. They can be written to a file directly, or read as bytes.
///
/// ```
/// use nizwarf::{Errno, ZeroCopyReader};
/// use std::fs::File;
/// use std::io::{self, Read};
///
/// /// `FileSystem::write` over a file.
/// fn write<R: ZeroCopyReader>(file: &File, mut r: R, size: u32, offset: u64) -> io::Result<usize> {
///     r.write_to_file_at(file, size as usize, offset, None)
/// }
///
/// /// And over memory, of at most 1 MiB.
/// fn write_text<R: ZeroCopyReader>(text: &mut Vec<u8>, r: R, size: u32, offset: u64) -> io::Result<usize> {
///     let mut data = Vec::new();
///     r.take(size.into()).read_to_end(&mut data)?;
///     let from = usize::try_from(offset).map_err(|_| Errno::EFBIG)?;
///     let end = from.checked_add(data.len()).filter(|end| *end <= 1 << 20).ok_or(Errno::EFBIG)?;
///     text.resize(text.len().max(end), 0);
///     text[from..end].copy_from_slice(&data);
///     Ok(data.len())
/// }
/// ```
pub trait ZeroCopyReader: io::Read {
    /// Writes at most `count` bytes to a file at an offset, and returns how many. Fewer are written only if
    /// the data end, the file accepts no more, or a later write fails.
    ///
    /// # Errors
    /// The error of the first write.
    fn write_to_file_at(
        &mut self, f: &File, count: usize, off: u64, flags: Option<WritevFlags>,
    ) -> io::Result<usize>;
}

impl<R: ZeroCopyReader> ZeroCopyReader for &mut R {
    fn write_to_file_at(
        &mut self, f: &File, count: usize, off: u64, flags: Option<WritevFlags>,
    ) -> io::Result<usize> {
        (**self).write_to_file_at(f, count, off, flags)
    }
}

/// The buffer for the data of a READ. They can be read from a file directly, or written as bytes. If a write
/// returns 0, the buffer is full.
///
/// ```
/// use nizwarf::ZeroCopyWriter;
/// use std::fs::File;
/// use std::io;
///
/// /// `FileSystem::read` over a file.
/// fn read<W: ZeroCopyWriter>(file: &File, mut w: W, size: u32, offset: u64) -> io::Result<usize> {
///     w.read_from_file_at(file, size as usize, offset)
/// }
///
/// /// And over memory.
/// fn read_text<W: ZeroCopyWriter>(mut w: W, size: u32, offset: u64) -> io::Result<usize> {
///     let from = usize::try_from(offset).unwrap_or(usize::MAX);
///     let text = b"some text".get(from..).unwrap_or_default();
///     let text = &text[..text.len().min(size as usize)];
///     w.write_all(text).map(|()| text.len())
/// }
/// ```
pub trait ZeroCopyWriter: io::Write {
    /// Reads at most `count` bytes of a file from an offset on, and returns how many. Fewer are read only if
    /// the file ends, the buffer is full, or a later read fails.
    ///
    /// # Errors
    /// The error of the first read.
    fn read_from_file_at(&mut self, f: &File, count: usize, off: u64) -> io::Result<usize>;
}

impl<W: ZeroCopyWriter> ZeroCopyWriter for &mut W {
    fn read_from_file_at(&mut self, f: &File, count: usize, off: u64) -> io::Result<usize> {
        (**self).read_from_file_at(f, count, off)
    }
}

/// A file system. Each method is a call of the protocol, and returns ENOSYS by default, unless it is
/// documented otherwise. The methods and their arguments are those of the trait of virtiofsd 1.13.2, except
/// for the last ones, from [`features`](Self::features) on, which serve optional operations. [`Errno`] names
/// errors. An error without a number has that of its [`kind`](io::Error::kind), such as ENOENT for
/// `NotFound`, or otherwise is EIO.
///
/// Each entry that is returned, except one of node 0, is a lookup of its node, and [`forget`](Self::forget)
/// drops lookups. A node must be kept while it has lookups, even if it has no name any more.
///
/// ```
/// use nizwarf::{Attr, Context, FileSystem, OpenOptions, Server};
/// use std::io;
/// use std::time::Duration;
///
/// /// An empty root.
/// struct Empty;
///
/// impl FileSystem for Empty {
///     type Inode = u64;
///     type Handle = u64;
///     type DirIter = nizwarf::NoEntries;
///
///     fn getattr(
///         &self,
///         _ctx: Context,
///         inode: u64,
///         _handle: Option<u64>,
///     ) -> io::Result<(Attr, Duration)> {
///         Ok((Attr { ino: inode, mode: 0o40555, nlink: 2, ..Attr::default() }, Duration::ZERO))
///     }
/// }
///
/// let server = Server::new(Empty);
/// assert!(server.options().is_empty());
/// ```
// The arguments and errors are those of the protocol.
#[allow(unused_variables, clippy::too_many_arguments, clippy::missing_errors_doc)]
pub trait FileSystem {
    /// The number of a node.
    type Inode: From<u64> + Into<u64>;
    /// An open file or directory.
    type Handle: From<u64> + Into<u64>;
    /// The items of a directory.
    type DirIter: DirectoryIterator;

    /// Begins a session, and returns the options that the file system wants. Those that are not in `capable`
    /// are ignored. By default it wants no options.
    ///
    /// Some of them require something of the file system:
    ///
    /// - With [`ATOMIC_O_TRUNC`](FsOptions::ATOMIC_O_TRUNC) [`open`](Self::open) must truncate a file that it
    ///   opens with `O_TRUNC`. Without it Linux calls [`setattr`](Self::setattr) for that.
    /// - With [`ALLOW_IDMAP`](FsOptions::ALLOW_IDMAP) Linux mounts only with `default_permissions`, and the
    ///   [`Context`] has a user and a group only in calls that create a node: otherwise both are 2^32 - 1.
    /// - [`POSIX_LOCKS`](FsOptions::POSIX_LOCKS) and [`FLOCK_LOCKS`](FsOptions::FLOCK_LOCKS) are ignored
    ///   unless [`features`](Self::features) has [`LOCKS`](Features::LOCKS).
    ///
    /// Some others, which [`withhold`](crate::withhold()) lists, are agreed on even if they are not wanted,
    /// unless [`Server::withhold`](crate::Server::withhold) removes them.
    fn init(&self, capable: FsOptions) -> io::Result<FsOptions> {
        Ok(FsOptions::empty())
    }

    /// Ends the session: there are no lookups and no open handles after it. It is called for a DESTROY, or,
    /// if the client sent none, when [`Server::serve`](crate::Server::serve) ends. By default it does
    /// nothing.
    fn destroy(&self) {}

    /// Interrupts the request of this number, which is that of its [`Context`], because its caller got a
    /// signal. Its call should return EINTR: the caller waits until it is answered, even after SIGKILL.
    ///
    /// Another thread may be in that call, or may not have begun it, or may have answered it already. So a
    /// call that waits must check [`Client::was_interrupted`] first, as in the example of
    /// [`take`](Self::take). By default it does nothing.
    fn interrupt(&self, unique: u64) {}

    /// Looks a name up.
    fn lookup(&self, ctx: Context, parent: Self::Inode, name: &CStr) -> io::Result<Entry> {
        Err(Errno::ENOSYS.into())
    }

    /// Drops `count` lookups of a node. By default it does nothing.
    fn forget(&self, ctx: Context, inode: Self::Inode, count: u64) {}

    /// Drops lookups of many nodes. By default it calls [`forget`](Self::forget) for each.
    fn batch_forget(&self, ctx: Context, requests: Vec<(Self::Inode, u64)>) {
        for (inode, count) in requests {
            self.forget(ctx, inode, count);
        }
    }

    methods! {
        /// Returns attributes, and how long they are valid.
        fn getattr(
            &self, ctx: Context, inode: Self::Inode, handle: Option<Self::Handle>,
        ) -> io::Result<(Attr, Duration)>;

        /// Sets the attributes that `valid` names. Returns all attributes, and how long they are valid.
        fn setattr(
            &self, ctx: Context, inode: Self::Inode, attr: SetattrIn, handle: Option<Self::Handle>,
            valid: SetattrValid,
        ) -> io::Result<(Attr, Duration)>;

        /// Reads a symbolic link: at most 4095 bytes.
        fn readlink(&self, ctx: Context, inode: Self::Inode) -> io::Result<Vec<u8>>;

        /// Creates a symbolic link.
        fn symlink(
            &self, ctx: Context, linkname: &CStr, parent: Self::Inode, name: &CStr, extensions: Extensions,
        ) -> io::Result<Entry>;

        /// Creates a node. With [`FsOptions::DONT_MASK`] it must apply the umask.
        fn mknod(
            &self, ctx: Context, inode: Self::Inode, name: &CStr, mode: u32, rdev: u32, umask: u32,
            extensions: Extensions,
        ) -> io::Result<Entry>;

        /// Creates a directory. With [`FsOptions::DONT_MASK`] it must apply the umask.
        fn mkdir(
            &self, ctx: Context, parent: Self::Inode, name: &CStr, mode: u32, umask: u32,
            extensions: Extensions,
        ) -> io::Result<Entry>;

        /// Removes a file.
        fn unlink(&self, ctx: Context, parent: Self::Inode, name: &CStr) -> io::Result<()>;

        /// Removes a directory.
        fn rmdir(&self, ctx: Context, parent: Self::Inode, name: &CStr) -> io::Result<()>;

        /// Renames a node. The flags are those of `renameat2(2)`.
        fn rename(
            &self, ctx: Context, olddir: Self::Inode, oldname: &CStr, newdir: Self::Inode, newname: &CStr,
            flags: u32,
        ) -> io::Result<()>;

        /// Creates a hard link.
        fn link(
            &self, ctx: Context, inode: Self::Inode, newparent: Self::Inode, newname: &CStr,
        ) -> io::Result<Entry>;

        /// Opens a file. The flags are those of `open(2)`; `O_TRUNC` is among them only if
        /// [`init`](Self::init) wanted [`ATOMIC_O_TRUNC`](FsOptions::ATOMIC_O_TRUNC). By default it succeeds
        /// without a handle.
        fn open(
            &self, ctx: Context, inode: Self::Inode, kill_priv: bool, flags: u32,
        ) -> io::Result<(Option<Self::Handle>, OpenOptions)> {
            Ok((None, OpenOptions::empty()))
        }

        /// Creates and opens a file. With [`FsOptions::DONT_MASK`] it must apply the umask.
        fn create(
            &self, ctx: Context, parent: Self::Inode, name: &CStr, mode: u32, kill_priv: bool, flags: u32,
            umask: u32, extensions: Extensions,
        ) -> io::Result<(Entry, Option<Self::Handle>, OpenOptions)>;

        /// Reads at most `size` bytes of a file into `w`, and returns how many.
        fn read<W: ZeroCopyWriter>(
            &self, ctx: Context, inode: Self::Inode, handle: Self::Handle, w: W, size: u32, offset: u64,
            lock_owner: Option<u64>, flags: u32,
        ) -> io::Result<usize>;

        /// Writes at most `size` bytes of `r` to a file, and returns how many.
        fn write<R: ZeroCopyReader>(
            &self, ctx: Context, inode: Self::Inode, handle: Self::Handle, r: R, size: u32, offset: u64,
            lock_owner: Option<u64>, delayed_write: bool, kill_priv: bool, flags: u32,
        ) -> io::Result<usize>;

        /// Flushes a file. It is called whenever a descriptor of an open file is closed. A file system that
        /// serves locks must release the POSIX locks of `lock_owner` on this file, because Linux calls no
        /// [`setlk`](Self::setlk) for that.
        fn flush(
            &self, ctx: Context, inode: Self::Inode, handle: Self::Handle, lock_owner: u64,
        ) -> io::Result<()>;

        /// Synchronizes a file: with `datasync` only its data.
        fn fsync(
            &self, ctx: Context, inode: Self::Inode, datasync: bool, handle: Self::Handle,
        ) -> io::Result<()>;

        /// Allocates or deallocates space of a file, as `fallocate(2)`.
        fn fallocate(
            &self, ctx: Context, inode: Self::Inode, handle: Self::Handle, mode: u32, offset: u64,
            length: u64,
        ) -> io::Result<()>;

        /// Closes a file. With `flush` it must also flush it, as [`flush`](Self::flush); with `flock_release`
        /// it must release the locks of `flock(2)` of `lock_owner`. `lock_owner` is `None` unless `flush` or
        /// `flock_release` is set.
        fn release(
            &self, ctx: Context, inode: Self::Inode, flags: u32, handle: Self::Handle, flush: bool,
            flock_release: bool, lock_owner: Option<u64>,
        ) -> io::Result<()>;

        /// Returns statistics. By default they are zeros, except blocks of 512 bytes and names of 255 bytes.
        fn statfs(&self, ctx: Context, inode: Self::Inode) -> io::Result<Statvfs> {
            Ok(Statvfs { f_bsize: 512, f_namemax: 255, ..Statvfs::default() })
        }

        /// Sets an extended attribute. The flags are those of `setxattr(2)`.
        fn setxattr(
            &self, ctx: Context, inode: Self::Inode, name: &CStr, value: &[u8], flags: u32,
            extra_flags: SetxattrFlags,
        ) -> io::Result<()>;

        /// Returns an extended attribute. A file system can ignore `size`, because it may return a
        /// [`Value`](GetxattrReply::Value) in any case: if `size` is 0, the length of the value is sent, and
        /// if the value is longer than `size`, the reply is ERANGE.
        fn getxattr(
            &self, ctx: Context, inode: Self::Inode, name: &CStr, size: u32,
        ) -> io::Result<GetxattrReply>;

        /// Returns the names of all extended attributes. A file system can ignore `size`, because it may
        /// return [`Names`](ListxattrReply::Names) in any case: if `size` is 0, the length of the list is
        /// sent, and if the list is longer than `size`, the reply is ERANGE.
        fn listxattr(&self, ctx: Context, inode: Self::Inode, size: u32) -> io::Result<ListxattrReply>;

        /// Removes an extended attribute.
        fn removexattr(&self, ctx: Context, inode: Self::Inode, name: &CStr) -> io::Result<()>;

        /// Opens a directory. By default it succeeds without a handle.
        fn opendir(
            &self, ctx: Context, inode: Self::Inode, flags: u32,
        ) -> io::Result<(Option<Self::Handle>, OpenOptions)> {
            Ok((None, OpenOptions::empty()))
        }

        /// Returns the items of a directory after a position, which is that of an earlier item, or 0. For a
        /// READDIRPLUS the server looks each up, except `.` and `..`.
        fn readdir(
            &self, ctx: Context, inode: Self::Inode, handle: Self::Handle, size: u32, offset: u64,
        ) -> io::Result<Self::DirIter>;

        /// Synchronizes a directory.
        fn fsyncdir(
            &self, ctx: Context, inode: Self::Inode, datasync: bool, handle: Self::Handle,
        ) -> io::Result<()>;

        /// Closes a directory.
        fn releasedir(
            &self, ctx: Context, inode: Self::Inode, flags: u32, handle: Self::Handle,
        ) -> io::Result<()>;

        /// Checks whether the caller has the permissions in `mask`, as `access(2)`.
        fn access(&self, ctx: Context, inode: Self::Inode, mask: u32) -> io::Result<()>;

        /// Finds data or holes, as `lseek(2)`.
        fn lseek(
            &self, ctx: Context, inode: Self::Inode, handle: Self::Handle, offset: u64, whence: u32,
        ) -> io::Result<u64>;

        /// Copies from one file to another, as `copy_file_range(2)`, and returns the number of bytes. Unless
        /// [`COPY_64`](Features::COPY_64) is enabled, `len` is at most `0xffff_f000`, because the reply has
        /// 32 bits for the count.
        fn copyfilerange(
            &self, ctx: Context, inode_in: Self::Inode, handle_in: Self::Handle, offset_in: u64,
            inode_out: Self::Inode, handle_out: Self::Handle, offset_out: u64, len: u64, flags: u64,
        ) -> io::Result<usize>;

        /// Synchronizes the file system.
        fn syncfs(&self, ctx: Context, inode: Self::Inode) -> io::Result<()>;
    }

    /// Returns the optional operations that the file system serves, which virtiofsd does not. They must not
    /// change during a session. By default the set is empty.
    ///
    /// If the reply to `bmap`, `poll`, `statx`, `tmpfile` or a copy of 64 bits is ENOSYS, Linux does not
    /// request that operation again during the session. If the reply to `getlk`, `setlk` or `ioctl` is
    /// ENOSYS, only that caller's operation fails, and Linux requests later ones.
    fn features(&self) -> Features {
        Features::empty()
    }

    /// Returns limits, which the reply to the INIT has. It is called after [`init`](Self::init). By default
    /// they are those of virtiofsd.
    fn limits(&self) -> Limits {
        Limits::default()
    }

    /// Receives the client, before the first request, so that it can send notices by [`Client::notifier`],
    /// which it should keep. [`Server::serve`](crate::Server::serve) and a mount call it once per session, and
    /// again only if all threads ended and serving begins anew. By default it does nothing.
    fn begin(&self, client: &Client) {}

    /// Takes a call, so that it can be answered later on any thread, by its [`To`](crate::To) and
    /// [`Client::send`]. If it returns the call instead, which it does by default, the server makes it by its
    /// method before this thread reads another request. [`Server::serve`](crate::Server::serve) and a mount
    /// call it for each request except INIT and DESTROY.
    ///
    /// A call that was taken must be answered: if its [`To`](crate::To) is dropped, its caller waits forever.
    /// So `take` must answer a lock itself if it is free by then, because nobody may remove a lock later.
    /// Calls that are still unanswered at [`destroy`](Self::destroy) need no answer, and replies to them are
    /// dropped.
    ///
    /// An [`interrupt`](Self::interrupt) has the number of the call, `ctx.unique`. If there are several
    /// threads, it may come before the call is taken. So `take` must check [`Client::was_interrupted`] under
    /// the lock under which `interrupt` searches for the call.
    ///
    /// ```
    /// use nizwarf::{kinds, Call, Client, Context, Errno, Features, FileSystem, FsOptions, NoEntries};
    /// use nizwarf::{Scratch, To};
    /// use std::io;
    /// use std::sync::Mutex;
    ///
    /// /// A call that waits, with its number.
    /// struct Waiting(u64, To<kinds::Status>, Client);
    ///
    /// impl Waiting {
    ///     fn answer(self, result: io::Result<()>) {
    ///         // An error cannot be reported to anybody.
    ///         let _ = self.2.send(self.1.answer(&mut Scratch::new(), result).reply());
    ///     }
    /// }
    ///
    /// #[derive(Default)]
    /// struct State {
    ///     is_locked: bool,
    ///     waiting: Vec<Waiting>,
    /// }
    ///
    /// /// One lock, for which calls wait. (A true file system has locks for each node and owner.)
    /// #[derive(Default)]
    /// struct Locks(Mutex<State>);
    ///
    /// impl Locks {
    ///     /// Removes the lock, and gives it to a call that waits.
    ///     fn unlock(&self) {
    ///         let mut state = self.0.lock().unwrap();
    ///         let next = state.waiting.pop();
    ///         state.is_locked = next.is_some();
    ///         if let Some(next) = next {
    ///             next.answer(Ok(()));
    ///         }
    ///     }
    /// }
    ///
    /// impl FileSystem for Locks {
    ///     type Inode = u64;
    ///     type Handle = u64;
    ///     type DirIter = NoEntries;
    ///
    ///     fn init(&self, _: FsOptions) -> io::Result<FsOptions> {
    ///         Ok(FsOptions::POSIX_LOCKS)
    ///     }
    ///
    ///     fn features(&self) -> Features {
    ///         Features::LOCKS
    ///     }
    ///
    ///     fn take<'r>(&self, ctx: Context, call: Call<'r>, client: &Client) -> Option<Call<'r>> {
    ///         match call {
    ///             Call::Setlkw { to, .. } => {
    ///                 let mut state = self.0.lock().unwrap();
    ///                 let waiting = Waiting(ctx.unique, to, client.clone());
    ///                 if !state.is_locked {
    ///                     state.is_locked = true;
    ///                     waiting.answer(Ok(()));
    ///                 } else if client.was_interrupted(ctx.unique) {
    ///                     waiting.answer(Err(Errno::EINTR.into()));
    ///                 } else {
    ///                     state.waiting.push(waiting);
    ///                 }
    ///                 None
    ///             }
    ///             other => Some(other),
    ///         }
    ///     }
    ///
    ///     fn interrupt(&self, unique: u64) {
    ///         let mut state = self.0.lock().unwrap();
    ///         if let Some(at) = state.waiting.iter().position(|waiting| waiting.0 == unique) {
    ///             state.waiting.remove(at).answer(Err(Errno::EINTR.into()));
    ///         }
    ///     }
    /// }
    /// # Locks::default().unlock();
    /// ```
    fn take<'r>(&self, ctx: Context, call: Call<'r>, client: &Client) -> Option<Call<'r>> {
        Some(call)
    }

    methods! {
        /// Returns a lock that conflicts with this one, or this one with [`LockType::Unlock`] if there is no
        /// conflict. This and the methods after it are called only if their operation is
        /// [enabled](Self::features).
        ///
        /// [`LockType::Unlock`]: crate::LockType::Unlock
        fn getlk(
            &self, ctx: Context, inode: Self::Inode, handle: Self::Handle, lock_owner: u64, lock: Lock,
        ) -> io::Result<Lock>;

        /// Sets or removes a lock. It replaces the locks that this owner has of these bytes, so that a lock
        /// may be split or converted. If it conflicts with a lock of another owner, it must return EAGAIN, or
        /// with `wait` block until there is no conflict or an [`interrupt`](Self::interrupt) ends it with
        /// EINTR. With `flock` the lock is one of `flock(2)`, of the whole file, and conflicts only with other
        /// locks of `flock(2)`.
        ///
        /// [`flush`](Self::flush) and [`release`](Self::release) must release locks, too.
        ///
        /// While it blocks, its thread serves no other request, not even the one that removes the other lock.
        /// So a file system should [`take`](Self::take) a [`Call::Setlkw`] that must wait.
        fn setlk(
            &self, ctx: Context, inode: Self::Inode, handle: Self::Handle, lock_owner: u64, lock: Lock,
            wait: bool, flock: bool,
        ) -> io::Result<()>;

        /// Returns the number of the device's block in which this block of a file is stored.
        fn bmap(&self, ctx: Context, inode: Self::Inode, block: u64, block_size: u32) -> io::Result<u64>;

        /// Carries out a command of `ioctl(2)`, whose third argument is `arg`. Linux copied `input` from
        /// there, and copies at most `output_size` bytes back. Both lengths are those in `cmd`, unless
        /// [`UNRESTRICTED`](IoctlFlags::UNRESTRICTED) is set. An unknown command should return ENOTTY.
        fn ioctl(
            &self, ctx: Context, inode: Self::Inode, handle: Self::Handle, flags: IoctlFlags, cmd: u32,
            arg: u64, input: &[u8], output_size: u32,
        ) -> io::Result<IoctlReply>;

        /// Returns which of the events have occurred, by the bits of `poll(2)`, such as
        /// [`POLLIN`](crate::consts::POLLIN). It must not block.
        ///
        /// If there is a `wake`, somebody waits for events of this open file, and the file system must pass it
        /// once to [`Notifier::wake`](crate::Notifier::wake) when one occurs later. Linux then polls the file
        /// again, with another `wake` if somebody still waits. A later one for an open file replaces the
        /// earlier one. `wake` is `None` if nobody waits, for example because the timeout is 0.
        ///
        /// The notice may be sent inside a call, such as the WRITE that makes the file readable. A file that
        /// is polled should be opened with [`DIRECT_IO`](OpenOptions::DIRECT_IO), because otherwise reads may
        /// come from the cache, and the file system does not learn of them.
        fn poll(
            &self, ctx: Context, inode: Self::Inode, handle: Self::Handle, wake: Option<PollHandle>,
            events: u32,
        ) -> io::Result<u32>;

        /// Returns attributes, with the time of birth, and how long they are valid. `flags` are those of
        /// `statx(2)`, and `mask` has the attributes that are wanted. Linux calls it if these are more than
        /// [`Statx::BASIC`].
        fn statx(
            &self, ctx: Context, inode: Self::Inode, handle: Option<Self::Handle>, flags: u32, mask: u32,
        ) -> io::Result<(Statx, Duration)>;

        /// Creates and opens a file without a name in the file system of `parent`, as
        /// [`create`](Self::create). Linux sends `/` as `name`.
        fn tmpfile(
            &self, ctx: Context, parent: Self::Inode, name: &CStr, mode: u32, kill_priv: bool, flags: u32,
            umask: u32, extensions: Extensions,
        ) -> io::Result<(Entry, Option<Self::Handle>, OpenOptions)>;
    }

    /// Receives the data that [`Notifier::retrieve`](crate::Notifier::retrieve) requested with this number:
    /// those that the client caches from `offset` on. By default it does nothing.
    fn notify_reply(&self, unique: u64, inode: Self::Inode, offset: u64, data: &[u8]) {}
}

/// No items.
#[derive(Clone, Copy, Debug, Default)]
pub struct NoEntries;

impl DirectoryIterator for NoEntries {
    fn next(&mut self) -> Option<DirEntry<'_>> {
        None
    }
}
