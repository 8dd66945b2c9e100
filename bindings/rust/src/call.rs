//! The table of calls, and the types and functions that are generated from it.
#![forbid(unsafe_code)]

use crate::answer::{Encoded, To};
use crate::attr::SetattrIn;
use crate::bytes::{Bytes, Forgets};
use crate::ffi::{Pending, Range, RawCall, Scratch};
use crate::file_system::{Context, Extensions, SecContext};
use crate::flags::{FsOptions, IoctlFlags, SetattrValid, SetxattrFlags};
use crate::kinds;
use crate::numbers::{has, kind};
use crate::optional::{Lock, LockType, PollHandle};
use std::borrow::Cow;
use std::ffi::CStr;
use std::io::{self, IoSlice};

/// A request that needs a call of the file system. The arguments of the call borrow the request. Its field
/// `to`, which answers it, borrows nothing.
#[must_use = "the client waits for the reply"]
#[derive(Debug)]
pub struct PendingCall<'r> {
    /// The caller. Only `unique` is set for INIT, DESTROY and [`Call::Unknown`].
    pub context: Context,
    /// The call.
    pub call: Call<'r>,
}

/// The slices of a request.
type Request<'r> = &'r [IoSlice<'r>];

/// The call of the library that is converted to a [`Call`]. It has a function for each field of a variant,
/// which returns the value of the library's field that the header documents for this call.
struct Decoder<'c, 'r> {
    raw: &'c RawCall,
    request: Request<'r>,
}

/// Declares the functions of [`Decoder`] that return a field of the call of the library, or whether it has a
/// bit, and `type_of!`, which has their types, and those of the others, which are below.
macro_rules! decoder {
    (
        fields { $($field:ident: $type:ty { $($name:ident)* })* }
        bits { $(has::$BIT:ident: $bit:ident)* }
        others { $($result:ty { $($other:ident)* })* }
    ) => {
        impl Decoder<'_, '_> {
            $($(fn $name(&self) -> $type {
                self.raw.$field
            })*)*

            $(fn $bit(&self) -> bool {
                self.raw.has & has::$BIT != 0
            })*
        }

        macro_rules! type_of {
            $($(($name) => { $type };)*)*
            $(($bit) => { bool };)*
            $($(($other) => { $result };)*)*
        }
    };
}

decoder! {
    fields {
        attr: SetattrIn { attr }
        flags: u32 { flags }
        handle: u64 { handle handle_in }
        length: u64 { count len length }
        lock_owner: u64 { copy_flags owner }
        mode: u32 { mode }
        more: u32 { cmd events mask whence }
        node: u64 { node node_in parent }
        offset: u64 { offset offset_in }
        other_handle: u64 { handle_out }
        other_node: u64 { new_parent node_out }
        other_offset: u64 { offset_out }
        rdev: u32 { rdev }
        readahead: u32 { readahead }
        size: u32 { size }
        umask: u32 { umask }
    }

    bits {
        has::CONTEXT: has_context
        has::FSYNC_FDATASYNC: datasync
        has::WRITE_CACHE: delayed_write
        has::LK_FLOCK: flock
        has::RELEASE_FLOCK_UNLOCK: flock_release
        has::RELEASE_FLUSH: flush
        has::GROUP: has_group
        has::HANDLE: has_handle
        has::KILL_SUIDGID: kill_priv
        has::OWNER: has_owner
        has::PLUS: plus
    }

    others {
        Bytes<'r> { data }
        Cow<'r, CStr> { linkname name new_name }
        Cow<'r, [u8]> { value }
        Extensions { extensions }
        Forgets<'r> { forgets }
        FsOptions { capable }
        IoctlFlags { ioctl_flags }
        Lock { lock }
        Option<PollHandle> { wake }
        Option<u64> { handle_if_any lock_owner }
        SetattrValid { valid }
        SetxattrFlags { extra_flags }
    }
}

/// Declares [`Call`] by a table, and the macros and functions that need all calls.
///
/// For each call the table has the number in the header, the variant with its fields, and the kind of its
/// answer. If the answer is the result of a method, it also has how that is called; the others are made in
/// `make.rs`. Those of an optional method are calls that virtiofsd does not serve. A field has the type and
/// the value that [`Decoder`] has for its name, or for the name after `=`.
macro_rules! calls {
    (
        $(#[$about:meta])*
        pub enum Call<$r:lifetime>;
        $(#[$about_make:meta])*
        by_method { $($made:tt)* }
        by_optional_method { $($optional:tt)* }
        by_server { $($other:tt)* }
    ) => {
        declare_call! { $(#[$about])* pub enum Call<$r>; $($made)* $($optional)* $($other)* }
        declare_make! {
            $(#[$about_make])*
            #[macro_export]
            make_call: $($made)*
        }
        declare_make! {
            /// Makes a call of an optional operation, as [`make_call`].
            make_optional_call: $($optional)*
        }
    };
}

macro_rules! declare_call {
    (
        $(#[$about:meta])*
        pub enum Call<$r:lifetime>;
        $(
            $(#[$doc:meta])*
            $NUMBER:ident = $number:literal:
            $Name:ident { $($field:ident $(= $function:ident)?),* $(,)? } -> $kind:ident
            $(by $method:ident($($argument:tt)*))?;
        )*
    ) => {
        /// The numbers of calls in the header. Each is that of the opcode.
        pub(crate) mod number {
            $(pub const $NUMBER: u32 = $number;)*
        }

        $(#[$about])*
        pub enum Call<$r> {
            $($(#[$doc])* $Name { $($field: field!(type $field $($function)?),)* to: To<kinds::$kind> },)*
            /// A call of an optional operation that is not [enabled](crate::Features), of a lock of unknown
            /// type, or of a later version of the library. It can only fail, and should fail with ENOSYS.
            Unknown { number: u32, to: To<kinds::Error> },
        }

        /// Converts a call of the library. (If it is inlined, the fields of all variants are merged in
        /// registers, which takes longer.)
        #[inline(never)]
        pub(crate) fn call_of(pending: Box<Pending>, request: Request<'_>) -> Call<'_> {
            let decoder = Decoder { raw: &pending.call, request };
            match decoder.raw.opcode {
                number if decoder.is_unknown() => Call::Unknown { number, to: To::new(pending) },
                $(number::$NUMBER => Call::$Name {
                    $($field: field!(decoder $field $($function)?),)*
                    to: To::new(pending),
                },)*
                number => Call::Unknown { number, to: To::new(pending) },
            }
        }

        impl Call<'_> {
            /// Converts to the kind that can answer the call with an error only.
            fn into_error(self) -> To<kinds::Error> {
                match self {
                    $(Call::$Name { to, .. } => to.into_error(),)*
                    Call::Unknown { to, .. } => to,
                }
            }

            /// Returns the number of the request.
            #[must_use]
            pub fn unique(&self) -> u64 {
                match self {
                    $(Call::$Name { to, .. } => to.unique(),)*
                    Call::Unknown { to, .. } => to.unique(),
                }
            }
        }
    };
}

/// The type of a field of a call, and its value: those of the function of [`Decoder`] that has its name, or
/// the name after `=`.
macro_rules! field {
    (type $name:ident) => {
        type_of!($name)
    };
    (type $name:ident $function:ident) => {
        type_of!($function)
    };
    ($decoder:ident $name:ident) => {
        $decoder.$name()
    };
    ($decoder:ident $name:ident $function:ident) => {
        $decoder.$function()
    };
}

/// Declares a macro that makes calls by methods of a file system.
macro_rules! declare_make {
    (
        $(#[$about:meta])*
        $make:ident:
        $(
            $(#[$doc:meta])*
            $NUMBER:ident = $number:literal:
            $Name:ident { $($field:ident $(= $function:ident)?),* $(,)? } -> $kind:ident
            by $method:ident($($argument:tt)*);
        )*
    ) => {
        $(#[$about])*
        macro_rules! $make {
            ($call:expr, $scratch:expr, $server:expr, $context:expr, $other:ident => $rest:expr) => {
                match $call {
                    $($crate::Call::$Name { $($field,)* to } => to.answer(
                        $scratch,
                        $server.call(|files| files.$method($context, $($argument)*)),
                    ),)*
                    $other => $rest,
                }
            };
        }
    };
}

calls! {
    /// A call: its arguments, and the [`To`] that answers it.
    ///
    /// ```
    /// use nizwarf::{Attr, Call, Decoded, Scratch, Session};
    /// use std::io::{Error, IoSlice};
    /// use std::time::Duration;
    ///
    /// /// Answers a GETATTR, and refuses other calls.
    /// fn answer(scratch: &mut Scratch, call: Call<'_>) -> usize {
    ///     let encoded = match call {
    ///         Call::Getattr { node, to, .. } => {
    ///             let attr = Attr { ino: node, mode: 0o100_644, nlink: 1, ..Attr::default() };
    ///             to.answer(scratch, Ok((attr, Duration::from_secs(1))))
    ///         }
    ///         other => other.fail(scratch, &Error::from_raw_os_error(38)),
    ///     };
    ///     encoded.reply().len()
    /// }
    ///
    /// let mut scratch = Scratch::new();
    /// for (opcode, len) in [(3, 16 + 104), (5, 16)] {
    ///     let mut request = [0; 56];
    ///     (request[0], request[4], request[16]) = (56, opcode, 5);
    ///     let request = [IoSlice::new(&request)];
    ///     match scratch.decode(&Session::default(), &request, 4096) {
    ///         Decoded::Call(pending) => assert_eq!(answer(&mut scratch, pending.call), len),
    ///         Decoded::Finished(done) => panic!("{done:?}"),
    ///     }
    /// }
    /// ```
    ///
    /// The fields are named as the arguments of [`FileSystem`](crate::FileSystem), and mean the same in each
    /// call:
    ///
    /// | Field | |
    /// |---|---|
    /// | `node` | the number of the node that the call is about |
    /// | `parent` | the number of the directory of the name |
    /// | `name` | a name; the file system decides whether it accepts `.`, `..` or a `/` in it |
    /// | `handle` | a handle that OPEN, OPENDIR or CREATE returned |
    /// | `flags` | the flags of `open(2)`, of `renameat2(2)` or of `setxattr(2)` |
    /// | `mode`, `rdev`, `umask` | the type and permissions, the device number, and the mask of `mknod(2)` |
    /// | `offset` | an offset in a file in bytes; in a directory, that of the last item, or 0 |
    /// | `size` | how many bytes to read at most, or to write |
    /// | `lock_owner` | the owner of a lock: of a POSIX lock the process, of one of `flock(2)` the open file |
    /// | `kill_priv` | whether to clear the set-user-ID and set-group-ID bits |
    /// | `to` | answers the call; the type says with what |
    ///
    /// (Strictly, the owner of a POSIX lock is the table of descriptors, `files_struct`, which `clone(2)` may
    /// let several processes share.)
    #[non_exhaustive]
    #[allow(missing_docs)] // of fields: the table above documents them
    #[must_use = "the client waits for the reply"]
    #[derive(Debug)]
    pub enum Call<'r>;

    /// Makes a call by a method of a file system, and answers it with the result: `make_call!(call,
    /// scratch, server, context, other => rest)`.
    ///
    /// The method is that of [`FileSystem`](crate::FileSystem), or, of another trait, one with the
    /// same name and arguments, whose types may be others that have `From` for those here.
    /// `server.call(|files| ..)` calls the closure with the file system, and returns its result, in
    /// the types of this crate. `rest` must make and encode all other calls, because their answer is not
    /// the result of a method: those that open, create, read or write a file, open or list a
    /// directory, read a link, drop lookups, or begin or end the session; [optional
    /// operations](crate::Features), and unknown calls.
    ///
    /// ```
    /// use nizwarf::{make_call, Call, Context, Decoded, Encoded, Errno, FileSystem, NoEntries};
    /// use nizwarf::{Scratch, Session};
    /// use std::io::{self, IoSlice};
    ///
    /// /// Serves all but a few calls.
    /// struct Few<F>(F);
    ///
    /// impl<F: FileSystem> Few<F> {
    ///     fn call<T>(&self, call: impl FnOnce(&F) -> io::Result<T>) -> io::Result<T> {
    ///         call(&self.0)
    ///     }
    ///
    ///     fn make<'s>(&self, scratch: &'s mut Scratch, context: Context, call: Call<'_>) -> Encoded<'s> {
    ///         make_call!(call, scratch, self, context, other => other.fail(scratch, &Errno::ENOSYS.into()))
    ///     }
    /// }
    ///
    /// struct Nothing;
    ///
    /// impl FileSystem for Nothing {
    ///     type Inode = u64;
    ///     type Handle = u64;
    ///     type DirIter = NoEntries;
    /// }
    ///
    /// let mut request = [0; 40];
    /// (request[0], request[4], request[8]) = (40, 17, 7); // STATFS
    /// let mut scratch = Scratch::new();
    /// if let Decoded::Call(pending) = scratch.decode(&Session::default(), &[IoSlice::new(&request)], 96) {
    ///     let encoded = Few(Nothing).make(&mut scratch, pending.context, pending.call);
    ///     assert_eq!(encoded.reply().len(), 16 + 80);
    /// }
    /// # else { panic!() }
    /// ```
    by_method {
        /// Looks a name up.
        LOOKUP = 1: Lookup { parent, name } -> Entry
            by lookup(parent.into(), &name);
        /// Returns attributes.
        GETATTR = 3: Getattr { node, handle = handle_if_any } -> Attr
            by getattr(node.into(), handle.map(Into::into));
        /// Sets the attributes that `valid` names.
        SETATTR = 4: Setattr { node, attr, handle = handle_if_any, valid } -> Attr
            by setattr(node.into(), attr.into(), handle.map(Into::into), valid.into());
        /// Creates a symbolic link to `linkname`.
        SYMLINK = 6: Symlink { linkname, parent, name, extensions } -> Entry
            by symlink(&linkname, parent.into(), &name, extensions.into());
        /// Creates a node.
        MKNOD = 8: Mknod { parent, name, mode, rdev, umask, extensions } -> Entry
            by mknod(parent.into(), &name, mode, rdev, umask, extensions.into());
        /// Creates a directory.
        MKDIR = 9: Mkdir { parent, name, mode, umask, extensions } -> Entry
            by mkdir(parent.into(), &name, mode, umask, extensions.into());
        /// Removes a name.
        UNLINK = 10: Unlink { parent, name } -> Status
            by unlink(parent.into(), &name);
        /// Removes a directory.
        RMDIR = 11: Rmdir { parent, name } -> Status
            by rmdir(parent.into(), &name);
        /// Renames a node.
        RENAME = 12: Rename { parent, name, new_parent, new_name, flags } -> Status
            by rename(parent.into(), &name, new_parent.into(), &new_name, flags);
        /// Creates a hard link.
        LINK = 13: Link { node, new_parent, new_name = name } -> Entry
            by link(node.into(), new_parent.into(), &new_name);
        /// Returns statistics of the file system.
        STATFS = 17: Statfs { node } -> Statfs
            by statfs(node.into());
        /// Closes a file. If `flush` is set, it must be flushed as by a FLUSH; if `flock_release` is set, the
        /// locks of `flock(2)` of `lock_owner` must be released. `lock_owner` is `None` unless one of both is
        /// set.
        RELEASE = 18: Release { node, flags, handle, flush, flock_release, lock_owner } -> Status
            by release(node.into(), flags, handle.into(), flush, flock_release, lock_owner);
        /// Synchronizes a file, or only its data if `datasync` is set.
        FSYNC = 20: Fsync { node, datasync, handle } -> Status
            by fsync(node.into(), datasync, handle.into());
        /// Sets an extended attribute.
        SETXATTR = 21: Setxattr { node, name, value, flags, extra_flags } -> Status
            by setxattr(node.into(), &name, &value, flags, extra_flags.into());
        /// Returns an extended attribute, or its length if `size` is 0.
        GETXATTR = 22: Getxattr { node, name, size } -> BytesOrSize
            by getxattr(node.into(), &name, size);
        /// Returns the names of all extended attributes, each with a NUL, or their length if `size` is 0.
        LISTXATTR = 23: Listxattr { node, size } -> BytesOrSize
            by listxattr(node.into(), size);
        /// Removes an extended attribute.
        REMOVEXATTR = 24: Removexattr { node, name } -> Status
            by removexattr(node.into(), &name);
        /// A descriptor of an open file is closed. The POSIX locks of `lock_owner` on this file must be
        /// released, because Linux sends no SETLK for that.
        FLUSH = 25: Flush { node, handle, lock_owner = owner } -> Status
            by flush(node.into(), handle.into(), lock_owner);
        /// Closes a directory.
        RELEASEDIR = 29: Releasedir { node, flags, handle } -> Status
            by releasedir(node.into(), flags, handle.into());
        /// Synchronizes a directory.
        FSYNCDIR = 30: Fsyncdir { node, datasync, handle } -> Status
            by fsyncdir(node.into(), datasync, handle.into());
        /// Checks whether the caller has the permissions in `mask`, as `access(2)`.
        ACCESS = 34: Access { node, mask } -> Status
            by access(node.into(), mask);
        /// Allocates or deallocates space of a file, as `fallocate(2)`.
        FALLOCATE = 43: Fallocate { node, handle, mode, offset, length } -> Status
            by fallocate(node.into(), handle.into(), mode, offset, length);
        /// Finds data or holes, as `lseek(2)`.
        LSEEK = 46: Lseek { node, handle, offset, whence } -> Offset
            by lseek(node.into(), handle.into(), offset, whence);
        /// Copies from one file to another, as `copy_file_range(2)`. The reply has 32 bits for the count, so
        /// [`make_call!`](crate::make_call) has at most `0xffff_f000` bytes copied.
        COPY = 47: CopyFileRange {
            node_in, handle_in, offset_in, node_out, handle_out, offset_out, len, flags = copy_flags,
        } -> Count
            by copyfilerange(
                node_in.into(), handle_in.into(), offset_in, node_out.into(), handle_out.into(), offset_out,
                len.min(0xffff_f000), flags
            );
        /// Synchronizes the file system.
        SYNCFS = 50: Syncfs { node } -> Status
            by syncfs(node.into());
    }

    by_optional_method {
        /// Returns a lock that conflicts with this one.
        GETLK = 31: Getlk { node, handle, lock_owner = owner, lock } -> Lock
            by getlk(node.into(), handle.into(), lock_owner, lock);
        /// Sets or removes a lock. With `flock` it is one of `flock(2)`.
        SETLK = 32: Setlk { node, handle, lock_owner = owner, lock, flock } -> Status
            by setlk(node.into(), handle.into(), lock_owner, lock, false, flock);
        /// Sets or removes a lock, and waits for that. With `flock` it is one of `flock(2)`.
        SETLKW = 33: Setlkw { node, handle, lock_owner = owner, lock, flock } -> Status
            by setlk(node.into(), handle.into(), lock_owner, lock, true, flock);
        /// Maps a block of a file.
        BMAP = 37: Bmap { node, block = offset, block_size = size } -> Offset
            by bmap(node.into(), block, block_size);
        /// Carries out a command of `ioctl(2)`.
        IOCTL = 39: Ioctl {
            node, handle, flags = ioctl_flags, cmd, arg = offset, input = value, output_size = size,
        } -> Ioctl
            by ioctl(node.into(), handle.into(), flags, cmd, arg, &input, output_size);
        /// Returns which of the events have occurred.
        POLL = 40: Poll { node, handle, wake, events } -> Poll
            by poll(node.into(), handle.into(), wake, events);
        /// Returns attributes with the time of birth.
        STATX = 52: Statx { node, handle = handle_if_any, flags, mask } -> Statx
            by statx(node.into(), handle.map(Into::into), flags, mask);
        /// Copies as [`CopyFileRange`](Call::CopyFileRange), but with 64 bits for the count.
        COPY_64 = 53: CopyFileRange64 {
            node_in, handle_in, offset_in, node_out, handle_out, offset_out, len, flags = copy_flags,
        } -> Count64
            by copyfilerange(
                node_in.into(), handle_in.into(), offset_in, node_out.into(), handle_out.into(), offset_out, len,
                flags
            );
    }

    by_server {
        /// Drops `count` lookups of a node.
        FORGET = 2: Forget { node, count } -> NoReply;
        /// Reads the text of a symbolic link.
        READLINK = 5: Readlink { node } -> Bytes;
        /// Opens a file.
        OPEN = 14: Open { node, kill_priv, flags } -> Open;
        /// Reads data. The caller must put them into the reply buffer, after its first 16 bytes.
        READ = 15: Read { node, handle, size, offset, lock_owner, flags } -> Data;
        /// Writes `data`: `size` bytes, or fewer if the request is shorter. `delayed_write` is set if they
        /// come from the cache of the client.
        WRITE = 16: Write {
            node, handle, data, size, offset, lock_owner, delayed_write, kill_priv, flags,
        } -> Count;
        /// Begins a session. `capable` are the options of which the client is capable, and `readahead` is its
        /// limit for reading ahead, in bytes.
        INIT = 26: Init { capable, readahead } -> Init;
        /// Opens a directory.
        OPENDIR = 27: Opendir { node, flags } -> Open;
        /// Lists a directory, in records of at most `size` bytes in all. With `plus`, each has an entry.
        READDIR = 28: Readdir { node, handle, size, offset, plus } -> Directory;
        /// Creates and opens a file.
        CREATE = 35: Create { parent, name, mode, kill_priv, flags, umask, extensions } -> Create;
        /// Ends the session. The client has then forgotten all lookups.
        DESTROY = 38: Destroy {} -> Destroy;
        /// Delivers the data that [`Notifier::retrieve`](crate::Notifier::retrieve) requested with the number
        /// `unique` of the context.
        NOTIFY_REPLY = 41: NotifyReply { node, offset, data } -> NoReply;
        /// Drops lookups of many nodes.
        BATCH_FORGET = 42: BatchForget { forgets } -> NoReply;
        /// Creates and opens a file without a name. `name` has no meaning and should be ignored.
        TMPFILE = 51: Tmpfile { parent, name, mode, kill_priv, flags, umask, extensions } -> Create;
    }
}

impl Call<'_> {
    /// Answers with an error, as [`To::fail`].
    ///
    /// ```
    /// use nizwarf::{Decoded, Scratch, Session};
    /// use std::io::{Error, IoSlice};
    ///
    /// let mut request = [0; 40];
    /// (request[0], request[4], request[8]) = (40, 17, 7); // STATFS
    /// let mut scratch = Scratch::new();
    /// if let Decoded::Call(pending) = scratch.decode(&Session::default(), &[IoSlice::new(&request)], 96) {
    ///     let mut reply = pending.call.fail(&mut scratch, &Error::from_raw_os_error(13)).reply();
    ///     assert_eq!(reply.bytes()[4..8], (-13_i32).to_le_bytes());
    /// }
    /// # else { panic!() }
    /// ```
    pub fn fail<'s>(self, scratch: &'s mut Scratch, error: &io::Error) -> Encoded<'s> {
        self.into_error().fail(scratch, error)
    }
}

impl<'r> Decoder<'_, 'r> {
    /// Returns whether the call has no name here, or can only fail.
    fn is_unknown(&self) -> bool {
        let RawCall { opcode, reply, flags, .. } = *self.raw;
        match opcode {
            number::GETLK | number::SETLK | number::SETLKW if LockType::of(flags).is_none() => true,
            _ => matches!(reply, kind::ERROR | kind::ERROR_OR_NONE),
        }
    }

    fn lock(&self) -> Lock {
        let RawCall { offset: start, other_offset: end, flags, more: pid, .. } = *self.raw;
        // (a call of another type is unknown)
        Lock { start, end, kind: LockType::of(flags).unwrap_or(LockType::Unlock), pid }
    }

    fn wake(&self) -> Option<PollHandle> {
        const FUSE_POLL_SCHEDULE_NOTIFY: u32 = 1;
        let waits = self.raw.flags & FUSE_POLL_SCHEDULE_NOTIFY != 0;
        waits.then_some(PollHandle(self.raw.offset))
    }

    fn ioctl_flags(&self) -> IoctlFlags {
        IoctlFlags::from_bits_truncate(self.raw.flags)
    }

    fn handle_if_any(&self) -> Option<u64> {
        self.has_handle().then_some(self.raw.handle)
    }

    fn lock_owner(&self) -> Option<u64> {
        self.has_owner().then_some(self.raw.lock_owner)
    }

    fn bytes(&self, range: Range) -> Bytes<'r> {
        let size = |number| usize::try_from(number).unwrap_or(usize::MAX);
        Bytes::new(self.request, size(range.at), size(range.len))
    }

    /// Returns the name in a range, which a NUL follows.
    fn text(&self, range: Range) -> Cow<'r, CStr> {
        self.bytes(Range { len: range.len.saturating_add(1), ..range }).to_name()
    }

    fn name(&self) -> Cow<'r, CStr> {
        self.text(self.raw.name)
    }

    fn new_name(&self) -> Cow<'r, CStr> {
        self.text(self.raw.other_name)
    }

    fn linkname(&self) -> Cow<'r, CStr> {
        self.text(self.raw.other_name)
    }

    fn data(&self) -> Bytes<'r> {
        self.bytes(self.raw.data).first(self.raw.size as usize)
    }

    fn value(&self) -> Cow<'r, [u8]> {
        self.bytes(self.raw.data).to_cow()
    }

    fn forgets(&self) -> Forgets<'r> {
        Forgets::new(self.bytes(self.raw.data))
    }

    fn valid(&self) -> SetattrValid {
        SetattrValid::from_bits_truncate(self.raw.flags)
    }

    fn extra_flags(&self) -> SetxattrFlags {
        SetxattrFlags::from_bits_truncate(self.raw.more)
    }

    fn capable(&self) -> FsOptions {
        // (the latter are options that the library does not decode itself)
        FsOptions::from_bits_truncate(self.raw.length | self.raw.other_offset)
    }

    fn extensions(&self) -> Extensions {
        Extensions {
            secctx: self.has_context().then(|| SecContext {
                name: self.text(self.raw.context_name).into_owned(),
                secctx: self.bytes(self.raw.context).to_cow().into_owned(),
            }),
            sup_gid: self.has_group().then_some(self.raw.group),
        }
    }
}

/// The caller of a call of the library.
pub(crate) fn context_of(call: &RawCall) -> Context {
    let RawCall { uid, gid, pid, unique, .. } = *call;
    Context { uid, gid, pid, unique }
}
