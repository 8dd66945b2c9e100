//! Sets of bits of the protocol.
#![forbid(unsafe_code)]

use std::fmt;
use std::ops::{BitAnd, BitOr, BitOrAssign, Sub};

/// Implements operators of sets by those of their bits.
macro_rules! operators {
    ($($name:ident: $Operator:ident $operator:ident [$($of_bits:tt)*] $($Assign:ident $assign:ident)?;)*) => {$(
        impl $Operator for $name {
            type Output = Self;

            fn $operator(self, other: Self) -> Self {
                Self(self.0 $($of_bits)* other.0)
            }
        }

        $(impl $Assign for $name {
            fn $assign(&mut self, other: Self) {
                *self = $Operator::$operator(*self, other);
            }
        })?
    )*};
}

/// Declares a set of bits, and the functions that all sets have. `$this` and `$receiver` are how methods take
/// it: by value, or, as fuser's do, by reference.
macro_rules! set {
    (
        $(#[$about:meta])* $name:ident: $bits:ty, $this:ident ($($receiver:tt)+)
        { $($(#[$flag_about:meta])* $flag:ident = $value:expr;)* }
    ) => {
        $(#[$about])*
        #[derive(Clone, Copy, PartialEq, Eq, Hash)]
        pub struct $name($bits);

        impl $name {
            $($(#[$flag_about])* pub const $flag: Self = Self($value);)*

            /// Returns the empty set.
            #[must_use]
            pub const fn empty() -> Self {
                Self(0)
            }

            /// Returns the set of all bits that have a name here.
            #[must_use]
            pub const fn all() -> Self {
                Self(0 $(| $value)*)
            }

            /// Returns the bits.
            #[must_use]
            pub const fn bits($($receiver)+) -> $bits {
                $this.0
            }

            /// Returns the set of these bits, without those that have no name here.
            #[must_use]
            pub const fn from_bits_truncate(bits: $bits) -> Self {
                Self(bits & Self::all().0)
            }

            /// Returns whether the set is empty.
            #[must_use]
            pub const fn is_empty($($receiver)+) -> bool {
                $this.0 == 0
            }

            /// Returns whether the set contains all of the others.
            #[must_use]
            pub const fn contains($($receiver)+, others: Self) -> bool {
                $this.0 & others.0 == others.0
            }
        }
    };
}

/// Declares sets of bits.
macro_rules! flags {
    ($($(#[$about:meta])* $name:ident: $bits:ty {
        $($(#[$flag_about:meta])* $flag:ident = $bit:expr;)*
    })*) => {$(
        set! {
            $(#[$about])*
            #[derive(Default)]
            $name: $bits, self (self) { $($(#[$flag_about])* $flag = 1 << $bit;)* }
        }

        operators! {
            $name: BitOr bitor [|] BitOrAssign bitor_assign;
            $name: BitAnd bitand [&];
            $name: Sub sub [& !];
        }

        impl fmt::Debug for $name {
            fn fmt(&self, f: &mut fmt::Formatter<'_>) -> fmt::Result {
                let mut names = f.debug_set();
                $(if self.contains(Self::$flag) {
                    names.entry(&format_args!(stringify!($flag)));
                })*
                names.finish()
            }
        }
    )*};
}

flags! {
    /// Options of a session: `flags` of `fuse_init_in` are bits 0 to 31, its `flags2` are bits 32 to 63.
    ///
    /// ```
    /// use nizwarf::FsOptions;
    ///
    /// let capable = FsOptions::from_bits_truncate(1 << 13 | 1 << 26);
    /// assert_eq!(capable, FsOptions::DO_READDIRPLUS);
    /// ```
    FsOptions: u64 {
        /// Reads of a file may be concurrent.
        ASYNC_READ = 0;
        /// POSIX locks are calls of the file system. [`Server`](crate::Server) agrees to this only if
        /// [`Features::LOCKS`] is enabled, because otherwise each lock would fail with ENOSYS.
        POSIX_LOCKS = 1;
        /// Requests other than READ and WRITE have handles.
        FILE_OPS = 2;
        /// OPEN truncates a file with `O_TRUNC`. Without it Linux sends a SETATTR.
        ATOMIC_O_TRUNC = 3;
        /// `.` and `..` can be looked up, because NFS needs it.
        EXPORT_SUPPORT = 4;
        /// Writes can be longer than a page.
        BIG_WRITES = 5;
        /// The file system applies the umask.
        DONT_MASK = 6;
        /// The client may splice on writing.
        SPLICE_WRITE = 7;
        /// The client may move pages on splicing.
        SPLICE_MOVE = 8;
        /// The client may splice on reading.
        SPLICE_READ = 9;
        /// Locks of `flock(2)` are calls of the file system. [`Server`](crate::Server) agrees to this only if
        /// [`Features::LOCKS`] is enabled, because otherwise each lock would fail with ENOSYS.
        FLOCK_LOCKS = 10;
        /// Directories have IOCTL.
        HAS_IOCTL_DIR = 11;
        /// Cached data are invalidated if attributes change.
        AUTO_INVAL_DATA = 12;
        /// There is READDIRPLUS.
        DO_READDIRPLUS = 13;
        /// The client chooses between READDIR and READDIRPLUS.
        READDIRPLUS_AUTO = 14;
        /// Direct reads and writes may be concurrent.
        ASYNC_DIO = 15;
        /// The client caches writes.
        WRITEBACK_CACHE = 16;
        /// The reply to OPEN may be ENOSYS.
        ZERO_MESSAGE_OPEN = 17;
        /// Calls about one directory may be concurrent.
        PARALLEL_DIROPS = 18;
        /// The file system clears set-user-ID bits on write, truncation and change of owner.
        HANDLE_KILLPRIV = 19;
        /// Access control lists of POSIX.
        POSIX_ACL = 20;
        /// Reads after an abort return ECONNABORTED.
        ABORT_ERROR = 21;
        /// The reply to INIT has the largest number of pages of a request.
        MAX_PAGES = 22;
        /// Symbolic links are cached.
        CACHE_SYMLINKS = 23;
        /// The reply to OPENDIR may be ENOSYS.
        ZERO_MESSAGE_OPENDIR = 24;
        /// Cached data are invalidated only on request.
        EXPLICIT_INVAL_DATA = 25;
        /// Attributes can say that a node is a mount point.
        SUBMOUNTS = 27;
        /// As `HANDLE_KILLPRIV`, for requests that say so.
        HANDLE_KILLPRIV_V2 = 28;
        /// SETXATTR has its longer record.
        SETXATTR_EXT = 29;
        /// INIT has its second record.
        INIT_EXT = 30;
        /// Reserved.
        INIT_RESERVED = 31;
        /// Requests that create a node have a security context.
        SECURITY_CTX = 32;
        /// DAX can be set for each node.
        HAS_INODE_DAX = 33;
        /// Requests that create a node have a supplementary group.
        CREATE_SUPP_GROUP = 34;
        /// Names can expire: [`Notifier::expire_entry`](crate::Notifier::expire_entry).
        HAS_EXPIRE_ONLY = 35;
        /// Files with direct I/O can be mapped.
        DIRECT_IO_ALLOW_MMAP = 36;
        /// Nodes cannot be exported by NFS: their handles are not valid after they are forgotten.
        NO_EXPORT_SUPPORT = 38;
        /// Requests can be sent again: [`Notifier::resend`](crate::Notifier::resend).
        HAS_RESEND = 39;
        /// The mount can be ID-mapped. Linux then requires `default_permissions`, and sends the user and the
        /// group only in requests that create a node.
        ALLOW_IDMAP = 40;
        /// Requests that are not answered in [`Limits::request_timeout`](crate::Limits::request_timeout) end
        /// the connection.
        REQUEST_TIMEOUT = 42;
    }

    /// Optional operations that a file system serves, which virtiofsd 1.13.2 does not. The reply to an
    /// operation that is not enabled is ENOSYS. If none is, every reply is virtiofsd's.
    ///
    /// ```
    /// use nizwarf::Features;
    ///
    /// assert!(Features::default().is_empty());
    /// assert!(Features::all().contains(Features::LOCKS | Features::NOTIFY_REPLY));
    /// ```
    Features: u32 {
        /// [`getlk`](crate::FileSystem::getlk) and [`setlk`](crate::FileSystem::setlk). A file system that
        /// serves locks must also want them in [`init`](crate::FileSystem::init): POSIX locks by
        /// [`POSIX_LOCKS`](FsOptions::POSIX_LOCKS), and those of `flock(2)` by
        /// [`FLOCK_LOCKS`](FsOptions::FLOCK_LOCKS). Otherwise Linux keeps them itself.
        LOCKS = 0;
        /// [`bmap`](crate::FileSystem::bmap). Linux calls it only for mounts of a block device, `fuseblk`.
        BMAP = 1;
        /// [`ioctl`](crate::FileSystem::ioctl).
        IOCTL = 2;
        /// [`poll`](crate::FileSystem::poll).
        POLL = 3;
        /// [`statx`](crate::FileSystem::statx).
        STATX = 4;
        /// A copy from one file to another may have 4 GiB and more.
        COPY_64 = 5;
        /// [`tmpfile`](crate::FileSystem::tmpfile).
        TMPFILE = 6;
        /// [`notify_reply`](crate::FileSystem::notify_reply).
        NOTIFY_REPLY = 7;
    }

    /// Flags of an IOCTL.
    IoctlFlags: u32 {
        /// The caller is a program of 32 bits.
        COMPAT = 0;
        /// The command may read and write any memory of the caller. Linux allows this for CUSE.
        UNRESTRICTED = 1;
        /// The request is sent again, after an [`IoctlReply::Retry`](crate::IoctlReply::Retry).
        RETRY = 2;
        /// The caller has pointers of 32 bits.
        IOCTL_32BIT = 3;
        /// The file is a directory.
        DIR = 4;
        /// The caller is a program of x32.
        COMPAT_X32 = 5;
    }

    /// Options of an open file.
    ///
    /// ```
    /// use nizwarf::OpenOptions;
    ///
    /// assert_eq!((OpenOptions::DIRECT_IO | OpenOptions::NOFLUSH).bits(), 0x21);
    /// ```
    OpenOptions: u32 {
        /// Reads and writes bypass the cache.
        DIRECT_IO = 0;
        /// Cached data are kept.
        KEEP_CACHE = 1;
        /// The file is not seekable.
        NONSEEKABLE = 2;
        /// The items of the directory are cached.
        CACHE_DIR = 3;
        /// The file is a stream.
        STREAM = 4;
        /// No FLUSH is sent if nothing was written.
        NOFLUSH = 5;
        /// Direct writes may be concurrent.
        PARALLEL_DIRECT_WRITES = 6;
    }

    /// Which fields of a [`SetattrIn`](crate::SetattrIn) a SETATTR sets.
    ///
    /// ```
    /// use nizwarf::SetattrValid;
    ///
    /// let valid = SetattrValid::from_bits_truncate(8);
    /// assert!(valid.contains(SetattrValid::SIZE));
    /// ```
    SetattrValid: u32 {
        /// The mode.
        MODE = 0;
        /// The owner.
        UID = 1;
        /// The group.
        GID = 2;
        /// The size.
        SIZE = 3;
        /// The time of the last access.
        ATIME = 4;
        /// The time of the last modification.
        MTIME = 5;
        /// The time of the last access is now.
        ATIME_NOW = 7;
        /// The time of the last modification is now.
        MTIME_NOW = 8;
        /// The time of the last change.
        CTIME = 10;
        /// The file system must clear the set-user-ID and set-group-ID bits.
        KILL_SUIDGID = 11;
    }

    /// Extension flags of a SETXATTR.
    SetxattrFlags: u32 {
        /// The file system must clear the set-group-ID bit.
        SETXATTR_ACL_KILL_SGID = 0;
    }

    /// Flags of a write, as `pwritev2(2)` has them.
    WritevFlags: i32 {
        /// High priority.
        RWF_HIPRI = 0;
        /// As if the file had been opened with `O_DSYNC`.
        RWF_DSYNC = 1;
        /// As if the file had been opened with `O_SYNC`.
        RWF_SYNC = 2;
        /// Does not block.
        RWF_NOWAIT = 3;
        /// Appends to the file, whatever the offset.
        RWF_APPEND = 4;
    }
}

#[cfg(test)]
mod tests {
    use super::*;

    #[test]
    fn options_are_those_of_the_protocol() {
        // As in linux/fuse.h up to version 7.43, without MAP_ALIGNMENT, PASSTHROUGH and OVER_IO_URING.
        assert_eq!(FsOptions::all().bits(), 0x5df_fbff_ffff);
        assert_eq!(FsOptions::from_bits_truncate(u64::MAX), FsOptions::all());
        assert_eq!(OpenOptions::all().bits(), 0x7f);
        assert_eq!(SetattrValid::all().bits(), 0xdbf);
        assert_eq!(SetxattrFlags::all().bits(), 1);
        assert_eq!(IoctlFlags::all().bits(), 0x3f);
        // As in nizwarf.h.
        assert_eq!(Features::all().bits(), 0xff);
        // As in linux/fs.h.
        assert_eq!(WritevFlags::RWF_APPEND.bits(), 0x10);
    }

    #[test]
    fn sets_are_sets() {
        let mut some = OpenOptions::KEEP_CACHE | OpenOptions::CACHE_DIR;
        assert_eq!(some.bits(), 10);
        assert!(some.contains(OpenOptions::KEEP_CACHE));
        assert!(!some.contains(OpenOptions::KEEP_CACHE | OpenOptions::STREAM));
        assert_eq!(some - OpenOptions::KEEP_CACHE, OpenOptions::CACHE_DIR);
        assert_eq!(some & OpenOptions::CACHE_DIR, OpenOptions::CACHE_DIR);
        some |= OpenOptions::STREAM;
        assert_eq!(format!("{some:?}"), "{KEEP_CACHE, CACHE_DIR, STREAM}");
        assert!(OpenOptions::empty().is_empty() && OpenOptions::default().is_empty());
    }
}
