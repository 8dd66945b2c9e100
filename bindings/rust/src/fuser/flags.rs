//! Sets of bits, with the names and functions that fuser's sets have by the crate bitflags. Unlike the sets
//! of this crate they keep bits without a name.

use std::fmt;
use std::ops::{BitAnd, BitAndAssign, BitOr, BitOrAssign, BitXor, BitXorAssign, Not, Sub, SubAssign};

/// Declares sets of bits.
macro_rules! bits {
    ($($(#[$about:meta])* $name:ident: $bits:ty {
        $($(#[$flag_about:meta])* $flag:ident = $value:expr;)*
    })*) => {$(
        set! {
            $(#[$about])*
            $name: $bits, self (&self) {
                $(
                    $(#[$flag_about])*
                    #[doc = concat!("\n\nBits: `", stringify!($value), "`")]
                    $flag = $value;
                )*
            }
        }

        #[allow(dead_code, unused_mut)] // (of a set without names)
        impl $name {
            /// Returns the set of these bits, if all have a name.
            #[must_use]
            pub const fn from_bits(bits: $bits) -> Option<Self> {
                if bits & !Self::all().0 == 0 {
                    Some(Self(bits))
                } else {
                    None
                }
            }

            /// Returns the set of these bits, also of those that have no name.
            #[must_use]
            pub const fn from_bits_retain(bits: $bits) -> Self {
                Self(bits)
            }

            /// Returns whether the set has all bits that have a name.
            #[must_use]
            pub const fn is_all(&self) -> bool {
                self.contains(Self::all())
            }

            /// Returns whether the set has one of the others.
            #[must_use]
            pub const fn intersects(&self, other: Self) -> bool {
                self.0 & other.0 != 0
            }

            /// Adds the others.
            pub fn insert(&mut self, other: Self) {
                self.0 |= other.0;
            }

            /// Removes the others.
            pub fn remove(&mut self, other: Self) {
                self.0 &= !other.0;
            }

            /// Adds those of the others that are not in the set, and removes those that are.
            pub fn toggle(&mut self, other: Self) {
                self.0 ^= other.0;
            }

            /// Adds or removes the others.
            pub fn set(&mut self, other: Self, value: bool) {
                if value {
                    self.insert(other);
                } else {
                    self.remove(other);
                }
            }

            /// Returns the bits of both.
            #[must_use]
            pub const fn union(self, other: Self) -> Self {
                Self(self.0 | other.0)
            }

            /// Returns the bits that are in both.
            #[must_use]
            pub const fn intersection(self, other: Self) -> Self {
                Self(self.0 & other.0)
            }

            /// Returns the bits that are not in the other.
            #[must_use]
            pub const fn difference(self, other: Self) -> Self {
                Self(self.0 & !other.0)
            }

            /// Returns the bits that are in one of both.
            #[must_use]
            pub const fn symmetric_difference(self, other: Self) -> Self {
                Self(self.0 ^ other.0)
            }

            /// Returns the bits with a name that are not in the set.
            #[must_use]
            pub const fn complement(self) -> Self {
                Self::from_bits_truncate(!self.0)
            }

            /// Returns the names of its bits, each with its set.
            pub fn iter_names(&self) -> impl Iterator<Item = (&'static str, Self)> {
                let set = *self;
                let names: Vec<(&'static str, Self)> = vec![$((stringify!($flag), Self::$flag),)*];
                names.into_iter().filter(move |(_, flag)| !flag.is_empty() && set.contains(*flag))
            }
        }

        operators! {
            $name: BitOr bitor [|] BitOrAssign bitor_assign;
            $name: BitAnd bitand [&] BitAndAssign bitand_assign;
            $name: BitXor bitxor [^] BitXorAssign bitxor_assign;
            $name: Sub sub [& !] SubAssign sub_assign;
        }

        impl Not for $name {
            type Output = Self;

            fn not(self) -> Self {
                self.complement()
            }
        }

        impl Extend<$name> for $name {
            fn extend<T: IntoIterator<Item = Self>>(&mut self, sets: T) {
                sets.into_iter().for_each(|set| self.insert(set));
            }
        }

        impl FromIterator<$name> for $name {
            fn from_iter<T: IntoIterator<Item = Self>>(sets: T) -> Self {
                sets.into_iter().fold(Self::empty(), Self::union)
            }
        }

        impl fmt::Debug for $name {
            fn fmt(&self, f: &mut fmt::Formatter<'_>) -> fmt::Result {
                let mut words: Vec<String> = self.iter_names().map(|(name, _)| name.into()).collect();
                let unnamed = self.0 & !Self::all().0;
                if words.is_empty() || unnamed != 0 {
                    words.push(format!("{unnamed:#x}"));
                }
                write!(f, "{}({})", stringify!($name), words.join(" | "))
            }
        }

        formats! { $name Display LowerHex UpperHex Octal Binary }
    )*};
}

/// Prints a number with a type of its own as the number that it is.
macro_rules! formats {
    ($name:ident $($Format:ident)*) => {
        $(impl fmt::$Format for $name {
            fn fmt(&self, f: &mut fmt::Formatter<'_>) -> fmt::Result {
                fmt::$Format::fmt(&self.0, f)
            }
        })*
    };
}

bits! {
    /// Permissions that [`access`](crate::fuser::Filesystem::access) checks.
    AccessFlags: i32 {
        /// Whether the file exists: no bit.
        F_OK = 0;
        /// It can be run, or searched.
        X_OK = 1;
        /// It can be written.
        W_OK = 2;
        /// It can be read.
        R_OK = 4;
    }

    /// Flags of `chflags(2)`. The set is empty, because Linux does not have them.
    BsdFileFlags: u32 {}

    /// Flags of `copy_file_range(2)`. The set is empty, because none exists yet.
    CopyFileRangeFlags: u64 {}

    /// Options of an open file.
    FopenFlags: u32 {
        /// Reads and writes bypass the cache.
        FOPEN_DIRECT_IO = 1;
        /// Cached data are kept.
        FOPEN_KEEP_CACHE = 1 << 1;
        /// The file is not seekable.
        FOPEN_NONSEEKABLE = 1 << 2;
        /// The items of the directory are cached.
        FOPEN_CACHE_DIR = 1 << 3;
        /// The file is a stream.
        FOPEN_STREAM = 1 << 4;
        /// No FLUSH is sent if nothing was written.
        FOPEN_NOFLUSH = 1 << 5;
        /// Direct writes may be concurrent.
        FOPEN_PARALLEL_DIRECT_WRITES = 1 << 6;
        /// Linux reads and writes another file in its place. It is ignored.
        FOPEN_PASSTHROUGH = 1 << 7;
    }

    /// Options of a session. [`FsOptions`](crate::FsOptions) documents each. `FUSE_MAP_ALIGNMENT`,
    /// `FUSE_PASSTHROUGH` and `FUSE_OVER_IO_URING` are never among the kernel's capabilities here.
    InitFlags: u64 {
        FUSE_ASYNC_READ = 1;
        FUSE_POSIX_LOCKS = 1 << 1;
        FUSE_FILE_OPS = 1 << 2;
        FUSE_ATOMIC_O_TRUNC = 1 << 3;
        FUSE_EXPORT_SUPPORT = 1 << 4;
        FUSE_BIG_WRITES = 1 << 5;
        FUSE_DONT_MASK = 1 << 6;
        FUSE_SPLICE_WRITE = 1 << 7;
        FUSE_SPLICE_MOVE = 1 << 8;
        FUSE_SPLICE_READ = 1 << 9;
        FUSE_FLOCK_LOCKS = 1 << 10;
        FUSE_HAS_IOCTL_DIR = 1 << 11;
        FUSE_AUTO_INVAL_DATA = 1 << 12;
        FUSE_DO_READDIRPLUS = 1 << 13;
        FUSE_READDIRPLUS_AUTO = 1 << 14;
        FUSE_ASYNC_DIO = 1 << 15;
        FUSE_WRITEBACK_CACHE = 1 << 16;
        FUSE_NO_OPEN_SUPPORT = 1 << 17;
        FUSE_PARALLEL_DIROPS = 1 << 18;
        FUSE_HANDLE_KILLPRIV = 1 << 19;
        FUSE_POSIX_ACL = 1 << 20;
        FUSE_ABORT_ERROR = 1 << 21;
        FUSE_MAX_PAGES = 1 << 22;
        FUSE_CACHE_SYMLINKS = 1 << 23;
        FUSE_NO_OPENDIR_SUPPORT = 1 << 24;
        FUSE_EXPLICIT_INVAL_DATA = 1 << 25;
        FUSE_MAP_ALIGNMENT = 1 << 26;
        FUSE_SUBMOUNTS = 1 << 27;
        FUSE_HANDLE_KILLPRIV_V2 = 1 << 28;
        FUSE_SETXATTR_EXT = 1 << 29;
        FUSE_INIT_EXT = 1 << 30;
        FUSE_INIT_RESERVED = 1 << 31;
        FUSE_SECURITY_CTX = 1 << 32;
        FUSE_HAS_INODE_DAX = 1 << 33;
        FUSE_CREATE_SUPP_GROUP = 1 << 34;
        FUSE_HAS_EXPIRE_ONLY = 1 << 35;
        FUSE_DIRECT_IO_ALLOW_MMAP = 1 << 36;
        FUSE_PASSTHROUGH = 1 << 37;
        FUSE_NO_EXPORT_SUPPORT = 1 << 38;
        FUSE_HAS_RESEND = 1 << 39;
        FUSE_ALLOW_IDMAP = 1 << 40;
        FUSE_OVER_IO_URING = 1 << 41;
        FUSE_REQUEST_TIMEOUT = 1 << 42;
    }

    /// Flags of an IOCTL.
    IoctlFlags: u32 {
        /// The caller is a program of 32 bits.
        FUSE_IOCTL_COMPAT = 1;
        /// The command may use any memory of the caller.
        FUSE_IOCTL_UNRESTRICTED = 1 << 1;
        /// The request is sent again.
        FUSE_IOCTL_RETRY = 1 << 2;
        /// The caller has pointers of 32 bits.
        FUSE_IOCTL_32BIT = 1 << 3;
        /// The file is a directory.
        FUSE_IOCTL_DIR = 1 << 4;
        /// The caller is a program of x32.
        FUSE_IOCTL_COMPAT_X32 = 1 << 5;
    }

    /// Events of `poll(2)`.
    PollEvents: u32 {
        /// There are data to read.
        POLLIN = 1;
        /// There are urgent data.
        POLLPRI = 2;
        /// It can be written.
        POLLOUT = 4;
        /// There is an error.
        POLLERR = 8;
        /// The other end is closed.
        POLLHUP = 16;
        /// The descriptor is not open.
        POLLNVAL = 32;
        /// There are normal data to read.
        POLLRDNORM = 64;
        /// There are data of priority to read.
        POLLRDBAND = 128;
        /// Normal data can be written.
        POLLWRNORM = 256;
        /// Data of priority can be written.
        POLLWRBAND = 512;
    }

    /// Flags of a POLL.
    PollFlags: u32 {
        /// The caller waits, and must be notified by the [`PollNotifier`](crate::fuser::PollNotifier).
        FUSE_POLL_SCHEDULE_NOTIFY = 1;
    }

    /// Flags of `renameat2(2)`.
    RenameFlags: u32 {
        /// A file with the new name is not replaced.
        RENAME_NOREPLACE = 1;
        /// The two names are exchanged.
        RENAME_EXCHANGE = 2;
        /// A whiteout takes the place of the old name.
        RENAME_WHITEOUT = 4;
    }

    /// Flags of a WRITE.
    WriteFlags: u32 {
        /// The data come from the cache of the kernel.
        FUSE_WRITE_CACHE = 1;
        /// The request has the owner of locks.
        FUSE_WRITE_LOCKOWNER = 1 << 1;
        /// The file system must clear the set-user-ID and set-group-ID bits.
        FUSE_WRITE_KILL_SUIDGID = 1 << 2;
    }
}

#[cfg(test)]
mod tests {
    use super::*;
    use crate::FsOptions;

    #[test]
    fn sets_keep_bits_without_a_name() {
        let mut set = RenameFlags::from_bits_retain(0x80 | 1);
        assert_eq!(RenameFlags::from_bits(0x81), None);
        assert_eq!(RenameFlags::from_bits_truncate(0x81), RenameFlags::RENAME_NOREPLACE);
        assert_eq!(format!("{set:?} {set} {set:#x}"), "RenameFlags(RENAME_NOREPLACE | 0x80) 129 0x81");
        set.set(RenameFlags::RENAME_EXCHANGE, true);
        set -= RenameFlags::RENAME_NOREPLACE;
        assert_eq!(set.bits(), 0x82);
        assert_eq!(!RenameFlags::RENAME_NOREPLACE, RenameFlags::from_bits_retain(6));
        assert_eq!(format!("{:?}", AccessFlags::F_OK), "AccessFlags(0x0)");
        let both: PollEvents = [PollEvents::POLLIN, PollEvents::POLLOUT].into_iter().collect();
        assert_eq!(both.bits(), 5);
    }

    #[test]
    fn options_are_those_of_the_protocol() {
        let named = FsOptions::all().bits();
        assert_eq!(InitFlags::all().bits() & !named, 1 << 26 | 1 << 37 | 1 << 41);
        assert_eq!(named & !InitFlags::all().bits(), 0);
    }
}
