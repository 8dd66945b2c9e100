//! Types of calls and answers, as fuser has them.

use crate::attr::Attr;
use crate::consts::{DT_BLK, DT_CHR, DT_DIR, DT_FIFO, DT_LNK, DT_REG, DT_SOCK};
use crate::file_system::{Context, Entry};
use std::fmt;
use std::time::{Duration, SystemTime, UNIX_EPOCH};

/// Declares a number with a type of its own.
macro_rules! numbers {
    ($($(#[$about:meta])* $name:ident)*) => {
        $(
            $(#[$about])*
            #[derive(Clone, Copy, Debug, PartialEq, Eq, PartialOrd, Ord, Hash)]
            pub struct $name(pub u64);

            impl From<$name> for u64 {
                fn from(number: $name) -> Self {
                    number.0
                }
            }

            formats! { $name Display }
        )*
    };
}

numbers! {
    /// A handle that an open or a create returned.
    FileHandle
    /// The generation of a node: with its number it is unique for the life of the file system.
    Generation
    /// The number of a node.
    INodeNo
    /// The owner of POSIX locks.
    LockOwner
    /// The number of a request.
    RequestId
}

impl INodeNo {
    /// The root.
    pub const ROOT: INodeNo = INodeNo(1);
}

/// A version of the protocol: the major and the minor number.
#[derive(Clone, Copy, Debug, PartialEq, Eq, PartialOrd, Ord)]
pub struct Version(
    /// The major number.
    pub u32,
    /// The minor number.
    pub u32,
);

impl fmt::Display for Version {
    fn fmt(&self, f: &mut fmt::Formatter<'_>) -> fmt::Result {
        write!(f, "{}.{}", self.0, self.1)
    }
}

/// The type of a file.
#[derive(Clone, Copy, Debug, Eq, Hash, PartialEq)]
pub enum FileType {
    /// A named pipe.
    NamedPipe,
    /// A character device.
    CharDevice,
    /// A block device.
    BlockDevice,
    /// A directory.
    Directory,
    /// A regular file.
    RegularFile,
    /// A symbolic link.
    Symlink,
    /// A socket.
    Socket,
}

impl FileType {
    /// Converts the type that the standard library has.
    #[must_use]
    pub fn from_std(file_type: std::fs::FileType) -> Option<Self> {
        use std::os::unix::fs::FileTypeExt;

        let kinds = [
            (file_type.is_dir(), FileType::Directory),
            (file_type.is_file(), FileType::RegularFile),
            (file_type.is_symlink(), FileType::Symlink),
            (file_type.is_fifo(), FileType::NamedPipe),
            (file_type.is_socket(), FileType::Socket),
            (file_type.is_char_device(), FileType::CharDevice),
            (file_type.is_block_device(), FileType::BlockDevice),
        ];
        kinds.iter().find(|(is_it, _)| *is_it).map(|(_, kind)| *kind)
    }

    /// The type as in an item of a directory. In a mode it is 12 bits higher.
    pub(super) fn number(self) -> u32 {
        match self {
            FileType::NamedPipe => DT_FIFO,
            FileType::CharDevice => DT_CHR,
            FileType::Directory => DT_DIR,
            FileType::BlockDevice => DT_BLK,
            FileType::RegularFile => DT_REG,
            FileType::Symlink => DT_LNK,
            FileType::Socket => DT_SOCK,
        }
    }
}

/// Attributes of a node.
#[derive(Clone, Copy, Debug, Eq, PartialEq)]
pub struct FileAttr {
    /// The number of the node, which is also the inode number that programs see.
    pub ino: INodeNo,
    /// The size in bytes.
    pub size: u64,
    /// The allocated blocks, of 512 bytes each.
    pub blocks: u64,
    /// The time of the last access.
    pub atime: SystemTime,
    /// The time of the last modification of the data.
    pub mtime: SystemTime,
    /// The time of the last change of the attributes.
    pub ctime: SystemTime,
    /// The time of birth, which is not sent.
    pub crtime: SystemTime,
    /// The type.
    pub kind: FileType,
    /// The permissions.
    pub perm: u16,
    /// The number of hard links.
    pub nlink: u32,
    /// The owner.
    pub uid: u32,
    /// The group.
    pub gid: u32,
    /// The device number, if it is a device.
    pub rdev: u32,
    /// The preferred size of reads and writes.
    pub blksize: u32,
    /// Flags of `chflags(2)`, which are not sent.
    pub flags: u32,
}

impl From<&FileAttr> for Attr {
    fn from(attr: &FileAttr) -> Self {
        let [(atime, atimensec), (mtime, mtimensec), (ctime, ctimensec)] =
            [attr.atime, attr.mtime, attr.ctime].map(seconds_of);
        Attr {
            ino: attr.ino.0,
            size: attr.size,
            blocks: attr.blocks,
            atime,
            mtime,
            ctime,
            atimensec,
            mtimensec,
            ctimensec,
            mode: attr.kind.number() << 12 | u32::from(attr.perm),
            nlink: attr.nlink,
            uid: attr.uid,
            gid: attr.gid,
            rdev: attr.rdev,
            blksize: attr.blksize,
            flags: 0,
        }
    }
}

/// An entry of the node of these attributes, which are valid as long as the name.
pub(super) fn entry_of(ttl: Duration, attr: &FileAttr, generation: Generation) -> Entry {
    Entry {
        inode: attr.ino.0,
        generation: generation.0,
        attr: attr.into(),
        attr_timeout: ttl,
        entry_timeout: ttl,
    }
}

/// The seconds since 1970, of which the protocol has the bits of a signed number, and the nanoseconds after
/// them.
fn seconds_of(time: SystemTime) -> (u64, u32) {
    match time.duration_since(UNIX_EPOCH) {
        Ok(after) => (after.as_secs(), after.subsec_nanos()),
        Err(error) => {
            let before = error.duration();
            match before.subsec_nanos() {
                0 => (before.as_secs().wrapping_neg(), 0),
                rest => (before.as_secs().wrapping_neg().wrapping_sub(1), 1_000_000_000 - rest),
            }
        }
    }
}

/// The time of these seconds and nanoseconds, or 1970 if a `SystemTime` cannot have them.
pub(super) fn time_of(seconds: u64, nanoseconds: u32) -> SystemTime {
    #[allow(clippy::cast_possible_wrap)] // the bits of a signed number
    let signed = seconds as i64;
    let whole = Duration::from_secs(signed.unsigned_abs());
    let begins = if signed < 0 { UNIX_EPOCH.checked_sub(whole) } else { UNIX_EPOCH.checked_add(whole) };
    let part = Duration::from_nanos(nanoseconds.into());
    begins.and_then(|time| time.checked_add(part)).unwrap_or(UNIX_EPOCH)
}

/// A time that a SETATTR sets.
#[derive(Clone, Copy, Debug, Eq, Hash, PartialEq)]
pub enum TimeOrNow {
    /// This time.
    SpecificTime(SystemTime),
    /// The present time.
    Now,
}

/// How a file is opened.
#[allow(non_camel_case_types, clippy::upper_case_acronyms)] // the names are those of C
#[derive(Clone, Copy, Debug, Eq, Hash, PartialEq)]
#[repr(i32)]
pub enum OpenAccMode {
    /// To be read.
    O_RDONLY = 0,
    /// To be written.
    O_WRONLY = 1,
    /// For both.
    O_RDWR = 2,
}

/// The flags of `open(2)`.
#[derive(Clone, Copy, Debug, Eq, Hash, PartialEq)]
pub struct OpenFlags(pub i32);

impl OpenFlags {
    /// Returns how the file is opened. An unknown mode counts as reading.
    #[must_use]
    pub fn acc_mode(self) -> OpenAccMode {
        match self.0 & 3 {
            1 => OpenAccMode::O_WRONLY,
            2 => OpenAccMode::O_RDWR,
            _ => OpenAccMode::O_RDONLY,
        }
    }
}

formats! { OpenFlags LowerHex UpperHex }

/// The caller of a request.
#[derive(Debug)]
pub struct Request {
    context: Context,
}

impl Request {
    pub(super) fn new(context: Context) -> Self {
        Request { context }
    }

    getters! {
        /// Returns the number of the request.
        unique: RequestId = |it| RequestId(it.context.unique);
        /// Returns the user ID.
        uid: u32 = |it| it.context.uid;
        /// Returns the group ID.
        gid: u32 = |it| it.context.gid;
        /// Returns the process ID.
        pid: u32 = |it| u32::from_le_bytes(it.context.pid.to_le_bytes());
    }
}

/// A node whose lookups are dropped.
#[derive(Debug)]
pub struct ForgetOne {
    pub(super) node: u64,
    pub(super) count: u64,
}

impl ForgetOne {
    getters! {
        /// Returns the number of the node.
        nodeid: INodeNo = |it| INodeNo(it.node);
        /// Returns the number of lookups that are dropped.
        nlookup: u64 = |it| it.count;
    }
}

#[cfg(test)]
mod tests {
    use super::*;

    #[test]
    fn times_before_1970_have_whole_nanoseconds() {
        let minus = |seconds: i64| u64::from_le_bytes(seconds.to_le_bytes());
        for (time, expected) in [
            (UNIX_EPOCH + Duration::new(7, 8), (7, 8)),
            (UNIX_EPOCH - Duration::new(2, 0), (minus(-2), 0)),
            // As stat(2) has it: 1.2 seconds before are 2 before and 0.8 after these.
            (UNIX_EPOCH - Duration::new(1, 200_000_000), (minus(-2), 800_000_000)),
        ] {
            assert_eq!(seconds_of(time), expected);
            assert_eq!(time_of(expected.0, expected.1), time);
        }
        for seconds in [u64::MAX, 1 << 63, u64::MAX >> 1] {
            let _ = time_of(seconds, u32::MAX);
        }
    }

    #[test]
    fn types_are_those_of_a_mode() {
        let kind = |path| FileType::from_std(std::fs::metadata(path).unwrap().file_type());
        assert_eq!(kind("/"), Some(FileType::Directory));
        assert_eq!(kind("/dev/null"), Some(FileType::CharDevice));
        assert_eq!(kind("Cargo.toml"), Some(FileType::RegularFile));
        // As in sys/stat.h.
        let modes = [0o1, 0o2, 0o6, 0o4, 0o10, 0o12, 0o14];
        let all = [
            FileType::NamedPipe,
            FileType::CharDevice,
            FileType::BlockDevice,
            FileType::Directory,
            FileType::RegularFile,
            FileType::Symlink,
            FileType::Socket,
        ];
        assert_eq!(all.map(FileType::number), modes);
    }

    #[test]
    fn a_mode_of_opening_is_one_of_three() {
        let modes = [0, 1, 2, 3].map(|flags| OpenFlags(flags | 0o2000).acc_mode());
        let (read, write) = (OpenAccMode::O_RDONLY, OpenAccMode::O_WRONLY);
        assert_eq!(modes, [read, write, OpenAccMode::O_RDWR, read]);
        assert_eq!(format!("{:#x}", OpenFlags(18)), "0x12");
    }
}
