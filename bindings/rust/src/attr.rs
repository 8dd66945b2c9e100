//! Records of attributes and statistics, as C has them.
#![forbid(unsafe_code)]

use std::fs::Metadata;
use std::os::unix::fs::MetadataExt;

records! {
    /// Attributes of a node: `fuse_attr`.
    ///
    /// ```
    /// use nizwarf::Attr;
    ///
    /// let attr = Attr::from(&std::fs::metadata("/").unwrap());
    /// assert_eq!(attr.mode >> 12, nizwarf::DT_DIR);
    /// ```
    #[derive(Debug, Default, PartialEq, Eq)]
    pub struct Attr: 88 {
        /// The inode number that programs see.
        [0] pub ino: u64,
        /// The size in bytes.
        [8] pub size: u64,
        /// The allocated blocks, of 512 bytes each.
        [16] pub blocks: u64,
        /// The time of the last access, in seconds since 1970.
        [24] pub atime: u64,
        /// The time of the last modification of the data.
        [32] pub mtime: u64,
        /// The time of the last change of the attributes.
        [40] pub ctime: u64,
        /// The nanoseconds of `atime`.
        [48] pub atimensec: u32,
        /// The nanoseconds of `mtime`.
        [52] pub mtimensec: u32,
        /// The nanoseconds of `ctime`.
        [56] pub ctimensec: u32,
        /// The type and the permissions.
        [60] pub mode: u32,
        /// The number of hard links.
        [64] pub nlink: u32,
        /// The owner.
        [68] pub uid: u32,
        /// The group.
        [72] pub gid: u32,
        /// The device number, if it is a device.
        [76] pub rdev: u32,
        /// The preferred size of reads and writes.
        [80] pub blksize: u32,
        /// `FUSE_ATTR_SUBMOUNT`, which is 1, and `FUSE_ATTR_DAX`, which is 2.
        [84] pub flags: u32,
    }

    /// The attributes to set: `fuse_setattr_in`.
    #[derive(Debug, Default, PartialEq, Eq)]
    pub struct SetattrIn: 88 {
        /// Which fields to set, as sent by the client. [`SetattrValid`](crate::SetattrValid) has the known
        /// bits.
        [0] pub valid: u32,
        /// Not used.
        [4] pub padding: u32,
        /// The handle, if there is one.
        [8] pub fh: u64,
        /// The size in bytes.
        [16] pub size: u64,
        /// The owner of POSIX locks.
        [24] pub lock_owner: u64,
        /// The time of the last access, in seconds since 1970.
        [32] pub atime: u64,
        /// The time of the last modification of the data.
        [40] pub mtime: u64,
        /// The time of the last change of the attributes.
        [48] pub ctime: u64,
        /// The nanoseconds of `atime`.
        [56] pub atimensec: u32,
        /// The nanoseconds of `mtime`.
        [60] pub mtimensec: u32,
        /// The nanoseconds of `ctime`.
        [64] pub ctimensec: u32,
        /// The type and the permissions.
        [68] pub mode: u32,
        /// Not used.
        [72] pub unused4: u32,
        /// The owner.
        [76] pub uid: u32,
        /// The group.
        [80] pub gid: u32,
        /// Not used.
        [84] pub unused5: u32,
    }

    /// Statistics of a file system: `statvfs(3)`.
    #[derive(Debug, Default, PartialEq, Eq)]
    #[allow(clippy::struct_field_names)] // the names are those of C
    pub struct Statvfs: 64 {
        /// The size of a block.
        [0] pub f_bsize: u64,
        /// The size of a fragment: the unit of the three numbers of blocks.
        [8] pub f_frsize: u64,
        /// The number of blocks.
        [16] pub f_blocks: u64,
        /// The number of free blocks.
        [24] pub f_bfree: u64,
        /// The number of blocks that are free for users.
        [32] pub f_bavail: u64,
        /// The number of nodes.
        [40] pub f_files: u64,
        /// The number of free nodes.
        [48] pub f_ffree: u64,
        /// The length of the longest name.
        [56] pub f_namemax: u64,
    }
}

impl From<&Metadata> for Attr {
    /// Converts the result of `stat(2)`. Numbers are truncated to the width of their field.
    #[allow(clippy::cast_possible_truncation, clippy::cast_sign_loss)] // as documented
    fn from(stat: &Metadata) -> Self {
        Attr {
            ino: stat.ino(),
            size: stat.size(),
            blocks: stat.blocks(),
            atime: stat.atime() as u64,
            mtime: stat.mtime() as u64,
            ctime: stat.ctime() as u64,
            atimensec: stat.atime_nsec() as u32,
            mtimensec: stat.mtime_nsec() as u32,
            ctimensec: stat.ctime_nsec() as u32,
            mode: stat.mode(),
            nlink: stat.nlink() as u32,
            uid: stat.uid(),
            gid: stat.gid(),
            rdev: stat.rdev() as u32,
            blksize: stat.blksize() as u32,
            flags: 0,
        }
    }
}
