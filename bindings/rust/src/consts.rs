//! Numbers of Linux on x86-64 that calls have as arguments or in modes. `tools/dev/numbers.py` checks that
//! they are the same as the C library's.
#![forbid(unsafe_code)]

/// Declares groups of constants, of which each constant has the documentation of its group.
macro_rules! constants {
    ($($about:literal { $($name:ident = $value:literal,)* })*) => {
        $($(
            #[doc = $about]
            pub const $name: u32 = $value;
        )*)*
    };
}

constants! {
    "A flag of `open(2)`, for [`open`](crate::FileSystem::open), [`opendir`](crate::FileSystem::opendir) and \
     [`create`](crate::FileSystem::create). `O_ACCMODE` is the mask of the first three." {
        O_RDONLY = 0o0, O_WRONLY = 0o1, O_RDWR = 0o2, O_ACCMODE = 0o3, O_CREAT = 0o100, O_EXCL = 0o200,
        O_NOCTTY = 0o400, O_TRUNC = 0o1000, O_APPEND = 0o2000, O_NONBLOCK = 0o4000, O_DSYNC = 0o10_000,
        O_DIRECT = 0o40_000, O_DIRECTORY = 0o200_000, O_NOFOLLOW = 0o400_000, O_NOATIME = 0o1_000_000,
        O_CLOEXEC = 0o2_000_000, O_SYNC = 0o4_010_000, O_PATH = 0o10_000_000, O_TMPFILE = 0o20_200_000,
    }
    "A flag of `renameat2(2)`, for [`rename`](crate::FileSystem::rename)." {
        RENAME_NOREPLACE = 1, RENAME_EXCHANGE = 2, RENAME_WHITEOUT = 4,
    }
    "How [`lseek`](crate::FileSystem::lseek) searches. Linux sends a request only for data and holes." {
        SEEK_SET = 0, SEEK_CUR = 1, SEEK_END = 2, SEEK_DATA = 3, SEEK_HOLE = 4,
    }
    "The type of a lock as a number, which file systems for [`fuser`](crate::fuser) get. For \
     [`setlk`](crate::FileSystem::setlk) it is a [`LockType`](crate::LockType)." {
        F_RDLCK = 0, F_WRLCK = 1, F_UNLCK = 2,
    }
    "An event of `poll(2)`, for [`poll`](crate::FileSystem::poll)." {
        POLLIN = 0x1, POLLPRI = 0x2, POLLOUT = 0x4, POLLERR = 0x8, POLLHUP = 0x10, POLLRDNORM = 0x40,
        POLLWRNORM = 0x100,
    }
    "A permission that [`access`](crate::FileSystem::access) checks. `F_OK` has no bit." {
        F_OK = 0, X_OK = 1, W_OK = 2, R_OK = 4,
    }
    "A flag of `setxattr(2)`, for [`setxattr`](crate::FileSystem::setxattr)." {
        XATTR_CREATE = 1, XATTR_REPLACE = 2,
    }
    "A mode of `fallocate(2)`, for [`fallocate`](crate::FileSystem::fallocate)." {
        FALLOC_FL_KEEP_SIZE = 0x1, FALLOC_FL_PUNCH_HOLE = 0x2, FALLOC_FL_COLLAPSE_RANGE = 0x8,
        FALLOC_FL_ZERO_RANGE = 0x10, FALLOC_FL_INSERT_RANGE = 0x20, FALLOC_FL_UNSHARE_RANGE = 0x40,
    }
    "The type of an item of a directory, in a [`DirEntry`](crate::DirEntry) or a \
     [`DirItem`](crate::DirItem)." {
        DT_UNKNOWN = 0, DT_FIFO = 1, DT_CHR = 2, DT_DIR = 4, DT_BLK = 6, DT_REG = 8, DT_LNK = 10,
        DT_SOCK = 12,
    }
    "The type of a file in the mode of an [`Attr`](crate::Attr). `S_IFMT` is the mask of the others." {
        S_IFMT = 0o170_000, S_IFIFO = 0o010_000, S_IFCHR = 0o020_000, S_IFDIR = 0o040_000,
        S_IFBLK = 0o060_000, S_IFREG = 0o100_000, S_IFLNK = 0o120_000, S_IFSOCK = 0o140_000,
    }
    "A permission bit in the mode of an [`Attr`](crate::Attr)." {
        S_ISUID = 0o4000, S_ISGID = 0o2000, S_ISVTX = 0o1000,
    }
}
