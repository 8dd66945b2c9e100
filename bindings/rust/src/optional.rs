//! Types of the optional operations, which virtiofsd does not serve, and their records.
#![forbid(unsafe_code)]

use crate::ffi::RawInitParams;
use std::fs::Metadata;
use std::os::unix::fs::MetadataExt;
use std::time::{Duration, UNIX_EPOCH};

/// A lock on bytes of a file.
#[derive(Clone, Copy, Debug, PartialEq, Eq)]
pub struct Lock {
    /// The first byte.
    pub start: u64,
    /// The last byte. `u64::MAX >> 1` is the end of the file, however long that gets.
    pub end: u64,
    /// Its type.
    pub kind: LockType,
    /// The process of its owner.
    pub pid: u32,
}

/// The type of a [`Lock`].
#[derive(Clone, Copy, Debug, PartialEq, Eq)]
pub enum LockType {
    /// A shared lock, `F_RDLCK`.
    Read,
    /// An exclusive lock, `F_WRLCK`.
    Write,
    /// No lock, `F_UNLCK`.
    Unlock,
}

impl LockType {
    pub(crate) fn of(number: u32) -> Option<Self> {
        Some(match number {
            0 => LockType::Read,
            1 => LockType::Write,
            2 => LockType::Unlock,
            _ => return None,
        })
    }

    /// `F_RDLCK`, `F_WRLCK` or `F_UNLCK`.
    pub(crate) fn number(self) -> u32 {
        match self {
            LockType::Read => 0,
            LockType::Write => 1,
            LockType::Unlock => 2,
        }
    }
}

impl Lock {
    /// Returns whether two locks of different owners exclude each other: they have bytes in common, and one
    /// is exclusive.
    ///
    /// ```
    /// use nizwarf::{Lock, LockType};
    ///
    /// let read = Lock { start: 0, end: 9, kind: LockType::Read, pid: 1 };
    /// assert!(!read.excludes(&read));
    /// assert!(read.excludes(&Lock { start: 9, kind: LockType::Write, ..read }));
    /// assert!(!read.excludes(&Lock { start: 10, end: 20, kind: LockType::Write, ..read }));
    /// ```
    #[must_use]
    pub fn excludes(&self, other: &Lock) -> bool {
        let kinds = [self.kind, other.kind];
        self.start <= other.end
            && other.start <= self.end
            && kinds.contains(&LockType::Write)
            && !kinds.contains(&LockType::Unlock)
    }

    /// `fuse_lk_out`.
    pub(crate) fn to_record(self) -> [u8; 24] {
        record([self.start, self.end, pair(self.kind.number(), self.pid)])
    }
}

/// Identifies an open file for whose events callers wait. [`Notifier::wake`](crate::Notifier::wake) wakes
/// them.
#[derive(Clone, Copy, Debug, PartialEq, Eq, Hash)]
pub struct PollHandle(pub(crate) u64);

/// The answer to an IOCTL.
#[derive(Clone, Debug, PartialEq, Eq)]
pub enum IoctlReply {
    /// The command was carried out.
    Done {
        /// The result of `ioctl(2)`.
        result: i32,
        /// The output: at most `output_size` bytes. If it is longer, the reply is EIO.
        output: Vec<u8>,
    },
    /// Linux sends the request again, with the bytes of these ranges of the caller's memory: at most 256 in
    /// all. It accepts this only with [`IoctlFlags::UNRESTRICTED`](crate::IoctlFlags::UNRESTRICTED).
    Retry {
        /// The ranges that are read.
        input: Vec<IoctlRange>,
        /// The ranges that are written.
        output: Vec<IoctlRange>,
    },
}

/// Memory of the caller of an IOCTL.
#[derive(Clone, Copy, Debug, PartialEq, Eq)]
pub struct IoctlRange {
    /// The address of its first byte.
    pub base: u64,
    /// Its length.
    pub len: u64,
}

impl IoctlReply {
    /// `fuse_ioctl_out`, and the output or ranges after it. `None` if they are too long.
    pub(crate) fn to_text(&self, output_size: u32) -> Option<Vec<u8>> {
        const RETRY: u32 = 1 << 2;
        const MAX_RANGES: usize = 256;
        match self {
            IoctlReply::Done { result, output } if output.len() <= output_size as usize => {
                Some([&result.to_le_bytes()[..], &[0; 12], output].concat())
            }
            IoctlReply::Retry { input, output } => {
                let count = |ranges: &[IoctlRange]| u32::try_from(ranges.len()).ok();
                let begins = [pair(0, RETRY), pair(count(input)?, count(output)?)];
                let ranges = input.iter().chain(output).flat_map(|range| [range.base, range.len]);
                let numbers = begins.into_iter().chain(ranges);
                (input.len() + output.len() <= MAX_RANGES)
                    .then(|| numbers.flat_map(u64::to_le_bytes).collect())
            }
            IoctlReply::Done { .. } => None,
        }
    }
}

/// Attributes of a node with the time of its birth: `fuse_statx`.
///
/// ```
/// use nizwarf::Statx;
///
/// let statx = Statx::from(&std::fs::metadata("/").unwrap());
/// assert_eq!(statx.mask & Statx::BASIC, Statx::BASIC);
/// assert_eq!(u32::from(statx.mode) >> 12, nizwarf::DT_DIR);
/// ```
#[derive(Clone, Copy, Debug, Default, PartialEq, Eq)]
pub struct Statx {
    /// Which fields have a value: [`BASIC`](Self::BASIC), [`BTIME`](Self::BTIME) or other bits of `statx(2)`.
    pub mask: u32,
    /// The preferred size of reads and writes.
    pub blksize: u32,
    /// Attributes as `STATX_ATTR_IMMUTABLE`.
    pub attributes: u64,
    /// The number of hard links.
    pub nlink: u32,
    /// The owner.
    pub uid: u32,
    /// The group.
    pub gid: u32,
    /// The type and the permissions.
    pub mode: u16,
    /// The inode number that programs see.
    pub ino: u64,
    /// The size in bytes.
    pub size: u64,
    /// The allocated blocks, of 512 bytes each.
    pub blocks: u64,
    /// Which bits of `attributes` have a value.
    pub attributes_mask: u64,
    /// The time of the last access.
    pub atime: StatxTime,
    /// The time of the birth.
    pub btime: StatxTime,
    /// The time of the last change of the attributes.
    pub ctime: StatxTime,
    /// The time of the last modification of the data.
    pub mtime: StatxTime,
    /// The major and the minor number, if it is a device.
    pub rdev: (u32, u32),
    /// The major and the minor number of the device that the file system is on.
    pub dev: (u32, u32),
}

/// A time of a [`Statx`], since 1970.
#[derive(Clone, Copy, Debug, Default, PartialEq, Eq)]
pub struct StatxTime {
    /// The seconds.
    pub seconds: i64,
    /// The nanoseconds.
    pub nanoseconds: u32,
}

impl Statx {
    /// The fields that [`Attr`](crate::Attr) has, too: `STATX_BASIC_STATS`.
    pub const BASIC: u32 = 0x7ff;
    /// The time of the birth: `STATX_BTIME`.
    pub const BTIME: u32 = 0x800;

    /// `fuse_statx_out`.
    #[allow(clippy::cast_sign_loss)] // the bits of a signed number
    pub(crate) fn to_record(self, timeout: Duration) -> [u8; 288] {
        let begins = [timeout.as_secs(), timeout.subsec_nanos().into(), 0, 0];
        let first = [pair(self.mask, self.blksize), self.attributes];
        let owner = [pair(self.nlink, self.uid), pair(self.gid, self.mode.into())];
        let sizes = [self.ino, self.size, self.blocks, self.attributes_mask];
        let times = [self.atime, self.btime, self.ctime, self.mtime];
        let times = times.iter().flat_map(|time| [time.seconds as u64, time.nanoseconds.into()]);
        let devices = [self.rdev, self.dev].map(|(major, minor)| pair(major, minor));
        record(begins.into_iter().chain(first).chain(owner).chain(sizes).chain(times).chain(devices))
    }
}

impl From<&Metadata> for Statx {
    /// Converts the result of `stat(2)`, and the time of the birth, if the file system has it. Numbers are
    /// truncated to the width of their field.
    #[allow(clippy::cast_possible_truncation, clippy::cast_sign_loss, clippy::cast_possible_wrap)] // as documented
    fn from(stat: &Metadata) -> Self {
        let time = |seconds, nanoseconds: i64| StatxTime { seconds, nanoseconds: nanoseconds as u32 };
        let born = stat.created().ok().and_then(|born| born.duration_since(UNIX_EPOCH).ok());
        let numbers = |device: u64| {
            let major = (device >> 8) & 0xfff | (device >> 32) & !0xfff;
            let minor = device & 0xff | (device >> 12) & !0xff;
            (major as u32, minor as u32)
        };
        Statx {
            mask: Self::BASIC | born.map_or(0, |_| Self::BTIME),
            blksize: stat.blksize() as u32,
            nlink: stat.nlink() as u32,
            uid: stat.uid(),
            gid: stat.gid(),
            mode: stat.mode() as u16,
            ino: stat.ino(),
            size: stat.size(),
            blocks: stat.blocks(),
            atime: time(stat.atime(), stat.atime_nsec()),
            btime: born.map_or_else(StatxTime::default, |born| {
                time(born.as_secs() as i64, born.subsec_nanos().into())
            }),
            ctime: time(stat.ctime(), stat.ctime_nsec()),
            mtime: time(stat.mtime(), stat.mtime_nsec()),
            rdev: numbers(stat.rdev()),
            dev: numbers(stat.dev()),
            ..Statx::default()
        }
    }
}

/// Limits in the reply to INIT. A field that is 0, which is the default, leaves the limit of the session.
#[derive(Clone, Copy, Debug, Default, PartialEq, Eq)]
pub struct Limits {
    /// The maximum number of bytes that are read ahead. It is limited to the client's, and at least 4096.
    pub max_readahead: u32,
    /// The maximum number of bytes in a WRITE. It is limited to the session's largest payload, and at least
    /// 4096.
    pub max_write: u32,
    /// The maximum number of background requests.
    pub max_background: u16,
    /// The number of background requests from which the client slows down.
    pub congestion_threshold: u16,
    /// The unit of times of files in nanoseconds: a power of 10, at most 1000000000.
    pub time_gran: u32,
    /// The number of seconds after which a request without a reply ends the connection, if
    /// [`init`](crate::FileSystem::init) wants [`REQUEST_TIMEOUT`](crate::FsOptions::REQUEST_TIMEOUT).
    pub request_timeout: u32,
}

impl Limits {
    /// Converts to the library's struct, with the options that the file system wants.
    pub(crate) fn with(self, want: u64) -> RawInitParams {
        RawInitParams {
            want,
            max_readahead: self.max_readahead,
            max_write: self.max_write,
            time_gran: self.time_gran,
            request_timeout: self.request_timeout,
            max_background: self.max_background,
            congestion_threshold: self.congestion_threshold,
            ..RawInitParams::NONE
        }
    }
}

/// A record of the protocol: these numbers of 64 bits, and zeros after them.
fn record<const N: usize>(numbers: impl IntoIterator<Item = u64>) -> [u8; N] {
    let mut record = [0; N];
    for (bytes, number) in record.chunks_exact_mut(8).zip(numbers) {
        bytes.copy_from_slice(&number.to_le_bytes());
    }
    record
}

/// Two numbers of 32 bits, one after the other.
fn pair(first: u32, second: u32) -> u64 {
    u64::from(first) | u64::from(second) << 32
}

#[cfg(test)]
mod tests {
    use super::*;

    fn words(bytes: &[u8]) -> Vec<u32> {
        bytes.chunks(4).map(|word| u32::from_le_bytes(word.try_into().unwrap())).collect()
    }

    #[test]
    fn a_lock_has_its_record() {
        for (number, kind) in [LockType::Read, LockType::Write, LockType::Unlock].iter().enumerate() {
            let number = u32::try_from(number).unwrap();
            let lock = Lock { start: 1, end: 2 << 32, kind: *kind, pid: 4 };
            assert_eq!(words(&lock.to_record()), [1, 0, 0, 2, number, 4]);
            assert_eq!(LockType::of(number), Some(*kind));
        }
        assert_eq!(LockType::of(3), None);
    }

    #[test]
    fn statx_has_its_record() {
        let time = |number: u32| StatxTime { seconds: number.into(), nanoseconds: number + 1 };
        let statx = Statx {
            mask: 1,
            blksize: 2,
            attributes: 3,
            nlink: 4,
            uid: 5,
            gid: 6,
            mode: 7,
            ino: 8,
            size: 9,
            blocks: 10,
            attributes_mask: 11,
            atime: time(12),
            btime: StatxTime { seconds: -1, nanoseconds: 14 },
            ctime: time(15),
            mtime: time(17),
            rdev: (19, 20),
            dev: (21, 22),
        };
        let mut expected = vec![23, 0, 24, 0, 0, 0, 0, 0, 1, 2, 3, 0, 4, 5, 6, 7];
        expected.extend([8, 0, 9, 0, 10, 0, 11, 0, 12, 0, 13, 0, u32::MAX, u32::MAX, 14, 0]);
        expected.extend([15, 0, 16, 0, 17, 0, 18, 0, 19, 20, 21, 22]);
        expected.resize(72, 0);
        assert_eq!(words(&statx.to_record(Duration::new(23, 24))), expected);
    }

    #[test]
    fn an_ioctl_has_its_text() {
        let done = |output| IoctlReply::Done { result: -2, output };
        let text = done(vec![1, 0, 0, 0]).to_text(4).unwrap();
        assert_eq!(words(&text), [u32::MAX - 1, 0, 0, 0, 1]);
        assert_eq!(done(vec![0; 5]).to_text(4), None);
        let range = IoctlRange { base: 1, len: 2 };
        let retry = |input, output| {
            let (input, output) = (vec![range; input], vec![range; output]);
            IoctlReply::Retry { input, output }.to_text(0)
        };
        let expected = [0, 4, 1, 2, 1, 0, 2, 0, 1, 0, 2, 0, 1, 0, 2, 0];
        assert_eq!(words(&retry(1, 2).unwrap()), expected);
        assert_eq!(retry(200, 56).map(|text| text.len()), Some(16 + 256 * 16));
        assert_eq!(retry(200, 57), None);
    }
}
