//! The parameters of a session, as fuser has them.

use crate::flags::FsOptions;
use crate::fuser::flags::InitFlags;
use crate::fuser::types::Version;
use crate::mount::MountOption as Own;
use crate::optional::Limits;
use std::io;
use std::time::Duration;

/// The users whose requests are served. By default the kernel refuses those of all users except the owner.
#[derive(Clone, Copy, Debug, Default, Eq, PartialEq)]
pub enum SessionACL {
    /// All users.
    All,
    /// Root and the user who mounts.
    RootAndOwner,
    /// The user who mounts.
    #[default]
    Owner,
}

/// How a session is mounted and served.
#[derive(Clone, Debug, Default, Eq, PartialEq)]
#[non_exhaustive]
pub struct Config {
    /// Options of the mount.
    pub mount_options: Vec<MountOption>,
    /// The users whose requests are served.
    pub acl: SessionACL,
    /// The number of threads that serve it. By default it is one.
    pub n_threads: Option<usize>,
    /// It is ignored, because all threads use the same descriptor.
    pub clone_fd: bool,
}

/// An option of a mount.
#[derive(Clone, Debug, Eq, Hash, PartialEq)]
pub enum MountOption {
    /// The name of the file system, which `mount(8)` lists.
    FSName(String),
    /// The type is `fuse.` and this.
    Subtype(String),
    /// Another option. It is refused, because this crate has no others.
    #[allow(clippy::upper_case_acronyms)] // the name is fuser's
    CUSTOM(String),
    /// It is unmounted when this process ends.
    AutoUnmount,
    /// The kernel checks permissions.
    DefaultPermissions,
    /// Devices can be used.
    Dev,
    /// Devices cannot be used, as without an option.
    NoDev,
    /// Set-user-ID programs have their effect.
    Suid,
    /// Set-user-ID programs have no effect, as without an option.
    NoSuid,
    /// Nothing can be written.
    RO,
    /// It can be written, as without an option.
    RW,
    /// Programs can be run, as without an option.
    Exec,
    /// Programs cannot be run.
    NoExec,
    /// Reading changes the time of the last access, as without an option.
    Atime,
    /// Reading does not change the time of the last access.
    NoAtime,
    /// Changes of directories are synchronous.
    DirSync,
    /// Writes are synchronous.
    Sync,
    /// Writes are not synchronous, as without an option.
    Async,
}

impl MountOption {
    /// Returns this crate's option, and the option that contradicts this one. Options that only state the
    /// default have neither.
    fn meaning(&self) -> io::Result<(Option<Own>, Option<MountOption>)> {
        Ok(match self {
            MountOption::FSName(name) => (Some(Own::FSName(name.clone())), None),
            MountOption::Subtype(name) => (Some(Own::Subtype(name.clone())), None),
            MountOption::CUSTOM(word) => {
                return Err(invalid(format!("there is no mount option `{word}`")));
            }
            MountOption::AutoUnmount => (Some(Own::AutoUnmount), None),
            MountOption::DefaultPermissions => (Some(Own::DefaultPermissions), None),
            MountOption::DirSync => (Some(Own::DirSync), None),
            MountOption::Dev => (Some(Own::Dev), Some(MountOption::NoDev)),
            MountOption::Suid => (Some(Own::Suid), Some(MountOption::NoSuid)),
            MountOption::RO => (Some(Own::RO), Some(MountOption::RW)),
            MountOption::NoExec => (Some(Own::NoExec), Some(MountOption::Exec)),
            MountOption::NoAtime => (Some(Own::NoAtime), Some(MountOption::Atime)),
            MountOption::Sync => (Some(Own::Sync), Some(MountOption::Async)),
            MountOption::NoDev
            | MountOption::NoSuid
            | MountOption::RW
            | MountOption::Exec
            | MountOption::Atime
            | MountOption::Async => (None, None),
        })
    }
}

fn invalid(why: String) -> io::Error {
    io::Error::new(io::ErrorKind::InvalidInput, why)
}

impl Config {
    /// Returns the options that this crate mounts with.
    pub(super) fn own_options(&self) -> io::Result<Vec<Own>> {
        let mut own = Vec::new();
        for option in &self.mount_options {
            let (meant, contrary) = option.meaning()?;
            if let Some(contrary) = contrary.filter(|it| self.mount_options.contains(it)) {
                return Err(invalid(format!(
                    "the mount options {option:?} and {contrary:?} contradict each other"
                )));
            }
            own.extend(meant);
        }
        if self.acl != SessionACL::Owner {
            own.push(Own::AllowOther);
        }
        Ok(own)
    }

    /// Returns how many threads serve.
    pub(super) fn threads(&self) -> io::Result<usize> {
        match self.n_threads {
            Some(0) => Err(invalid("n_threads is 0".into())),
            count => Ok(count.unwrap_or(1)),
        }
    }
}

/// The capabilities of the kernel, and the options and limits that [`init`](crate::fuser::Filesystem::init)
/// sets.
#[derive(Debug)]
pub struct KernelConfig {
    capabilities: InitFlags,
    requested: InitFlags,
    max_readahead: u32,
    readahead: u32,
    max_write: u32,
    write: u32,
    background: u16,
    congestion: Option<u16>,
    granularity: Duration,
    version: Version,
}

/// Options that are wanted by default.
const WANTED: InitFlags =
    InitFlags::FUSE_ASYNC_READ.union(InitFlags::FUSE_BIG_WRITES).union(InitFlags::FUSE_MAX_PAGES);

impl KernelConfig {
    pub(super) fn new(capable: FsOptions, readahead: u32, max_write: u32, version: Version) -> Self {
        let capabilities = InitFlags::from_bits_retain(capable.bits());
        KernelConfig {
            capabilities,
            requested: WANTED.intersection(capabilities),
            max_readahead: readahead,
            readahead,
            max_write,
            write: max_write,
            background: 16,
            congestion: None,
            granularity: Duration::from_nanos(1),
            version,
        }
    }

    getters! {
        /// Returns the options of which the kernel is capable.
        capabilities: InitFlags = |it| it.capabilities.difference(InitFlags::FUSE_INIT_EXT);
        /// Returns the version of the protocol that the kernel has.
        kernel_abi: Version = |it| it.version;
    }

    /// Adds options that the file system wants.
    ///
    /// # Errors
    /// The options of which the kernel is not capable. In this case none of them is added.
    pub fn add_capabilities(&mut self, capabilities_to_add: InitFlags) -> Result<(), InitFlags> {
        let missing = capabilities_to_add.difference(self.capabilities);
        if !missing.is_empty() {
            return Err(missing);
        }
        self.requested |= capabilities_to_add;
        Ok(())
    }

    /// Sets the maximum number of bytes in a WRITE. Returns the previous one.
    ///
    /// # Errors
    /// The nearest valid number.
    pub fn set_max_write(&mut self, value: u32) -> Result<u32, u32> {
        set(&mut self.write, value, 1..=self.max_write)
    }

    /// Sets the maximum number of bytes that are read ahead. Returns the previous one.
    ///
    /// # Errors
    /// The nearest valid number.
    pub fn set_max_readahead(&mut self, value: u32) -> Result<u32, u32> {
        set(&mut self.readahead, value, 1..=self.max_readahead)
    }

    /// Sets the maximum number of background requests. Returns the previous one.
    ///
    /// # Errors
    /// 1 if it is 0.
    pub fn set_max_background(&mut self, value: u16) -> Result<u16, u16> {
        set(&mut self.background, value, 1..=u16::MAX)
    }

    /// Sets the number of background requests from which the kernel slows down. Returns the previous one.
    ///
    /// # Errors
    /// 1 if it is 0.
    pub fn set_congestion_threshold(&mut self, value: u16) -> Result<u16, u16> {
        let mut threshold = self.threshold();
        let before = set(&mut threshold, value, 1..=u16::MAX)?;
        self.congestion = Some(value);
        Ok(before)
    }

    /// Sets the unit of times of files, a power of 10 in nanoseconds up to one second. Returns the previous
    /// one.
    ///
    /// # Errors
    /// The nearest valid unit, which is shorter unless the value is 0.
    pub fn set_time_granularity(&mut self, value: Duration) -> Result<Duration, Duration> {
        let units = (0..=9).rev().map(|power| Duration::from_nanos(10_u64.pow(power)));
        let nearest = units.clone().find(|unit| *unit <= value);
        match nearest.unwrap_or(Duration::from_nanos(1)) {
            unit if unit == value => Ok(std::mem::replace(&mut self.granularity, value)),
            unit => Err(unit),
        }
    }

    /// Would set the number of file systems below this one. It can only be 0, which is returned.
    ///
    /// # Errors
    /// 0, if the value is not 0, because this crate does not support stacked file systems.
    pub fn set_max_stack_depth(&mut self, value: u32) -> Result<u32, u32> {
        set(&mut 0, value, 0..=0)
    }

    /// By default three quarters of the background requests; never more than these.
    fn threshold(&self) -> u16 {
        let max = self.background;
        self.congestion.map_or(max - max / 4 - u16::from(max % 4 != 0), |it| it.min(max))
    }

    /// Returns the options that are wanted, and the limits.
    pub(super) fn decided(&self) -> (FsOptions, Limits) {
        let limits = Limits {
            max_readahead: self.readahead,
            max_write: self.write,
            max_background: self.background,
            congestion_threshold: self.threshold(),
            time_gran: u32::try_from(self.granularity.as_nanos()).unwrap_or(0),
            request_timeout: 0,
        };
        (FsOptions::from_bits_truncate(self.requested.bits()), limits)
    }
}

/// Sets a number if it is in the range, and returns the previous one. Otherwise returns the nearest valid
/// one.
fn set<T: Copy + Ord>(number: &mut T, value: T, can_be: std::ops::RangeInclusive<T>) -> Result<T, T> {
    if can_be.contains(&value) {
        Ok(std::mem::replace(number, value))
    } else if value < *can_be.start() {
        Err(*can_be.start())
    } else {
        Err(*can_be.end())
    }
}

#[cfg(test)]
mod tests {
    use super::*;

    fn config() -> KernelConfig {
        let capable = FsOptions::BIG_WRITES | FsOptions::POSIX_LOCKS | FsOptions::INIT_EXT;
        KernelConfig::new(capable, 131_072, 1 << 20, Version(7, 40))
    }

    #[test]
    fn what_cannot_be_says_the_nearest() {
        let mut config = config();
        assert_eq!(config.set_max_write(0), Err(1));
        assert_eq!(config.set_max_write(16 << 20), Err(1 << 20));
        assert_eq!(config.set_max_write(8192), Ok(1 << 20));
        assert_eq!(config.set_max_readahead(131_073), Err(131_072));
        assert_eq!(config.set_max_stack_depth(2), Err(0));
        let unit = Duration::from_nanos;
        for (value, expected) in [
            (unit(0), Err(unit(1))),
            (unit(100), Ok(unit(1))),
            (unit(150), Err(unit(100))),
            (Duration::from_secs(2), Err(Duration::from_secs(1))),
            (Duration::from_secs(1), Ok(unit(100))),
        ] {
            assert_eq!(config.set_time_granularity(value), expected);
        }
        // Three quarters of 16, and of 5, rounded down.
        assert_eq!(config.set_congestion_threshold(0), Err(1));
        assert_eq!(config.set_max_background(5), Ok(16));
        assert_eq!(config.set_congestion_threshold(9), Ok(3));
        assert_eq!(config.set_congestion_threshold(2), Ok(5));
        let (options, limits) = config.decided();
        assert_eq!(options, FsOptions::BIG_WRITES);
        assert_eq!((limits.congestion_threshold, limits.time_gran), (2, 1_000_000_000));
    }

    #[test]
    fn only_what_the_kernel_has_can_be_added() {
        let mut config = config();
        let (locks, cache) = (InitFlags::FUSE_POSIX_LOCKS, InitFlags::FUSE_WRITEBACK_CACHE);
        assert_eq!(config.add_capabilities(locks | cache), Err(cache));
        assert_eq!(config.add_capabilities(locks), Ok(()));
        assert_eq!(config.capabilities(), InitFlags::FUSE_BIG_WRITES | locks);
        assert_eq!(config.decided().0, FsOptions::BIG_WRITES | FsOptions::POSIX_LOCKS);
    }

    #[test]
    fn options_of_a_mount_do_not_contradict_each_other() {
        let options = |mount_options| Config { mount_options, ..Config::default() }.own_options();
        let why = |mount_options| options(mount_options).unwrap_err().to_string();
        assert!(why(vec![MountOption::RO, MountOption::RW]).contains("RO and RW"));
        assert!(why(vec![MountOption::CUSTOM("max_read=1".into())]).contains("`max_read=1`"));
        assert_eq!(options(vec![MountOption::Suid, MountOption::Exec]).unwrap(), [Own::Suid]);
        let shared = Config { acl: SessionACL::RootAndOwner, ..Config::default() };
        assert_eq!(shared.own_options().unwrap(), [Own::AllowOther]);
        assert!(Config { n_threads: Some(0), ..Config::default() }.threads().is_err());
    }
}
