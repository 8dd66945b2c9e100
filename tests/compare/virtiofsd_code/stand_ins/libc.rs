//! Stands for the crate `libc`: what virtiofsd's four files name, with Linux's numbers on x86-64.
#![allow(non_camel_case_types)]
pub type c_char = i8;
pub type c_int = i32;
pub type c_long = i64;
pub type pid_t = i32;
pub type ino64_t = u64;

pub const ENOENT: i32 = 2;
pub const EIO: i32 = 5;
pub const ENOMEM: i32 = 12;
pub const EEXIST: i32 = 17;
pub const ENOTDIR: i32 = 20;
pub const EINVAL: i32 = 22;
pub const ENOSPC: i32 = 28;
pub const ENOSYS: i32 = 38;
pub const EPROTO: i32 = 71;
pub const EOVERFLOW: i32 = 75;

pub const RENAME_NOREPLACE: u32 = 1;
pub const RENAME_EXCHANGE: u32 = 2;
pub const RENAME_WHITEOUT: u32 = 4;

pub const _SC_PAGESIZE: c_int = 30;

extern "C" {
    pub fn sysconf(name: c_int) -> c_long;
    #[link_name = "__xpg_strerror_r"]
    pub fn strerror_r(errnum: c_int, buf: *mut c_char, buflen: usize) -> c_int;
}

// Records that no one hands to the system, so the order of their fields is of no matter.
#[derive(Clone, Copy, Debug, Default)]
pub struct stat64 {
    pub st_ino: u64,
    pub st_nlink: u64,
    pub st_rdev: u64,
    pub st_size: i64,
    pub st_blocks: i64,
    pub st_blksize: i64,
    pub st_atime: i64,
    pub st_mtime: i64,
    pub st_ctime: i64,
    pub st_atime_nsec: i64,
    pub st_mtime_nsec: i64,
    pub st_ctime_nsec: i64,
    pub st_mode: u32,
    pub st_uid: u32,
    pub st_gid: u32,
}

#[derive(Clone, Copy, Debug, Default)]
pub struct statvfs64 {
    pub f_bsize: u64,
    pub f_frsize: u64,
    pub f_blocks: u64,
    pub f_bfree: u64,
    pub f_bavail: u64,
    pub f_files: u64,
    pub f_ffree: u64,
    pub f_namemax: u64,
}
