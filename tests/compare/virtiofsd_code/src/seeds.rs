//! What the seed of a call makes of an answer.
use crate::filesystem::*;
use crate::fuse::Attr;
use std::ffi::CStr;
use std::io;
use std::time::Duration;

pub fn none<T>() -> io::Result<T> {
    Err(io::Error::other("a fault without a number"))
}
pub fn os<T>(n: i32) -> io::Result<T> {
    Err(io::Error::from_raw_os_error(n))
}

/// The entry of a node that is told.
pub fn bare_entry(inode: u64) -> Entry {
    Entry {
        inode,
        generation: 0,
        attr: Attr::default(),
        attr_timeout: Duration::ZERO,
        entry_timeout: Duration::ZERO,
    }
}

/// An entry that a kernel keeps for a second.
pub fn kept_entry(generation: u64, attr: Attr) -> Entry {
    let second = Duration::from_secs(1);
    Entry { inode: attr.ino, generation, attr, attr_timeout: second, entry_timeout: second }
}

pub fn bytes(q: u64, n: u64) -> Vec<u8> {
    (0..n).map(|i| ((q + i) % 256) as u8).collect()
}
pub fn time(t: u64) -> Duration {
    Duration::new(t % 100, (t % 1000) as u32 * 1000)
}
pub fn attr(t: u64, ino: u64, ctx: Context) -> Attr {
    Attr {
        ino,
        size: t * 7,
        blocks: t,
        atime: t + 1,
        mtime: t + 2,
        ctime: t + 3,
        atimensec: (t % 1_000_000) as u32,
        mtimensec: (t % 1_000_000) as u32 + 1,
        ctimensec: (t % 1_000_000) as u32 + 2,
        mode: 0o100644,
        nlink: 1 + (t % 3) as u32,
        uid: ctx.uid,
        gid: ctx.gid,
        rdev: (t % 256) as u32,
        blksize: 4096,
        flags: (t % 4) as u32,
    }
}
pub fn entry(q: u64, name: &CStr, ctx: Context) -> Entry {
    let t = q + name.to_bytes().iter().map(|&b| b as u64).sum::<u64>();
    let inode = if t % 5 == 4 {
        0
    } else if t % 97 == 96 {
        u64::MAX
    } else {
        1000 + t
    };
    Entry {
        inode,
        generation: t * 3,
        attr: attr(t, inode, ctx),
        attr_timeout: time(t),
        entry_timeout: time(t + 1),
    }
}
pub fn handle(q: u64) -> Option<u64> {
    if q % 3 == 0 {
        None
    } else {
        Some(q * 4_294_967_297)
    }
}
pub fn opts(q: u64) -> OpenOptions {
    OpenOptions::from_bits_truncate((q % 128) as u32)
}
/// The options that INIT wants, by their bits.
pub fn wanted(q: u64) -> u64 {
    match q % 6 {
        0 => 0,
        1 => u64::MAX,
        2 => 1 << 32,
        3 => 1 << 29,
        4 => 1 << 29 | 1 << 32,
        _ => 1 << 13 | 1 << 17 | 1 << 28 | 1 << 29 | 1 << 32,
    }
}
pub fn fault_of(p: u64) -> io::Result<()> {
    if p % 8 != 7 {
        return Ok(());
    }
    match (p / 8) % 160 {
        0 => none(),
        n @ 1..=133 => os(n as i32),
        134 => os(i32::MAX),
        135 => os(0),
        136 => os(-5),
        137 => os(i32::MIN),
        _ => os(libc::ENOENT),
    }
}
