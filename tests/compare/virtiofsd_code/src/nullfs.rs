//! A file system that answers at once, as `null` of `test_speed` does, so that what is measured over it is
//! the server. It has no state.
use crate::file::{transfers, File};
use crate::filesystem::*;
use crate::fuse::Attr;
use crate::seeds::kept_entry;
use std::ffi::CStr;
use std::io;
use std::time::Duration;

/// How many entries the directory has. Each has the same name.
const ITEMS: u64 = 1000;
const NAME: &CStr = c"file-0123456789-0000";

pub struct NullFs;

fn attr(ino: u64, mode: u32, nlink: u32) -> Attr {
    Attr { ino, mode, nlink, blksize: 4096, ..Default::default() }
}

pub struct Same {
    at: u64,
}
impl DirectoryIterator for Same {
    fn next(&mut self) -> Option<DirEntry<'_>> {
        if self.at >= ITEMS {
            return None;
        }
        self.at += 1;
        Some(DirEntry { ino: self.at + 1, offset: self.at, type_: 8, name: NAME })
    }
}

impl FileSystem for NullFs {
    type Inode = u64;
    type Handle = u64;
    type DirIter = Same;

    fn init(&self, _capable: FsOptions) -> io::Result<FsOptions> {
        Ok(FsOptions::SECURITY_CTX)
    }
    fn lookup(&self, _ctx: Context, _parent: u64, _name: &CStr) -> io::Result<Entry> {
        Ok(kept_entry(0, attr(2, 0o100644, 1)))
    }
    fn getattr(&self, _ctx: Context, inode: u64, _h: Option<u64>) -> io::Result<(Attr, Duration)> {
        Ok((attr(inode, 0o100644, 1), Duration::from_secs(1)))
    }
    fn batch_forget(&self, _ctx: Context, _requests: Vec<(u64, u64)>) {}
    fn mkdir(
        &self,
        _ctx: Context,
        _parent: u64,
        _name: &CStr,
        _mode: u32,
        _umask: u32,
        ext: Extensions,
    ) -> io::Result<Entry> {
        let received = ext.secctx.as_ref().map_or(0, |c| c.secctx.len() as u64);
        Ok(kept_entry(received, attr(3, 0o40755, 2)))
    }
    fn setxattr(
        &self,
        _ctx: Context,
        _inode: u64,
        _name: &CStr,
        _value: &[u8],
        _flags: u32,
        _extra: SetxattrFlags,
    ) -> io::Result<()> {
        Ok(())
    }
    transfers! { self, inode => &File::null() }
    fn readdir(
        &self,
        _ctx: Context,
        _inode: u64,
        _h: u64,
        _size: u32,
        offset: u64,
    ) -> io::Result<Same> {
        Ok(Same { at: offset })
    }
}
