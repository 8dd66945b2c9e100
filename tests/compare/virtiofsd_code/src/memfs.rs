//! The files in memory of `fs_small`, written again for virtiofsd's trait: a root, node 1, with at most
//! a thousand files of at most 65,536 bytes; at first the file `a`, node 2, which says `hello`.
use crate::file::{transfers, File};
use crate::filesystem::*;
use crate::fuse::Attr;
use crate::seeds::{kept_entry, os};
use std::ffi::{CStr, CString};
use std::io;
use std::sync::{Arc, Mutex, MutexGuard};
use std::time::Duration;

/// The bytes of a file, shared with the `File` that a transfer is lent, which keeps the limit.
#[derive(Default)]
struct MemFile(Arc<Mutex<Vec<u8>>>);
struct Node {
    node: u64,
    name: CString,
    file: MemFile,
}
struct State {
    files: Vec<Node>,
    next: u64,
}
pub struct MemFs(Mutex<State>);

impl Default for MemFs {
    fn default() -> Self {
        let file = MemFile(Arc::new(Mutex::new(b"hello".to_vec())));
        let files = vec![Node { node: 2, name: c"a".to_owned(), file }];
        MemFs(Mutex::new(State { files, next: 3 }))
    }
}

fn attr(n: Option<&Node>) -> Attr {
    let (ino, mode, nlink, size) = match n {
        None => (1, 0o40755, 2, 0),
        Some(n) => (n.node, 0o100644, 1, n.file.0.lock().unwrap().len() as u64),
    };
    Attr { ino, mode, nlink, size, blksize: 4096, ..Default::default() }
}
fn entry(n: &Node) -> Entry {
    kept_entry(0, attr(Some(n)))
}

impl MemFs {
    fn lock(&self) -> MutexGuard<'_, State> {
        self.0.lock().unwrap_or_else(|e| e.into_inner())
    }
    fn file(&self, inode: u64) -> io::Result<File> {
        match self.lock().files.iter().find(|f| f.node == inode) {
            Some(f) => Ok(File::bytes(f.file.0.clone())),
            None => os(libc::ENOENT),
        }
    }
}

/// The entries of the root, as they were when the reading began.
pub struct Items {
    pub items: Vec<(u64, u64, u32, CString)>,
    pub at: usize,
}
impl DirectoryIterator for Items {
    fn next(&mut self) -> Option<DirEntry<'_>> {
        let (ino, offset, type_, name) = self.items.get(self.at)?;
        self.at += 1;
        Some(DirEntry { ino: *ino, offset: *offset, type_: *type_, name })
    }
}

impl FileSystem for MemFs {
    type Inode = u64;
    type Handle = u64;
    type DirIter = Items;

    fn init(&self, _capable: FsOptions) -> io::Result<FsOptions> {
        Ok(FsOptions::DO_READDIRPLUS)
    }
    fn lookup(&self, _ctx: Context, parent: u64, name: &CStr) -> io::Result<Entry> {
        let s = self.lock();
        match s.files.iter().find(|f| parent == 1 && f.name.as_c_str() == name) {
            Some(f) => Ok(entry(f)),
            None => os(libc::ENOENT),
        }
    }
    fn getattr(&self, _ctx: Context, inode: u64, _h: Option<u64>) -> io::Result<(Attr, Duration)> {
        let s = self.lock();
        let f = s.files.iter().find(|f| f.node == inode);
        if inode != 1 && f.is_none() {
            return os(libc::ENOENT);
        }
        Ok((attr(f), Duration::from_secs(1)))
    }
    fn unlink(&self, _ctx: Context, parent: u64, name: &CStr) -> io::Result<()> {
        let mut s = self.lock();
        match s.files.iter().position(|f| parent == 1 && f.name.as_c_str() == name) {
            Some(i) => {
                s.files.remove(i);
                Ok(())
            }
            None => os(libc::ENOENT),
        }
    }
    fn create(
        &self,
        _ctx: Context,
        parent: u64,
        name: &CStr,
        _mode: u32,
        _kill_priv: bool,
        _flags: u32,
        _umask: u32,
        _ext: Extensions,
    ) -> io::Result<(Entry, Option<u64>, OpenOptions)> {
        let mut s = self.lock();
        if parent != 1 {
            return os(libc::ENOENT);
        }
        if s.files.iter().any(|f| f.name.as_c_str() == name) {
            return os(libc::EEXIST);
        }
        if s.files.len() >= 1000 || s.next == u64::MAX {
            return os(libc::ENOSPC);
        }
        let f = Node { node: s.next, name: name.to_owned(), file: MemFile::default() };
        s.next += 1;
        let e = entry(&f);
        s.files.push(f);
        Ok((e, None, OpenOptions::empty()))
    }
    transfers! { self, inode => &self.file(inode)? }
    fn readdir(
        &self,
        _ctx: Context,
        inode: u64,
        _h: u64,
        _size: u32,
        offset: u64,
    ) -> io::Result<Items> {
        if inode != 1 {
            return os(libc::ENOTDIR);
        }
        let s = self.lock();
        let mut items = vec![(1, 1, 4, c".".to_owned()), (1, 2, 4, c"..".to_owned())];
        for (i, f) in s.files.iter().enumerate() {
            items.push((f.node, i as u64 + 3, 8, f.name.clone()));
        }
        let at = offset.min(items.len() as u64) as usize;
        Ok(Items { items, at })
    }
}
