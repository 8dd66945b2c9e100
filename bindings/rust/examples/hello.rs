//! A file system of one file, `hello`.
#![allow(clippy::wildcard_imports)] // fewer lines
use nizwarf::*;
use std::{env, ffi::CStr, fs::File, io::*, os::unix::io::AsFd, process::exit, time::Duration};

const TEXT: &[u8] = b"Hello, world!\n";
const USAGE: &str = "Usage: hello MOUNTPOINT
       hello -
Mounts a file system with one file by fusermount3, and serves it until it is unmounted or the
program ends; with -, serves it on the socket that is standard input.";
struct Hello;
struct Items(u64);

impl DirectoryIterator for Items {
    fn next(&mut self) -> Option<DirEntry<'_>> {
        let items = [(1, &b".\0"[..]), (1, b"..\0"), (2, b"hello\0")];
        let (ino, name) = *items.get(usize::try_from(self.0).ok()?)?;
        self.0 += 1;
        let name = CStr::from_bytes_with_nul(name).ok()?;
        Some(DirEntry { ino, offset: self.0, type_: DT_UNKNOWN, name })
    }
}
impl FileSystem for Hello {
    type Inode = u64;
    type Handle = u64;
    type DirIter = Items;
    fn lookup(&self, ctx: Context, parent: u64, name: &CStr) -> Result<Entry> {
        if parent != ROOT_ID || name.to_bytes() != b"hello" {
            return Err(Errno::ENOENT.into());
        }
        let (attr, time) = self.getattr(ctx, 2, None)?;
        Ok(Entry { inode: 2, attr, attr_timeout: time, entry_timeout: time, ..Entry::default() })
    }
    fn getattr(&self, _: Context, ino: u64, _: Option<u64>) -> Result<(Attr, Duration)> {
        let (mode, len) = if ino == ROOT_ID { (0o40_555, 0) } else { (0o100_444, TEXT.len()) };
        Ok((Attr { ino, mode, nlink: 1, size: len as u64, ..Attr::default() }, Duration::from_secs(1)))
    }
    fn readdir(&self, _: Context, _: u64, _: u64, _: u32, offset: u64) -> Result<Items> {
        Ok(Items(offset))
    }
    fn read<W: ZeroCopyWriter>(
        &self, _: Context, _: u64, _: u64, mut w: W, size: u32, at: u64, _: Option<u64>, _: u32,
    ) -> Result<usize> {
        let left = &TEXT[TEXT.len().min(usize::try_from(at).unwrap_or(usize::MAX))..];
        let data = &left[..left.len().min(size as usize)];
        w.write_all(data).map(|()| data.len())
    }
}

fn main() {
    let done = match &*env::args().skip(1).collect::<Vec<_>>() {
        [word] if word == "--help" => writeln!(stdout(), "{USAGE}"),
        [word] if word == "-" => stdin()
            .as_fd()
            .try_clone_to_owned()
            .and_then(|socket| Server::new(Hello).serve(&File::from(socket))),
        [folder] if !folder.is_empty() && !folder.starts_with('-') => {
            let name = MountOption::FSName("hello".into());
            // Without the last one a signal would leave a mount that nobody serves.
            mount(Hello, folder, &[name, MountOption::DefaultPermissions, MountOption::AutoUnmount])
        }
        _ => {
            eprintln!("{USAGE}");
            exit(2)
        }
    };
    if let Err(error) = done {
        eprintln!("hello: {error}");
        exit(1)
    }
}
