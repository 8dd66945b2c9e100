//! What is here in place of virtiofsd's file of the system. It sees the flat bytes of the slices that it is
//! lent. Bytes in memory, and a file that touches nothing, move without a copy between, so that what is
//! measured is the server.
use crate::file_traits::FileReadWriteAtVolatile;
use crate::oslib::WritevFlags;
use std::io;
use std::sync::{Arc, Mutex, MutexGuard};
use vm_memory::{bitmap::BitmapSlice, VolatileSlice};

pub trait Positioned: Send {
    /// Bytes at `off`, at most `room`.
    fn get(&mut self, off: u64, room: usize) -> io::Result<Vec<u8>>;
    /// How many of `data`, put at `off`, were taken.
    fn put(&mut self, off: u64, data: &[u8]) -> io::Result<usize>;
}

/// What a `File` can be.
enum Kind {
    /// Any positioned file; its bytes go by way of a copy.
    Any(Mutex<Box<dyn Positioned>>),
    /// Bytes in memory, at most `LIMIT`, moved straight between them and the slices.
    Bytes(Arc<Mutex<Vec<u8>>>),
    /// Moves all that it is lent and touches nothing.
    Null,
}
pub struct File(Kind);

/// How many bytes a file in memory has at most.
pub const LIMIT: u64 = 65_536;

impl File {
    pub fn new<P: Positioned + 'static>(p: P) -> File {
        File(Kind::Any(Mutex::new(Box::new(p))))
    }
    pub fn bytes(b: Arc<Mutex<Vec<u8>>>) -> File {
        File(Kind::Bytes(b))
    }
    pub fn null() -> File {
        File(Kind::Null)
    }
}
fn lock<T>(m: &Mutex<T>) -> MutexGuard<'_, T> {
    m.lock().unwrap_or_else(|e| e.into_inner())
}
fn total<B: BitmapSlice>(bufs: &[&VolatileSlice<B>]) -> usize {
    bufs.iter().map(|b| b.len()).sum()
}
/// Copies the beginning of the slices' bytes from `data`.
fn fill<B: BitmapSlice>(bufs: &[&VolatileSlice<B>], data: &[u8]) {
    let mut rest = data;
    for b in bufs {
        let n = rest.len().min(b.len());
        unsafe { std::ptr::copy_nonoverlapping(rest.as_ptr(), b.ptr_guard_mut().as_ptr(), n) };
        rest = &rest[n..];
    }
}
/// Copies the beginning of the slices' bytes to `data`.
fn drain<B: BitmapSlice>(bufs: &[&VolatileSlice<B>], data: &mut [u8]) {
    let mut rest = data;
    for b in bufs {
        let n = rest.len().min(b.len());
        unsafe { std::ptr::copy_nonoverlapping(b.ptr_guard().as_ptr(), rest.as_mut_ptr(), n) };
        rest = &mut rest[n..];
    }
}

impl<B: BitmapSlice> FileReadWriteAtVolatile<B> for &File {
    fn read_vectored_at_volatile(&self, bufs: &[&VolatileSlice<B>], off: u64) -> io::Result<usize> {
        let room = total(bufs);
        match &self.0 {
            Kind::Any(f) => {
                let data = lock(f).get(off, room)?;
                assert!(data.len() <= room);
                fill(bufs, &data);
                Ok(data.len())
            }
            Kind::Bytes(f) => {
                let b = lock(f);
                let from = off.min(b.len() as u64) as usize;
                let n = room.min(b.len() - from);
                fill(bufs, &b[from..from + n]);
                Ok(n)
            }
            Kind::Null => Ok(room),
        }
    }
    fn write_vectored_at_volatile(
        &self,
        bufs: &[&VolatileSlice<B>],
        off: u64,
        _flags: Option<WritevFlags>,
    ) -> io::Result<usize> {
        let len = total(bufs);
        match &self.0 {
            Kind::Any(f) => {
                let mut data = vec![0; len];
                drain(bufs, &mut data);
                let n = lock(f).put(off, &data)?;
                assert!(n <= data.len());
                Ok(n)
            }
            Kind::Bytes(f) => {
                let mut b = lock(f);
                let n = (len as u64).min(LIMIT.saturating_sub(off)) as usize;
                if n > 0 {
                    let from = off as usize;
                    if b.len() < from + n {
                        b.resize(from + n, 0);
                    }
                    drain(bufs, &mut b[from..from + n]);
                }
                Ok(n)
            }
            Kind::Null => Ok(len),
        }
    }
}

/// READ and WRITE of a file system whose nodes have such files.
macro_rules! transfers {
    ($this:ident, $inode:ident => $file:expr) => {
        fn read<W: ZeroCopyWriter>(
            &$this,
            _ctx: Context,
            $inode: u64,
            _handle: u64,
            mut w: W,
            size: u32,
            offset: u64,
            _owner: Option<u64>,
            _flags: u32,
        ) -> io::Result<usize> {
            w.read_from_file_at($file, size as usize, offset)
        }
        fn write<R: ZeroCopyReader>(
            &$this,
            _ctx: Context,
            $inode: u64,
            _handle: u64,
            mut r: R,
            size: u32,
            offset: u64,
            _owner: Option<u64>,
            _delayed: bool,
            _kill_priv: bool,
            _flags: u32,
        ) -> io::Result<usize> {
            r.write_to_file_at($file, size as usize, offset, None)
        }
    };
}
pub(crate) use transfers;
