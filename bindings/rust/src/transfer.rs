//! The data of a WRITE, and the buffer for the data of a READ.
#![forbid(unsafe_code)]

use crate::bytes::{Bytes, Pieces};
use crate::ffi::write_at;
use crate::file_system::{ZeroCopyReader, ZeroCopyWriter};
use crate::flags::WritevFlags;
use std::fs::File;
use std::io::{self, IoSliceMut, Read, Write};
use std::os::unix::fs::FileExt;

/// The data of a WRITE.
#[derive(Clone, Debug)]
pub(crate) struct Reader<'r> {
    piece: &'r [u8],
    pieces: Pieces<'r>,
}

impl<'r> Reader<'r> {
    pub(crate) fn new(bytes: Bytes<'r>) -> Self {
        Reader { piece: &[], pieces: bytes.pieces() }
    }

    /// Returns the unread bytes of the present piece. They are empty only at the end.
    fn piece(&mut self) -> &'r [u8] {
        if self.piece.is_empty() {
            self.piece = self.pieces.next().unwrap_or_default();
        }
        self.piece
    }
}

impl Read for Reader<'_> {
    fn read(&mut self, to: &mut [u8]) -> io::Result<usize> {
        let piece = self.piece();
        // Fewer than wanted where a piece ends: `Read` allows this, and `read_exact` reads on.
        let len = piece.len().min(to.len());
        to[..len].copy_from_slice(&piece[..len]);
        self.piece = &piece[len..];
        Ok(len)
    }
}

impl ZeroCopyReader for Reader<'_> {
    fn write_to_file_at(
        &mut self, f: &File, count: usize, off: u64, flags: Option<WritevFlags>,
    ) -> io::Result<usize> {
        transfer(count, off, |left, at| {
            let piece = self.piece();
            let moving = &piece[..piece.len().min(left)];
            let moved = match flags {
                // pwrite(2): the file's own offset, which other threads may use, stays.
                None => f.write_at(moving, at)?,
                // (at the end of the data)
                Some(_) if moving.is_empty() => 0,
                Some(flags) => write_at(f, moving, at, flags.bits())?,
            };
            self.piece = &piece[moved..];
            Ok(moved)
        })
    }
}

/// The buffer for the data of a READ: `max` bytes, after the first `skip` bytes.
#[derive(Debug)]
pub(crate) struct Writer<'a, 'b> {
    buffers: &'a mut [IoSliceMut<'b>],
    skip: usize,
    left: usize,
    /// How many bytes were put.
    pub put: usize,
}

impl<'a, 'b> Writer<'a, 'b> {
    pub(crate) fn new(buffers: &'a mut [IoSliceMut<'b>], skip: usize, max: usize) -> Self {
        Writer { buffers, skip, left: max, put: 0 }
    }

    /// Returns the unfilled bytes of the present slice. They are empty only at the end.
    fn piece(&mut self) -> &mut [u8] {
        let full = self
            .buffers
            .iter()
            .take_while(|slice| {
                let is_full = self.skip >= slice.len();
                self.skip -= if is_full { slice.len() } else { 0 };
                is_full
            })
            .count();
        // Full slices are dropped, so that later calls need not skip them.
        self.buffers = std::mem::take(&mut self.buffers).split_at_mut(full).1;
        match self.buffers.first_mut() {
            Some(slice) => {
                let end = slice.len().min(self.skip.saturating_add(self.left));
                &mut slice[self.skip..end]
            }
            None => &mut [],
        }
    }

    /// Advances past bytes that were put. `moved` is at most the length of `piece`, so the numbers do not
    /// overflow.
    fn advance(&mut self, moved: usize) {
        self.skip += moved;
        self.left -= moved;
        self.put += moved;
    }
}

impl Write for Writer<'_, '_> {
    fn write(&mut self, from: &[u8]) -> io::Result<usize> {
        let piece = self.piece();
        let len = piece.len().min(from.len());
        piece[..len].copy_from_slice(&from[..len]);
        self.advance(len);
        Ok(len)
    }

    fn flush(&mut self) -> io::Result<()> {
        Ok(())
    }
}

impl ZeroCopyWriter for Writer<'_, '_> {
    fn read_from_file_at(&mut self, f: &File, count: usize, off: u64) -> io::Result<usize> {
        transfer(count, off, |left, at| {
            let piece = self.piece();
            // `left` limits it, because a file must not be read beyond `count` even if the buffer is longer.
            let len = piece.len().min(left);
            let moved = f.read_at(&mut piece[..len], at)?;
            self.advance(moved);
            Ok(moved)
        })
    }
}

/// Moves bytes until a step moves none. Returns an error only if the first step fails.
fn transfer(
    count: usize, off: u64, mut step: impl FnMut(usize, u64) -> io::Result<usize>,
) -> io::Result<usize> {
    let mut done = 0;
    while done < count {
        // Linux answers EINVAL to offsets from 2^63 on, so an overflow may saturate.
        match step(count - done, off.saturating_add(done as u64)) {
            Ok(0) => break,
            Ok(moved) => done += moved,
            Err(error) if error.kind() == io::ErrorKind::Interrupted => {}
            // The bytes that were moved are reported, and the error occurs again when the caller continues.
            Err(_) if done > 0 => break,
            Err(error) => return Err(error),
        }
    }
    Ok(done)
}

#[cfg(test)]
mod tests {
    use super::*;
    use std::io::IoSlice;

    /// Ways to cut ten bytes into three pieces.
    fn cuts() -> impl Iterator<Item = (usize, usize)> {
        (0..=10).flat_map(|first| (first..=10).map(move |second| (first, second)))
    }

    #[test]
    fn data_are_read_over_slices() {
        let text = b"0123456789";
        for (first, second) in cuts() {
            let slices = [
                IoSlice::new(&text[..first]),
                IoSlice::new(&text[first..second]),
                IoSlice::new(&text[second..]),
            ];
            for (at, len) in [(0, 10), (2, 5), (9, 1), (10, 0)] {
                let mut read = Vec::new();
                Reader::new(Bytes::new(&slices, at, len)).read_to_end(&mut read).unwrap();
                assert_eq!(read, text[at..at + len]);
            }
        }
    }

    #[test]
    fn buffers_are_filled_over_slices() {
        for (first, second) in cuts() {
            for (skip, max, expected) in [
                (0, 20, &b"abcdefghij"[..]),
                (3, 20, b"...abcdefg"),
                (3, 4, b"...abcd..."),
                (10, 4, b".........."),
                (0, 0, b".........."),
            ] {
                let mut buffer = *b"..........";
                let (one, rest) = buffer.split_at_mut(first);
                let (two, three) = rest.split_at_mut(second - first);
                let mut slices = [one, two, three].map(IoSliceMut::new);
                let mut writer = Writer::new(&mut slices, skip, max);
                let put = io::copy(&mut &b"abcdefghij"[..], &mut Lenient(&mut writer)).unwrap();
                assert_eq!(put, 10);
                assert_eq!(writer.put, max.min(10 - skip));
                assert_eq!(buffer, expected);
            }
        }
    }

    /// Discards what does not fit.
    struct Lenient<'w, W>(&'w mut W);

    impl<W: Write> Write for Lenient<'_, W> {
        fn write(&mut self, from: &[u8]) -> io::Result<usize> {
            match self.0.write(from)? {
                0 => Ok(from.len()),
                some => Ok(some),
            }
        }

        fn flush(&mut self) -> io::Result<()> {
            self.0.flush()
        }
    }

    #[test]
    fn data_are_written_with_flags() {
        let path = std::env::temp_dir().join(format!("nizwarf-append-{}", std::process::id()));
        let file = File::options().read(true).write(true).create_new(true).open(&path).unwrap();
        std::fs::remove_file(&path).unwrap();
        let slices = [IoSlice::new(b"da"), IoSlice::new(b"ta")];
        let write = |count, off, flags| {
            let mut reader = Reader::new(Bytes::new(&slices, 0, 4));
            reader.write_to_file_at(&file, count, off, flags)
        };
        assert_eq!(write(9, 2, None).unwrap(), 4);
        // Appended, whatever the offset.
        assert_eq!(write(3, 0, Some(WritevFlags::RWF_APPEND)).unwrap(), 3);
        assert_eq!(write(9, 0, Some(WritevFlags::RWF_DSYNC)).unwrap(), 4);
        let mut buffer = [0; 20];
        assert_eq!(file.read_at(&mut buffer, 0).unwrap(), 9);
        assert_eq!(&buffer[..9], b"datatadat");
        for off in [1 << 63, u64::MAX] {
            for flags in [None, Some(WritevFlags::RWF_SYNC)] {
                let fault = write(1, off, flags).unwrap_err();
                assert_eq!(fault.kind(), io::ErrorKind::InvalidInput);
            }
        }
    }

    #[test]
    fn a_transfer_goes_on_and_keeps_what_it_moved() {
        let interrupted = || io::Error::from(io::ErrorKind::Interrupted);
        let broken = || io::Error::from_raw_os_error(5);
        let run = |mut steps: Vec<io::Result<usize>>| {
            steps.reverse();
            transfer(10, 0, |_, _| steps.pop().unwrap())
        };
        assert_eq!(run(vec![Ok(4), Err(interrupted()), Ok(6)]).unwrap(), 10);
        assert_eq!(run(vec![Ok(4), Ok(0)]).unwrap(), 4);
        assert_eq!(run(vec![Ok(4), Err(broken())]).unwrap(), 4);
        assert_eq!(run(vec![Err(broken())]).unwrap_err().raw_os_error(), Some(5));
        let mut places = Vec::new();
        let step = |_, at| {
            places.push(at);
            Ok(1)
        };
        assert_eq!(transfer(3, u64::MAX - 1, step).unwrap(), 3);
        assert_eq!(places, [u64::MAX - 1, u64::MAX, u64::MAX]);
        let file = File::open("Cargo.toml").unwrap();
        let mut buffer = [0; 4];
        let mut slices = [IoSliceMut::new(&mut buffer)];
        let mut writer = Writer::new(&mut slices, 0, 4);
        let fault = writer.read_from_file_at(&file, 4, 1 << 63).unwrap_err();
        assert_eq!(fault.raw_os_error(), Some(22));
        assert_eq!(writer.read_from_file_at(&file, 9, 1).unwrap(), 4);
        assert_eq!(&buffer, b"pack");
    }
}
