// SPDX-License-Identifier: Apache-2.0 AND BSD-3-Clause
// Written anew: of virtiofsd it has the names of types and methods alone. See NOTICE.md.

//! Guest memory: the pieces that a request, or its reply buffer, consists of.
//!
//! It takes the place of virtiofsd's `src/descriptor_utils.rs`. There a reader and a writer move forward in a
//! queue of pieces. Here they are lists that do not change: the library reads a request at once, and writes a
//! reply at once.

use crate::file_traits::FileReadWriteAtVolatile;
use crate::filesystem::{ZeroCopyReader, ZeroCopyWriter};
use crate::oslib::WritevFlags;
use std::fmt;
use std::fs::File;
use std::io;
use std::ops::Deref;
use vhost_user_backend::bitmap::BitmapMmapRegion;
use virtio_queue::{Descriptor, DescriptorChain};
use vm_memory::{GuestMemory, GuestMemoryMmap, GuestMemoryRegion, GuestRegionMmap, VolatileSlice};

type Memory = GuestMemoryMmap<BitmapMmapRegion>;
type Region = GuestRegionMmap<BitmapMmapRegion>;
type Piece<'l> = VolatileSlice<'l, BitmapMmapRegion>;

/// The error of making a reader or a writer, of which there is none.
#[derive(Debug)]
pub enum Error {}

impl fmt::Display for Error {
    fn fmt(&self, _: &mut fmt::Formatter<'_>) -> fmt::Result {
        match *self {}
    }
}

impl std::error::Error for Error {}

/// The descriptors of a chain that the device reads: a request.
pub struct Reader<'m>(List<'m>);

impl<'m> Reader<'m> {
    /// Finds the pieces of a request.
    ///
    /// # Errors
    /// None: it would end the worker of the queue.
    pub fn new<M>(mem: &'m Memory, chain: DescriptorChain<M>) -> Result<Self, Error>
    where
        M: Deref,
        M::Target: GuestMemory + Sized,
    {
        Ok(Reader(List::new(mem, chain.readable())))
    }

    /// Returns the pieces, if each is in the memory of the guest.
    pub(crate) fn pieces(&self) -> Option<Pieces<'_>> {
        self.0.pieces()
    }
}

/// The descriptors of a chain that the device writes: a reply buffer.
pub struct Writer<'m>(List<'m>);

impl<'m> Writer<'m> {
    /// Finds the pieces of a reply buffer.
    ///
    /// # Errors
    /// None: it would end the worker of the queue.
    pub fn new<M>(mem: &'m Memory, chain: DescriptorChain<M>) -> Result<Self, Error>
    where
        M: Deref,
        M::Target: GuestMemory + Sized,
    {
        Ok(Writer(List::new(mem, chain.writable())))
    }

    /// Returns the pieces, if each is in the memory of the guest.
    pub(crate) fn pieces(&self) -> Option<Pieces<'_>> {
        self.0.pieces()
    }
}

/// Pieces that are found by their descriptors.
struct List<'m> {
    pieces: Vec<Piece<'m>>,
    len: usize,
    /// Whether one is not in the memory of the guest.
    is_broken: bool,
}

impl<'m> List<'m> {
    fn new(mem: &'m Memory, descriptors: impl Iterator<Item = Descriptor>) -> Self {
        let mut list = List { pieces: Vec::with_capacity(4), len: 0, is_broken: false };
        let mut region = None;
        for descriptor in descriptors {
            // Most often it is the region of the one before.
            let at = descriptor.addr();
            let found = region.filter(|it: &&Region| it.to_region_addr(at).is_some());
            region = found.or_else(|| mem.find_region(at));
            let len = descriptor.len() as usize;
            let piece = region.and_then(|it| it.get_slice(it.to_region_addr(at)?, len).ok());
            let Some(piece) = piece else {
                list.is_broken = true;
                break;
            };
            // A chain has less than 2^32 bytes, or it ends there.
            list.len += len;
            list.pieces.push(piece);
        }
        list
    }

    fn pieces(&self) -> Option<Pieces<'_>> {
        (!self.is_broken).then_some(Pieces { all: &self.pieces, len: self.len })
    }
}

/// The pieces of guest memory that a request or a reply buffer consists of.
#[derive(Clone, Copy)]
pub(crate) struct Pieces<'l> {
    all: &'l [Piece<'l>],
    len: usize,
}

impl Pieces<'_> {
    /// Returns how many bytes they have.
    pub(crate) fn len(self) -> usize {
        self.len
    }

    /// Copies the first bytes, as many as both have, and returns how many.
    pub(crate) fn copy_to(self, mut to: &mut [u8]) -> usize {
        let max = to.len();
        for piece in self.all {
            if to.is_empty() {
                break;
            }
            let copied = piece.copy_to(to);
            to = &mut to[copied..];
        }
        max - to.len()
    }

    /// Copies bytes to the start of the pieces, and returns whether all were copied.
    pub(crate) fn copy_from(self, mut from: &[u8]) -> bool {
        for piece in self.all {
            if from.is_empty() {
                break;
            }
            piece.copy_from(from);
            from = &from[piece.len().min(from.len())..];
        }
        from.is_empty()
    }

    /// Lends `len` bytes from `at` on, which are there.
    fn lend<T>(
        self,
        at: usize,
        len: usize,
        function: impl FnOnce(&[&Piece]) -> io::Result<T>,
    ) -> io::Result<T> {
        let mut skip = at;
        let mut rest = self.all;
        while let Some((piece, others)) = rest.split_first().filter(|it| it.0.len() <= skip) {
            skip -= piece.len();
            rest = others;
        }
        if skip > 0 || at + len < self.len {
            let cut = cut(rest, skip, len)?;
            return function(&cut.iter().collect::<Vec<_>>());
        }
        match rest {
            [piece] => function(&[piece]),
            _ => function(&rest.iter().collect::<Vec<_>>()),
        }
    }
}

/// Cuts `len` bytes out of pieces, after the first `skip`, which are in the first piece.
fn cut<'l>(pieces: &[Piece<'l>], mut skip: usize, len: usize) -> io::Result<Vec<Piece<'l>>> {
    let (mut cut, mut left) = (Vec::new(), len);
    for piece in pieces {
        if left == 0 {
            break;
        }
        let taken = left.min(piece.len() - skip);
        cut.push(piece.subslice(skip, taken).map_err(io::Error::other)?);
        left -= taken;
        skip = 0;
    }
    Ok(cut)
}

/// The data of a WRITE, or the buffer for those of a READ.
pub(crate) struct Data<'l> {
    pieces: Pieces<'l>,
    /// Where they begin, in bytes.
    at: usize,
    left: usize,
}

impl<'l> Data<'l> {
    /// At most `left` bytes, which the pieces have from `at` on.
    pub(crate) fn new(pieces: Pieces<'l>, at: usize, left: usize) -> Self {
        Data { pieces, at, left }
    }

    /// Moves bytes until a step moves none, or fails.
    fn transfer(
        &mut self,
        count: usize,
        offset: u64,
        step: impl Fn(&[&Piece], u64) -> io::Result<usize>,
    ) -> io::Result<usize> {
        let mut done = 0;
        while done < count && self.left > 0 {
            let len = self.left.min(count - done);
            let offset = offset.saturating_add(done as u64);
            match self.pieces.lend(self.at, len, |pieces| step(pieces, offset))? {
                0 => break,
                moved => {
                    done += moved;
                    self.at += moved;
                    self.left -= moved;
                }
            }
        }
        Ok(done)
    }
}

impl ZeroCopyWriter for Data<'_> {
    fn read_from_file_at(&mut self, file: &File, count: usize, at: u64) -> io::Result<usize> {
        self.transfer(count, at, |pieces, at| file.read_vectored_at_volatile(pieces, at))
    }
}

impl ZeroCopyReader for Data<'_> {
    fn write_to_file_at(
        &mut self,
        file: &File,
        count: usize,
        at: u64,
        flags: Option<WritevFlags>,
    ) -> io::Result<usize> {
        self.transfer(count, at, |pieces, at| file.write_vectored_at_volatile(pieces, at, flags))
    }
}
