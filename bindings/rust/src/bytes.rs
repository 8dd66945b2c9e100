//! Ranges of a request, which may span several slices.
#![forbid(unsafe_code)]

use std::borrow::Cow;
use std::ffi::{CStr, CString};
use std::fmt;
use std::io::IoSlice;

/// A range of the bytes of a request, such as the data of a WRITE.
///
/// ```
/// use nizwarf::{Call, Decoded, Scratch, Session};
/// use std::io::IoSlice;
///
/// // A WRITE of 4 bytes to node 2, whose data are in two slices.
/// let mut request = vec![0; 80];
/// request[0] = 84;
/// request[4] = 16;
/// request[16] = 2;
/// request[56] = 4;
/// request.extend(b"da");
/// let slices = [IoSlice::new(&request), IoSlice::new(b"ta")];
/// let mut scratch = Scratch::new();
/// match scratch.decode(&Session::default(), &slices, 4096) {
///     Decoded::Call(pending) => match pending.call {
///         Call::Write { data, to, .. } => {
///             assert_eq!(data.to_cow(), &b"data"[..]);
///             assert_eq!(data.pieces().count(), 2);
///             assert_eq!(to.answer(&mut scratch, Ok(4)).reply().len(), 24);
///         }
///         other => panic!("{other:?}"),
///     },
///     Decoded::Finished(done) => panic!("{done:?}"),
/// }
/// ```
#[derive(Clone, Copy)]
pub struct Bytes<'r> {
    slices: &'r [IoSlice<'r>],
    at: usize,
    len: usize,
}

impl<'r> Bytes<'r> {
    /// The bytes from `at` on: `len` bytes, or fewer at the end of the slices.
    pub(crate) fn new(slices: &'r [IoSlice<'r>], at: usize, len: usize) -> Self {
        let mut bytes = Bytes { slices, at, len };
        if bytes.in_first().is_none() {
            bytes.len = bytes.pieces().map(<[u8]>::len).sum();
        }
        bytes
    }

    /// Returns the bytes if all are in the first slice.
    fn in_first(&self) -> Option<&'r [u8]> {
        self.slices.first()?.get(self.at..self.at.checked_add(self.len)?)
    }

    getters! {
        /// Returns the number of bytes.
        len: usize = |it| it.len;
        /// Returns whether there are no bytes.
        is_empty: bool = |it| it.len == 0;
    }

    /// Returns the first bytes, at most `max`.
    #[must_use]
    pub fn first(&self, max: usize) -> Self {
        Bytes { len: self.len.min(max), ..*self }
    }

    /// Returns the bytes slice by slice. No piece is empty.
    #[must_use]
    pub fn pieces(&self) -> Pieces<'r> {
        Pieces { slices: self.slices.iter(), skip: self.at, left: self.len }
    }

    /// Returns the bytes as one slice. They are copied only if they span several slices.
    #[must_use]
    pub fn to_cow(&self) -> Cow<'r, [u8]> {
        if let Some(bytes) = self.in_first() {
            return Cow::Borrowed(bytes);
        }
        match self.pieces().next() {
            None => Cow::Borrowed(&[]),
            Some(piece) if piece.len() == self.len => Cow::Borrowed(piece),
            Some(_) => {
                let mut bytes = Vec::with_capacity(self.len);
                self.pieces().for_each(|piece| bytes.extend_from_slice(piece));
                Cow::Owned(bytes)
            }
        }
    }

    /// Returns these bytes, which end with a NUL, as a name.
    pub(crate) fn to_name(self) -> Cow<'r, CStr> {
        match self.to_cow() {
            Cow::Borrowed(bytes) => match CStr::from_bytes_with_nul(bytes) {
                Ok(name) => Cow::Borrowed(name),
                Err(_) => Cow::Owned(up_to_nul(bytes)),
            },
            Cow::Owned(bytes) => Cow::Owned(up_to_nul(&bytes)),
        }
    }
}

/// The bytes before the first NUL. (The names of the library have one NUL, at their end.)
fn up_to_nul(bytes: &[u8]) -> CString {
    let name = bytes.split(|byte| *byte == 0).next().unwrap_or_default();
    CString::new(name).unwrap_or_default()
}

impl fmt::Debug for Bytes<'_> {
    fn fmt(&self, f: &mut fmt::Formatter<'_>) -> fmt::Result {
        write!(f, "Bytes({} from {})", self.len, self.at)
    }
}

/// An iterator over the pieces of [`Bytes`].
#[derive(Clone, Debug)]
pub struct Pieces<'r> {
    slices: std::slice::Iter<'r, IoSlice<'r>>,
    skip: usize,
    left: usize,
}

impl<'r> Iterator for Pieces<'r> {
    type Item = &'r [u8];

    fn next(&mut self) -> Option<&'r [u8]> {
        while self.left > 0 {
            let slice: &'r [u8] = self.slices.next()?;
            let piece = slice.get(self.skip..).unwrap_or_default();
            self.skip -= slice.len() - piece.len();
            let piece = &piece[..piece.len().min(self.left)];
            self.left -= piece.len();
            if !piece.is_empty() {
                return Some(piece);
            }
        }
        None
    }
}

/// An iterator over the pairs of a `BATCH_FORGET`: a node, and the number of its lookups that the client
/// forgets.
#[derive(Clone, Debug)]
pub struct Forgets<'r> {
    pairs: Cow<'r, [u8]>,
    at: usize,
}

impl<'r> Forgets<'r> {
    pub(crate) fn new(bytes: Bytes<'r>) -> Self {
        Forgets { pairs: bytes.to_cow(), at: 0 }
    }
}

impl Iterator for Forgets<'_> {
    type Item = (u64, u64);

    fn next(&mut self) -> Option<(u64, u64)> {
        let pair = self.pairs.get(self.at..self.at + 16)?;
        self.at += 16;
        let (node, count) = pair.split_at(8);
        Some((u64::from_le_bytes(node.try_into().ok()?), u64::from_le_bytes(count.try_into().ok()?)))
    }

    fn size_hint(&self) -> (usize, Option<usize>) {
        let left = (self.pairs.len() - self.at) / 16;
        (left, Some(left))
    }
}

impl ExactSizeIterator for Forgets<'_> {}

#[cfg(test)]
mod tests {
    use super::*;

    /// `text` in slices, cut at two positions.
    fn cut(text: &[u8], first: usize, second: usize) -> [IoSlice<'_>; 4] {
        [
            IoSlice::new(&text[..first]),
            IoSlice::new(&[]),
            IoSlice::new(&text[first..second]),
            IoSlice::new(&text[second..]),
        ]
    }

    #[test]
    fn bytes_are_the_same_in_each_cutting() {
        let text = b"0123456789";
        for first in 0..=10 {
            for second in first..=10 {
                let slices = cut(text, first, second);
                for at in 0..=10 {
                    for len in 0..=12 - at {
                        let bytes = Bytes::new(&slices, at, len);
                        let expected = &text[at..(at + len).min(10)];
                        assert_eq!(bytes.to_cow(), expected);
                        assert_eq!(bytes.len(), expected.len());
                        assert_eq!(bytes.is_empty(), expected.is_empty());
                        assert!(bytes.pieces().all(|piece| !piece.is_empty()));
                        assert_eq!(bytes.first(3).to_cow(), &expected[..expected.len().min(3)]);
                    }
                }
            }
        }
    }

    #[test]
    fn what_lies_in_one_slice_is_lent() {
        let text = b"abc\0def";
        let slices = cut(text, 4, 4);
        assert!(matches!(Bytes::new(&slices, 0, 4).to_name(), Cow::Borrowed(name)
            if name.to_bytes() == b"abc"));
        let slices = cut(text, 1, 2);
        assert!(matches!(Bytes::new(&slices, 0, 4).to_name(), Cow::Owned(name)
            if name.to_bytes() == b"abc"));
        assert_eq!(format!("{:?}", Bytes::new(&slices, 1, 3)), "Bytes(3 from 1)");
    }

    #[test]
    fn a_name_ends_at_its_first_zero() {
        for text in [&b"ab\0c\0"[..], b"ab"] {
            let slices = [IoSlice::new(text)];
            assert_eq!(Bytes::new(&slices, 0, 5).to_name().to_bytes(), b"ab");
        }
        assert_eq!(Bytes::new(&[], 0, 5).to_name().to_bytes(), b"");
    }

    #[test]
    fn pairs_are_read_where_they_are_cut() {
        let mut text = vec![0; 40];
        text[0] = 7;
        text[8] = 1;
        text[16] = 9;
        text[30] = 1;
        for first in 0..32 {
            let slices = cut(&text, first, 32);
            let mut pairs = Forgets::new(Bytes::new(&slices, 0, 40));
            assert_eq!(pairs.len(), 2);
            assert_eq!(pairs.next(), Some((7, 1)));
            assert_eq!(pairs.next(), Some((9, 1 << 48)));
            assert_eq!((pairs.next(), pairs.len()), (None, 0));
        }
    }
}
