//! Sessions, requests and replies.
#![forbid(unsafe_code)]

use crate::call::{call_of, context_of, number, Call, PendingCall};
use crate::ffi::{add_to_init, init_capable, InitReply, RawInitParams, RawSession, Scratch, INIT_REPLY};
use crate::file_system::Context;
use crate::flags::{Features, FsOptions};
use crate::numbers::code;
use std::error::Error;
use std::fmt;
use std::io::{IoSlice, IoSliceMut};

/// The parameters of a session with a client: its sizes, the options that an INIT agreed on, and the
/// features.
///
/// ```
/// use nizwarf::{FsOptions, Session};
///
/// let mut session = Session::new(4096, 1 << 20).unwrap();
/// assert_eq!(session, Session::default());
/// session.set_options(FsOptions::SECURITY_CTX);
/// assert!(Session::new(4095, 1 << 20).is_err());
/// ```
#[derive(Clone, Copy, Debug, PartialEq, Eq)]
pub struct Session {
    pub(crate) raw: RawSession,
    pub(crate) features: Features,
}

impl Session {
    /// Creates a session without options. `page_size` is that of the machine, at least 4096; `max_buffer`
    /// is the largest payload of a request or a reply, from 4096 to 134217728 bytes.
    ///
    /// # Errors
    /// [`WrongSize`] if a size is out of bounds.
    pub fn new(page_size: u32, max_buffer: u32) -> Result<Self, WrongSize> {
        if page_size < 4096 || !(4096..=134_217_728).contains(&max_buffer) {
            return Err(WrongSize);
        }
        let raw = RawSession { options: 0, page_size, max_buffer };
        Ok(Session { raw, features: Features::empty() })
    }

    /// Returns the options.
    #[must_use]
    pub fn options(&self) -> FsOptions {
        FsOptions::from_bits_truncate(self.raw.options)
    }

    /// Sets the options. After an INIT or a DESTROY they must be set to those of [`Encoded`](crate::Encoded),
    /// because later requests are decoded by them.
    pub fn set_options(&mut self, options: FsOptions) {
        self.raw.options = options.bits();
    }

    /// Returns the optional operations that are enabled.
    #[must_use]
    pub fn features(&self) -> Features {
        self.features
    }

    /// Enables these optional operations, and no others. By default none is enabled. They must not change
    /// during a session.
    pub fn set_features(&mut self, features: Features) {
        self.features = features;
    }

    getters! {
        /// Returns the size of a page.
        page_size: u32 = |it| it.raw.page_size;
        /// Returns the largest payload.
        max_buffer: u32 = |it| it.raw.max_buffer;
        /// Returns the longest request, which is also the longest reply: a payload and what precedes it.
        longest_message: usize = |it| it.raw.max_buffer as usize + 4096;
    }
}

impl Default for Session {
    /// Pages of 4096 bytes, and payloads of 1 MiB.
    fn default() -> Self {
        let raw = RawSession { options: 0, page_size: 4096, max_buffer: 1 << 20 };
        Session { raw, features: Features::empty() }
    }
}

/// A size of a session is out of bounds.
#[derive(Clone, Copy, Debug, PartialEq, Eq)]
pub struct WrongSize;

impl fmt::Display for WrongSize {
    fn fmt(&self, f: &mut fmt::Formatter<'_>) -> fmt::Result {
        f.write_str("the page size is below 4096, or the payload not from 4096 bytes to 128 MiB")
    }
}

impl Error for WrongSize {}

/// Removes options from an INIT, as if the client were not capable of them. Other requests do not change.
///
/// Some options are agreed on whenever the client is capable of them, even if the file system does not want
/// them: `ASYNC_READ`, `ATOMIC_O_TRUNC`, `BIG_WRITES`, `HAS_IOCTL_DIR`, `AUTO_INVAL_DATA`, `ASYNC_DIO`,
/// `PARALLEL_DIROPS`, `MAX_PAGES`, `SUBMOUNTS`, `INIT_EXT`, `CREATE_SUPP_GROUP` and `ALLOW_IDMAP`. You should
/// withhold those that you do not serve:
///
/// - With [`ATOMIC_O_TRUNC`](FsOptions::ATOMIC_O_TRUNC) an OPEN must truncate. Without it Linux sends a
///   SETATTR.
/// - With [`ALLOW_IDMAP`](FsOptions::ALLOW_IDMAP) Linux mounts only with `default_permissions`, and sends the
///   user and the group only in requests that create a node.
///
/// ```
/// use nizwarf::{withhold, FsOptions};
///
/// // An INIT of version 7.38 by a client that is capable of `ATOMIC_O_TRUNC` and `BIG_WRITES`.
/// let mut request = [0; 56];
/// (request[0], request[4], request[40], request[44], request[52]) = (56, 26, 7, 38, 0x28);
/// withhold(&mut request, FsOptions::ATOMIC_O_TRUNC);
/// assert_eq!(request[52], 0x20);
/// ```
pub fn withhold(request: &mut [u8], options: FsOptions) {
    // `flags` and `flags2` of `fuse_init_in`, one after the other.
    const FLAGS: usize = 52;
    if request.get(4..8) == Some(&number::INIT.to_le_bytes()) {
        for (byte, withheld) in request.iter_mut().skip(FLAGS).zip(options.bits().to_le_bytes()) {
            *byte &= !withheld;
        }
    }
}

/// Why a request has no reply. The session continues.
#[non_exhaustive]
#[derive(Clone, Copy, Debug, PartialEq, Eq, Hash)]
pub enum Refusal {
    /// The request is cut short or invalid.
    DecodeMessage,
    /// The reply does not fit into the buffer, or the buffer of a READ or a READDIR is shorter than a header.
    EncodeMessage,
    /// A name or another part is missing.
    MissingParameter,
    /// A name does not end with its only NUL.
    InvalidCString,
    /// A length in the request is less than the length of its header.
    InvalidHeaderLength,
    /// The value of an extended attribute does not have the stated length.
    InvalidXattrSize,
    /// The security context, which was agreed on, is missing.
    MissingExtension,
    /// An allocation failed.
    OutOfMemory,
    /// The sum of the slices' lengths overflows.
    TooLong,
    /// Another code of the library.
    Other(i32),
}

impl Refusal {
    /// Converts a code of the library.
    pub(crate) fn of(code: i32) -> Result<(), Refusal> {
        Err(match code {
            code::OK => return Ok(()),
            code::DECODE_MESSAGE => Refusal::DecodeMessage,
            code::ENCODE_MESSAGE => Refusal::EncodeMessage,
            code::MISSING_PARAMETER => Refusal::MissingParameter,
            code::INVALID_C_STRING => Refusal::InvalidCString,
            code::INVALID_HEADER_LENGTH => Refusal::InvalidHeaderLength,
            code::INVALID_XATTR_SIZE => Refusal::InvalidXattrSize,
            code::MISSING_EXTENSION => Refusal::MissingExtension,
            code::OUT_OF_MEMORY => Refusal::OutOfMemory,
            code::TOO_LONG => Refusal::TooLong,
            other => Refusal::Other(other),
        })
    }
}

impl fmt::Display for Refusal {
    fn fmt(&self, f: &mut fmt::Formatter<'_>) -> fmt::Result {
        f.write_str(match self {
            Refusal::DecodeMessage => "the request is cut short or invalid",
            Refusal::EncodeMessage => "the reply does not fit into the buffer",
            Refusal::MissingParameter => "a name or another part is missing",
            Refusal::InvalidCString => "a name does not end with its only NUL",
            Refusal::InvalidHeaderLength => "a length is less than that of its header",
            Refusal::InvalidXattrSize => "the value of an attribute does not have the stated length",
            Refusal::MissingExtension => "the security context is missing",
            Refusal::OutOfMemory => "an allocation failed",
            Refusal::TooLong => "the sum of the slices' lengths overflows",
            Refusal::Other(code) => return write!(f, "libnizwarf returned {code}"),
        })
    }
}

impl Error for Refusal {}

/// A reply, which is in scratch memory.
///
/// ```
/// use nizwarf::{Decoded, Scratch, Session};
/// use std::io::{IoSlice, IoSliceMut};
///
/// let mut request = [0; 40];
/// (request[0], request[4]) = (40, 255); // an opcode that does not exist
/// let (mut header, mut rest) = ([0; 10], [0; 100]);
/// if let Decoded::Finished(mut done) =
///     Scratch::new().decode(&Session::default(), &[IoSlice::new(&request)], 110)
/// {
///     let buffers = &mut [IoSliceMut::new(&mut header), IoSliceMut::new(&mut rest)];
///     assert_eq!(done.reply.copy_to(buffers), 16);
/// }
/// assert_eq!(header[..8], [16, 0, 0, 0, 218, 255, 255, 255]);
/// ```
#[derive(Debug)]
pub struct Reply<'s> {
    scratch: &'s mut Scratch,
    len: usize,
    put: usize,
    /// The bytes, if they differ from those in the scratch memory.
    changed: Option<Box<InitReply>>,
    /// The number of the request, if it should have a reply but has none.
    pub(crate) refused: Option<u64>,
}

impl<'s> Reply<'s> {
    pub(crate) fn new(scratch: &'s mut Scratch, len: u64, put: u64) -> Self {
        let size = |bytes| usize::try_from(bytes).unwrap_or(usize::MAX);
        Reply { scratch, len: size(len), put: size(put), changed: None, refused: None }
    }

    /// Adds the parameters of a file system to the reply to an INIT. Returns the options that are agreed on
    /// besides.
    pub(crate) fn add_to_init(&mut self, capable: u64, params: &RawInitParams) -> u64 {
        let mut bytes: InitReply = [0; INIT_REPLY];
        if self.put != INIT_REPLY || self.scratch.copy(0, &mut bytes) != INIT_REPLY {
            return 0;
        }
        let agreed = add_to_init(&mut bytes, capable, params);
        self.changed = Some(Box::new(bytes));
        agreed
    }

    /// Returns how many bytes of data follow [`bytes`](Self::bytes).
    pub(crate) fn data_len(&self) -> usize {
        self.len - self.put
    }

    getters! {
        /// Returns the length of the reply, with which the request must be completed. It is 0 if there is no
        /// reply.
        len: usize = |it| it.len;
        /// Returns whether there is no reply.
        is_empty: bool = |it| it.len == 0;
    }

    /// Returns the bytes of the reply: all of them, or the first 16 of a READ that was answered with data,
    /// which the caller puts after them.
    #[must_use]
    pub fn bytes(&mut self) -> &[u8] {
        match &self.changed {
            Some(bytes) => &bytes[..],
            None => self.scratch.lend(self.put),
        }
    }

    /// Copies [these bytes](Self::bytes) to the start of the buffers, and returns the length of the reply.
    /// The remaining bytes of the buffers do not change.
    pub fn copy_to(&mut self, buffers: &mut [IoSliceMut<'_>]) -> usize {
        let mut at = 0;
        for piece in buffers {
            let len = piece.len().min(self.put - at);
            if len > 0 {
                at += match &self.changed {
                    Some(bytes) => {
                        piece[..len].copy_from_slice(&bytes[at..at + len]);
                        len
                    }
                    None => self.scratch.copy(at, &mut piece[..len]),
                };
            }
        }
        self.len
    }
}

/// A request that needs no call.
#[must_use = "the client waits for the reply"]
#[derive(Debug)]
pub struct Finished<'s> {
    /// Why there is no reply, if there should be one.
    pub outcome: Result<(), Refusal>,
    /// If the request is an INTERRUPT: the number of the request that it interrupts.
    pub interrupts: Option<u64>,
    /// The reply, which may be empty.
    pub reply: Reply<'s>,
}

/// The result of [`Scratch::decode`].
#[must_use = "the client waits for the reply"]
#[derive(Debug)]
pub enum Decoded<'s, 'r> {
    /// The request needs a call of the file system.
    Call(PendingCall<'r>),
    /// It needs no call.
    Finished(Finished<'s>),
}

impl Scratch {
    /// Decodes a request, whose bytes are the concatenation of the slices. `reply_size` is the size of its
    /// reply buffer.
    ///
    /// ```
    /// use nizwarf::{Decoded, Scratch, Session};
    /// use std::io::IoSlice;
    ///
    /// // Request number 7, with an opcode that does not exist, 255.
    /// let mut request = [0; 40];
    /// (request[0], request[4], request[8]) = (40, 255, 7);
    /// let mut scratch = Scratch::new();
    /// let request = [IoSlice::new(&request)];
    /// if let Decoded::Finished(mut done) = scratch.decode(&Session::default(), &request, 64) {
    ///     // The error ENOSYS, which is 38.
    ///     let expected = [16, 0, 0, 0, 218, 255, 255, 255, 7, 0, 0, 0, 0, 0, 0, 0];
    ///     assert_eq!(done.reply.bytes(), expected);
    /// }
    /// # else { panic!() }
    /// ```
    pub fn decode<'s, 'r>(
        &'s mut self, session: &Session, request: &'r [IoSlice<'r>], reply_size: usize,
    ) -> Decoded<'s, 'r> {
        let call = |_: &'s mut Scratch, context, call| PendingCall { context, call };
        match self.decode_with(session, request, reply_size, call) {
            Ok(pending) => Decoded::Call(pending),
            Err(finished) => Decoded::Finished(finished),
        }
    }

    /// Decodes a request as [`decode`](Self::decode) does, and calls a function with its call. This is
    /// faster, because the call is not moved.
    ///
    /// ```
    /// use nizwarf::{Call, Scratch, Session};
    /// use std::io::IoSlice;
    ///
    /// // An UNLINK.
    /// let mut request = [0; 42];
    /// (request[0], request[4], request[16], request[40]) = (42, 10, 1, b'a');
    /// let mut scratch = Scratch::new();
    /// let request = [IoSlice::new(&request)];
    /// let encoded = scratch.decode_with(&Session::default(), &request, 64, |scratch, _, call| {
    ///     match call {
    ///         Call::Unlink { to, .. } => to.answer(scratch, Ok(())),
    ///         other => panic!("{other:?}"),
    ///     }
    /// });
    /// assert_eq!(encoded.unwrap().reply().len(), 16);
    /// ```
    ///
    /// # Errors
    /// If the request needs no call.
    #[inline]
    pub fn decode_with<'s, 'r, T>(
        &'s mut self, session: &Session, request: &'r [IoSlice<'r>], reply_size: usize,
        make: impl FnOnce(&'s mut Scratch, Context, Call<'r>) -> T,
    ) -> Result<T, Finished<'s>> {
        let mut pending = self.take(session.raw);
        let (code, result) = self.decode_raw(&mut pending, session.features, request, reply_size);
        if code == code::CALL {
            if pending.call.opcode == number::INIT {
                // (a field that the library does not read)
                pending.call.other_offset = init_capable(request);
            }
            let context = context_of(&pending.call);
            let call = call_of(pending, request);
            return Ok(make(self, context, call));
        }
        self.keep(pending);
        Err(Finished {
            outcome: Refusal::of(code),
            interrupts: Some(result.interrupts).filter(|number| *number != 0),
            reply: Reply::new(self, result.len, result.written),
        })
    }
}

#[cfg(test)]
mod tests {
    use super::*;

    #[test]
    fn sizes_are_bounded() {
        for (page_size, max_buffer, fits) in [
            (4096, 4096, true),
            (4095, 4096, false),
            (0, 4096, false),
            (65536, 134_217_728, true),
            (4096, 134_217_729, false),
            (4096, 4095, false),
        ] {
            assert_eq!(Session::new(page_size, max_buffer).is_ok(), fits);
        }
        let mut session = Session::new(4096, 8192).unwrap();
        assert_eq!((session.page_size(), session.max_buffer()), (4096, 8192));
        assert_eq!(session.longest_message(), 12288);
        assert!(session.options().is_empty());
        session.set_options(FsOptions::DO_READDIRPLUS);
        assert_eq!(session.options(), FsOptions::DO_READDIRPLUS);
    }

    #[test]
    fn each_code_has_its_refusal() {
        // The numbers are those of nizwarf.h.
        let expected = [
            (1, Refusal::DecodeMessage),
            (2, Refusal::EncodeMessage),
            (4, Refusal::MissingParameter),
            (5, Refusal::InvalidCString),
            (7, Refusal::InvalidHeaderLength),
            (8, Refusal::InvalidXattrSize),
            (9, Refusal::MissingExtension),
            (10, Refusal::OutOfMemory),
            (13, Refusal::TooLong),
            (16, Refusal::Other(16)),
            (3, Refusal::Other(3)),
        ];
        for (code, refusal) in expected {
            assert_eq!(Refusal::of(code), Err(refusal));
            assert!(!refusal.to_string().is_empty());
        }
        assert_eq!(Refusal::of(0), Ok(()));
        assert!(WrongSize.to_string().contains("4096"));
    }
}
