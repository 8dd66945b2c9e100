//! The structs and functions of libnizwarf, as its header declares them, and safe wrappers. All unsafe
//! code of the crate is in this file and in `system.rs`.
#![allow(unsafe_code)]

use crate::attr::{Attr, SetattrIn, Statvfs};
use crate::errno::answered;
use crate::file_system::Entry;
use crate::flags::Features;
use std::ffi::{c_void, CStr};
use std::fmt;
use std::fs::File;
use std::io::{self, IoSlice};
use std::marker::PhantomData;
use std::mem::size_of;
use std::os::raw::c_int;
use std::os::unix::io::AsRawFd;
use std::ptr;

/// `nizwarf_scratch`: a pointer to memory of the library, or null.
#[repr(C)]
struct RawScratch {
    at: *mut c_void,
}

impl RawScratch {
    /// Copies bytes of the reply, from offset `at` on, and returns how many.
    fn copy(&mut self, at: usize, piece: &mut [u8]) -> usize {
        // SAFETY: the pointers are valid for this call, and `piece` has this length.
        unsafe { nizwarf_scratch_copy_at(self, at, piece.as_mut_ptr(), piece.len()) }
    }
}

records! {
    /// `nizwarf_session`.
    #[derive(Debug, PartialEq, Eq)]
    pub(crate) struct RawSession: 16 {
        [0] pub options: u64,
        [8] pub page_size: u32,
        [12] pub max_buffer: u32,
    }

    /// `nizwarf_range`: bytes of a request.
    #[derive(Debug, Default, PartialEq, Eq)]
    pub(crate) struct Range: 16 {
        [0] pub at: u64,
        [8] pub len: u64,
    }

    /// `nizwarf_call`.
    #[derive(Debug)]
    pub(crate) struct RawCall: 312 {
        [0] pub unique: u64,
        [8] pub options: u64,
        [16] pub reply_size: u64,
        [24] pub node: u64,
        [32] pub handle: u64,
        [40] pub offset: u64,
        [48] pub length: u64,
        [56] pub lock_owner: u64,
        [64] pub other_node: u64,
        [72] pub other_handle: u64,
        [80] pub other_offset: u64,
        [88] pub name: Range,
        [104] pub other_name: Range,
        [120] pub data: Range,
        [136] pub context_name: Range,
        [152] pub context: Range,
        [168] pub attr: SetattrIn,
        [256] pub opcode: u32,
        [260] pub reply: u32,
        [264] pub has: u32,
        [268] pub uid: u32,
        [272] pub gid: u32,
        [276] pub pid: i32,
        [280] pub flags: u32,
        [284] pub mode: u32,
        [288] pub umask: u32,
        [292] pub rdev: u32,
        [296] pub size: u32,
        [300] pub more: u32,
        [304] pub group: u32,
        [308] pub readahead: u32,
    }

    /// `nizwarf_entry`.
    #[derive(Debug)]
    pub(crate) struct RawEntry: 128 {
        [0] pub node: u64,
        [8] generation: u64,
        [16] entry_seconds: u64,
        [24] pub attr_seconds: u64,
        [32] entry_nanoseconds: u32,
        [36] pub attr_nanoseconds: u32,
        [40] pub attr: Attr,
    }

    /// The first 224 bytes of `nizwarf_answer`, because the library reads no more: text and items are
    /// arguments of their own.
    #[derive(Debug)]
    pub(crate) struct RawAnswer: 224 {
        [0] pub error: i32,
        [4] pub has_handle: u32,
        [8] pub handle: u64,
        [16] pub count: u64,
        [24] pub open_flags: u32,
        [28] pub has_count: u32,
        [32] pub entry: RawEntry,
        [160] pub statfs: Statvfs,
    }

    /// An item of a directory listing, for the answer to a READDIR.
    ///
    /// ```
    /// use nizwarf::DirItem;
    /// use std::ffi::CString;
    ///
    /// let name = CString::new("hello").unwrap();
    /// let item = DirItem::new(2, 1, nizwarf::DT_REG, &name);
    /// assert_eq!(item.record_len(false), 32);
    /// assert_eq!(item.record_len(true), 160);
    /// ```
    pub struct DirItem<'a>: 168 {
        [0] ino: u64,
        [8] offset: u64,
        [16] name: *const u8,
        [24] name_size: usize,
        [32] entry: RawEntry,
        [160] type_: u32,
        [164] error: i32,
        [168] lent: PhantomData<&'a CStr>,
    }

    /// `nizwarf_init_params`.
    #[derive(Debug)]
    pub(crate) struct RawInitParams: 40 {
        [0] pub want: u64,
        [8] pub max_readahead: u32,
        [12] pub max_write: u32,
        [16] pub time_gran: u32,
        [20] pub max_stack_depth: u32,
        [24] pub request_timeout: u32,
        [28] pub max_background: u16,
        [30] pub congestion_threshold: u16,
        [32] pub padding: u64,
    }

    /// `nizwarf_result`.
    #[derive(Debug, Default)]
    pub(crate) struct RawResult: 48 {
        [0] pub len: u64,
        [8] pub written: u64,
        [16] pub options: u64,
        [24] pub forget: u64,
        [32] pub entries: u64,
        [40] pub interrupts: u64,
    }
}

// `std` guarantees that `IoSlice` has the layout of `iovec`, which is that of `struct iovec`.
extern "C" {
    fn nizwarf_decode_at(
        scratch: *mut RawScratch, session: *const RawSession, features: u32, request: *const IoSlice<'_>,
        segments: usize, reply_size: usize, call: *mut RawCall, result: *mut RawResult,
    ) -> i32;
    fn nizwarf_encode_at(
        scratch: *mut RawScratch, session: *const RawSession, call: *const RawCall, answer: *const RawAnswer,
        text: *const u8, text_len: usize, items: *const DirItem<'_>, items_len: usize,
        result: *mut RawResult,
    ) -> i32;
    fn nizwarf_scratch_copy_at(
        scratch: *mut RawScratch, at: usize, piece: *mut u8, piece_len: usize,
    ) -> usize;
    fn nizwarf_scratch_free_at(scratch: *mut RawScratch) -> i32;
    fn nizwarf_check_at(
        session: *const RawSession, features: u32, request: *const u8, len: usize, reply_size: usize,
        call: *mut RawCall, interrupts: *mut u64,
    ) -> i32;
    fn nizwarf_print_request_at(
        request: *const u8, len: usize, options: u64, text: *mut u8, text_len: usize,
    ) -> usize;
    fn nizwarf_print_reply_at(
        request: *const u8, len: usize, reply: *const u8, reply_len: usize, text: *mut u8, text_len: usize,
    ) -> usize;
    fn nizwarf_init_capable_at(request: *const u8, len: usize) -> u64;
    fn nizwarf_add_to_init_at(reply: *mut u8, len: usize, capable: u64, params: *const RawInitParams) -> u64;
}

// A function of the C library that `std` does not have.
extern "C" {
    fn pwritev2(file: c_int, pieces: *const IoSlice<'_>, count: c_int, offset: i64, flags: c_int) -> isize;
}

/// Writes to a file at an offset, as `pwritev2(2)`, and returns how many bytes were written.
pub(crate) fn write_at(file: &File, piece: &[u8], off: u64, flags: i32) -> io::Result<usize> {
    // (-1 would be the present position of the file)
    let offset = i64::try_from(off).map_err(|_| io::Error::from(io::ErrorKind::InvalidInput))?;
    // SAFETY: the descriptor is open, and the piece is valid for this call.
    let written = unsafe { pwritev2(file.as_raw_fd(), &IoSlice::new(piece), 1, offset, flags) };
    usize::try_from(written).map_err(|_| io::Error::last_os_error())
}

/// Checks a request. Returns a code, its call, and the number of the request that it interrupts.
pub(crate) fn check(
    session: &RawSession, features: u32, request: &[u8], reply_size: usize,
) -> (i32, RawCall, u64) {
    let (mut call, mut interrupts) = (RawCall::NONE, 0);
    let (at, len) = (request.as_ptr(), request.len());
    // SAFETY: all pointers are valid for this call, which keeps none.
    let code =
        unsafe { nizwarf_check_at(session, features, at, len, reply_size, &mut call, &mut interrupts) };
    (code, call, interrupts)
}

/// The length of a reply to INIT that has parameters of the file system.
pub(crate) const INIT_REPLY: usize = 80;

/// Such a reply.
pub(crate) type InitReply = [u8; INIT_REPLY];

/// The options of which the client of an INIT is capable, as far as the library does not decode them itself.
pub(crate) fn init_capable(request: &[IoSlice<'_>]) -> u64 {
    /// The length of the request's header and record.
    const FRONT: usize = 104;
    let mut front = [0; FRONT];
    let bytes = request.iter().flat_map(|piece| piece.iter());
    let len = front.iter_mut().zip(bytes).map(|(to, byte)| *to = *byte).count();
    // SAFETY: the pointer is that of an array, which has at least `len` bytes.
    unsafe { nizwarf_init_capable_at(front.as_ptr(), len) }
}

/// Puts the parameters of a file system into a reply to INIT. Returns the options that are agreed on besides.
pub(crate) fn add_to_init(reply: &mut InitReply, capable: u64, params: &RawInitParams) -> u64 {
    // SAFETY: both pointers are valid for this call, and the reply has this length.
    unsafe { nizwarf_add_to_init_at(reply.as_mut_ptr(), reply.len(), capable, params) }
}

/// Declares the notices: of each the fields, a name if it has one, and the function of the library.
macro_rules! notices {
    ($($Name:ident { $($field:ident: $type:ty),* } $($name:ident)? = $function:ident;)*) => {
        extern "C" {
            $(fn $function(
                $($field: $type,)* $($name: *const u8, name_len: usize,)? out: *mut u8, out_len: usize,
            ) -> usize;)*
        }

        /// A notice.
        #[derive(Clone, Copy, Debug)]
        pub(crate) enum Notice<'a> {
            $($Name { $($field: $type,)* $($name: &'a CStr,)? },)*
        }

        impl Notice<'_> {
            /// Writes it to the start of `out`, without the data that follow it. Returns its length, or 0 if
            /// it does not fit.
            pub fn put(self, out: &mut [u8]) -> usize {
                let (at, out_len) = (out.as_mut_ptr(), out.len());
                match self {
                    // SAFETY: the pointers and lengths are those of slices, which do not overlap.
                    $(Notice::$Name { $($field,)* $($name,)? } => unsafe {
                        $function($($field,)* $($name.as_ptr().cast(), $name.to_bytes().len(),)? at, out_len)
                    },)*
                }
            }
        }
    };
}

notices! {
    InvalInode { node: u64, offset: i64, len: i64 } = nizwarf_notice_inval_inode_at;
    InvalEntry { parent: u64, flags: u32 } name = nizwarf_notice_inval_entry_at;
    Delete { parent: u64, child: u64 } name = nizwarf_notice_delete_at;
    Store { node: u64, offset: u64, size: u32 } = nizwarf_notice_store_at;
    Retrieve { unique: u64, node: u64, offset: u64, size: u32 } = nizwarf_notice_retrieve_at;
    Poll { handle: u64 } = nizwarf_notice_poll_at;
    Resend {} = nizwarf_notice_resend_at;
    IncEpoch {} = nizwarf_notice_inc_epoch_at;
    Prune { count: u32 } = nizwarf_notice_prune_at;
}

/// Calls a function that writes a line and returns its length, with memory of that length and one byte more.
fn line_of(write: impl Fn(&mut [u8]) -> usize) -> Vec<u8> {
    let mut line = vec![0; write(&mut []) + 1];
    write(&mut line);
    line.pop();
    line
}

/// The line of a request.
pub(crate) fn request_line(request: &[u8], options: u64) -> Vec<u8> {
    // SAFETY: the pointers and lengths are those of slices, which do not overlap.
    line_of(|text| unsafe {
        let (at, len) = (text.as_mut_ptr(), text.len());
        nizwarf_print_request_at(request.as_ptr(), request.len(), options, at, len)
    })
}

/// The line of the reply to a request.
pub(crate) fn reply_line(request: &[u8], reply: &[u8]) -> Vec<u8> {
    let (first, first_len) = (request.as_ptr(), request.len());
    // SAFETY: the pointers and lengths are those of slices, which do not overlap.
    line_of(|text| unsafe {
        let (at, len) = (text.as_mut_ptr(), text.len());
        nizwarf_print_reply_at(first, first_len, reply.as_ptr(), reply.len(), at, len)
    })
}

/// A call that waits for its answer, and the session in which its request was decoded.
#[derive(Debug)]
pub(crate) struct Pending {
    pub call: RawCall,
    pub session: RawSession,
    /// The answer. Only the fields of its kind are set.
    pub answer: RawAnswer,
}

impl From<&Entry> for RawEntry {
    fn from(entry: &Entry) -> Self {
        Self {
            node: entry.inode,
            generation: entry.generation,
            entry_seconds: entry.entry_timeout.as_secs(),
            attr_seconds: entry.attr_timeout.as_secs(),
            entry_nanoseconds: entry.entry_timeout.subsec_nanos(),
            attr_nanoseconds: entry.attr_timeout.subsec_nanos(),
            attr: entry.attr,
        }
    }
}

impl<'a> DirItem<'a> {
    /// Creates an item from what `readdir(3)` reports: `ino` is the inode number that programs see,
    /// `offset` the position after the item, from which a later READDIR continues, and `kind` its type,
    /// as [`DT_REG`](crate::DT_REG).
    #[must_use]
    pub fn new(ino: u64, offset: u64, kind: u32, name: &'a CStr) -> Self {
        let bytes = name.to_bytes_with_nul();
        DirItem { ino, offset, name: bytes.as_ptr(), name_size: bytes.len(), type_: kind, ..DirItem::NONE }
    }

    /// Adds the result of looking the name up. A READDIRPLUS needs it for all items except `.` and `..`, for
    /// which it is ignored.
    #[must_use]
    pub fn looked_up(self, result: &io::Result<Entry>) -> Self {
        match result {
            Ok(entry) => DirItem { entry: entry.into(), ..self },
            Err(error) => DirItem { error: answered(error).number(), ..self },
        }
    }

    /// Returns the name.
    #[must_use]
    pub fn name(&self) -> &'a CStr {
        // SAFETY: `new` took both from a `&'a CStr`, and nothing changes them.
        unsafe {
            let bytes = std::slice::from_raw_parts(self.name, self.name_size);
            CStr::from_bytes_with_nul_unchecked(bytes)
        }
    }

    /// Returns whether the name is `.` or `..`.
    #[must_use]
    pub fn is_dot(&self) -> bool {
        matches!(self.name().to_bytes(), b"." | b"..")
    }

    /// Returns the length of its record in the reply to a READDIR, or with `plus` to a READDIRPLUS.
    #[must_use]
    pub fn record_len(&self, plus: bool) -> usize {
        let entry = if plus { 128 } else { 0 };
        entry + ((24 + self.name_size - 1 + 7) & !7)
    }

    /// Returns the node of its lookup, if it has one.
    pub(crate) fn lookup(&self) -> Option<u64> {
        let is_lookup = self.error == 0 && self.entry.node != 0 && !self.is_dot();
        is_lookup.then_some(self.entry.node)
    }
}

impl fmt::Debug for DirItem<'_> {
    fn fmt(&self, f: &mut fmt::Formatter<'_>) -> fmt::Result {
        f.debug_struct("DirItem")
            .field("name", &self.name())
            .field("ino", &self.ino)
            .field("offset", &self.offset)
            .field("node", &self.entry.node)
            .field("error", &self.error)
            .finish_non_exhaustive()
    }
}

// SAFETY: its pointer is a `&CStr`, which is `Send` and `Sync`.
unsafe impl Send for DirItem<'_> {}
// SAFETY: as above.
unsafe impl Sync for DirItem<'_> {}

/// Scratch memory, in which requests are decoded and replies encoded, one at a time.
///
/// It keeps no state from one request to the next, so each thread should have one, which suffices for any
/// number of requests in flight. It grows to the size of the longest reply buffer that it was used with, and
/// is freed when it is dropped.
///
/// ```
/// use nizwarf::{Decoded, Refusal, Scratch, Session};
///
/// let mut scratch = Scratch::new();
/// match scratch.decode(&Session::default(), &[], 4096) {
///     Decoded::Finished(done) => assert_eq!(done.outcome, Err(Refusal::DecodeMessage)),
///     Decoded::Call(_) => unreachable!("no bytes are no request"),
/// }
/// ```
pub struct Scratch {
    raw: RawScratch,
    reply: Vec<u8>,
    /// The box of an answered call, for the next one.
    spare: Option<Box<Pending>>,
}

// SAFETY: it owns memory of `malloc`, to which the library has no other pointer, and uses no thread-local
// state.
unsafe impl Send for Scratch {}
// SAFETY: nothing can be done with a `&Scratch`: each function of the library takes a `&mut Scratch`.
unsafe impl Sync for Scratch {}

impl Scratch {
    /// Creates an empty one. The first request allocates its memory.
    #[must_use]
    pub const fn new() -> Self {
        Scratch { raw: RawScratch { at: ptr::null_mut() }, reply: Vec::new(), spare: None }
    }

    /// Returns a box for a call.
    pub(crate) fn take(&mut self, session: RawSession) -> Box<Pending> {
        match self.spare.take() {
            Some(mut pending) => {
                pending.session = session;
                pending
            }
            None => Box::new(Pending { call: RawCall::NONE, session, answer: RawAnswer::NONE }),
        }
    }

    /// Keeps the box of a call for the next one.
    pub(crate) fn keep(&mut self, pending: Box<Pending>) {
        self.spare = Some(pending);
    }

    /// Decodes a request. Its call is in `pending` if the code is `code::CALL`.
    pub(crate) fn decode_raw(
        &mut self, pending: &mut Pending, features: Features, request: &[IoSlice<'_>], reply_size: usize,
    ) -> (i32, RawResult) {
        let Pending { call, session, .. } = pending;
        call.opcode = 0;
        let mut result = RawResult { options: session.options, ..RawResult::default() };
        // SAFETY: all pointers are valid for this call and none is null. The slices are initialised bytes
        // that do not change while they are borrowed. As the header requires, `call.opcode` is 0, and
        // `result` is zero except for the options.
        let code = unsafe {
            nizwarf_decode_at(
                &mut self.raw,
                session,
                features.bits(),
                request.as_ptr(),
                request.len(),
                reply_size,
                call,
                &mut result,
            )
        };
        (code, result)
    }

    pub(crate) fn encode_raw(
        &mut self, pending: &Pending, text: &[u8], items: &[DirItem<'_>],
    ) -> (i32, RawResult) {
        let Pending { call, session, answer } = pending;
        let mut result = RawResult { options: call.options, ..RawResult::default() };
        // SAFETY: all pointers are valid for this call and none is null, not even those of length 0. The
        // library reads no more of the answer than there is. The names of items outlive the items.
        let code = unsafe {
            nizwarf_encode_at(
                &mut self.raw,
                session,
                call,
                answer,
                text.as_ptr(),
                text.len(),
                items.as_ptr(),
                items.len(),
                &mut result,
            )
        };
        (code, result)
    }

    /// Copies bytes of the reply, from offset `at` on, and returns how many.
    pub(crate) fn copy(&mut self, at: usize, piece: &mut [u8]) -> usize {
        self.raw.copy(at, piece)
    }

    /// Returns the first bytes of the reply.
    pub(crate) fn lend(&mut self, len: usize) -> &[u8] {
        if self.reply.len() < len {
            self.reply.resize(len, 0);
        }
        let copied = self.raw.copy(0, &mut self.reply[..len]);
        &self.reply[..copied]
    }
}

impl Default for Scratch {
    fn default() -> Self {
        Self::new()
    }
}

impl fmt::Debug for Scratch {
    fn fmt(&self, f: &mut fmt::Formatter<'_>) -> fmt::Result {
        f.debug_struct("Scratch").finish_non_exhaustive()
    }
}

impl Drop for Scratch {
    fn drop(&mut self) {
        // SAFETY: the pointer is valid for this call, and the memory is not used after it. A null pointer may
        // be freed, too.
        unsafe { nizwarf_scratch_free_at(&mut self.raw) };
    }
}

const _: () = assert!(size_of::<RawScratch>() == 8);
const _: () = assert!(size_of::<IoSlice<'_>>() == 16);
