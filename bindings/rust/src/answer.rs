//! Answers to calls.
#![forbid(unsafe_code)]

use crate::attr::{Attr, Statvfs};
use crate::call::number;
use crate::codec::{Refusal, Reply};
use crate::errno::{answered, Errno};
use crate::ffi::{DirItem, Pending, RawAnswer, RawCall, RawEntry, Scratch};
use crate::file_system::{Entry, GetxattrReply, ListxattrReply};
use crate::flags::{FsOptions, OpenOptions};
use crate::kinds;
use crate::numbers::{has, kind};
use crate::optional::{IoctlReply, Limits, Lock, Statx};
use std::fmt;
use std::io;
use std::marker::PhantomData;
use std::time::Duration;

/// Answers one call, once. The type parameter is the kind of the answer, one of [`kinds`](crate::kinds).
///
/// It borrows nothing, so it may be kept, and sent to another thread. If it is dropped, the request gets no
/// reply, and the client waits forever. So each call should be answered, if need be by [`fail`](Self::fail).
///
/// ```
/// use nizwarf::{Call, Decoded, Scratch, Session};
/// use std::io::IoSlice;
/// use std::thread;
///
/// let mut request = [0; 42];
/// (request[0], request[4], request[16], request[40]) = (42, 10, 1, b'a'); // UNLINK
/// let request = [IoSlice::new(&request)];
/// let mut scratch = Scratch::new();
/// if let Decoded::Call(pending) = scratch.decode(&Session::default(), &request, 64) {
///     if let Call::Unlink { to, .. } = pending.call {
///         let later = thread::spawn(move || to.answer(&mut Scratch::new(), Ok(())).reply().len());
///         assert_eq!(later.join().unwrap(), 16);
///         return;
///     }
/// }
/// # unreachable!()
/// ```
///
/// An answer of another kind does not compile:
///
/// ```compile_fail,E0308
/// use nizwarf::{kinds, Scratch, To};
///
/// fn answer(scratch: &mut Scratch, to: To<kinds::Entry>) {
///     let _ = to.answer(scratch, Ok(5)); // a number is not an entry
/// }
/// ```
#[must_use = "the client waits for the reply"]
pub struct To<K> {
    pending: Box<Pending>,
    kind: PhantomData<fn(K)>,
}

/// An answer that was encoded: the reply, and the lookups and the handle that the client does not receive
/// with it.
///
/// ```
/// use nizwarf::{Attr, Call, Decoded, Entry, Scratch, Session};
/// use std::io::IoSlice;
///
/// // A LOOKUP of `a` in the root, with a buffer that is too short for an entry.
/// let mut request = [0; 42];
/// (request[0], request[4], request[16], request[40]) = (42, 1, 1, b'a');
/// let request = [IoSlice::new(&request)];
/// let mut scratch = Scratch::new();
/// if let Decoded::Call(pending) = scratch.decode(&Session::default(), &request, 100) {
///     if let Call::Lookup { to, .. } = pending.call {
///         let entry = Entry { inode: 5, ..Entry::default() };
///         let encoded = to.answer(&mut scratch, Ok(entry));
///         let mut forgotten = Vec::new();
///         let reply = encoded.forget_lost(|node| forgotten.push(node));
///         assert!(reply.is_empty());
///         assert_eq!(forgotten, [5]);
///         return;
///     }
/// }
/// # unreachable!()
/// ```
///
/// The compiler warns if it is ignored:
///
/// ```compile_fail
/// #![deny(unused_must_use)]
/// use nizwarf::{kinds, Entry, Scratch, To};
///
/// fn answer(scratch: &mut Scratch, to: To<kinds::Entry>) {
///     to.answer(scratch, Ok(Entry::default()));
/// }
/// ```
#[must_use = "lookups may be lost, and the client waits for the reply"]
#[derive(Debug)]
pub struct Encoded<'s> {
    /// Why there is no reply, if there should be one.
    pub outcome: Result<(), Refusal>,
    /// The options of the session from now on, if the call was an INIT or a DESTROY.
    pub options: Option<FsOptions>,
    /// The number of items in the reply, which has the first ones.
    pub entries: usize,
    lost_nodes: Vec<u64>,
    /// A node of which the answer has an entry, whether the client receives it or not.
    entry: Option<u64>,
    /// The node and the handle that were opened, if the client does not receive the handle.
    lost_handle: Option<(u64, u64)>,
    reply: Reply<'s>,
}

impl<'s> Encoded<'s> {
    /// Calls `forget` for each node whose entry the client does not receive, because the reply does not fit.
    /// The file system must drop one lookup of it. Then returns the reply.
    #[must_use = "the client waits for the reply"]
    pub fn forget_lost(self, forget: impl FnMut(u64)) -> Reply<'s> {
        self.lost_nodes.into_iter().for_each(forget);
        self.reply
    }

    /// Returns the reply to a call whose answer has no entry.
    ///
    /// # Panics
    /// If the answer has an entry of a node, even one that fits, because with a smaller buffer, which a
    /// client may choose, its lookup would be lost. Calls that have entries must use
    /// [`forget_lost`](Self::forget_lost).
    #[must_use = "the client waits for the reply"]
    pub fn reply(self) -> Reply<'s> {
        if let Some(node) = self.entry {
            panic!("the answer has an entry of node {node}: its reply comes from `forget_lost`");
        }
        self.reply
    }

    /// Returns the node and the handle of a file or a directory if the client does not receive the handle,
    /// because the reply does not fit. The file system must release it, as for a RELEASE or a RELEASEDIR,
    /// before [`forget_lost`](Self::forget_lost).
    #[must_use]
    pub fn lost_handle(&self) -> Option<(u64, u64)> {
        self.lost_handle
    }

    fn with_entry(self, node: Option<u64>) -> Self {
        Encoded { entry: node, ..self }
    }

    fn with_handle(self, node: u64, handle: Option<u64>) -> Self {
        let lost_handle = handle.filter(|_| self.outcome.is_err()).map(|handle| (node, handle));
        Encoded { lost_handle, ..self }
    }
}

impl<K> To<K> {
    pub(crate) fn new(pending: Box<Pending>) -> Self {
        To { pending, kind: PhantomData }
    }

    /// Converts to the kind that can answer the same call with an error only.
    pub(crate) fn into_error(self) -> To<kinds::Error> {
        To::new(self.pending)
    }

    getters! {
        /// Returns the number of the request.
        unique: u64 = |it| it.pending.call.unique;
        /// Returns the size of the reply buffer, with which the request was decoded.
        reply_size: usize = |it| usize::try_from(it.pending.call.reply_size).unwrap_or(usize::MAX);
    }

    /// Answers with an error. It becomes EIO if it has no number, or a number that Linux does not accept,
    /// which accepts 1 to 511. A call without a reply still gets none.
    pub fn fail<'s>(mut self, scratch: &'s mut Scratch, error: &io::Error) -> Encoded<'s> {
        self.pending.answer.error = answered(error).number();
        encode(self.pending, scratch, &[], &[])
    }

    /// Answers with success.
    fn succeed<'s>(mut self, scratch: &'s mut Scratch, text: &[u8], items: &[DirItem<'_>]) -> Encoded<'s> {
        self.pending.answer.error = 0;
        encode(self.pending, scratch, text, items)
    }

    /// Answers with an error, or with a text.
    fn put(self, scratch: &mut Scratch, result: io::Result<impl AsRef<[u8]>>) -> Encoded<'_> {
        match result {
            Ok(text) => self.succeed(scratch, text.as_ref(), &[]),
            Err(error) => self.fail(scratch, &error),
        }
    }

    /// Answers with an error, or with an answer whose fields `change` sets.
    #[inline]
    fn say<T>(
        mut self, scratch: &mut Scratch, result: io::Result<T>, change: impl FnOnce(&mut RawAnswer, T),
    ) -> Encoded<'_> {
        match result {
            Ok(value) => {
                change(&mut self.pending.answer, value);
                self.succeed(scratch, &[], &[])
            }
            Err(error) => self.fail(scratch, &error),
        }
    }
}

/// Encodes the answer to a call.
#[inline(never)]
fn encode<'s>(
    pending: Box<Pending>, scratch: &'s mut Scratch, text: &[u8], items: &[DirItem<'_>],
) -> Encoded<'s> {
    let call = &pending.call;
    let (code, result) = scratch.encode_raw(&pending, text, items);
    let entries = usize::try_from(result.entries).unwrap_or(usize::MAX);
    let mut lost_nodes = Vec::new();
    if result.forget != 0 {
        lost_nodes.push(result.forget);
    }
    if has_lookups(call) {
        lost_nodes.extend(items.iter().skip(entries).filter_map(DirItem::lookup));
    }
    let options = matches!(call.opcode, number::INIT | number::DESTROY)
        .then(|| FsOptions::from_bits_truncate(result.options));
    let outcome = Refusal::of(code);
    // (a call that has no reply needs none, whatever the outcome)
    let refused = outcome.err().filter(|_| call.reply != kind::NONE).map(|_| call.unique);
    scratch.keep(pending);
    let mut reply = Reply::new(scratch, result.len, result.written);
    reply.refused = refused;
    Encoded { outcome, options, entries, lost_nodes, entry: None, lost_handle: None, reply }
}

/// Whether items have lookups: those of a READDIRPLUS do.
fn has_lookups(call: &RawCall) -> bool {
    call.opcode == number::READDIR && call.has & has::PLUS != 0
}

fn opened(answer: &mut RawAnswer, handle: Option<u64>, options: OpenOptions) {
    answer.has_handle = handle.is_some().into();
    answer.handle = handle.unwrap_or(0);
    answer.open_flags = options.bits();
}

impl To<kinds::NoReply> {
    /// Reports that the call was made.
    pub fn done(self, scratch: &mut Scratch) -> Encoded<'_> {
        self.succeed(scratch, &[], &[])
    }
}

impl To<kinds::Destroy> {
    /// Reports that the call was made.
    pub fn done(self, scratch: &mut Scratch) -> Encoded<'_> {
        self.succeed(scratch, &[], &[])
    }
}

/// Declares how calls are answered: for each kind the type of the result, and a function that sets the fields
/// of its answer.
macro_rules! answers {
    ($($(#[$about:meta])* $kind:ident: $result:ty => $change:expr;)*) => {
        $(impl To<kinds::$kind> {
            $(#[$about])*
            #[inline]
            pub fn answer(self, scratch: &mut Scratch, result: io::Result<$result>) -> Encoded<'_> {
                self.say(scratch, result, $change)
            }
        })*
    };
}

answers! {
    /// Answers with success or an error.
    Status: () => |_, ()| ();
    /// Answers with attributes, and how long they are valid.
    Attr: (Attr, Duration) => |answer, (attr, timeout)| {
        answer.entry.attr = attr;
        answer.entry.attr_seconds = timeout.as_secs();
        answer.entry.attr_nanoseconds = timeout.subsec_nanos();
    };
    /// Answers with statistics.
    Statfs: Statvfs => |answer, statfs| answer.statfs = statfs;
    /// Answers with an offset.
    Offset: u64 => |answer, offset| answer.count = offset;
    /// Answers with the number of bytes that were copied.
    Count64: usize => |answer, count| answer.count = count as u64;
    /// Answers with events, as `poll(2)` has them.
    Poll: u32 => |answer, events| answer.count = events.into();
    /// Answers with the number of bytes that were written.
    Count: usize => |answer, count| answer.count = count as u64;
}

impl To<kinds::Lock> {
    /// Answers with a conflicting lock, or with one of type [`LockType::Unlock`](crate::LockType::Unlock) if
    /// there is no conflict.
    #[inline]
    pub fn answer(self, scratch: &mut Scratch, result: io::Result<Lock>) -> Encoded<'_> {
        self.put(scratch, result.map(Lock::to_record))
    }
}

impl To<kinds::Statx> {
    /// Answers with attributes, and how long they are valid.
    #[inline]
    pub fn answer(self, scratch: &mut Scratch, result: io::Result<(Statx, Duration)>) -> Encoded<'_> {
        self.put(scratch, result.map(|(statx, timeout)| statx.to_record(timeout)))
    }
}

impl To<kinds::Ioctl> {
    /// Answers with the result of a command. The reply is EIO if there are more than `output_size` bytes of
    /// output or more than 256 ranges.
    #[inline]
    pub fn answer(self, scratch: &mut Scratch, result: io::Result<IoctlReply>) -> Encoded<'_> {
        let size = self.pending.call.size;
        let text = result.and_then(|reply| reply.to_text(size).ok_or_else(|| Errno::EIO.into()));
        self.put(scratch, text)
    }
}

impl To<kinds::Data> {
    /// Returns the maximum number of bytes of data: `size`, or less if the reply buffer has fewer bytes after
    /// its first 16.
    #[must_use]
    pub fn max(&self) -> usize {
        // In the library's call the length of a READ is the size of the buffer for its data.
        let fits = usize::try_from(self.pending.call.length).unwrap_or(usize::MAX);
        fits.min(self.pending.call.size as usize)
    }

    /// Answers with the number of bytes that the caller put into the buffer, after its first 16 bytes, which
    /// the reply has. If the number is above [`max`](Self::max), the reply is EIO.
    #[inline]
    pub fn answer(self, scratch: &mut Scratch, result: io::Result<usize>) -> Encoded<'_> {
        self.say(scratch, result, |answer, count| answer.count = count as u64)
    }
}

impl To<kinds::Init> {
    /// Answers with the options that the file system wants. Those of which the client is not capable are
    /// ignored. Some options are agreed on even if they are not wanted: [`withhold`](crate::withhold()) lists
    /// and removes them.
    #[inline]
    pub fn answer(self, scratch: &mut Scratch, result: io::Result<FsOptions>) -> Encoded<'_> {
        self.answer_with(scratch, result, Limits::default())
    }

    /// Answers with the options that the file system wants, as [`answer`](Self::answer), and with its limits.
    pub fn answer_with(
        self, scratch: &mut Scratch, result: io::Result<FsOptions>, limits: Limits,
    ) -> Encoded<'_> {
        let want = result.as_ref().map_or(0, |want| want.bits());
        // (options that the library decodes itself are not among these)
        let capable = self.pending.call.other_offset;
        let is_changed = result.is_ok() && (want & capable != 0 || limits != Limits::default());
        let mut encoded = self.say(scratch, result, |answer, options| answer.count = options.bits());
        if is_changed && encoded.outcome.is_ok() {
            let agreed = encoded.reply.add_to_init(capable, &limits.with(want));
            let options = encoded.options.unwrap_or_default();
            encoded.options = Some(options | FsOptions::from_bits_truncate(agreed));
        }
        encoded
    }
}

impl To<kinds::Entry> {
    /// Answers with an entry. This is one more lookup of its node, unless that is 0, which the client forgets
    /// later.
    #[inline]
    pub fn answer(self, scratch: &mut Scratch, result: io::Result<Entry>) -> Encoded<'_> {
        let node = result.as_ref().ok().map(|entry| entry.inode).filter(|node| *node != 0);
        self.say(scratch, result, |answer, entry| answer.entry = RawEntry::from(&entry)).with_entry(node)
    }
}

impl To<kinds::Open> {
    /// Answers with a handle, which is sent as 0 if it is `None`, and with options of the open file.
    #[inline]
    pub fn answer(
        self, scratch: &mut Scratch, result: io::Result<(Option<u64>, OpenOptions)>,
    ) -> Encoded<'_> {
        let node = self.pending.call.node;
        let handle = result.as_ref().ok().and_then(|(handle, _)| *handle);
        self.say(scratch, result, |answer, (handle, options)| opened(answer, handle, options))
            .with_handle(node, handle)
    }
}

impl To<kinds::Create> {
    /// Answers with an entry, as a LOOKUP, and an open file, as an OPEN.
    #[inline]
    pub fn answer(
        self, scratch: &mut Scratch, result: io::Result<(Entry, Option<u64>, OpenOptions)>,
    ) -> Encoded<'_> {
        let (node, handle) = match &result {
            Ok((entry, handle, _)) => (entry.inode, *handle),
            Err(_) => (0, None),
        };
        self.say(scratch, result, |answer, (entry, handle, options)| {
            answer.entry = RawEntry::from(&entry);
            opened(answer, handle, options);
        })
        .with_entry(Some(node).filter(|node| *node != 0))
        .with_handle(node, handle)
    }
}

impl To<kinds::Bytes> {
    /// Answers with the target of a symbolic link. If it has more than 4095 bytes, which Linux does not
    /// accept, the reply is EIO.
    #[inline]
    pub fn answer<'s>(self, scratch: &'s mut Scratch, result: io::Result<&[u8]>) -> Encoded<'s> {
        const MAX: usize = 4095;
        match result {
            Ok(text) if text.len() > MAX => self.fail(scratch, &Errno::EIO.into()),
            Ok(text) => self.succeed(scratch, text, &[]),
            Err(error) => self.fail(scratch, &error),
        }
    }
}

impl To<kinds::BytesOrSize> {
    /// Answers with a value or a list of names, or with the length if the `size` of the call is 0. The value
    /// or list may be given in that case, too; then its length is sent. If it is longer than `size`, the reply
    /// is ERANGE; if only the length is given although `size` is not 0, the reply is EIO.
    #[inline]
    pub fn answer<T: Into<GetxattrReply>>(
        mut self, scratch: &mut Scratch, result: io::Result<T>,
    ) -> Encoded<'_> {
        let size = self.pending.call.size as usize;
        let (count, text) = match result.map(Into::into) {
            Ok(GetxattrReply::Value(text)) => (text.len(), Some(text)),
            Ok(GetxattrReply::Count(count)) => (count as usize, None),
            Err(error) => return self.fail(scratch, &error),
        };
        match text {
            _ if size != 0 && count > size => self.fail(scratch, &Errno::ERANGE.into()),
            Some(text) if size != 0 => {
                self.pending.answer.has_count = 0;
                self.succeed(scratch, &text, &[])
            }
            None if size != 0 => self.fail(scratch, &Errno::EIO.into()),
            _ => self.say(scratch, Ok(count), |answer, count| {
                answer.has_count = 1;
                answer.count = count as u64;
            }),
        }
    }
}

impl From<ListxattrReply> for GetxattrReply {
    fn from(reply: ListxattrReply) -> Self {
        match reply {
            ListxattrReply::Names(names) => GetxattrReply::Value(names),
            ListxattrReply::Count(count) => GetxattrReply::Count(count),
        }
    }
}

impl To<kinds::Directory> {
    /// Answers with items. The reply contains them up to the first that does not fit. With `plus` it also
    /// ends before an item whose lookup failed; if that is the first item, its error is the reply.
    #[inline]
    pub fn answer<'s>(self, scratch: &'s mut Scratch, result: io::Result<&[DirItem<'_>]>) -> Encoded<'s> {
        match result {
            Ok(items) => {
                let plus = has_lookups(&self.pending.call);
                let node = if plus { items.iter().find_map(DirItem::lookup) } else { None };
                self.succeed(scratch, &[], items).with_entry(node)
            }
            Err(error) => self.fail(scratch, &error),
        }
    }
}

impl<K> fmt::Debug for To<K> {
    fn fmt(&self, f: &mut fmt::Formatter<'_>) -> fmt::Result {
        write!(f, "To(request {})", self.pending.call.unique)
    }
}
