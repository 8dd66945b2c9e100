//! The reply objects, as fuser has them.

use crate::answer::{Encoded, To};
use crate::attr::Statvfs;
use crate::client::Client;
use crate::errno::no_number;
use crate::ffi::{DirItem, Scratch};
use crate::file_system::{DirEntry, Entry, GetxattrReply};
use crate::flags::OpenOptions;
use crate::fuser::errno::Errno;
use crate::fuser::flags::{FopenFlags, PollEvents};
use crate::fuser::types::{entry_of, FileAttr, FileHandle, FileType, Generation, INodeNo};
use crate::kinds;
use crate::listing::Listing as Items;
use crate::optional::{IoctlReply, Lock, LockType};
use crate::server::{guard, HEADER};
use std::cell::Cell;
use std::convert::Infallible;
use std::ffi::{CString, OsStr};
use std::io;
use std::os::unix::ffi::OsStrExt;
use std::os::unix::io::AsFd;
use std::sync::{Arc, Mutex};
use std::time::Duration;

/// A lookup or handle in a reply that the kernel does not receive. The file system must drop it.
#[derive(Clone, Copy, Debug, PartialEq, Eq)]
pub(super) enum Loss {
    /// A lookup of a node.
    Lookup(u64),
    /// A node, and its handle.
    Handle(u64, u64),
}

/// The destination of a reply.
#[derive(Clone, Debug)]
pub(super) struct Link {
    pub client: Client,
    /// They are passed to the file system later, because it may have locked a mutex while it answers.
    pub losses: Arc<Mutex<Vec<Loss>>>,
}

impl Link {
    /// Encodes an answer, and sends the reply and its data.
    pub fn send(&self, data: &[u8], answer: impl for<'s> FnOnce(&'s mut Scratch) -> Encoded<'s>) {
        thread_local! {
            static SCRATCH: Cell<Scratch> = const { Cell::new(Scratch::new()) };
        }
        // (at the end of a thread it is destroyed already)
        let mut scratch = SCRATCH.try_with(Cell::take).unwrap_or_default();
        let encoded = answer(&mut scratch);
        let lost = encoded.lost_handle().map(|(node, handle)| Loss::Handle(node, handle));
        let mut losses = Vec::from_iter(lost);
        let reply = encoded.forget_lost(|node| losses.push(Loss::Lookup(node)));
        // An error cannot be reported to anybody.
        let _ = self.client.send_with(reply, data);
        if !losses.is_empty() {
            guard(&self.losses).extend(losses);
        }
        let _ = SCRATCH.try_with(|kept| kept.set(scratch));
    }
}

/// Answers a call once. If it is dropped before, the reply is EIO.
#[derive(Debug)]
pub(super) struct Answer<K> {
    to: Option<To<K>>,
    link: Option<Link>,
}

impl<K> Answer<K> {
    pub fn new(to: To<K>, link: &Link) -> Self {
        Answer { to: Some(to), link: Some(link.clone()) }
    }

    /// An answer that is not sent, for a call that the kernel did not request.
    pub fn to_nobody() -> Self {
        Answer { to: None, link: None }
    }

    fn send(mut self, answer: impl for<'s> FnOnce(To<K>, &'s mut Scratch) -> Encoded<'s>) {
        self.send_with(&[], answer);
    }

    fn send_with(&mut self, data: &[u8], answer: impl for<'s> FnOnce(To<K>, &'s mut Scratch) -> Encoded<'s>) {
        if let (Some(to), Some(link)) = (self.to.take(), self.link.take()) {
            link.send(data, |scratch| answer(to, scratch));
        }
    }

    pub fn fail(mut self, error: Errno) {
        self.refuse(error);
    }

    /// Records losses of an answer that is replaced by an error.
    fn lose(&self, losses: impl Iterator<Item = Loss>) {
        if let Some(link) = &self.link {
            guard(&link.losses).extend(losses);
        }
    }

    fn refuse(&mut self, error: Errno) {
        self.send_with(&[], |to, scratch| to.fail(scratch, &error.into()));
    }
}

impl<K> Drop for Answer<K> {
    fn drop(&mut self) {
        self.refuse(Errno::EIO);
    }
}

/// Declares the reply objects: for each the kind of its answer, and its methods with their answers. All can
/// also answer with an error.
macro_rules! replies {
    ($(
        $(#[$about:meta])*
        $name:ident: $kind:ty {
            $($(#[$doc:meta])* $method:ident($($argument:ident: $type:ty),* $(,)?) => $result:expr;)*
        }
    )*) => {
        $(
            $(#[$about])*
            #[derive(Debug)]
            #[must_use = "the caller waits for the reply, which is EIO if this is dropped"]
            pub struct $name(pub(super) $kind);

            impl $name {
                /// Answers with an error.
                pub fn error(self, err: Errno) {
                    self.0.fail(err);
                }

                $(
                    $(#[$doc])*
                    pub fn $method(self, $($argument: $type),*) {
                        let result = $result;
                        self.0.send(|to, scratch| to.answer(scratch, result));
                    }
                )*
            }
        )*
    };
}

replies! {
    /// Answers with attributes.
    ReplyAttr: Answer<kinds::Attr> {
        /// Answers with attributes, which are valid for `ttl`.
        attr(ttl: &Duration, attr: &FileAttr) => Ok((attr.into(), *ttl));
    }
    /// Answers with the number of a block.
    ReplyBmap: Answer<kinds::Offset> {
        /// Answers with the number of a block.
        bmap(block: u64) => Ok(block);
    }
    /// Answers with a file that was created and opened.
    ReplyCreate: Answer<kinds::Create> {
        /// Answers with an entry, and the handle and options of its open file.
        created(
            ttl: &Duration, attr: &FileAttr, generation: Generation, fh: FileHandle, flags: FopenFlags,
        ) => Ok((entry_of(*ttl, attr, generation), Some(fh.0), options_of(flags)));
    }
    /// Answers with data of a file, or with the text of a symbolic link.
    ReplyData: DataOf {}
    /// Answers with items of a directory.
    ReplyDirectory: Listing {}
    /// Answers with items of a directory and their entries.
    ReplyDirectoryPlus: Listing {}
    /// Answers with success.
    ReplyEmpty: Answer<kinds::Status> {
        /// Answers with success.
        ok() => Ok(());
    }
    /// Answers with an entry.
    ReplyEntry: Answer<kinds::Entry> {
        /// Answers with an entry, whose name and attributes are valid for `ttl`. This is one more lookup of
        /// its node. The node number 0 means that the name does not exist.
        entry(ttl: &Duration, attr: &FileAttr, generation: Generation) =>
            Ok(entry_of(*ttl, attr, generation));
    }
    /// Answers with the result of a command.
    ReplyIoctl: Answer<kinds::Ioctl> {
        /// Answers with the result of a command, and its output.
        ioctl(result: i32, data: &[u8]) => Ok(IoctlReply::Done { result, output: data.to_vec() });
    }
    /// Answers with a lock.
    ReplyLock: Answer<kinds::Lock> {
        /// Answers with a lock of the type `F_RDLCK`, `F_WRLCK` or `F_UNLCK`. For another type the reply is
        /// EIO.
        locked(start: u64, end: u64, typ: i32, pid: u32) => {
            let kind = u32::try_from(typ).ok().and_then(LockType::of);
            kind.map(|kind| Lock { start, end, kind, pid }).ok_or_else(no_number)
        };
    }
    /// Answers with an offset in a file.
    ReplyLseek: Answer<kinds::Offset> {
        /// Answers with an offset in a file. If it is negative, the reply is EIO.
        offset(offset: i64) => u64::try_from(offset).map_err(|_| no_number());
    }
    /// Answers with an open file or directory.
    ReplyOpen: Answer<kinds::Open> {
        /// Answers with a handle, and options of the open file.
        opened(fh: FileHandle, flags: FopenFlags) => Ok((Some(fh.0), options_of(flags)));
    }
    /// Answers with events.
    ReplyPoll: Answer<kinds::Poll> {
        /// Answers with the events that have occurred.
        poll(revents: PollEvents) => Ok(revents.bits());
    }
    /// Answers with statistics.
    ReplyStatfs: Answer<kinds::Statfs> {
        /// Answers with statistics.
        #[allow(clippy::too_many_arguments)] // they are fuser's
        statfs(
            blocks: u64, bfree: u64, bavail: u64, files: u64, ffree: u64, bsize: u32, namelen: u32,
            frsize: u32,
        ) => Ok(Statvfs {
            f_bsize: bsize.into(),
            f_frsize: frsize.into(),
            f_blocks: blocks,
            f_bfree: bfree,
            f_bavail: bavail,
            f_files: files,
            f_ffree: ffree,
            f_namemax: namelen.into(),
        });
    }
    /// Answers with the number of bytes that were written.
    ReplyWrite: Answer<kinds::Count> {
        /// Answers with the number of bytes that were written.
        written(size: u32) => Ok(size as usize);
    }
    /// Answers with an extended attribute, or with their names.
    ReplyXattr: Answer<kinds::BytesOrSize> {
        /// Answers with the length of the value or of the names. If they were requested themselves, the reply
        /// is EIO.
        size(size: u32) => Ok(GetxattrReply::Count(size));
        /// Answers with the value or the names. If they are longer than the requested size, the reply is
        /// ERANGE.
        data(data: &[u8]) => Ok(GetxattrReply::Value(data.to_vec()));
    }
}

fn options_of(flags: FopenFlags) -> OpenOptions {
    OpenOptions::from_bits_truncate(flags.bits())
}

/// A file that Linux reads and writes in place of another. It has no value, because this crate does not
/// support this.
#[derive(Debug)]
pub struct BackingId {
    never: Infallible,
}

impl BackingId {
    fn open() -> io::Result<Self> {
        Err(crate::errno::Errno::EOPNOTSUPP.into())
    }
}

impl ReplyOpen {
    /// Would let Linux read and write this file.
    ///
    /// # Errors
    /// EOPNOTSUPP, always.
    pub fn open_backing(&self, _fd: impl AsFd) -> io::Result<BackingId> {
        BackingId::open()
    }

    /// Would answer with a file that Linux reads and writes in place of this one. It cannot be called.
    pub fn opened_passthrough(self, _fh: FileHandle, _flags: FopenFlags, backing_id: &BackingId) {
        match backing_id.never {}
    }
}

impl ReplyCreate {
    /// As [`ReplyOpen::open_backing`].
    ///
    /// # Errors
    /// EOPNOTSUPP, always.
    pub fn open_backing(&self, _fd: impl AsFd) -> io::Result<BackingId> {
        BackingId::open()
    }

    /// As [`ReplyOpen::opened_passthrough`]. It cannot be called.
    pub fn created_passthrough(
        self, _ttl: &Duration, _attr: &FileAttr, _generation: Generation, _fh: FileHandle,
        _flags: FopenFlags, backing_id: &BackingId,
    ) {
        match backing_id.never {}
    }
}

/// The answer of a [`ReplyData`].
#[derive(Debug)]
pub(super) enum DataOf {
    File(Answer<kinds::Data>),
    Link(Answer<kinds::Bytes>),
}

impl DataOf {
    fn fail(self, error: Errno) {
        match self {
            DataOf::File(answer) => answer.fail(error),
            DataOf::Link(answer) => answer.fail(error),
        }
    }
}

impl ReplyData {
    /// Answers with data. If they are longer than the requested size, or than a link can be, the reply is
    /// EIO.
    pub fn data(self, data: &[u8]) {
        match self.0 {
            DataOf::File(mut answer) => {
                answer.send_with(data, |to, scratch| to.answer(scratch, Ok(data.len())));
            }
            DataOf::Link(answer) => answer.send(|to, scratch| to.answer(scratch, Ok(data))),
        }
    }
}

/// The items of a reply.
#[derive(Debug)]
pub(super) struct Listing {
    answer: Answer<kinds::Directory>,
    items: Items,
    /// The maximum number of bytes of their records.
    max: usize,
    /// Whether a name had a NUL.
    is_invalid: bool,
}

impl Listing {
    pub fn new(to: To<kinds::Directory>, size: u32, link: &Link) -> Self {
        let max = (size as usize).min(to.reply_size().saturating_sub(HEADER));
        Listing { answer: Answer::new(to, link), items: Items::default(), max, is_invalid: false }
    }

    /// Adds an item and its entry, if it fits. Returns whether it does not fit. If a name has a NUL, the
    /// reply is EIO.
    fn add(&mut self, ino: u64, offset: u64, kind: FileType, name: &OsStr, entry: Option<Entry>) -> bool {
        let name = if let Ok(name) = CString::new(name.as_bytes()) {
            name
        } else {
            self.is_invalid = true;
            return false;
        };
        let item = DirEntry { ino, offset, type_: kind.number(), name: &name };
        let fits = self.items.add(&item, self.max, entry.is_some());
        if let Some(entry) = entry.filter(|_| fits) {
            self.items.set_entry(Ok(entry));
        }
        !fits
    }

    fn fail(self, error: Errno) {
        self.answer.fail(error);
    }

    fn send(self) {
        let items = self.items.items();
        if self.is_invalid {
            self.answer.lose(items.iter().filter_map(DirItem::lookup).map(Loss::Lookup));
            return self.answer.fail(Errno::EIO);
        }
        self.answer.send(|to, scratch| to.answer(scratch, Ok(&items)));
    }
}

impl ReplyDirectory {
    /// Adds an item, if it fits, and returns whether it does not fit. `offset` is the position after it, from
    /// which a later call continues; it must not be 0.
    #[must_use]
    pub fn add<T: AsRef<OsStr>>(&mut self, ino: INodeNo, offset: u64, kind: FileType, name: T) -> bool {
        self.0.add(ino.0, offset, kind, name.as_ref(), None)
    }

    /// Answers with the items.
    pub fn ok(self) {
        self.0.send();
    }
}

impl ReplyDirectoryPlus {
    /// Adds an item and its entry, as [`ReplyDirectory::add`] and [`ReplyEntry::entry`]. Its number is that
    /// of the attributes. An item that is added is a lookup of its node, except `.` and `..`.
    pub fn add<T: AsRef<OsStr>>(
        &mut self, _ino: INodeNo, offset: u64, name: T, ttl: &Duration, attr: &FileAttr,
        generation: Generation,
    ) -> bool {
        let entry = Some(entry_of(*ttl, attr, generation));
        self.0.add(attr.ino.0, offset, attr.kind, name.as_ref(), entry)
    }

    /// Answers with the items.
    pub fn ok(self) {
        self.0.send();
    }
}
