// SPDX-License-Identifier: Apache-2.0 AND BSD-3-Clause
// Written anew: of virtiofsd it has the names of types and methods alone. See NOTICE.md.

//! The protocol layer of virtiofsd 1.13.2, over the crate `nizwarf`.
//!
//! It takes the place of virtiofsd's `src/server.rs`. The library decodes a request into a call, virtiofsd's file
//! system makes the call, and the library encodes the answer as the reply. Most calls are made by the crate's
//! `make_call`, and the types of virtiofsd are converted to those of the crate. The data of a READ and of a WRITE go
//! between guest memory and the file directly.
//!
//! Nothing here ends the worker of a queue. A request that the library refuses is completed with no bytes, and
//! a panic of the file system is answered EIO.

use crate::descriptor_utils::{Data, Pieces, Reader, Writer};
use crate::filesystem::{
    Context, DirectoryIterator, Entry, Extensions, FileSystem, GetxattrReply, ListxattrReply,
    SecContext, SerializableFileSystem,
};
use crate::fuse::{Attr, FsOptions, OpenOptions, SetattrIn, SetattrValid, SetxattrFlags};
use crate::soft_idmap::Id;
use nizwarf::{make_call, Call, DirItem, Encoded, Refusal, Reply, Scratch, Session};
use std::cell::RefCell;
use std::ffi::CStr;
use std::fs::File;
use std::io::{self, IoSlice};
use std::panic::{catch_unwind, AssertUnwindSafe};
use std::sync::atomic::{AtomicBool, AtomicU64, Ordering};
use std::sync::Arc;
use std::time::Duration;

/// The number of WRITE, and the length of its header and record, which precede the data.
const WRITE: [u8; 4] = 16_u32.to_le_bytes();
const WRITE_HEAD: usize = 80;
/// The length of the header of a reply.
const REPLY_HEADER: usize = 16;
/// The length of the header of a request, and the requests whose form hangs on options.
const HEADER: usize = 40;
const SYMLINK: u32 = 6;
const MKNOD: u32 = 8;
const MKDIR: u32 = 9;
const SETXATTR: u32 = 21;
const CREATE: u32 = 35;
/// The kinds of extensions up to this one are numbers of security contexts.
const MAX_CONTEXTS: u32 = 31;

/// The buffers that a thread keeps from one request to the next.
struct Local {
    scratch: Scratch,
    /// The longest request, once there was one.
    request: Vec<u8>,
}

thread_local! {
    static LOCAL: RefCell<Local> =
        const { RefCell::new(Local { scratch: Scratch::new(), request: Vec::new() }) };
    static LISTING: RefCell<Listing> = const { RefCell::new(Listing::new()) };
}

/// Serves the requests of one guest from a file system.
pub struct Server<F: FileSystem + Sync> {
    fs: F,
    /// The options that the last INIT agreed on.
    options: AtomicU64,
    /// Whether another server agreed on them: the state of a migration does not have them.
    migrated: AtomicBool,
}

impl<F: FileSystem + Sync> Server<F> {
    /// Creates a server without options.
    pub fn new(fs: F) -> Server<F> {
        Server { fs, options: AtomicU64::new(0), migrated: AtomicBool::new(false) }
    }

    /// Serves one request, and returns the length of its reply, with which it is completed.
    ///
    /// # Errors
    /// None: an error would end the worker of the queue.
    #[allow(clippy::needless_pass_by_value)] // as it is called
    pub fn handle_message<T>(
        &self,
        r: Reader,
        w: Writer,
        _vu_req: Option<&mut T>,
    ) -> crate::Result<usize> {
        let (Some(request), Some(buffers)) = (r.pieces(), w.pieces()) else {
            debug!("A descriptor is not in the memory of the guest");
            return Ok(0);
        };
        Ok(LOCAL.with(|local| self.serve(&mut local.borrow_mut(), request, buffers)))
    }

    /// Ends the session, as a reset of the device does.
    pub fn destroy(&self) -> usize {
        self.fs.destroy();
        self.agree(0);
        0
    }

    fn agree(&self, options: u64) {
        self.options.store(options, Ordering::Relaxed);
        self.migrated.store(false, Ordering::Relaxed);
    }

    fn serve(&self, local: &mut Local, request: Pieces, buffers: Pieces) -> usize {
        let Local { scratch, request: buffer } = local;
        let mut session = Session::default();
        if buffer.is_empty() {
            *buffer = vec![0; session.longest_message()];
        }
        let bytes = take_request(buffer, request);
        let options = if self.migrated.load(Ordering::Relaxed) {
            options_of(bytes)
        } else {
            nizwarf::FsOptions::from_bits_truncate(self.options.load(Ordering::Relaxed))
        };
        session.set_options(options);
        debug!("{}", nizwarf::print_request(bytes, session.options()));
        let bytes = [IoSlice::new(bytes)];
        let encoded =
            scratch.decode_with(&session, &bytes, buffers.len(), |scratch, caller, call| {
                let calls = Calls::new(&self.fs, caller);
                let encoded = calls.make(scratch, call, request, buffers);
                if let Some(options) = encoded.options {
                    self.agree(options.bits());
                }
                (encoded.outcome, encoded.forget_lost(|node| calls.forget_lost(node)))
            });
        let (outcome, reply) = encoded.unwrap_or_else(|done| (done.outcome, done.reply));
        put_reply(outcome, reply, buffers)
    }
}

/// Copies a request, so that the guest cannot change it any more, and returns it. Of a WRITE the data are not
/// copied: there are other bytes in their place, since the library looks at their length alone.
fn take_request<'b>(buffer: &'b mut [u8], request: Pieces) -> &'b [u8] {
    let head = request.copy_to(&mut buffer[..WRITE_HEAD]);
    if head < request.len() && buffer[4..8] != WRITE {
        request.copy_to(buffer);
    }
    &buffer[..request.len().min(buffer.len())]
}

/// The options that a request was made by. A group may be missing, so that is always one of them.
fn options_of(request: &[u8]) -> nizwarf::FsOptions {
    let mut options = nizwarf::FsOptions::CREATE_SUPP_GROUP;
    let opcode = request.get(4..8).map_or(0, number_of);
    let names = match opcode {
        SYMLINK => Some((0, 2)),
        MKDIR => Some((8, 1)),
        MKNOD | CREATE => Some((16, 1)),
        _ => None,
    };
    if names.is_some_and(|(record, names)| has_context(request, HEADER + record, names)) {
        options |= nizwarf::FsOptions::SECURITY_CTX;
    }
    // Flags and padding, where a shorter record is followed by a name, which has a dot.
    if opcode == SETXATTR && matches!(request.get(48..56), Some([0 | 1, 0, 0, 0, 0, 0, 0, 0])) {
        options |= nizwarf::FsOptions::SETXATTR_EXT;
    }
    options
}

/// Whether a security context is among the extensions after `names` names, which begin at `begin`.
fn has_context(request: &[u8], begin: usize, names: usize) -> bool {
    let mut rest = request.get(begin..).unwrap_or_default();
    for _ in 0..names {
        let end = rest.iter().position(|&byte| byte == 0).map_or(rest.len(), |nul| nul + 1);
        rest = &rest[end..];
    }
    while let Some(header) = rest.first_chunk::<8>() {
        let (size, kind) = (number_of(&header[..4]), number_of(&header[4..]));
        if kind <= MAX_CONTEXTS {
            return true;
        }
        rest = rest.get(size.max(8) as usize..).unwrap_or_default();
    }
    false
}

fn number_of(bytes: &[u8]) -> u32 {
    bytes.iter().rev().fold(0, |number, &byte| (number << 8) | u32::from(byte))
}

/// Puts a reply into the reply buffer, and returns the length with which the request is completed.
fn put_reply(outcome: Result<(), Refusal>, mut reply: Reply, buffers: Pieces) -> usize {
    if let Err(refusal) = outcome {
        debug!("The request is refused: {refusal}");
        return 0;
    }
    let len = reply.len();
    debug!("The reply has {len} bytes");
    if buffers.copy_from(reply.bytes()) {
        len
    } else {
        0
    }
}

/// Makes calls for a caller.
struct Calls<'f, F> {
    fs: &'f F,
    context: Context,
}

impl<'f, F: FileSystem> Calls<'f, F> {
    fn new(fs: &'f F, caller: nizwarf::Context) -> Self {
        let context = Context { uid: caller.uid.into(), gid: caller.gid.into(), pid: caller.pid };
        Calls { fs, context }
    }

    /// Makes a call of the file system, and returns its result in the types of the crate.
    fn call<T: Answer>(&self, call: impl FnOnce(&F) -> io::Result<T>) -> io::Result<T::Of> {
        self.run(call).map(Answer::of)
    }

    /// Makes a call of the file system. A panic is an error without a number, which is answered EIO.
    fn run<T>(&self, call: impl FnOnce(&F) -> io::Result<T>) -> io::Result<T> {
        catch_unwind(AssertUnwindSafe(|| call(self.fs)))
            .unwrap_or_else(|_| Err(io::Error::other("the file system panicked")))
    }

    /// Makes a call that has no answer.
    fn quietly(&self, call: impl FnOnce(&F)) {
        let _ = self.run(|fs| {
            call(fs);
            Ok(())
        });
    }

    fn forget_lost(&self, node: u64) {
        self.quietly(|fs| fs.forget(self.context, node.into(), 1));
    }

    /// Makes the call of a request, and answers it.
    fn make<'s>(
        &self,
        scratch: &'s mut Scratch,
        call: Call,
        request: Pieces,
        buffers: Pieces,
    ) -> Encoded<'s> {
        make_call!(call, scratch, self, self.context, call => match call {
            Call::Read { .. } | Call::Write { .. } => self.transfer(scratch, call, request, buffers),
            Call::Open { .. } | Call::Create { .. } | Call::Opendir { .. } => self.open(scratch, call),
            Call::Readdir { .. } | Call::Readlink { .. } => self.read_node(scratch, call),
            Call::Init { .. }
            | Call::Destroy { .. }
            | Call::Forget { .. }
            | Call::BatchForget { .. } => self.keep_session(scratch, call),
            _ => refuse(scratch, call),
        })
    }

    /// READ and WRITE.
    fn transfer<'s>(
        &self,
        scratch: &'s mut Scratch,
        call: Call,
        request: Pieces,
        buffers: Pieces,
    ) -> Encoded<'s> {
        let ctx = self.context;
        match call {
            Call::Read { node, handle, size, offset, lock_owner, flags, to } => {
                let data = Data::new(buffers, REPLY_HEADER, to.max());
                let result = self.call(|fs| {
                    let (node, handle) = (node.into(), handle.into());
                    fs.read(ctx, node, handle, data, size, offset, lock_owner, flags)
                });
                to.answer(scratch, result)
            }
            Call::Write {
                node,
                handle,
                size,
                offset,
                lock_owner,
                delayed_write: delayed,
                kill_priv,
                flags,
                to,
                ..
            } => {
                let max = request.len().saturating_sub(WRITE_HEAD).min(size as usize);
                let data = Data::new(request, WRITE_HEAD, max);
                let result = self.call(|fs| {
                    let (node, handle) = (node.into(), handle.into());
                    fs.write(
                        ctx, node, handle, data, size, offset, lock_owner, delayed, kill_priv,
                        flags,
                    )
                });
                to.answer(scratch, result)
            }
            other => refuse(scratch, other),
        }
    }

    /// The calls that open a file or a directory. If the reply does not fit, the handle is released: the client does
    /// not know it, and an error cannot be reported to anybody.
    fn open<'s>(&self, scratch: &'s mut Scratch, call: Call) -> Encoded<'s> {
        let ctx = self.context;
        let (encoded, flags) = match call {
            Call::Open { node, kill_priv, flags, to } => {
                let result = self.call(|fs| fs.open(ctx, node.into(), kill_priv, flags));
                (to.answer(scratch, result), flags)
            }
            Call::Create { parent, name, mode, kill_priv, flags, umask, extensions, to } => {
                let extensions = extensions.into();
                let result = self.call(|fs| {
                    let parent = parent.into();
                    fs.create(ctx, parent, &name, mode, kill_priv, flags, umask, extensions)
                });
                (to.answer(scratch, result), flags)
            }
            Call::Opendir { node, flags, to } => {
                let encoded =
                    to.answer(scratch, self.call(|fs| fs.opendir(ctx, node.into(), flags)));
                if let Some((node, handle)) = encoded.lost_handle() {
                    let _ = self.call(|fs| fs.releasedir(ctx, node.into(), flags, handle.into()));
                }
                return encoded;
            }
            other => return refuse(scratch, other),
        };
        if let Some((node, handle)) = encoded.lost_handle() {
            let (node, handle) = (node.into(), handle.into());
            let _ = self.call(|fs| fs.release(ctx, node, flags, handle, false, false, None));
        }
        encoded
    }

    /// READDIR and READLINK.
    fn read_node<'s>(&self, scratch: &'s mut Scratch, call: Call) -> Encoded<'s> {
        let ctx = self.context;
        match call {
            Call::Readdir { node, handle, size, offset, plus, to } => {
                let result =
                    self.run(|fs| fs.readdir(ctx, node.into(), handle.into(), size, offset));
                match result {
                    Ok(items) => LISTING.with(move |listing| {
                        let mut listing = listing.borrow_mut();
                        let max = (size as usize).min(to.reply_size().saturating_sub(REPLY_HEADER));
                        self.list(&mut listing, items, max, plus);
                        let items = if plus {
                            self.look_up(listing.items(), node)
                        } else {
                            listing.items().collect()
                        };
                        to.answer(scratch, Ok(&items))
                    }),
                    Err(error) => to.fail(scratch, &error),
                }
            }
            Call::Readlink { node, to } => match self.run(|fs| fs.readlink(ctx, node.into())) {
                Ok(text) => to.answer(scratch, Ok(&text)),
                Err(error) => to.fail(scratch, &error),
            },
            other => refuse(scratch, other),
        }
    }

    /// Lists items up to the first that does not fit. With `plus`, the first of all is listed even if it does not
    /// fit, since the error of its lookup is the reply.
    fn list(&self, listing: &mut Listing, mut items: F::DirIter, max: usize, plus: bool) {
        listing.clear();
        // If the iterator panics, the listing ends.
        self.quietly(|_| while listing.add(&mut items, max, plus) {});
    }

    /// Looks items up, but for `.` and `..`, up to the first whose lookup fails.
    fn look_up<'l>(
        &self,
        listed: impl Iterator<Item = DirItem<'l>>,
        node: u64,
    ) -> Vec<DirItem<'l>> {
        let mut items = Vec::with_capacity(listed.size_hint().0);
        for item in listed {
            if item.is_dot() {
                items.push(item);
                continue;
            }
            let result = self.call(|fs| fs.lookup(self.context, node.into(), item.name()));
            let failed = result.is_err();
            items.push(item.looked_up(&result));
            if failed {
                break;
            }
        }
        items
    }

    /// The calls about the session.
    fn keep_session<'s>(&self, scratch: &'s mut Scratch, call: Call) -> Encoded<'s> {
        match call {
            Call::Init { capable, to, .. } => {
                let capable = FsOptions::from_bits_truncate(capable.bits());
                to.answer(scratch, self.call(|fs| fs.init(capable)))
            }
            Call::Destroy { to } => {
                self.quietly(FileSystem::destroy);
                to.done(scratch)
            }
            Call::Forget { node, count, to } => {
                self.quietly(|fs| fs.forget(self.context, node.into(), count));
                to.done(scratch)
            }
            Call::BatchForget { forgets, to } => {
                let forgets = forgets.map(|(node, count)| (node.into(), count)).collect();
                self.quietly(|fs| fs.batch_forget(self.context, forgets));
                to.done(scratch)
            }
            other => refuse(scratch, other),
        }
    }
}

/// Refuses a call that no file system of virtiofsd 1.13.2 has.
fn refuse<'s>(scratch: &'s mut Scratch, call: Call) -> Encoded<'s> {
    call.fail(scratch, &io::Error::from_raw_os_error(libc::ENOSYS))
}

/// Items of a directory, whose names are copied: the iterator lends them for a step.
struct Listing {
    /// The names one after another, each with its NUL.
    names: Vec<u8>,
    records: Vec<Record>,
    /// The length of the records in the reply.
    len: usize,
}

struct Record {
    ino: u64,
    offset: u64,
    kind: u32,
    /// The offset of the name.
    at: usize,
}

impl Listing {
    const fn new() -> Self {
        Listing { names: Vec::new(), records: Vec::new(), len: 0 }
    }

    fn clear(&mut self) {
        self.names.clear();
        self.records.clear();
        self.len = 0;
    }

    /// Adds the next item, if there is one and it fits, or if it is the first with `plus`. Returns whether it
    /// was added.
    fn add(&mut self, items: &mut impl DirectoryIterator, max: usize, plus: bool) -> bool {
        let Some(item) = items.next() else {
            return false;
        };
        let len = DirItem::new(item.ino, item.offset, item.type_, item.name).record_len(plus);
        if len > max.saturating_sub(self.len) && !(plus && self.records.is_empty()) {
            return false;
        }
        self.len += len;
        self.records.push(Record {
            ino: item.ino,
            offset: item.offset,
            kind: item.type_,
            at: self.names.len(),
        });
        self.names.extend_from_slice(item.name.to_bytes_with_nul());
        true
    }

    fn items(&self) -> impl Iterator<Item = DirItem<'_>> {
        self.records.iter().map(move |record| {
            let name = name_in(&self.names, record.at);
            DirItem::new(record.ino, record.offset, record.kind, name)
        })
    }
}

fn name_in(names: &[u8], at: usize) -> &CStr {
    CStr::from_bytes_until_nul(&names[at..]).unwrap_or_default()
}

/// A result of a method of virtiofsd, as the crate has it.
trait Answer {
    type Of;

    fn of(self) -> Self::Of;
}

/// Results that are the same in both.
macro_rules! same {
    ($($name:ty)*) => {
        $(impl Answer for $name {
            type Of = Self;

            fn of(self) -> Self {
                self
            }
        })*
    };
}

same!(() u64 usize);

impl Answer for FsOptions {
    type Of = nizwarf::FsOptions;

    fn of(self) -> Self::Of {
        nizwarf::FsOptions::from_bits_truncate(self.bits())
    }
}

impl Answer for Entry {
    type Of = nizwarf::Entry;

    fn of(self) -> Self::Of {
        let Entry { inode, generation, attr, attr_timeout, entry_timeout } = self;
        nizwarf::Entry { inode, generation, attr: attr_of(&attr), attr_timeout, entry_timeout }
    }
}

impl Answer for (Attr, Duration) {
    type Of = (nizwarf::Attr, Duration);

    fn of(self) -> Self::Of {
        (attr_of(&self.0), self.1)
    }
}

impl<H: Into<u64>> Answer for (Option<H>, OpenOptions) {
    type Of = (Option<u64>, nizwarf::OpenOptions);

    fn of(self) -> Self::Of {
        let options = nizwarf::OpenOptions::from_bits_truncate(self.1.bits());
        (self.0.map(Into::into), options)
    }
}

impl<H: Into<u64>> Answer for (Entry, Option<H>, OpenOptions) {
    type Of = (nizwarf::Entry, Option<u64>, nizwarf::OpenOptions);

    fn of(self) -> Self::Of {
        let (handle, options) = (self.1, self.2).of();
        (self.0.of(), handle, options)
    }
}

impl Answer for libc::statvfs64 {
    type Of = nizwarf::Statvfs;

    fn of(self) -> Self::Of {
        nizwarf::Statvfs {
            f_bsize: self.f_bsize,
            f_frsize: self.f_frsize,
            f_blocks: self.f_blocks,
            f_bfree: self.f_bfree,
            f_bavail: self.f_bavail,
            f_files: self.f_files,
            f_ffree: self.f_ffree,
            f_namemax: self.f_namemax,
        }
    }
}

impl Answer for GetxattrReply {
    type Of = nizwarf::GetxattrReply;

    fn of(self) -> Self::Of {
        match self {
            GetxattrReply::Value(value) => nizwarf::GetxattrReply::Value(value),
            GetxattrReply::Count(count) => nizwarf::GetxattrReply::Count(count),
        }
    }
}

impl Answer for ListxattrReply {
    type Of = nizwarf::ListxattrReply;

    fn of(self) -> Self::Of {
        match self {
            ListxattrReply::Names(names) => nizwarf::ListxattrReply::Names(names),
            ListxattrReply::Count(count) => nizwarf::ListxattrReply::Count(count),
        }
    }
}

fn attr_of(attr: &Attr) -> nizwarf::Attr {
    nizwarf::Attr {
        ino: attr.ino,
        size: attr.size,
        blocks: attr.blocks,
        atime: attr.atime,
        mtime: attr.mtime,
        ctime: attr.ctime,
        atimensec: attr.atimensec,
        mtimensec: attr.mtimensec,
        ctimensec: attr.ctimensec,
        mode: attr.mode,
        nlink: attr.nlink,
        uid: attr.uid.into_inner(),
        gid: attr.gid.into_inner(),
        rdev: attr.rdev,
        blksize: attr.blksize,
        flags: attr.flags,
    }
}

impl From<nizwarf::SetattrIn> for SetattrIn {
    fn from(attr: nizwarf::SetattrIn) -> Self {
        SetattrIn {
            valid: attr.valid,
            padding: attr.padding,
            fh: attr.fh,
            size: attr.size,
            lock_owner: attr.lock_owner,
            atime: attr.atime,
            mtime: attr.mtime,
            ctime: attr.ctime,
            atimensec: attr.atimensec,
            mtimensec: attr.mtimensec,
            ctimensec: attr.ctimensec,
            mode: attr.mode,
            unused4: attr.unused4,
            uid: attr.uid.into(),
            gid: attr.gid.into(),
            unused5: attr.unused5,
        }
    }
}

impl From<nizwarf::SetattrValid> for SetattrValid {
    fn from(valid: nizwarf::SetattrValid) -> Self {
        SetattrValid::from_bits_truncate(valid.bits())
    }
}

impl From<nizwarf::SetxattrFlags> for SetxattrFlags {
    fn from(flags: nizwarf::SetxattrFlags) -> Self {
        SetxattrFlags::from_bits_truncate(flags.bits())
    }
}

impl From<nizwarf::Extensions> for Extensions {
    fn from(extensions: nizwarf::Extensions) -> Self {
        Extensions {
            secctx: extensions
                .secctx
                .map(|context| SecContext { name: context.name, secctx: context.secctx }),
            sup_gid: extensions.sup_gid.map(Into::into),
        }
    }
}

impl<F: FileSystem + SerializableFileSystem + Sync> SerializableFileSystem for Server<F> {
    fn prepare_serialization(&self, cancel: Arc<AtomicBool>) {
        self.fs.prepare_serialization(cancel);
    }

    fn serialize(&self, state_pipe: File) -> io::Result<()> {
        self.fs.serialize(state_pipe)
    }

    fn deserialize_and_apply(&self, state_pipe: File) -> io::Result<()> {
        self.fs.deserialize_and_apply(state_pipe)?;
        self.migrated.store(true, Ordering::Relaxed);
        Ok(())
    }
}
