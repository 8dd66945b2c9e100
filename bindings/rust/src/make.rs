//! Makes the calls of requests by the methods of a file system.
#![forbid(unsafe_code)]

use crate::answer::{Encoded, To};
use crate::call::{Call, PendingCall};
use crate::errno::{no_number, Errno};
use crate::ffi::Scratch;
use crate::file_system::{Context, Entry, FileSystem};
use crate::flags::OpenOptions;
use crate::kinds;
use crate::listing::Place;
use crate::server::{Server, HEADER};
use crate::transfer::{Reader, Writer};
use std::io::{self, IoSliceMut};
use std::sync::atomic::Ordering;

impl<F: FileSystem> Server<F> {
    /// Makes a call, and answers it.
    pub(crate) fn make<'s>(
        &self, scratch: &'s mut Scratch, pending: PendingCall<'_>, buffers: &mut [IoSliceMut<'_>],
    ) -> Encoded<'s> {
        let ctx = pending.context;
        make_call!(pending.call, scratch, self, ctx, call => self.make_of_file(scratch, ctx, call, buffers))
    }

    /// A call that reads, writes, opens or creates a file, or another one whose answer is not the result of
    /// its method.
    #[inline]
    fn make_of_file<'s>(
        &self, scratch: &'s mut Scratch, ctx: Context, call: Call<'_>, buffers: &mut [IoSliceMut<'_>],
    ) -> Encoded<'s> {
        match call {
            Call::Read { node, handle, size, offset, lock_owner, flags, to } => {
                let mut writer = Writer::new(buffers, HEADER, to.max());
                let read = self.call(|files| {
                    let (node, handle) = (node.into(), handle.into());
                    files.read(ctx, node, handle, &mut writer, size, offset, lock_owner, flags)
                });
                // A greater number than that of the bytes written would send other bytes of the buffer.
                let known = writer.put;
                to.answer(scratch, read.and_then(|count| at_most(count, known)))
            }
            Call::Write {
                node,
                handle,
                data,
                size,
                offset,
                lock_owner,
                delayed_write,
                kill_priv,
                flags,
                to,
            } => {
                // A file system cannot have written more than it received. Linux would believe that the
                // difference was written.
                let max = data.len();
                let mut reader = Reader::new(data);
                let written = self.call(|files| {
                    files.write(
                        ctx,
                        node.into(),
                        handle.into(),
                        &mut reader,
                        size,
                        offset,
                        lock_owner,
                        delayed_write,
                        kill_priv,
                        flags,
                    )
                });
                to.answer(scratch, written.and_then(|count| at_most(count, max)))
            }
            Call::Open { node, kill_priv, flags, to } => {
                let result = self.call(|files| files.open(ctx, node.into(), kill_priv, flags).map(opened));
                let encoded = to.answer(scratch, result);
                // The reply does not fit, so the client does not know the handle.
                if let Some((node, handle)) = encoded.lost_handle() {
                    self.release(ctx, node, handle, flags);
                }
                encoded
            }
            Call::Create { parent, name, mode, kill_priv, flags, umask, extensions, to } => {
                self.create(scratch, (ctx, flags), to, |files| {
                    let parent = parent.into();
                    files.create(ctx, parent, &name, mode, kill_priv, flags, umask, extensions)
                })
            }
            call => self.make_other(scratch, ctx, call),
        }
    }

    /// Creates and opens a file, for this caller and with these flags.
    #[inline]
    fn create<'s>(
        &self, scratch: &'s mut Scratch, (ctx, flags): (Context, u32), to: To<kinds::Create>,
        create: impl FnOnce(&F) -> io::Result<(Entry, Option<F::Handle>, OpenOptions)>,
    ) -> Encoded<'s> {
        let result = self.call(|files| {
            let (entry, handle, options) = create(files)?;
            Ok((entry, handle.map(Into::into), options))
        });
        let encoded = to.answer(scratch, result);
        if let Some((node, handle)) = encoded.lost_handle() {
            self.release(ctx, node, handle, flags);
        }
        encoded
    }

    /// A call about a directory, about lookups or about the session, or one of an optional operation.
    #[inline]
    fn make_other<'s>(&self, scratch: &'s mut Scratch, ctx: Context, call: Call<'_>) -> Encoded<'s> {
        match call {
            Call::Opendir { node, flags, to } => self.open_directory(scratch, ctx, node, flags, to),
            Call::Readdir { node, handle, size, offset, plus, to } => {
                let place = Place { ctx, node, handle, size, offset, plus };
                self.read_directory(scratch, &place, to)
            }
            Call::Readlink { node, to } => match &self.call(|files| files.readlink(ctx, node.into())) {
                Ok(text) => to.answer(scratch, Ok(text)),
                Err(error) => to.fail(scratch, error),
            },
            Call::Forget { node, count, to } => {
                self.quietly(|files| files.forget(ctx, node.into(), count));
                to.done(scratch)
            }
            Call::BatchForget { forgets, to } => {
                // The trait takes a `Vec`, as virtiofsd's does; the call borrows the request's bytes.
                let forgets = forgets.map(|(node, count)| (node.into(), count)).collect();
                self.quietly(|files| files.batch_forget(ctx, forgets));
                to.done(scratch)
            }
            Call::Init { to, .. } => to.fail(scratch, &no_number()), // `begin` makes it
            Call::Destroy { to } => {
                // So the end of the session calls `destroy` no second time.
                self.begun.store(false, Ordering::Release);
                self.quietly(F::destroy);
                to.done(scratch)
            }
            call => self.make_optional(scratch, ctx, call),
        }
    }

    /// A call of an optional operation, or an unknown one.
    fn make_optional<'s>(&self, scratch: &'s mut Scratch, ctx: Context, call: Call<'_>) -> Encoded<'s> {
        make_optional_call!(call, scratch, self, ctx, call => match call {
            Call::Tmpfile { parent, name, mode, kill_priv, flags, umask, extensions, to } => {
                self.create(scratch, (ctx, flags), to, |files| {
                    let parent = parent.into();
                    files.tmpfile(ctx, parent, &name, mode, kill_priv, flags, umask, extensions)
                })
            }
            Call::NotifyReply { node, offset, data, to } => {
                let data = data.to_cow();
                self.quietly(|files| files.notify_reply(ctx.unique, node.into(), offset, &data));
                to.done(scratch)
            }
            call => call.fail(scratch, &Errno::ENOSYS.into()),
        })
    }

    /// Opens a directory. If its reply does not fit, the handle is released: the client does not know it.
    fn open_directory<'s>(
        &self, scratch: &'s mut Scratch, ctx: Context, node: u64, flags: u32, to: To<kinds::Open>,
    ) -> Encoded<'s> {
        let result = self.call(|files| files.opendir(ctx, node.into(), flags).map(opened));
        let encoded = to.answer(scratch, result);
        if let Some((node, handle)) = encoded.lost_handle() {
            // An error cannot be reported to anybody.
            let _ = self.call(|files| files.releasedir(ctx, node.into(), flags, handle.into()));
        }
        encoded
    }

    /// Releases a handle. An error is ignored, because it cannot be reported to anybody.
    fn release(&self, ctx: Context, node: u64, handle: u64, flags: u32) {
        let _ = self.call(|files| files.release(ctx, node.into(), flags, handle.into(), false, false, None));
    }
}

/// A handle of the file system's own type as the number that the protocol has.
fn opened<H: Into<u64>>((handle, options): (Option<H>, OpenOptions)) -> (Option<u64>, OpenOptions) {
    (handle.map(Into::into), options)
}

/// Returns the count, or EIO if it is larger than it can be.
fn at_most(count: usize, max: usize) -> io::Result<usize> {
    if count <= max {
        Ok(count)
    } else {
        Err(no_number())
    }
}
