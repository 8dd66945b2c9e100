//! Serves devices such as `/dev/fuse`.
#![forbid(unsafe_code)]

use crate::call::number;
use crate::client::Client;
use crate::codec::Session;
use crate::errno::Errno;
use crate::ffi::Scratch;
use crate::file_system::FileSystem;
use crate::server::{guard, Server};
use std::fs::File;
use std::io::{self, IoSlice, IoSliceMut, Read, Write};
use std::panic::{catch_unwind, resume_unwind, AssertUnwindSafe};
use std::sync::atomic::Ordering;
use std::sync::Arc;
use std::thread;

impl<F: FileSystem> Server<F> {
    /// Serves the requests of a device that returns one request for each read, such as `/dev/fuse`, until it
    /// is unmounted, or until its other end is closed. Any number of threads may do this at once. The last of
    /// them ends the session by [`FileSystem::destroy`], unless a DESTROY has ended it.
    ///
    /// If a request is refused, or if the kernel refuses its reply, its caller receives EIO and the session
    /// continues. If a call panics, its caller receives EIO before the panic unwinds out of this function.
    ///
    /// [`FileSystem::begin`] is called before the first request, and [`FileSystem::take`] for each request.
    ///
    /// # Errors
    /// Errors of reading and writing, except for replies that are no longer awaited; and of duplicating the
    /// descriptor, which is open until this returns.
    pub fn serve(&self, device: &File) -> io::Result<()> {
        self.serve_shared(&Arc::new(device.try_clone()?))
    }

    /// Serves the requests of a device that clients refer to.
    pub(crate) fn serve_shared(&self, device: &Arc<File>) -> io::Result<()> {
        let client = Client::new(device, &self.interrupts);
        let _ends = Serving::new(self, device, &client);
        let mut buffers = Buffers::new(&self.session());
        while self.serve_next(device, &client, &mut buffers, |_| ())? {}
        Ok(())
    }

    /// Calls `show` with the next request of a device, and serves it. Returns false at the end.
    pub(crate) fn serve_next(
        &self, device: &File, client: &Client, buffers: &mut Buffers, show: impl FnOnce(&[u8]),
    ) -> io::Result<bool> {
        let Buffers { scratch, request, reply } = buffers;
        let request = match read_next(device, request)? {
            0 => return Ok(false),
            len => &request[..len],
        };
        show(request);
        let serve = || {
            let (_inside, reply) = (client.enter(), &mut [IoSliceMut::new(reply)]);
            self.serve_by(scratch, &[IoSlice::new(request)], reply, Some(client))
        };
        // Nothing is used again after a panic.
        let done = catch_unwind(AssertUnwindSafe(serve)).unwrap_or_else(|panic| {
            let _ = send_error(device, request);
            resume_unwind(panic)
        });
        match done.outcome {
            Ok(()) => send(device, request, &reply[..done.len])?,
            Err(_) => send_error(device, request)?,
        }
        Ok(true)
    }
}

/// The buffers of a thread that serves.
pub(crate) struct Buffers {
    scratch: Scratch,
    request: Vec<u8>,
    reply: Vec<u8>,
}

impl Buffers {
    pub fn new(session: &Session) -> Self {
        let longest = session.longest_message();
        Buffers { scratch: Scratch::new(), request: vec![0; longest], reply: vec![0; longest] }
    }
}

/// Reads the next request of a device. Returns its length, which is 0 at the end.
fn read_next(mut device: &File, request: &mut [u8]) -> io::Result<usize> {
    loop {
        match device.read(request) {
            // It was unmounted; ECONNABORTED: while a request was being read.
            Err(error) if Errno::ENODEV.is(&error) || error.kind() == io::ErrorKind::ConnectionAborted => {
                return Ok(0);
            }
            // The request was aborted while it was read.
            Err(error) if Errno::ENOENT.is(&error) || Errno::EINTR.is(&error) => {}
            read => return read,
        }
    }
}

/// A thread that serves. The last one ends the session.
struct Serving<'a, F: FileSystem>(&'a Server<F>);

impl<'a, F: FileSystem> Serving<'a, F> {
    /// The first thread passes the client to the file system.
    fn new(server: &'a Server<F>, device: &Arc<File>, client: &Client) -> Self {
        let mut serving = guard(&server.serving);
        if serving.threads == 0 {
            server.interrupts.clear();
            server.quietly(|files| files.begin(client));
            serving.device = Some(Arc::clone(device));
        }
        serving.threads += 1;
        Serving(server)
    }

    /// Returns whether it is the last one.
    fn end(&self) -> bool {
        let mut serving = guard(&self.0.serving);
        serving.threads -= 1;
        let is_last = serving.threads == 0;
        if is_last {
            serving.device = None;
        }
        is_last
    }
}

impl<F: FileSystem> Drop for Serving<'_, F> {
    fn drop(&mut self) {
        // (a second panic would abort the process)
        if self.end() && !thread::panicking() && self.0.begun.load(Ordering::Acquire) {
            self.0.destroy();
        }
    }
}

/// Sends a reply, unless it is empty.
fn send(mut device: &File, request: &[u8], reply: &[u8]) -> io::Result<()> {
    if reply.is_empty() {
        return Ok(());
    }
    match device.write(reply) {
        Err(error) if is_unawaited(&error) => Ok(()),
        Err(error) if Errno::EINVAL.is(&error) => send_error(device, request),
        Err(error) => Err(error),
        Ok(_) => Ok(()),
    }
}

/// Whether an error of sending a reply means that the caller no longer waits for it.
pub(crate) fn is_unawaited(error: &io::Error) -> bool {
    Errno::ENOENT.is(error)
}

/// Sends EIO as the reply to a request, unless it has no reply, or no number.
fn send_error(device: &File, request: &[u8]) -> io::Result<()> {
    const FORGET: [u8; 4] = number::FORGET.to_le_bytes();
    const BATCH_FORGET: [u8; 4] = number::BATCH_FORGET.to_le_bytes();
    // Its number is that of a notice, which another request may have, too.
    const NOTIFY_REPLY: [u8; 4] = number::NOTIFY_REPLY.to_le_bytes();
    let (opcode, unique) = match (request.get(4..8), request.get(8..16)) {
        (Some(opcode), Some(unique)) => (opcode, unique),
        _ => return Ok(()),
    };
    if [FORGET, BATCH_FORGET, NOTIFY_REPLY].iter().any(|it| opcode == it) || unique == [0; 8] {
        return Ok(());
    }
    send_eio(device, u64::from_le_bytes(unique.try_into().unwrap_or_default()))
}

/// Sends EIO as the reply to the request of this number.
pub(crate) fn send_eio(mut device: &File, unique: u64) -> io::Result<()> {
    let (len, error) = (16_u32.to_le_bytes(), (-Errno::EIO.number()).to_le_bytes());
    let fault = [&len[..], &error, &unique.to_le_bytes()].concat();
    match device.write(&fault) {
        // It already has this reply.
        Err(error) if is_unawaited(&error) || Errno::EINVAL.is(&error) => Ok(()),
        sent => sent.map(drop),
    }
}

#[cfg(test)]
mod tests {
    use super::*;

    #[test]
    fn a_reply_that_is_refused_is_no_error() {
        // The kernel takes a small number there, and answers EINVAL to all else.
        let device = File::options().write(true).open("/proc/self/oom_score_adj").unwrap();
        let request = [7; 40];
        assert!(Errno::EINVAL.is(&(&device).write(&request).unwrap_err()));
        send(&device, &request, b"a reply").unwrap();
        send_error(&device, &request).unwrap();
        // Other errors are.
        let closed = File::open("/proc/self/oom_score_adj").unwrap();
        assert!(Errno::EBADF.is(&send(&closed, &request, b"a reply").unwrap_err()));
        assert!(send_error(&closed, &request).is_err());
        send_error(&closed, &request[..9]).unwrap();
    }
}
