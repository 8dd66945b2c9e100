//! Replies that are sent later, and interrupts of their calls.
#![forbid(unsafe_code)]

use crate::codec::Reply;
use crate::device::{is_unawaited, send_eio};
use crate::errno::Errno;
use crate::notifier::{write_both, Inside, Notifier};
use crate::server::guard;
use std::collections::VecDeque;
use std::fs::File;
use std::io;
use std::sync::{Arc, Mutex, Weak};

/// The client of a server, to which replies and notices are sent. It may be cloned and used on any thread. It
/// does not keep a mount, or its server.
///
/// [`FileSystem::take`](crate::FileSystem::take) receives one, so that it can answer a call later.
#[derive(Clone, Debug)]
pub struct Client {
    device: Weak<File>,
    interrupts: Arc<Interrupts>,
}

impl Client {
    pub(crate) fn new(device: &Arc<File>, interrupts: &Arc<Interrupts>) -> Self {
        Client { device: Arc::downgrade(device), interrupts: Arc::clone(interrupts) }
    }

    /// Sends a reply to a call that was taken. It is dropped, without an error, if the caller no longer waits
    /// for it: after the unmount, or if the call was answered already. If the answer could not be encoded, or
    /// if Linux refuses the reply, the caller receives EIO.
    ///
    /// # Errors
    /// Other errors of writing; EINVAL if data must follow the reply, which [`send_with`](Self::send_with)
    /// sends.
    pub fn send(&self, reply: Reply<'_>) -> io::Result<()> {
        self.send_with(reply, &[])
    }

    /// Sends the reply to a READ that was taken, and its data, whose length must be the number in the answer.
    /// If the answer is an error, the data are not sent.
    ///
    /// # Errors
    /// As [`send`](Self::send); EINVAL if there are fewer or more data.
    pub fn send_with(&self, mut reply: Reply<'_>, data: &[u8]) -> io::Result<()> {
        let device = match self.device.upgrade() {
            Some(device) => device,
            None => return Ok(()),
        };
        if let Some(unique) = reply.refused {
            return send_eio(&device, unique);
        }
        let data = if reply.data_len() == 0 { &[] } else { data };
        if reply.is_empty() {
            return Ok(());
        }
        let (missing, head) = (reply.data_len() != data.len(), reply.bytes());
        let mut unique = [0; 8];
        unique.copy_from_slice(&head[8..16]);
        let unique = u64::from_le_bytes(unique);
        self.interrupts.forget(unique);
        if missing {
            send_eio(&device, unique)?;
            return Err(Errno::EINVAL.into());
        }
        match write_both(&device, head, data) {
            Err(error) if is_unawaited(&error) => Ok(()),
            Err(error) if Errno::EINVAL.is(&error) => send_eio(&device, unique),
            sent => sent,
        }
    }

    /// Returns whether the request of this number, which is that of its [`Context`](crate::Context), was
    /// interrupted and has not been answered by a client since.
    ///
    /// If several threads serve, an [`interrupt`](crate::FileSystem::interrupt) may come before its call is
    /// [taken](crate::FileSystem::take), and then does not find it. So a call that is about to wait must check
    /// this under the lock under which `interrupt` searches for calls that wait, because an interrupt that
    /// comes later then finds the call. If it is true, the answer should be EINTR.
    ///
    /// The numbers of the last 64 such interrupts are kept.
    #[must_use]
    pub fn was_interrupted(&self, unique: u64) -> bool {
        guard(&self.interrupts.0).contains(&unique)
    }

    /// Returns a notifier for this client.
    #[must_use]
    pub fn notifier(&self) -> Notifier {
        Notifier::new(Weak::clone(&self.device))
    }

    /// Marks this thread as inside a call of this client, until the result is dropped.
    pub(crate) fn enter(&self) -> Inside {
        Inside::new(&self.device)
    }
}

/// The numbers of the last requests that were interrupted, and were not answered by a client since.
#[derive(Debug, Default)]
pub(crate) struct Interrupts(Mutex<VecDeque<u64>>);

impl Interrupts {
    /// As `NIZWARF_MAX_INTERRUPTS` of the library.
    const MAX: usize = 64;

    /// Keeps a number, in place of the oldest one if there are too many.
    pub fn keep(&self, unique: u64) {
        let mut kept = guard(&self.0);
        if kept.len() == Self::MAX {
            kept.pop_front();
        }
        kept.push_back(unique);
    }

    fn forget(&self, unique: u64) {
        guard(&self.0).retain(|kept| *kept != unique);
    }

    /// Forgets all, because another session may have the same numbers.
    pub fn clear(&self) {
        guard(&self.0).clear();
    }
}

#[cfg(test)]
mod tests {
    use super::*;

    #[test]
    fn the_last_interrupts_are_kept() {
        let interrupts = Arc::new(Interrupts::default());
        let client = Client { device: Weak::new(), interrupts: Arc::clone(&interrupts) };
        assert!(!client.was_interrupted(0));
        for unique in 0..65 {
            interrupts.keep(unique);
        }
        assert!(!client.was_interrupted(0) && (1..65).all(|unique| client.was_interrupted(unique)));
        interrupts.forget(7);
        interrupts.keep(65);
        assert!(!client.was_interrupted(7) && client.was_interrupted(1) && client.was_interrupted(65));
        interrupts.clear();
        assert!(!client.was_interrupted(65));
    }
}
