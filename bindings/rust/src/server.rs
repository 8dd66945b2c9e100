//! A server over a file system.
#![forbid(unsafe_code)]

use crate::answer::{Encoded, To};
use crate::call::{Call, PendingCall};
use crate::client::{Client, Interrupts};
use crate::codec::{withhold, Decoded, Refusal, Session};
use crate::errno::numbered;
use crate::ffi::Scratch;
use crate::file_system::{Context, FileSystem};
use crate::flags::{Features, FsOptions};
use crate::kinds;
use crate::numbers::code;
use std::fs::File;
use std::io::{self, IoSlice, IoSliceMut};
use std::panic::{catch_unwind, AssertUnwindSafe};
use std::sync::atomic::{AtomicBool, AtomicU64, Ordering};
use std::sync::{Arc, Mutex, MutexGuard, PoisonError};

/// The length of the header of a reply.
pub(crate) const HEADER: usize = 16;

/// Options that are by default agreed on only if they are wanted.
const WANTED: FsOptions =
    FsOptions::from_bits_truncate(FsOptions::ATOMIC_O_TRUNC.bits() | FsOptions::ALLOW_IDMAP.bits());

/// Options that are agreed on only if [`Features::LOCKS`] is enabled, because all locks would fail otherwise.
const LOCKS: FsOptions =
    FsOptions::from_bits_truncate(FsOptions::POSIX_LOCKS.bits() | FsOptions::FLOCK_LOCKS.bits());

/// The result of serving a request.
#[must_use = "the client waits for the reply"]
#[derive(Clone, Copy, Debug, PartialEq, Eq)]
pub struct Served {
    /// The length of the reply, which is at the start of the buffers. The request must be completed with this
    /// length. It is 0 if there is no reply.
    pub len: usize,
    /// Why there is no reply, if there should be one.
    pub outcome: Result<(), Refusal>,
    /// If the request was an INTERRUPT: the number of the request that it interrupts, as in its [`Context`].
    pub interrupts: Option<u64>,
}

/// Serves one client from a file system. Each request becomes a call of the file system. If the client does
/// not receive an entry, because its reply does not fit, the lookup is dropped by [`FileSystem::forget`]. If
/// it does not receive a handle, that is released before, by [`FileSystem::release`] or
/// [`FileSystem::releasedir`].
///
/// Any number of threads may share a server, each with its own [`Scratch`], if the file system is [`Sync`].
///
/// ```
/// use nizwarf::{FileSystem, NoEntries, Scratch, Server};
/// use std::io::{IoSlice, IoSliceMut};
///
/// /// Has the default of each method.
/// struct Nothing;
///
/// impl FileSystem for Nothing {
///     type Inode = u64;
///     type Handle = u64;
///     type DirIter = NoEntries;
/// }
///
/// // Request number 7, a STATFS.
/// let mut request = [0; 40];
/// (request[0], request[4], request[8], request[16]) = (40, 17, 7, 1);
/// let mut buffer = [0; 200];
/// let server = Server::new(Nothing);
/// let served = server.serve_one(
///     &mut Scratch::new(),
///     &[IoSlice::new(&request)],
///     &mut [IoSliceMut::new(&mut buffer)],
/// );
/// assert_eq!((served.outcome, served.len), (Ok(()), 96));
/// // The longest name has 255 bytes.
/// assert_eq!(buffer[16 + 44], 255);
/// ```
#[derive(Debug)]
pub struct Server<F> {
    file_system: F,
    session: Session,
    options: AtomicU64,
    withheld: FsOptions,
    /// Options that are agreed on only if [`FileSystem::init`] wants them.
    wanted: FsOptions,
    catches: bool,
    /// Whether there was an INIT, and no DESTROY after it.
    pub(crate) begun: AtomicBool,
    pub(crate) serving: Mutex<Serves>,
    pub(crate) interrupts: Arc<Interrupts>,
}

/// The threads in [`Server::serve`].
#[derive(Debug, Default)]
pub(crate) struct Serves {
    pub threads: usize,
    /// The device of the first of them, to which clients refer, until the last ends.
    pub device: Option<Arc<File>>,
}

/// Locks a value that is valid even after a panic of another thread.
pub(crate) fn guard<T>(lock: &Mutex<T>) -> MutexGuard<'_, T> {
    lock.lock().unwrap_or_else(PoisonError::into_inner)
}

impl<F: FileSystem> Server<F> {
    /// Creates a server for pages of 4096 bytes, and payloads of 1 MiB.
    #[must_use]
    pub fn new(file_system: F) -> Self {
        Self::with_session(file_system, Session::default())
    }

    /// Creates a server with the sizes of a session, and with its options until the first INIT.
    #[must_use]
    pub fn with_session(file_system: F, session: Session) -> Self {
        Server {
            file_system,
            session,
            options: AtomicU64::new(session.options().bits()),
            withheld: FsOptions::empty(),
            wanted: WANTED,
            catches: false,
            begun: AtomicBool::new(false),
            serving: Mutex::default(),
            interrupts: Arc::default(),
        }
    }

    /// Sets whether panics of the file system are caught. The reply to the request is then EIO. If not, which
    /// is the default, a panic unwinds out of [`serve_one`](Self::serve_one), and the request gets no reply.
    /// A file system whose panics are caught must be usable after them.
    #[must_use]
    pub fn catch_panics(self, catches: bool) -> Self {
        Server { catches, ..self }
    }

    /// Sets options that are removed from an INIT, as by [`withhold`](crate::withhold()). By default the set
    /// is empty. `ATOMIC_O_TRUNC` and `ALLOW_IDMAP` are always removed if [`FileSystem::init`] does not want
    /// them, and `POSIX_LOCKS` and `FLOCK_LOCKS` if [`Features::LOCKS`] is not enabled.
    #[must_use]
    pub fn withhold(self, options: FsOptions) -> Self {
        Server { withheld: options, ..self }
    }

    /// Agrees only to these options and to those that [`FileSystem::init`] wants.
    pub(crate) fn always_agree(self, options: FsOptions) -> Self {
        Server { wanted: FsOptions::all() - options, ..self }
    }

    getters! {
        /// Returns the file system.
        file_system: &F = |it| &it.file_system;
        /// Returns the options that were agreed on.
        options: FsOptions = |it| FsOptions::from_bits_truncate(it.options.load(Ordering::Acquire));
    }

    /// Returns the session, with its present options, and with the features of the file system.
    #[must_use]
    pub fn session(&self) -> Session {
        let mut session = self.session;
        session.set_options(self.options());
        session.set_features(self.file_system.features());
        session
    }

    /// Ends the session as a DESTROY does, for example because the device was reset.
    pub fn destroy(&self) {
        self.begun.store(false, Ordering::Release);
        self.quietly(F::destroy);
        self.set_options(FsOptions::empty());
    }

    fn set_options(&self, options: FsOptions) {
        self.options.store(options.bits(), Ordering::Release);
    }

    /// Serves one request, whose bytes are the concatenation of the slices. The reply is put at the start of
    /// `buffers`. A READ may also change bytes after its reply.
    ///
    /// No call can be answered later, because [`FileSystem::take`] is not called. Use [`Scratch::decode`] for
    /// that.
    pub fn serve_one(
        &self, scratch: &mut Scratch, request: &[IoSlice<'_>], buffers: &mut [IoSliceMut<'_>],
    ) -> Served {
        self.serve_by(scratch, request, buffers, None)
    }

    /// Serves one request. If a client is given, calls can be taken, to be answered later.
    #[inline]
    pub(crate) fn serve_by(
        &self, scratch: &mut Scratch, request: &[IoSlice<'_>], buffers: &mut [IoSliceMut<'_>],
        client: Option<&Client>,
    ) -> Served {
        let total = buffers.iter().map(|piece| piece.len()).sum();
        match scratch.decode(&self.session(), request, total) {
            Decoded::Finished(mut done) => {
                if let Some(unique) = done.interrupts {
                    // (before the method, which may find the call, and answer it)
                    self.interrupts.keep(unique);
                    self.quietly(|files| files.interrupt(unique));
                }
                Served {
                    len: done.reply.copy_to(buffers),
                    outcome: done.outcome,
                    interrupts: done.interrupts,
                }
            }
            Decoded::Call(pending) => {
                let context = pending.context;
                let encoded = match pending.call {
                    Call::Init { capable, to, .. } => self.begin(scratch, request, capable, to),
                    Call::Destroy { .. } => self.make(scratch, pending, buffers),
                    call => match self.left(context, call, client) {
                        Ok(call) => self.make(scratch, PendingCall { context, call }, buffers),
                        Err(outcome) => return Served { len: 0, outcome, interrupts: None },
                    },
                };
                if let Some(options) = encoded.options {
                    self.set_options(options);
                }
                let outcome = encoded.outcome;
                let mut reply = encoded.forget_lost(|node| self.forget_lost(context, node));
                Served { len: reply.copy_to(buffers), outcome, interrupts: None }
            }
        }
    }

    /// Returns a call unless the file system takes it. If that panics, the request is refused.
    #[inline]
    fn left<'r>(
        &self, context: Context, call: Call<'r>, client: Option<&Client>,
    ) -> Result<Call<'r>, Result<(), Refusal>> {
        let client = match client {
            Some(client) => client,
            None => return Ok(call),
        };
        match self.call(|files| Ok(files.take(context, call, client))) {
            Ok(call) => call.ok_or(Ok(())),
            Err(_) => Err(Err(Refusal::Other(code::BAD_CALL))),
        }
    }

    /// Makes an INIT. Some options are removed from the request if the file system does not want them.
    fn begin<'s>(
        &self, scratch: &'s mut Scratch, request: &[IoSlice<'_>], capable: FsOptions, to: To<kinds::Init>,
    ) -> Encoded<'s> {
        let mut request: Vec<u8> = request.iter().flat_map(|piece| piece.to_vec()).collect();
        let (capable, to) = self.without(scratch, &mut request, self.withheld, (capable, to));
        let want = self.call(|files| {
            let want = files.init(capable)?;
            Ok(if files.features().contains(Features::LOCKS) { want } else { want - LOCKS })
        });
        let (_, to) = match want {
            Ok(want) => self.without(scratch, &mut request, self.wanted - want, (capable, to)),
            Err(_) => (capable, to),
        };
        self.begun.fetch_or(want.is_ok(), Ordering::AcqRel);
        let limits = self.call(|files| Ok(files.limits()));
        to.answer_with(scratch, want, limits.unwrap_or_default())
    }

    /// Decodes an INIT again, without some options. Returns the present call if it has none of them.
    fn without(
        &self, scratch: &mut Scratch, request: &mut [u8], withheld: FsOptions,
        present: (FsOptions, To<kinds::Init>),
    ) -> (FsOptions, To<kinds::Init>) {
        if (withheld & present.0).is_empty() {
            return present;
        }
        withhold(request, withheld);
        match scratch.decode(&self.session(), &[IoSlice::new(request)], present.1.reply_size()) {
            Decoded::Call(PendingCall { call: Call::Init { capable, to, .. }, .. }) => (capable, to),
            _ => present, // what has fewer flags is an INIT, too
        }
    }

    pub(crate) fn forget_lost(&self, context: Context, node: u64) {
        self.quietly(|files| files.forget(context, node.into(), 1));
    }

    /// Makes a call that has an answer, and returns its result.
    pub(crate) fn call<T>(&self, call: impl FnOnce(&F) -> io::Result<T>) -> io::Result<T> {
        let call = || call(&self.file_system);
        let result = if self.catches {
            // The file system must be usable after a panic: `catch_panics` says so.
            catch_unwind(AssertUnwindSafe(call)).unwrap_or_else(|_| Err(a_panic()))
        } else {
            call()
        };
        result.map_err(numbered)
    }

    /// Makes a call that has no answer.
    pub(crate) fn quietly(&self, call: impl FnOnce(&F)) {
        // Such a call has no reply, not even for an error.
        let _ = self.call(|files| {
            call(files);
            Ok(())
        });
    }
}

fn a_panic() -> io::Error {
    io::Error::new(io::ErrorKind::Other, "the file system panicked")
}
