//! Servers at a socket that keeps messages apart: what ends them, and what does not; and the options that
//! they agree to.

mod common;

use common::{fault, getattr, init, reply, Peer, Request};
use nizwarf::{Attr, Context, Errno, Features, FileSystem, FsOptions, NoEntries, Scratch, Server};
use std::io::{self, IoSlice, IoSliceMut};
use std::panic::{catch_unwind, AssertUnwindSafe};
use std::sync::atomic::{AtomicU64, AtomicUsize, Ordering};
use std::thread;
use std::time::Duration;

/// A file system that counts its ends, and wants the options of a field.
#[derive(Default)]
struct Plain {
    want: FsOptions,
    capable: AtomicU64,
    ended: AtomicUsize,
    met: AtomicUsize,
}

/// A node whose attributes two threads must request at once.
const MEETING: u64 = 5;
/// One whose error has a kind, and no number.
const NAMELESS: u64 = 6;

impl FileSystem for Plain {
    type Inode = u64;
    type Handle = u64;
    type DirIter = NoEntries;

    fn features(&self) -> Features {
        Features::NOTIFY_REPLY
    }

    fn init(&self, capable: FsOptions) -> io::Result<FsOptions> {
        self.capable.store(capable.bits(), Ordering::Relaxed);
        Ok(self.want)
    }

    fn destroy(&self) {
        self.ended.fetch_add(1, Ordering::Relaxed);
    }

    fn getattr(&self, _: Context, inode: u64, _: Option<u64>) -> io::Result<(Attr, Duration)> {
        assert_ne!(inode, 666);
        if inode == NAMELESS {
            return Err(io::ErrorKind::NotFound.into());
        }
        if inode == MEETING {
            self.met.fetch_add(1, Ordering::Relaxed);
            while self.met.load(Ordering::Relaxed) < 2 {
                thread::yield_now();
            }
        }
        Err(Errno::EACCES.into())
    }
}

#[test]
fn a_refused_request_is_answered_and_the_last_thread_ends_the_session() {
    let server = Server::new(Plain::default());
    let ended = || server.file_system().ended.load(Ordering::Relaxed);
    let (client, device) = Peer::new();
    let refused = [
        // A name without NUL, and a length that is not that of the request.
        Request::new(1, 1).bytes(b"abc").done(),
        Request::new(1, 1).name("abc").long(99),
        // These have no reply.
        Request::new(2, 5).done(),
        Request::new(42, 0).u32(9).u32(0).done(),
        Request::new(41, 5).done(),
        vec![1; 9],
    ];
    let (replies, before) = thread::scope(|scope| {
        let threads: Vec<_> = (0..2).map(|_| scope.spawn(|| server.serve(&device))).collect();
        let mut replies = vec![client.exchange(&init(0, u32::MAX, u32::MAX).done())];
        for request in &refused {
            client.send(request);
        }
        replies.extend((0..2).map(|_| client.receive()));
        // Both threads serve.
        client.send(&getattr(MEETING).done());
        replies.extend([client.exchange(&getattr(MEETING).done()), client.receive()]);
        replies.push(client.exchange(&getattr(NAMELESS).done()));
        // A read of no bytes is the end of one thread.
        client.send(&[]);
        while !threads.iter().any(thread::ScopedJoinHandle::is_finished) {
            thread::yield_now();
        }
        let before = ended();
        client.send(&[]);
        for thread in threads {
            thread.join().unwrap().unwrap();
        }
        (replies, before)
    });
    assert_eq!(replies[0].len(), 80);
    assert_eq!(replies[1..], [fault(5), fault(5), fault(13), fault(13), fault(2)]);
    assert_eq!((before, ended()), (0, 1));
    assert!(server.options().is_empty());
}

#[test]
fn a_session_ends_once() {
    for destroys in [true, false] {
        let server = Server::new(Plain::default());
        let (client, device) = Peer::new();
        let mut requests = vec![Vec::new()];
        if destroys {
            requests = vec![init(0, u32::MAX, u32::MAX).done(), Request::new(38, 0).done(), Vec::new()];
        }
        for request in requests {
            client.send(&request);
        }
        server.serve(&device).unwrap();
        // Without an INIT nothing had begun.
        assert_eq!(server.file_system().ended.load(Ordering::Relaxed), usize::from(destroys));
    }
}

#[test]
fn the_caller_of_a_panic_is_answered() {
    let server = Server::new(Plain::default());
    let (client, device) = Peer::new();
    client.send(&getattr(666).done());
    std::panic::set_hook(Box::new(|_| ()));
    let ended = catch_unwind(AssertUnwindSafe(|| server.serve(&device)));
    let _ = std::panic::take_hook();
    assert!(ended.is_err());
    assert_eq!(client.receive(), fault(5));
}

/// Returns the options in the reply to an INIT, and those of which the file system knows that the client is
/// capable.
fn agreed(server: &Server<Plain>, request: &Request) -> (FsOptions, FsOptions) {
    let (mut buffer, bytes) = ([0; 128], request.clone().done());
    let (first, second) = bytes.split_at(50);
    let done = server.serve_one(
        &mut Scratch::new(),
        &[IoSlice::new(first), IoSlice::new(second)],
        &mut [IoSliceMut::new(&mut buffer)],
    );
    assert_eq!((done.len, done.outcome), (80, Ok(())));
    assert_eq!(buffer[..16], reply(&[0; 64])[..16]);
    let word = |at| u64::from(u32::from_le_bytes(buffer[at..at + 4].try_into().unwrap()));
    let agreed = FsOptions::from_bits_truncate(word(28) | word(48) << 32);
    assert_eq!(server.options(), agreed);
    let capable = server.file_system().capable.load(Ordering::Relaxed);
    (agreed, FsOptions::from_bits_truncate(capable))
}

#[test]
fn options_that_only_some_serve_are_agreed_on_if_they_are_wanted() {
    let special = FsOptions::ATOMIC_O_TRUNC | FsOptions::ALLOW_IDMAP;
    // The options that the protocol agrees on without being wanted.
    let all = FsOptions::from_bits_truncate(0x104_4844_9829);
    let of = |want| Server::new(Plain { want, ..Plain::default() });
    for (want, expected) in [
        (FsOptions::empty(), all - special),
        (FsOptions::ATOMIC_O_TRUNC, all - FsOptions::ALLOW_IDMAP),
        // (it serves no locks)
        (special | FsOptions::DONT_MASK | FsOptions::FLOCK_LOCKS, all | FsOptions::DONT_MASK),
    ] {
        assert_eq!(agreed(&of(want), &init(0, u32::MAX, u32::MAX)), (expected, FsOptions::all()));
    }
    // Options that are withheld are not agreed on, even if they are wanted.
    let withheld = FsOptions::PARALLEL_DIROPS | FsOptions::ALLOW_IDMAP;
    let (got, capable) = agreed(&of(special).withhold(withheld), &init(0, u32::MAX, u32::MAX));
    assert_eq!((got, capable), (all - withheld, FsOptions::all() - withheld));
    // Without INIT_EXT the second half is empty.
    let low = FsOptions::from_bits_truncate(u32::MAX.into());
    let (got, capable) = agreed(&of(special).withhold(FsOptions::INIT_EXT), &init(0, u32::MAX, u32::MAX));
    assert_eq!((got, capable), ((all & low) - FsOptions::INIT_EXT, low - FsOptions::INIT_EXT));
    // A shorter INIT, of an older version, has only the first half.
    let short = Request::new(26, 0).u32(7).u32(31).u32(0).u32(0x28);
    let (got, capable) = agreed(&of(FsOptions::empty()), &short);
    assert_eq!(got, FsOptions::BIG_WRITES);
    assert_eq!(capable, FsOptions::BIG_WRITES | FsOptions::ATOMIC_O_TRUNC);
}
