//! Calls that are answered later, and notices, over a socket that keeps messages apart.

mod common;

use common::diary::lock;
use common::{fault, init, reading, reply, words, Peer, Request};
use nizwarf::{
    Call, Client, Context, Entry, Errno, Features, FileSystem, FsOptions, Limits, NoEntries, Notifier,
    PollHandle, Scratch, Server,
};
use std::ffi::{CStr, CString};
use std::io;
use std::panic::{catch_unwind, AssertUnwindSafe};
use std::sync::mpsc::{channel, Receiver, Sender};
use std::sync::Mutex;
use std::thread;

/// A call that was taken, with its number and the client for its reply.
type Taken = (u64, Call<'static>, Client);

/// A file system that takes calls: locks that wait, and reads of node 9. One of node 666 panics.
struct Taking {
    taken: Mutex<Sender<Taken>>,
    begun: Mutex<Vec<Client>>,
    polled: Mutex<Option<PollHandle>>,
}

impl Taking {
    /// A server of one, and what that takes.
    fn served() -> (Server<Self>, Receiver<Taken>) {
        let (taken, later) = channel();
        let (begun, polled) = (Mutex::default(), Mutex::default());
        (Server::new(Taking { taken: Mutex::new(taken), begun, polled }), later)
    }

    fn notifier(&self) -> Notifier {
        self.begun.lock().unwrap()[0].notifier()
    }

    fn keep(&self, ctx: Context, call: Call<'static>, client: &Client) {
        self.taken.lock().unwrap().send((ctx.unique, call, client.clone())).unwrap();
    }
}

impl FileSystem for Taking {
    type Inode = u64;
    type Handle = u64;
    type DirIter = NoEntries;

    fn features(&self) -> Features {
        Features::LOCKS | Features::POLL
    }

    fn init(&self, _: FsOptions) -> io::Result<FsOptions> {
        Ok(FsOptions::HAS_RESEND | FsOptions::POSIX_LOCKS)
    }

    fn limits(&self) -> Limits {
        Limits { max_background: 7, ..Limits::default() }
    }

    fn begin(&self, client: &Client) {
        self.begun.lock().unwrap().push(client.clone());
    }

    fn take<'r>(&self, ctx: Context, call: Call<'r>, client: &Client) -> Option<Call<'r>> {
        match call {
            Call::Setlkw { node, handle, lock_owner, lock, flock, to } => {
                let kept = Call::Setlkw { node, handle, lock_owner, lock, flock, to };
                self.keep(ctx, kept, client);
                None
            }
            Call::Read { node: 9, handle, size, offset, lock_owner, flags, to } => {
                let kept = Call::Read { node: 9, handle, size, offset, lock_owner, flags, to };
                self.keep(ctx, kept, client);
                None
            }
            Call::Lookup { parent: 9, name, to } => {
                let name = name.into_owned().into();
                self.keep(ctx, Call::Lookup { parent: 9, name, to }, client);
                None
            }
            Call::Statfs { node: 666, .. } => panic!("node 666"),
            other => Some(other),
        }
    }

    fn poll(&self, _: Context, _: u64, _: u64, wake: Option<PollHandle>, _: u32) -> io::Result<u32> {
        *self.polled.lock().unwrap() = wake;
        Ok(0)
    }

    /// Sends a notice inside the call.
    fn unlink(&self, _: Context, parent: u64, name: &CStr) -> io::Result<()> {
        self.notifier().inval_entry(parent, name)
    }

    /// Sends another one, which Linux accepts there.
    fn rmdir(&self, _: Context, _: u64, _: &CStr) -> io::Result<()> {
        self.notifier().wake(self.polled.lock().unwrap().unwrap())
    }
}

/// Serves while a client does something.
fn serve(server: &Server<Taking>, send: impl FnOnce(&Peer)) {
    let (peer, device) = Peer::new();
    thread::scope(|scope| {
        let thread = scope.spawn(|| server.serve(&device));
        // (else a test that fails would wait for the server)
        let result = catch_unwind(AssertUnwindSafe(|| send(&peer)));
        peer.send(&[]);
        thread.join().unwrap().unwrap();
        result.unwrap();
    });
}

#[test]
fn a_call_that_is_taken_is_answered_later() {
    let (server, taken) = Taking::served();
    let mut scratch = Scratch::new();
    serve(&server, |peer| {
        peer.send(&lock(33, 1, 0).done());
        // One thread serves, and the next request does not wait for the lock.
        assert_eq!(peer.exchange(&Request::new(17, 1).done()).len(), 96);
        let (unique, call, client) = taken.recv().unwrap();
        assert_eq!(unique, 7);
        if let Call::Setlkw { node: 5, lock_owner: 44, to, .. } = call {
            client.send(to.answer(&mut scratch, Ok(())).reply()).unwrap();
        }
        assert_eq!(peer.receive(), reply(&[]));
        peer.send(&lock(33, 1, 0).done());
        let (_, call, client) = taken.recv().unwrap();
        client.send(call.fail(&mut scratch, &Errno::EINTR.into()).reply()).unwrap();
        assert_eq!(peer.receive(), fault(4));
    });
    // After the end a reply is dropped.
    let (_, call, client) = {
        let (late, device) = Peer::new();
        late.send(&lock(33, 1, 0).done());
        late.send(&[]);
        server.serve(&device).unwrap();
        taken.recv().unwrap()
    };
    client.send(call.fail(&mut scratch, &Errno::EINTR.into()).reply()).unwrap();
}

#[test]
fn data_follow_the_reply_to_a_read() {
    let (server, taken) = Taking::served();
    let mut scratch = Scratch::new();
    serve(&server, |peer| {
        for (answered, data, expected, is_sent) in [
            (Ok(4), &b"data"[..], reply(b"data"), true),
            (Ok(0), b"", reply(b""), true),
            (Ok(5), b"data", fault(5), false),
            (Ok(4), b"", fault(5), false),
            (Ok(11), b"more than is", fault(5), true),
            (Err(Errno::EACCES.into()), b"data", fault(13), true),
        ] {
            peer.send(&reading(15, 9, 0, 10).done());
            if let (_, Call::Read { to, .. }, client) = taken.recv().unwrap() {
                let sent = client.send_with(to.answer(&mut scratch, answered).reply(), data);
                assert_eq!(sent.is_ok(), is_sent);
            }
            assert_eq!(peer.receive(), expected);
        }
    });
}

#[test]
fn what_is_refused_later_is_answered() {
    let (server, taken) = Taking::served();
    let server = server.catch_panics(true);
    let mut scratch = Scratch::new();
    std::panic::set_hook(Box::new(|_| ()));
    serve(&server, |peer| {
        peer.send(&Request::new(1, 9).name("a").done());
        if let (_, Call::Lookup { to, .. }, client) = taken.recv().unwrap() {
            let entry = Entry { inode: 3, ..Entry::default() };
            let encoded = to.answer(&mut scratch, Ok(entry));
            client.send(encoded.forget_lost(|node| panic!("{node}"))).unwrap();
        }
        assert_eq!(peer.receive()[..24], reply(&[3, 0, 0, 0, 0, 0, 0, 0].repeat(16))[..24]);
        assert_eq!(peer.exchange(&Request::new(17, 666).done()), fault(5));
    });
    let _ = std::panic::take_hook();
}

#[test]
fn limits_and_later_options_are_agreed_on() {
    let (server, _taken) = Taking::served();
    serve(&server, |peer| {
        let reply = peer.exchange(&init(0, u32::MAX, u32::MAX).done());
        assert_eq!(reply[16 + 16..16 + 18], [7, 0]);
        let options = server.options();
        assert!(options.contains(FsOptions::HAS_RESEND | FsOptions::POSIX_LOCKS));
        assert!((options & FsOptions::HAS_EXPIRE_ONLY).is_empty());
        let flags2 = u32::from_le_bytes(reply[48..52].try_into().unwrap());
        assert_eq!(flags2, u32::try_from(options.bits() >> 32).unwrap());
    });
    let (server, _taken) = Taking::served();
    let server = server.withhold(FsOptions::HAS_RESEND);
    serve(&server, |peer| {
        assert_eq!(peer.exchange(&init(0, u32::MAX, u32::MAX).done()).len(), 80);
        assert!(!server.options().contains(FsOptions::HAS_RESEND));
    });
}

#[test]
fn an_interrupt_may_come_before_its_call() {
    let (server, taken) = Taking::served();
    let mut scratch = Scratch::new();
    for is_early in [true, false] {
        serve(&server, |peer| {
            if is_early {
                peer.send(&Request::new(36, 0).u64(7).done());
            }
            peer.send(&lock(33, 1, 0).done());
            let (unique, call, client) = taken.recv().unwrap();
            // (another session, whose requests may have the same numbers)
            assert_eq!((unique, client.was_interrupted(7)), (7, is_early));
            assert!(!client.was_interrupted(8));
            client.send(call.fail(&mut scratch, &Errno::EINTR.into()).reply()).unwrap();
            assert_eq!(peer.receive(), fault(4));
            assert!(!client.was_interrupted(7));
            peer.send(&Request::new(36, 0).u64(7).done());
            assert_eq!(peer.exchange(&Request::new(17, 1).done()).len(), 96);
            assert!(client.was_interrupted(7));
        });
    }
}

#[test]
fn a_notice_that_may_wait_for_a_call_is_not_sent_inside_it() {
    let (server, _taken) = Taking::served();
    serve(&server, |peer| {
        assert_eq!(peer.exchange(&Request::new(10, 1).name("a").done()), fault(35));
        // Another thread sends it, and this one others.
        server.file_system().notifier().inval_entry(1, &CString::new("a").unwrap()).unwrap();
        assert_eq!(peer.receive(), notice(3, &[words(&[1, 0, 1, 0]), b"a\0".to_vec()].concat()));
        peer.exchange(&Request::new(40, 5).u64(8).u64(6 << 32).u32(1).u32(1).done());
        assert_eq!(peer.exchange(&Request::new(11, 1).name("a").done()), notice(1, &words(&[0, 6])));
        assert_eq!(peer.receive(), reply(&[]));
    });
}

/// `fuse_out_header` of a notice, and what follows it.
fn notice(number: u32, body: &[u8]) -> Vec<u8> {
    let len = u32::try_from(16 + body.len()).unwrap();
    [words(&[len, number, 0, 0]), body.to_vec()].concat()
}

/// Sends a notice, which may have this name.
type Tell<'a> = &'a dyn Fn(&Notifier, &CStr) -> io::Result<()>;

#[test]
fn notices() {
    let (server, _taken) = Taking::served();
    let mut kept = None;
    serve(&server, |peer| {
        peer.exchange(&Request::new(40, 5).u64(8).u64(6 << 32).u32(1).u32(1).done());
        let files = server.file_system();
        let notifier = files.notifier();
        let wake = files.polled.lock().unwrap().unwrap();
        let name = CString::new("name").unwrap();
        let of_name = |first: &[u32]| [words(first), b"name\0".to_vec()].concat();
        let tells: [(Tell<'_>, Vec<u8>); 12] = [
            (&|n, _| n.wake(wake), notice(1, &words(&[0, 6]))),
            (&|n, _| n.inval_inode(5, -1, 2), notice(2, &words(&[5, 0, !0, !0, 2, 0]))),
            (&|n, s| n.inval_entry(5, s), notice(3, &of_name(&[5, 0, 4, 0]))),
            (&|n, s| n.expire_entry(5, s), notice(3, &of_name(&[5, 0, 4, 1]))),
            (
                &|n, _| n.store(5, 1 << 32, b"data"),
                notice(4, &[words(&[5, 0, 0, 1, 4, 0]), b"data".to_vec()].concat()),
            ),
            (&|n, _| n.store(5, 9, b""), notice(4, &words(&[5, 0, 9, 0, 0, 0]))),
            (&|n, _| n.retrieve(3, 5, 9, 4), notice(5, &words(&[3, 0, 5, 0, 9, 0, 4, 0]))),
            (&|n, s| n.delete(5, 6, s), notice(6, &of_name(&[5, 0, 6, 0, 4, 0]))),
            (&|n, _| n.resend(), notice(7, &[])),
            (&|n, _| n.expire_all(), notice(8, &[])),
            (&|n, _| n.prune(&[1, 2 << 32]), notice(9, &words(&[2, 0, 0, 0, 1, 0, 0, 2]))),
            (&|n, _| n.prune(&[]), notice(9, &words(&[0, 0, 0, 0]))),
        ];
        for (tell, expected) in tells {
            tell(&notifier, &name).unwrap();
            assert_eq!(peer.receive(), expected);
        }
        let longest = CString::new(vec![b'x'; 1023]).unwrap();
        notifier.inval_entry(5, &longest).unwrap();
        assert_eq!(peer.receive().len(), 16 + 16 + 1024);
        notifier.delete(5, 6, &longest).unwrap();
        assert_eq!(peer.receive().len(), 16 + 24 + 1024);
        let longer = CString::new(vec![b'x'; 1024]).unwrap();
        let error = notifier.inval_entry(5, &longer).unwrap_err();
        assert_eq!(error.raw_os_error(), Some(36));
        kept = Some(notifier);
    });
    // It does not keep the device.
    let error = kept.unwrap().resend().unwrap_err();
    assert_eq!(error.raw_os_error(), Some(107));
}

#[test]
fn the_first_thread_begins() {
    let ((server, _taken), (peer, device)) = (Taking::served(), Peer::new());
    thread::scope(|scope| {
        let threads: Vec<_> = (0..3).map(|_| scope.spawn(|| server.serve(&device))).collect();
        assert_eq!(peer.exchange(&Request::new(17, 1).done()).len(), 96);
        for _ in &threads {
            peer.send(&[]);
        }
        // The notifier works until the last thread ends.
        for thread in threads {
            thread.join().unwrap().unwrap();
        }
    });
    let begun = server.file_system().begun.lock().unwrap();
    assert!(!begun.is_empty());
    assert!(begun.iter().all(|client| client.notifier().resend().is_err()));
}
