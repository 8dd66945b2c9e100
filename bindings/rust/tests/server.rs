//! A server over file systems that record their calls.

mod common;

use common::diary::{each_call, entry, moves, Diary, Row};
use common::{fault, record, reply, words, Request};
use nizwarf::{Features, FileSystem, FsOptions, NoEntries, Refusal, Scratch, Served, Server, Session};
use std::fs::File;
use std::io::{self, IoSlice, IoSliceMut};
use std::panic::{catch_unwind, AssertUnwindSafe};

/// Has the default of each method.
struct Nothing;

impl FileSystem for Nothing {
    type Inode = u64;
    type Handle = u64;
    type DirIter = NoEntries;
}

/// Serves a request, of which request and buffer are cut in two, and returns the reply.
fn serve_in<F: FileSystem>(
    server: &Server<F>, request: &[u8], reply_size: usize, cut: usize,
) -> (Served, Vec<u8>) {
    let mut bytes = vec![0xaa; reply_size];
    let (first, second) = bytes.split_at_mut(cut.min(reply_size));
    let (one, other) = request.split_at(cut.min(request.len()));
    let done = server.serve_one(
        &mut Scratch::new(),
        &[IoSlice::new(one), IoSlice::new(other)],
        &mut [first, &mut [], second].map(IoSliceMut::new),
    );
    bytes.truncate(done.len);
    (done, bytes)
}

/// Returns the reply in a buffer of 4096 bytes.
fn serve<F: FileSystem>(server: &Server<F>, request: &Request) -> Vec<u8> {
    let request = request.clone().done();
    let (done, bytes) = serve_in(server, &request, 4096, 0);
    assert_eq!((done.outcome, done.interrupts), (Ok(()), None));
    bytes
}

#[test]
fn what_is_not_written_is_not_served() {
    let server = Server::new(Nothing);
    for row in each_call() {
        assert_eq!(serve(&server, &row.request), row.default, "{}", row.line);
    }
    assert_eq!(serve(&server, &Request::new(51, 5)), fault(38));
}

#[test]
fn each_call_reaches_its_method_in_each_cutting() {
    let server = Server::new(Diary::default());
    for Row { request, line, reply, .. } in each_call() {
        let request = request.done();
        for cut in 0..=200 {
            let (done, bytes) = serve_in(&server, &request, 400, cut);
            assert_eq!((done.outcome, &bytes), (Ok(()), &reply), "{line}, cut at {cut}");
            assert_eq!(server.file_system().take(), [line]);
        }
    }
}

#[test]
fn what_the_client_does_not_get_is_forgotten() {
    let server = Server::new(Diary::default());
    let lookup = Request::new(1, 1).name("a").done();
    let (done, _) = serve_in(&server, &lookup, 143, 20);
    assert_eq!((done.outcome, done.len), (Err(Refusal::EncodeMessage), 0));
    assert_eq!(server.file_system().take(), ["lookup 1 a 1000 7", "forget 50 1"]);
}

#[test]
fn a_handle_that_the_client_does_not_get_is_released() {
    let server = Server::new(Diary::default());
    let entry_and_open = 128 + 16;
    for (request, len, lines) in [
        (Request::new(14, 5).u32(2).u32(0), 16, vec!["open 5 false 2", "release 5 2 70 false false None"]),
        (Request::new(27, 5).u32(2).u32(0), 16, vec!["opendir 5 2", "releasedir 5 2 72"]),
        (
            Request::new(35, 5).bytes(&words(&[2, 0o600, 0o22, 0])).name("f"),
            entry_and_open,
            vec!["create 77 5 f 600 false 2 22", "release 50 2 71 false false None", "forget 50 1"],
        ),
        (
            Request::new(51, 5).bytes(&words(&[2, 0o600, 0o22, 0])).name("/"),
            entry_and_open,
            vec!["tmpfile 77 5 / 600 false 2 22", "release 50 2 73 false false None", "forget 50 1"],
        ),
    ] {
        let request = request.done();
        for reply_size in [0, 15, 16, 16 + len - 1] {
            let (done, _) = serve_in(&server, &request, reply_size, 20);
            assert_eq!((done.outcome, done.len), (Err(Refusal::EncodeMessage), 0));
            assert_eq!(server.file_system().take(), lines);
        }
        let (done, _) = serve_in(&server, &request, 16 + len, 20);
        assert_eq!((done.outcome, done.len), (Ok(()), 16 + len));
        assert_eq!(server.file_system().take(), lines[..1]);
    }
}

#[test]
fn what_is_not_opened_is_not_released() {
    let server = Server::new(Nothing);
    let open = Request::new(14, 5).u32(2).u32(0).done();
    let (done, _) = serve_in(&server, &open, 20, 20);
    assert_eq!((done.outcome, done.len), (Err(Refusal::EncodeMessage), 0));
}

#[test]
fn directories() {
    let server = Server::new(Diary::default());
    let records =
        [record(11, 1, 8, "."), record(12, 2, 8, ".."), record(13, 3, 8, "a"), record(14, 4, 8, "b")];
    for (size, entries) in [(31, 0), (95, 2), (96, 3), (127, 3), (128, 4), (4000, 4)] {
        let expected = reply(&records[..entries].concat());
        assert_eq!(serve(&server, &moves(28, 1, size)), expected);
        assert_eq!(server.file_system().take(), [format!("readdir 5 1 {size} 9")]);
    }
}

#[test]
fn directories_with_entries() {
    let server = Server::new(Diary::default());
    let dot = |ino: u32| {
        let mut bytes = vec![0; 128];
        bytes[40] = ino.to_le_bytes()[0];
        bytes[100..104].copy_from_slice(&0o100_000_u32.to_le_bytes());
        bytes
    };
    let records = [
        [dot(11), record(11, 1, 8, ".")].concat(),
        [dot(12), record(12, 2, 8, "..")].concat(),
        [entry(), record(13, 3, 8, "a")].concat(),
        [entry(), record(14, 4, 8, "b")].concat(),
    ];
    // Each has 160 bytes. What does not fit is not looked up.
    for (size, entries) in [(159, 0), (479, 2), (480, 3), (639, 3), (640, 4), (4000, 4)] {
        assert_eq!(serve(&server, &moves(44, 1, size)), reply(&records[..entries].concat()));
        let mut lines = vec![format!("readdir 5 1 {size} 9")];
        let lookups = ["lookup 5 a 1000 7", "lookup 5 b 1000 7"];
        lines.extend(lookups[..entries.max(2) - 2].iter().map(|line| (*line).into()));
        assert_eq!(server.file_system().take(), lines);
    }
    // A lookup that fails ends the reading, and is the reply if it is the first.
    let first = [entry(), record(11, 1, 8, "a")].concat();
    assert_eq!(serve(&server, &moves(44, 2, 4000)), reply(&first));
    assert_eq!(
        server.file_system().take(),
        ["readdir 5 2 4000 9", "lookup 5 a 1000 7", "lookup 5 none: none"]
    );
    assert_eq!(serve(&server, &moves(44, 3, 4000)), fault(2));
}

#[test]
fn data_go_to_a_file_and_come_from_one() {
    let path = std::env::temp_dir().join(format!("nizwarf-rust-{}", std::process::id()));
    let file = File::options().read(true).write(true).create_new(true).open(&path).unwrap();
    std::fs::remove_file(&path).unwrap();
    let server = Server::new(Diary::of(file));
    let data: Vec<u8> = (0..=250).collect();
    // A WRITE of 200 of 251 bytes at offset 9, and a READ of 150 of them into a larger buffer.
    let write = moves(16, 8, 200).bytes(&data).done();
    let read = moves(15, 8, 150).done();
    for cut in 0..300 {
        let (done, bytes) = serve_in(&server, &write, 64, cut);
        assert_eq!((done.outcome, bytes), (Ok(()), reply(&words(&[200, 0]))));
        let (done, bytes) = serve_in(&server, &read, 300, cut);
        assert_eq!((done.outcome, bytes), (Ok(()), reply(&data[..150])));
    }
    // The file ends at 209.
    let (_, bytes) = serve_in(&server, &moves(15, 8, 1000).done(), 4096, 33);
    assert_eq!(bytes, reply(&data[..200]));
    // A buffer for 10 bytes is filled.
    let (_, bytes) = serve_in(&server, &read, 26, 20);
    assert_eq!(bytes, reply(&data[..10]));
    let beyond = Request::new(15, 5).u64(8).u64(1 << 63).u32(9).bytes(&[0; 20]).done();
    let (_, bytes) = serve_in(&server, &beyond, 64, 0);
    assert_eq!(bytes, fault(22));
}

#[test]
fn counts_that_can_not_be_are_faults() {
    let server = Server::new(Diary::default());
    assert_eq!(serve(&server, &moves(15, 9, 100)), fault(5));
    assert_eq!(serve(&server, &moves(16, 9, 4).bytes(b"data")), fault(5));
    // The buffer has no space for four bytes.
    let (_, bytes) = serve_in(&server, &moves(15, 8, 100).done(), 19, 0);
    assert_eq!(bytes, fault(5));
}

#[test]
fn a_long_copy_is_shortened_unless_its_reply_has_64_bits() {
    // Otherwise it would be made, and answered by an error. 0xffff_f000 is what libfuse has.
    let server = Server::new(Diary::default());
    let copy = |opcode, len| Request::new(opcode, 1).bytes(&[0; 40]).u64(len).u64(0);
    assert_eq!(serve(&server, &copy(53, 5 << 32 | 6)), reply(&words(&[6, 5])));
    for len in [0xffff_f001, 0xffff_ffff, 1 << 32, 5 << 32 | 6, u64::MAX] {
        assert_eq!(serve(&server, &copy(47, len)), reply(&words(&[0xffff_f000, 0])), "{len}");
    }
    assert_eq!(serve(&server, &copy(47, 0xffff_efff)), reply(&words(&[0xffff_efff, 0])));
}

#[test]
fn options_stand_from_init_to_destroy() {
    let server = Server::with_session(Diary::default(), Session::new(4096, 8192).unwrap());
    let init = Request::new(26, 0).u32(7).u32(38).u32(0).u32(1 << 29);
    let (long, short) = (
        Request::new(21, 5).u32(1).u32(2).u32(1).u32(0).name("a").bytes(b"v"),
        Request::new(21, 5).u32(1).u32(2).name("a").bytes(b"v"),
    );
    assert!(server.options().is_empty());
    for end in [true, false] {
        assert_eq!(serve(&server, &short), reply(&[]));
        assert_eq!(serve(&server, &init).len(), 80);
        assert_eq!(server.options(), FsOptions::SETXATTR_EXT);
        assert_eq!(server.session().options(), FsOptions::SETXATTR_EXT);
        server.file_system().take();
        assert_eq!(serve(&server, &long), reply(&[]));
        assert_eq!(server.file_system().take(), ["setxattr 5 a [118] 2 {SETXATTR_ACL_KILL_SGID}"]);
        if end {
            assert_eq!(serve(&server, &Request::new(38, 0)), []);
        } else {
            server.destroy();
        }
        assert_eq!(server.file_system().take(), ["destroy"]);
        assert!(server.options().is_empty());
    }
}

/// Wants locks, and serves them or not.
struct Locks(Features);

impl FileSystem for Locks {
    type Inode = u64;
    type Handle = u64;
    type DirIter = NoEntries;

    fn init(&self, capable: FsOptions) -> io::Result<FsOptions> {
        assert_eq!(capable, FsOptions::POSIX_LOCKS | FsOptions::FLOCK_LOCKS | FsOptions::DONT_MASK);
        Ok(capable)
    }

    fn features(&self) -> Features {
        self.0
    }
}

#[test]
fn locks_that_are_not_served_are_not_agreed_on() {
    let init = Request::new(26, 0).u32(7).u32(38).u32(0).u32(1 << 1 | 1 << 6 | 1 << 10);
    for (features, agreed) in [(Features::LOCKS, 0x442), (Features::all() - Features::LOCKS, 0x40)] {
        let server = Server::new(Locks(features));
        let sent = serve(&server, &init);
        assert_eq!(server.options().bits(), agreed);
        assert_eq!(u64::from(u32::from_le_bytes(sent[28..32].try_into().unwrap())), agreed);
    }
}

#[test]
fn an_interrupt_is_reported() {
    let server = Server::new(Diary::default());
    let (done, _) = serve_in(&server, &Request::new(36, 0).u64(9).done(), 64, 0);
    assert_eq!(done, Served { len: 0, outcome: Ok(()), interrupts: Some(9) });
    assert_eq!(server.file_system().take(), ["interrupt 9"]);
    let (done, _) = serve_in(&server, &[], 64, 0);
    assert_eq!(done.outcome, Err(Refusal::DecodeMessage));
}

#[test]
fn a_panic_is_a_fault_if_it_is_caught() {
    let lookup = Request::new(1, 1).name("panic");
    let forget = Request::new(2, 666).u64(1);
    std::panic::set_hook(Box::new(|_| ()));
    let strict = Server::new(Diary::default());
    assert!(catch_unwind(AssertUnwindSafe(|| serve(&strict, &lookup))).is_err());
    // The lookups of a listing in which one panics are forgotten.
    let listing = moves(44, 4, 4000);
    assert!(catch_unwind(AssertUnwindSafe(|| serve(&strict, &listing))).is_err());
    let lines = ["readdir 5 4 4000 9", "lookup 5 a 1000 7", "forget 50 1"];
    assert_eq!(strict.file_system().take(), lines);
    let server = Server::new(Diary::default()).catch_panics(true);
    assert_eq!(serve(&server, &lookup), fault(5));
    assert_eq!(serve(&server, &forget), []);
    // The second lookup of this listing panics, and the first item is in the reply.
    let listed = serve(&server, &moves(44, 4, 4000));
    let _ = std::panic::take_hook();
    assert_eq!(listed, reply(&[entry(), record(11, 1, 8, "a")].concat()));
    assert_eq!(server.file_system().take(), ["readdir 5 4 4000 9", "lookup 5 a 1000 7"]);
}
