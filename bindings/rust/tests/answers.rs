//! Replies, compared with bytes that were written by hand from the protocol.

mod common;

use common::diary::lock;
use common::{call_of, fault, getattr, init, padded, reading, record, reply, words, Request};
use nizwarf::{
    Attr, Call, DirItem, Encoded, Entry, FsOptions, GetxattrReply, IoctlRange, IoctlReply, Limits,
    ListxattrReply, OpenOptions, Refusal, Scratch, Statvfs, DT_DIR, DT_REG,
};
use std::ffi::CString;
use std::io::{self, IoSlice, IoSliceMut};
use std::time::Duration;

/// An encoded answer, and the lookups that were forgotten.
#[derive(Debug, PartialEq)]
struct Ended {
    outcome: Result<(), Refusal>,
    forgotten: Vec<u64>,
    entries: usize,
    options: Option<FsOptions>,
    len: usize,
    bytes: Vec<u8>,
}

/// Decodes a request, with a reply buffer of this size, and answers its call.
fn answer(
    request: &[u8], reply_size: usize, answer: impl for<'s> FnOnce(&'s mut Scratch, Call<'_>) -> Encoded<'s>,
) -> Ended {
    let mut scratch = Scratch::new();
    let slices = [IoSlice::new(request)];
    let call = call_of(&mut scratch, &slices, reply_size);
    let encoded = answer(&mut scratch, call);
    let (outcome, entries, options) = (encoded.outcome, encoded.entries, encoded.options);
    let mut forgotten = Vec::new();
    let mut reply = encoded.forget_lost(|node| forgotten.push(node));
    let len = reply.len();
    let bytes = reply.bytes().to_vec();
    // A copy has the same bytes, and does not change what follows them.
    let mut copy = vec![0xaa; reply_size + 9];
    let (first, second) = copy.split_at_mut(reply_size.min(5));
    let mut pieces = [first, &mut [], second].map(IoSliceMut::new);
    assert_eq!(reply.copy_to(&mut pieces), len);
    assert!(copy.starts_with(&bytes) && copy[bytes.len()..].iter().all(|byte| *byte == 0xaa));
    Ended { outcome, forgotten, entries, options, len, bytes }
}

/// A result that has only a reply.
fn replied(bytes: Vec<u8>) -> Ended {
    Ended { outcome: Ok(()), forgotten: Vec::new(), entries: 0, options: None, len: bytes.len(), bytes }
}

/// Decodes a request, with a large reply buffer or one of this size, and answers by the field `to` of the
/// call.
macro_rules! answers {
    ($request:expr, $call:ident, $scratch:ident, $to:ident => $answer:expr) => {
        answers!($request, 4096, $call, $scratch, $to => $answer)
    };
    ($request:expr, $reply_size:expr, $call:ident, $scratch:ident, $to:ident => $answer:expr) => {
        answer(&$request.done(), $reply_size, |$scratch, call| match call {
            Call::$call { $to, .. } => $answer,
            other => panic!("{other:?}"),
        })
    };
}

/// Asserts of requests that their calls, answered by a function of their field `to`, get these replies.
macro_rules! replies {
    ($($request:expr => $call:ident $function:ident($($result:expr)?), $expected:expr;)*) => {
        $(
            let made = answers!($request, $call, scratch, to => to.$function(scratch $(, $result)?));
            assert_eq!(made, replied($expected));
        )*
    };
}

const ATTR: Attr = Attr {
    ino: 21,
    size: 22,
    blocks: 23,
    atime: 24,
    mtime: 25,
    ctime: 26,
    atimensec: 27,
    mtimensec: 28,
    ctimensec: 29,
    mode: 0o100_644,
    nlink: 31,
    uid: 32,
    gid: 33,
    rdev: 34,
    blksize: 35,
    flags: 1,
};

/// `fuse_attr` of it, 88 bytes.
fn attr_bytes() -> Vec<u8> {
    words(&[21, 0, 22, 0, 23, 0, 24, 0, 25, 0, 26, 0, 27, 28, 29, 0o100_644, 31, 32, 33, 34, 35, 1])
}

fn entry(inode: u64) -> Entry {
    Entry {
        inode,
        generation: 3,
        attr: ATTR,
        attr_timeout: Duration::new(5, 6),
        entry_timeout: Duration::new(1 << 32, 999_999_999),
    }
}

/// `fuse_entry_out` of it, 128 bytes.
fn entry_bytes(inode: u32) -> Vec<u8> {
    [words(&[inode, 0, 3, 0, 0, 1, 5, 0, 999_999_999, 6]), attr_bytes()].concat()
}

fn lookup() -> Request {
    Request::new(1, 1).name("a")
}

fn os_error<T>(number: i32) -> io::Result<T> {
    Err(io::Error::from_raw_os_error(number))
}

#[test]
fn entries_and_attributes() {
    let create = Request::new(35, 1).u32(1).u32(2).u32(0).u32(0).name("a");
    let open = OpenOptions::KEEP_CACHE | OpenOptions::NOFLUSH;
    replies! {
        lookup() => Lookup answer(Ok(entry(9))), reply(&entry_bytes(9));
        getattr(1) => Getattr answer(Ok((ATTR, Duration::new(7, 8)))),
            reply(&[words(&[7, 0, 8, 0]), attr_bytes()].concat());
        create => Create answer(Ok((entry(9), Some(10), open))),
            reply(&[entry_bytes(9), words(&[10, 0, 0x22, 0])].concat());
    }
}

#[test]
fn small_answers() {
    let open = || Request::new(14, 1).u32(0).u32(0);
    let statfs = Statvfs {
        f_bsize: 1,
        f_frsize: 2,
        f_blocks: 3,
        f_bfree: 4,
        f_bavail: 5,
        f_files: 6,
        f_ffree: 7,
        f_namemax: 8,
    };
    replies! {
        open() => Open answer(Ok((Some(1 << 33), OpenOptions::DIRECT_IO))), reply(&words(&[0, 2, 1, 0]));
        open() => Open answer(Ok((None, OpenOptions::empty()))), reply(&words(&[0, 0, 0, 0]));
        Request::new(34, 1).u32(4).u32(0) => Access answer(Ok(())), reply(&[]);
        Request::new(17, 1) => Statfs answer(Ok(statfs)),
            reply(&words(&[3, 0, 4, 0, 5, 0, 6, 0, 7, 0, 1, 8, 2, 0, 0, 0, 0, 0, 0, 0]));
    }
}

/// A GETXATTR of `size` bytes.
fn getxattr(size: u32) -> Request {
    Request::new(22, 1).u32(size).u32(0).name("a")
}

fn value() -> GetxattrReply {
    GetxattrReply::Value(b"value".to_vec())
}

#[test]
fn texts_and_counts() {
    let names = ListxattrReply::Names(b"a\0b\0".to_vec());
    replies! {
        Request::new(5, 1) => Readlink answer(Ok(b"to")), reply(b"to");
        getxattr(9) => Getxattr answer(Ok(value())), reply(b"value");
        getxattr(0) => Getxattr answer(Ok(GetxattrReply::Count(5))), reply(&words(&[5, 0]));
        Request::new(23, 1).u32(9).u32(0) => Listxattr answer(Ok(names)), reply(b"a\0b\0");
    }
}

#[test]
fn texts_that_linux_does_not_take_are_faults() {
    for (len, expected) in [(4000, None), (4095, None), (4096, Some(5)), (1 << 20, Some(5))] {
        let text = vec![b'x'; len];
        let made =
            answers!(Request::new(5, 1), 1 << 21, Readlink, scratch, to => to.answer(scratch, Ok(&text)));
        assert_eq!(made, replied(expected.map_or_else(|| reply(&text), fault)));
    }
    replies! {
        getxattr(5) => Getxattr answer(Ok(value())), reply(b"value");
        getxattr(4) => Getxattr answer(Ok(value())), fault(34);
        // If the length is requested, a value is enough; if the value is requested, a length is not.
        getxattr(0) => Getxattr answer(Ok(value())), reply(&words(&[5, 0]));
        getxattr(9) => Getxattr answer(Ok(GetxattrReply::Count(9))), fault(5);
        getxattr(9) => Getxattr answer(Ok(GetxattrReply::Count(10))), fault(34);
    }
}

#[test]
fn faults() {
    // Linux takes 1 to 511.
    for (number, expected) in [(2, 2), (511, 511), (512, 5), (i32::MAX, 5), (0, 5), (-2, 5)] {
        replies! { lookup() => Lookup answer(os_error(number)), fault(expected); }
    }
    let nameless = io::Error::from(io::ErrorKind::NotFound);
    let forget = || Request::new(2, 5).u64(1);
    replies! {
        lookup() => Lookup fail(&nameless), fault(5);
        lock(31, 0, 0) => Getlk answer(os_error(11)), fault(11);
        lock(33, 0, 0) => Setlkw answer(os_error(4)), fault(4);
        Request::new(52, 5).bytes(&[0; 24]) => Statx answer(os_error(13)), fault(13);
        // A FORGET never has one.
        forget() => Forget done(), Vec::new();
        forget() => Forget fail(&nameless), Vec::new();
    }
}

#[test]
fn results_of_ioctl() {
    let ioctl = |flags: u32| Request::new(39, 5).u64(8).u32(flags).u32(0).u64(0).u32(0).u32(4);
    let done = |output: &[u8]| Ok(IoctlReply::Done { result: -1, output: output.to_vec() });
    let head = words(&[u32::MAX, 0, 0, 0]);
    let range = IoctlRange { base: 1 << 32, len: 3 };
    let retry = |count| Ok(IoctlReply::Retry { input: vec![range; count], output: vec![range] });
    replies! {
        ioctl(0) => Ioctl answer(done(b"")), reply(&head);
        ioctl(0) => Ioctl answer(done(b"four")), reply(&[&head[..], b"four"].concat());
        // More output than requested is an error, and so are too many ranges.
        ioctl(0) => Ioctl answer(done(b"fives")), fault(5);
        ioctl(2) => Ioctl answer(retry(1)), reply(&words(&[0, 4, 1, 1, 0, 1, 3, 0, 0, 1, 3, 0]));
        ioctl(2) => Ioctl answer(retry(256)), fault(5);
        Request::new(39, 5).bytes(&[0; 32]) => Ioctl answer(os_error(25)), fault(25);
    }
}

#[test]
fn data_of_a_read_stand_in_the_room_already() {
    let request = reading(15, 2, 0, 100).done();
    let slices = [IoSlice::new(&request)];
    let mut scratch = Scratch::new();
    let mut buffer = vec![0xaa; 64];
    match call_of(&mut scratch, &slices, buffer.len()) {
        Call::Read { to, .. } => {
            assert_eq!(to.max(), 48);
            buffer[16..20].copy_from_slice(b"data");
            let mut reply = to.answer(&mut scratch, Ok(4)).reply();
            assert_eq!(reply.bytes().len(), 16);
            assert_eq!(reply.copy_to(&mut [IoSliceMut::new(&mut buffer)]), 20);
        }
        other => panic!("{other:?}"),
    }
    assert_eq!(buffer[..20], reply(b"data"));
    assert!(buffer[20..].iter().all(|byte| *byte == 0xaa));
    // A count that is too large is answered EIO.
    replies! { reading(15, 2, 0, 100) => Read answer(Ok(101)), fault(5); }
}

#[test]
fn a_write_says_how_much() {
    let write = || Request::new(16, 2).u64(8).u64(0).u32(4).bytes(&[0; 20]).bytes(b"data");
    replies! {
        write() => Write answer(Ok(3)), reply(&words(&[3, 0]));
        write() => Write answer(Ok(1 << 32)), fault(5);
    }
}

#[test]
fn options_are_returned_after_init_and_destroy() {
    let init = Request::new(26, 0).u32(7).u32(38).u32(131_072).u32(1 << 13 | 1 << 14 | 1);
    let want = FsOptions::DO_READDIRPLUS | FsOptions::POSIX_ACL;
    let made = answers!(init.clone(), Init, scratch, to => to.answer(scratch, Ok(want)));
    let agreed = FsOptions::DO_READDIRPLUS | FsOptions::ASYNC_READ;
    // Version 7.38, the readahead, flags, 65535 in the background, congested at 49149, payloads of a
    // mebibyte, times in nanoseconds, 256 pages.
    let background = 65535 | 49149 << 16;
    let body = padded(&[7, 38, 131_072, 1 << 13 | 1, background, 1 << 20, 1, 256], 64);
    assert_eq!(made, Ended { options: Some(agreed), ..replied(reply(&body)) });
    let made = answers!(init, Init, scratch, to => to.answer(scratch, os_error(13)));
    assert_eq!(made, Ended { options: Some(FsOptions::empty()), ..replied(fault(13)) });
    let made = answers!(Request::new(38, 0), Destroy, scratch, to => to.done(scratch));
    assert_eq!(made, Ended { options: Some(FsOptions::empty()), ..replied(Vec::new()) });
}

#[test]
fn limits_are_sent_at_init() {
    let init = |flags2| init(131_072, 1 << 30, flags2);
    let later = FsOptions::HAS_RESEND | FsOptions::REQUEST_TIMEOUT;
    let limits = Limits {
        max_readahead: 65536,
        max_write: 8192,
        max_background: 20,
        congestion_threshold: 10,
        time_gran: 100,
        request_timeout: 60,
    };
    let answered = |flags2, want: FsOptions, limits: Limits| {
        let init = init(flags2);
        answers!(init, Init, scratch, to => to.answer_with(scratch, Ok(want), limits))
    };
    let agreed = FsOptions::INIT_EXT;
    let made = answered(u32::MAX, later, limits);
    let options = (agreed | later | FsOptions::CREATE_SUPP_GROUP | FsOptions::ALLOW_IDMAP).bits();
    let flags2 = u32::try_from(options >> 32).unwrap();
    let background = 10 << 16 | 0x14;
    let body = padded(&[7, 38, 65536, 1 << 30, background, 8192, 100, 256, flags2, 0, 60], 64);
    let options = Some(FsOptions::from_bits_truncate(options));
    assert_eq!(made, Ended { options, ..replied(reply(&body)) });
    // Options of which the client is not capable are not agreed on. Without limits, the reply does not
    // change.
    let made = answered(0, later, Limits::default());
    let body = padded(&[7, 38, 131_072, 1 << 30, 65535 | 49149 << 16, 1 << 20, 1, 256], 64);
    assert_eq!(made, Ended { options: Some(agreed), ..replied(reply(&body)) });
    let made = answers!(init(0), Init, scratch, to => to.answer_with(scratch, os_error(13), limits));
    assert_eq!(made, Ended { options: Some(FsOptions::empty()), ..replied(fault(13)) });
}

#[test]
fn an_entry_that_does_not_fit_is_forgotten() {
    let nothing =
        |forgotten| Ended { outcome: Err(Refusal::EncodeMessage), forgotten, ..replied(Vec::new()) };
    let looked_up = |reply_size, node| {
        let entry = entry(node);
        answers!(lookup(), reply_size, Lookup, scratch, to => to.answer(scratch, Ok(entry)))
    };
    for reply_size in 0..144 {
        assert_eq!(looked_up(reply_size, 9), nothing(vec![9]));
    }
    // Node 0 has no lookup, and an error no entry.
    assert_eq!(looked_up(143, 0), nothing(Vec::new()));
    let made = answer(&lookup().done(), 15, |scratch, call| call.fail(scratch, &io::ErrorKind::Other.into()));
    assert_eq!(made, nothing(Vec::new()));
}

#[test]
#[should_panic(expected = "an entry of node 9")]
fn a_reply_with_an_entry_comes_from_forget_lost() {
    let request = lookup().done();
    let slices = [IoSlice::new(&request)];
    let mut scratch = Scratch::new();
    if let Call::Lookup { to, .. } = call_of(&mut scratch, &slices, 4096) {
        let _ = to.answer(&mut scratch, Ok(entry(9))).reply();
    }
}

/// A READDIR or a READDIRPLUS of `size` bytes.
fn readdir(opcode: u32, size: u32) -> Request {
    reading(opcode, 1, 0, size)
}

#[test]
fn directories_end_where_an_item_does_not_fit() {
    let names = [".", "..", "name", "longer-name"].map(|name| CString::new(name).unwrap());
    let items: Vec<_> = names
        .iter()
        .zip([DT_DIR, DT_DIR, DT_REG, DT_REG])
        .zip(10..)
        .map(|((name, kind), ino)| DirItem::new(ino, ino - 9, kind, name))
        .collect();
    let records = [
        record(10, 1, 4, "."),
        record(11, 2, 4, ".."),
        record(12, 3, 8, "name"),
        record(13, 4, 8, "longer-name"),
    ];
    // 32, 32, 32 and 40 bytes
    for (size, entries) in [(31, 0), (32, 1), (95, 2), (96, 3), (135, 3), (136, 4), (4000, 4)] {
        let made = answers!(readdir(28, size), Readdir, scratch, to => to.answer(scratch, Ok(&items)));
        assert_eq!(made, Ended { entries, ..replied(reply(&records[..entries].concat())) });
    }
}

#[test]
fn readdirplus_forgets_what_does_not_fit() {
    let names = [".", "a", "b", "c", "d"].map(|name| CString::new(name).unwrap());
    let items = [
        DirItem::new(10, 1, DT_DIR, &names[0]).looked_up(&Ok(entry(99))),
        DirItem::new(11, 2, DT_REG, &names[1]).looked_up(&Ok(entry(51))),
        DirItem::new(12, 3, DT_REG, &names[2]).looked_up(&Ok(entry(52))),
        DirItem::new(13, 4, DT_REG, &names[3]).looked_up(&Ok(entry(0))),
        DirItem::new(14, 5, DT_REG, &names[4]).looked_up(&os_error(5)),
    ];
    assert!(items[0].is_dot() && !items[1].is_dot());
    assert_eq!(items[2].name(), names[2].as_c_str());
    // The entry of `.` is zero except for its inode number and type.
    let mut dot = vec![0; 128];
    dot[40] = 10;
    dot[100..104].copy_from_slice(&0o40_000_u32.to_le_bytes());
    let records = [
        [dot, record(10, 1, 4, ".")].concat(),
        [entry_bytes(51), record(11, 2, 8, "a")].concat(),
        [entry_bytes(52), record(12, 3, 8, "b")].concat(),
        [entry_bytes(0), record(13, 4, 8, "c")].concat(),
    ];
    for (size, entries, forgotten) in [
        (159, 0, vec![51, 52]),
        (160, 1, vec![51, 52]),
        (479, 2, vec![52]),
        (480, 3, vec![]),
        (4000, 4, vec![]),
    ] {
        let made = answers!(readdir(44, size), Readdir, scratch, to => to.answer(scratch, Ok(&items)));
        let expected = replied(reply(&records[..entries].concat()));
        assert_eq!(made, Ended { forgotten, entries, ..expected });
    }
    replies! {
        // The error of the first lookup is the reply.
        readdir(44, 4000) => Readdir answer(Ok(&items[4..])), fault(5);
        // A READDIR holds no lookups.
        readdir(28, 31) => Readdir answer(Ok(&items)), reply(&[]);
    }
}
