//! Requests that need no call: each refusal, and the replies of the library itself.

mod common;

use common::{fault, padded, reading, session, words, Request};
use nizwarf::{Decoded, FsOptions, Refusal, Scratch};
use std::io::IoSlice;

/// The outcome and the reply of a request that needs no call, and the request that it interrupts.
fn finished(
    options: FsOptions, request: &[u8], reply_size: usize,
) -> (Result<(), Refusal>, Vec<u8>, Option<u64>) {
    let mut scratch = Scratch::new();
    let slices = [IoSlice::new(request)];
    match scratch.decode(&session(options), &slices, reply_size) {
        Decoded::Call(pending) => panic!("{pending:?}"),
        Decoded::Finished(mut done) => {
            let bytes = done.reply.bytes().to_vec();
            assert_eq!(done.reply.is_empty(), bytes.is_empty());
            assert_eq!(done.reply.len(), bytes.len());
            (done.outcome, bytes, done.interrupts)
        }
    }
}

#[test]
fn each_refusal() {
    let lookup = Request::new(1, 1);
    let setxattr = Request::new(21, 1).u32(6).u32(0).name("a").bytes(b"short");
    let mkdir = Request::new(9, 1).u32(0o755).u32(0).name("a");
    let none = FsOptions::empty();
    for (options, request, reply_size, refusal) in [
        (none, Vec::new(), 64, Refusal::DecodeMessage),
        (none, lookup.clone().done()[..39].to_vec(), 64, Refusal::DecodeMessage),
        (none, lookup.clone().name("a").long(43), 64, Refusal::DecodeMessage),
        (none, reading(15, 1, 0, 9).done(), 15, Refusal::EncodeMessage),
        (none, Request::new(255, 1).done(), 15, Refusal::EncodeMessage),
        (none, Request::new(12, 1).u64(2).bytes(b"old").done(), 64, Refusal::MissingParameter),
        (none, lookup.clone().bytes(b"a").done(), 64, Refusal::InvalidCString),
        (none, lookup.clone().bytes(b"a\0b\0").done(), 64, Refusal::InvalidCString),
        (none, lookup.name("a").long(39), 64, Refusal::InvalidHeaderLength),
        (none, setxattr.done(), 64, Refusal::InvalidXattrSize),
        (FsOptions::SECURITY_CTX, mkdir.done(), 64, Refusal::MissingExtension),
    ] {
        assert_eq!(finished(options, &request, reply_size), (Err(refusal), Vec::new(), None));
    }
}

#[test]
fn what_needs_no_file_system() {
    let none = FsOptions::empty();
    // An INTERRUPT of request number 9.
    let interrupt = Request::new(36, 0).u64(9).done();
    assert_eq!(finished(none, &interrupt, 64), (Ok(()), Vec::new(), Some(9)));
    // An unknown opcode, SETUPMAPPING, a length above the limit, and versions that are too old.
    for (request, number) in [
        (Request::new(255, 1).done(), 38),
        (Request::new(48, 1).bytes(&[0; 40]).done(), 38),
        (Request::new(17, 1).long((1 << 20) + 4097), 12),
        (Request::new(26, 0).bytes(&words(&[6, 38, 0, 0])).done(), 71),
        (Request::new(26, 0).bytes(&words(&[7, 26, 0, 0])).done(), 71),
    ] {
        assert_eq!(finished(none, &request, 64), (Ok(()), fault(number), None));
    }
    let newer = Request::new(26, 0).bytes(&words(&[8, 0, 0, 0])).done();
    let expected = padded(&[80, 0, 7, 0, 7, 38], 80);
    assert_eq!(finished(none, &newer, 80), (Ok(()), expected, None));
}

#[test]
fn scratch_memory_is_used_again() {
    let mut scratch = Scratch::default();
    let long = Request::new(26, 0).bytes(&words(&[8, 0, 0, 0])).done();
    let short = Request::new(255, 1).done();
    for (request, len) in [(&long, 80), (&short, 16), (&long, 80)] {
        let slices = [IoSlice::new(&[]), IoSlice::new(request)];
        match scratch.decode(&session(FsOptions::empty()), &slices, 1 << 20) {
            Decoded::Finished(mut done) => assert_eq!(done.reply.bytes().len(), len),
            Decoded::Call(pending) => panic!("{pending:?}"),
        }
    }
    assert_eq!(format!("{scratch:?}"), "Scratch { .. }");
}
