//! Requests with changed bytes, shortened or extended, and with buffers of any size. Nothing panics; the
//! reply is the same if the request and the buffer are cut in two; and each entry that the file system
//! returned is in a reply or was forgotten.

mod common;

use common::diary::Diary;
use common::hostile::{delivered, seeds, word, Random, NODE};
use nizwarf::{Refusal, Scratch, Server, Session};
use std::io::{IoSlice, IoSliceMut};

const ROUNDS: usize = 60_000;

/// How many lookups of the node these calls returned, less those that they dropped.
fn lookups(lines: &[String]) -> i64 {
    let forget = format!("forget {NODE} ");
    let count = |line: &String| match line.split(' ').next() {
        Some("forget") => -line.strip_prefix(&forget).map_or(0, |count| count.parse().unwrap()),
        Some("lookup") => i64::from(!line.ends_with(": none")),
        Some("symlink" | "mknod" | "mkdir" | "link" | "create" | "tmpfile") => 1,
        _ => 0,
    };
    lines.iter().map(count).sum()
}

#[test]
fn hostile_requests() {
    let session = Session::new(4096, 65536).unwrap();
    let [server, other] = [(), ()].map(|()| Server::with_session(Diary::default(), session));
    let (mut scratch, mut random, seeds) = (Scratch::new(), Random::new(), seeds());
    let (mut replies, mut refusals) = (0, 0);
    for round in 0..ROUNDS {
        let request = random.request(&seeds);
        let mut buffers = [vec![0xaa; random.below(900)], Vec::new()];
        buffers[1] = buffers[0].clone();
        let cut = random.below(request.len() + 1);
        let (first, second) = request.split_at(cut);
        let done = server.serve_one(
            &mut scratch,
            &[IoSlice::new(&request)],
            &mut [IoSliceMut::new(&mut buffers[0])],
        );
        let at = random.below(buffers[1].len() + 1);
        let (one, two) = buffers[1].split_at_mut(at);
        let in_pieces = other.serve_one(
            &mut scratch,
            &[IoSlice::new(first), IoSlice::new(second)],
            &mut [IoSliceMut::new(one), IoSliceMut::new(two)],
        );
        assert_eq!((done, &buffers[0]), (in_pieces, &buffers[1]), "round {round}: {request:?}");
        assert_eq!(server.options(), other.options());
        let lines = server.file_system().take();
        assert_eq!(lines, other.file_system().take());
        let reply = &buffers[0][..done.len];
        if !reply.is_empty() {
            assert_eq!(done.outcome, Ok(()));
            assert_eq!(word(reply, 0) as usize, done.len);
            assert_eq!(reply[8..16], request[8..16]);
        }
        replies += usize::from(!reply.is_empty());
        refusals += usize::from(done.outcome.is_err());
        assert!(!matches!(done.outcome, Err(Refusal::Other(_))));
        let opcode = request.get(4..8).map_or(0, |_| word(&request, 4));
        if opcode != 2 && opcode != 42 {
            assert_eq!(lookups(&lines), delivered(opcode, reply), "round {round}: {request:?}");
        }
    }
    // Both must be frequent.
    assert!(replies > ROUNDS / 4 && refusals > ROUNDS / 20, "{replies} {refusals}");
}
