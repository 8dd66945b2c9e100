//! One session on eight threads, each with its scratch memory: each request is decoded on one thread and
//! answered on another, and the replies are those of a single thread.
//!
//! It does without the test harness, and passes calls on by functions of `std` that are inlined: the thread
//! sanitizer sees these even if `std` was not built with it.

mod common;

use common::{session, Request};
use nizwarf::{
    Attr, Call, Context, Decoded, Encoded, Entry, FileSystem, FsOptions, NoEntries, Scratch, Server,
};
use std::ffi::CStr;
use std::io::{self, IoSlice, IoSliceMut};
use std::sync::{Arc, Mutex};
use std::thread::{self, JoinHandle};
use std::time::Duration;

const THREADS: usize = 8;
const EACH: usize = 500;

/// Answers a call later.
type Later = Box<dyn for<'s> FnOnce(&'s mut Scratch) -> Encoded<'s> + Send>;

/// A call on its way to the thread that answers it.
type Hand = Mutex<Option<Result<Later, Vec<u8>>>>;

/// Calls a function with the value of a lock until it returns something.
fn with<T, R>(lock: &Mutex<T>, mut step: impl FnMut(&mut T) -> Option<R>) -> R {
    loop {
        if let Some(result) = lock.try_lock().ok().and_then(|mut held| step(&mut held)) {
            return result;
        }
        thread::yield_now();
    }
}

fn request(number: u64) -> Vec<u8> {
    let text = format!("name {number}");
    match number % 5 {
        0 => Request::new(1, number).name(&text),
        1 => Request::new(3, number).u32(0).u32(0).u64(0),
        2 => Request::new(5, number),
        3 => Request::new(255, number),
        _ => Request::new(2, number).u64(1),
    }
    .done()
}

fn entry(name: &CStr, node: u64) -> Entry {
    Entry { inode: node + name.to_bytes().len() as u64, ..Entry::default() }
}

/// Decodes a request. Returns a function that answers, or the reply.
fn decode(scratch: &mut Scratch, number: u64) -> Result<Later, Vec<u8>> {
    let bytes = request(number);
    let slices = [IoSlice::new(&bytes)];
    match scratch.decode(&session(FsOptions::empty()), &slices, 1024) {
        Decoded::Finished(mut done) => Err(done.reply.bytes().to_vec()),
        Decoded::Call(pending) => Ok(match pending.call {
            Call::Lookup { parent, name, to } => {
                let name = name.into_owned();
                Box::new(move |scratch| to.answer(scratch, Ok(entry(&name, parent))))
            }
            Call::Getattr { node, to, .. } => {
                let attr = Attr { ino: node, ..Attr::default() };
                Box::new(move |scratch| to.answer(scratch, Ok((attr, Duration::ZERO))))
            }
            Call::Readlink { node, to } => {
                Box::new(move |scratch| to.answer(scratch, Ok(node.to_string().as_bytes())))
            }
            Call::Forget { to, .. } => Box::new(move |scratch| to.done(scratch)),
            other => panic!("{other:?}"),
        }),
    }
}

fn answer(scratch: &mut Scratch, decoded: Result<Later, Vec<u8>>) -> Vec<u8> {
    match decoded {
        Ok(later) => later(scratch).forget_lost(|node| panic!("{node}")).bytes().to_vec(),
        Err(reply) => reply,
    }
}

/// Decodes every eighth request, and answers those that the next thread decodes.
fn run(at: usize, hands: &[Hand]) -> Vec<(usize, Vec<u8>)> {
    let mut scratch = Scratch::new();
    let mut replies = Vec::new();
    for turn in 0..EACH {
        let number = turn * THREADS + at;
        let mut result = Some(decode(&mut scratch, number as u64));
        with(&hands[number], |hand| {
            *hand = result.take();
            Some(())
        });
        let answered = turn * THREADS + (at + 1) % THREADS;
        let decoded = with(&hands[answered], Option::take);
        replies.push((answered, answer(&mut scratch, decoded)));
    }
    replies
}

/// Runs a function on eight threads, and collects the results.
fn on_threads<T: Send + 'static>(run: impl Fn(usize) -> Vec<T> + Send + Sync + 'static) -> Vec<T> {
    let run = Arc::new(run);
    let begin = |at| {
        let run = Arc::clone(&run);
        thread::spawn(move || run(at))
    };
    let threads: Vec<JoinHandle<_>> = (0..THREADS).map(begin).collect();
    threads.into_iter().flat_map(|thread| thread.join().unwrap()).collect()
}

fn requests_are_answered_on_other_threads() {
    let mut scratch = Scratch::new();
    let alone: Vec<_> = (0..(THREADS * EACH) as u64)
        .map(|number| {
            let decoded = decode(&mut scratch, number);
            answer(&mut scratch, decoded)
        })
        .collect();
    assert_eq!(alone[3][..8], [16, 0, 0, 0, 218, 255, 255, 255]);
    let hands: Vec<Hand> = (0..THREADS * EACH).map(|_| Mutex::new(None)).collect();
    let mut replies = on_threads(move |at| run(at, &hands));
    replies.sort_by_key(|(number, _)| *number);
    assert_eq!(replies.len(), THREADS * EACH);
    for ((number, reply), expected) in replies.iter().zip(&alone) {
        assert_eq!(reply, expected, "request {number}");
    }
}

/// Its answers depend on the arguments only.
struct Plain;

impl FileSystem for Plain {
    type Inode = u64;
    type Handle = u64;
    type DirIter = NoEntries;

    fn lookup(&self, _: Context, parent: u64, name: &CStr) -> io::Result<Entry> {
        Ok(entry(name, parent))
    }

    fn getattr(&self, _: Context, inode: u64, _: Option<u64>) -> io::Result<(Attr, Duration)> {
        Ok((Attr { ino: inode, ..Attr::default() }, Duration::ZERO))
    }

    fn readlink(&self, _: Context, inode: u64) -> io::Result<Vec<u8>> {
        Ok(inode.to_string().into_bytes())
    }
}

fn one_server_serves_all_threads() {
    let server = Server::new(Plain);
    let lengths = on_threads(move |at| {
        let mut scratch = Scratch::new();
        let serve = |number| {
            let mut buffer = [0; 1024];
            let bytes = request(number);
            let done =
                server.serve_one(&mut scratch, &[IoSlice::new(&bytes)], &mut [IoSliceMut::new(&mut buffer)]);
            assert_eq!(done.outcome, Ok(()));
            let decoded = decode(&mut scratch, number);
            assert_eq!(buffer[..done.len], answer(&mut scratch, decoded));
            done.len
        };
        (at as u64..(THREADS * EACH) as u64).step_by(THREADS).map(serve).collect()
    });
    assert_eq!(lengths.len(), THREADS * EACH);
    // Every fifth request is a FORGET, which has no reply.
    assert_eq!(lengths.iter().filter(|len| **len == 0).count(), THREADS * EACH / 5);
}

fn main() {
    requests_are_answered_on_other_threads();
    one_server_serves_all_threads();
    println!("{} requests on {THREADS} threads, twice.", THREADS * EACH);
}
