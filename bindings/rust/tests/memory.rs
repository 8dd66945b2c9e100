//! Allocations of the library that fail, one after another. This test replaces `malloc`, which sanitizers
//! replace, too; so it does not run under them.
#![deny(unsafe_op_in_unsafe_fn)]

mod common;

use common::{call_of, reading, session, Peer, Request};
use nizwarf::{
    Call, Client, Decoded, DirItem, Entry, FileSystem, FsOptions, NoEntries, Refusal, Scratch, Server,
};
use std::alloc::{GlobalAlloc, Layout, System};
use std::cell::Cell;
use std::ffi::{c_void, CString};
use std::io::{ErrorKind, IoSlice};
use std::sync::Mutex;
use std::thread;

thread_local! {
    /// Counts down to the allocation of this thread that fails. 0: none fails.
    static REFUSED: Cell<u32> = const { Cell::new(0) };
}

extern "C" {
    fn __libc_malloc(size: usize) -> *mut c_void;
    fn __libc_realloc(old: *mut c_void, size: usize) -> *mut c_void;
}

/// Returns whether this allocation fails.
fn is_refused() -> bool {
    REFUSED
        .try_with(|refused| {
            let left = refused.get();
            refused.set(left.saturating_sub(1));
            left == 1
        })
        .unwrap_or(false)
}

#[no_mangle]
extern "C" fn malloc(size: usize) -> *mut c_void {
    if is_refused() {
        return std::ptr::null_mut();
    }
    // SAFETY: it is the function of the C library.
    unsafe { __libc_malloc(size) }
}

/// # Safety
/// As for `realloc` of C.
#[no_mangle]
unsafe extern "C" fn realloc(old: *mut c_void, size: usize) -> *mut c_void {
    if is_refused() {
        return std::ptr::null_mut();
    }
    // SAFETY: it is the function of the C library, and the caller keeps its conditions.
    unsafe { __libc_realloc(old, size) }
}

/// The allocator of Rust, which does not fail.
struct Rust;

// SAFETY: it is the allocator of the system, by way of `malloc` here.
unsafe impl GlobalAlloc for Rust {
    unsafe fn alloc(&self, layout: Layout) -> *mut u8 {
        if layout.align() <= 16 {
            // SAFETY: it is the function of the C library, which aligns to 16 bytes.
            unsafe { __libc_malloc(layout.size()).cast() }
        } else {
            // SAFETY: as the caller promises.
            unsafe { System.alloc(layout) }
        }
    }

    unsafe fn dealloc(&self, at: *mut u8, layout: Layout) {
        // SAFETY: as the caller promises; the system's memory is the C library's.
        unsafe { System.dealloc(at, layout) }
    }
}

#[global_allocator]
static RUST: Rust = Rust;

/// Calls a function with one allocation failing. Returns its result, and whether one failed.
fn refuse<T>(number: u32, call: impl FnOnce() -> T) -> (T, bool) {
    REFUSED.with(|refused| refused.set(number));
    let result = call();
    (result, REFUSED.with(|refused| refused.replace(0)) == 0)
}

/// A LOOKUP.
fn lookup() -> Vec<u8> {
    Request::new(1, 1).name("abc").done()
}

/// Has one allocation of a test refused after another, until none is left. The test gets its number, and
/// returns its outcome, and whether an allocation was refused.
fn refuse_each(mut test: impl FnMut(u32) -> (Result<(), Refusal>, bool)) {
    let mut refusals = 0;
    for number in 1.. {
        let (outcome, was_refused) = test(number);
        if outcome.is_ok() {
            break;
        }
        assert!(was_refused);
        assert_eq!(outcome, Err(Refusal::OutOfMemory));
        refusals += 1;
    }
    assert!(refusals > 0);
}

/// What answers the call of a request: its field `to`.
macro_rules! to_of {
    ($request:expr, $Call:ident) => {
        match call_of(&mut Scratch::new(), &[IoSlice::new($request)], 4096) {
            Call::$Call { to, .. } => to,
            other => panic!("{other:?}"),
        }
    };
}

#[test]
fn decoding() {
    let bytes = lookup();
    let (first, second) = bytes.split_at(42);
    let slices = [IoSlice::new(first), IoSlice::new(second)];
    refuse_each(|number| {
        let mut scratch = Scratch::new();
        let decoded = refuse(number, || match scratch.decode(&session(FsOptions::empty()), &slices, 4096) {
            Decoded::Finished(done) => {
                assert!(done.reply.is_empty());
                done.outcome
            }
            Decoded::Call(_) => Ok(()),
        });
        // The scratch memory can be used again.
        assert!(matches!(scratch.decode(&session(FsOptions::empty()), &slices, 4096), Decoded::Call(_)));
        decoded
    });
}

#[test]
fn answering() {
    let bytes = lookup();
    refuse_each(|number| {
        let to = to_of!(&bytes, Lookup);
        // Scratch memory that is still empty.
        let mut scratch = Scratch::new();
        let entry = Entry { inode: 9, ..Entry::default() };
        let (encoded, was_refused) = refuse(number, || to.answer(&mut scratch, Ok(entry)));
        let outcome = encoded.outcome;
        let mut forgotten = Vec::new();
        let length = encoded.forget_lost(|node| forgotten.push(node)).len();
        let expected = if outcome.is_ok() { (144, vec![]) } else { (0, vec![9]) };
        assert_eq!((length, forgotten), expected);
        (outcome, was_refused)
    });
}

#[test]
fn a_directory_forgets_all() {
    let bytes = reading(44, 1, 0, 4000).done();
    let names = ["a", "b"].map(|name| CString::new(name).unwrap());
    let items = [
        DirItem::new(2, 1, 8, &names[0]).looked_up(&Ok(Entry { inode: 51, ..Entry::default() })),
        DirItem::new(3, 2, 8, &names[1]).looked_up(&Ok(Entry { inode: 52, ..Entry::default() })),
    ];
    refuse_each(|number| {
        let to = to_of!(&bytes, Readdir);
        let mut scratch = Scratch::new();
        let (encoded, was_refused) = refuse(number, || to.answer(&mut scratch, Ok(&items)));
        let (outcome, entries) = (encoded.outcome, encoded.entries);
        let mut forgotten = Vec::new();
        let mut answered = encoded.forget_lost(|node| forgotten.push(node));
        let expected = if outcome.is_ok() { (16 + 2 * 160, 2, vec![]) } else { (0, 0, vec![51, 52]) };
        assert_eq!((answered.len(), entries, forgotten), expected);
        assert_eq!(answered.bytes().len(), answered.len());
        (outcome, was_refused)
    });
}

/// A file system that keeps its client.
#[derive(Default)]
struct Keeping(Mutex<Option<Client>>);

impl FileSystem for Keeping {
    type Inode = u64;
    type Handle = u64;
    type DirIter = NoEntries;

    fn begin(&self, client: &Client) {
        *self.0.lock().unwrap() = Some(client.clone());
    }
}

#[test]
fn what_has_no_reply_gets_none_later() {
    let (theirs, device) = Peer::new();
    theirs.0.set_nonblocking(true).unwrap();
    let server = Server::new(Keeping::default());
    let forget = Request::new(2, 5).u64(1).done();
    let (was_refused, received) = thread::scope(|scope| {
        scope.spawn(|| server.serve(&device));
        let client = loop {
            match server.file_system().0.lock().unwrap().take() {
                Some(client) => break client,
                None => thread::yield_now(),
            }
        };
        let to = to_of!(&forget, Forget);
        let mut scratch = Scratch::new();
        let (encoded, was_refused) = refuse(1, || to.done(&mut scratch));
        client.send(encoded.forget_lost(|_| ())).unwrap();
        let received = theirs.0.recv(&mut [0; 64]);
        theirs.send(&[]); // it ends by this
        (was_refused, received)
    });
    assert!(was_refused);
    assert_eq!(received.unwrap_err().kind(), ErrorKind::WouldBlock);
}
