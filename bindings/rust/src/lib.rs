//! The FUSE protocol as calls and answers: safe Rust over the C library libnizwarf.
//!
//! The library decodes a request into a call of a file system. You make the call, on any thread and at any
//! later time. The library then encodes your answer as the reply. It is proved that, for any bytes and any
//! answer, its calls and replies are those of the protocol.
//!
//! There are four interfaces:
//!
//! - [`Scratch::decode`] returns a [`Call`] with its arguments and a [`To`], whose type determines the type
//!   of the answer.
//! - [`Server`] does this for a [`FileSystem`], a trait with the methods of virtiofsd's. [`make_call`] is for
//!   other traits that have them.
//! - [`mount()`] mounts a [`FileSystem`], and serves it.
//! - [`fuser`] mounts a file system that is written for the crate of this name.
//!
//! By default all replies are those of virtiofsd 1.13.2. [`Features`] are optional operations that a file
//! system may serve, such as locks. A [`Notifier`] informs the client of changes, and a [`Client`] sends
//! replies to calls that are answered later. [`consts`] has numbers of Linux, and [`AsOsStr`] converts names.
//!
//! ```
//! use nizwarf::{Call, Decoded, Scratch, Session};
//! use std::io::IoSlice;
//!
//! // Request number 7, a READLINK of node 2.
//! let mut request = [0; 40];
//! (request[0], request[4], request[8], request[16]) = (40, 5, 7, 2);
//! let request = [IoSlice::new(&request)];
//! let mut scratch = Scratch::new();
//! match scratch.decode(&Session::default(), &request, 4096) {
//!     Decoded::Call(pending) => match pending.call {
//!         Call::Readlink { node, to } => {
//!             assert_eq!(node, 2);
//!             let mut reply = to.answer(&mut scratch, Ok(b"text")).reply();
//!             assert_eq!(reply.bytes(), b"\x14\0\0\0\0\0\0\0\x07\0\0\0\0\0\0\0text");
//!         }
//!         other => panic!("{other:?}"),
//!     },
//!     Decoded::Finished(done) => panic!("{done:?}"),
//! }
//! ```
//!
//! You must make each call once, answer it with its true result, and drop the lookups that
//! [`Encoded::forget_lost`] reports, because the client does not know them and cannot forget them.
//!
//! # Threads
//! A [`Scratch`] is used by one call at a time, so each thread needs its own. A [`To`] may be sent to another
//! thread. A kernel has no other request in flight during an INIT or a DESTROY.
//!
//! # Memory
//! The bytes of a request must not change while they are borrowed. If a guest can change them, you must copy
//! them first.
//!
//! If an allocation of the library fails, the outcome is [`Refusal::OutOfMemory`]. This crate also allocates:
//! for calls, for names that span several slices, and for directories. As everywhere in Rust, the process
//! ends if that fails.
#![warn(missing_docs)]
#![deny(unsafe_code, unsafe_op_in_unsafe_fn)]

#[cfg(not(all(target_os = "linux", target_arch = "x86_64")))]
compile_error!("nizwarf is for Linux on x86-64");

#[macro_use]
mod record;

mod answer;
mod attr;
mod bytes;
#[macro_use]
mod call;
mod client;
mod codec;
pub mod consts;
mod device;
mod errno;
mod ffi;
mod file_system;
#[macro_use]
mod flags;
pub mod fuser;
pub mod kinds;
mod listing;
mod make;
mod mount;
mod names;
mod notifier;
mod numbers;
mod optional;
mod server;
mod system;
mod text;
mod transfer;

pub use answer::{Encoded, To};
pub use attr::{Attr, SetattrIn, Statvfs};
pub use bytes::{Bytes, Forgets, Pieces};
pub use call::{Call, PendingCall};
pub use client::Client;
pub use codec::{withhold, Decoded, Finished, Refusal, Reply, Session, WrongSize};
pub use consts::{DT_DIR, DT_LNK, DT_REG, DT_UNKNOWN};
pub use errno::Errno;
pub use ffi::{DirItem, Scratch};
pub use file_system::{
    Context, DirEntry, DirectoryIterator, Entry, Extensions, FileSystem, GetxattrReply, ListxattrReply,
    NoEntries, SecContext, ZeroCopyReader, ZeroCopyWriter, ROOT_ID,
};
pub use flags::{Features, FsOptions, IoctlFlags, OpenOptions, SetattrValid, SetxattrFlags, WritevFlags};
pub use mount::{mount, spawn_mount, MountOption, Mounted};
pub use names::AsOsStr;
pub use notifier::Notifier;
pub use optional::{IoctlRange, IoctlReply, Limits, Lock, LockType, PollHandle, Statx, StatxTime};
pub use server::{Served, Server};
pub use text::{print_reply, print_request, Checked};

// These can be sent to, and shared with, other threads.
const _: () = {
    const fn are_sent<T: Send + Sync>() {}
    are_sent::<(Session, Scratch, Call<'static>, PendingCall<'static>, DirItem<'static>, Notifier, Client)>();
};
