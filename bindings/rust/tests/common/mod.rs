//! Requests and replies, written by hand from the protocol.
#![allow(dead_code)] // each test uses some of it

pub mod diary;
pub mod hostile;

use nizwarf::{Call, Context, Decoded, Features, FsOptions, Scratch, Session};
use std::fs::File;
use std::io::IoSlice;
use std::os::unix::io::OwnedFd;
use std::os::unix::net::UnixDatagram;
use std::time::Duration;

/// The caller and the number of all requests.
pub const WHO: Context = Context { uid: 1000, gid: 1001, pid: 77, unique: 7 };

/// A request under construction.
#[derive(Clone)]
pub struct Request(Vec<u8>);

impl Request {
    /// Begins with `fuse_in_header`, of 40 bytes.
    pub fn new(opcode: u32, node: u64) -> Self {
        Request(Vec::new()).u32(0).u32(opcode).u64(7).u64(node).u32(1000).u32(1001).u32(77).u32(0)
    }

    pub fn u32(self, number: u32) -> Self {
        self.bytes(&number.to_le_bytes())
    }

    pub fn u64(self, number: u64) -> Self {
        self.bytes(&number.to_le_bytes())
    }

    pub fn bytes(mut self, bytes: &[u8]) -> Self {
        self.0.extend_from_slice(bytes);
        self
    }

    /// Adds a name and its NUL.
    pub fn name(self, name: &str) -> Self {
        self.bytes(name.as_bytes()).bytes(&[0])
    }

    /// Returns the bytes, with their length in the header.
    pub fn done(self) -> Vec<u8> {
        let len = u32::try_from(self.0.len()).unwrap();
        self.long(len)
    }

    /// Returns the bytes, with this length in the header.
    pub fn long(mut self, len: u32) -> Vec<u8> {
        self.0[..4].copy_from_slice(&len.to_le_bytes());
        self.0
    }
}

/// A GETATTR.
pub fn getattr(node: u64) -> Request {
    Request::new(3, node).u32(0).u32(0).u64(0)
}

/// A READ, a READDIR or a READDIRPLUS, with the handle 8.
pub fn reading(opcode: u32, node: u64, offset: u64, size: u32) -> Request {
    Request::new(opcode, node).u64(8).u64(offset).u32(size).u32(0).u64(0).u32(0).u32(0)
}

/// An INIT of version 7.38 with these options, and `flags2` as their second half.
pub fn init(readahead: u32, flags: u32, flags2: u32) -> Request {
    let request = Request::new(26, 0).u32(7).u32(38).u32(readahead);
    request.u32(flags).u32(flags2).bytes(&[0; 44])
}

/// The bytes of numbers of 32 bits.
pub fn words(words: &[u32]) -> Vec<u8> {
    words.iter().flat_map(|word| word.to_le_bytes()).collect()
}

/// These, and zeros up to a length.
pub fn padded(numbers: &[u32], len: usize) -> Vec<u8> {
    let mut bytes = words(numbers);
    bytes.resize(len, 0);
    bytes
}

/// `fuse_dirent` of 24 bytes, and the name up to a multiple of 8.
pub fn record(ino: u32, offset: u32, kind: u32, name: &str) -> Vec<u8> {
    let len = u32::try_from(name.len()).unwrap();
    let mut bytes = [words(&[ino, 0, offset, 0, len, kind]), name.as_bytes().to_vec()].concat();
    bytes.resize((bytes.len() + 7) / 8 * 8, 0);
    bytes
}

/// A reply: `fuse_out_header`, of 16 bytes, and a body.
pub fn reply(body: &[u8]) -> Vec<u8> {
    let len = u32::try_from(16 + body.len()).unwrap();
    [words(&[len, 0, 7, 0]), body.to_vec()].concat()
}

/// The reply of an error.
pub fn fault(error: i32) -> Vec<u8> {
    [words(&[16]), (-error).to_le_bytes().to_vec(), words(&[7, 0])].concat()
}

/// A client at a socket that keeps messages apart.
pub struct Peer(pub UnixDatagram);

impl Peer {
    /// One, and the other end of the socket, for a server.
    pub fn new() -> (Self, File) {
        let (client, device) = UnixDatagram::pair().unwrap();
        client.set_read_timeout(Some(Duration::from_secs(20))).unwrap();
        (Peer(client), File::from(OwnedFd::from(device)))
    }

    /// Sends a request. One without bytes ends a thread of the server.
    pub fn send(&self, request: &[u8]) {
        assert_eq!(self.0.send(request).unwrap(), request.len());
    }

    /// Returns the next reply. It is empty if none comes.
    pub fn receive(&self) -> Vec<u8> {
        let mut bytes = vec![0; 1 << 13];
        let len = self.0.recv(&mut bytes).unwrap_or(0);
        bytes.truncate(len);
        bytes
    }

    pub fn exchange(&self, request: &[u8]) -> Vec<u8> {
        self.send(request);
        self.receive()
    }
}

/// A session in which all optional operations are enabled.
pub fn session(options: FsOptions) -> Session {
    let mut session = Session::default();
    session.set_options(options);
    session.set_features(Features::all());
    session
}

/// Returns the call of a request, with a buffer of this size for its reply.
pub fn call_of<'r>(scratch: &mut Scratch, request: &'r [IoSlice<'r>], reply_size: usize) -> Call<'r> {
    match scratch.decode(&session(FsOptions::empty()), request, reply_size) {
        Decoded::Call(pending) => pending.call,
        Decoded::Finished(done) => panic!("{done:?}"),
    }
}

/// Decodes a request, once for each way to cut it into two slices.
pub fn each_cutting(options: FsOptions, request: &[u8], mut test: impl FnMut(Context, Call<'_>)) {
    let mut scratch = Scratch::new();
    for cut in 0..=request.len() {
        let (first, second) = request.split_at(cut);
        let slices = [IoSlice::new(first), IoSlice::new(second)];
        match scratch.decode(&session(options), &slices, 4096) {
            Decoded::Call(pending) => test(pending.context, pending.call),
            Decoded::Finished(done) => panic!("cut at {cut}: {done:?}"),
        }
    }
}
