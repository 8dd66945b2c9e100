//! Batches of requests to measure, and virtiofsd's side of the measurement.
//!
//! A batch is the file system's number (0 `MemFs`, 1 `null`), how many of its requests come first and
//! once, and then for each request the length of its room, its own length, and its bytes; all numbers
//! are 32 bits, little endian.
use crate::descriptor_utils::{Reader, Writer};
use crate::filesystem::FileSystem;
use crate::memfs::MemFs;
use crate::nullfs::NullFs;
use crate::server::Server;
use std::ops::Range;
use vhost_user_backend::bitmap::BitmapMmapRegion;
use virtio_queue::{Descriptor, DescriptorChain};
use vm_memory::{GuestAddress, GuestMemoryMmap};

type Memory = GuestMemoryMmap<BitmapMmapRegion>;
type Chain<'a> = DescriptorChain<&'a Memory>;

pub const MEM: u32 = 0;
pub const NULL: u32 = 1;

/// The pieces of `n` bytes whose header has `head` bytes: one (0), header and body (1), 4096 bytes each
/// (2), 64 each (3), or one each (4). None is empty.
pub fn pieces(n: usize, head: usize, cutting: u32) -> Vec<Range<usize>> {
    let step = match cutting {
        0 => n,
        1 if n > head => return vec![0..head, head..n],
        1 => n,
        2 => 4096,
        3 => 64,
        _ => 1,
    };
    (0..n).step_by(step.max(1)).map(|at| at..n.min(at + step)).collect()
}

/// The checksum FNV-1a of 64 bits.
pub struct Digest(pub u64);
impl Default for Digest {
    fn default() -> Self {
        Digest(0xcbf2_9ce4_8422_2325)
    }
}
impl Digest {
    pub fn add(&mut self, bytes: &[u8]) {
        for b in bytes {
            self.0 = (self.0 ^ *b as u64).wrapping_mul(0x100_0000_01b3);
        }
    }
}

/// Where a request's bytes and its room lie in the batch and in the replies.
pub struct Place {
    pub request: Range<usize>,
    pub room: Range<usize>,
}
pub struct Batch {
    pub fs: u32,
    pub setup: Vec<Place>,
    pub measured: Vec<Place>,
    /// all rooms together
    pub room: usize,
}
impl Batch {
    pub fn parse(b: &[u8]) -> Option<Batch> {
        let word = |at: usize| Some(u32::from_le_bytes(b.get(at..at + 4)?.try_into().unwrap()));
        let (fs, setups) = (word(0)?, word(4)? as usize);
        let (mut at, mut room, mut all) = (8, 0, Vec::new());
        while at < b.len() {
            let (r, n) = (word(at)? as usize, word(at + 4)? as usize);
            at += 8;
            b.get(at..at + n)?;
            all.push(Place { request: at..at + n, room: room..room + r });
            (at, room) = (at + n, room + r);
        }
        if setups > all.len() {
            return None;
        }
        let measured = all.split_off(setups);
        Some(Batch { fs, setup: all, measured, room })
    }
}

/// Serves the setup requests of a batch once and the others `rounds` times, over a new server and a new
/// file system; leaves the replies of the last round in `replies` and answers their digest. A batch or
/// replies of the wrong form are answered by 0.
pub fn run(requests: &[u8], replies: &mut [u8], rounds: u32, cutting: u32) -> u64 {
    match Batch::parse(requests) {
        Some(b) if b.room <= replies.len() && b.fs == MEM => {
            drive(MemFs::default(), &b, requests, replies, rounds, cutting)
        }
        Some(b) if b.room <= replies.len() && b.fs == NULL => {
            drive(NullFs, &b, requests, replies, rounds, cutting)
        }
        _ => 0,
    }
}

fn drive<F: FileSystem + Sync>(
    fs: F,
    b: &Batch,
    requests: &[u8],
    replies: &mut [u8],
    rounds: u32,
    cutting: u32,
) -> u64 {
    // one region of guest memory with all requests, and one with all rooms
    let rooms = GuestAddress(1 << 32);
    let mem = Memory::from_ranges(&[(GuestAddress(0), requests.len()), (rooms, b.room)]).unwrap();
    mem.put(GuestAddress(0), requests);
    let chains = |places: &[Place]| -> Vec<Chain> {
        let chain = |p: &Place| {
            let descs = |r: &Range<usize>, base: u64, head, writable| -> Vec<Descriptor> {
                let desc = |d: Range<usize>| Descriptor {
                    addr: GuestAddress(base + (r.start + d.start) as u64),
                    len: d.len() as u32,
                    writable,
                };
                pieces(r.len(), head, cutting).into_iter().map(desc).collect()
            };
            let mut all = descs(&p.request, 0, 40, false);
            all.extend(descs(&p.room, rooms.0, 16, true));
            DescriptorChain::new(all)
        };
        places.iter().map(chain).collect()
    };
    let (setup, measured) = (chains(&b.setup), chains(&b.measured));
    let server = Server::new(fs);
    for c in &setup {
        serve(&server, &mem, c);
    }
    let mut outcomes = vec![(0, 0); measured.len()];
    for _ in 0..rounds {
        for (c, outcome) in measured.iter().zip(&mut outcomes) {
            *outcome = serve(&server, &mem, c);
        }
    }
    let mut digest = Digest::default();
    if rounds > 0 {
        for (p, (code, len)) in b.measured.iter().zip(&outcomes) {
            let at = p.room.start;
            let reply = &mut replies[at..at + *len as usize];
            if !reply.is_empty() {
                reply.copy_from_slice(&mem.get(GuestAddress(rooms.0 + at as u64), reply.len()));
            }
            digest.add(&code.to_le_bytes());
            digest.add(&len.to_le_bytes());
            digest.add(reply);
        }
    }
    digest.0
}

/// What is measured: from the descriptors to the answer.
fn serve<F: FileSystem + Sync>(server: &Server<F>, mem: &Memory, chain: &Chain) -> (u32, u32) {
    let r = Reader::new(mem, chain.clone()).unwrap();
    let w = Writer::new(mem, chain.clone()).unwrap();
    match server.handle_message(r, w, None::<&mut ()>) {
        Ok(n) => (0, n as u32),
        Err(e) => (e.name_and_code().1, 0),
    }
}
