//! Walks chains by the crate virtio-queue, for `cases.py`: a line for each case has the descriptors that it yields,
//! each with whether one region has its bytes, and whether the last of them says that another one follows.

use std::io::{Read, Write};

use virtio_queue::{Queue, QueueOwnedT, QueueT};
use vm_memory::{Bytes, GuestAddress, GuestMemoryBackend, GuestMemoryMmap};

const ENTRIES: usize = 16 * 16;
const TABLE: u64 = 0x1000;
const AVAILABLE: u64 = 0x2000;
const USED: u64 = 0x3000;
const INDIRECT: u64 = 0x4000;

/// The memory of `cases.py`.
const REGIONS: [(GuestAddress, usize); 4] = [
    (GuestAddress(0), 0x8000),
    (GuestAddress(0x10000), 0x2000),
    (GuestAddress(0x12000), 0x1000),
    (GuestAddress(0x1_0000_0000), 0xc000_0000),
];

fn line(memory: &GuestMemoryMmap, case: &[u8]) -> String {
    let number = |at: usize| u16::from_le_bytes([case[at], case[at + 1]]);
    let (size, head) = (number(0), number(2));
    memory.write_slice(&case[4..4 + ENTRIES], GuestAddress(TABLE)).unwrap();
    memory.write_slice(&case[4 + ENTRIES..], GuestAddress(INDIRECT)).unwrap();
    let available = [0, 1, head];
    for (place, value) in available.iter().enumerate() {
        memory.write_obj(*value, GuestAddress(AVAILABLE + 2 * place as u64)).unwrap();
    }
    let mut queue = Queue::new(size).unwrap();
    queue.set_size(size);
    queue.set_desc_table_address(Some(TABLE as u32), Some(0));
    queue.set_avail_ring_address(Some(AVAILABLE as u32), Some(0));
    queue.set_used_ring_address(Some(USED as u32), Some(0));
    queue.set_ready(true);
    let mut text = String::new();
    let mut goes_on = true;
    let chain = queue.iter(memory).unwrap().next();
    for d in chain.into_iter().flatten() {
        let lies = memory.get_slice(d.addr(), d.len() as usize).is_ok();
        text += &format!("{:x}:{:x}:{}:{} ", d.addr().0, d.len(), u8::from(d.is_write_only()), u8::from(lies));
        goes_on = d.has_next();
    }
    text + if goes_on { "1" } else { "0" }
}

fn main() {
    let memory = GuestMemoryMmap::<()>::from_ranges(&REGIONS).unwrap();
    let mut cases = Vec::new();
    std::io::stdin().read_to_end(&mut cases).unwrap();
    let mut out = std::io::BufWriter::new(std::io::stdout());
    for case in cases.chunks_exact(4 + 2 * ENTRIES) {
        writeln!(out, "{}", line(&memory, case)).unwrap();
    }
}
