//! Requests with changed bytes, shortened or extended.

use super::{words, Request};

/// The node that each entry is of.
pub const NODE: u64 = 50;

/// Requests of all forms.
pub fn seeds() -> Vec<Vec<u8>> {
    let r = Request::new;
    let moves = |opcode| r(opcode, 5).u64(8).u64(0).u32(400).u32(2).u64(44).u32(2).u32(0);
    let blocks = [words(&[30, 1, 5, 0]), b"security\0value".to_vec(), words(&[16, 32, 1, 42])];
    [
        r(1, 1).name("a"),
        r(3, 5).u32(1).u32(0).u64(8),
        r(5, 5),
        r(9, 5).u32(0o755).u32(0).name("dir").bytes(&blocks.concat()),
        r(35, 5).bytes(&words(&[2, 0o600, 0, 1])).name("f").bytes(&blocks.concat()),
        r(51, 5).bytes(&words(&[2, 0o600, 0, 1])).name("/").bytes(&blocks.concat()),
        r(31, 5).u64(8).u64(44).u64(5).u64(9).u32(1).u32(77).u32(0).u32(0),
        r(33, 5).u64(8).u64(44).u64(5).u64(9).u32(1).u32(77).u32(1).u32(0),
        r(37, 5).u64(6).u32(512).u32(0),
        r(39, 5).u64(8).u32(0).u32(21).u64(22).u32(4).u32(4).bytes(b"four"),
        r(40, 5).u64(8).u64(6).u32(1).u32(4),
        r(41, 5).u64(0).u64(6).u32(4).u32(0).u64(0).u64(0).bytes(b"data"),
        r(52, 5).u32(1).u32(0).u64(8).u32(0).u32(0xfff),
        r(53, 1).u64(2).u64(3).u64(4).u64(5).u64(6).u64(7).u64(8),
        r(12, 5).u64(6).name("old").name("new"),
        moves(15),
        moves(16).bytes(&[7; 400]),
        r(21, 5).u32(5).u32(1).name("user.a").bytes(b"value"),
        r(22, 5).u32(9).u32(0).name("user.a"),
        moves(28),
        moves(44),
        moves(44),
        r(26, 0).bytes(&words(&[7, 38, 0, u32::MAX])).bytes(&[0xff; 48]),
        r(38, 0),
        r(17, 1),
        r(36, 0).u64(3),
        r(99, 0),
    ]
    .map(Request::done)
    .into()
}

/// Pseudorandom numbers.
pub struct Random(u64);

impl Random {
    pub fn new() -> Self {
        Random(88_172_645_463_325_252)
    }

    pub fn below(&mut self, end: usize) -> usize {
        self.0 ^= self.0 << 13;
        self.0 ^= self.0 >> 7;
        self.0 ^= self.0 << 17;
        usize::try_from(self.0 >> 11).unwrap() % end.max(1)
    }

    /// Returns one of the requests, mostly changed.
    pub fn request(&mut self, seeds: &[Vec<u8>]) -> Vec<u8> {
        let mut bytes = seeds[self.below(seeds.len())].clone();
        for _ in 0..self.below(4) {
            let at = self.below(bytes.len());
            match self.below(5) {
                0 => bytes.truncate(at.max(4)),
                1 => bytes.extend(vec![0; at]),
                2 => bytes[at % 4] = at.to_le_bytes()[0],
                3 => bytes[at] = [0, 1, 0xff, 0x80][self.below(4)],
                _ => bytes[at] ^= 1 << self.below(8),
            }
        }
        bytes
    }
}

pub fn word(bytes: &[u8], at: usize) -> u32 {
    u32::from_le_bytes(bytes[at..at + 4].try_into().unwrap())
}

/// Returns how many lookups of the node are in a reply.
pub fn delivered(opcode: u32, reply: &[u8]) -> i64 {
    if reply.len() < 16 || word(reply, 4) != 0 {
        return 0;
    }
    let is_node = |entry: &[u8]| i64::from(u64::from(word(entry, 0)) == NODE);
    match opcode {
        1 | 6 | 8 | 9 | 13 | 35 | 51 => is_node(&reply[16..]),
        44 => {
            let (mut at, mut count) = (16, 0);
            while at < reply.len() {
                count += is_node(&reply[at..]);
                at += 128 + (24 + word(reply, at + 128 + 16) as usize + 7) / 8 * 8;
            }
            assert_eq!(at, reply.len());
            count
        }
        _ => 0,
    }
}
