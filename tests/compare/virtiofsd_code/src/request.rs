//! Requests: the lines of a session, as `vfs_demo` and `test_sessions` read them, and what becomes of one.
use crate::descriptor_utils::{Reader, Writer};
use crate::filesystem::FileSystem;
use crate::server::Server;
use crate::Error;
use std::panic::{catch_unwind, AssertUnwindSafe};
use vhost_user_backend::bitmap::BitmapMmapRegion;
use virtio_queue::{Descriptor, DescriptorChain};
use vm_memory::{GuestAddress, GuestMemoryMmap};

type Memory = GuestMemoryMmap<BitmapMmapRegion>;

/// The most bytes of all rooms of a line.
const MOST_ROOM: usize = 2_097_152;

/// The lengths of the rooms, and the bytes of the request in their segments.
pub struct Line {
    pub rooms: Vec<usize>,
    pub segments: Vec<Vec<u8>>,
}

/// Reads a line without its newline. It is `None` where the line has another form.
pub fn parse_line(line: &[u8]) -> Option<Line> {
    let at = line.iter().position(|&c| c == b' ')?;
    let rooms = line[..at]
        .split(|&c| c == b'+')
        .map(|part| number(part, 1, 7))
        .collect::<Option<Vec<_>>>()?;
    if rooms.iter().sum::<usize>() > MOST_ROOM {
        return None;
    }
    let segments = line[at + 1..].split(|&c| c == b'+').map(unhex).collect::<Option<_>>()?;
    Some(Line { rooms, segments })
}

/// The number in decimal digits, of which there are this many.
fn number(text: &[u8], least: usize, most: usize) -> Option<usize> {
    let good = (least..=most).contains(&text.len()) && text.iter().all(u8::is_ascii_digit);
    good.then(|| text.iter().fold(0, |n, c| n * 10 + (c - b'0') as usize))
}

/// The limit that a first line sets.
pub fn parse_limit(line: &[u8]) -> Option<u32> {
    let limit = number(line.strip_prefix(b"limit ")?, 4, 9)? as u32;
    (4096..=134_217_728).contains(&limit).then_some(limit)
}

pub fn unhex(text: &[u8]) -> Option<Vec<u8>> {
    if text.len() % 2 != 0 {
        return None;
    }
    let digit = |c: u8| (c as char).to_digit(16).map(|d| d as u8);
    text.chunks(2).map(|pair| Some(digit(pair[0])? * 16 + digit(pair[1])?)).collect()
}

pub fn hex(bytes: &[u8]) -> String {
    const DIGITS: &[u8; 16] = b"0123456789abcdef";
    bytes
        .iter()
        .flat_map(|c| [DIGITS[*c as usize >> 4] as char, DIGITS[*c as usize & 15] as char])
        .collect()
}

pub enum Outcome {
    Ok(usize),
    Err(Error),
    Panic,
}

/// What a request came to, and the bytes of its rooms afterwards.
pub struct Answer {
    pub outcome: Outcome,
    pub room: Vec<u8>,
}

/// Serves a request: each segment and each room is a region of guest memory of its own.
pub fn serve<F: FileSystem + Sync>(server: &Server<F>, line: &Line) -> Answer {
    let segments = line.segments.iter().map(|s| (s.len(), false));
    let mut ranges = Vec::new();
    let mut descriptors = Vec::new();
    for (i, (len, writable)) in segments.chain(line.rooms.iter().map(|&n| (n, true))).enumerate() {
        let addr = GuestAddress((i as u64) << 32);
        ranges.push((addr, len));
        descriptors.push(Descriptor { addr, len: len as u32, writable });
    }
    let memory = Memory::from_ranges(&ranges).unwrap();
    for (s, d) in line.segments.iter().zip(&descriptors) {
        memory.put(d.addr, s);
    }
    let chain: DescriptorChain<&Memory> = DescriptorChain::new(descriptors.clone());
    let reader = Reader::new(&memory, chain.clone()).unwrap();
    let writer = Writer::new(&memory, chain).unwrap();
    let run = AssertUnwindSafe(|| server.handle_message(reader, writer, None::<&mut ()>));
    let outcome = match catch_unwind(run) {
        Ok(Ok(n)) => Outcome::Ok(n),
        Ok(Err(e)) => Outcome::Err(e),
        Err(_) => Outcome::Panic,
    };
    let rooms = descriptors.iter().filter(|d| d.writable);
    Answer { outcome, room: rooms.flat_map(|d| memory.get(d.addr, d.len as usize)).collect() }
}

impl Answer {
    /// The answer as the programs write it, without its newline.
    pub fn text(&self) -> String {
        match &self.outcome {
            Outcome::Ok(0) => "ok 0".into(),
            Outcome::Ok(n) if *n > self.room.len() => {
                format!("ok {n}, past the room {}", hex(&self.room))
            }
            Outcome::Ok(n) => format!("ok {n} {}", hex(&self.room[..*n])),
            Outcome::Err(Error::EncodeMessage(_)) if !self.room.is_empty() => {
                format!("err EncodeMessage {}", hex(&self.room))
            }
            Outcome::Err(Error::InvalidXattrSize((said, found))) => {
                format!("err InvalidXattrSize {said} {found}")
            }
            Outcome::Err(error) => format!("err {}", error.name_and_code().0),
            Outcome::Panic => "panic".into(),
        }
    }

    /// The outcome and the whole room, as `test_sessions` writes them after its line `refusals`.
    pub fn whole(&self) -> String {
        let outcome = match &self.outcome {
            Outcome::Ok(n) => format!("Ok({n})"),
            Outcome::Err(Error::InvalidXattrSize(sizes)) => {
                format!("Err(InvalidXattrSize({sizes:?}))")
            }
            Outcome::Err(error) => format!("Err({})", error.name_and_code().0),
            Outcome::Panic => "panic".into(),
        };
        format!("{outcome}\nroom {}", hex(&self.room))
    }
}
