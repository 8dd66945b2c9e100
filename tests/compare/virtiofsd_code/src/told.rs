//! Answers that a session's lines tell, for the calls of the requests that follow, as `vfs_bench::seeded` has them.
use crate::request::unhex;
use std::collections::VecDeque;
use std::ffi::CString;
use std::sync::{Arc, Mutex};

/// An item of a directory: its node, offset, type and name.
#[derive(Clone)]
pub struct Item {
    pub ino: u64,
    pub offset: u64,
    pub type_: u32,
    pub name: CString,
}

/// An answer that a line tells.
pub enum Told {
    /// `answer N`: a node, options by their bits, a handle; else what stands for the seed.
    Value(u64),
    /// `answer fault N` or `answer fault none`.
    Fault(Option<i32>),
    /// `answer items ITEM ..`, or `answer endless ITEM ..`, whose first item follows its last.
    Directory(Vec<Item>, bool),
}

/// The answers that calls have not taken yet.
#[derive(Clone, Default)]
pub struct Answers(Arc<Mutex<VecDeque<Told>>>);

impl Answers {
    pub fn add(&self, told: Told) {
        self.0.lock().unwrap_or_else(|e| e.into_inner()).push_back(told);
    }
    pub fn take(&self) -> Option<Told> {
        self.0.lock().unwrap_or_else(|e| e.into_inner()).pop_front()
    }
}

/// Reads what follows `answer `. It is `None` where that has none of the forms.
pub fn parse_told(text: &[u8]) -> Option<Told> {
    let text = std::str::from_utf8(text).ok()?;
    match text.split_once(' ') {
        Some(("fault", "none")) => Some(Told::Fault(None)),
        Some(("fault", number)) => {
            number.parse().ok().filter(|n| *n > 0).map(|n| Told::Fault(Some(n)))
        }
        Some(("items", items)) => Some(Told::Directory(parse_items(items)?, false)),
        Some(("endless", items)) => Some(Told::Directory(parse_items(items)?, true)),
        _ => text.parse().ok().map(Told::Value),
    }
}

fn parse_items(text: &str) -> Option<Vec<Item>> {
    text.split(' ').map(parse_item).collect()
}

/// `INO,OFFSET,TYPE,NAME`, with the name in hex.
fn parse_item(text: &str) -> Option<Item> {
    let mut parts = text.splitn(4, ',');
    let ino = parts.next()?.parse().ok()?;
    let offset = parts.next()?.parse().ok()?;
    let type_ = parts.next()?.parse().ok()?;
    let name = CString::new(unhex(parts.next()?.as_bytes())?).ok()?;
    Some(Item { ino, offset, type_, name })
}
