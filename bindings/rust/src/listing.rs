//! Listing a directory.
#![forbid(unsafe_code)]

use crate::answer::{Encoded, To};
use crate::errno::{answered, Errno};
use crate::ffi::{DirItem, Scratch};
use crate::file_system::{Context, DirEntry, DirectoryIterator, Entry, FileSystem};
use crate::kinds;
use crate::server::{Server, HEADER};
use std::ffi::CStr;
use std::panic::{catch_unwind, resume_unwind, AssertUnwindSafe};

impl<F: FileSystem> Server<F> {
    /// Lists a directory: items until one does not fit, or, for a READDIRPLUS, until a lookup fails.
    pub(crate) fn read_directory<'s>(
        &self, scratch: &'s mut Scratch, place: &Place, to: To<kinds::Directory>,
    ) -> Encoded<'s> {
        let Place { ctx, node, handle, size, offset, .. } = *place;
        let begun = self.call(|files| files.readdir(ctx, node.into(), handle.into(), size, offset));
        let mut iterator = match begun {
            Ok(iterator) => iterator,
            Err(error) => return to.fail(scratch, &error),
        };
        let mut listing = Listing::default();
        // The size in the request, or that of the reply buffer after the header, if this is less.
        let max = (size as usize).min(to.reply_size().saturating_sub(HEADER));
        let list = || {
            while let Some(name) = self.take_item(&mut iterator, &mut listing, max, place.plus) {
                let is_dot = matches!(name, b"." | b"..");
                if place.plus && !is_dot && self.look_up(&mut listing, ctx, node) {
                    break;
                }
            }
        };
        // (a panic comes here only if none are caught)
        if let Err(panic) = catch_unwind(AssertUnwindSafe(list)) {
            // The client does not know of their lookups, so it could not forget them.
            listing.items().iter().filter_map(DirItem::lookup).for_each(|node| self.forget_lost(ctx, node));
            resume_unwind(panic);
        }
        to.answer(scratch, Ok(&listing.items()))
    }

    /// Adds the next item to the listing, if there is one and it fits. Returns its name.
    fn take_item<'l>(
        &self, iterator: &mut F::DirIter, listing: &'l mut Listing, max: usize, plus: bool,
    ) -> Option<&'l [u8]> {
        let taken = self.call(|_| Ok(iterator.next().map(|item| listing.add(&item, max, plus))));
        // If the iterator panics, the listing ends.
        matches!(taken, Ok(Some(true))).then(|| listing.last_name())
    }

    /// Looks the last item up. Returns whether that failed.
    fn look_up(&self, listing: &mut Listing, ctx: Context, node: u64) -> bool {
        let name = CStr::from_bytes_with_nul(&listing.names[listing.last_at()..]);
        let name = name.unwrap_or_default();
        let result = self.call(|files| files.lookup(ctx, node.into(), name));
        let failed = result.is_err();
        listing.set_entry(result.map_err(|error| answered(&error)));
        failed
    }
}

/// The arguments of a READDIR.
#[derive(Clone, Copy)]
pub(crate) struct Place {
    pub ctx: Context,
    pub node: u64,
    pub handle: u64,
    pub size: u32,
    pub offset: u64,
    pub plus: bool,
}

/// An item, whose name is in the listing.
#[derive(Debug)]
struct Record {
    ino: u64,
    offset: u64,
    kind: u32,
    /// The offset of its name.
    at: usize,
    /// The error is a number, because fuser's replies are `UnwindSafe`, which an `io::Error` is not.
    entry: Option<Result<Entry, Errno>>,
}

/// Items, and their names one after another, each with its NUL.
#[derive(Debug, Default)]
pub(crate) struct Listing {
    names: Vec<u8>,
    records: Vec<Record>,
    /// The length of their records.
    len: usize,
}

impl Listing {
    /// Adds an item, if it fits. Returns whether it does.
    pub fn add(&mut self, item: &DirEntry<'_>, max: usize, plus: bool) -> bool {
        let record = DirItem::new(item.ino, item.offset, item.type_, item.name).record_len(plus);
        // It doesn't underflow: `len` is the sum of records that each fitted.
        if record > max - self.len {
            return false;
        }
        self.len += record;
        let at = self.names.len();
        self.names.extend_from_slice(item.name.to_bytes_with_nul());
        self.records.push(Record { ino: item.ino, offset: item.offset, kind: item.type_, at, entry: None });
        true
    }

    /// Sets the result of looking the last item up.
    pub fn set_entry(&mut self, result: Result<Entry, Errno>) {
        if let Some(last) = self.records.last_mut() {
            last.entry = Some(result);
        }
    }

    /// Where the last item's name begins.
    fn last_at(&self) -> usize {
        self.records.last().map_or(0, |record| record.at)
    }

    /// The last item's name, without its NUL.
    fn last_name(&self) -> &[u8] {
        let name = &self.names[self.last_at()..];
        name.split_last().map_or(name, |(_, name)| name)
    }

    /// The items as the library takes them. They are made at the end, since `names` may move as it grows.
    pub fn items(&self) -> Vec<DirItem<'_>> {
        let ends = self.records.iter().skip(1).map(|record| record.at);
        let ends = ends.chain([self.names.len()]);
        self.records
            .iter()
            .zip(ends)
            .map(|(record, end)| {
                let name = CStr::from_bytes_with_nul(&self.names[record.at..end]);
                let item = DirItem::new(record.ino, record.offset, record.kind, name.unwrap_or_default());
                match record.entry {
                    Some(result) => item.looked_up(&result.map_err(Errno::into)),
                    None => item,
                }
            })
            .collect()
    }
}
