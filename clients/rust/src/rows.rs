use crate::error::done;
use crate::{sys, Db, Result};
use std::collections::VecDeque;
use std::mem::MaybeUninit;
use std::ops::{Bound, RangeBounds};

const MOST_KEY: usize = 255;

/// The rows of a range, page by page, of one moment. After an error it ends.
#[derive(Debug)]
pub struct Rows<'a> {
    db: &'a Db,
    snapshot: u64,
    owns_snapshot: bool,
    // Where the next page begins; none behind the last one.
    from: Option<Vec<u8>>,
    to: Option<Vec<u8>>,
    buffer: Vec<u8>,
    page: VecDeque<(Vec<u8>, Vec<u8>)>,
}

/// The least key above a key.
fn above(key: &[u8]) -> Option<Vec<u8>> {
    let mut next = key.to_vec();
    if next.len() < MOST_KEY {
        next.push(0);
        return Some(next);
    }
    // Of the keys of at most 255 bytes: the last byte that can be raised is, and those behind it go.
    next.truncate(MOST_KEY);
    while let Some(byte) = next.pop() {
        if byte < u8::MAX {
            next.push(byte + 1);
            return Some(next);
        }
    }
    None
}

impl<'a> Rows<'a> {
    pub(crate) fn new<'k>(db: &'a Db, snapshot: u64, owns_snapshot: bool, range: &impl RangeBounds<&'k [u8]>) -> Rows<'a> {
        let from = match range.start_bound() {
            Bound::Included(key) => Some(key.to_vec()),
            Bound::Excluded(key) => above(key),
            Bound::Unbounded => Some(Vec::new()),
        };
        let to = match range.end_bound() {
            Bound::Included(key) => above(key),
            Bound::Excluded(key) => Some(key.to_vec()),
            Bound::Unbounded => None,
        };
        let from = from.filter(|from| to.as_ref().map_or(true, |to| from < to));
        Rows { db, snapshot, owns_snapshot, from, to, buffer: Vec::new(), page: VecDeque::new() }
    }

    fn read(&mut self, from: &[u8]) -> Result<()> {
        self.buffer.resize(sys::PAGE_BYTES, 0);
        let (to, to_length) = match &self.to {
            Some(to) => (to.as_ptr(), to.len()),
            None => (std::ptr::null(), 0),
        };
        let mut page = MaybeUninit::<sys::Page>::uninit();
        // SAFETY: pointers and lengths are those of slices, and no `to` is null.
        done(unsafe {
            sys::corwaphi_rows(
                self.db.store(),
                self.snapshot,
                from.as_ptr(),
                from.len(),
                to,
                to_length,
                sys::MOST_ROWS,
                self.buffer.as_mut_ptr(),
                self.buffer.len(),
                page.as_mut_ptr(),
            )
        })?;
        // SAFETY: the call was well, and so has written it.
        let page = unsafe { page.assume_init() };
        let mut rest = &self.buffer[..page.length];
        for _ in 0..page.rows {
            let row = row_of(&mut rest);
            self.page.push_back(row);
        }
        self.from = if page.has_next { Some(row_of(&mut rest).0) } else { None };
        Ok(())
    }
}

/// Takes a row from the bytes of a page: two lengths in little endian, the key and the value.
fn row_of(rest: &mut &[u8]) -> (Vec<u8>, Vec<u8>) {
    let length = |at: usize| usize::from(u16::from_le_bytes([rest[at], rest[at + 1]]));
    let (key_end, value_end) = (4 + length(0), 4 + length(0) + length(2));
    let row = (rest[4..key_end].to_vec(), rest[key_end..value_end].to_vec());
    *rest = &rest[value_end..];
    row
}

impl Iterator for Rows<'_> {
    type Item = Result<(Vec<u8>, Vec<u8>)>;

    fn next(&mut self) -> Option<Self::Item> {
        if self.page.is_empty() {
            let from = self.from.take()?;
            if let Err(error) = self.read(&from) {
                return Some(Err(error));
            }
        }
        self.page.pop_front().map(Ok)
    }
}

impl Drop for Rows<'_> {
    fn drop(&mut self) {
        if self.owns_snapshot {
            self.db.release(self.snapshot);
        }
    }
}
