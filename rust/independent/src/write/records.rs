//! A walk over the records of a book.

use crate::book::{records, Record};

pub struct Records<'a> {
    all: Vec<Record<'a>>,
    next: usize,
}

impl<'a> Records<'a> {
    pub fn of(book: &'a [u8]) -> Option<Self> {
        Some(Records { all: records(book)?, next: 0 })
    }

    pub fn done(&self) -> bool {
        self.next == self.all.len()
    }

    /// The kind of the next record.
    pub fn kind(&self) -> Option<u16> {
        self.all.get(self.next).map(|record| record.kind)
    }

    /// The next record's payload if it is of this kind.
    pub fn take(&mut self, kind: u16) -> Option<&'a [u8]> {
        let record = self.all.get(self.next)?;
        if record.kind != kind {
            return None;
        }
        self.next += 1;
        Some(record.payload)
    }

    /// The next record's number if it is of this kind and has four bytes.
    pub fn number(&mut self, kind: u16) -> Option<u32> {
        self.take(kind)?.try_into().ok().map(u32::from_le_bytes)
    }

    /// As `number`, for a record that may be absent: the outer `None` says that the record is there but no number.
    pub fn optional_number(&mut self, kind: u16) -> Option<Option<u32>> {
        if self.kind() == Some(kind) {
            self.number(kind).map(Some)
        } else {
            Some(None)
        }
    }
}
