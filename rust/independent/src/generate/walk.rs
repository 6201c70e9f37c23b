//! Where the objects of a dump stand.

use crate::book::{records, Record};
use crate::read::element::{element, Element};
use crate::read::linear;

/// An object of a dump, and what its numbers in the book may be taken from, by right or by mistake. Places are those of
/// the dump.
#[derive(Clone, Copy)]
pub struct Place {
    /// The number of its file: 0 for EF.OD, then 1 upward.
    pub file: usize,
    /// How many files with objects are before its own; EF.OD is none of them.
    pub holding: usize,
    /// The number of its entry in EF.OD, from 1, those without a path counted.
    pub entry: usize,
    /// Where the dump record of its file starts, and where the file.
    pub frame: usize,
    pub from: usize,
    /// Where its entry in EF.OD starts, or its record's bytes, or else its file.
    pub part: usize,
    /// How many record lengths stand before it in its file.
    pub lengths: usize,
    /// Where it starts itself, and where its contents.
    pub at: usize,
    pub inside: usize,
}

struct Walk<'a> {
    dump: &'a [u8],
    found: Vec<Place>,
    /// The numbers of the entries that name a path.
    named: Vec<usize>,
    /// How many directory files there were, and how many of them with objects.
    files: usize,
    holding: usize,
}

/// The objects of a dump, as far as its elements are whole.
pub fn objects(dump: &[u8]) -> Vec<Place> {
    let mut walk = Walk { dump, found: vec![], named: vec![], files: 0, holding: 0 };
    for record in records(dump).unwrap_or_default() {
        match record.kind {
            2 => walk.directory(record),
            3 | 4 => walk.file(record),
            _ => {}
        }
    }
    walk.found
}

impl Walk<'_> {
    fn directory(&mut self, record: Record) {
        let from = record.at + 4;
        for (entry, it) in (1..).zip(elements(self.dump, from, from + record.payload.len())) {
            let known = (0xA0..=0xA8).contains(&it.tag);
            match elements(self.dump, it.from, it.end).first() {
                Some(list) if known && list.tag == 0xA0 => {
                    self.add(entry, record.at, from, it.at, 0, (list.from, list.end));
                }
                Some(path) if known && path.tag == 0x30 => self.named.push(entry),
                _ => {}
            }
        }
    }

    fn file(&mut self, record: Record) {
        let from = record.at + 5 + usize::from(record.payload[0]);
        let end = record.at + 4 + record.payload.len();
        let entry = self.named.get(self.files).copied().unwrap_or_default();
        let before = self.found.len();
        self.files += 1;
        if record.kind == 3 {
            self.add(entry, record.at, from, from, 0, (from, end));
        } else {
            for (lengths, part) in (1..).zip(linear::records(self.dump, from, end).unwrap_or_default()) {
                self.add(entry, record.at, from, part.0, lengths, part);
            }
        }
        self.holding += usize::from(self.found.len() > before);
    }

    /// Adds the objects that are in this part of the dump.
    fn add(&mut self, entry: usize, frame: usize, from: usize, part: usize, lengths: usize, list: (usize, usize)) {
        let (file, holding) = (self.files, self.holding);
        let place =
            |it: Element| Place { file, holding, entry, frame, from, part, lengths, at: it.at, inside: it.from };
        self.found.extend(elements(self.dump, list.0, list.1).into_iter().map(place));
    }
}

/// The elements from `from` to `end`, up to fill or to what is none.
fn elements(dump: &[u8], from: usize, end: usize) -> Vec<Element> {
    let mut all = Vec::new();
    let mut at = from;
    while at < end && !matches!(dump[at], 0x00 | 0xFF) {
        let Ok(it) = element(dump, at, end) else {
            break;
        };
        all.push(it);
        at = it.end;
    }
    all
}
