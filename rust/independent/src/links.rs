//! The links of a book: auth, condition, cert.

use crate::book::{records, Record};

/// The fourth number of a row whose link nothing answers.
pub const MISSING: u32 = 4_294_967_295;

/// An identifier that stands in an object.
pub(crate) struct Identifier<'a> {
    pub object: u32,
    /// The tag of the EF.OD entry that the object belongs to.
    pub entry: u8,
    pub record: Record<'a>,
}

/// The rows of a book that is known to be accepted.
pub fn of_accepted(book: &[u8]) -> Vec<[u32; 4]> {
    let all = identifiers(book);
    let mut rows = Vec::new();
    for stating in &all {
        if let Some(link) = link_stated(stating) {
            rows.extend(rows_of(link, stating, &all));
        }
    }
    rows
}

/// The identifiers of all objects, in the book's order.
pub(crate) fn identifiers(book: &[u8]) -> Vec<Identifier<'_>> {
    let mut found = Vec::new();
    let mut objects = 0;
    let mut entry = 0;
    for record in records(book).expect("an accepted book has whole records") {
        match record.kind {
            0x0120 => {
                objects += 1;
                entry = record.payload[0];
            }
            0x0123 | 0x0127 | 0x0130 | 0x0140 | 0x0150 => {
                found.push(Identifier { object: objects - 1, entry, record });
            }
            _ => {}
        }
    }
    found
}

/// Which link, if any, this identifier states.
pub(crate) fn link_stated(identifier: &Identifier) -> Option<u32> {
    match identifier.record.kind {
        0x0123 => Some(1),
        0x0127 => Some(2),
        0x0130 if identifier.entry == 0xA0 => Some(3),
        _ => None,
    }
}

/// One row for each object that answers, or one row that says missing.
fn rows_of(link: u32, stating: &Identifier, all: &[Identifier]) -> Vec<[u32; 4]> {
    let offset = stating.record.at as u32;
    let mut rows: Vec<[u32; 4]> = all
        .iter()
        .filter(|other| may_answer(link, other) && other.record.payload == stating.record.payload)
        .map(|other| [link, stating.object, offset, other.object])
        .collect();
    if rows.is_empty() {
        rows.push([link, stating.object, offset, MISSING]);
    }
    rows
}

/// Whether an object that bears this identifier answers a link of this number that names it.
pub(crate) fn may_answer(link: u32, other: &Identifier) -> bool {
    let kind = if matches!(link, 1 | 2) { 0x0150 } else { 0x0140 };
    other.record.kind == kind && of_the_class(link, other.entry)
}

/// Whether the objects of this entry are of the class that answers a link of this number.
pub(crate) fn of_the_class(link: u32, entry: u8) -> bool {
    match link {
        1 | 2 => entry == 0xA8,
        _ => (0xA4..=0xA6).contains(&entry),
    }
}
