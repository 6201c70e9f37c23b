//! "Handing back a field takes an object number and a kind. It returns the first such record's payload."

use crate::book::{records, Record};
use crate::refusal::{Refusal, NONE};

/// The offset and length of a field's payload in a book that is known to be accepted.
pub fn of_accepted(book: &[u8], object: u32, kind: u32) -> Result<(usize, usize), Refusal> {
    let all = records(book).expect("an accepted book has whole records");
    match find(&all, object, kind) {
        Some(record) => Ok((record.at + 4, record.payload.len())),
        None => Err((NONE, 0)),
    }
}

fn find<'a>(all: &[Record<'a>], object: u32, kind: u32) -> Option<Record<'a>> {
    if !(0x0121..=0x01FF).contains(&kind) {
        return None;
    }
    let start = all.iter().enumerate().filter(|(_, r)| r.kind == 0x0120).nth(object as usize)?.0;
    let own = all[start + 1..].iter().take_while(|r| !ends_object(r.kind));
    own.into_iter().find(|r| u32::from(r.kind) == kind).copied()
}

/// An object's records go up to the next object, entry, fill, file or record of a file, or up to EF.DIR's.
fn ends_object(kind: u16) -> bool {
    matches!(kind, 0x0120 | 0x0110 | 0x0107 | 0x0118 | 0x0119 | 0x011A | 0x0200)
}
