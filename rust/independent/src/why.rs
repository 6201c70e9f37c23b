//! "Why is this link missing?" (item 7 of document 02): for a row of the list one of four answers, the first that holds.

use crate::book::records;
use crate::links::{self, identifiers, link_stated, may_answer, of_the_class, Identifier, MISSING};
use crate::refusal::{Refusal, NONE};

/// Why a row of the list is as it is. A record is told by the book offset of its first byte and its kind.
#[derive(Clone, Copy, Debug, PartialEq, Eq)]
pub enum Why {
    /// met, with the record in which that row's answering object bears the identifier
    Met(usize, u16),
    /// no object of the right class at all
    NoObject,
    /// the value stands in a record that does not state a link of the same number: the one of the lowest offset
    Elsewhere(usize, u16),
    /// it stands in no such record
    Nowhere,
}

/// The answer for this row, from 0, of a book that is known to be accepted.
pub fn of_accepted(book: &[u8], row: u64) -> Result<Why, Refusal> {
    at(&of_rows(book), row)
}

/// The one of these answers that is for this row.
pub fn at(answers: &[Why], row: u64) -> Result<Why, Refusal> {
    let row = usize::try_from(row).ok();
    row.and_then(|row| answers.get(row).copied()).ok_or((NONE, 0))
}

/// The answers for all rows of a book that is known to be accepted.
pub fn of_rows(book: &[u8]) -> Vec<Why> {
    let all = identifiers(book);
    let entries = entries(book);
    links::of_accepted(book).into_iter().map(|row| of_row(row, &all, &entries)).collect()
}

fn of_row([link, _, offset, answering]: [u32; 4], all: &[Identifier], entries: &[u8]) -> Why {
    let stating = all.iter().find(|it| it.record.at == offset as usize).expect("a row has its stating record");
    // in the book's order, so that the first has the lowest offset
    let mut bearing = all.iter().filter(|it| it.record.payload == stating.record.payload);
    if answering != MISSING {
        let own = bearing.find(|it| it.object == answering && may_answer(link, it));
        let own = own.expect("the answering object bears the identifier");
        return Why::Met(own.record.at, own.record.kind);
    }
    if !entries.iter().any(|entry| of_the_class(link, *entry)) {
        return Why::NoObject;
    }
    match bearing.find(|it| link_stated(it) != Some(link)) {
        Some(other) => Why::Elsewhere(other.record.at, other.record.kind),
        None => Why::Nowhere,
    }
}

/// For each object the tag of its EF.OD entry.
fn entries(book: &[u8]) -> Vec<u8> {
    let all = records(book).expect("an accepted book has whole records");
    all.iter().filter(|record| record.kind == 0x0120).map(|record| record.payload[0]).collect()
}
