//! Telling why a row of the list is as it is.

use crate::counts::{Counts, Service};
use crate::Differ;
use adarbukoi::{raw, Refusal, Why};
use independent::generate::Rng;
use independent::why;

/// Compares the answers for the rows of a book that is accepted, or that is refused in this way.
pub fn compare(book: &[u8], refusal: Option<(u32, usize)>, rng: &mut Rng, counts: &mut Counts) -> Result<(), Differ> {
    if let Some(refusal) = refusal {
        let rows = [0, rng.draw()];
        return rows.into_iter().try_for_each(|row| one_row(book, row, Err(refusal), counts));
    }
    let answers = why::of_rows(book);
    rows(answers.len(), rng).try_for_each(|row| one_row(book, row, why::at(&answers, row), counts))
}

/// All rows; one past the last; and one far past it whose low half is that of one of these.
fn rows(count: usize, rng: &mut Rng) -> impl Iterator<Item = u64> {
    let far = rng.pick(&[1 << 32, 1 << 63, u64::MAX << 32]) + rng.below(count + 1) as u64;
    (0..=count as u64).chain([far])
}

/// What the C function answers, and what stands afterwards in the three numbers that it is lent.
#[derive(Debug, PartialEq)]
struct Told {
    number: u32,
    answer: u32,
    offset_or_place: u64,
    kind: u32,
}

/// What stands in them before.
const UNTOUCHED: Told =
    Told { number: 0, answer: 0x1234_5678, offset_or_place: 0x1234_5678_9ABC_DEF0, kind: 0x9ABC_DEF0 };

fn one_row(book: &[u8], row: u64, due: Result<why::Why, (u32, usize)>, counts: &mut Counts) -> Result<(), Differ> {
    let due = due.map(wrapped).map_err(|(number, place)| Refusal { number, place: place as u64 });
    let due_told = told_of(due);
    counts.add(Service::Why, due_told.number);
    if due.is_ok() {
        counts.add_why(due_told.answer);
    }
    let answer = adarbukoi::why(book, row);
    let told = told(book, row);
    if answer == due && told == due_told {
        return Ok(());
    }
    let what = format!("why of row {row}: answered {answer:?}, due is {due:?}; told {told:?}, due is {due_told:?}");
    Err(Differ { what, input: book.to_vec() })
}

/// The wrapper's word for the same.
fn wrapped(answer: why::Why) -> Why {
    match answer {
        why::Why::Met(offset, kind) => Why::Met(offset, kind.into()),
        why::Why::NoObject => Why::NoObject,
        why::Why::Elsewhere(offset, kind) => Why::Elsewhere(offset, kind.into()),
        why::Why::Nowhere => Why::Nowhere,
    }
}

/// The numbers of an answer: "the offset, 0 where there is none", the kind likewise; on a refusal two stay untouched.
fn told_of(due: Result<Why, Refusal>) -> Told {
    let (answer, offset, kind) = match due {
        Ok(Why::Met(offset, kind)) => (1, offset, kind),
        Ok(Why::NoObject) => (2, 0, 0),
        Ok(Why::Elsewhere(offset, kind)) => (3, offset, kind),
        Ok(Why::Nowhere) => (4, 0, 0),
        Err(Refusal { number, place }) => return Told { number, offset_or_place: place, ..UNTOUCHED },
    };
    Told { number: 0, answer, offset_or_place: offset as u64, kind }
}

/// The call itself; the safe one does not show everything that it leaves.
fn told(book: &[u8], row: u64) -> Told {
    let Told { mut answer, mut offset_or_place, mut kind, .. } = UNTOUCHED;
    // SAFETY: the book is lent with its own length.
    let number =
        unsafe { raw::adarbukoi_why(book.as_ptr(), book.len(), row, &mut answer, &mut offset_or_place, &mut kind) };
    Told { number, answer, offset_or_place, kind }
}
