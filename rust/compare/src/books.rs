//! Writing, listing, handing back fields, and telling why a row is as it is.

use crate::counts::{Counts, Service};
use crate::lent::{byte_pattern, number_pattern, Task};
use crate::{whys, Differ};
use adarbukoi::{raw, Refusal};
use independent::book::records;
use independent::generate::Rng;
use independent::{field, links};

/// Compares the four services that take a book.
pub fn compare(book: &[u8], rng: &mut Rng, counts: &mut Counts) -> Result<(), Differ> {
    let dump = independent::write(book);
    let rows = match &dump {
        Ok(_) => Ok(links::of_accepted(book).concat()),
        Err(refusal) => Err(*refusal),
    };
    let refusal = dump.as_ref().err().copied();
    let write =
        Task { service: Service::Write, input: book, expected: dump, call: adarbukoi::write, pattern: byte_pattern };
    write.compare(rng, counts)?;
    let list =
        Task { service: Service::List, input: book, expected: rows, call: adarbukoi::list, pattern: number_pattern };
    list.compare(rng, counts)?;
    fields(book, refusal, rng, counts)?;
    whys::compare(book, refusal, rng, counts)
}

/// What stands before EF.DIR's records in a book that has them.
pub fn without_templates(book: &[u8]) -> Option<&[u8]> {
    let first = records(book)?.into_iter().find(|record| record.kind == 0x0200)?;
    Some(&book[..first.at])
}

/// Compares the services on an accepted book without its EF.DIR; "the link list is the same with it and without it".
pub fn compare_without(book: &[u8], without: &[u8], rng: &mut Rng, counts: &mut Counts) -> Result<(), Differ> {
    if Ok(links::of_accepted(book)) != independent::links(without) {
        return Err(Differ { what: "the list is another without EF.DIR".to_string(), input: book.to_vec() });
    }
    compare(without, rng, counts)
}

fn fields(book: &[u8], refusal: Option<(u32, usize)>, rng: &mut Rng, counts: &mut Counts) -> Result<(), Differ> {
    let times = if refusal.is_some() { 1 } else { 5 };
    for _ in 0..times {
        let (object, kind) = object_and_kind(book, rng);
        let due = match refusal {
            Some(refusal) => Err(refusal),
            None => field::of_accepted(book, object, kind),
        };
        let due = due.map_err(|(number, place)| Refusal { number, place: place as u64 });
        counts.add(Service::Field, due.err().map_or(0, |refusal| refusal.number));
        one_field(book, object, kind, due)?;
    }
    Ok(())
}

/// Mostly a field that is there, and otherwise one that may be.
fn object_and_kind(book: &[u8], rng: &mut Rng) -> (u32, u32) {
    let all = records(book).unwrap_or_default();
    let mut objects = 0;
    let mut fields = Vec::new();
    for record in all {
        match record.kind {
            0x0120 => objects += 1,
            // EF.DIR's records are no object's
            0x0200.. => {}
            kind if objects > 0 => fields.push((objects - 1, u32::from(kind))),
            _ => {}
        }
    }
    let any_object = rng.below(objects as usize + 2) as u32;
    let odd_kinds = [
        0x0119, 0x011A, 0x0120, 0x0121, 0x0123, 0x0127, 0x0130, 0x0150, 0x0160, 0x01A0, 0x01FF, 0x0200, 0x0101, 0,
        0x1_0123,
    ];
    if fields.is_empty() || rng.chance(10) {
        return (any_object, rng.pick(&odd_kinds));
    }
    let (object, kind) = rng.pick(&fields);
    match rng.below(9) {
        0 => (any_object, kind),
        1 => (object, rng.between(0x0121, 0x01FF) as u32),
        2 => (rng.draw() as u32, kind),
        3 => (object, rng.between(0x0200, 0x0212) as u32),
        _ => (object, kind),
    }
}

fn one_field(book: &[u8], object: u32, kind: u32, due: Result<(usize, usize), Refusal>) -> Result<(), Differ> {
    let differ = |what: String| {
        let what = format!("field of object {object}, kind {kind:04X}: {what}, due is {due:?}");
        Err(Differ { what, input: book.to_vec() })
    };
    let answer = adarbukoi::field_place(book, object, kind);
    if answer != due {
        return differ(format!("answered {answer:?}"));
    }
    match due {
        Ok((offset, length)) => {
            let part = adarbukoi::field(book, object, kind);
            if part != Ok(&book[offset..offset + length]) {
                return differ(format!("handed back {part:?}"));
            }
        }
        Err(_) => {
            if length_after(book, object, kind) != UNTOUCHED {
                return differ("the length was changed".to_string());
            }
        }
    }
    Ok(())
}

const UNTOUCHED: u64 = 0x1234_5678_9ABC_DEF0;

/// What stands in the length afterwards; the safe calls do not show it on a refusal.
fn length_after(book: &[u8], object: u32, kind: u32) -> u64 {
    let mut told = 0;
    let mut length = UNTOUCHED;
    // SAFETY: the book is lent with its own length.
    unsafe { raw::adarbukoi_field(book.as_ptr(), book.len(), object, kind, &mut told, &mut length) };
    length
}
