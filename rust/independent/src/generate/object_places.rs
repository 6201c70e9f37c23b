//! The numbers of 0120, which tell where an object stands: wrong ones, and right ones for a book that is damaged
//! elsewhere.

use super::node::{join, places, split, Record};
use super::rng::Rng;
use super::walk::{objects, Place};
use crate::write::compose;

const OBJECT: u16 = 0x0120;
/// The bytes of its payload: entry tag, object tag, file number, offset.
const LENGTH: usize = 6;

/// File number and offset.
type Numbers = (usize, usize);

impl Place {
    fn offset(&self) -> usize {
        self.at - self.from
    }

    /// The right numbers.
    fn numbers(&self) -> Numbers {
        (self.file, self.offset())
    }
}

/// What stands in the right numbers' stead, by mistake.
const SLIPS: [fn(&Place) -> Numbers; 26] = [
    // another file: CIAInfo counted, EF.DIR too; the first directory file as 0; entries counted
    |it| (it.file + 1, it.offset()),
    |it| (it.file + 2, it.offset()),
    |it| (it.file.saturating_sub(1), it.offset()),
    |it| (it.entry, it.offset()),
    // files without objects not counted; always 0; another high byte
    |it| (if it.file == 0 { 0 } else { it.holding + 1 }, it.offset()),
    |it| (0, it.offset()),
    |it| (it.file & 0xFF, it.offset()),
    |it| (it.file + 0x100, it.offset()),
    // another offset: one or two more or less; always 0; another high byte
    |it| (it.file, it.offset() + 1),
    |it| (it.file, it.offset() + 2),
    |it| (it.file, it.offset().saturating_sub(1)),
    |it| (it.file, it.offset().saturating_sub(2)),
    |it| (it.file, 0),
    |it| (it.file, it.offset() & 0xFF),
    |it| (it.file, it.offset() + 0x100),
    // from the dump's start; from the dump record; from its payload; from the entry or the record
    |it| (it.file, it.at),
    |it| (it.file, it.at - it.frame),
    |it| (it.file, it.at - it.frame - 4),
    |it| (it.file, it.at - it.part),
    // to the entry or the record; to the object's contents
    |it| (it.file, it.part - it.from),
    |it| (it.file, it.inside - it.from),
    // record lengths not counted
    |it| (it.file, it.offset() - 2 * it.lengths),
    // the two swapped; the high byte first
    |it| (it.offset(), it.file),
    |it| (swapped(it.file), swapped(it.offset())),
    |it| (it.file, swapped(it.offset())),
    |it| (swapped(it.file), it.offset()),
];

fn swapped(number: usize) -> usize {
    usize::from((number as u16).swap_bytes())
}

/// How many of a hundred damaged copies of this book are damaged here.
pub fn percent(all: &[Record]) -> usize {
    if all.iter().any(|record| record.kind == OBJECT) {
        15
    } else {
        0
    }
}

/// Damages the 0120 of one object or of all in a book that is accepted and has some.
pub fn damage(rng: &mut Rng, book: &[u8], all: &mut [Record]) {
    let own = objects(&compose(book).expect("an accepted book has its dump"));
    let mut chosen: Vec<(usize, Place)> = places(all, &[OBJECT]).into_iter().zip(own.iter().copied()).collect();
    if rng.chance(50) {
        chosen = vec![rng.pick(&chosen)];
    }
    match rng.below(8) {
        0 => {
            // two bytes were there before the numbers came
            let length = rng.pick(&[2, 2, 2, 5, 5, 7, 7, 0, 1, 3, 4, 8]);
            chosen.iter().for_each(|(at, _)| all[*at].payload.resize(length, 0));
        }
        1 => {
            let other = rng.pick(&own).numbers();
            chosen.iter().for_each(|(at, _)| put(&mut all[*at], other));
        }
        _ => {
            let mut slips = SLIPS.to_vec();
            slips.retain(|slip| chosen.iter().any(|(_, it)| slip(it) != it.numbers()));
            let slip = rng.pick(&slips);
            chosen.iter().for_each(|(at, it)| put(&mut all[*at], slip(it)));
        }
    }
}

/// A book that is damaged elsewhere, its objects with the numbers of the only dump that it can have now, so that the
/// damage alone decides. A book that can have none stays as it is.
pub fn repaired(book: Vec<u8>) -> Vec<u8> {
    let Some(dump) = compose(&book) else {
        return book;
    };
    let mut all = split(&book);
    for (at, it) in places(&all, &[OBJECT]).into_iter().zip(objects(&dump)) {
        if all[at].payload.len() == LENGTH {
            put(&mut all[at], it.numbers());
        }
    }
    join(&all)
}

/// Puts these numbers behind the two tags.
fn put(record: &mut Record, (file, offset): Numbers) {
    record.payload.truncate(2);
    record.payload.extend((file as u16).to_le_bytes());
    record.payload.extend((offset as u16).to_le_bytes());
}
