//! Sample cards: lengths, links and a label, worked out by hand.

mod common;

use common::*;
use independent::{field, links};

const MISSING: u32 = 4_294_967_295;

/// The book of a card, of these lengths and with these links.
fn book(dump: &[u8], lengths: [usize; 2], rows: &[[u32; 4]]) -> Vec<u8> {
    let book = accepted(dump);
    assert_eq!([dump.len(), book.len()], lengths);
    assert_eq!(links(&book).unwrap(), rows);
    book
}

/// Keys in records of 64 bytes, one certificate, a PIN in a record of 48.
#[test]
fn record_files() {
    let rows = [[1, 0, 101, 3], [3, 0, 114, 2], [1, 1, 204, 3], [3, 1, 209, MISSING]];
    book(include_bytes!("../../../samples/record-files.dump"), [426, 432], &rows);
}

/// The same behind an EF.DIR of two templates: 4 bytes of record, 53, 51 and 16 of fill more; in the book 141.
#[test]
fn two_applications() {
    let rows = [[1, 0, 101, 3], [3, 0, 114, 2], [1, 1, 204, 3], [3, 1, 209, MISSING]];
    book(include_bytes!("../../../samples/two-applications.dump"), [548, 573], &rows);
}

/// Labels in Greek and English, that of the PIN in 222 characters.
#[test]
fn two_scripts() {
    let rows = [[1, 0, 220, 2], [3, 0, 225, 1], [1, 2, 709, 3]];
    let book = book(include_bytes!("../../../samples/two-scripts.dump"), [783, 871], &rows);
    assert_eq!(field(&book, 2, 0x0121), Ok((384, 317)));
    assert_eq!(std::str::from_utf8(&book[384..701]).unwrap().chars().count(), 222);
}

/// Slot 0x81 as minus 127, and as 129.
#[test]
fn two_slots() {
    let rows = [[1, 0, 92, 4], [3, 0, 97, 2], [1, 1, 168, 4], [3, 1, 173, 3]];
    let book = book(include_bytes!("../../../samples/two-slots.dump"), [294, 363], &rows);
    assert_eq!([field(&book, 0, 0x0134), field(&book, 1, 0x0134)], [Ok((114, 4)), Ok((190, 4))]);
    assert_eq!([&book[114..118], &book[190..194]], [&[0x81, 0xFF, 0xFF, 0xFF], &[0x81, 0x00, 0x00, 0x00]]);
}
