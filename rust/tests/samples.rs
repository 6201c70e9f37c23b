//! Sample cards through the proved library.

use adarbukoi::{field, list, read, why, write, Refusal, Why};

const ANNEX_E2: &[u8] = include_bytes!("../../samples/annex-e2.dump");
const FOUR_ANSWERS: &[u8] = include_bytes!("../../samples/four-answers.dump");
const RECORD_FILES: &[u8] = include_bytes!("../../samples/record-files.dump");
const SHARED: &[u8] = include_bytes!("../../samples/shared.dump");
const TWO_APPLICATIONS: &[u8] = include_bytes!("../../samples/two-applications.dump");
const TWO_SCRIPTS: &[u8] = include_bytes!("../../samples/two-scripts.dump");
const TWO_SLOTS: &[u8] = include_bytes!("../../samples/two-slots.dump");

/// The book of a card: so long, written back to the dump, and with these links.
fn book(dump: &[u8], length: usize, links: &[u32]) -> Vec<u8> {
    let mut book = vec![0; length];
    assert_eq!(read(dump, &mut book), Ok(length));
    let mut again = vec![0; dump.len()];
    assert_eq!(write(&book, &mut again), Ok(dump.len()));
    assert_eq!(again, dump);
    let mut rows = vec![7; links.len() + 1];
    assert_eq!(list(&book, &mut rows), Ok(links.len()));
    assert_eq!(rows, [links, &[7]].concat());
    book
}

const ROWS: [u32; 16] = [1, 0, 101, 3, 3, 0, 114, 2, 1, 1, 204, 3, 3, 1, 209, u32::MAX];

#[test]
fn record_files() {
    book(RECORD_FILES, 432, &ROWS);
}

/// The same behind an EF.DIR of two templates, one of ours: its records are behind the others, so no row changes.
#[test]
fn two_applications() {
    let with = book(TWO_APPLICATIONS, 573, &ROWS);
    assert_eq!(with[..432], book(RECORD_FILES, 432, &ROWS));
    assert_eq!(with[432..441], [2, 0, 0x00, 2, 3, 0, 0x01, 2, 0]);
    let none = Err(Refusal { number: 16, place: 0 });
    assert_eq!((field(&with, 3, 0x0200), field(&with, 3, 0x0202)), (none, none));
}

#[test]
fn two_scripts() {
    let book = book(TWO_SCRIPTS, 871, &[1, 0, 220, 2, 3, 0, 225, 1, 1, 2, 709, 3]);
    let label = std::str::from_utf8(field(&book, 2, 0x0121).unwrap()).unwrap();
    assert_eq!((label.len(), label.chars().count()), (317, 222));
    assert!(label.starts_with("Κωδικός PIN ") && label.ends_with(" unblocked with the PUK"));
}

/// Slot 0x81 as minus 127, and as 129.
#[test]
fn two_slots() {
    let book = book(TWO_SLOTS, 363, &[1, 0, 92, 4, 3, 0, 97, 2, 1, 1, 168, 4, 3, 1, 173, 3]);
    assert_eq!(field(&book, 0, 0x0134), Ok(&(-127i32).to_le_bytes()[..]));
    assert_eq!(field(&book, 1, 0x0134), Ok(&129i32.to_le_bytes()[..]));
}

/// The rows of a book are as they are for these reasons, and there is no row behind them.
fn whys(book: &[u8], due: &[Why]) {
    for (row, reason) in (0..).zip(due) {
        assert_eq!(why(book, row), Ok(*reason));
    }
    assert_eq!(why(book, due.len() as u64), Err(Refusal { number: 16, place: 0 }));
    assert_eq!(why(&book[1..], 0), Err(Refusal { number: 15, place: 0 }));
}

/// The key's guard is the PIN's 0150 at 97; there is no certificate; the PIN's own guard, 02, is in no other record.
#[test]
fn shared_whys() {
    let book = book(SHARED, 134, &[1, 0, 46, 1, 3, 0, 51, u32::MAX, 1, 1, 92, u32::MAX]);
    whys(&book, &[Why::Met(97, 0x0150), Why::NoObject, Why::Nowhere]);
}

/// The key's guard is the PIN's 0150 at 138; there is no certificate; the PIN's own guard is the key's iD, at 73; the
/// unblocking PIN's, 09, is in no other record.
#[test]
fn four_answers() {
    let rows = [1, 0, 68, 1, 3, 0, 73, u32::MAX, 1, 1, 133, u32::MAX, 1, 2, 200, u32::MAX];
    let book = book(FOUR_ANSWERS, 250, &rows);
    whys(&book, &[Why::Met(138, 0x0150), Why::NoObject, Why::Elsewhere(73, 0x0130), Why::Nowhere]);
}

/// Its flags are 03 02 05 80 at 30; with 07 for 05 native, which is TRUE, is next, at 52.
#[test]
fn annex_e2() {
    let mut dump = ANNEX_E2.to_vec();
    assert_eq!(read(&dump, &mut [0; 200]), Err(Refusal { number: 64, place: 30 }));
    dump[32] = 0x07;
    assert_eq!(read(&dump, &mut [0; 200]), Err(Refusal { number: 68, place: 52 }));
}
