//! Values and conditions in words.

use card::book::Record;
use card::condition::condition;
use card::escape::{plain, unescape};
use card::fields::fields;
use card::refusal::{excerpt, file_place};
use card::words::value;

fn record(kind: u16, payload: &[u8]) -> Record<'_> {
    Record { offset: 0, kind, payload }
}

/// A value of this kind in words.
fn words(kind: u16, payload: &[u8]) -> String {
    value(&record(kind, payload))
}

#[test]
fn values() {
    assert_eq!(words(0x0131, &[0x04, 0x02, 0, 0]), "sign, nonRepudiation");
    assert_eq!(words(0x0131, &[0, 0, 0, 0]), "none");
    assert_eq!(words(0x0131, &[2, 0, 2, 0]), "decipher, bit17");
    assert_eq!(words(0x0190, &[0x10, 0, 0, 0]), "initialized");
    assert_eq!(words(0x0191, &[1, 0, 0, 0]), "ascii-numeric");
    assert_eq!(words(0x0134, &[0x81, 0xFF, 0xFF, 0xFF]), "-127");
    assert_eq!(words(0x0183, &[0, 8, 0, 0]), "2048");
    assert_eq!(words(0x0135, b"20261118093000Z"), "2026-11-18 09:30:00 UTC");
    assert_eq!(words(0x0150, &[]), "empty");
    assert_eq!(words(0x0150, &[0x45]), "45");
    assert_eq!(words(0x0150, b"PIN"), "50494E \"PIN\"");
    assert_eq!(words(0x0107, &[0xFF, 1, 0]), "FF, 1 byte");
    assert_eq!(words(0x0132, &[0]), "false");
}

/// What is not of its form is shown as it is.
#[test]
fn not_of_their_form() {
    assert_eq!(words(0x0131, &[1, 2]), "0102");
    assert_eq!(words(0x0135, b"2026"), "32303236");
    assert_eq!(words(0x0121, &[0xFF]), "FF");
    assert_eq!(words(0x0132, &[7]), "07");
    assert_eq!(words(0x0777, &[1]), "01");
}

const AND: u16 = 0x012A;
const OR: u16 = 0x012B;
const NOT: u16 = 0x0129;
const ID: u16 = 0x0127;

#[test]
fn conditions() {
    let all = [
        record(AND, &[2, 0]),
        record(ID, &[1]),
        record(OR, &[2, 0]),
        record(ID, &[2]),
        record(NOT, &[]),
        record(ID, &[3]),
        record(0x0130, &[9]),
    ];
    assert_eq!(condition(&all), ("01 and (02 or not 03)".to_string(), 6));
    let not = [record(NOT, &[]), record(AND, &[2, 0]), record(ID, &[]), record(0x0126, &[])];
    assert_eq!(condition(&not).0, "not (empty and always)");
    assert_eq!(condition(&[record(0x0128, &[0xA5, 0])]).0, "other A500");
}

/// Conditions that lack parts, or are too deep, end.
#[test]
fn broken_conditions() {
    assert_eq!(condition(&[record(AND, &[2, 0]), record(ID, &[1])]).0, "01 and ..");
    assert_eq!(condition(&[]), ("..".to_string(), 0));
    assert!(condition(&vec![record(NOT, &[]); 10_000]).1 <= 8);
    assert_eq!(fields(&vec![record(NOT, &[]); 100]).len(), 100);
}

#[test]
fn a_rule() {
    let all = [record(0x0125, &[3, 0, 0, 0]), record(ID, &[1]), record(0x012C, &[5, 0]), record(0x012F, &[5, 0])];
    let found = fields(&all);
    let pairs: Vec<(&str, &str)> = found.iter().map(|field| (field.name.as_str(), field.value.as_str())).collect();
    assert_eq!(pairs, [("rule 1", "read, update: 01; rest 0500"), ("common rest", "0500")]);
}

#[test]
fn escapes() {
    assert_eq!(plain("a\u{202E}\\<"), "a\\u{202E}\\u{5C}\\u{3C}");
    assert_eq!(unescape("a\\u{202E}\\u{5C}").as_deref(), Some("a\u{202E}\\"));
    for broken in ["\\", "\\u", "\\u{", "\\u{}", "\\u{D800}", "\\n", "\\u{110000}"] {
        assert_eq!(unescape(broken), None, "{broken}");
    }
}

/// A dump of CIAInfo of 2 bytes (4 to 5), EF.OD of none, a file 4401 of one byte (at 17).
const DUMP: [u8; 18] = [4, 0, 1, 0, 0x30, 0, 2, 0, 2, 0, 6, 0, 3, 0, 2, 0x44, 1, 0x30];

#[test]
fn places_in_files() {
    let told = |at: usize, number: u32| {
        let place = file_place(&DUMP, at, number);
        (place.file, place.offset)
    };
    assert_eq!(told(4, 3), ("CIAInfo".to_string(), 0));
    assert_eq!(told(6, 5), ("CIAInfo".to_string(), 2));
    assert_eq!(told(6, 2), ("between the dump's files".to_string(), 6));
    assert_eq!(told(10, 5), ("EF.OD".to_string(), 0));
    assert_eq!(told(17, 3), ("directory file 4401 (file 1)".to_string(), 0));
    assert_eq!(told(18, 5), ("directory file 4401 (file 1)".to_string(), 1));
    assert_eq!(told(18, 2).0, "between the dump's files");
    assert_eq!(told(99, 3).0, "between the dump's files");
}

#[test]
fn excerpts() {
    assert_eq!(excerpt(&DUMP, 4).to_string(), "0: 04 00 01 00 [30] 00 02 00 02 00 06 00");
    assert_eq!(excerpt(&DUMP, 18).to_string(), "10: 06 00 03 00 02 44 01 30 [end]");
    assert_eq!(excerpt(&[], 7).to_string(), "0: [end]");
}
