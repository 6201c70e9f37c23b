//! Where objects stand (item 8 of document 02): file number and offset in 0120, worked out by hand; and the books that
//! tell other ones, which no dump has.

mod common;

use common::*;
use independent::book::records;
use independent::{field, links, why, write};

/// File number and offset of each object in a book.
fn numbers(book: &[u8]) -> Vec<(u16, u16)> {
    let all = records(book).unwrap();
    let objects = all.iter().filter(|record| record.kind == 0x0120);
    objects
        .map(|record| {
            assert_eq!(record.payload.len(), 6);
            let number = |at: usize| u16::from_le_bytes([record.payload[at], record.payload[at + 1]]);
            (number(2), number(4))
        })
        .collect()
}

/// The card is accepted, and its objects have these numbers.
fn stand(dump: &[u8], due: &[(u16, u16)]) {
    assert_eq!(numbers(&accepted(dump)), due);
}

/// An entry of EF.OD that names this path: six bytes more than the path.
fn names(entry: u8, path: &str) -> Vec<u8> {
    tlv(entry, &[tlv(0x30, &[tlv(0x04, &[hex(path)])])])
}

/// A directory file of this kind, 3 or 4.
fn file(kind: u16, path: &str, bytes: &[u8]) -> Vec<u8> {
    let path = hex(path);
    record(kind, &[vec![path.len() as u8], path, bytes.to_vec()].concat())
}

/// An entry with data containers, of ten bytes each, inside: four bytes and they, as long as that is short.
fn holds(count: usize) -> Vec<u8> {
    tlv(0xA7, &[tlv(0xA0, &vec![container(); count])])
}

#[test]
fn shared_case() {
    stand(&shared(), &[(1, 0), (2, 0)]);
    // 0120 at 36: entry A0, tag 30, file 1, offset 0; at 82: A8, 30, 2, 0
    let book = accepted(&shared());
    assert_eq!(book[36..46], hex("0800 2001 A030 0100 0000"));
    assert_eq!(book[82..92], hex("0800 2001 A830 0200 0000"));
}

#[test]
fn in_ef_od() {
    // behind the entry's and the list's tag and length
    stand(&inline(0xA7, &[container()]), &[(0, 4)]);
    stand(&inline(0xA7, &[container(), container(), container()]), &[(0, 4), (0, 14), (0, 24)]);
    // entries of 24 and 14 bytes, of eight that name a path, and of two that are unknown
    stand(&with_od(&[holds(2), holds(1)].concat()), &[(0, 4), (0, 14), (0, 28)]);
    let od = [names(0xA0, "4401"), hex("8900"), holds(1)].concat();
    stand(&[with_od(&od), file(3, "4401", &[])].concat(), &[(0, 14)]);
    // an empty list, of four bytes, before
    stand(&with_od(&[holds(0), holds(1)].concat()), &[(0, 8)]);
    // lists of 120, 130 and 260 bytes, whose lengths and their entries' have one, two and three bytes
    for (count, first) in [(12, 4), (13, 6), (26, 8)] {
        let due: Vec<(u16, u16)> = (0..count).map(|object| (0, first + 10 * object)).collect();
        stand(&with_od(&holds(count.into())), &due);
    }
    // fill behind, and fill in CIAInfo's file, move nothing
    stand(&with_od(&[holds(1), hex("FFFF")].concat()), &[(0, 4)]);
    stand(&[record(1, &hex("3006020101030100 0000")), record(2, &holds(1))].concat(), &[(0, 4)]);
}

#[test]
fn in_transparent_files() {
    stand(&filed(0xA7, &container()), &[(1, 0)]);
    stand(&filed(0xA7, &[container(), container(), hex("00")].concat()), &[(1, 0), (1, 10)]);
    // the path's length does not matter
    let long = "44".repeat(64);
    let dump = [with_od(&names(0xA7, &long)), file(3, &long, &container())].concat();
    stand(&dump, &[(1, 0)]);
}

#[test]
fn in_record_files() {
    // behind the record's length
    stand(&linear(0xA7, &[part(&container())]), &[(1, 2)]);
    // records of 10, 0, 3 and 12 bytes with their lengths: 12, 2, 5, 14
    let padded = [container(), hex("FFFF")].concat();
    let records = [part(&container()), part(&[]), part(&hex("000000")), part(&padded), part(&container())];
    stand(&linear(0xA7, &records), &[(1, 2), (1, 21), (1, 35)]);
}

#[test]
fn files_are_numbered() {
    // an empty file, a record file, a transparent one; entries with objects inside, and unknown ones, take no number
    let od = [names(0xA7, "01"), holds(1), names(0xA7, "02"), hex("8900"), names(0xA7, "03")].concat();
    let files = [
        file(3, "01", &[]),
        file(4, "02", &[part(&[]), part(&container())].concat()),
        file(3, "03", &[container(), container()].concat()),
    ];
    let dump = [with_od(&od), files.concat()].concat();
    // EF.OD's entry of seven bytes stands before
    let due = [(0, 11), (2, 4), (3, 0), (3, 10)];
    stand(&dump, &due);
    // EF.DIR takes none
    stand(&[record(5, &hex("6103 4F0101 00")), dump].concat(), &due);
}

#[test]
fn two_bytes_of_number() {
    // 300 files, all but the last empty
    let path = |number: u16| format!("{number:04X}");
    let od: Vec<Vec<u8>> = (1..=300).map(|number| names(0xA7, &path(number))).collect();
    let mut files: Vec<Vec<u8>> = (1..300).map(|number| file(3, &path(number), &[])).collect();
    files.push(file(4, &path(300), &part(&container())));
    let dump = [with_od(&od.concat()), files.concat()].concat();
    stand(&dump, &[(300, 2)]);
    assert!(accepted(&dump).ends_with(&hex("0800 2001 A730 2C01 0200 0200 6001 0400 A001 0500")));
}

#[test]
fn two_bytes_of_offset() {
    // a container whose class holds 240 bytes: 3 + 2 + 3 + 243 + 4
    let large = tlv(0x30, &[hex("3000"), tlv(0x30, &[tlv(0x04, &[vec![0xAA; 240]])]), hex("A1020500")]);
    assert_eq!(large.len(), 255);
    let due: Vec<(u16, u16)> = (0..64).map(|object| (1, 255 * object)).collect();
    stand(&filed(0xA7, &large.repeat(64)), &due);
}

/// No dump has this book.
fn no_book(book: &[u8]) {
    assert_eq!(write(book), Err((15, 0)));
    assert_eq!(links(book), Err((15, 0)));
    assert_eq!(field(book, 0, 0x0160), Err((15, 0)));
    assert_eq!(why(book, 0), Err((15, 0)));
}

#[test]
fn other_numbers() {
    // 0110 8, 0119 4, 011A 4; 0120 at 32: file 1, offset 2
    let book = accepted(&linear(0xA7, &[part(&container())]));
    let with = |record: &str| [&book[..32], &hex(record), &book[42..]].concat();
    assert_eq!(with("0800 2001 A730 0100 0200"), book);
    for numbers in ["0000 0200", "0200 0200", "0101 0200", "0100 0000", "0100 0100", "0100 0300", "0100 0202"] {
        no_book(&with(&["0800 2001 A730", numbers].concat()));
    }
    // swapped, with the high byte first, from the dump's start (33), from its record (9)
    for numbers in ["0200 0100", "0001 0002", "0100 2100", "0100 0900"] {
        no_book(&with(&["0800 2001 A730", numbers].concat()));
    }
    // of another length: as it was without the numbers, one number, a byte less, a byte more
    for record in ["0400 2001 A730", "0600 2001 A730 0100", "0700 2001 A730 0100 02", "0900 2001 A730 0100 0200 00"] {
        no_book(&with(record));
    }
}

#[test]
fn numbers_of_the_other_object() {
    // two containers at 0 and 10 of file 1: 0118 at 24, 0120 at 28 and 48
    let book = accepted(&filed(0xA7, &[container(), container()].concat()));
    assert_eq!([&book[34..38], &book[54..58]], [hex("0100 0000"), hex("0100 0A00")]);
    let swapped = [&book[..34], &book[54..58], &book[38..54], &book[34..38], &book[58..]].concat();
    no_book(&swapped);
}
