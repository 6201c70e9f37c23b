//! Negative key references (item 5 of document 02): minus 128 to 255 for keyReference, and 7 for a negative number
//! everywhere else. Places and books are worked out by hand.

mod common;

use common::components::*;
use common::*;
use independent::book::records;
use independent::read::values;
use independent::write::element::integer_contents;
use independent::{field, links, write};

/// The book of a `key` under this entry whose 0134 has this payload: 0130 is at 32, 0131 at 36, 0134 at 44.
fn book_of(entry: u8, payload: &[u8]) -> Vec<u8> {
    [
        hex("0600 0101 01000000  0600 0501 00000000"),
        record(0x0110, &[entry, 0x01]),
        record(0x0120, &[entry, 0xA1, 0, 0, 4, 0]),
        hex("0200 3001  0600 3101 00000000"),
        record(KEY_REFERENCE, payload),
        hex("0400 A001 0500"),
    ]
    .concat()
}

/// All three services refuse this book.
fn no_book(book: &[u8]) {
    assert_eq!(write(book), Err((15, 0)));
    assert_eq!(links(book), Err((15, 0)));
    assert_eq!(field(book, 0, 0x0134), Err((15, 0)));
}

#[test]
fn minus_127_and_129() {
    let minus_127 = "18000200 A114 A012 A110 3000 3008 0400 030100 020181 A1020500";
    let plus_129 = "19000200 A115 A013 A111 3000 3009 0400 030100 02020081 A1020500";
    for (directory, number) in [(minus_127, "81FFFFFF"), (plus_129, "81000000")] {
        let dump = hex(&["0A000100 3006020101030100", directory].concat());
        let before = "0600 0101 01000000  0600 0501 00000000  0400 1001 A101  0800 2001 A1A1 0000 0400
            0200 3001  0600 3101 00000000";
        let book = hex(&[before, "0600 3401", number, "0400 A001 0500"].concat());
        assert_eq!(accepted(&dump), book);
        assert_eq!(book_of(0xA1, &hex(number)), book);
    }
}

#[test]
fn edges() {
    for (contents, payload) in [
        ("80", "80FFFFFF"),
        ("81", "81FFFFFF"),
        ("FE", "FEFFFFFF"),
        ("FF", "FFFFFFFF"),
        ("00", "00000000"),
        ("01", "01000000"),
        ("7F", "7F000000"),
        ("0080", "80000000"),
        ("0081", "81000000"),
        ("00FF", "FF000000"),
    ] {
        for (entry, (dump, _)) in (0xA0..).zip(key_references(contents)) {
            assert_eq!(accepted(&dump), book_of(entry, &hex(payload)));
        }
    }
}

#[test]
fn out_of_bounds() {
    // -129, -255, -256, -32,768; 256, 384, 385, 32,767
    each_refused(key_references, &["FF7F", "FF01", "FF00", "8000", "0100", "0180", "0181", "7FFF"], 7);
    // the last two, three, four, eight bytes are those of -127
    each_refused(
        key_references,
        &["00FF81", "00FFFF81", "00FFFFFF81", "80FFFFFF81", "FEFFFFFF81", "00FFFFFFFFFFFFFF81"],
        7,
    );
    // and those of 129
    each_refused(
        key_references,
        &["FF0081", "FF000081", "FF00000081", "0100000081", "8000000081", "FF0000000000000081"],
        7,
    );
    // -2^31, 2^31, -2^63, 2^63, -2^127 and 2^127 - 127
    let long = ["80000000", "0080000000", "8000000000000000", "008000000000000000"];
    let longer = ["80000000000000000000000000000000", "7FFFFFFFFFFFFFFFFFFFFFFFFFFFFF81"];
    for over in long.into_iter().chain(longer) {
        all_refused(key_references(over), 7);
    }
}

#[test]
fn form_before_bounds() {
    // -1, -127 and -128 with one byte too many, with more
    each_refused(integers, &["FFFF", "FF81", "FF80", "FFFFFF", "FFFFFF81", "FFFFFFFF81", "FFFFFFFFFFFFFFFF80"], 62);
    // 129 and 0 with one byte too many
    each_refused(integers, &["000081", "00000081", "0000000081", "0000", ""], 62);
    // out of bounds too: -129, -256, -2^31, and those that look like -127 and 129
    each_refused(integers, &["FFFF7F", "FFFF00", "FF80000000", "0000FFFFFF81", "FFFF00000081", "000100000081"], 62);
}

#[test]
fn every_other_number() {
    all_accepted(other_integers("04"));
    // -1, -2, -4, -127, -128, -129, -256, -32,768
    each_refused(other_integers, &["FF", "FE", "FC", "81", "80", "FF7F", "FF00", "8000"], 7);
    // the last four or eight bytes are those of 4, or the number is as low as can be
    each_refused(
        other_integers,
        &["FF00000004", "8000000004", "FF0000000000000004", "80000000", "8000000000000000"],
        7,
    );
    // too large
    each_refused(other_integers, &["0100000004", "010000000000000004", "00FFFFFFFF", "00FFFFFFFFFFFFFFFF"], 7);
}

#[test]
fn every_number_in_its_bounds() {
    for number in -70_000..=70_000 {
        let contents = integer_contents(number);
        assert_eq!(values::integer(&contents, number, number), Ok(number));
        assert_eq!(values::integer(&contents, number + 1, i64::MAX), Err(7));
        assert_eq!(values::integer(&contents, i64::MIN, number - 1), Err(7));
    }
}

#[test]
fn every_contents_of_one_byte() {
    for value in i8::MIN..=i8::MAX {
        assert_eq!(values::integer(&value.to_be_bytes(), -128, 255), Ok(value.into()));
    }
}

#[test]
fn contents_of_any_length() {
    for count in 2..400 {
        for first in [0x01, 0x7F, 0x80, 0xFE] {
            for last in [vec![0x00; count], vec![0xFF; count]] {
                assert_eq!(values::integer(&[vec![first], last].concat(), -128, 255), Err(7));
            }
        }
        assert_eq!(values::integer(&[vec![0x00], vec![0xFF; count]].concat(), -128, 255), Err(7));
        assert_eq!(values::integer(&[vec![0xFF], vec![0x00; count]].concat(), -128, 255), Err(7));
        assert_eq!(values::integer(&vec![0xFF; count], -128, 255), Err(62));
        assert_eq!(values::integer(&vec![0x00; count], -128, 255), Err(62));
    }
}

#[test]
fn one_element_after_the_other() {
    // keyReference at 31, startDate at 35 behind -129 and at 34 behind -127; accessFlags first
    refused(&key(0xA0, &hex("0202FF7F 1800")), 7, 31);
    refused(&key(0xA0, &hex("020181 1800")), 66, 34);
    refused(&key(0xA0, &hex("0300 0202FF7F")), 63, 31);
    refused(&key(0xA0, &hex("030100 0202FF7F")), 7, 34);
    // tag and length before: a second one, one behind endDate, one that runs over the class
    refused(&key(0xA0, &hex("020181 020181")), 3, 34);
    refused(&key(0xA0, &hex("800F 32303030303232393030303030305A 020181")), 3, 48);
    refused(&key(0xA0, &hex("0202FF")), 4, 31);
}

#[test]
fn in_files_and_records() {
    // a private key of tag 30: 31 the object, 33 the common, 35 the class, 37 iD, 39 usage, 42 keyReference
    let object = |component: &str| {
        let class = tlv(0x30, &[hex("0400 030100"), hex(component)]);
        tlv(0x30, &[hex("3000"), class, hex("A109 3007 30020400 020100")])
    };
    let book = hex("0600 0101 01000000  0600 0501 00000000  0600 1001 A0004401  0200 1801  0800 2001 A030 0100 0000
        0200 3001  0600 3101 00000000  0600 3401 80FFFFFF  0200 8001  0600 8301 00000000");
    assert_eq!(accepted(&filed(0xA0, &object("020180"))), book);
    refused(&filed(0xA0, &object("0202FF7F")), 7, 42);
    refused(&filed(0xA0, &object("0202FF80")), 62, 42);
    // two bytes on in a record
    accepted(&linear(0xA0, &[part(&object("020180")), part(&object("0201FF"))]));
    refused(&linear(0xA0, &[part(&object("0202FF7F"))]), 7, 44);
    refused(&linear(0xA0, &[part(&object("0202FF80"))]), 62, 44);
}

#[test]
fn fields_and_links() {
    for (component, payload) in [("020181", "81FFFFFF"), ("02020081", "81000000")] {
        let book = accepted(&key(0xA0, &hex(component)));
        assert_eq!(field(&book, 0, 0x0134), Ok((48, 4)));
        assert_eq!(book[48..52], hex(payload));
        // the private key's empty iD, which no certificate answers
        assert_eq!(links(&book).unwrap(), [[3, 0, 32, 4_294_967_295]]);
    }
}

#[test]
fn books_of_every_number_near_the_bounds() {
    for number in -1000..=1000i32 {
        let book = book_of(0xA3, &number.to_le_bytes());
        if (-128..=255).contains(&number) {
            let component = with(0x02, &integer_contents(number.into()));
            assert_eq!(write(&book), Ok(key(0xA3, &component)));
        } else {
            no_book(&book);
        }
    }
}

#[test]
fn books_out_of_bounds() {
    // 2^31 - 1, -2^31, -129, 256, 384
    for over in ["FFFFFF7F", "00000080", "7FFFFFFF", "00010000", "80010000"] {
        no_book(&book_of(0xA1, &hex(over)));
    }
    // the bytes of -127 in another order, or one or two of them changed
    for over in ["81FF0000", "81FFFF00", "0081FFFF", "FFFFFF81", "81FFFF7F", "81FFFFFE"] {
        no_book(&book_of(0xA1, &hex(over)));
    }
    // no number: another length than four
    for length in ["", "81", "81FF", "81FFFF", "81FFFFFFFF", "8100000000", "81FFFFFFFFFFFFFF"] {
        no_book(&book_of(0xA1, &hex(length)));
    }
}

#[test]
fn books_of_every_other_number() {
    let mut seen = Vec::new();
    for (dump, _) in other_integers("04") {
        let book = accepted(&dump);
        let all = records(&book).unwrap();
        for number in all.iter().filter(|record| OTHERS.contains(&record.kind)) {
            seen.push(number.kind);
            // -1, -127, -128, -2^31, 2^31 - 1, and what no number is
            for payload in ["FFFFFFFF", "81FFFFFF", "80FFFFFF", "00000080", "FFFFFF7F", "04", "0400000000"] {
                let changed = record(number.kind, &hex(payload));
                no_book(&[&book[..number.at], &changed, &book[number.at + 8..]].concat());
            }
        }
    }
    seen.sort();
    seen.dedup();
    assert_eq!(seen, OTHERS);
}

#[test]
fn flags_have_no_sign() {
    let book = accepted(&class(0xA1, &hex("0400 030500FFFFFFFF 030500FFFFFFFF 0201FF")));
    assert_eq!(book[36..60], hex("0600 3101 FFFFFFFF  0600 3301 FFFFFFFF  0600 3401 FFFFFFFF"));
}

#[test]
fn sealed_numbers_have_no_bounds() {
    // a data container's class, a rest, a certificate's class, in which no 02 is due
    accepted(&class(0xA7, &hex("020181 0202FF7F 0A01FF")));
    accepted(&common(&hex("0A01FF 8101FF")));
    accepted(&certificate(0xA4, &hex("0201FF 02050100000081")));
}
