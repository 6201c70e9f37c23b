//! Labels in two scripts (item 2 of document 02): 0103, 0104 and 0121 have at most 255 characters, of one to four bytes
//! each; everything else is still bounded in bytes. Places and books are worked out by hand.

mod common;

use common::*;
use independent::{field, links, write};

/// A character of each width: a, alpha, the euro sign, a key.
const WIDTHS: [&str; 4] = ["a", "α", "€", "\u{1F511}"];

/// CIAInfo with these components between version and cardflags, and an empty EF.OD. When they have 250 bytes or more:
/// 4 the sequence, 8 version, 11 the first of them.
fn with_info(parts: &[Vec<u8>]) -> Vec<u8> {
    let sequence = tlv(0x30, &[hex("020101"), parts.concat(), hex("030100")]);
    [record(1, &sequence), record(2, &[])].concat()
}

/// A dump for each of the three with this text, and the component's place if the text has 253 bytes or more. In the
/// third: 16 the entry, 20 the list, 24 the object, 28 the common, 32 the label.
fn each(text: &[u8]) -> [(Vec<u8>, usize); 3] {
    let element = |tag: u8| tlv(tag, &[text.to_vec()]);
    [
        (with_info(&[element(0x0C)]), 11),
        (with_info(&[element(0x80)]), 11),
        (inline(0xA7, &[with_common(&[element(0x0C)])]), 32),
    ]
}

/// The books of those three.
fn each_book(text: &[u8]) -> [Vec<u8>; 3] {
    let version = hex("0600 0101 01000000");
    let flags = hex("0600 0501 00000000");
    // the object ends where its entry ends, which is the first of EF.OD
    let object = with_common(&[tlv(0x0C, &[text.to_vec()])]);
    let offset = tlv(0xA7, &[tlv(0xA0, &[object.clone()])]).len() - object.len();
    let object = [hex("0400 1001 A701"), record(0x0120, &[0xA7, 0x30, 0, 0, offset as u8, 0])].concat();
    let rest = hex("0200 6001  0400 A001 0500");
    [
        [version.clone(), record(0x0103, text), flags.clone()].concat(),
        [version.clone(), record(0x0104, text), flags.clone()].concat(),
        [version, flags, object, record(0x0121, text), rest].concat(),
    ]
}

fn all_accepted(text: &[u8]) {
    for ((dump, _), book) in each(text).into_iter().zip(each_book(text)) {
        assert_eq!(accepted(&dump), book);
    }
}

fn all_refused(text: &[u8], number: u32) {
    for (dump, place) in each(text) {
        refused(&dump, number, place);
    }
}

/// The texts one after the other.
fn text(parts: &[&str]) -> Vec<u8> {
    parts.concat().into_bytes()
}

#[test]
fn the_most_of_each_width() {
    for (width, character) in WIDTHS.into_iter().enumerate() {
        let most = text(&[&character.repeat(255)]);
        assert_eq!(most.len(), 255 * (width + 1));
        all_accepted(&most);
        all_refused(&text(&[&character.repeat(256)]), 7);
    }
}

#[test]
fn greek_and_english() {
    // 256 bytes, which were too many: in 128 characters, and in 250 of which six are Greek
    all_accepted(&text(&[&"α".repeat(128)]));
    all_accepted(&text(&[&"α".repeat(6), &"a".repeat(244)]));
    // one Greek letter among 254 English ones, then among 255
    for before in [0, 1, 100, 254] {
        all_accepted(&text(&[&"a".repeat(before), "α", &"a".repeat(254 - before)]));
        all_refused(&text(&[&"a".repeat(before), "α", &"a".repeat(255 - before)]), 7);
    }
    all_refused(&text(&[&"a".repeat(255), "α"]), 7);
}

#[test]
fn all_widths_together() {
    // 63 of each are 252 characters and 630 bytes
    let mixed = WIDTHS.concat().repeat(63);
    all_accepted(&text(&[&mixed, "aα€"]));
    all_refused(&text(&[&mixed, "aα€\u{1F511}"]), 7);
}

#[test]
fn marks_count() {
    // combining marks, of which the first has no letter before it; the byte order mark, first or anywhere; NUL
    for mark in ["\u{301}", "\u{FEFF}", "\0"] {
        all_accepted(&text(&[&mark.repeat(255)]));
        all_refused(&text(&[&mark.repeat(256)]), 7);
        all_accepted(&text(&[mark, &"a".repeat(254)]));
        all_refused(&text(&[mark, &"a".repeat(255)]), 7);
        all_refused(&text(&[&"a".repeat(255), mark]), 7);
    }
    // a letter and its accent are two characters, the letter with the accent is one
    all_accepted(&text(&[&"é".repeat(255)]));
    all_refused(&text(&[&"e\u{301}".repeat(128)]), 7);
    all_accepted(&text(&[&"e\u{301}".repeat(127), "e"]));
}

#[test]
fn form_before_bound() {
    for character in WIDTHS {
        for count in [254, 255, 256, 300] {
            let good = character.repeat(count).into_bytes();
            // a byte that continues nothing; characters cut off, of each width; one that is overlong; a surrogate
            for bad in ["80", "CE", "E2", "E282", "F0", "F09F", "F09F94", "C080", "EDA080"] {
                all_refused(&[good.clone(), hex(bad)].concat(), 65);
                all_refused(&[hex(bad), good.clone()].concat(), 65);
                all_refused(&[good.clone(), hex(bad), good.clone()].concat(), 65);
            }
        }
        // the last of 255, then of 256, lacks its last byte
        for count in [255, 256].into_iter().filter(|_| character.len() > 1) {
            let mut cut = character.repeat(count).into_bytes();
            cut.pop();
            all_refused(&cut, 65);
        }
    }
}

#[test]
fn length_and_tag_before_both() {
    // a label of 256 characters that runs over the common by a byte
    let mut long = tlv(0x0C, &[vec![b'a'; 256]]);
    long.pop();
    refused(&inline(0xA7, &[with_common(&[long])]), 4, 32);
    // a second label is 3, whatever it holds: the first is at 32 and has 1,024 bytes
    let most = tlv(0x0C, &["\u{1F511}".repeat(255).into_bytes()]);
    let more = tlv(0x0C, &[vec![b'a'; 256]]);
    refused(&inline(0xA7, &[with_common(&[most, more])]), 3, 32 + 1024);
}

#[test]
fn all_three_in_one_card() {
    let most = "\u{1F511}".repeat(255).into_bytes();
    let over = "α".repeat(256).into_bytes();
    let card = |first: &[u8], second: &[u8], third: &[u8]| {
        let parts = [tlv(0x0C, &[first.to_vec()]), tlv(0x80, &[second.to_vec()])].concat();
        let info = record(1, &tlv(0x30, &[hex("020101"), parts, hex("030100")]));
        let od = record(2, &tlv(0xA7, &[tlv(0xA0, &[with_common(&[tlv(0x0C, &[third.to_vec()])])])]));
        [info, od].concat()
    };
    accepted(&card(&most, &most, &most));
    // manufacturerID is at 11, label behind its 1,024 bytes; CIAInfo ends behind that label's and cardflags
    refused(&card(&over, &over, &over), 7, 11);
    refused(&card(&most, &over, &over), 7, 1035);
    // EF.OD's record at 2,062, its file at 2,066: entry, list, object, common
    refused(&card(&most, &most, &over), 7, 2066 + 16);
}

#[test]
fn in_files_and_records() {
    let object = |count: usize| with_common(&[tlv(0x0C, &["\u{1F511}".repeat(count).into_bytes()])]);
    // 31 the object, 35 the common, 39 the label; two bytes on in a record
    accepted(&filed(0xA7, &object(255)));
    refused(&filed(0xA7, &object(256)), 7, 39);
    accepted(&linear(0xA7, &[part(&object(255)), part(&hex("FF"))]));
    refused(&linear(0xA7, &[part(&object(256)), part(&hex("FF"))]), 7, 41);
    // an object with the longest label has 4 + 4 + 1,024 + 2 + 4 bytes: fifteen fit into a file
    let fifteen = object(255).repeat(15);
    assert_eq!(fifteen.len(), 15 * 1038);
    accepted(&filed(0xA7, &fifteen));
}

#[test]
fn fields_and_links() {
    let most = "\u{1F511}".repeat(255);
    let common = tlv(0x30, &[tlv(0x0C, &[most.clone().into()]), hex("040101")]);
    let object = tlv(0xA1, &[common, hex("3003040101"), hex("A1020500")]);
    let book = accepted(&inline(0xA8, &[object]));
    // CIAInfo 16 bytes, 0110 6, 0120 10: 0121 is at 32 and has 1,024 bytes, then 0123, then 0150
    assert_eq!(field(&book, 0, 0x0121), Ok((36, 1020)));
    assert_eq!(book[36..1056], *most.as_bytes());
    assert_eq!(field(&book, 0, 0x0123), Ok((1060, 1)));
    assert_eq!(field(&book, 0, 0x0150), Ok((1065, 1)));
    assert_eq!(links(&book).unwrap(), [[1, 0, 1056, 0]]);
}

#[test]
fn books() {
    for character in WIDTHS {
        for book in each_book(&character.repeat(255).into_bytes()) {
            assert!(write(&book).is_ok());
        }
        for book in each_book(&character.repeat(256).into_bytes()) {
            assert_eq!(write(&book), Err((15, 0)));
            assert_eq!(links(&book), Err((15, 0)));
            assert_eq!(field(&book, 0, 0x0121), Err((15, 0)));
        }
    }
    // 255 characters and one cut off, and no character at all
    for book in each_book(&[vec![b'a'; 255], hex("CE")].concat()) {
        assert_eq!(write(&book), Err((15, 0)));
    }
    for book in each_book(&[]) {
        assert!(write(&book).is_ok());
    }
}

#[test]
fn identifiers_and_serial_numbers_have_bytes() {
    // 127 characters of two bytes and one of one are 255 bytes, 128 of two are one byte too many
    let fits = text(&[&"α".repeat(127), "a"]);
    let over = text(&[&"α".repeat(128)]);
    let octets = |bytes: &[u8]| tlv(0x04, &[bytes.to_vec()]);
    // serialNumber
    accepted(&with_info(&[octets(&fits)]));
    refused(&with_info(&[octets(&over)]), 7, 11);
    // authId in the common: entry 16, list 20, object 24, common 28
    accepted(&inline(0xA7, &[with_common(&[octets(&fits)])]));
    refused(&inline(0xA7, &[with_common(&[octets(&over)])]), 7, 32);
    // a condition's identifier: rules 32, rule 36, accessMode 40, condition 43
    accepted(&inline(0xA7, &[with_condition(&octets(&fits))]));
    refused(&inline(0xA7, &[with_condition(&octets(&over))]), 7, 43);
    // iD of a key and of a certificate, and own authId: common 28, class 30
    let object = |class: &[u8]| tlv(0xA1, &[hex("3000"), tlv(0x30, &[class.to_vec()]), hex("A1020500")]);
    for (entry, more) in [(0xA0, "030100"), (0xA5, ""), (0xA8, "")] {
        accepted(&inline(entry, &[object(&[octets(&fits), hex(more)].concat())]));
        refused(&inline(entry, &[object(&[octets(&over), hex(more)].concat())]), 7, 34);
    }
}

#[test]
fn paths_and_pad_char_have_bytes() {
    // EF.OD's path: 32 characters of two bytes fit, 33 do not
    let path = |count: usize| tlv(0x04, &["α".repeat(count).into_bytes()]);
    let named = |count: usize| with_od(&tlv(0xA7, &[tlv(0x30, &[path(count)])]));
    accepted(&[named(32), record(3, &[vec![64], "α".repeat(32).into_bytes()].concat())].concat());
    refused(&named(33), 7, 20);
    // a certificate's, all lengths being short: 20 object, 22 common, 24 class, 28 A1, 30 sequence, 32 Path, 34 the 04
    let certificate = |count: usize| {
        let sequence = tlv(0x30, &[tlv(0x30, &[path(count)])]);
        inline(0xA4, &[tlv(0x30, &[hex("3000 30020400"), tlv(0xA1, &[sequence])])])
    };
    accepted(&certificate(32));
    refused(&certificate(33), 7, 34);
    // padChar: one character of two bytes
    let pad_char = |text: &str| inline(0xA8, &[password(&[password_needs(), tlv(0x04, &[text.into()])])]);
    accepted(&pad_char("a"));
    refused(&pad_char("α"), 7, 42);
}

#[test]
fn sealed_texts_have_no_bound() {
    // in a data container's class, in a rest, as a type: neither characters nor form are looked at
    let within = |tag: u8| tlv(tag, &[tlv(0x0C, &[[vec![b'a'; 256], hex("CE")].concat()])]);
    accepted(&inline(0xA7, &[tlv(0x30, &[hex("3000"), within(0x30), hex("A1020500")])]));
    accepted(&inline(0xA8, &[tlv(0xA1, &[hex("3000"), within(0x30), hex("A1020500")])]));
    accepted(&inline(0xA7, &[tlv(0x30, &[hex("3000 3000"), within(0xA1)])]));
}
