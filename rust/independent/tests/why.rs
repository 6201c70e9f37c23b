//! Why a link is missing (item 7 of document 02): the four answers, with offsets worked out by hand, and the refusals.

mod common;

use common::components::with;
use common::*;
use independent::why::Why::{self, *};
use independent::{links, why};

/// Common attributes that state link 1, and such that state link 2, with the identifier 01.
const AUTH: &str = "040101";
const CONDITION: &str = "3008 3006 030100 040101";

/// An object of tag A1, which seals its type. In the book 0120 comes first, 10 bytes, and 01A0 last, 6 bytes; between
/// them a 0123, 0127, 0130, 0140 or 0150 of one byte has 5, the 0125 before a 0127 and the 0131 behind a 0130 have 8.
fn object(common: &str, class: &[u8]) -> Vec<u8> {
    tlv(0xA1, &[with(0x30, &hex(common)), with(0x30, class), hex("A1020500")])
}

/// A key: with nothing in common 29 bytes of the book, of which ten stand before its 0130.
fn key(common: &str, id: &str) -> Vec<u8> {
    object(common, &[with(0x04, &hex(id)), hex("030100")].concat())
}

/// A certificate or a PIN: with nothing in common 21 bytes, of which ten stand before its 0140 or 0150.
fn bearer(common: &str, id: &str) -> Vec<u8> {
    object(common, &with(0x04, &hex(id)))
}

/// A data container, which has a 0160 of 4 bytes, or a PIN without 0150: with nothing in common 20 or 16 bytes.
fn plain(common: &str) -> Vec<u8> {
    object(common, &[])
}

/// A card of these entries with their objects inside. In the book each 0110 has 6 bytes and the first is at 16, so that
/// the first object is at 22 and what comes behind its 0120 at 32.
fn card(entries: &[(u8, Vec<Vec<u8>>)]) -> Vec<u8> {
    let entries = entries.iter().map(|(tag, objects)| tlv(*tag, &[tlv(0xA0, objects)]));
    with_od(&entries.collect::<Vec<_>>().concat())
}

/// The card is accepted, its rows have these answers, and there is no row behind them.
fn answers(dump: &[u8], due: &[Why]) {
    let book = accepted(dump);
    assert_eq!(links(&book).unwrap().len(), due.len());
    for (row, answer) in (0..).zip(due) {
        assert_eq!(why(&book, row), Ok(*answer), "row {row}");
    }
    no_rows(&book, due.len() as u64);
}

/// There is no such row, nor any behind it, though some of those have the low bytes of row 0.
fn no_rows(book: &[u8], from: u64) {
    for row in [from, from + 1, 1 << 16, 1 << 32, 1 << 63, u64::MAX] {
        assert_eq!(why(book, row), Err((16, 0)), "row {row}");
    }
}

#[test]
fn shared_case() {
    // the PIN's 0123 is at 92, its 0150 at 97; there is no certificate; 02 stands in that 0123 only
    answers(&shared(), &[Met(97, 0x0150), NoObject, Nowhere]);
}

#[test]
fn missing_unblocking_pin() {
    // 0118 at 40: 0120, 0121 of 17, 0123 at 71, 0130 at 76, 0131, 0180 of 6, 0183 of 8
    // 0118 at 103: 0120, 0121 of 25, 0140 at 142, 0180 of 6; 0118 at 153: 0120, 0121 of 17, 0123 at 184, 0150 at 189
    let dump = include_bytes!("../../../samples/missing-unblocking-pin.dump");
    answers(dump, &[Met(189, 0x0150), Met(142, 0x0140), Nowhere]);
}

#[test]
fn links_1_and_2_elsewhere() {
    let asking = |before: (u8, Vec<Vec<u8>>)| {
        card(&[before, (0xA7, vec![plain(AUTH), plain(CONDITION)]), (0xA8, vec![bearer("", "02")])])
    };
    // 0110 at 16 and 22; 0123 at 38, 0160, 01A0; 0120 at 53, 0125, 0127 at 71: each stands in the other's record
    answers(&asking((0xA7, vec![])), &[Elsewhere(71, 0x0127), Elsewhere(38, 0x0123)]);
    // a key or a certificate before them has its identifier at 32
    for entry in 0xA1..=0xA3 {
        answers(&asking((entry, vec![key("", "01")])), &[Elsewhere(32, 0x0130); 2]);
    }
    for entry in 0xA4..=0xA6 {
        answers(&asking((entry, vec![bearer("", "01")])), &[Elsewhere(32, 0x0140); 2]);
    }
    // a private key's states a link of another number, which is the first row
    let dump = asking((0xA0, vec![key("", "01")]));
    answers(&dump, &[NoObject, Elsewhere(32, 0x0130), Elsewhere(32, 0x0130)]);
}

#[test]
fn link_3_elsewhere() {
    // 0130 at 32, 0131, 01A0; 0110 at 51, 0140 at 67, 01A0; 0110 at 78, 0120 at 84, what comes behind that at 94
    let with_third = |entry: u8, object: Vec<u8>| {
        card(&[(0xA0, vec![key("", "01")]), (0xA4, vec![bearer("", "02")]), (entry, vec![object])])
    };
    for entry in 0xA1..=0xA3 {
        answers(&with_third(entry, key("", "01")), &[Elsewhere(94, 0x0130)]);
    }
    answers(&with_third(0xA8, bearer("", "01")), &[Elsewhere(94, 0x0150)]);
    // a 0123, and behind 0125 a 0127, which have rows of their own
    answers(&with_third(0xA7, plain(AUTH)), &[Elsewhere(94, 0x0123), NoObject]);
    answers(&with_third(0xA7, plain(CONDITION)), &[Elsewhere(102, 0x0127), NoObject]);
}

#[test]
fn the_same_link_is_not_shown() {
    // 01 stands in two 0123, in two 0127, in the iDs of two private keys, and in no other record
    let pin = (0xA8, vec![bearer("", "02")]);
    let certificate = (0xA4, vec![bearer("", "02")]);
    answers(&card(&[(0xA7, vec![plain(AUTH); 2]), pin.clone()]), &[Nowhere; 2]);
    answers(&card(&[(0xA7, vec![plain(CONDITION); 2]), pin.clone()]), &[Nowhere; 2]);
    answers(&card(&[(0xA0, vec![key("", "01"); 2]), certificate.clone()]), &[Nowhere; 2]);
    // 0120 at 22, 47, 72: the 0123 at 32 and 57 are passed over, 0125 at 82, 0127 at 90
    let dump = card(&[(0xA7, vec![plain(AUTH), plain(AUTH), plain(CONDITION)]), pin]);
    answers(&dump, &[Elsewhere(90, 0x0127), Elsewhere(90, 0x0127), Elsewhere(32, 0x0123)]);
    // 0120 at 22, 51: the private 0130 at 32 and 61 are passed over, 0110 at 80, the secret key's 0130 at 96
    let dump = card(&[(0xA0, vec![key("", "01"); 2]), (0xA3, vec![key("", "01")]), certificate]);
    answers(&dump, &[Elsewhere(96, 0x0130); 2]);
}

#[test]
fn the_lowest_before_or_behind() {
    let key = |id: &str| (0xA1, vec![key("", id)]);
    let certificate = (0xA4, vec![bearer("", "01")]);
    let (asks, pin) = ((0xA7, vec![plain(AUTH)]), (0xA8, vec![plain("")]));
    let four = |first, second, third| card(&[first, second, third, pin.clone()]);
    // 0130 at 32, 0131, 01A0; 0110 at 51, 0123 at 67, 0160, 01A0; 0110 at 82, 0140 at 98: one before and one behind
    answers(&four(key("01"), asks.clone(), certificate.clone()), &[Elsewhere(32, 0x0130)]);
    // 0140 at 32, 01A0; 0110 at 43, 0123 at 59
    answers(&four(certificate.clone(), asks.clone(), key("01")), &[Elsewhere(32, 0x0140)]);
    // 0123 at 32, 0160, 01A0; 0110 at 47, 0130 or 0140 at 63: both behind
    answers(&four(asks.clone(), key("01"), certificate.clone()), &[Elsewhere(63, 0x0130)]);
    answers(&four(asks.clone(), certificate.clone(), key("01")), &[Elsewhere(63, 0x0140)]);
    // the 0130 at 63 has another value; 0131, 01A0; 0110 at 82, 0140 at 98
    answers(&four(asks, key("02"), certificate), &[Elsewhere(98, 0x0140)]);
}

#[test]
fn in_the_object_that_asks() {
    // 0123 at 32, 0130 at 37, 0131, 01A0: a public key whose PIN has the key's identifier, and a private one
    let pin = (0xA8, vec![plain("")]);
    answers(&card(&[(0xA1, vec![key(AUTH, "01")]), pin.clone()]), &[Elsewhere(37, 0x0130)]);
    let dump = card(&[(0xA0, vec![key(AUTH, "01")]), pin.clone(), (0xA4, vec![bearer("", "02")])]);
    answers(&dump, &[Elsewhere(37, 0x0130), Elsewhere(32, 0x0123)]);
    // 0123 at 32, 0140 at 37 in a certificate
    answers(&card(&[(0xA4, vec![bearer(AUTH, "01")]), pin.clone()]), &[Elsewhere(37, 0x0140)]);
    // 0123 at 32, 0125, 0127 at 45: a rule that names the guard
    let both = [AUTH, CONDITION].concat();
    answers(&card(&[(0xA7, vec![plain(&both)]), pin]), &[Elsewhere(45, 0x0127), Elsewhere(32, 0x0123)]);
}

#[test]
fn met() {
    // 0130 at 32, 0131, 01A0; 0110 at 51; certificates at 57, 78, 99, their 0140 at 67, 88, 109: two rows, each its own
    let certificates = vec![bearer("", "01"), bearer("", "02"), bearer("", "01")];
    answers(&card(&[(0xA0, vec![key("", "01")]), (0xA4, certificates)]), &[Met(67, 0x0140), Met(109, 0x0140)]);
    // one in each entry: 0140 at 32, 59, 86, the key's 0130 at 113
    let entries = [0xA6, 0xA4, 0xA5].map(|entry| (entry, vec![bearer("", "01")]));
    let dump = card(&[&entries[..], &[(0xA0, vec![key("", "01")])]].concat());
    answers(&dump, &[32, 59, 86].map(|offset| Met(offset, 0x0140)));
    // 0150 at 32, 01A0; 0110 at 43, 0123 at 59, 0160, 01A0, and at 74 0120, 0125, 0127
    let dump = card(&[(0xA8, vec![bearer("", "01")]), (0xA7, vec![plain(AUTH), plain(CONDITION)])]);
    answers(&dump, &[Met(32, 0x0150); 2]);
    // 0123 at 32, 0150 at 37: an object may answer its own link
    answers(&card(&[(0xA8, vec![bearer(AUTH, "01")])]), &[Met(37, 0x0150)]);
}

#[test]
fn met_before_elsewhere() {
    // 0130 at 32, 0131, 01A0; 0110 at 51, 0140 at 67, 01A0; 0110 at 78, 0123 at 94, 0150 at 99
    let dump = card(&[(0xA1, vec![key("", "01")]), (0xA4, vec![bearer("", "01")]), (0xA8, vec![bearer(AUTH, "01")])]);
    answers(&dump, &[Met(99, 0x0150)]);
    // 0123 at 32, 0130 at 37, 0131, 01A0; 0110 at 56, 0150 at 72, 01A0; 0110 at 83, 0140 at 99
    let dump = card(&[(0xA0, vec![key(AUTH, "01")]), (0xA8, vec![bearer("", "01")]), (0xA5, vec![bearer("", "01")])]);
    answers(&dump, &[Met(72, 0x0150), Met(99, 0x0140)]);
}

#[test]
fn no_object_before_elsewhere() {
    // 01 stands in every record that there is, but no object is of the class
    let both = [AUTH, CONDITION].concat();
    let others = [(0xA1, vec![key("", "01")]), (0xA4, vec![bearer(&both, "01")])];
    answers(&card(&others), &[NoObject; 2]);
    answers(&card(&[(0xA0, vec![key("", "01")]), (0xA8, vec![bearer("", "01")])]), &[NoObject]);
    // entries of the class without objects, inside or in a file, are none
    answers(&card(&[&others[..], &[(0xA8, vec![])]].concat()), &[NoObject; 2]);
    answers(&card(&[(0xA0, vec![key("", "01")]), (0xA4, vec![]), (0xA5, vec![]), (0xA6, vec![])]), &[NoObject]);
    let inside = tlv(0xA7, &[tlv(0xA0, &[plain(AUTH)])]);
    let named = [with_od(&[inside, hex("A806 3004 04024401")].concat()), record(3, &hex("024401"))].concat();
    answers(&named, &[NoObject]);
}

#[test]
fn objects_of_the_class() {
    // a PIN without 0150 is one: 0123 at 32, 0160, 01A0; 0110 at 47, then the key's 0110 at 69, its 0130 at 85
    let asks = (0xA7, vec![plain(AUTH)]);
    let pin = (0xA8, vec![plain("")]);
    answers(&card(&[asks.clone(), pin.clone()]), &[Nowhere]);
    answers(&card(&[asks, pin, (0xA2, vec![key("", "01")])]), &[Elsewhere(85, 0x0130)]);
    // so is the one that asks: 0123 at 32, 0125, 0127 at 45
    answers(&card(&[(0xA8, vec![plain(AUTH)])]), &[Nowhere]);
    let both = [AUTH, CONDITION].concat();
    answers(&card(&[(0xA8, vec![plain(&both)])]), &[Elsewhere(45, 0x0127), Elsewhere(32, 0x0123)]);
    // and certificates of each of the three entries
    for entry in 0xA4..=0xA6 {
        answers(&card(&[(0xA0, vec![key("", "01")]), (entry, vec![bearer("", "02")])]), &[Nowhere]);
    }
    // whatever their own tags, which are the first bytes of objects
    for tag in 0xA0..=0xA7 {
        let mut certificate = bearer("", "02");
        certificate[0] = tag;
        answers(&card(&[(0xA0, vec![key("", "01")]), (0xA4, vec![certificate])]), &[Nowhere]);
    }
}

#[test]
fn the_empty_identifier() {
    let asks = (0xA7, vec![plain("0400")]);
    // 0123 at 32 has 4 bytes; a PIN without 0150, and one with another, have no empty one
    answers(&card(&[asks.clone(), (0xA8, vec![plain("")])]), &[Nowhere]);
    answers(&card(&[asks.clone(), (0xA8, vec![bearer("", "00")])]), &[Nowhere]);
    // 0160, 01A0; 0110 at 46, an empty 0150 or 0130 at 62
    answers(&card(&[asks.clone(), (0xA8, vec![bearer("", "")])]), &[Met(62, 0x0150)]);
    let dump = card(&[asks, (0xA3, vec![key("", "")]), (0xA8, vec![plain("")])]);
    answers(&dump, &[Elsewhere(62, 0x0130)]);
}

#[test]
fn bytes_are_compared_whole() {
    // keys with less, more, and others: 01 is in no 0130
    let pin = (0xA8, vec![plain("")]);
    let keys = ["", "0101", "0100", "0001", "02", "81"].map(|id| key("", id)).to_vec();
    answers(&card(&[(0xA7, vec![plain(AUTH)]), (0xA1, keys), pin.clone()]), &[Nowhere]);
    // 255 bytes: 0123 at 32 has 259; 0160, 01A0; 0110 at 301; 0130 at 317 has another last byte, then at 317 + 283
    let long = |last: &str| ["07".repeat(254), last.to_string()].concat();
    let asks = (0xA7, vec![plain(&["0481FF".to_string(), long("08")].concat())]);
    let keys = vec![key("", &long("09")), key("", &long("08"))];
    answers(&card(&[asks, (0xA1, keys), pin]), &[Elsewhere(600, 0x0130)]);
}

#[test]
fn other_records_do_not_count() {
    // 01 as label, as path and in what is sealed: 0121, 0123 at 37, 0160 of an 04 inside, 01A0
    let container = object("0C0101 040101", &hex("040101"));
    // a certificate of tag 30 with a path of 01
    let certificate = tlv(0x30, &[hex("3000 3003040102"), hex("A107 3005 3003 040101")]);
    let dump = card(&[(0xA7, vec![container]), (0xA4, vec![certificate]), (0xA8, vec![plain("")])]);
    answers(&dump, &[Nowhere]);
    // 01 as application identifier, label, path and aid of a template in EF.DIR, whose records are no object's
    let templates = record(5, &hex("610E 4F0101 500101 510101 7303 4F0101"));
    answers(&[templates, dump].concat(), &[Nowhere]);
}

#[test]
fn in_files_and_records() {
    // 0110 8 and 6: a key inside at 30, its 0130 at 40, 0131, 01A0; 0119 at 59, 011A, 011A; 0120 at 71, 0123 at 81, 0150
    let records = [part(&[]), part(&bearer(AUTH, "02"))].concat();
    let od = [hex("A806 3004 04024401"), tlv(0xA1, &[tlv(0xA0, &[key("", "01")])])].concat();
    let dump = [with_od(&od), record(4, &[hex("024401"), records].concat())].concat();
    answers(&dump, &[Elsewhere(40, 0x0130)]);
    // 0110 8, 0119 at 24, 011A at 28; 0120 at 32, 0123 at 42, 01A0 at 47; 011A at 53; 0120 at 57, 0150 at 67
    answers(&linear(0xA8, &[part(&plain(AUTH)), part(&bearer("", "01"))]), &[Met(67, 0x0150)]);
    // 0110 8, 0118 at 24; 0120 at 28, 0123 at 38, 01A0; 0120 at 49, 0150 at 59
    answers(&filed(0xA8, &[plain(AUTH), bearer("", "01")].concat()), &[Met(59, 0x0150)]);
}

#[test]
fn a_long_list() {
    // or of 02 and of 01 254 times: 0125 at 32, 012B of 6 at 40, 0127 at 46 and each 5 on; 0160 at 1321, 01A0 at 1325
    let list = tlv(0xA2, &[hex("040102"), hex("040101").repeat(254)]);
    let rule = tlv(0x30, &[tlv(0x30, &[hex("030100"), list])]);
    let asks = tlv(0xA1, &[tlv(0x30, &[rule]), hex("3000 A1020500")]);
    // 0110 at 1331, 0150 at 1347: 02 is met, 01 is nowhere
    let pin = (0xA8, vec![bearer("", "02")]);
    let due = [vec![Met(1347, 0x0150)], vec![Nowhere; 254]].concat();
    answers(&card(&[(0xA7, vec![asks.clone()]), pin.clone()]), &due);
    // 0110 at 1358, 0123 at 1374, which for its part finds 01 in the second 0127, at 51
    let due = [vec![Met(1347, 0x0150)], vec![Elsewhere(1374, 0x0123); 254], vec![Elsewhere(51, 0x0127)]].concat();
    answers(&card(&[(0xA7, vec![asks]), pin, (0xA7, vec![plain(AUTH)])]), &due);
}

#[test]
fn no_such_row() {
    // no object, and objects that state nothing
    no_rows(&accepted(&with_od(&[])), 0);
    let silent = [(0xA1, vec![key("", "01")]), (0xA4, vec![bearer("", "01")]), (0xA8, vec![bearer("", "01")])];
    no_rows(&accepted(&card(&silent)), 0);
}

#[test]
fn books_come_first() {
    let book = accepted(&shared());
    for bad in [&book[..book.len() - 1], &book[1..], &[], &[book.clone(), book.clone()].concat()] {
        for row in [0, 2, 3, u64::MAX] {
            assert_eq!(why(bad, row), Err((15, 0)), "row {row}");
        }
    }
}
