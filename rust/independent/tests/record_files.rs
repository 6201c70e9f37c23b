//! Record files (item 1 of document 02): a card with both kinds of file, each refusal with its place, and the books.
//! Books and places are worked out by hand.

mod common;

use common::*;
use independent::{field, links, write};

/// Five files: records with a key and fill, of nothing, of fill; a transparent one with a certificate and fill; records
/// with two authentication objects; no record; a transparent one that is empty.
fn both_kinds() -> Vec<u8> {
    hex("0A000100 3006020101030100
         2A000200 A006300404024401 A406300404024402 A806300404024403 A706300404024404 A706300404024405
         31000400024401
           2000 301C 3003040101 30070401010302 0520 A10C300A300404024B0102020800 FFFF
           0000
           0300 000000
           0100 FF
         19000300024402 3011 3000 3003040101 A1083006300404024331 00
         31000400024403
           1D00 301B 3003040102 3003040101 A10F300D030203080A0101020104020108
           0B00 A108 3000 3000 A1020500 00
         05000400024404
         05000300024405")
}

/// Its book; the records with a row of the list are the 0123 at 74, the 0130 at 79 and the 0123 at 189.
fn both_kinds_book() -> Vec<u8> {
    hex("0600 0101 01000000  0600 0501 00000000
        0600 1001 A0004401  0600 1001 A4004402  0600 1001 A8004403  0600 1001 A7004404  0600 1001 A7004405
        0200 1901
          0200 1A01  0800 2001 A030 0100 0200  0300 2301 01  0300 3001 01  0600 3101 04000000
            0400 8001 4B01  0600 8301 00080000  0500 0701 FF0200
          0200 1A01
          0200 1A01  0500 0701 000300
          0200 1A01  0500 0701 FF0100
        0200 1801  0800 2001 A430 0200 0000  0300 4001 01  0400 8001 4331  0500 0701 000100
        0200 1901
          0200 1A01  0800 2001 A830 0300 0200  0300 2301 02  0300 5001 01  0600 9001 10000000
            0600 9101 01000000  0600 9201 04000000  0600 9301 08000000
          0200 1A01  0800 2001 A8A1 0300 2100  0400 A001 0500  0500 0701 000100
        0200 1901
        0200 1801")
}

#[test]
fn both_kinds_and_back() {
    let dump = both_kinds();
    assert_eq!(dump.len(), 199);
    let book = accepted(&dump);
    assert_eq!(book, both_kinds_book());
    assert_eq!(book.len(), 266);
}

#[test]
fn both_kinds_listed() {
    let book = both_kinds_book();
    let missing = 4_294_967_295;
    assert_eq!(links(&book).unwrap(), [[1, 0, 74, 2], [3, 0, 79, 1], [1, 2, 189, missing]]);
    assert_eq!(field(&book, 0, 0x0183), Ok((102, 4)));
    assert_eq!(field(&book, 2, 0x0193), Ok((227, 4)));
    assert_eq!(field(&book, 3, 0x01A0), Ok((249, 2)));
    for kind in [0x0107, 0x0119, 0x011A, 0x0150] {
        assert_eq!(field(&book, 3, kind), Err((16, 0)));
    }
}

#[test]
fn frames() {
    // the path lengths of the third record: lacking, 0, 65, cut off; and other kinds
    for payload in [vec![], vec![0], vec![65; 66], vec![2, 1]] {
        refused(&[with_od(&[]), record(4, &payload)].concat(), 2, 16);
    }
    for kind in [0, 2, 5, 6, 0x0104, 0x0400] {
        refused(&[with_od(&[]), record(kind, &[1, 0x44])].concat(), 2, 16);
    }
    // EF.OD and CIAInfo stay as they are
    refused(&[info(), record(4, &[])].concat(), 2, 12);
    refused(&record(4, &hex("3006020101030100")), 2, 0);
}

#[test]
fn record_lengths() {
    let object = container();
    // no record, and one of no bytes
    accepted(&linear(0xA7, &[]));
    accepted(&linear(0xA7, &[hex("0000")]));
    // over by one and by many; in the second record; a single byte left, alone and behind a record
    for file in [
        [hex("0B00"), object.clone()],
        [hex("FFFF"), object.clone()],
        [hex("0001"), object.clone()],
        [part(&object), hex("0100")],
        [part(&object), hex("0200FF")],
        [part(&object), hex("00")],
        [part(&object), hex("FF")],
        [hex("00"), vec![]],
        [hex("0100"), vec![]],
    ] {
        refused(&linear(0xA7, &file), 2, 24);
    }
    // the low byte comes first
    accepted(&linear(0xA7, &[hex("0001"), vec![0xFF; 256]]));
}

#[test]
fn record_lengths_with_the_frames() {
    // before CIAInfo, which lacks its element: 5 at 4
    let empty = [record(1, &[]), record(2, &[])].concat();
    refused(&empty, 5, 4);
    refused(&[empty.clone(), record(4, &hex("0144 01"))].concat(), 2, 8);
    // records of 7 bytes at 8 and 15: the first that is broken
    let over = record(4, &hex("0144 01"));
    refused(&[empty.clone(), over.clone(), over.clone()].concat(), 2, 8);
    refused(&[empty.clone(), record(3, &hex("0144 01")), over.clone()].concat(), 2, 15);
    refused(&[empty.clone(), over, record(5, &[])].concat(), 2, 8);
    refused(&[empty, record(4, &hex("0144")), hex("00")].concat(), 2, 14);
}

#[test]
fn file_lengths() {
    // record lengths included, so that a record has 16,381 bytes at most
    accepted(&linear(0xA7, &[part(&[0xFF; 16_381])]));
    refused(&linear(0xA7, &[part(&[0xFF; 16_382])]), 2, 24);
    accepted(&linear(0xA7, &[part(&[]).repeat(8_190), part(&[0])]));
    refused(&linear(0xA7, &[part(&[]).repeat(8_192)]), 2, 24);
}

#[test]
fn second_object() {
    // the object of ten bytes at 33, and what stands behind it at 43: another, and what begins none
    for second in
        ["3008 3000 3000 A1020500", "1F", "01", "30", "3001", "3080", "BF81", "FE", "A800", "30 00 00", "7FFF"]
    {
        refused(&linear(0xA7, &[part(&[container(), hex(second)].concat())]), 17, 43);
    }
    // in the second record: its length at 43, its bytes at 45
    let two = part(&[container(), container()].concat());
    refused(&linear(0xA7, &[part(&container()), two.clone()]), 17, 55);
    // an object that is refused itself comes first, and so does what is before it in the file
    refused(&linear(0xA7, &[part(&[hex("3000"), container()].concat())]), 5, 35);
    refused(&linear(0xA7, &[part(&hex("00FF")), two]), 11, 34);
    // the same objects are no second ones in a transparent file
    accepted(&filed(0xA7, &[container(), container()].concat()));
}

#[test]
fn second_object_or_fill() {
    // behind the object 00 or FF begins the fill, and what differs from it is 11
    let behind = |bytes: &str| linear(0xA7, &[part(&[container(), hex(bytes)].concat())]);
    accepted(&behind("00"));
    accepted(&behind("FFFF"));
    refused(&behind("00 3008 3000 3000 A1020500"), 11, 44);
    refused(&behind("FFFF 01"), 11, 45);
    refused(&behind("FF00"), 11, 44);
    // a fill byte first: the record holds no object
    let first = |bytes: &str| linear(0xA7, &[part(&[hex(bytes), container()].concat())]);
    refused(&first("00"), 11, 34);
    refused(&first("FFFFFF"), 11, 36);
}

#[test]
fn fill_of_each_record() {
    accepted(&linear(0xA7, &[part(&[0; 3]), part(&[0xFF; 2]), part(&[]), part(&[container(), vec![0]].concat())]));
    refused(&linear(0xA7, &[part(&hex("0000FF"))]), 11, 35);
    // 33 and 34 the first record, 35 a length, 37 the object, 47 its fill
    refused(&linear(0xA7, &[part(&[0; 2]), part(&[container(), hex("FFFE")].concat())]), 11, 48);
    refused(&linear(0xA7, &[part(&[0xFF; 2]), part(&hex("0001"))]), 11, 38);
}

#[test]
fn many() {
    // a record with a data container has twelve bytes: the 129th has its length at 31 + 1536 and its bytes at 1569
    let objects = |count: usize| part(&container()).repeat(count);
    accepted(&linear(0xA7, &[objects(128)]));
    refused(&linear(0xA7, &[objects(129)]), 10, 1569);
    // before its tag, but fill is no object, nor is a record of no bytes
    refused(&linear(0xA7, &[objects(128), part(&hex("1F"))]), 10, 1569);
    accepted(&linear(0xA7, &[objects(128), part(&hex("00")), part(&[]), part(&hex("FFFF"))]));
    // 17 is before 10: the last record has its length at 31 + 1524, its object at 1557, and more at 1567
    for second in [container(), hex("1F"), hex("30")] {
        refused(&linear(0xA7, &[objects(127), part(&[container(), second].concat())]), 17, 1567);
    }
    refused(&linear(0xA7, &[objects(127), part(&[container(), hex("FF01")].concat())]), 11, 1568);
    // in the 129th record the object itself is too many
    refused(&linear(0xA7, &[objects(128), part(&[container(), container()].concat())]), 10, 1569);
}

#[test]
fn record_is_the_container() {
    // ten bytes of object in a record of nine, and the tenth in the next
    refused(&linear(0xA7, &[part(&container()[..9]), part(&hex("00"))]), 4, 33);
    // a tag or a length that is cut off by the record's end, not the file's
    refused(&linear(0xA7, &[part(&hex("1F")), part(&hex("1F00"))]), 3, 33);
    refused(&linear(0xA7, &[part(&hex("30")), part(&[])]), 4, 33);
    refused(&linear(0xA7, &[part(&hex("3082")), part(&hex("FFFF"))]), 4, 33);
    // what is no object's tag, and one whose contents end early
    refused(&linear(0xA7, &[part(&hex("A800"))]), 3, 33);
    refused(&linear(0xA7, &[part(&[]), part(&hex("30023000"))]), 5, 39);
}

#[test]
fn paths_and_not_kinds() {
    let entry = |path: &str| tlv(0xA7, &[tlv(0x30, &[tlv(0x04, &[hex(path)])])]);
    let file = |kind: u16, path: &str, bytes: &str| record(kind, &[hex("01"), hex(path), hex(bytes)].concat());
    // EF.OD ends at 30; a file record of a one-byte path and no bytes has 6
    let two = with_od(&[entry("01"), entry("02")].concat());
    for (first, second) in [(3, 3), (3, 4), (4, 3), (4, 4)] {
        accepted(&[two.clone(), file(first, "01", ""), file(second, "02", "")].concat());
        refused(&[two.clone(), file(first, "02", ""), file(second, "01", "")].concat(), 12, 30);
        refused(&[two.clone(), file(first, "01", ""), file(second, "01", "")].concat(), 12, 36);
        refused(&[two.clone(), file(first, "01", ""), file(3, "02", ""), file(second, "02", "")].concat(), 12, 42);
    }
    refused(&[two.clone(), file(4, "01", "")].concat(), 12, 36);
    // 12 comes before what is in the files: a record of one byte that is no tag's
    refused(&[two, file(4, "01", "0100 1F"), file(4, "03", "")].concat(), 12, 39);
}

#[test]
fn twice() {
    // an object of 13 bytes in a record: 33, and 48 in the next
    let own = |id: &str| part(&authentication(&hex(id)));
    accepted(&linear(0xA8, &[own("01"), own("02")]));
    refused(&linear(0xA8, &[own("01"), own("01")]), 13, 48);
    // 17 is given with the files, and so before 13: its record has its length at 61 and its object at 63
    let two = part(&[authentication(&hex("03")), hex("30")].concat());
    refused(&linear(0xA8, &[own("01"), own("01"), two]), 17, 76);
}

/// A book with one entry A7 for the path 4401, and these records behind it.
fn book_with(records: &str) -> Vec<u8> {
    hex(&["0600 0101 01000000  0600 0501 00000000  0600 1001 A7004401", records].concat())
}

/// The records of a data container, of ten bytes on the card, that stands there in file 1.
fn object(offset: u8) -> String {
    format!("0800 2001 A730 0100 {offset:02X}00  0200 6001  0400 A001 0500")
}

#[test]
fn books() {
    let container = "3008 3000 3000 A1020500";
    // each book with the dump kind and the file that it stands for
    for (records, kind, file) in [
        ("0200 1801", 3, "".to_string()),
        ("0200 1901", 4, "".to_string()),
        ("0200 1901 0200 1A01", 4, "0000".to_string()),
        ("0200 1901 0200 1A01 0200 1A01", 4, "0000 0000".to_string()),
        ("0200 1801 0500 0701 000200", 3, "0000".to_string()),
        ("0200 1901 0200 1A01 0500 0701 000200", 4, "0200 0000".to_string()),
        (&format!("0200 1801 {} {}", object(0), object(10)), 3, format!("{container} {container}")),
        (&format!("0200 1901 0200 1A01 {}", object(2)), 4, format!("0A00 {container}")),
        (&format!("0200 1901 0200 1A01 0200 1A01 {}", object(4)), 4, format!("0000 0A00 {container}")),
        (&format!("0200 1901 0200 1A01 {} 0500 0701 FF0100", object(2)), 4, format!("0B00 {container} FF")),
        (&format!("0200 1901 0200 1A01 {} 0200 1A01 0500 0701 FF0100", object(2)), 4, format!("0A00 {container} 0100 FF")),
    ] {
        let dump = if kind == 3 { filed(0xA7, &hex(&file)) } else { linear(0xA7, &[hex(&file)]) };
        assert_eq!(accepted(&dump), book_with(records));
    }
}

#[test]
fn no_books() {
    for records in [
        // nothing opens the file, or twice; a record opens it, or stands in a transparent file
        "",
        "0200 1901 0200 1901",
        "0200 1901 0200 1801",
        "0200 1801 0200 1901",
        "0200 1A01",
        "0200 1801 0200 1A01",
        "0200 1A01 0200 1901",
        // payloads
        "0300 1901 00",
        "0300 1801 00",
        "0200 1901 0300 1A01 00",
        "0200 1901 0400 1A01 0000",
        // an object or fill outside of the records
        &format!("0200 1901 {}", object(0)),
        "0200 1901 0500 0701 000100",
        &format!("0200 1901 {} 0200 1A01", object(0)),
        "0200 1901 0500 0701 000100 0200 1A01",
        // two objects in one record, fill before the object, fill twice, of no bytes, of another byte
        &format!("0200 1901 0200 1A01 {} {}", object(2), object(12)),
        &format!("0200 1901 0200 1A01 0500 0701 000100 {}", object(3)),
        "0200 1901 0200 1A01 0500 0701 000100 0500 0701 000100",
        "0200 1901 0200 1A01 0500 0701 000100 0500 0701 FF0100",
        "0200 1901 0200 1A01 0500 0701 000000",
        "0200 1901 0200 1A01 0500 0701 010100",
        // a record inside an object; a record or a file of 16,382 or 65,536 bytes and more
        "0200 1901 0200 1A01 0800 2001 A730 0100 0200 0200 1A01 0200 6001 0400 A001 0500",
        "0200 1901 0200 1A01 0500 0701 00FE3F",
        "0200 1901 0200 1A01 0500 0701 00FFFF 0200 1A01 0500 0701 00FFFF",
        &format!("0200 1901 0200 1A01 {} 0500 0701 00FFFF", object(2)),
        // an unknown kind
        "0200 1901 0200 1B01",
    ] {
        let book = book_with(records);
        assert_eq!(write(&book), Err((15, 0)), "{records}");
        assert_eq!(links(&book), Err((15, 0)), "{records}");
        assert_eq!(field(&book, 0, 0x0160), Err((15, 0)), "{records}");
    }
}

#[test]
fn fields_of_records() {
    // CIAInfo 16 bytes, 0110 8, 0119 4, 011A 4, 0120 10: 0160 is at 42; 01A0 46, 011A 52, 0120 56, 0121 66
    let labelled = with_common(&[hex("0C0141")]);
    let book = accepted(&linear(0xA7, &[part(&container()), part(&labelled)]));
    assert_eq!(field(&book, 0, 0x0160), Ok((46, 0)));
    assert_eq!(field(&book, 0, 0x01A0), Ok((50, 2)));
    assert_eq!(field(&book, 0, 0x0121), Err((16, 0)));
    assert_eq!(field(&book, 1, 0x0121), Ok((70, 1)));
    assert_eq!(field(&book, 0, 0x011A), Err((16, 0)));
}
