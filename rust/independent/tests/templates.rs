//! EF.DIR (item 4 of document 02): the standard's template and one of ours, each refusal with its place, the order of
//! refusals, and the books. Books and places are worked out by hand.

mod common;

use common::*;
use independent::{field, links, read, write};

/// A template with these parts. Alone in EF.DIR it is at 4, and its first part at 6, as long as everything is short.
fn template(parts: &[&str]) -> Vec<u8> {
    tlv(0x61, &[hex(&parts.concat())])
}

/// The 4F of ours, seven bytes.
const OURS: &str = "4F05 E828BD080F";

/// A book of that CIAInfo, 16 bytes, and of these records.
fn book_with(records: &str) -> Vec<u8> {
    hex(&["0600 0101 01000000  0600 0501 00000000", records].concat())
}

#[test]
fn annex_d8() {
    let dump = with_dir(&hex("61 33 4F 0C A0 00 00 00 63 50 4B 43 53 2D 31 35 50 07 52 53 41 20 44 53 49
        51 04 3F 00 50 15 73 14 06 0A 2A 86 48 86 F7 0D 01 0F 04 01 4F 06 FA B1 23 45 67 89"));
    assert_eq!(dump.len(), 4 + 53 + 16);
    let book = accepted(&dump);
    assert_eq!(book.len(), 90);
    // not ours: its identifier is that of PKCS #15
    let records = "0200 0002  0300 0102 00  0E00 0202 A000000063504B43532D3135  0900 0302 52534120445349
        0600 0402 3F005015  0200 0502  0E00 0602 060A2A864886F70D010F0401  0800 0D02 FAB123456789";
    assert_eq!(book, book_with(records));
}

/// A template of ours with every component, two other elements, a template that is not ours, fill: 86 bytes.
const FULL: &str = "6147 4F06E828BD080F01 5002CEB1 5100
      732C 06032A0304 300A04025031020100800120 A00C0402503202020100800200FF 4F01FA 31023000 A100 5F500141
      4F00 61074F05E828BD080F
    0500 62024F00 61034F01E8 FFFF";

/// Its records: 155 bytes.
const FULL_RECORDS: &str = "0200 0002
    0300 0102 01  0800 0202 E828BD080F01  0400 0302 CEB1  0200 0402
      0200 0502  0700 0602 06032A0304  0400 0702 5031  0600 0802 00000000  0600 0902 20000000
        0400 0A02 5032  0600 0B02 00010000  0600 0C02 FF000000  0300 0D02 FA  0600 0E02 31023000
        0800 0F02 A100 5F500141
      0D00 1002 4F00 61074F05E828BD080F
    0400 1102 0500  0600 1102 62024F00
    0300 0102 00  0300 0202 E8
    0500 1202 FF0200";

#[test]
fn every_component() {
    assert_eq!(hex(FULL).len(), 86);
    let book = accepted(&with_dir(&hex(FULL)));
    assert_eq!(book.len(), 16 + 155);
    assert_eq!(book, book_with(FULL_RECORDS));
}

#[test]
fn no_bytes_and_no_templates() {
    assert_eq!(accepted(&with_od(&[])), book_with(""));
    assert_eq!(accepted(&with_dir(&[])), book_with("0200 0002"));
    assert_eq!(accepted(&with_dir(&hex("000000"))), book_with("0200 0002 0500 1202 000300"));
    assert_eq!(accepted(&with_dir(&hex("0500 FF"))), book_with("0200 0002 0400 1102 0500 0500 1202 FF0100"));
}

#[test]
fn ours_or_not() {
    for (identifier, ours) in [
        ("E828BD080F", 1),
        ("E828BD080F00", 1),
        ("E828BD080F 0102030405060708090A0B", 1),
        ("E828BD08", 0),
        ("E828BD080E", 0),
        ("E828BD081F00", 0),
        ("E928BD080F", 0),
        ("00E828BD080F", 0),
        ("E8", 0),
        ("000102030405060708090A0B0C0D0E0F", 0),
    ] {
        let book = accepted(&with_dir(&tlv(0x61, &[tlv(0x4F, &[hex(identifier)]), hex("5100")])));
        // 0200 is at 16, 0201 at 20
        let said = [record(0x0200, &[]), record(0x0201, &[ours]), record(0x0202, &hex(identifier))].concat();
        assert_eq!(book[16..16 + said.len()], said);
    }
    // the first 4F alone decides
    let book = accepted(&with_dir(&template(&["4F0101", OURS])));
    assert_eq!(book, book_with("0200 0002 0300 0102 00 0300 0202 01 0900 1002 4F05E828BD080F"));
}

#[test]
fn where_it_may_stand() {
    let dir = record(5, &[]);
    let od = record(2, &[]);
    accepted(&[dir.clone(), info(), od.clone()].concat());
    // alone: CIAInfo lacks at the dump's end; or EF.OD comes first, or lacks
    refused(&dir, 2, 4);
    refused(&[dir.clone(), od.clone()].concat(), 2, 4);
    refused(&[dir.clone(), info()].concat(), 2, 16);
    // twice at the start; after CIAInfo; after EF.OD; at the start and at the end
    refused(&[dir.clone(), dir.clone(), info(), od.clone()].concat(), 2, 4);
    refused(&[info(), dir.clone(), od.clone()].concat(), 2, 12);
    refused(&[info(), od.clone(), dir.clone()].concat(), 2, 16);
    refused(&[dir.clone(), info(), od, dir].concat(), 2, 20);
    // cut off, too short, longer than the dump, and other kinds
    for first in ["02", "0200 05", "0100 0500", "0300 0500"] {
        refused(&hex(first), 2, 0);
    }
    for kind in [0, 2, 3, 4, 6, 0x0105, 0x0500, 0x0200] {
        refused(&[record(kind, &[]), with_od(&[])].concat(), 2, 0);
    }
}

#[test]
fn file_length() {
    accepted(&with_dir(&[0xFF; 16_383]));
    refused(&with_dir(&[0xFF; 16_384]), 2, 0);
    // no path and no record lengths stand before it
    accepted(&with_dir(&[template(&["4F0101"]), vec![0; 16_378]].concat()));
    refused(&with_dir(&[template(&["4F0101"]), vec![0; 16_379]].concat()), 2, 0);
}

#[test]
fn order_of_refusals() {
    // a template without 4F: 5 at 6
    let wrong = record(5, &hex("6100"));
    let empty = [record(1, &[]), record(2, &[])].concat();
    // before CIAInfo, which lacks its element, and is itself read when EF.DIR is right
    refused(&empty, 5, 4);
    refused(&[wrong.clone(), empty.clone()].concat(), 5, 6);
    refused(&[record(5, &[]), empty.clone()].concat(), 5, 8);
    // before EF.OD, and before a file that is extra
    refused(&[wrong.clone(), info(), record(2, &hex("1F"))].concat(), 5, 6);
    refused(&[wrong.clone(), with_od(&[]), record(3, &hex("0144"))].concat(), 5, 6);
    refused(&[record(5, &[]), with_od(&[]), record(3, &hex("0144"))].concat(), 12, 20);
    // all frames are before it, and 1 before them
    refused(&[wrong.clone(), empty.clone(), hex("00")].concat(), 2, 14);
    refused(&[wrong.clone(), with_od(&[]), record(4, &hex("0144 01"))].concat(), 2, 22);
    refused(&[wrong, empty, vec![0; 32_755]].concat(), 1, 0);
}

#[test]
fn elements_of_the_file() {
    // any tag but 61, in low and high form, and of all classes
    for element in
        ["0500", "2000", "4F00", "5000", "7300", "62024F00", "6000", "5F5000", "7F81800000", "FE00", "1F1F0100"]
    {
        let sealed = record(0x0211, &hex(element));
        assert_eq!(accepted(&with_dir(&hex(element))), [book_with("0200 0002"), sealed].concat());
    }
    // bad and cut-off tags and lengths, behind another element
    for element in ["1F", "1F1E00", "1F8000", "7F81", "7F81808000"] {
        refused(&with_dir(&[hex("0500"), hex(element)].concat()), 3, 6);
    }
    for element in ["61", "6101", "6180", "618100", "05", "0501", "30820001", "7F818000"] {
        refused(&with_dir(&[hex("0500"), hex(element)].concat()), 4, 6);
    }
    // what is in a sealed one that is constructed: a cut-off length, and no tag
    refused(&with_dir(&hex("62024F01")), 4, 6);
    refused(&with_dir(&hex("62020000")), 3, 6);
    // fill
    refused(&with_dir(&hex("0500 FFFF00")), 11, 8);
    refused(&with_dir(&hex("00 61034F0101")), 11, 5);
    refused(&with_dir(&hex("61034F0101 00FF")), 11, 10);
}

#[test]
fn parts_of_a_template() {
    // no 4F, or not first: 5 at the template's end, 3 at what stands in its place
    refused(&with_dir(&template(&[])), 5, 6);
    for part in ["5000", "5100", "7300", "2F00", "6F00", "04", "61034F0101"] {
        let number = if part == "04" { 4 } else { 3 };
        refused(&with_dir(&template(&[part])), number, 6);
    }
    // each of the three in all orders that are right, and behind the rest or another, where each is kept out
    for parts in ["5000 5100 7300", "5000 7300", "5100 7300", "5000 5100", "5000", "5100", "7300", "4F00 6100"] {
        accepted(&with_dir(&template(&["4F0101", parts])));
    }
    for parts in
        ["5100 5000", "7300 5000", "7300 5100", "5000 5000", "5100 5100", "7300 7300", "0500 5000", "4F00 5100"]
    {
        refused(&with_dir(&template(&["4F0101", parts])), 3, 11);
    }
    // 00 is no tag here, and FF begins one
    refused(&with_dir(&template(&["4F0101", "00"])), 3, 9);
    accepted(&with_dir(&template(&["4F0101", "FF1F00"])));
    refused(&with_dir(&template(&["4F0101", "FF"])), 3, 9);
    // tag form and length come before what is due
    refused(&with_dir(&template(&["4F0101", "0500", "5001"])), 4, 11);
    refused(&with_dir(&template(&["5001"])), 4, 6);
    // a template inside is sealed, whatever is in it
    accepted(&with_dir(&template(&["4F0101", "6100", "6102 5000"])));
    refused(&with_dir(&template(&["4F0101", "6102 5001"])), 4, 11);
}

#[test]
fn bounds_of_a_template() {
    let identifier = |count: usize| with_dir(&tlv(0x61, &[tlv(0x4F, &[vec![7; count]])]));
    refused(&identifier(0), 7, 6);
    accepted(&identifier(1));
    accepted(&identifier(16));
    refused(&identifier(17), 7, 6);
    // 17 bytes that begin with the five: 7 is found before 5
    refused(&with_dir(&tlv(0x61, &[tlv(0x4F, &[hex("E828BD080F"), vec![0; 12]])])), 7, 6);
    let path = |count: usize| with_dir(&tlv(0x61, &[hex("4F0101"), tlv(0x51, &[vec![7; count]])]));
    accepted(&path(0));
    accepted(&path(64));
    refused(&path(65), 7, 9);
}

#[test]
fn labels() {
    // with 256 bytes or more the template's length has three: 4 the template, 8 the 4F, 11 the label
    let label = |text: &[u8]| with_dir(&tlv(0x61, &[hex("4F0101"), tlv(0x50, &[text.to_vec()])]));
    accepted(&label(b""));
    for character in ["a", "\u{3B1}", "\u{20AC}", "\u{1F511}"] {
        accepted(&label(character.repeat(255).as_bytes()));
        refused(&label(character.repeat(256).as_bytes()), 7, 11);
    }
    refused(&label(&hex("FF")), 65, 9);
    refused(&label(&hex("EDA080")), 65, 9);
    // 65 comes before 7
    refused(&label(&[vec![b'a'; 256], hex("80")].concat()), 65, 11);
}

#[test]
fn neither_path_nor_73() {
    // the template's end, 13, also if another follows
    refused(&with_dir(&template(&[OURS])), 5, 13);
    refused(&with_dir(&[template(&[OURS]), template(&["4F00"])].concat()), 5, 13);
    refused(&with_dir(&[template(&["4F0101"]), template(&[OURS])].concat()), 5, 18);
    accepted(&with_dir(&template(&[OURS, "5100"])));
    accepted(&with_dir(&template(&[OURS, "7300"])));
    accepted(&with_dir(&template(&["4F04 E828BD08"])));
    // after label and rest, in which a 51 of another template does not count
    refused(&with_dir(&template(&[OURS, "5000", "6102 5100", "4F00"])), 5, 21);
    refused(&with_dir(&template(&[OURS, "5001 FF"])), 65, 13);
    refused(&with_dir(&template(&[OURS, "0500 5100"])), 3, 15);
    refused(&with_dir(&template(&[OURS, "0500 3001"])), 4, 15);
    refused(&with_dir(&template(&[OURS, "00"])), 3, 13);
    // a template that is sealed has no such rule
    accepted(&with_dir(&template(&["4F0101", "6107 4F05 E828BD080F"])));
}

#[test]
fn parts_of_73() {
    let parts = |text: &str| with_73(&[hex(text)]);
    // none, each alone, all, and a rest
    for text in
        ["", "0600", "30020400", "A0020400", "4F0101", "3100", "0600 30020400 A0020400 4F0101 3100", "A100 5F5000"]
    {
        accepted(&parts(text));
    }
    // behind the rest or behind another each of the five is kept out
    for tag in ["06", "30", "A0", "4F", "31"] {
        refused(&parts(&["A100", tag, "00"].concat()), 3, 13);
        refused(&parts(&["3100", tag, "00"].concat()), 3, 13);
    }
    refused(&parts("4F0101 30020400"), 3, 14);
    refused(&parts("A0020400 0600"), 3, 15);
    // a 30 around them is no Path; nor is a SET that is a 30
    refused(&parts("3004 06022A03"), 3, 13);
    refused(&parts("3002 3000"), 3, 13);
    // aid
    refused(&parts("4F00"), 7, 11);
    accepted(&with_73(&[tlv(0x4F, &[vec![7; 16]])]));
    refused(&with_73(&[tlv(0x4F, &[vec![7; 17]])]), 7, 11);
    // providerId is sealed and primitive, the SET is sealed
    accepted(&parts("0603 800000"));
    refused(&parts("3102 0400 3102 0401"), 3, 15);
    refused(&parts("3102 0401"), 4, 13);
    refused(&parts("3101 00"), 3, 13);
    // 00 is no tag here
    refused(&parts("00"), 3, 11);
}

#[test]
fn paths_in_73() {
    // both Paths: the tag at 11, its first component at 13
    for tag in [0x30, 0xA0] {
        let path = |text: &str| with_73(&[tlv(tag, &[hex(text)])]);
        accepted(&path("0400 020100 800100"));
        accepted(&path("04023F00 020300FFFF 800300FFFF"));
        refused(&path(""), 5, 13);
        refused(&path("A000"), 3, 13);
        refused(&path("30020400"), 3, 13);
        refused(&path("020100"), 3, 13);
        refused(&path("0400 0500"), 3, 15);
        refused(&path("0400 020100 800100 0500"), 3, 21);
        accepted(&with_73(&[tlv(tag, &[tlv(0x04, &[vec![7; 64]])])]));
        refused(&with_73(&[tlv(tag, &[tlv(0x04, &[vec![7; 65]])])]), 7, 13);
        for (number, value) in [(62, ""), (62, "0000"), (62, "FFFF"), (7, "FF"), (7, "010000"), (7, "80")] {
            let index = tlv(0x02, &[hex(value)]);
            let length = tlv(0x80, &[hex(value)]);
            refused(&with_73(&[tlv(tag, &[hex("0400"), index, hex("800100")])]), number, 15);
            refused(&with_73(&[tlv(tag, &[hex("0400 020100"), length])]), number, 18);
        }
        // one without the other is 8, after the Path's contents and before its next sibling
        for text in ["0400 020100", "0400 800100"] {
            refused(&path(text), 8, 11);
            refused(&path(&[text, "0500"].concat()), 3, 18);
            refused(&with_73(&[tlv(tag, &[hex(text)]), hex("4F00")]), 8, 11);
        }
    }
    // in the second Path
    refused(&with_73(&[hex("30020400"), hex("A0050400020100")]), 8, 15);
}

/// So many elements 30, one in the other.
fn nest(levels: usize) -> Vec<u8> {
    (0..levels).fold(vec![], |inner, _| tlv(0x30, &[inner]))
}

#[test]
fn levels() {
    // another element of the file is on level 1, and so level 17 is 32 bytes behind it
    accepted(&with_dir(&nest(16)));
    refused(&with_dir(&nest(17)), 9, 36);
    // the rest of a template: 4 the template, 6 the 4F, 9 the first of the rest
    let rest = |levels: usize| with_dir(&tlv(0x61, &[hex("4F0101"), nest(levels)]));
    accepted(&rest(16));
    refused(&rest(17), 9, 41);
    // the SET at 11 is on level 1, what is in it, at 13, on level 2
    let set = |levels: usize| with_73(&[tlv(0x31, &[nest(levels)])]);
    accepted(&set(15));
    refused(&set(16), 9, 43);
    // the rest of a 73: A2 at 11 on level 1
    let rest = |levels: usize| with_73(&[tlv(0xA2, &[nest(levels)])]);
    accepted(&rest(15));
    refused(&rest(16), 9, 43);
}

#[test]
fn links_and_fields_stay() {
    let without = accepted(&shared());
    let book = accepted(&[record(5, &hex(FULL)), shared()].concat());
    assert_eq!(book, [without.clone(), hex(FULL_RECORDS)].concat());
    assert_eq!(links(&book), links(&without));
    for kind in (0x0100..0x0220).chain([0x1_0202, 0xFFFF, u32::MAX]) {
        for object in 0..3 {
            assert_eq!(field(&book, object, kind), field(&without, object, kind));
            if kind >= 0x0200 {
                assert_eq!(field(&book, object, kind), Err((16, 0)));
            }
        }
    }
}

#[test]
fn books() {
    // each of these records with the EF.DIR that it stands for
    for (records, file) in [
        ("0300 0102 00 0300 0202 01", "61034F0101"),
        ("0300 0102 00 0300 0202 01 0200 0302", "61054F01015000"),
        ("0300 0102 00 0300 0202 01 0200 0402", "61054F01015100"),
        ("0300 0102 00 0300 0202 01 0200 0502", "61054F01017300"),
        ("0300 0102 00 0300 0202 01 0400 1002 7400", "61054F01017400"),
        ("0300 0102 00 0300 0202 01 0200 0502 0400 0F02 7400", "61074F010173027400"),
        ("0300 0102 00 0300 0202 01 0200 0502 0200 0702", "61094F0101730430020400"),
        ("0300 0102 00 0300 0202 01 0200 0502 0200 0A02", "61094F01017304A0020400"),
        ("0300 0102 00 0300 0202 01 0200 0502 0300 0D02 01", "61084F010173034F0101"),
        ("0300 0102 01 0700 0202 E828BD080F 0200 0402", "61094F05E828BD080F5100"),
        ("0400 1102 0500 0400 1102 0500", "05000500"),
    ] {
        assert_eq!(accepted(&with_dir(&hex(file))), book_with(&["0200 0002", records].concat()));
    }
}

#[test]
fn no_books() {
    for records in [
        // nothing opens EF.DIR, or twice, or with a payload; its records stand before others
        "0300 0102 00 0300 0202 01",
        "0200 0002 0200 0002",
        "0300 0002 00",
        "0200 0002 0300 0102 00 0300 0202 01 0200 0002",
        "0200 0002 0200 1001",
        "0200 0002 0600 1001 A7004401 0200 1801",
        // 0201 says otherwise, has another payload or none, lacks or stands alone
        "0200 0002 0300 0102 01 0300 0202 01",
        "0200 0002 0300 0102 00 0700 0202 E828BD080F 0200 0402",
        "0200 0002 0300 0102 02 0300 0202 01",
        "0200 0002 0200 0102 0300 0202 01",
        "0200 0002 0400 0102 0000 0300 0202 01",
        "0200 0002 0300 0202 01",
        "0200 0002 0300 0102 00",
        "0200 0002 0300 0102 00 0300 0102 00 0300 0202 01",
        "0200 0002 0300 0202 01 0300 0102 00",
        // ours with neither path nor 73, and 73's components without their 0205, or with a payload in it
        "0200 0002 0300 0102 01 0700 0202 E828BD080F",
        "0200 0002 0300 0102 00 0300 0202 01 0300 0D02 01",
        "0200 0002 0300 0102 00 0300 0202 01 0300 0502 00",
        "0200 0002 0300 0102 00 0300 0202 01 0200 0502 0200 0502",
        // bounds
        "0200 0002 0300 0102 00 0200 0202",
        "0200 0002 0300 0102 00 1300 0202 0000000000000000000000000000000000",
        "0200 0002 0300 0102 00 0300 0202 01 0300 0302 FF",
        "0200 0002 0300 0102 00 0300 0202 01 0200 0502 0200 0D02",
        "0200 0002 0300 0102 00 0300 0202 01 0200 0502 0200 0702 0600 0802 00000100 0600 0902 00000000",
        // index without length, a number of three bytes, an index without its Path
        "0200 0002 0300 0102 00 0300 0202 01 0200 0502 0200 0702 0600 0802 00000000",
        "0200 0002 0300 0102 00 0300 0202 01 0200 0502 0200 0702 0500 0802 000000 0600 0902 00000000",
        "0200 0002 0300 0102 00 0300 0202 01 0200 0502 0600 0802 00000000 0600 0902 00000000",
        // order
        "0200 0002 0300 0102 00 0300 0202 01 0200 0402 0200 0302",
        "0200 0002 0300 0102 00 0300 0202 01 0200 0502 0200 0A02 0200 0702",
        "0200 0002 0500 1202 000100 0400 1102 0500",
        // sealed ones: of no or two elements, of what is read or kept out, and not whole
        "0200 0002 0200 1102",
        "0200 0002 0600 1102 05000500",
        "0200 0002 0700 1102 61034F0101",
        "0200 0002 0400 1102 0501",
        "0200 0002 0400 1102 0000",
        "0200 0002 0300 0102 00 0300 0202 01 0200 1002",
        "0200 0002 0300 0102 00 0300 0202 01 0400 1002 5000",
        "0200 0002 0300 0102 00 0300 0202 01 0200 0502 0400 0602 3100",
        "0200 0002 0300 0102 00 0300 0202 01 0200 0502 0400 0E02 0600",
        "0200 0002 0300 0102 00 0300 0202 01 0200 0502 0400 0F02 4F00",
        // fill of no bytes, of another byte, twice, of another kind; a file that is too long; unknown kinds
        "0200 0002 0500 1202 000000",
        "0200 0002 0500 1202 010100",
        "0200 0002 0500 1202 000100 0500 1202 000100",
        "0200 0002 0500 0701 000100",
        "0200 0002 0500 1202 000040",
        "0200 0002 0200 1302",
        "0200 0003",
    ] {
        let book = book_with(records);
        assert_eq!(write(&book), Err((15, 0)), "{records}");
        assert_eq!(links(&book), Err((15, 0)), "{records}");
        assert_eq!(field(&book, 0, 0x0200), Err((15, 0)), "{records}");
    }
    // EF.DIR's records before all others
    let first = [hex("0200 0002"), book_with("")].concat();
    assert_eq!(write(&first), Err((15, 0)));
    assert_eq!(read(&first), Err((2, 0)));
}
