//! Each refusal, with places worked out by hand.

mod common;

use common::*;
use independent::{field, links, write};

#[test]
fn size() {
    refused(&[0; 32_769], 1, 0);
    refused(&[info(), vec![0; 40_000]].concat(), 1, 0);
    refused(&[0; 32_768], 2, 0);
}

#[test]
fn frames() {
    refused(&hex("0A0001"), 2, 0);
    refused(&hex("0100 0100"), 2, 0);
    refused(&hex("0A00 0200 3006020101030100"), 2, 0);
    refused(&hex("0B00 0100 3006020101030100"), 2, 0);
    // EF.OD lacks: the dump's end
    refused(&info(), 2, 12);
    refused(&[info(), hex("00")].concat(), 2, 12);
    refused(&[info(), record(3, &hex("0144"))].concat(), 2, 12);
    // the third record: wrong kind, no path length, path lengths 0 and 65, path cut off, bytes too few
    for third in
        [record(2, &[]), record(3, &[]), record(3, &[0]), record(3, &[65; 66]), record(3, &[2, 1]), vec![2, 0, 3]]
    {
        refused(&[with_od(&[]), third].concat(), 2, 16);
    }
    // a frame comes before what is in the files
    refused(&[record(1, &[]), record(2, &[]), hex("00")].concat(), 2, 8);
}

#[test]
fn file_lengths() {
    let fill = |count| vec![0xFF; count];
    accepted(&with_od(&fill(16_383)));
    refused(&with_od(&fill(16_384)), 2, 12);
    accepted(&filed(0xA7, &fill(16_383)));
    refused(&filed(0xA7, &fill(16_384)), 2, 24);
    // CIAInfo: eight bytes of element
    let info_filled = |count| [record(1, &[hex("3006020101030100"), fill(count)].concat()), record(2, &[])].concat();
    accepted(&info_filled(16_375));
    refused(&info_filled(16_376), 2, 0);
}

#[test]
fn cia_info() {
    let with_info = |file: &str| [record(1, &hex(file)), record(2, &[])].concat();
    // none, even before fill: 5 at the file's end
    refused(&with_info(""), 5, 4);
    refused(&with_info("0000"), 5, 6);
    refused(&with_info("FF00"), 5, 6);
    // a second: tag form, length, then one more than is due
    refused(&with_info("3006020101030100 1F00"), 3, 12);
    refused(&with_info("3006020101030100 3001"), 4, 12);
    refused(&with_info("3006020101030100 3000"), 3, 12);
    // fill that differs
    refused(&with_info("3006020101030100 FFFF00"), 11, 14);
    refused(&with_info("3006020101030100 003006"), 11, 13);
    // wrong tag, cardflags lacks, version lacks
    refused(&with_info("3106020101030100"), 3, 4);
    refused(&with_info("3003020101"), 5, 9);
    refused(&with_info("3003030100"), 3, 6);
    // version 256
    refused(&with_info("300702020100030100"), 7, 6);
    // a second 03 is rest, a 04 there is kept out
    accepted(&with_info("3009020101030100 030100"));
    refused(&with_info("3008020101030100 0400"), 3, 12);
    // the order of the components
    refused(&with_info("300A020101 0C00 0400 030100"), 3, 11);
}

#[test]
fn tags() {
    // no tag inside a list, and high forms: cut off, 80 first, number 30, three further bytes with more to come
    for bad in ["0000", "1F", "1F80", "1F1E00", "1F81", "1F81828300", "1F81808000", "FF00"] {
        let condition = tlv(0xA0, &[hex(bad)]);
        refused(&inline(0xA7, &[with_condition(&condition)]), 3, 33);
    }
    // good high forms: 31, 128, the largest
    for good in ["1F1F00", "1F810000", "1FFFFF7F00"] {
        accepted(&inline(0xA7, &[with_condition(&tlv(0xA0, &[hex(good)]))]));
    }
    // an entry of another class, and an object of another tag
    refused(&with_od(&hex("3000")), 3, 16);
    refused(&inline(0xA7, &[hex("A800")]), 3, 20);
}

#[test]
fn lengths() {
    // cut off, indefinite, longer than needed, four bytes, beyond the entry
    for bad in ["A7", "A780", "A78100", "A7817F", "A7820080", "A783000000", "A701", "A781", "A78201"] {
        refused(&with_od(&hex(bad)), 4, 16);
    }
    // beyond its container though not beyond the file
    refused(&with_od(&hex("A702 A001 00 00")), 4, 18);
    // a surplus element with a bad length is 4, with a good one 3
    refused(&with_od(&hex("A704 A000 A001")), 4, 20);
    refused(&with_od(&hex("A704 A000 A000")), 3, 20);
}

#[test]
fn missing() {
    // an empty entry, an empty path, an empty object, an object without its class, one without its type
    refused(&with_od(&hex("A700")), 5, 18);
    refused(&with_od(&hex("A7023000")), 5, 20);
    refused(&inline(0xA7, &[hex("3000")]), 5, 22);
    refused(&inline(0xA7, &[hex("30023000")]), 5, 24);
    refused(&inline(0xA7, &[hex("300430003000")]), 5, 26);
    // empty subclass, empty type, empty rules, a rule without condition, an empty not
    refused(&inline(0xA7, &[hex("300A30003000 A000 A1020500")]), 5, 28);
    refused(&inline(0xA7, &[hex("300630003000A100")]), 5, 28);
    refused(&inline(0xA7, &[with_common(&[hex("3000")])]), 5, 26);
    refused(&inline(0xA7, &[with_condition(&[])]), 5, 31);
    refused(&inline(0xA7, &[with_condition(&hex("A000"))]), 5, 33);
    refused(&inline(0xA7, &[with_condition(&hex("A200"))]), 5, 33);
    // a certificate's type without a first element
    refused(&inline(0xA4, &[hex("300A 3000 30020400 A1023000")]), 5, 32);
}

#[test]
fn values() {
    let common = |component: &str| inline(0xA7, &[with_common(&[hex(component)])]);
    // text that is no UTF-8: lone lead byte, surrogate, overlong, too large
    for bad in ["0C01C3", "0C03EDA080", "0C02C080", "0C04F4908080", "0C01FF"] {
        refused(&common(bad), 65, 24);
    }
    accepted(&common("0C04F48FBFBF"));
    // bit strings: empty, 8 unused, unused bits set, unused without bits; trailing zero bits
    for bad in ["0300", "0302 0880", "0302 0781", "0301 01"] {
        refused(&common(bad), 63, 24);
    }
    for bad in ["0302 0680", "0302 0000"] {
        refused(&common(bad), 64, 24);
    }
    // integers: empty, not shortest, both ways
    for bad in ["0200", "02020001", "0202FF80"] {
        refused(&common(bad), 62, 24);
    }
    // a NULL with contents
    refused(&inline(0xA7, &[with_condition(&hex("050100"))]), 67, 31);
}

#[test]
fn defaults_and_times() {
    // a key's class at 24: iD 26, usage 28 (3 bytes), the component at 31
    let key = |component: &str| {
        let class = tlv(0x30, &[hex("0400 030100"), hex(component)]);
        inline(0xA1, &[tlv(0x30, &[hex("3000"), class, hex("A1020500")])])
    };
    accepted(&key("010100"));
    refused(&key("0101FF"), 68, 31);
    for bad in ["010101", "0100", "01020000"] {
        refused(&key(bad), 61, 31);
    }
    let time = |tag: u8, text: &str| {
        let class = tlv(0x30, &[hex("0400 030100"), tlv(tag, &[text.as_bytes().to_vec()])]);
        inline(0xA1, &[tlv(0x30, &[hex("3000"), class, hex("A1020500")])])
    };
    accepted(&time(0x18, "20240229235959Z"));
    accepted(&time(0x80, "99991231000000Z"));
    for bad in [
        "20230229000000Z",
        "20231301000000Z",
        "20230001000000Z",
        "20230100000000Z",
        "20230431000000Z",
        "20230101240000Z",
        "20230101006000Z",
        "20230101000060Z",
        "202301010000Z",
        "20230101000000",
        "20230101000000z",
        "2023010100000:Z",
        "20230101000000ZZ",
    ] {
        refused(&time(0x18, bad), 66, 31);
        refused(&time(0x80, bad), 66, 31);
    }
    // a certificate's authority: FALSE is its default
    let certificate = |component: &str| {
        let class = tlv(0x30, &[hex("0400"), hex(component)]);
        inline(0xA5, &[tlv(0xA0, &[hex("3000"), class, hex("A1020500")])])
    };
    accepted(&certificate("0101FF"));
    refused(&certificate("010100"), 68, 28);
}

#[test]
fn ranges() {
    let common = |component: Vec<u8>| inline(0xA7, &[with_common(&[component])]);
    // userConsent: 0, negative, 32,768; 32,767 is Annex A's
    refused(&common(hex("020100")), 7, 24);
    refused(&common(hex("0201FF")), 7, 24);
    refused(&common(hex("0203008000")), 7, 24);
    refused(&common(hex("0209010000000000000001")), 7, 24);
    accepted(&common(hex("02027FFF")));
    // 33 bits are too many, if the form is right
    accepted(&common(hex("030500FFFFFFFF")));
    refused(&common(hex("030607FFFFFFFF80")), 7, 24);
    refused(&common(hex("030607FFFFFFFF40")), 63, 24);
    // 256 bytes or characters: the object's and the common's headers grow by two each, as do entry and list
    let long = |tag: u8, byte: u8, count: usize| common(tlv(tag, &[vec![byte; count]]));
    accepted(&long(0x04, 0, 255));
    refused(&long(0x04, 0, 256), 7, 32);
    accepted(&long(0x0C, 0x41, 255));
    refused(&long(0x0C, 0x41, 256), 7, 32);
    refused(&long(0x0C, 0xC1, 256), 65, 32);
    // EF.OD's path: 0 and 65 bytes
    refused(&with_od(&hex("A70430020400")), 7, 20);
    refused(&with_od(&tlv(0xA7, &[tlv(0x30, &[tlv(0x04, &[vec![1; 65]])])])), 7, 20);
}

#[test]
fn password_ranges() {
    let password = |parts: &str| inline(0xA8, &[password(&[hex(parts)])]);
    accepted(&password("030100 0A0104 020108 020140"));
    refused(&password("030100 0A0105 020108 020140"), 7, 33);
    refused(&password("030100 0A0104 020103 020140"), 7, 36);
    refused(&password("030100 0A0104 020109 020140"), 7, 36);
    refused(&password("030100 0A0104 020108 020141"), 7, 39);
    // maxLength 65,536; pwdReference 0 and 256; padChar of no and of two bytes
    let option = |component: &str| inline(0xA8, &[common::password(&[password_needs(), hex(component)])]);
    refused(&option("0203010000"), 7, 42);
    refused(&option("800100"), 68, 42);
    refused(&option("80020100"), 7, 42);
    refused(&option("0400"), 7, 42);
    refused(&option("04020000"), 7, 42);
    // a multi-byte reference 81 is rest, a second 02 is kept out of it
    accepted(&option("810401020304"));
    refused(&option("020101 020101"), 3, 45);
    refused(&option("8100 0400"), 3, 44);
}

#[test]
fn conditions_in_a_list() {
    let list = |count: usize, last: &[u8]| {
        let inside = [hex("0500").repeat(count), last.to_vec()].concat();
        inline(0xA7, &[with_condition(&tlv(0xA1, &[inside]))])
    };
    accepted(&list(254, &hex("0400")));
    // every header above the first condition has a two-byte length: 16, 20, 24 object, 28, 32, 36, accessMode 40, list 43
    refused(&list(255, &hex("0400")), 7, 47 + 510);
    refused(&list(255, &hex("A000")), 7, 47 + 510);
    refused(&list(255, &hex("050100")), 67, 47 + 510);
    refused(&list(255, &hex("0501")), 4, 47 + 510);
    refused(&list(255, &hex("0000")), 3, 47 + 510);
}

#[test]
fn rule_of_paths() {
    // a certificate of tag 30, its class 30020400: 20 object, 22 common, 24 class, 28 A1, 30 sequence, 32 Path, 34 the 04
    let certificate = |path: &str| {
        let sequence = tlv(0x30, &[tlv(0x30, &[hex(path)])]);
        inline(0xA4, &[tlv(0x30, &[hex("3000 30020400"), tlv(0xA1, &[sequence])])])
    };
    accepted(&certificate("0400"));
    accepted(&certificate("0400 020100 800100"));
    refused(&certificate("0400 020100"), 8, 32);
    refused(&certificate("0400 800100"), 8, 32);
    refused(&certificate("0400 020100 0400"), 3, 39);
    refused(&certificate("0400 800100 020100"), 3, 39);
    refused(&certificate("0400 0203010000 800100"), 7, 36);
    refused(&certificate(""), 5, 34);
}

#[test]
fn rule_of_passwords() {
    // bits 6 and 7: 0302 0003, the sequence being at 28
    let password = |parts: &str| inline(0xA8, &[password(&[hex(parts)])]);
    accepted(&password("03020102 0A0101 020104 020108"));
    accepted(&password("03020001 0A0101 020104 020108"));
    refused(&password("03020003 0A0101 020104 020108"), 8, 28);
    // after all contents of that sequence
    refused(&password("03020003 0A0101 020104 020108 8101"), 4, 43);
    refused(&password("03020003 0A0101 020104"), 5, 40);
}

#[test]
fn depth_of_sealed_parts() {
    // `count` levels of 31, in a rest of the common attributes, which starts at 24
    let nest = |count: usize| (1..count).fold(hex("3100"), |inner, _| tlv(0x31, &[inner]));
    let rest = |count: usize| inline(0xA7, &[with_common(&[nest(count)])]);
    accepted(&rest(16));
    refused(&rest(17), 9, 24 + 32);
    // the seventeenth is refused before its tag is looked at
    let zero = (0..16).fold(hex("00"), |inner, _| tlv(0x31, &[inner]));
    refused(&inline(0xA7, &[with_common(&[zero])]), 9, 24 + 32);
    // an unknown entry is itself on level 1
    let unknown = |count: usize| with_od(&tlv(0xA9, &[nest(count)]));
    accepted(&unknown(15));
    refused(&unknown(16), 9, 16 + 32);
}

#[test]
fn depth_of_conditions() {
    let nots = |count: usize, leaf: &str| {
        let condition = (0..count).fold(hex(leaf), |inner, _| tlv(0xA0, &[inner]));
        inline(0xA7, &[with_condition(&condition)])
    };
    accepted(&nots(7, "0500"));
    refused(&nots(8, "0500"), 9, 31 + 16);
    refused(&nots(8, "00"), 9, 31 + 16);
    // an empty not on level 8
    refused(&nots(7, "A000"), 5, 31 + 16);
    // a sealed condition has its own sixteen levels
    let sealed = (1..16).fold(hex("3100"), |inner, _| tlv(0x31, &[inner]));
    let condition = (0..7).fold(sealed, |inner, _| tlv(0xA0, &[inner]));
    accepted(&inline(0xA7, &[with_condition(&condition)]));
}

#[test]
fn many() {
    let objects = |count: usize| container().repeat(count);
    accepted(&filed(0xA7, &objects(128)));
    refused(&filed(0xA7, &objects(129)), 10, 31 + 1280);
    // before its tag, but fill is no object in a file
    refused(&filed(0xA7, &[objects(128), hex("1F")].concat()), 10, 31 + 1280);
    accepted(&filed(0xA7, &[objects(128), hex("00")].concat()));
    // in an inline list nothing is fill: entry and list headers have four bytes each
    refused(&inline(0xA7, &[objects(128), hex("00")]), 10, 24 + 1280);
}

#[test]
fn fill() {
    refused(&with_od(&hex("000001")), 11, 18);
    refused(&with_od(&hex("A702A000 FFFE")), 11, 21);
    refused(&filed(0xA7, &hex("0000FF")), 11, 33);
    accepted(&filed(0xA7, &hex("FF")));
}

#[test]
fn paths() {
    let entry = |path: &str| tlv(0xA7, &[tlv(0x30, &[tlv(0x04, &[hex(path)])])]);
    let file = |path: &str, bytes: &str| {
        let path = hex(path);
        record(3, &[vec![path.len() as u8], path, hex(bytes)].concat())
    };
    let two = with_od(&[entry("01"), entry("02")].concat());
    // entries of 7 bytes: EF.OD ends at 30; a file record of a one-byte path has 6 bytes
    assert_eq!(two.len(), 30);
    accepted(&[two.clone(), file("01", ""), file("02", "")].concat());
    refused(&[two.clone(), file("02", ""), file("01", "")].concat(), 12, 30);
    refused(&[two.clone(), file("01", ""), file("03", "")].concat(), 12, 36);
    refused(&[two.clone(), file("01", "")].concat(), 12, 36);
    refused(&[two.clone(), file("01", ""), file("02", ""), file("03", "")].concat(), 12, 42);
    // a repeated path comes first, at its second entry
    refused(&with_od(&[entry("01"), entry("02"), entry("01")].concat()), 12, 30);
    // 12 comes before what is in the files
    refused(&[two, file("01", "01"), file("03", "")].concat(), 12, 37);
}

#[test]
fn twice() {
    // an object with a one-byte authId has 13 bytes: 2 + 2 + 5 + 4; they start at 20, 33, 46
    let own = |id: &str| authentication(&hex(id));
    assert_eq!(own("01").len(), 13);
    refused(&inline(0xA8, &[own("01"), own("01")]), 13, 33);
    refused(&inline(0xA8, &[own("01"), own("02"), own("02"), own("01")]), 13, 46);
    refused(&inline(0xA8, &[own(""), own("")]), 13, 32);
    accepted(&inline(0xA8, &[own(""), own("00"), own("0000")]));
    // absent ones equal nothing
    let without = hex("A1083000 3000 A1020500");
    accepted(&inline(0xA8, &[without.clone(), without]));
}

#[test]
fn books() {
    let book = accepted(&filed(0xA7, &container()));
    for bad in [&book[..book.len() - 1], &book[1..], &[], &[book.clone(), book.clone()].concat()] {
        assert_eq!(write(bad), Err((15, 0)));
        assert_eq!(links(bad), Err((15, 0)));
        assert_eq!(field(bad, 0, 0x0160), Err((15, 0)));
    }
}

#[test]
fn none() {
    let book = accepted(&filed(0xA7, &container()));
    // CIAInfo 16 bytes, 0110 with a path of two 8, 0118 4, 0120 10: 0160 is at 38
    assert_eq!(field(&book, 0, 0x0160), Ok((42, 0)));
    assert_eq!(field(&book, 0, 0x01A0), Ok((46, 2)));
    assert_eq!(field(&book, 0, 0x0121), Err((16, 0)));
    assert_eq!(field(&book, 1, 0x0160), Err((16, 0)));
    assert_eq!(field(&book, 0, 0x0118), Err((16, 0)));
}
