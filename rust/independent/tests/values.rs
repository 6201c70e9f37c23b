//! What is wrong with a value (item 3 of document 02): 61 to 68, at each component that can be wrong in that way.
//! Places are worked out by hand, for values so short that every length has one byte. Annex E.2 is in `cases.rs`.

mod common;

use common::components::*;
use common::*;
use independent::read::values;

/// native and authority with these contents.
fn booleans(contents: &str) -> Vec<Case> {
    let boolean = with(0x01, &hex(contents));
    vec![(key(0xA1, &boolean), 31), (certificate(0xA5, &boolean), 28)]
}

/// All six bit strings with these contents.
fn bit_strings(contents: &str) -> Vec<Case> {
    let bits = with(0x03, &hex(contents));
    let rule = tlv(0x30, &[bits.clone(), hex("0500")]);
    vec![
        // cardflags
        (with_info(&[hex("020101"), bits.clone()]), 9),
        // flags
        (common(&bits), 24),
        // accessMode: 24 the rules, 26 the rule
        (common(&with(0x30, &rule)), 28),
        // usage and accessFlags
        (class(0xA1, &[&hex("0400"), &bits[..]].concat()), 28),
        (key(0xA1, &bits), 31),
        // pwdFlags
        (components(&[&bits, &hex("0A0101 020104 020108")[..]].concat()), 30),
    ]
}

/// manufacturerID and label of CIAInfo, and an object's label, with these contents.
fn texts(contents: &str) -> Vec<Case> {
    let text = |tag: u8| with(tag, &hex(contents));
    let info = |tag: u8| with_info(&[hex("020101"), text(tag), hex("030100")]);
    vec![(info(0x0C), 9), (info(0x80), 9), (common(&text(0x0C)), 24)]
}

/// startDate, endDate and lastPasswordChange with these contents.
fn times(contents: &str) -> Vec<Case> {
    let time = |tag: u8| with(tag, contents.as_bytes());
    vec![(key(0xA1, &time(0x18)), 31), (key(0xA1, &time(0x80)), 31), (option(&time(0x18)), 42)]
}

/// This condition, which starts at 31.
fn condition(bytes: &[u8]) -> Vec<u8> {
    inline(0xA7, &[with_condition(bytes)])
}

#[test]
fn boolean() {
    accepted(&key(0xA1, &hex("010100")));
    accepted(&certificate(0xA5, &hex("0101FF")));
    // no byte; bytes that BER takes for TRUE; two and three bytes
    each_refused(booleans, &["", "01", "7F", "80", "FE", "0000", "00FF", "FF00", "FFFF", "000000"], 61);
}

#[test]
fn every_byte_as_boolean() {
    for byte in 0x01..=0xFE {
        assert_eq!(values::boolean(&[byte]), Err(61));
    }
}

#[test]
fn integer() {
    all_accepted(integers("04"));
    // no byte; P7; 0, 4, 128 and 256 with one 00 too many, 4 with two; -1, -128 and -129 with one FF too many
    each_refused(integers, &["", "007F", "0000", "0004", "000080", "000100", "000004", "FFFF", "FF80", "FFFF7F"], 62);
}

#[test]
fn integer_form_before_range() {
    // 65,536, 2^32, -129: out of all bounds, the form being right
    each_refused(integers, &["010000", "0100000000", "FF7F"], 7);
    // -1 and -128: out of all but keyReference's
    each_refused(other_integers, &["FF", "80"], 7);
    // 65,536, 2^64, -1 and -256 with one byte too many
    each_refused(integers, &["00010000", "00010000000000000000", "FFFF", "FFFF00"], 62);
    // minLength 3 and 9, userConsent 0
    refused(&components(&hex("030100 0A0101 020103 020108")), 7, 36);
    refused(&components(&hex("030100 0A0101 02020003 020108")), 62, 36);
    refused(&components(&hex("030100 0A0101 02020009 020108")), 62, 36);
    refused(&common(&hex("020100")), 7, 24);
    refused(&common(&hex("02020000")), 62, 24);
}

#[test]
fn every_integer_of_two_bytes() {
    for value in i16::MIN..=i16::MAX {
        let due = match value {
            -128..=127 => Err(62),
            128..=255 => Ok(value.into()),
            _ => Err(7),
        };
        for low in [0, -128] {
            assert_eq!(values::integer(&value.to_be_bytes(), low, 255), due);
        }
    }
}

#[test]
fn bits() {
    // none, one, some; 32 bits without those that a pwdFlags may not have together
    for good in ["00", "0780", "062040", "0001", "00FCFFFFFF"] {
        all_accepted(bit_strings(good));
    }
    // empty; a count without bytes; a count over 7, with one byte and with more
    each_refused(
        bit_strings,
        &["", "01", "07", "08", "80", "FF", "0880", "0980", "FF80", "0800", "088000", "10800000", "20FFFFFFFF80"],
        63,
    );
    // unused bits set: the last one, the first one, all; in the second byte
    each_refused(bit_strings, &["0103", "0781", "07C0", "07FF", "0418", "062041"], 63);
}

#[test]
fn trailing() {
    // P4, with two zero bits; one and eight; no bit set in one, two and four bytes; seven unused ones and a zero
    each_refused(
        bit_strings,
        &["0580", "0680", "00FE", "008000", "0000", "000000", "0000000000", "0700", "078000"],
        64,
    );
}

#[test]
fn bits_before_trailing() {
    // the last bit in use is zero and an unused one is set
    each_refused(bit_strings, &["0701", "0740", "0101", "0202", "04800F", "078001"], 63);
    // a count over 7 and zero bits; a count and no bit
    each_refused(bit_strings, &["0800", "090000", "FF00", "0B", "01"], 63);
}

#[test]
fn bits_form_before_range() {
    // 33 and 40 bits
    each_refused(bit_strings, &["07FFFFFFFF80", "000102030405"], 7);
    // 33, 34 and 40 bits, the last one zero; without the zeros of the first and the last there would be 32 at most
    each_refused(bit_strings, &["070102030400", "060102030480", "000102030404", "000102030500"], 64);
    // 33 and 36 bits and an unused one set; counts over 7
    each_refused(bit_strings, &["07FFFFFFFF81", "07FFFFFFFF40", "040102030418", "08FFFFFFFF80", "FFFFFFFFFFFF"], 63);
}

#[test]
fn every_count_with_one_byte() {
    for byte in 0..=255u8 {
        let bits = format!("{byte:08b}");
        for count in 0..=7 {
            let (used, unused) = bits.split_at(8 - count);
            let due = match used.strip_suffix('1') {
                _ if unused.contains('1') => Some(63),
                None => Some(64),
                Some(_) => None,
            };
            assert_eq!(values::flags(&[count as u8, byte]).err(), due, "{count} {bits}");
        }
        for count in 8..=255 {
            assert_eq!(values::flags(&[count, byte]), Err(63));
        }
    }
}

#[test]
fn text() {
    for good in ["", "00", "C3A9", "F48FBFBF"] {
        all_accepted(texts(good));
    }
    // what continues nothing, overlong, surrogate, too large, no lead byte, cut off, and each behind a letter
    for bad in ["80", "C080", "EDA080", "F4908080", "FF", "C3", "E282", "F09F94"] {
        all_refused(texts(bad), 65);
        all_refused(texts(&["61", bad].concat()), 65);
    }
}

#[test]
fn time() {
    for good in ["20000229000000Z", "00000229235959Z", "99991231235959Z"] {
        all_accepted(times(good));
    }
    // no byte, too few and too many
    each_refused(times, &["", "Z", "200002290000Z", "20000229000000", "20000229000000ZZ", "20000229000000.0Z"], 66);
    // no such day, month, hour, minute, second; other signs
    each_refused(
        times,
        &["19000229000000Z", "20231301000000Z", "20230101240000Z", "20230101006000Z", "20230101000060Z"],
        66,
    );
    each_refused(times, &["20230101000000z", "2023 101000000Z", "+0230101000000Z", "20230101000000\0"], 66);
}

#[test]
fn null() {
    accepted(&condition(&hex("0500")));
    for bad in ["050100", "05020500", "0503FFFFFF"] {
        let null = hex(bad);
        refused(&condition(&null), 67, 31);
        // in a not, as the first and as the second of a list, on level 8
        refused(&condition(&with(0xA0, &null)), 67, 33);
        refused(&condition(&tlv(0xA1, &[null.clone(), hex("0500")])), 67, 33);
        refused(&condition(&tlv(0xA2, &[hex("0500"), null.clone()])), 67, 35);
        refused(&condition(&(0..7).fold(null.clone(), |inner, _| with(0xA0, &inner))), 67, 31 + 14);
        // on level 9 the depth comes first
        refused(&condition(&(0..8).fold(null.clone(), |inner, _| with(0xA0, &inner))), 9, 31 + 16);
        // alone in a list, which has too few
        refused(&condition(&with(0xA1, &null)), 67, 33);
    }
}

#[test]
fn null_in_a_long_list() {
    // 47 the first condition, of two bytes each: every header above has a length of three bytes
    let list = |count: usize, last: &str| condition(&tlv(0xA1, &[hex("0500").repeat(count), hex(last)]));
    refused(&list(254, "050100"), 67, 47 + 508);
    refused(&list(255, "050100"), 67, 47 + 510);
    refused(&list(255, "0500"), 7, 47 + 510);
}

#[test]
fn default() {
    for entry in 0xA0..=0xA3 {
        refused(&key(entry, &hex("0101FF")), 68, 31);
    }
    for entry in 0xA4..=0xA6 {
        refused(&certificate(entry, &hex("010100")), 68, 28);
    }
    refused(&option(&hex("800100")), 68, 42);
    accepted(&option(&hex("800101")));
    // 0 is no default of keyReference, authReference, seIdentifier and maxLength
    for dump in [key(0xA1, &hex("020100")), class(0xA8, &hex("020100 800100")), option(&hex("020100"))] {
        accepted(&dump);
    }
}

#[test]
fn form_before_default() {
    for bad in ["0102FFFF", "010101", "0101FE", "0103FFFFFF"] {
        refused(&key(0xA1, &hex(bad)), 61, 31);
    }
    for bad in ["01020000", "0103000000", "0100"] {
        refused(&certificate(0xA5, &hex(bad)), 61, 28);
    }
    for bad in ["80020000", "8003000000", "8000"] {
        refused(&option(&hex(bad)), 62, 42);
    }
}

#[test]
fn one_element_after_the_other() {
    // label 24, flags 27, userConsent 30: the first that is wrong counts, whatever its number
    refused(&common(&hex("0C01FF 0300 0200")), 65, 24);
    refused(&common(&hex("0C0161 03020000 0200")), 64, 27);
    refused(&common(&hex("0C0161 030100 0200")), 62, 30);
    // usage 28, native 31, accessFlags 34
    refused(&class(0xA1, &hex("0400 030101 0101FF 0300")), 63, 28);
    refused(&class(0xA1, &hex("0400 030100 0101FF 0300")), 68, 31);
    refused(&class(0xA1, &hex("0400 030100 010100 0300")), 63, 34);
    // a range at 24, then a form; cardflags before EF.OD
    refused(&common(&hex("020100 0300")), 7, 24);
    refused(&[record(1, &hex("3006 020101 030101")), record(2, &hex("A700"))].concat(), 63, 9);
}

#[test]
fn tag_and_length_before_rule_after() {
    // a second label, and a label that runs over the common
    refused(&common(&hex("0C00 0C01FF")), 3, 26);
    refused(&common(&hex("0C02FF")), 4, 24);
    // a length without an index, in a bad form; the rule alone is 8 at the Path
    refused(&path(&hex("8000")), 62, 36);
    refused(&path(&hex("800100")), 8, 32);
    // pwdFlags with bits 6 and 7, and a zero bit at the end; then pwdType at 34
    refused(&components(&hex("0303000300 0A0101 020104 020108")), 64, 30);
    refused(&components(&hex("03020003 0A00 020104 020108")), 62, 34);
    refused(&components(&hex("03020003 0A0101 020104 020108 800100")), 68, 43);
}

#[test]
fn in_files_and_records() {
    // a file: 31 the object, 33 the common, 35 the component; two bytes on in a record
    for (bad, number) in [("0202007F", 62), ("0300", 63), ("03020580", 64), ("0C0180", 65)] {
        let object = with_common(&[hex(bad)]);
        refused(&filed(0xA7, &object), number, 35);
        refused(&linear(0xA7, &[part(&object)]), number, 37);
    }
}

#[test]
fn sealed_values_have_no_form() {
    let bad = hex("0100 0200 0300 03020580 050100 0A00 0C01FF 1800 8000");
    // a data container's class, a subclass, a type
    accepted(&class(0xA7, &bad));
    let subclass = with(0xA0, &with(0x31, &bad));
    accepted(&inline(0xA7, &[tlv(0x30, &[hex("3000 3000"), subclass, hex("A1020300")])]));
    // rests: of the common, of CIAInfo, of a certificate's class
    accepted(&common(&hex("0100 050100 0A00 1800 8000")));
    accepted(&with_info(&[hex("020101 030100 0300 0200 0100")]));
    accepted(&certificate(0xA5, &hex("0300 0200 050100 0C01FF")));
    // conditions of another tag
    accepted(&condition(&hex("0300")));
    accepted(&condition(&with(0x31, &bad)));
}
