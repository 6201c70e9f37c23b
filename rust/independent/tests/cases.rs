//! The cases of document 01, with the numbers that item 3 of document 02 gives them.

mod common;

use common::{hex, shared, with_condition, with_od};
use independent::read::element::element;
use independent::read::values;
use independent::{field, links, read, write};

#[test]
fn shared_case() {
    let dump = shared();
    assert_eq!(dump.len(), 105);
    let book = read(&dump).unwrap();
    assert_eq!(book.len(), 134);
    let missing = 4_294_967_295;
    assert_eq!(links(&book).unwrap(), [[1, 0, 46, 1], [3, 0, 51, missing], [1, 1, 92, missing]]);
    assert_eq!(write(&book).unwrap(), dump);
}

#[test]
fn shared_book_by_hand() {
    let book = hex("0600 0101 01000000  0600 0501 00000000
        0600 1001 A0004401  0600 1001 A8004404
        0200 1801  0800 2001 A030 0100 0000  0300 2301 01  0300 3001 01  0600 3101 04000000
        0400 8001 4B01  0600 8301 00080000
        0200 1801  0800 2001 A830 0200 0000  0300 2301 02  0300 5001 01  0600 9001 10000000
        0600 9101 01000000  0600 9201 04000000  0600 9301 08000000");
    assert_eq!(read(&shared()).unwrap(), book);
}

#[test]
fn shared_fields() {
    let book = read(&shared()).unwrap();
    assert_eq!(field(&book, 0, 0x0123), Ok((50, 1)));
    assert_eq!(field(&book, 0, 0x0131), Ok((60, 4)));
    assert_eq!(field(&book, 1, 0x0150), Ok((101, 1)));
    // the second object has no iD, there is no third, and these kinds are no fields
    for (object, kind) in [(1, 0x0130), (2, 0x0123), (0, 0x0120), (0, 0x0101), (0, 0x01FF), (0, 0x10123)] {
        assert_eq!(field(&book, object, kind), Err((16, 0)));
    }
}

#[test]
fn p1_to_p4_flags() {
    assert_eq!(values::flags(&hex("0780")), Ok(1));
    assert_eq!(values::flags(&hex("062040")), Ok(516));
    assert_eq!(values::flags(&hex("0398")), Ok(25));
    assert_eq!(values::flags(&hex("0580")), Err(64));
}

#[test]
fn p5_to_p7_integers() {
    assert_eq!(values::integer(&hex("00FF"), 0, 255), Ok(255));
    let bytes = hex("020100FF");
    let one = element(&bytes, 0, 4).unwrap();
    assert_eq!(one.whole(&bytes), hex("020100"));
    assert_eq!(values::integer(one.contents(&bytes), 0, 255), Ok(0));
    assert_eq!(bytes[one.end..], [0xFF]);
    assert_eq!(values::integer(&hex("007F"), 0, 255), Err(62));
}

#[test]
fn p8_condition_list_of_one() {
    // 5 at the list's end: the condition starts at 31 and has four bytes
    let object = with_condition(&hex("A1020500"));
    assert_eq!(read(&common::inline(0xA7, &[object])), Err((5, 35)));
}

#[test]
fn p9_empty_dump() {
    assert_eq!(read(&[]), Err((2, 0)));
}

#[test]
fn p10_leap_days() {
    assert_eq!(values::time(b"20000229000000Z"), Ok(()));
    assert_eq!(values::time(b"19000229000000Z"), Err(66));
    assert_eq!(values::time(b"00000229235959Z"), Ok(()));
}

const E2: &str = "a051a04f304d30120c044b455931030205800403 41444d0201013012 04019b
    0303062040 0101ff 03020398 02010aa013 3011a00f300d0201050408 3132333435363738
    a10e300c300604043f004041 02020400";

#[test]
fn annex_e2_as_printed() {
    assert_eq!(hex(E2).len(), 0x53);
    assert_eq!(read(&with_od(&hex(E2))), Err((64, 30)));
}

#[test]
fn annex_e2_flags_mended() {
    let mended = E2.replace("03020580", "03020780");
    assert_eq!(read(&with_od(&hex(&mended))), Err((68, 52)));
}

#[test]
fn annex_e2_native_dropped() {
    let mended = E2
        .replace("a051a04f304d", "a04ea04c304a")
        .replace("03020580", "03020780")
        .replace("0201013012", "020101300f")
        .replace("0101ff", "");
    let file = hex(&mended);
    assert_eq!(file.len(), 80);
    let dump = with_od(&file);
    let book = read(&dump).unwrap();
    assert_eq!(write(&book).unwrap(), dump);
    let (offset, length) = field(&book, 0, 0x0123).unwrap();
    assert_eq!(book[offset..offset + length], hex("41444D"));
    let (offset, length) = field(&book, 0, 0x0131).unwrap();
    assert_eq!(book[offset..offset + length], 516u32.to_le_bytes());
}
