//! Document 01's shared case through the proved library.

use adarbukoi::{field, field_place, list, read, write, Refusal};

const DUMP: &str = "0A0001003006020101030100\
    12000200A006300404024401A806300404024404\
    23000300024401301C300304010130070401010302\
    0520A10C300A300404024B0102020800\
    22000300024404301B30030401023003040101A10F300D030203080A0101020104020108";

fn dump() -> Vec<u8> {
    (0..DUMP.len()).step_by(2).map(|at| u8::from_str_radix(&DUMP[at..at + 2], 16).unwrap()).collect()
}

fn book() -> Vec<u8> {
    let mut book = vec![0; 134];
    assert_eq!(read(&dump(), &mut book), Ok(134));
    book
}

#[test]
fn reads_and_writes() {
    let mut again = vec![0; 105];
    assert_eq!(write(&book(), &mut again), Ok(105));
    assert_eq!(again, dump());
}

#[test]
fn lists() {
    let mut rows = [7; 14];
    assert_eq!(list(&book(), &mut rows), Ok(12));
    assert_eq!(rows, [1, 0, 46, 1, 3, 0, 51, u32::MAX, 1, 1, 92, u32::MAX, 7, 7]);
}

#[test]
fn hands_back_fields() {
    let book = book();
    assert_eq!(field_place(&book, 0, 0x0123), Ok((50, 1)));
    assert_eq!(field(&book, 0, 0x0123), Ok(&[1][..]));
    assert_eq!(field(&book, 2, 0x0123), Err(Refusal { number: 16, place: 0 }));
}

#[test]
fn refuses_in_words() {
    let refusal = read(&[], &mut []).unwrap_err();
    assert_eq!(refusal, Refusal { number: 2, place: 0 });
    assert!(refusal.to_string().starts_with("refused, 2 frame at 0: a dump record is broken"));
    assert_eq!(read(&dump(), &mut [0; 133]), Err(Refusal { number: 14, place: 134 }));
}
