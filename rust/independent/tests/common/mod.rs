//! Small helps to write dumps down, and to say what they come to.
#![allow(dead_code)]

pub mod components;

use independent::{read, write};

/// The dump is refused with this number, at this place.
pub fn refused(dump: &[u8], number: u32, place: usize) {
    assert_eq!(read(dump), Err((number, place)));
}

/// The dump is accepted, and its book, written, gives it back.
pub fn accepted(dump: &[u8]) -> Vec<u8> {
    let book = read(dump).unwrap();
    assert_eq!(write(&book).as_deref(), Ok(dump));
    book
}

/// Bytes from hex digits; spaces do not count.
pub fn hex(text: &str) -> Vec<u8> {
    let digits: Vec<u32> = text.chars().filter(|c| !c.is_whitespace()).map(|c| c.to_digit(16).unwrap()).collect();
    digits.chunks(2).map(|pair| (pair[0] * 16 + pair[1]) as u8).collect()
}

/// The shared case of document 01: 105 bytes.
pub fn shared() -> Vec<u8> {
    hex("0A000100 3006020101030100
         12000200 A006300404024401 A806300404024404
         23000300024401 301C 3003040101 30070401010302 0520 A10C300A300404024B0102020800
         22000300024404 301B 3003040102 3003040101 A10F300D030203080A0101020104020108")
}

/// One record of a dump or a book.
pub fn record(kind: u16, payload: &[u8]) -> Vec<u8> {
    let mut out = ((payload.len() + 2) as u16).to_le_bytes().to_vec();
    out.extend(kind.to_le_bytes());
    out.extend(payload);
    out
}

/// An element with a length of the shortest form.
pub fn tlv(tag: u8, parts: &[Vec<u8>]) -> Vec<u8> {
    let contents = parts.concat();
    let mut out = vec![tag];
    match contents.len() {
        n @ 0..=127 => out.push(n as u8),
        n @ 128..=255 => out.extend([0x81, n as u8]),
        n => out.extend([0x82, (n / 256) as u8, (n % 256) as u8]),
    }
    out.extend(contents);
    out
}

/// The CIAInfo of the shared case: bytes 0 to 11 of a dump.
pub fn info() -> Vec<u8> {
    record(1, &hex("3006020101030100"))
}

/// That CIAInfo and an EF.OD, whose file starts at 16.
pub fn with_od(file: &[u8]) -> Vec<u8> {
    [info(), record(2, file)].concat()
}

/// That CIAInfo and an EF.OD with one entry that holds its objects: 16 is the entry, 18 the list, 20 the first object
/// as long as everything is short.
pub fn inline(entry: u8, objects: &[Vec<u8>]) -> Vec<u8> {
    with_od(&tlv(entry, &[tlv(0xA0, objects)]))
}

/// That CIAInfo, an EF.OD that names 4401 (16 to 23), and that file: its record is at 24, the file itself at 31.
pub fn filed(entry: u8, file: &[u8]) -> Vec<u8> {
    let od = tlv(entry, &[hex("300404024401")]);
    [with_od(&od), record(3, &[hex("024401"), file.to_vec()].concat())].concat()
}

/// An EF.DIR, whose file starts at 4, that CIAInfo and an empty EF.OD: 16 bytes behind the file.
pub fn with_dir(file: &[u8]) -> Vec<u8> {
    [record(5, file), with_od(&[])].concat()
}

/// A template that is not ours, of a 4F of three bytes and a 73: 4 the template, 6 the 4F, 9 the 73, 11 its first part.
pub fn with_73(parts: &[Vec<u8>]) -> Vec<u8> {
    with_dir(&tlv(0x61, &[hex("4F0101"), tlv(0x73, parts)]))
}

/// One record of a record file.
pub fn part(bytes: &[u8]) -> Vec<u8> {
    [&(bytes.len() as u16).to_le_bytes(), bytes].concat()
}

/// As `filed`, but a record file: its record is at 24, the first record's length at 31, its bytes at 33.
pub fn linear(entry: u8, records: &[Vec<u8>]) -> Vec<u8> {
    let od = tlv(entry, &[hex("300404024401")]);
    [with_od(&od), record(4, &[hex("024401"), records.concat()].concat())].concat()
}

/// A data container: at 0 the object, 2 the common, 4 the class, 6 the A1, 8 its NULL. Ten bytes.
pub fn container() -> Vec<u8> {
    hex("3008 3000 3000 A1020500")
}

/// An authentication object of tag A1, which seals its type, with this own authId.
pub fn authentication(own: &[u8]) -> Vec<u8> {
    let class = tlv(0x30, &[tlv(0x04, &[own.to_vec()])]);
    tlv(0xA1, &[hex("3000"), class, hex("A1020500")])
}

/// A data container whose common attributes are these.
pub fn with_common(parts: &[Vec<u8>]) -> Vec<u8> {
    tlv(0x30, &[tlv(0x30, parts), hex("3000 A1020500")])
}

/// A data container with one access rule of this condition. Alone in an inline list all lengths being short:
/// 20 the object, 22 the common, 24 the rules, 26 the rule, 28 accessMode (3 bytes), 31 the condition.
pub fn with_condition(condition: &[u8]) -> Vec<u8> {
    with_common(&[tlv(0x30, &[tlv(0x30, &[hex("030100"), condition.to_vec()])])])
}

/// A password whose type attributes are these. In an inline list: 20 the object, 22 the common, 24 the class,
/// 26 the A1, 28 the sequence, 30 its first component.
pub fn password(parts: &[Vec<u8>]) -> Vec<u8> {
    tlv(0x30, &[hex("3000 3000"), tlv(0xA1, &[tlv(0x30, parts)])])
}

/// The four components that a password must have, 12 bytes: flags, type, minLength, storedLength.
pub fn password_needs() -> Vec<u8> {
    hex("030100 0A0101 020104 020108")
}
