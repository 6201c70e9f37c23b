//! Encodings of single elements.

/// Tag, length and contents.
pub fn element(tag: u8, contents: &[u8]) -> Vec<u8> {
    let mut out = vec![tag];
    out.extend(length(contents.len()));
    out.extend(contents);
    out
}

/// The shortest form of a length. One over 65,535 has a form too, which the reader refuses.
pub fn length(length: usize) -> Vec<u8> {
    let bytes = (length as u32).to_be_bytes();
    match length {
        0..=0x7F => vec![bytes[3]],
        0x80..=0xFF => vec![0x81, bytes[3]],
        0x100..=0xFFFF => vec![0x82, bytes[2], bytes[3]],
        _ => vec![0x84, bytes[0], bytes[1], bytes[2], bytes[3]],
    }
}

pub fn octets(tag: u8, contents: &[u8]) -> Vec<u8> {
    element(tag, contents)
}

/// A number record as an INTEGER or ENUMERATED: its four bytes are a two's complement, whatever the component. A
/// negative number where there may be none is refused by the reader.
pub fn integer(tag: u8, number: u32) -> Vec<u8> {
    element(tag, &integer_contents(i64::from(number as i32)))
}

pub fn flags(tag: u8, value: u32) -> Vec<u8> {
    element(tag, &flag_contents(value))
}

/// A one-byte BOOLEAN record as an element; another byte than 00 or 01 stays as it is and is refused by the reader.
pub fn boolean(tag: u8, payload: &[u8]) -> Vec<u8> {
    match payload {
        [1] => element(tag, &[0xFF]),
        _ => element(tag, payload),
    }
}

/// The shortest form of a number: its two's complement without the bytes that only repeat the sign of the next.
pub fn integer_contents(value: i64) -> Vec<u8> {
    let bytes = value.to_be_bytes();
    let repeats = |pair: &&[u8]| matches!(pair, [0x00, 0x00..=0x7F] | [0xFF, 0x80..=0xFF]);
    let leading = bytes.windows(2).take_while(repeats).count();
    bytes[leading..].to_vec()
}

/// The unused bits' count and the bits up to the last one set; bit i is the number's 2^i.
pub fn flag_contents(value: u32) -> Vec<u8> {
    let bits = 32 - value.leading_zeros() as usize;
    let mut out = vec![0; 1 + bits.div_ceil(8)];
    out[0] = ((8 - bits % 8) % 8) as u8;
    for bit in 0..bits {
        if value >> bit & 1 == 1 {
            out[1 + bit / 8] |= 0x80 >> (bit % 8);
        }
    }
    out
}
