//! The records of a book: a 2-byte length (kind plus payload), a 2-byte kind, the payload; little-endian.

/// One record of a book.
#[derive(Clone, Copy, Debug)]
pub struct Record<'a> {
    /// Book offset of the record's first byte.
    pub at: usize,
    pub kind: u16,
    pub payload: &'a [u8],
}

/// Adds a record at the end of `out`.
pub fn add(out: &mut Vec<u8>, kind: u16, payload: &[u8]) {
    let length = payload.len() + 2;
    assert!(length <= 65_535, "a record holds at most 65,533 bytes");
    out.extend((length as u16).to_le_bytes());
    out.extend(kind.to_le_bytes());
    out.extend(payload);
}

/// Splits a book into its records; none if they do not fill it exactly.
pub fn records(book: &[u8]) -> Option<Vec<Record<'_>>> {
    let mut found = Vec::new();
    let mut at = 0;
    while at < book.len() {
        let head = book.get(at..at + 4)?;
        let length = u16::from_le_bytes([head[0], head[1]]) as usize;
        let kind = u16::from_le_bytes([head[2], head[3]]);
        if length < 2 {
            return None;
        }
        let end = at + 2 + length;
        let payload = book.get(at + 4..end)?;
        found.push(Record { at, kind, payload });
        at = end;
    }
    Some(found)
}
