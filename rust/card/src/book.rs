//! A book as its records.

/// One record of a book.
#[derive(Clone, Copy, Debug, PartialEq, Eq)]
pub struct Record<'a> {
    /// Book offset of the record's first byte.
    pub offset: usize,
    pub kind: u16,
    pub payload: &'a [u8],
}

/// How long the record at the start of these bytes is, and its kind.
pub fn head(bytes: &[u8]) -> Option<(usize, u16)> {
    let head = bytes.get(..4)?;
    let length = usize::from(u16::from_le_bytes([head[0], head[1]]));
    let kind = u16::from_le_bytes([head[2], head[3]]);
    (length >= 2 && length + 2 <= bytes.len()).then_some((length + 2, kind))
}

/// The records of a book or a dump, up to its end or to what is none.
pub fn records(bytes: &[u8]) -> Vec<Record<'_>> {
    let mut found = Vec::new();
    let mut offset = 0;
    while let Some((length, kind)) = head(&bytes[offset..]) {
        found.push(Record { offset, kind, payload: &bytes[offset + 4..offset + length] });
        offset += length;
    }
    found
}

/// Puts a record behind `out`; none whose length two bytes do not hold.
pub fn put(out: &mut Vec<u8>, kind: u16, payload: &[u8]) -> bool {
    let Ok(length) = u16::try_from(payload.len() + 2) else {
        return false;
    };
    out.extend(length.to_le_bytes());
    out.extend(kind.to_le_bytes());
    out.extend(payload);
    true
}
