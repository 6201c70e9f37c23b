//! "a first byte 00 or FF where an element would start begins the fill, and all bytes to the end must equal it"

use super::inside::Inside;
use super::Reader;
use crate::refusal::{Refusal, FILL};

/// Whether fill begins where the next element of a file or a record would start.
pub fn begins(inside: &Inside) -> bool {
    matches!(inside.first_byte(), Some(0x00 | 0xFF))
}

impl Reader<'_> {
    /// Reads the fill up to the file's or the record's end. An empty fill has no book record.
    pub fn fill(&mut self, inside: &Inside, kind: u16) -> Result<(), Refusal> {
        let Some(byte) = inside.first_byte() else {
            return Ok(());
        };
        let bytes = &self.dump[inside.at..inside.end];
        if let Some(index) = bytes.iter().position(|other| *other != byte) {
            return Err((FILL, inside.at + index));
        }
        let count = (bytes.len() as u16).to_le_bytes();
        self.record(kind, &[byte, count[0], count[1]]);
        Ok(())
    }
}
