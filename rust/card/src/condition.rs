//! Access conditions in words, out of their records in prefix order.

use crate::book::Record;
use crate::escape::hex;
use crate::words::octets;

/// Accepted books have eight levels.
pub const LEVELS: usize = 8;

/// Reads conditions one after the other.
struct Cursor<'a, 'b> {
    records: &'b [Record<'a>],
    at: usize,
}

/// The condition at the start of these records, and how many of them it has.
pub fn condition(records: &[Record]) -> (String, usize) {
    let mut cursor = Cursor { records, at: 0 };
    let words = cursor.next(LEVELS, false);
    (words, cursor.at)
}

impl Cursor<'_, '_> {
    /// The next condition, in brackets if it is a list inside another condition.
    fn next(&mut self, levels: usize, inside: bool) -> String {
        let Some(record) = self.records.get(self.at).filter(|_| levels > 0) else {
            return "..".to_string();
        };
        let words = match record.kind {
            0x0126 => "always".to_string(),
            0x0127 => octets(record.payload),
            0x0128 => format!("other {}", hex(record.payload)),
            0x0129..=0x012B => return self.combined(levels, inside),
            _ => return "..".to_string(),
        };
        self.at += 1;
        words
    }

    fn combined(&mut self, levels: usize, inside: bool) -> String {
        let record = self.records[self.at];
        self.at += 1;
        if record.kind == 0x0129 {
            return format!("not {}", self.next(levels - 1, true));
        }
        let count = record.payload.try_into().map_or(0, u16::from_le_bytes);
        let parts: Vec<String> = (0..count).map(|_| self.next(levels - 1, true)).collect();
        let all = parts.join(if record.kind == 0x012A { " and " } else { " or " });
        match inside {
            true => format!("({all})"),
            false => all,
        }
    }
}
