//! Record files: "path length, path, then records, each a 2-byte length and its bytes"

use super::frames::File;
use super::inside::Inside;
use super::{fill, Reader};
use crate::refusal::{Refusal, SECOND};

/// Where each record's bytes start and end; none if a record length runs over the file's end or is cut off.
pub fn records(dump: &[u8], from: usize, end: usize) -> Option<Vec<(usize, usize)>> {
    let file = &dump[..end];
    let mut found = Vec::new();
    let mut at = from;
    while at < end {
        let length = file.get(at..at + 2)?;
        let start = at + 2;
        let stop = start + u16::from_le_bytes([length[0], length[1]]) as usize;
        file.get(start..stop)?;
        found.push((start, stop));
        at = stop;
    }
    Some(found)
}

impl Reader<'_> {
    /// "The book opens such a file with 0119 instead of 0118 and each record with 011A."
    pub fn linear_file(&mut self, entry_tag: u8, file: File) -> Result<(), Refusal> {
        self.record(0x0119, &[]);
        let all = records(self.dump, file.from, file.end).expect("all frames are checked before");
        for (from, end) in all {
            self.linear_record(entry_tag, Inside::new(self.dump, from, end))?;
        }
        Ok(())
    }

    /// "A record holds one object or none, then fill."
    fn linear_record(&mut self, entry_tag: u8, mut inside: Inside) -> Result<(), Refusal> {
        self.record(0x011A, &[]);
        if inside.more() && !fill::begins(&inside) {
            self.object(entry_tag, &mut inside)?;
        }
        // "new 17 where a record holds a second object, at it and before 10"
        if inside.more() && !fill::begins(&inside) {
            return Err((SECOND, inside.at));
        }
        self.fill(&inside, 0x0107)
    }
}
