//! Security conditions, "in prefix order", "at most 8 deep (house), a leaf at the top being 1".

use super::element::Element;
use super::inside::Inside;
use super::{sealed, values, Reader};
use crate::refusal::{Refusal, DEPTH, MISSING, RANGE};

const DEEPEST: usize = 8;
const MOST_IN_LIST: usize = 255;

impl Reader<'_> {
    /// The next condition of `inside`, which stands on `level`, after `before` others of its list.
    pub fn condition(&mut self, inside: &mut Inside, level: usize, before: usize) -> Result<(), Refusal> {
        if inside.more() && level > DEEPEST {
            return Err((DEPTH, inside.at));
        }
        let it = inside.any()?;
        let contents = it.contents(self.dump);
        match it.tag {
            0x05 => values::null(contents).map_err(|no| (no, it.at))?,
            0x04 => values::octets(contents, 0, 255).map_err(|no| (no, it.at))?,
            _ => {}
        }
        // "the 256th condition of one list", before its contents
        if before == MOST_IN_LIST {
            return Err((RANGE, it.at));
        }
        self.condition_contents(it, level)
    }

    fn condition_contents(&mut self, it: Element, level: usize) -> Result<(), Refusal> {
        match it.tag {
            0x05 => self.record(0x0126, &[]),
            0x04 => {
                let identifier = it.contents(self.dump);
                self.record(0x0127, identifier);
            }
            0xA0 => return self.not(it, level),
            0xA1 => return self.list(it, level, 0x012A),
            0xA2 => return self.list(it, level, 0x012B),
            _ => {
                sealed::nesting(self.dump, it, 1)?;
                let element = it.whole(self.dump);
                self.record(0x0128, element);
            }
        }
        Ok(())
    }

    /// "A0 not, one inside, 0129"
    fn not(&mut self, it: Element, level: usize) -> Result<(), Refusal> {
        self.record(0x0129, &[]);
        let mut inside = Inside::of(self.dump, it);
        self.condition(&mut inside, level + 1, 0)?;
        inside.finish()
    }

    /// "A1 and 012A, A2 or 012B, each 2 to 255 inside, 2-byte count"
    fn list(&mut self, it: Element, level: usize, kind: u16) -> Result<(), Refusal> {
        self.record(kind, &[0, 0]);
        let count_at = self.book.len() - 2;
        let mut inside = Inside::of(self.dump, it);
        let mut count = 0;
        while inside.more() {
            self.condition(&mut inside, level + 1, count)?;
            count += 1;
        }
        if count < 2 {
            return Err((MISSING, it.end));
        }
        self.book[count_at..count_at + 2].copy_from_slice(&(count as u16).to_le_bytes());
        Ok(())
    }
}
