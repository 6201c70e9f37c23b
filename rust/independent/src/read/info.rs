//! CIAInfo's file: one element 30, then possibly fill.

use super::element::Element;
use super::frames::File;
use super::inside::Inside;
use super::{fill, Reader};
use crate::refusal::{Refusal, MISSING};

impl Reader<'_> {
    pub fn info(&mut self, file: File) -> Result<(), Refusal> {
        let mut inside = Inside::new(self.dump, file.from, file.end);
        // "none, even before fill, is 5 at the file's end, before 11"
        if !inside.more() || fill::begins(&inside) {
            return Err((MISSING, file.end));
        }
        let sequence = inside.required(0x30)?;
        self.info_components(sequence)?;
        // "a second is 3"
        if !fill::begins(&inside) {
            inside.finish()?;
        }
        self.fill(&inside, 0x0108)
    }

    fn info_components(&mut self, sequence: Element) -> Result<(), Refusal> {
        let mut inside = Inside::of(self.dump, sequence);
        let version = inside.required(0x02)?;
        self.integer(version, 0x0101, 0, 255)?;
        if let Some(serial_number) = inside.optional(0x04)? {
            self.identifier(serial_number, 0x0102)?;
        }
        if let Some(manufacturer_id) = inside.optional(0x0C)? {
            self.text(manufacturer_id, 0x0103)?;
        }
        if let Some(label) = inside.optional(0x80)? {
            self.text(label, 0x0104)?;
        }
        let cardflags = inside.required(0x03)?;
        self.flags(cardflags, 0x0105)?;
        self.rest(&mut inside, &[0x04, 0x0C, 0x80], 0x0106)
    }
}
