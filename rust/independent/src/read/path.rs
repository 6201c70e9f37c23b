//! "Path 30 { 04, 0 to 64 bytes, 0180; index 02? 0181; length 80? 0182 }, both to 65,535, both or neither."
//! Those of EF.DIR have three kinds of their own each.

use super::element::Element;
use super::inside::Inside;
use super::Reader;
use crate::refusal::{Refusal, RULE};

impl Reader<'_> {
    /// A Path of an object.
    pub fn path(&mut self, sequence: Element) -> Result<(), Refusal> {
        self.path_of_kinds(sequence, 0x0180)
    }

    /// A Path whose bytes have this kind; index and length have the next two.
    pub fn path_of_kinds(&mut self, sequence: Element, kind: u16) -> Result<(), Refusal> {
        let mut inside = Inside::of(self.dump, sequence);
        let octets = inside.required(0x04)?;
        self.octets(octets, kind, 0, 64)?;
        let index = inside.optional(0x02)?;
        if let Some(index) = index {
            self.integer(index, kind + 1, 0, 65_535)?;
        }
        let length = inside.optional(0x80)?;
        if let Some(length) = length {
            self.integer(length, kind + 2, 0, 65_535)?;
        }
        inside.finish()?;
        if index.is_some() != length.is_some() {
            return Err((RULE, sequence.at));
        }
        Ok(())
    }
}
