//! "Object: tag 30 or A0 to A7, contents common 30, class 30, subclass A0?, type A1."

use super::element::Element;
use super::inside::Inside;
use super::Reader;
use crate::refusal::{Refusal, MANY, TAG};

/// "At most 128 objects (house)"
const MOST_OBJECTS: usize = 128;

impl Reader<'_> {
    /// Reads the object that starts where `inside` stands; there is at least one byte.
    pub fn object(&mut self, entry_tag: u8, inside: &mut Inside) -> Result<(), Refusal> {
        if self.objects == MOST_OBJECTS {
            return Err((MANY, inside.at));
        }
        self.objects += 1;
        let object = inside.any()?;
        if !matches!(object.tag, 0x30 | 0xA0..=0xA7) {
            return Err((TAG, object.at));
        }
        self.opening(entry_tag, object);
        self.object_parts(entry_tag, object)
    }

    /// "Record 0120 gains a 2-byte file number (0 for EF.OD, then 1 upward in dump order) and a 2-byte offset of the
    /// object inside that file." The offset counts all of the file's bytes, record lengths too.
    fn opening(&mut self, entry_tag: u8, object: Element) {
        let offset = (object.at - self.from) as u16;
        let payload = [[entry_tag, object.tag], self.files.to_le_bytes(), offset.to_le_bytes()].concat();
        self.record(0x0120, &payload);
    }

    fn object_parts(&mut self, entry_tag: u8, object: Element) -> Result<(), Refusal> {
        let mut inside = Inside::of(self.dump, object);
        let common = inside.required(0x30)?;
        self.common(common)?;
        let class = inside.required(0x30)?;
        self.class(entry_tag, object, class)?;
        if let Some(subclass) = inside.optional(0xA0)? {
            self.one_sealed(subclass, 0x0170)?;
        }
        let type_attributes = inside.required(0xA1)?;
        self.type_attributes(entry_tag, object, type_attributes)?;
        inside.finish()
    }
}
