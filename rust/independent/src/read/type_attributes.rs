//! "Type is one element." Private keys, certificates and passwords of tag 30 are read, all others are sealed.

use super::element::Element;
use super::inside::Inside;
use super::Reader;
use crate::refusal::{Refusal, DEFAULT, RULE};

impl Reader<'_> {
    pub fn type_attributes(&mut self, entry_tag: u8, object: Element, outer: Element) -> Result<(), Refusal> {
        if object.tag != 0x30 || !matches!(entry_tag, 0xA0 | 0xA4..=0xA6 | 0xA8) {
            return self.one_sealed(outer, 0x01A0);
        }
        let mut inside = Inside::of(self.dump, outer);
        let sequence = inside.required(0x30)?;
        match entry_tag {
            0xA0 => self.private_key(sequence)?,
            0xA8 => self.password(sequence)?,
            _ => self.certificate(sequence)?,
        }
        inside.finish()
    }

    /// "30 { Path, modulusLength 02 (to 65,535) 0183, rest 018F }"
    fn private_key(&mut self, sequence: Element) -> Result<(), Refusal> {
        let mut inside = Inside::of(self.dump, sequence);
        let path = inside.required(0x30)?;
        self.path(path)?;
        let modulus_length = inside.required(0x02)?;
        self.integer(modulus_length, 0x0183, 0, 65_535)?;
        self.rest(&mut inside, &[], 0x018F)
    }

    /// "30 { Path where the first element has tag 30, otherwise that element sealed 0184, rest 018F }"
    fn certificate(&mut self, sequence: Element) -> Result<(), Refusal> {
        let mut inside = Inside::of(self.dump, sequence);
        match inside.optional(0x30)? {
            Some(path) => self.path(path)?,
            None => self.next_sealed(&mut inside, 0x0184)?,
        }
        self.rest(&mut inside, &[], 0x018F)
    }

    fn password(&mut self, sequence: Element) -> Result<(), Refusal> {
        let mut inside = Inside::of(self.dump, sequence);
        let pwd_flags = inside.required(0x03)?;
        let flags = self.flags(pwd_flags, 0x0190)?;
        let pwd_type = inside.required(0x0A)?;
        self.integer(pwd_type, 0x0191, 0, 4)?;
        let min_length = inside.required(0x02)?;
        self.integer(min_length, 0x0192, 4, 8)?;
        let stored_length = inside.required(0x02)?;
        self.integer(stored_length, 0x0193, 0, 64)?;
        self.password_options(&mut inside)?;
        self.rest(&mut inside, &[0x02, 0x80, 0x04, 0x18, 0x30], 0x019F)?;
        // "pwdFlags bits 6 and 7 both set; place is the sequence"
        if flags & 0xC0 == 0xC0 {
            return Err((RULE, sequence.at));
        }
        Ok(())
    }

    fn password_options(&mut self, inside: &mut Inside) -> Result<(), Refusal> {
        if let Some(max_length) = inside.optional(0x02)? {
            self.integer(max_length, 0x0194, 0, 65_535)?;
        }
        if let Some(pwd_reference) = inside.optional(0x80)? {
            let value = self.integer(pwd_reference, 0x0195, 0, 255)?;
            // its default is 0
            if value == 0 {
                return Err((DEFAULT, pwd_reference.at));
            }
        }
        if let Some(pad_char) = inside.optional(0x04)? {
            self.octets(pad_char, 0x0196, 1, 1)?;
        }
        if let Some(last_password_change) = inside.optional(0x18)? {
            self.time(last_password_change, 0x0197)?;
        }
        if let Some(path) = inside.optional(0x30)? {
            self.path(path)?;
        }
        Ok(())
    }
}
