//! An object's class attributes; the entry tag tells which.

use super::element::Element;
use super::inside::Inside;
use super::Reader;
use crate::refusal::Refusal;

impl Reader<'_> {
    pub fn class(&mut self, entry_tag: u8, object: Element, sequence: Element) -> Result<(), Refusal> {
        let mut inside = Inside::of(self.dump, sequence);
        match entry_tag {
            0xA0..=0xA3 => self.key_class(&mut inside),
            0xA4..=0xA6 => self.certificate_class(&mut inside),
            0xA7 => self.container_class(&mut inside),
            _ => self.authentication_class(object, &mut inside),
        }
    }

    fn key_class(&mut self, inside: &mut Inside) -> Result<(), Refusal> {
        let id = inside.required(0x04)?;
        self.identifier(id, 0x0130)?;
        let usage = inside.required(0x03)?;
        self.flags(usage, 0x0131)?;
        if let Some(native) = inside.optional(0x01)? {
            self.boolean(native, 0x0132, true)?;
        }
        if let Some(access_flags) = inside.optional(0x03)? {
            self.flags(access_flags, 0x0133)?;
        }
        // "For keyReference the bounds become minus 128 to 255"
        if let Some(key_reference) = inside.optional(0x02)? {
            self.integer(key_reference, 0x0134, -128, 255)?;
        }
        if let Some(start_date) = inside.optional(0x18)? {
            self.time(start_date, 0x0135)?;
        }
        if let Some(end_date) = inside.optional(0x80)? {
            self.time(end_date, 0x0136)?;
        }
        self.rest(inside, &[0x01, 0x03, 0x02, 0x18, 0x80], 0x013F)
    }

    fn certificate_class(&mut self, inside: &mut Inside) -> Result<(), Refusal> {
        let id = inside.required(0x04)?;
        self.identifier(id, 0x0140)?;
        if let Some(authority) = inside.optional(0x01)? {
            self.boolean(authority, 0x0141, false)?;
        }
        self.rest(inside, &[0x01], 0x014F)
    }

    fn authentication_class(&mut self, object: Element, inside: &mut Inside) -> Result<(), Refusal> {
        if let Some(own) = inside.optional(0x04)? {
            let identifier = self.identifier(own, 0x0150)?;
            self.own.push((object.at, identifier));
        }
        if let Some(auth_reference) = inside.optional(0x02)? {
            self.integer(auth_reference, 0x0151, 0, 255)?;
        }
        if let Some(se_identifier) = inside.optional(0x80)? {
            self.integer(se_identifier, 0x0152, 0, 255)?;
        }
        self.rest(inside, &[0x04, 0x02, 0x80], 0x015F)
    }

    /// "Data containers: sealed contents, 0160, present even when empty."
    fn container_class(&mut self, inside: &mut Inside) -> Result<(), Refusal> {
        if !inside.more() {
            self.record(0x0160, &[]);
            return Ok(());
        }
        self.rest(inside, &[], 0x0160)
    }
}
