//! EF.DIR: "application templates 61 { identifier 4F of 1 to 16 bytes, label 50?, path 51? of up to 64, 73?, rest } in
//! this order (house)"; "another element of the file is sealed".

use super::element::Element;
use super::frames::File;
use super::inside::Inside;
use super::{fill, Reader};
use crate::refusal::{Refusal, MISSING};

/// "those whose 4F begins with E8 28 BD 08 0F, the fixed start that clause 7.5.5 gives"
pub const OURS: [u8; 5] = [0xE8, 0x28, 0xBD, 0x08, 0x0F];

impl Reader<'_> {
    pub fn templates(&mut self, file: File) -> Result<(), Refusal> {
        self.record(0x0200, &[]);
        let mut inside = Inside::new(self.dump, file.from, file.end);
        while inside.more() && !fill::begins(&inside) {
            match inside.optional(0x61)? {
                Some(template) => self.template(template)?,
                None => self.next_sealed(&mut inside, 0x0211)?,
            }
        }
        self.fill(&inside, 0x0212)
    }

    fn template(&mut self, template: Element) -> Result<(), Refusal> {
        let mut inside = Inside::of(self.dump, template);
        let identifier = inside.required(0x4F)?;
        let ours = identifier.contents(self.dump).starts_with(&OURS);
        self.record(0x0201, &[u8::from(ours)]);
        self.octets(identifier, 0x0202, 1, 16)?;
        if let Some(label) = inside.optional(0x50)? {
            self.text(label, 0x0203)?;
        }
        let path = inside.optional(0x51)?;
        if let Some(path) = path {
            self.octets(path, 0x0204, 0, 64)?;
        }
        let discretionary = inside.optional(0x73)?;
        if let Some(discretionary) = discretionary {
            self.discretionary(discretionary)?;
        }
        self.rest(&mut inside, &[0x50, 0x51, 0x73], 0x0210)?;
        // "5 where a template of ours has neither path nor 73", a rule of the whole template
        if ours && path.is_none() && discretionary.is_none() {
            return Err((MISSING, template.end));
        }
        Ok(())
    }

    /// The discretionary data objects, 73: clause 7.4's CIODDO without a 30 of its own, "providerId and the SET
    /// sealed".
    fn discretionary(&mut self, outer: Element) -> Result<(), Refusal> {
        self.record(0x0205, &[]);
        let mut inside = Inside::of(self.dump, outer);
        if let Some(provider_id) = inside.optional(0x06)? {
            self.sealed(provider_id, 0x0206)?;
        }
        if let Some(odf_path) = inside.optional(0x30)? {
            self.path_of_kinds(odf_path, 0x0207)?;
        }
        if let Some(cia_info_path) = inside.optional(0xA0)? {
            self.path_of_kinds(cia_info_path, 0x020A)?;
        }
        if let Some(aid) = inside.optional(0x4F)? {
            self.octets(aid, 0x020D, 1, 16)?;
        }
        if let Some(security_file_or_object) = inside.optional(0x31)? {
            self.sealed(security_file_or_object, 0x020E)?;
        }
        self.rest(&mut inside, &[0x06, 0x30, 0xA0, 0x4F, 0x31], 0x020F)
    }
}
