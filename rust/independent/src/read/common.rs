//! An object's common attributes and its access rules.

use super::element::Element;
use super::inside::Inside;
use super::Reader;
use crate::refusal::Refusal;

impl Reader<'_> {
    pub fn common(&mut self, sequence: Element) -> Result<(), Refusal> {
        let mut inside = Inside::of(self.dump, sequence);
        if let Some(label) = inside.optional(0x0C)? {
            self.text(label, 0x0121)?;
        }
        if let Some(flags) = inside.optional(0x03)? {
            self.flags(flags, 0x0122)?;
        }
        if let Some(auth_id) = inside.optional(0x04)? {
            self.identifier(auth_id, 0x0123)?;
        }
        // Annex A has 32,767 where document 01 says 15, and Annex A decides.
        if let Some(user_consent) = inside.optional(0x02)? {
            self.integer(user_consent, 0x0124, 1, 32_767)?;
        }
        if let Some(rules) = inside.optional(0x30)? {
            self.rules(rules)?;
        }
        self.rest(&mut inside, &[0x0C, 0x03, 0x04, 0x02, 0x30], 0x012F)
    }

    /// "rules 30?, at least one"
    fn rules(&mut self, sequence: Element) -> Result<(), Refusal> {
        let mut inside = Inside::of(self.dump, sequence);
        loop {
            let rule = inside.required(0x30)?;
            self.rule(rule)?;
            if !inside.more() {
                return Ok(());
            }
        }
    }

    /// "A rule is 30 { accessMode 03 0125, condition, rest 012C }."
    fn rule(&mut self, sequence: Element) -> Result<(), Refusal> {
        let mut inside = Inside::of(self.dump, sequence);
        let access_mode = inside.required(0x03)?;
        self.flags(access_mode, 0x0125)?;
        self.condition(&mut inside, 1, 0)?;
        self.rest(&mut inside, &[], 0x012C)
    }
}
