//! Objects of every class and type.

use super::flaw::Flaw;
use super::maker::Maker;
use super::node::{group, leaf, Node};

impl Maker<'_> {
    /// An object under this entry tag.
    pub fn object(&mut self, entry_tag: u8) -> Node {
        let usual = if self.small { 90 } else { 65 };
        let tag = if self.rng.chance(usual) { 0x30 } else { self.rng.between(0xA0, 0xA7) as u8 };
        let mut parts = vec![self.common(), self.class(entry_tag)];
        if self.rng.chance(20) {
            parts.push(group(0xA0, vec![self.sealed_element(&[], 16)]));
        }
        parts.push(group(0xA1, vec![self.type_attributes(entry_tag, tag)]));
        group(tag, parts)
    }

    /// An object as short as it can be.
    pub fn short_object(&mut self, entry_tag: u8) -> Node {
        let class = self.short_class(entry_tag);
        let tag = self.rng.between(0xA0, 0xA7) as u8;
        let common = if self.rng.chance(30) { vec![self.identifier(0x04)] } else { vec![] };
        sealed_object(tag, common, class)
    }

    /// What the class of such an object must have.
    pub fn short_class(&mut self, entry_tag: u8) -> Vec<Node> {
        match entry_tag {
            0xA0..=0xA3 => vec![self.identifier(0x04), leaf(0x03, vec![0])],
            0xA4..=0xA6 => vec![self.identifier(0x04)],
            _ => vec![],
        }
    }

    fn common(&mut self) -> Node {
        let mut parts = Vec::new();
        if self.option(30, &[Flaw::Text]) {
            parts.push(self.text(0x0C));
        }
        if self.option(30, &[Flaw::Flags]) {
            parts.push(self.flags(0x03));
        }
        if self.rng.chance(50) {
            parts.push(self.identifier(0x04));
        }
        if self.option(20, &[Flaw::Integer]) {
            parts.push(self.integer(0x02, 1, 32_767));
        }
        if self.option(35, &[Flaw::Condition, Flaw::Null]) {
            let count = if self.rng.chance(70) { 1 } else { self.rng.between(2, 4) };
            parts.push(group(0x30, (0..count).map(|_| self.rule()).collect()));
        }
        parts.extend(self.rest(&[0x0C, 0x03, 0x04, 0x02, 0x30]));
        group(0x30, parts)
    }

    fn rule(&mut self) -> Node {
        let condition = match self.rng.below(40) {
            0 => self.long_list(255),
            1 => self.deep_condition(8),
            _ => self.condition(8),
        };
        let mut parts = vec![self.flags(0x03), condition];
        parts.extend(self.rest(&[]));
        group(0x30, parts)
    }

    fn class(&mut self, entry_tag: u8) -> Node {
        let parts = match entry_tag {
            0xA0..=0xA3 => self.key_class(),
            0xA4..=0xA6 => self.certificate_class(),
            0xA7 => self.container_class(),
            _ => self.authentication_class(),
        };
        group(0x30, parts)
    }

    fn key_class(&mut self) -> Vec<Node> {
        let mut parts = vec![self.identifier(0x04), self.flags(0x03)];
        if self.option(25, &[Flaw::Boolean, Flaw::Default]) {
            parts.push(self.boolean(0x01, true));
        }
        if self.option(25, &[Flaw::Flags]) {
            parts.push(self.flags(0x03));
        }
        if self.option(35, &[Flaw::Integer, Flaw::KeyReference]) {
            parts.push(self.key_reference());
        }
        if self.option(25, &[Flaw::Time]) {
            parts.push(self.time(0x18));
        }
        if self.option(25, &[Flaw::Time]) {
            parts.push(self.time(0x80));
        }
        parts.extend(self.rest(&[0x01, 0x03, 0x02, 0x18, 0x80]));
        parts
    }

    fn certificate_class(&mut self) -> Vec<Node> {
        let mut parts = vec![self.identifier(0x04)];
        if self.option(30, &[Flaw::Boolean, Flaw::Default]) {
            parts.push(self.boolean(0x01, false));
        }
        parts.extend(self.rest(&[0x01]));
        parts
    }

    fn authentication_class(&mut self) -> Vec<Node> {
        let mut parts = Vec::new();
        if self.rng.chance(80) {
            parts.extend(self.own_identifier());
        }
        if self.option(30, &[Flaw::Integer]) {
            parts.push(self.integer(0x02, 0, 255));
        }
        if self.option(30, &[Flaw::Integer]) {
            parts.push(self.integer(0x80, 0, 255));
        }
        parts.extend(self.rest(&[0x04, 0x02, 0x80]));
        parts
    }

    /// An own authId that no other object has, or, as a flaw, one that another has.
    pub fn own_identifier(&mut self) -> Option<Node> {
        if !self.taken.is_empty() && self.flaw(Flaw::Twice) {
            return Some(leaf(0x04, self.rng.pick(&self.taken)));
        }
        if self.own.is_empty() {
            return None;
        }
        let at = self.rng.below(self.own.len());
        let own = self.own.swap_remove(at);
        self.taken.push(own.clone());
        Some(leaf(0x04, own))
    }

    fn container_class(&mut self) -> Vec<Node> {
        let count = self.rng.below(3);
        (0..count).map(|_| self.sealed_element(&[], 16)).collect()
    }

    /// The one element inside the A1.
    fn type_attributes(&mut self, entry_tag: u8, object_tag: u8) -> Node {
        match (entry_tag, object_tag) {
            (0xA0, 0x30) => self.private_key(),
            (0xA4..=0xA6, 0x30) => self.certificate(),
            (0xA8, 0x30) => self.password(),
            _ => self.sealed_element(&[], 16),
        }
    }

    fn private_key(&mut self) -> Node {
        let mut parts = vec![self.path(), self.integer(0x02, 0, 65_535)];
        parts.extend(self.rest(&[]));
        group(0x30, parts)
    }

    fn certificate(&mut self) -> Node {
        let first = if self.rng.chance(60) { self.path() } else { self.sealed_element(&[0x30], 16) };
        let mut parts = vec![first];
        parts.extend(self.rest(&[]));
        group(0x30, parts)
    }

    fn password(&mut self) -> Node {
        let mut flags = self.flag_word();
        if self.flaw(Flaw::Rule) {
            flags |= 0xC0;
        } else if flags & 0xC0 == 0xC0 {
            flags &= !self.rng.pick(&[0x40, 0x80, 0xC0]);
        }
        let mut parts = vec![
            self.flags_of(0x03, flags),
            self.integer(0x0A, 0, 4),
            self.integer(0x02, 4, 8),
            self.integer(0x02, 0, 64),
        ];
        parts.extend(self.password_options());
        parts.extend(self.rest(&[0x02, 0x80, 0x04, 0x18, 0x30]));
        if flags & 0xC0 == 0xC0 {
            parts.extend(self.second_fault());
        }
        group(0x30, parts)
    }

    fn password_options(&mut self) -> Vec<Node> {
        let mut parts = Vec::new();
        if self.option(30, &[Flaw::Integer]) {
            parts.push(self.integer(0x02, 0, 65_535));
        }
        if self.option(30, &[Flaw::Integer, Flaw::Default]) {
            parts.push(self.pwd_reference());
        }
        if self.option(30, &[Flaw::Octets]) {
            parts.push(self.octets(0x04, 1, 1));
        }
        if self.option(30, &[Flaw::Time]) {
            parts.push(self.time(0x18));
        }
        if self.option(30, &[Flaw::Rule]) {
            parts.push(self.path());
        }
        parts
    }

    /// A pwdReference that is not its default, 0.
    fn pwd_reference(&mut self) -> Node {
        if self.flaw(Flaw::Default) {
            return self.written_default(0x80, 0);
        }
        self.integer(0x80, 1, 255)
    }

    pub fn path(&mut self) -> Node {
        let mut parts = vec![self.octets(0x04, 0, 64)];
        if self.option(30, &[Flaw::Integer, Flaw::Rule]) {
            parts.push(self.integer(0x02, 0, 65_535));
            parts.push(self.integer(0x80, 0, 65_535));
            if self.flaw(Flaw::Rule) {
                let at = self.rng.between(1, 2);
                parts.remove(at);
                parts.extend(self.second_fault());
            }
        }
        group(0x30, parts)
    }

    /// Sometimes an element that is itself refused, for a sequence that breaks a rule.
    fn second_fault(&mut self) -> Option<Node> {
        let mut cut = leaf(0x30, vec![]);
        cut.length = Some(vec![1]);
        if self.rng.chance(30) {
            Some(self.rng.pick(&[leaf(0x02, vec![]), leaf(0x04, vec![]), cut]))
        } else {
            None
        }
    }
}

/// An object of a tag that seals its type, the shortest one.
pub fn sealed_object(tag: u8, common: Vec<Node>, class: Vec<Node>) -> Node {
    group(tag, vec![group(0x30, common), group(0x30, class), group(0xA1, vec![leaf(0x05, vec![])])])
}
