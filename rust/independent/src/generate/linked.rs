//! A card about links: short objects of some classes only, so that others lack, whose identifiers are few and stand in
//! records of every kind.

use super::maker::Maker;
use super::node::{group, leaf, Card, Node};
use super::object::sealed_object;

/// The entries that it may have; private keys and authentication objects more often.
const ENTRIES: [u8; 12] = [0xA0, 0xA0, 0xA0, 0xA1, 0xA2, 0xA3, 0xA4, 0xA5, 0xA6, 0xA7, 0xA8, 0xA8];

impl Maker<'_> {
    pub fn linked_card(&mut self) -> Card {
        let mut card = self.empty_card();
        let entries = self.rng.between(2, 7);
        for _ in 0..entries {
            let tag = self.rng.pick(&ENTRIES);
            let count = self.rng.between(1, 2);
            let objects = (0..count).map(|_| self.linked_object(tag)).collect();
            self.place(&mut card, tag, objects);
        }
        card
    }

    /// An object with its identifier, if it has to have one, and perhaps an own authId or a keyReference, a guard, a
    /// condition.
    fn linked_object(&mut self, entry_tag: u8) -> Node {
        let mut class = self.short_class(entry_tag);
        match entry_tag {
            0xA0..=0xA3 if self.rng.chance(50) => class.push(self.key_reference()),
            0xA8 if self.rng.chance(50) => class.extend(self.own_identifier()),
            _ => {}
        }
        let mut common = Vec::new();
        if self.rng.chance(30) {
            common.push(self.identifier(0x04));
        }
        if self.rng.chance(20) {
            let rule = vec![leaf(0x03, vec![0]), self.identifier(0x04)];
            common.push(group(0x30, vec![group(0x30, rule)]));
        }
        sealed_object(0xA1, common, class)
    }
}
