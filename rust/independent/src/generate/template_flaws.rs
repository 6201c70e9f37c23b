//! Templates of EF.DIR whose layout is wrong.

use super::maker::Maker;
use super::node::{group, leaf, raw, Node};
use crate::read::templates::OURS;

impl Maker<'_> {
    /// Makes the layout of a template wrong, mostly: it is ours and has neither, what must be there lacks, or what is
    /// there stands in another order or twice.
    pub fn spoil_template(&mut self, parts: &mut Vec<Node>) {
        let at = self.rng.below(parts.len());
        let other = self.rng.below(parts.len());
        match self.rng.below(12) {
            0..=3 => *parts = self.neither(),
            4 => parts.clear(),
            5 => {
                parts.remove(0);
            }
            6 => parts.swap(at, other),
            7 => parts.insert(other, parts[at].clone()),
            _ => {
                let wrong = self.wrong_discretionary();
                parts.retain(|part| part.tag != [0x73]);
                let to = parts.iter().take_while(|part| [0x4F, 0x50, 0x51].contains(&part.tag[0])).count();
                parts.insert(to, wrong);
            }
        }
    }

    /// A template of ours with neither path nor 73; sometimes its label or its rest is refused, which comes first.
    fn neither(&mut self) -> Vec<Node> {
        let mut parts = vec![leaf(0x4F, self.own_start())];
        if self.rng.chance(40) {
            let bytes = if self.rng.chance(25) { self.bad_text() } else { b"label".to_vec() };
            parts.push(leaf(0x50, bytes));
        }
        let mut cut = leaf(0x31, vec![]);
        cut.length = Some(vec![1]);
        let nested = group(0x61, vec![leaf(0x51, vec![0x3F, 0x00])]);
        let rest = [nested, leaf(0x06, vec![]), leaf(0x50, vec![]), cut, raw(vec![0x00]), raw(vec![0xFF])];
        if self.rng.chance(30) {
            parts.push(self.rng.pick(&rest));
        }
        parts
    }

    /// A 73 that is refused: with a 30 around its components, with a SET of tag 30, or with what is no Path.
    fn wrong_discretionary(&mut self) -> Node {
        let path = group(0x30, vec![leaf(0x04, vec![0x50, 0x31])]);
        let part = match self.rng.below(7) {
            0 => group(0x30, vec![leaf(0x06, vec![0x2A]), path]),
            1 => group(0x30, vec![leaf(0x4F, OURS.to_vec())]),
            2 => group(0x30, vec![path]),
            3 => group(0xA0, vec![path]),
            4 => group(0x30, vec![]),
            5 => group(0xA0, vec![]),
            _ => group(0x30, vec![group(0xA0, vec![leaf(0x80, vec![1])])]),
        };
        let aid = leaf(0x4F, vec![0xFA, 0xB1]);
        let parts = if self.rng.chance(30) { vec![aid, part] } else { vec![part, aid] };
        group(0x73, parts)
    }
}
