//! EF.DIR: templates, ours and not, and the elements beside them.

use super::flaw::Flaw;
use super::maker::Maker;
use super::node::{group, leaf, File, Node};
use crate::read::templates::OURS;

/// The identifier in the standard's Annex D.8.
const PKCS15: &[u8] = b"\xA0\x00\x00\x00\x63PKCS-15";

/// Kept out of the rest of a template, and of a 73.
const TEMPLATE: [u8; 3] = [0x50, 0x51, 0x73];
const DISCRETIONARY: [u8; 5] = [0x06, 0x30, 0xA0, 0x4F, 0x31];

impl Maker<'_> {
    /// An EF.DIR, on about a third of the cards.
    pub fn templates(&mut self) -> Option<File> {
        if self.flaws.contains(&Flaw::Template) || self.rng.chance(33) {
            Some(self.template_file())
        } else {
            None
        }
    }

    /// An EF.DIR of no, one, a few or many templates.
    pub fn template_file(&mut self) -> File {
        let fewest = usize::from(!self.flaws.is_empty());
        let count = match self.rng.below(40) {
            0..=4 => fewest,
            5..=27 => 1,
            39 => self.rng.between(10, 30),
            _ => self.rng.between(2, 4),
        };
        let mut nodes = self.other_elements();
        for _ in 0..count {
            nodes.push(self.template());
            nodes.extend(self.other_elements());
        }
        File { nodes, fill: self.fill() }
    }

    /// Elements that are no templates, mostly none.
    fn other_elements(&mut self) -> Vec<Node> {
        let count = if self.rng.chance(15) { self.rng.between(1, 3) } else { 0 };
        (0..count).map(|_| self.other_element()).collect()
    }

    /// An element of any tag but 61, and but one that would be fill; often a tag of more bytes, a component's, or one
    /// near to 61.
    fn other_element(&mut self) -> Node {
        let mut node = self.sealed_element(&[0x61, 0xFF], 16);
        let primitive = node.tag[0] & 0x20 == 0;
        if self.flaws.contains(&Flaw::Tag) {
            return node;
        }
        match self.rng.below(10) {
            0..=2 => {
                let first = self.rng.pick(if primitive { &[0x1F, 0x5F, 0xDF] } else { &[0x3F, 0x7F, 0xBF] });
                node.tag = [vec![first], self.tag_number()].concat();
            }
            3..=5 => {
                let tags = if primitive { &[0x4F, 0x50, 0x51, 0x41] } else { &[0x73, 0x62, 0x21, 0xA1] };
                node.tag = vec![self.rng.pick(tags)];
            }
            _ => {}
        }
        node
    }

    fn template(&mut self) -> Node {
        let ours = self.rng.chance(50);
        let mut parts = vec![self.application_identifier(ours)];
        if self.option(45, &[Flaw::Text, Flaw::Characters]) {
            parts.push(self.text(0x50));
        }
        let mut wanted = if ours { self.rng.between(1, 3) } else { self.rng.below(4) };
        // only a 73 has numbers and Paths
        if self.often && self.flaws.iter().any(|flaw| matches!(flaw, Flaw::Integer | Flaw::Rule)) {
            wanted |= 2;
        }
        if wanted & 1 != 0 {
            parts.push(self.octets(0x51, 0, 64));
        }
        if wanted & 2 != 0 {
            parts.push(self.discretionary());
        }
        parts.extend(self.template_rest());
        if self.flaw(Flaw::Template) {
            self.spoil_template(&mut parts);
        }
        group(0x61, parts)
    }

    /// The 4F of a template.
    fn application_identifier(&mut self, ours: bool) -> Node {
        if self.flaw(Flaw::Length) {
            return self.odd_length(0x4F);
        }
        if self.flaw(Flaw::Octets) {
            let long = [&OURS[..], &[0; 12]].concat();
            return leaf(0x4F, self.rng.pick(&[vec![], vec![7; 17], vec![9; 256], long]));
        }
        leaf(0x4F, if ours { self.own_start() } else { self.other_start() })
    }

    /// The five bytes, alone or with up to eleven more.
    pub fn own_start(&mut self) -> Vec<u8> {
        let any = self.rng.below(12);
        let count = self.rng.pick(&[0, 0, 11, any]);
        [OURS.to_vec(), self.rng.bytes(count)].concat()
    }

    /// One to sixteen bytes, often the five cut off, with another in their place, or not at the start.
    fn other_start(&mut self) -> Vec<u8> {
        let mut changed = self.own_start();
        let at = self.rng.pick(&[0, 1, 2, 3, 4, 4]);
        changed[at] ^= 1 << self.rng.below(8);
        let count = self.rng.between(1, 16);
        let cut = self.rng.between(1, 3);
        match self.rng.below(8) {
            0 => PKCS15.to_vec(),
            1 => OURS[..4].to_vec(),
            2 => OURS[..cut].to_vec(),
            3 | 4 => changed,
            5 => [&OURS[..1], &OURS].concat(),
            _ => self.rng.bytes(count),
        }
    }

    /// The discretionary data objects, 73, with none, some or all of their components.
    fn discretionary(&mut self) -> Node {
        let mut parts = Vec::new();
        if self.rng.chance(50) {
            let count = self.rng.pick(&[0, 1, 10, 10, 128]);
            parts.push(leaf(0x06, self.rng.bytes(count)));
        }
        for tag in [0x30, 0xA0] {
            if self.option(45, &[Flaw::Integer, Flaw::Rule]) {
                let mut path = self.path();
                path.tag = vec![tag];
                parts.push(path);
            }
        }
        if self.rng.chance(45) {
            parts.push(self.octets(0x4F, 1, 16));
        }
        if self.option(40, &[Flaw::Depth]) {
            let count = self.rng.below(3);
            parts.push(group(0x31, (0..count).map(|_| self.sealed_element(&[], 15)).collect()));
        }
        parts.extend(self.rest(&DISCRETIONARY));
        group(0x73, parts)
    }

    /// The rest of a template, sometimes with a second 4F or a template, of ours and with neither path nor 73.
    fn template_rest(&mut self) -> Vec<Node> {
        let mut all = self.rest(&TEMPLATE);
        if self.rng.chance(8) {
            let ours = self.rng.chance(50);
            all.push(self.application_identifier(ours));
        }
        if self.rng.chance(8) {
            let at = self.rng.below(all.len() + 1);
            all.insert(at, group(0x61, vec![leaf(0x4F, OURS.to_vec())]));
        }
        all
    }
}
