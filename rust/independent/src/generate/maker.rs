//! Makes the parts of one card: right ones with their bounds at the edges, and, where flaws are wanted, wrong ones.

use super::flaw::Flaw;
use super::node::{leaf, Node};
use super::rng::Rng;
use crate::write::element::flag_contents;

pub struct Maker<'a> {
    pub rng: &'a mut Rng,
    /// The flaws that the card may have; a card without any is accepted.
    pub flaws: Vec<Flaw>,
    /// Whether the flaws shall be frequent, as they have to be where few components can have them.
    pub often: bool,
    /// Identifiers to choose from, few enough that links answer, miss and repeat.
    pub pool: Vec<Vec<u8>>,
    /// Own authIds that are still free, so that none repeats.
    pub own: Vec<Vec<u8>>,
    /// Own authIds that are taken.
    pub taken: Vec<Vec<u8>>,
    /// How many objects the card may still have.
    pub left: usize,
    /// Whether the card is a small one, of few objects with most of their options.
    pub small: bool,
    /// Whether the card may have record files.
    pub linear: bool,
}

/// Makes elements and values for a card that is there already.
pub fn spare_maker(rng: &mut Rng) -> Maker<'_> {
    let pool = vec![vec![1], vec![]];
    let nothing = vec![];
    Maker { rng, flaws: vec![], often: false, pool, own: nothing, taken: vec![], left: 0, small: false, linear: false }
}

impl Maker<'_> {
    /// A component that identifies, from the pool.
    pub fn identifier(&mut self, tag: u8) -> Node {
        if self.flaw(Flaw::Identifier) {
            return leaf(tag, vec![7; 256]);
        }
        if self.flaw(Flaw::Length) {
            return self.odd_length(tag);
        }
        leaf(tag, self.rng.pick(&self.pool))
    }

    /// A length that is one byte longer than the shortest form, where that form just changes.
    pub fn odd_length(&mut self, tag: u8) -> Node {
        let count = self.rng.pick(&[0, 1, 127, 128, 255]);
        let bytes = if count < 128 { vec![0x81, count] } else { vec![0x82, 0, count] };
        let mut node = leaf(tag, vec![5; count.into()]);
        node.length = Some(bytes);
        node
    }

    pub fn octets(&mut self, tag: u8, low: usize, high: usize) -> Node {
        let count = if self.flaw(Flaw::Octets) {
            self.rng.pick(&[high + 1, high + 1, high + 100, low.saturating_sub(1)])
        } else {
            self.length(low, high)
        };
        leaf(tag, self.rng.bytes(count))
    }

    /// Mostly short, sometimes at an edge.
    pub fn length(&mut self, low: usize, high: usize) -> usize {
        match self.rng.below(20) {
            0 => low,
            1 => high,
            2 => self.rng.between(low, high),
            3 => self.rng.between(126, 129).clamp(low, high),
            _ => self.rng.between(low, high.min(low + 6)),
        }
    }

    pub fn flags(&mut self, tag: u8) -> Node {
        let value = self.flag_word();
        self.flags_of(tag, value)
    }

    pub fn flags_of(&mut self, tag: u8, value: u32) -> Node {
        if self.flaw(Flaw::Flags) {
            return leaf(tag, self.wrong_flags());
        }
        leaf(tag, flag_contents(value))
    }

    pub fn flag_word(&mut self) -> u32 {
        let any = self.rng.draw() as u32;
        match self.rng.below(6) {
            0 => 0,
            1 => 1 << self.rng.below(32),
            2 => u32::MAX >> self.rng.below(32),
            3 => any,
            _ => any & 0x3FF,
        }
    }

    /// A bit string in a bad form, of more than 32 bits or not, or of more in a form that is right.
    fn wrong_flags(&mut self) -> Vec<u8> {
        match self.rng.below(8) {
            0..=2 => self.bad_bits(),
            3 | 4 => self.trailing_bits(),
            5 => vec![7, 1, 2, 3, 4, 0x80],
            _ => self.many_bits(),
        }
    }

    fn many_bits(&mut self) -> Vec<u8> {
        let unused = self.rng.below(8);
        let last = (u16::from(self.rng.byte()) | 1) << unused;
        let before = self.rng.between(4, 6);
        [vec![unused as u8], self.rng.bytes(before), vec![last as u8]].concat()
    }

    /// A BOOLEAN that is not its default.
    pub fn boolean(&mut self, tag: u8, default: bool) -> Node {
        let value = if default { 0x00 } else { 0xFF };
        if self.flaw(Flaw::Boolean) {
            return leaf(tag, self.bad_boolean());
        }
        if self.flaw(Flaw::Default) {
            return self.written_default(tag, !value);
        }
        leaf(tag, vec![value])
    }

    /// The one byte of a default or, in a bad form, that byte twice.
    pub fn written_default(&mut self, tag: u8, byte: u8) -> Node {
        let count = self.rng.pick(&[1, 1, 1, 2]);
        leaf(tag, vec![byte; count])
    }
}
