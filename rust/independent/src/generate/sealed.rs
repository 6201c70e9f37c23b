//! Sealed elements, rests and conditions.

use super::flaw::Flaw;
use super::maker::Maker;
use super::node::{group, leaf, Body, Node};

impl Maker<'_> {
    /// A tag of low or high form whose first byte is none of these.
    pub fn tag(&mut self, kept_out: &[u8]) -> Vec<u8> {
        if self.flaw(Flaw::Tag) {
            return self.bad_tag();
        }
        let usual = [
            0x01, 0x02, 0x03, 0x04, 0x05, 0x06, 0x0A, 0x0C, 0x13, 0x18, 0x30, 0x31, 0x80, 0x81, 0xA0, 0xA1, 0xA9, 0x20,
            0x24,
        ];
        loop {
            let first = if self.rng.chance(60) { self.rng.pick(&usual) } else { self.rng.byte() };
            if first == 0 || kept_out.contains(&first) {
                continue;
            }
            if first & 0x1F != 0x1F {
                return vec![first];
            }
            return [vec![first], self.tag_number()].concat();
        }
    }

    pub fn tag_number(&mut self) -> Vec<u8> {
        let low = self.rng.byte() & 0x7F;
        let middle = self.rng.byte() | 0x80;
        match self.rng.below(3) {
            0 => vec![low.max(31)],
            1 => vec![middle.max(0x81), low],
            _ => vec![middle.max(0x81), self.rng.byte() | 0x80, low],
        }
    }

    /// No tag, a number below 31, one that is not minimal, and ones in four further bytes.
    pub fn bad_tag(&mut self) -> Vec<u8> {
        let first = self.rng.pick(&[0x1F, 0x9F, 0xBF, 0xFF]);
        let numbers: [&[u8]; 7] = [
            &[0x1E],
            &[0x00],
            &[0x80, 0x1F],
            &[0x80, 0x81, 0x00],
            &[0x81],
            &[0xFF, 0xFF, 0xFF, 0x7F],
            &[0x81, 0x80, 0x80, 0x00],
        ];
        let number = self.rng.pick(&numbers);
        if self.rng.chance(10) {
            vec![0]
        } else {
            [&[first], number].concat()
        }
    }

    /// A sealed element that takes at most `levels` levels.
    pub fn sealed(&mut self, kept_out: &[u8], levels: usize) -> Node {
        let tag = self.tag(kept_out);
        let body = if tag[0] & 0x20 == 0 {
            let count = if self.rng.chance(3) { self.rng.between(120, 300) } else { self.rng.below(6) };
            Body::Bytes(self.rng.bytes(count))
        } else if levels == 1 {
            Body::Parts(vec![])
        } else {
            let count = self.rng.below(3);
            Body::Parts((0..count).map(|_| self.sealed(&[], levels - 1)).collect())
        };
        Node { tag, length: None, body }
    }

    /// A sealed element, sometimes as deep as allowed or, as a flaw, one deeper.
    pub fn sealed_element(&mut self, kept_out: &[u8], levels: usize) -> Node {
        let deep = self.flaw(Flaw::Depth);
        if !deep && !self.rng.chance(6) {
            return self.sealed(kept_out, levels.min(4));
        }
        let mut node = self.sealed(&[], 1);
        for _ in 1..levels + usize::from(deep) {
            node = self.around(node);
        }
        // the outermost has to have a tag that is allowed here
        while kept_out.contains(&node.tag[0]) || node.tag[0] & 0x20 == 0 {
            node.tag = self.tag(kept_out);
        }
        node
    }

    /// A constructed element around this one.
    fn around(&mut self, inner: Node) -> Node {
        let tag = self.rng.pick(&[0x30, 0x31, 0xA0, 0xA2, 0x61, 0xE5]);
        let mut parts = vec![inner];
        if self.rng.chance(20) {
            let at = self.rng.below(2);
            parts.insert(at, leaf(0x04, vec![]));
        }
        group(tag, parts)
    }

    /// The elements of a rest, mostly none.
    pub fn rest(&mut self, kept_out: &[u8]) -> Vec<Node> {
        let flaw = self.flaw(Flaw::Rest);
        if !flaw && !self.rng.chance(12) {
            return vec![];
        }
        let count = self.rng.between(1, 3);
        let mut all: Vec<Node> = (0..count).map(|_| self.sealed_element(kept_out, 16)).collect();
        if flaw && !kept_out.is_empty() {
            let at = self.rng.below(count);
            all[at].tag = vec![self.rng.pick(kept_out)];
        }
        all
    }

    /// A condition that takes at most `levels` levels.
    pub fn condition(&mut self, levels: usize) -> Node {
        if levels == 8 && self.flaw(Flaw::Condition) {
            return self.wrong_condition();
        }
        if levels == 8 && self.flaw(Flaw::Null) {
            return self.condition_with_null();
        }
        if levels == 1 || self.rng.chance(60) {
            return self.simple_condition();
        }
        match self.rng.below(3) {
            0 => group(0xA0, vec![self.condition(levels - 1)]),
            _ => {
                let tag = self.rng.pick(&[0xA1, 0xA2]);
                let count = if self.rng.chance(10) { self.rng.between(3, 9) } else { 2 };
                group(tag, (0..count).map(|_| self.condition(levels - 1)).collect())
            }
        }
    }

    pub fn simple_condition(&mut self) -> Node {
        match self.rng.below(8) {
            0 | 1 => leaf(0x05, vec![]),
            2 => group(0x30, vec![self.flags(0x03)]),
            3 => self.sealed_element(&[0x04, 0x05, 0xA0, 0xA1, 0xA2], 16),
            _ => self.identifier(0x04),
        }
    }

    /// A chain of `levels` conditions.
    pub fn deep_condition(&mut self, levels: usize) -> Node {
        let last = self.simple_condition();
        self.chain(levels, last)
    }

    /// A chain of `levels` conditions that goes down to this one.
    fn chain(&mut self, levels: usize, last: Node) -> Node {
        let mut node = last;
        for _ in 1..levels {
            node = match self.rng.below(3) {
                0 => group(0xA1, vec![self.simple_condition(), node]),
                1 => group(0xA2, vec![node, self.simple_condition()]),
                _ => group(0xA0, vec![node]),
            };
        }
        node
    }

    /// A list of `count` leaves.
    pub fn long_list(&mut self, count: usize) -> Node {
        let tag = self.rng.pick(&[0xA1, 0xA2]);
        let leaves = [leaf(0x05, vec![]), leaf(0x04, vec![1]), leaf(0x04, vec![])];
        group(tag, (0..count).map(|_| self.rng.pick(&leaves)).collect())
    }

    /// A list of `count` leaves and of this one behind them.
    fn long_list_and(&mut self, count: usize, last: Node) -> Node {
        let mut list = self.long_list(count);
        if let Body::Parts(parts) = &mut list.body {
            parts.push(last);
        }
        list
    }

    fn wrong_condition(&mut self) -> Node {
        match self.rng.below(9) {
            0 => self.deep_condition(9),
            1 => self.condition_256(),
            2 => group(0xA0, vec![]),
            3 => group(0xA0, vec![self.simple_condition(), self.simple_condition()]),
            4 => self.condition_with_null(),
            5 => self.long_list(1),
            6 => self.long_list(0),
            7 => self.long_list(256),
            _ => self.wrong_at_the_bottom(),
        }
    }

    /// A list of 255 and one more, which may be wrong in another way too.
    fn condition_256(&mut self) -> Node {
        let last = match self.rng.below(6) {
            0 => leaf(0x05, self.bad_null()),
            1 => leaf(0x04, vec![7; 256]),
            2 => group(0xA0, vec![]),
            3 => leaf(0x30, vec![0]),
            4 => Node { tag: self.bad_tag(), length: None, body: Body::Bytes(vec![]) },
            _ => self.condition(2),
        };
        self.long_list_and(255, last)
    }

    /// A NULL with contents: alone, on each of the levels, the last of a list, or one more than a list may have.
    fn condition_with_null(&mut self) -> Node {
        let null = leaf(0x05, self.bad_null());
        let count = self.rng.pick(&[0, 1, 2, 254]);
        match self.rng.below(5) {
            0 => null,
            1 | 2 => {
                let levels = self.rng.between(2, 8);
                self.chain(levels, null)
            }
            3 => self.long_list_and(count, null),
            _ => self.long_list_and(255, null),
        }
    }

    /// Seven levels, and on the eighth a list or `not` that holds too little or goes too deep.
    fn wrong_at_the_bottom(&mut self) -> Node {
        let mut node =
            self.rng.pick(&[group(0xA0, vec![]), group(0xA1, vec![]), group(0xA2, vec![leaf(0x00, vec![])])]);
        for _ in 0..7 {
            node = group(0xA0, vec![node]);
        }
        node
    }
}
