//! Values in a bad form, for each of the refusals 61 to 64 and 67; texts and times have theirs beside the right ones.
//! Some are out of their bounds too, or a default, but the form comes first.

use super::maker::Maker;
use crate::write::element::integer_contents;

impl Maker<'_> {
    /// 61: no byte, another than 00 and FF, or two.
    pub fn bad_boolean(&mut self) -> Vec<u8> {
        let other = self.rng.between(0x01, 0xFE) as u8;
        let twice = vec![self.rng.pick(&[0x00, 0xFF]); 2];
        self.rng.pick(&[vec![], vec![0x01], vec![other], twice, vec![0xFF, 0x00], vec![0x00, other]])
    }

    /// 62: no byte, or more than this number needs.
    pub fn bad_integer(&mut self, number: i64) -> Vec<u8> {
        if self.rng.below(6) == 0 {
            return vec![];
        }
        let sign = if number < 0 { 0xFF } else { 0x00 };
        let count = self.rng.pick(&[1, 1, 1, 2, 8]);
        [vec![sign; count], integer_contents(number)].concat()
    }

    /// 63: no count, one of more than 7 or without bytes, or unused bits set, whatever the bits before them are.
    pub fn bad_bits(&mut self) -> Vec<u8> {
        let any = self.rng.byte();
        let last = self.rng.pick(&[0x00, 0x01, 0x80, 0xFF, any]);
        let unused = self.rng.between(1, 7);
        match self.rng.below(7) {
            0 => vec![],
            1 => vec![self.rng.pick(&[1, 7, 8, 255, any.max(1)])],
            2 | 3 => {
                let count = self.rng.pick(&[8, 9, 32, 128, 255, any.max(8)]);
                self.bits(count, last)
            }
            _ => {
                let set = last | 1 << self.rng.below(unused);
                self.bits(unused as u8, set)
            }
        }
    }

    /// 64: the last bit that is not unused is zero, and so may be all others.
    pub fn trailing_bits(&mut self) -> Vec<u8> {
        let unused = self.rng.below(8);
        let bits = u16::from(self.rng.byte());
        let last = self.rng.pick(&[0, bits]) << (unused + 1);
        self.bits(unused as u8, last as u8)
    }

    /// This count and this last byte; in some more than 32 bits.
    fn bits(&mut self, unused: u8, last: u8) -> Vec<u8> {
        let before = self.rng.pick(&[0, 0, 0, 1, 3, 4, 5, 128]);
        [vec![unused], self.rng.bytes(before), vec![last]].concat()
    }

    /// 67: a byte or more, also what would be an element.
    pub fn bad_null(&mut self) -> Vec<u8> {
        let any = self.rng.byte();
        self.rng.pick(&[vec![0x00], vec![any], vec![0x05, 0x00], vec![0xFF; 3], vec![any; 200]])
    }
}
