//! Numbers: right ones, often at an edge, and wrong ones; and other payloads for their records in a book.

use super::flaw::Flaw;
use super::maker::Maker;
use super::node::{leaf, places, Node, Record};
use super::rng::Rng;
use crate::write::element::integer_contents;

/// The bounds of keyReference, the only number that may be negative.
const LOW: i64 = -128;
const HIGH: i64 = 255;

/// The kinds of book records that hold INTEGERs and ENUMERATEDs, keyReference's more often.
const KINDS: [u16; 20] = [
    0x0134, 0x0134, 0x0134, 0x0134, 0x0101, 0x0124, 0x0151, 0x0152, 0x0181, 0x0182, 0x0183, 0x0191, 0x0192, 0x0193,
    0x0194, 0x0195, 0x0208, 0x0209, 0x020B, 0x020C,
];

/// At and over the bounds of keyReference, at the ends of 32 bits, and numbers whose last byte is that of minus 128 or
/// 127.
const PAYLOADS: [i32; 18] =
    [-128, -127, -1, 0, 127, 128, 129, 255, -129, 256, i32::MAX, i32::MIN, 384, 385, 0xFF81, 0xFF_FF81, -383, -32_639];

impl Maker<'_> {
    pub fn integer(&mut self, tag: u8, low: i64, high: i64) -> Node {
        if self.flaw(Flaw::Integer) {
            return leaf(tag, self.wrong_integer(low, high));
        }
        leaf(tag, integer_contents(self.number(low, high)))
    }

    pub fn key_reference(&mut self) -> Node {
        if !self.flaw(Flaw::KeyReference) {
            return self.integer(0x02, LOW, HIGH);
        }
        let wrong = if self.rng.chance(40) { self.look_alike(LOW, HIGH) } else { self.wrong_integer(LOW, HIGH) };
        leaf(0x02, wrong)
    }

    /// A number in its bounds, often at one of them, around 0, or where a byte or its sign is used up.
    fn number(&mut self, low: i64, high: i64) -> i64 {
        let edges = [low, low + 1, -1, 0, 127, 128, 129, 255, 256, 32_767, 32_768, high - 1, high];
        let any = low + self.rng.below((high - low + 1) as usize) as i64;
        if self.rng.chance(50) {
            self.rng.pick(&edges).clamp(low, high)
        } else {
            any
        }
    }

    /// A number out of its bounds, or one in a bad form, in its bounds or not.
    fn wrong_integer(&mut self, low: i64, high: i64) -> Vec<u8> {
        let number = self.rng.pick(&[0, low, high, high + 1, -1, -127, -128, -129]);
        match self.rng.below(15) {
            0..=3 => integer_contents(high + 1),
            4 | 5 => integer_contents(low - 1),
            6 | 7 => integer_contents(self.rng.pick(&[-1, -2, -127, -128, -129, -32_769]).min(low - 1)),
            8 => {
                let first = self.rng.pick(&[0x01, 0x7F, 0x80, 0xFE]);
                let count = self.rng.between(3, 9);
                [vec![first], self.rng.bytes(count)].concat()
            }
            9 | 10 => self.look_alike(low, high),
            _ => self.bad_integer(number),
        }
    }

    /// A number out of all bounds whose last four or eight bytes are those of one in these bounds; its form is right.
    fn look_alike(&mut self, low: i64, high: i64) -> Vec<u8> {
        let count = self.rng.pick(&[4, 4, 4, 8]);
        let bytes = self.number(low, high).to_be_bytes();
        let last = &bytes[8 - count..];
        let other_sign = if last[0] < 0x80 { 0xFF } else { 0x00 };
        let first = self.rng.pick(&[other_sign, other_sign, other_sign, 0x01, 0x7F, 0x80, 0xFE]);
        [&[first], last].concat()
    }

    /// For a number that may be any component: minus 1, one in keyReference's bounds, or one that is wrong there too.
    pub fn other_number(&mut self) -> Vec<u8> {
        match self.rng.below(3) {
            0 => integer_contents(-1),
            1 => integer_contents(self.number(LOW, HIGH)),
            _ => self.wrong_integer(LOW, HIGH),
        }
    }
}

/// Gives a number of a book another payload; its kind is chosen first, so that rare ones have their turn.
pub fn damage(rng: &mut Rng, all: &mut [Record]) {
    let mut numbers: Vec<Vec<usize>> = KINDS.iter().map(|kind| places(all, &[*kind])).collect();
    numbers.retain(|of_kind| !of_kind.is_empty());
    if !numbers.is_empty() {
        let of_kind = rng.pick(&numbers);
        all[rng.pick(&of_kind)].payload = payload(rng);
    }
}

/// Minus 1, another number, or minus 127 or 129 in more or fewer bytes than four.
fn payload(rng: &mut Rng) -> Vec<u8> {
    match rng.below(8) {
        0 | 1 => u32::MAX.to_le_bytes().to_vec(),
        2 => {
            let mut bytes = vec![rng.pick(&[0x00, 0xFF]); 8];
            bytes[0] = 0x81;
            bytes.truncate(rng.pick(&[0, 1, 2, 3, 5, 8]));
            bytes
        }
        _ => rng.pick(&PAYLOADS).to_le_bytes().to_vec(),
    }
}
