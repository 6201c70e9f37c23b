//! Texts and times.

use super::flaw::Flaw;
use super::maker::Maker;
use super::node::{leaf, Node};
use super::rng::Rng;
use crate::read::values::days;

/// The most characters of a text.
const MOST: usize = 255;

/// A character of each width, a combining mark and a byte order mark.
const CHARACTERS: [char; 6] = ['a', 'α', '€', '\u{1F511}', '\u{301}', '\u{FEFF}'];

/// Characters at the edges of the forms of UTF-8.
const EDGES: [u32; 18] = [
    0, 0x7F, 0x80, 0x7FF, 0x800, 0xFFF, 0x1000, 0xCFFF, 0xD000, 0xD7FF, 0xE000, 0xFFFF, 0x1_0000, 0x3_FFFF, 0x4_0000,
    0xF_FFFF, 0x10_0000, 0x10_FFFF,
];

/// No UTF-8: lone, overlong, surrogate, too large and cut-off forms.
const NO_TEXT: [&[u8]; 18] = [
    b"\x80",
    b"\xBF",
    b"\xC0\x80",
    b"\xC1\xBF",
    b"\xC2",
    b"\xC2\xC2",
    b"\xE0\x9F\xBF",
    b"\xED\xA0\x80",
    b"\xED\xBF\xBF",
    b"\xE1\x80",
    b"\xE2\x28\xA1",
    b"\xEF\xBF\xC0",
    b"\xF0\x8F\xBF\xBF",
    b"\xF4\x90\x80\x80",
    b"\xF5\x80\x80\x80",
    b"\xF1\x80\x80",
    b"\xF1\x80\x80\x7F",
    b"\xFF",
];

/// No UTF-8 at a text's end: a byte that continues nothing, and characters cut off.
const NO_END: [&[u8]; 7] = [b"\x80", b"\xCE", b"\xE2", b"\xE2\x82", b"\xF0", b"\xF0\x9F", b"\xF0\x9F\x94"];

/// Two digits, and where they make a time wrong, at least in some months.
const NO_TIME: [(usize, &[u8; 2]); 13] = [
    (4, b"00"),
    (4, b"13"),
    (4, b"02"),
    (6, b"00"),
    (6, b"29"),
    (6, b"30"),
    (6, b"31"),
    (6, b"32"),
    (8, b"24"),
    (10, b"60"),
    (12, b"60"),
    (12, b"6:"),
    (13, b"0z"),
];

/// The kinds of book records that hold texts.
pub const KINDS: [u16; 4] = [0x0103, 0x0104, 0x0121, 0x0203];

/// A text of as many characters as it may have, one less, or one too many.
pub fn at_the_bound(rng: &mut Rng) -> Vec<u8> {
    let count = rng.between(MOST - 1, MOST + 1);
    characters(rng, count)
}

/// So many characters: one and the same, or any.
fn characters(rng: &mut Rng, count: usize) -> Vec<u8> {
    if rng.chance(50) {
        return rng.pick(&CHARACTERS).to_string().repeat(count).into_bytes();
    }
    (0..count).map(|_| character(rng)).collect::<String>().into_bytes()
}

fn character(rng: &mut Rng) -> char {
    let number = match rng.below(5) {
        0 => rng.pick(&EDGES),
        1 => rng.between(0x80, 0x7FF) as u32,
        2 => rng.between(0x800, 0x10_FFFF) as u32,
        _ => rng.between(0x20, 0x7E) as u32,
    };
    char::from_u32(number).unwrap_or('?')
}

/// Puts what is no text before one of the characters, or behind the last.
fn insert_no_text(rng: &mut Rng, bytes: &mut Vec<u8>) {
    let mut at = rng.below(bytes.len() + 1);
    while at < bytes.len() && bytes[at] & 0xC0 == 0x80 {
        at += 1;
    }
    let more = rng.pick(&NO_TEXT);
    bytes.splice(at..at, more.iter().copied());
}

impl Maker<'_> {
    pub fn text(&mut self, tag: u8) -> Node {
        if self.flaw(Flaw::Characters) {
            return leaf(tag, self.wrong_characters());
        }
        if self.flaw(Flaw::Text) {
            return leaf(tag, self.bad_text());
        }
        leaf(tag, if self.rng.chance(5) { self.long_text() } else { self.short_text() })
    }

    /// 65: a text with what is none before or behind one of its characters.
    pub fn bad_text(&mut self) -> Vec<u8> {
        let mut bytes = if self.rng.chance(10) { self.long_text() } else { self.short_text() };
        insert_no_text(self.rng, &mut bytes);
        bytes
    }

    /// A text of at most 255 bytes, mostly of a few.
    fn short_text(&mut self) -> Vec<u8> {
        let mut text = String::new();
        let bound = self.length(0, 255);
        loop {
            let next = character(self.rng);
            if text.len() + next.len_utf8() > bound {
                return text.into_bytes();
            }
            text.push(next);
        }
    }

    /// A text of 64 to 255 characters, often of the most, so of up to 1,020 bytes.
    fn long_text(&mut self) -> Vec<u8> {
        let any = self.rng.between(64, MOST);
        let count = self.rng.pick(&[any, any, 128, MOST - 1, MOST, MOST, MOST]);
        characters(self.rng, count)
    }

    /// One character too many, or a text at the bound with what is no text behind it or inside.
    fn wrong_characters(&mut self) -> Vec<u8> {
        let mut bytes = at_the_bound(self.rng);
        match self.rng.below(7) {
            0..=2 => bytes = characters(self.rng, MOST + 1),
            3 => bytes = [vec![b'a'; MOST], "é".into()].concat(),
            4 | 5 => bytes.extend(self.rng.pick(&NO_END)),
            _ => insert_no_text(self.rng, &mut bytes),
        }
        bytes
    }

    pub fn time(&mut self, tag: u8) -> Node {
        let text = if self.flaw(Flaw::Time) { self.bad_time() } else { self.right_time() };
        leaf(tag, text)
    }

    fn right_time(&mut self) -> Vec<u8> {
        let year = self.rng.pick(&[0, 4, 100, 1900, 1999, 2000, 2023, 2024, 2100, 2400, 9999]);
        let month = if self.rng.chance(40) { 2 } else { self.rng.between(1, 12) as u32 };
        let last = days(year, month);
        let day = if self.rng.chance(50) { last } else { self.rng.between(1, last as usize) as u32 };
        let hour = self.rng.pick(&[0, 9, 10, 19, 20, 23]);
        let minute = self.rng.pick(&[0, 9, 10, 59]);
        let second = self.rng.pick(&[0, 9, 30, 59]);
        format!("{year:04}{month:02}{day:02}{hour:02}{minute:02}{second:02}Z").into_bytes()
    }

    /// 66, but for a few: a time of another length, with another sign, or that there is not.
    pub fn bad_time(&mut self) -> Vec<u8> {
        let mut text = self.right_time();
        match self.rng.below(12) {
            0 => text.push(b'Z'),
            1 => text.truncate(self.rng.below(15)),
            2 => text[self.rng.below(15)] = self.rng.pick(b"/: zZ0\x00\xB0"),
            3..=5 => {
                // a leap day in a year that has none
                let year = self.rng.pick(&["1900", "2100", "2023", "0100", "9999"]);
                text[..8].copy_from_slice(format!("{year}0229").as_bytes());
            }
            _ => {
                let (at, two) = self.rng.pick(&NO_TIME);
                text[at..at + 2].copy_from_slice(two);
            }
        }
        text
    }
}
