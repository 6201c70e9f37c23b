//! "Tags: low form, or high form with a minimal number from 31 up in at most three further bytes; tag 00 is no tag.
//! Lengths: definite, shortest form, at most 65,535, inside the container."

use crate::refusal::{Refusal, LENGTH, TAG};

/// One element: its first byte's place, its first tag byte, and where its contents start and end.
///
/// All tags of the layouts are one byte long, and a high-form tag never starts with one of them,
/// so the first tag byte is enough to tell the components apart.
#[derive(Clone, Copy, Debug)]
pub struct Element {
    pub at: usize,
    pub tag: u8,
    pub from: usize,
    pub end: usize,
}

impl Element {
    /// Whether its contents are elements again.
    pub fn constructed(&self) -> bool {
        self.tag & 0x20 != 0
    }

    pub fn contents<'a>(&self, dump: &'a [u8]) -> &'a [u8] {
        &dump[self.from..self.end]
    }

    /// The whole element, tag and length included.
    pub fn whole<'a>(&self, dump: &'a [u8]) -> &'a [u8] {
        &dump[self.at..self.end]
    }
}

/// Reads tag and length of the element that starts at `at` in a container that ends at `end`, `at` before `end`.
pub fn element(dump: &[u8], at: usize, end: usize) -> Result<Element, Refusal> {
    let after_tag = tag(dump, at, end).ok_or((TAG, at))?;
    let (from, length) = length(dump, after_tag, end).ok_or((LENGTH, at))?;
    if length > end - from {
        return Err((LENGTH, at));
    }
    Ok(Element { at, tag: dump[at], from, end: from + length })
}

/// The place after the tag; none if its form is bad or it is cut off.
fn tag(dump: &[u8], at: usize, end: usize) -> Option<usize> {
    let first = dump[at];
    if first == 0x00 {
        return None;
    }
    if first & 0x1F != 0x1F {
        return Some(at + 1);
    }
    let further = &dump[at + 1..end.min(at + 4)];
    let count = 1 + further.iter().position(|byte| byte & 0x80 == 0)?;
    let number = further[..count].iter().fold(0, |number, byte| number * 128 + u32::from(byte & 0x7F));
    if further[0] == 0x80 || number < 31 {
        return None;
    }
    Some(at + 1 + count)
}

/// The place after the length, and the length; none if its form is bad or it is cut off.
fn length(dump: &[u8], at: usize, end: usize) -> Option<(usize, usize)> {
    let byte = |place: usize| if place < end { Some(dump[place] as usize) } else { None };
    match byte(at)? {
        short @ 0..=0x7F => Some((at + 1, short)),
        0x81 => {
            let value = byte(at + 1)?;
            if value < 0x80 {
                None
            } else {
                Some((at + 2, value))
            }
        }
        0x82 => {
            let value = byte(at + 1)? * 256 + byte(at + 2)?;
            if value < 0x100 {
                None
            } else {
                Some((at + 3, value))
            }
        }
        _ => None,
    }
}
