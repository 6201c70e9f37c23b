//! Refusals, with the words of documents 01 and 02.

use std::error::Error;
use std::fmt;

/// A refusal: its number, 1 to 5, 7 to 17 or 61 to 68, and its place.
///
/// The place is an offset into the input, except for number 14, where it is the size needed
/// (in bytes or, for the list, in numbers).
#[derive(Clone, Copy, Debug, PartialEq, Eq)]
pub struct Refusal {
    pub number: u32,
    pub place: u64,
}

impl Refusal {
    /// The number's short name.
    pub fn name(&self) -> &'static str {
        words(self.number).0
    }

    /// When the number is given.
    pub fn meaning(&self) -> &'static str {
        words(self.number).1
    }
}

impl fmt::Display for Refusal {
    fn fmt(&self, f: &mut fmt::Formatter<'_>) -> fmt::Result {
        let Refusal { number, place } = self;
        write!(f, "refused, {number} {} at {place}: {}", self.name(), self.meaning())
    }
}

impl Error for Refusal {}

fn words(number: u32) -> (&'static str, &'static str) {
    match number {
        1 => ("size", "dump over 32,768 bytes"),
        2 => (
            "frame",
            "a dump record is broken, missing, of the wrong kind, a file or path length is not allowed, \
             or a record length runs over",
        ),
        3 => ("tag", "bad or cut-off tag form, or not the component due here, or one more than is due"),
        4 => ("length", "bad length form, cut off, or beyond its container"),
        5 => ("missing", "container ends early, or a template of ours has neither path nor 73"),
        61 => ("boolean", "BOOLEAN not one byte of 00 or FF"),
        62 => ("integer", "INTEGER or ENUMERATED empty or too long in form"),
        63 => ("bits", "bit string: empty, bad unused count or unused bits set"),
        64 => ("trailing", "bit string: trailing zero bits kept"),
        65 => ("text", "text: not well-formed UTF-8"),
        66 => ("time", "time: not YYYYMMDDhhmmssZ, or no such day or time"),
        67 => ("null", "NULL with contents"),
        68 => ("default", "default written out"),
        7 => ("range", "outside a stated bound"),
        8 => ("rule", "index without length or the reverse, or pwdFlags bits 6 and 7 both set"),
        9 => ("depth", "one level too many"),
        10 => ("many", "the 129th object"),
        11 => ("fill", "fill bytes differ"),
        12 => ("paths", "EF.OD names a path twice, or the files do not follow it"),
        13 => ("twice", "two authentication objects with equal own authId"),
        14 => ("room", "output too short, the place is the size needed"),
        15 => ("book", "no accepted dump has this book"),
        16 => ("none", "object, field or row not there"),
        17 => ("second", "a record holds a second object"),
        _ => ("unknown", "no refusal of documents 01 and 02"),
    }
}
