//! What can be wrong with a card that is made with flaws.

use super::maker::Maker;

/// What a flaw is about.
#[derive(Clone, Copy, PartialEq, Eq)]
pub enum Flaw {
    Integer,
    /// A keyReference out of its bounds or in a bad form, in the one key that a card is given for it.
    KeyReference,
    Flags,
    Text,
    /// A text of one character too many, or no text where the bound is.
    Characters,
    Time,
    Boolean,
    /// A NULL with contents.
    Null,
    /// A default that is written out.
    Default,
    Octets,
    /// An identifier that is too long.
    Identifier,
    /// Another form of a length than the shortest.
    Length,
    /// A bad form of a tag.
    Tag,
    /// A sealed part that is too deep.
    Depth,
    /// A tag that is kept out of a rest.
    Rest,
    Condition,
    /// Index without length or the reverse; pwdFlags bits 6 and 7.
    Rule,
    /// Two equal own authIds.
    Twice,
    /// A path that repeats or is too short or too long.
    Path,
    /// Too many objects.
    Many,
    /// A file or dump that is too long.
    Size,
    /// A second object in a record, or what begins like one.
    Second,
    /// A template of ours without path and 73, or what is wrong with the layout of one.
    Template,
}

pub const FLAWS: [Flaw; 22] = [
    Flaw::Integer,
    Flaw::Flags,
    Flaw::Text,
    Flaw::Characters,
    Flaw::Time,
    Flaw::Boolean,
    Flaw::Null,
    Flaw::Default,
    Flaw::Octets,
    Flaw::Identifier,
    Flaw::Length,
    Flaw::Tag,
    Flaw::Depth,
    Flaw::Rest,
    Flaw::Condition,
    Flaw::Rule,
    Flaw::Twice,
    Flaw::Path,
    Flaw::Many,
    Flaw::Size,
    Flaw::Second,
    Flaw::Template,
];

/// The flaws that an EF.DIR can have, those of its layout, its numbers and its bytes more often.
pub const TEMPLATE_FLAWS: [Flaw; 13] = [
    Flaw::Integer,
    Flaw::Integer,
    Flaw::Text,
    Flaw::Characters,
    Flaw::Octets,
    Flaw::Octets,
    Flaw::Length,
    Flaw::Tag,
    Flaw::Depth,
    Flaw::Rest,
    Flaw::Rule,
    Flaw::Template,
    Flaw::Template,
];

impl Maker<'_> {
    /// Whether what comes next shall have this flaw: never, unless the card is made for it.
    pub fn flaw(&mut self, flaw: Flaw) -> bool {
        let percent = match flaw {
            _ if self.often => 50,
            Flaw::Integer | Flaw::Flags | Flaw::Tag | Flaw::Identifier => 12,
            Flaw::KeyReference | Flaw::Characters | Flaw::Default | Flaw::Second => 80,
            _ => 40,
        };
        self.flaws.contains(&flaw) && self.rng.chance(percent)
    }

    /// Whether an optional component is there: more often on a small card, or for one of the flaws that it can have.
    pub fn option(&mut self, percent: usize, flaws: &[Flaw]) -> bool {
        let wanted = self.flaws.iter().any(|flaw| flaws.contains(flaw));
        let percent = if self.small || wanted { 70 } else { percent };
        self.rng.chance(percent)
    }
}
