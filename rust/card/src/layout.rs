//! How objects are laid out on the card, as their records tell it: how long each element is, where it stands and what
//! it is called. So a changed book can say of each object where it stands; whether that is right is the proved
//! library's to say: a book with another offset is refused.

use crate::condition::LEVELS;
use crate::table::{name, row, Form};
use crate::words::number;

/// A record that is being changed.
#[derive(Clone, Debug, PartialEq, Eq)]
pub struct Piece {
    pub kind: u16,
    pub payload: Vec<u8>,
}

/// An element of an object.
#[derive(Debug)]
pub enum Node {
    /// What one record stands for, so many bytes.
    Leaf(u16, usize),
    /// An element with others inside it.
    Wrap(&'static str, Vec<Node>),
}

/// Where an element stands, and what it is called.
#[derive(Clone, Debug, PartialEq, Eq)]
pub struct Span {
    pub offset: usize,
    pub length: usize,
    pub name: String,
    /// The kind of the record that it stands for, of an element without others inside it.
    pub kind: Option<u16>,
}

/// How long the header of an element with a tag of one byte and so many bytes of contents is.
fn header(contents: usize) -> usize {
    match contents {
        0..=0x7F => 2,
        0x80..=0xFF => 3,
        _ => 4,
    }
}

fn element(contents: usize) -> usize {
    header(contents) + contents
}

impl Node {
    /// How long the contents of an element are; a leaf's count as none.
    fn contents(&self) -> usize {
        match self {
            Node::Leaf(..) => 0,
            Node::Wrap(_, inside) => inside.iter().map(Node::length).sum(),
        }
    }

    pub fn length(&self) -> usize {
        match self {
            Node::Leaf(_, length) => *length,
            Node::Wrap(..) => element(self.contents()),
        }
    }

    /// This element and those inside it, from this offset on.
    pub fn spans(&self, offset: usize) -> Vec<Span> {
        let length = self.length();
        match self {
            Node::Leaf(kind, _) => vec![Span { offset, length, name: name(*kind), kind: Some(*kind) }],
            Node::Wrap(name, inside) => {
                let mut all = vec![Span { offset, length, name: name.to_string(), kind: None }];
                let mut at = offset + header(self.contents());
                for node in inside {
                    all.extend(node.spans(at));
                    at += node.length();
                }
                all
            }
        }
    }
}

/// How many bytes a number's shortest two's complement has.
fn integer(value: i32) -> usize {
    let magnitude = if value < 0 { !value } else { value };
    (32 - magnitude.leading_zeros() as usize) / 8 + 1
}

/// What a record stands for by its form.
fn leaf(piece: &Piece) -> Node {
    let length = piece.payload.len();
    let value = number(&piece.payload).unwrap_or(0);
    let length = match row(piece.kind).map(|row| row.form) {
        Some(Form::Number(..) | Form::Signed(..) | Form::Choice(_)) => element(integer(value as i32)),
        Some(Form::Flags(_)) => element(1 + (32 - value.leading_zeros() as usize).div_ceil(8)),
        Some(Form::Boolean) => element(1),
        Some(Form::Sealed) => length,
        _ => element(length),
    };
    Node::Leaf(piece.kind, length)
}

/// The condition at `at`, which moves behind it; one that lacks, or is too deep, is nothing.
fn condition(pieces: &[Piece], at: &mut usize, levels: usize) -> Node {
    let Some(piece) = pieces.get(*at).filter(|_| levels > 0) else {
        return Node::Leaf(0, 0);
    };
    *at += 1;
    let list = |at: &mut usize| {
        let count = piece.payload.as_slice().try_into().map_or(0, u16::from_le_bytes);
        (0..count).map(|_| condition(pieces, at, levels - 1)).collect()
    };
    match piece.kind {
        0x0129 => Node::Wrap("not", vec![condition(pieces, at, levels - 1)]),
        0x012A => Node::Wrap("and", list(at)),
        0x012B => Node::Wrap("or", list(at)),
        _ => leaf(piece),
    }
}

/// The rules, each of which begins with its 0125.
fn rules(pieces: &[Piece]) -> Vec<Node> {
    let (mut at, mut all) = (0, Vec::new());
    while let Some(mode) = pieces.get(at) {
        at += 1;
        let mut inside = vec![leaf(mode), condition(pieces, &mut at, LEVELS)];
        if let Some(rest) = pieces.get(at).filter(|piece| piece.kind == 0x012C) {
            inside.push(leaf(rest));
            at += 1;
        }
        all.push(Node::Wrap("rule", inside));
    }
    all
}

/// The records of a range of kinds.
fn within(pieces: &[Piece], low: u16, high: u16) -> impl Iterator<Item = &Piece> {
    pieces.iter().filter(move |piece| (low..=high).contains(&piece.kind))
}

fn leaves(pieces: &[Piece], low: u16, high: u16) -> Vec<Node> {
    within(pieces, low, high).map(leaf).collect()
}

/// An element around others, where there are some.
fn around(name: &'static str, inside: Vec<Node>) -> Option<Node> {
    (!inside.is_empty()).then_some(Node::Wrap(name, inside))
}

/// An object with these records.
pub fn object(pieces: &[Piece]) -> Node {
    let of_rules: Vec<Piece> = within(pieces, 0x0125, 0x012C).cloned().collect();
    let mut common = leaves(pieces, 0x0121, 0x0124);
    common.extend(around("rules", rules(&of_rules)));
    common.extend(leaves(pieces, 0x012F, 0x012F));
    let mut all = vec![Node::Wrap("common", common), Node::Wrap("class", leaves(pieces, 0x0130, 0x0160))];
    all.extend(around("", leaves(pieces, 0x0170, 0x0170)));
    all.push(Node::Wrap("", vec![type_attributes(pieces)]));
    Node::Wrap("object", all)
}

/// What stands inside the A1. The Path is first, but of a password behind its other components.
fn type_attributes(pieces: &[Piece]) -> Node {
    if let Some(sealed) = within(pieces, 0x01A0, 0x01A0).next() {
        return leaf(sealed);
    }
    let mut inside = leaves(pieces, 0x0190, 0x0197);
    inside.extend(around("Path", leaves(pieces, 0x0180, 0x0182)));
    inside.extend(leaves(pieces, 0x0183, 0x018F));
    inside.extend(leaves(pieces, 0x019F, 0x019F));
    Node::Wrap("type", inside)
}

/// Puts into each 0120 where its object stands now.
pub fn renumber(pieces: &mut [Piece]) {
    let mut file = 0u16;
    let mut offset = 0;
    for at in 0..pieces.len() {
        match pieces[at].kind {
            0x0110 => offset += entry(pieces, at),
            0x0118 | 0x0119 => (file, offset) = (file.wrapping_add(1), 0),
            0x011A => offset += 2,
            0x0107 => offset += fill(&pieces[at].payload),
            0x0120 => {
                place(&mut pieces[at], file, offset);
                offset += object(&pieces[at + 1..end(pieces, at + 1)]).length();
            }
            _ => {}
        }
    }
}

/// Where the records of an object that begin here end.
pub fn end(pieces: &[Piece], from: usize) -> usize {
    let inside = |piece: &&Piece| (0x0121..=0x01FF).contains(&piece.kind);
    from + pieces[from..].iter().take_while(inside).count()
}

fn fill(payload: &[u8]) -> usize {
    match payload {
        [_, low, high] => usize::from(u16::from_le_bytes([*low, *high])),
        _ => 0,
    }
}

fn place(piece: &mut Piece, file: u16, offset: usize) {
    piece.payload.truncate(2);
    piece.payload.extend(file.to_le_bytes());
    piece.payload.extend((offset as u16).to_le_bytes());
}

/// How far an entry leads on: over all of it, or to the first of the objects inside it.
fn entry(pieces: &[Piece], at: usize) -> usize {
    match pieces[at].payload.as_slice() {
        [_, 0, path @ ..] => element(element(element(path.len()))),
        [_, 1] => {
            let objects = inside(pieces, at);
            header(element(objects)) + header(objects)
        }
        [_, _, sealed @ ..] => sealed.len(),
        _ => 0,
    }
}

/// The length of the objects inside an entry.
fn inside(pieces: &[Piece], entry: usize) -> usize {
    let (mut at, mut all) = (entry + 1, 0);
    while pieces.get(at).is_some_and(|piece| piece.kind == 0x0120) {
        let end = end(pieces, at + 1);
        all += object(&pieces[at + 1..end]).length();
        at = end;
    }
    all
}
