//! Elements of an accepted dump, as they stand on the card.

use crate::escape::{hex, quoted};

/// No accepted element is deeper.
const LEVELS: usize = 64;

/// An element's header: its bytes, and how many bytes of contents are behind them.
#[derive(Clone, Copy, Debug, PartialEq, Eq)]
pub struct Header {
    pub tag: u8,
    pub header: usize,
    pub contents: usize,
}

/// The header of the element at the start of these bytes, if all of the element is there.
pub fn header(bytes: &[u8]) -> Option<Header> {
    let tag = *bytes.first()?;
    let mut header = 1;
    if tag & 0x1F == 0x1F {
        header += bytes[1..].iter().take(4).position(|byte| byte & 0x80 == 0)? + 1;
    }
    let first = usize::from(*bytes.get(header)?);
    let more = if first < 0x80 { 0 } else { first & 0x7F };
    let long = bytes.get(header + 1..header + 1 + more).filter(|_| more <= 3)?;
    let contents = match more {
        0 => first,
        _ => long.iter().fold(0, |length, byte| length << 8 | usize::from(*byte)),
    };
    header += 1 + more;
    (header + contents <= bytes.len()).then_some(Header { tag, header, contents })
}

/// A line of the tree: offset, depth, header, and a primitive element's contents.
pub struct Line {
    pub offset: usize,
    pub depth: usize,
    pub header: String,
    pub contents: String,
}

/// The tree of the elements in these bytes, the first of which has this offset.
pub fn tree(bytes: &[u8], offset: usize) -> Vec<Line> {
    let mut lines = Vec::new();
    put(&mut lines, bytes, offset, 0);
    lines
}

fn put(lines: &mut Vec<Line>, bytes: &[u8], offset: usize, depth: usize) {
    let mut at = 0;
    while at < bytes.len() {
        let Some(head) = header(&bytes[at..]) else {
            lines.push(Line { offset: offset + at, depth, header: String::new(), contents: hex(&bytes[at..]) });
            return;
        };
        let inside = at + head.header;
        let end = inside + head.contents;
        let (header, contents) = (spaced(&bytes[at..inside]), &bytes[inside..end]);
        let opened = head.tag & 0x20 != 0 && depth < LEVELS;
        let shown = if opened { String::new() } else { primitive(contents) };
        lines.push(Line { offset: offset + at, depth, header, contents: shown });
        if opened {
            put(lines, contents, offset + inside, depth + 1);
        }
        at = end;
    }
}

fn spaced(bytes: &[u8]) -> String {
    bytes.iter().map(|byte| format!("{byte:02X}")).collect::<Vec<_>>().join(" ")
}

/// The contents of a primitive element, and these as text where they are printable.
fn primitive(contents: &[u8]) -> String {
    let text = std::str::from_utf8(contents).ok().filter(|text| text.chars().count() > 1);
    let text = text.filter(|text| !text.chars().any(char::is_control));
    match text {
        Some(text) => format!("{}  {}", hex(contents), quoted(text.as_bytes())),
        None => hex(contents),
    }
}
