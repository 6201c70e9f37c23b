//! `card where`: where an object stands, and its bytes as a tree.

use crate::arguments::Arguments;
use crate::book::{records, Record};
use crate::card::{card, Card, Object};
use crate::element::{header, tree, Line};
use crate::error::Error;
use crate::escape::plain;
use crate::files::{open, print};
use crate::layout::{self, Piece};
use crate::links::{capital, object_name};
use crate::refusal::file_of;
use std::collections::HashMap;

pub fn place(arguments: &Arguments) -> Result<u8, Error> {
    arguments.only(false, false)?;
    let [file, object] = arguments.exactly(2)? else {
        return Err(arguments.usage());
    };
    let opened = open(file)?;
    let card = card(&opened.book);
    let object = find(&card, object)?;
    print(words(&card, object, &opened.dump).as_bytes())?;
    Ok(0)
}

/// The object of this number.
pub fn find<'a, 'b>(card: &'b Card<'a>, number: &str) -> Result<&'b Object<'a>, Error> {
    let parsed = number.parse::<usize>().ok();
    parsed.and_then(|number| card.objects.get(number)).ok_or_else(|| {
        let count = card.objects.len();
        Error::Usage(format!("there is no object {}: the card has {count}, counted from 0", plain(number)))
    })
}

/// The name of the file with this number, and the dump offset of its first byte.
fn file(dump: &[u8], number: usize) -> Option<(String, usize)> {
    let files = records(dump).into_iter().filter(|record| matches!(record.kind, 0x0002..=0x0004));
    files.enumerate().nth(number).and_then(|(number, record)| file_of(&record, number))
}

/// The dump offset of an object's tag.
pub fn object_start(dump: &[u8], object: &Object) -> Option<usize> {
    file(dump, object.file).map(|(_, start)| start + object.file_offset)
}

/// What the elements of an object are called, by their offsets in the file.
fn names(object: &Object) -> HashMap<usize, String> {
    let piece = |record: &Record| Piece { kind: record.kind, payload: record.payload.to_vec() };
    let pieces: Vec<Piece> = object.records.iter().map(piece).collect();
    let spans = layout::object(&pieces).spans(object.file_offset).into_iter();
    spans.filter(|span| span.length > 0).map(|span| (span.offset, span.name)).collect()
}

fn words(card: &Card, object: &Object, dump: &[u8]) -> String {
    let Some((name, start)) = file(dump, object.file) else {
        return format!("file {}, which the dump does not have\n", object.file);
    };
    let at = start + object.file_offset;
    let bytes = dump.get(at..).unwrap_or(&[]);
    let length = header(bytes).map_or(0, |head| head.header + head.contents);
    let title = capital(&object_name(card, object.number));
    let offset = object.file_offset;
    let mut text = format!("{title}: {name}, offset {offset}; in the dump at {at}; {length} bytes\n\n");
    let names = names(object);
    for line in tree(&bytes[..length], offset) {
        text += &shown(&line, names.get(&line.offset).map_or("", String::as_str));
    }
    text
}

/// A line of the tree: offset, header, name, contents.
fn shown(line: &Line, name: &str) -> String {
    let name = match (name, line.contents.as_str()) {
        ("", contents) => contents.to_string(),
        (name, "") => name.to_string(),
        (name, contents) => format!("{name}: {contents}"),
    };
    let text = format!("{:>6}  {}{}  {name}", line.offset, "  ".repeat(line.depth), line.header);
    text.trim_end().to_string() + "\n"
}
