//! A card as parts with fields, to compare two of them.

use crate::book::Record;
use crate::card::{Card, Element, Entry, Held, Holding, Inside, Object};
use crate::escape::hex;
use crate::fields::fields;
use crate::links::{capital, object_name};
use crate::table::{class, name};
use crate::words::value;

/// A value in words, and the bytes that it comes from.
#[derive(Clone, Debug, PartialEq, Eq)]
pub struct Value {
    pub name: String,
    pub words: String,
    pub bytes: Vec<u8>,
}

/// A part of a card: what it is found by again in another card, its title, its fields.
#[derive(Clone, Debug)]
pub struct Part {
    pub key: String,
    pub title: String,
    pub values: Vec<Value>,
}

fn said(name: &str, words: String) -> Value {
    Value { name: name.to_string(), bytes: words.as_bytes().to_vec(), words }
}

/// The fields of records, each with its bytes.
fn values(records: &[Record]) -> Vec<Value> {
    let bytes = |records: &[Record]| {
        let one = |record: &Record| [&record.kind.to_le_bytes(), record.payload].concat();
        records.iter().flat_map(one).collect()
    };
    let field =
        |field: crate::fields::Field| Value { bytes: bytes(field.records), name: field.name, words: field.value };
    fields(records).into_iter().map(field).collect()
}

/// All parts but the objects.
pub fn parts(card: &Card) -> Vec<Part> {
    let mut all = vec![part("CIAInfo", values(&card.info)), part("EF.OD", entries(card))];
    all.extend(card.files.iter().map(|file| {
        let title = format!("Directory file {}", hex(file.path));
        let mut values = vec![said("form", name(file.record.kind))];
        match &file.holds {
            Held::Transparent(holding) => values.extend(fill("fill", holding)),
            Held::Records(all) => {
                values.push(said("records", all.len().to_string()));
                let numbered = all.iter().enumerate();
                values.extend(numbered.flat_map(|(at, (_, held))| fill(&format!("record {at}, fill"), held)));
            }
        }
        part(&title, values)
    }));
    if let Some(dir) = &card.dir {
        let fill = dir.fill.iter().map(|record| said("fill", value(record)));
        all.push(part("EF.DIR", fill.collect()));
        all.extend(dir.elements.iter().enumerate().map(element));
    }
    all
}

fn part(title: &str, values: Vec<Value>) -> Part {
    Part { key: title.to_string(), title: title.to_string(), values }
}

fn entries(card: &Card) -> Vec<Value> {
    let numbered = card.entries.iter().enumerate();
    let mut all: Vec<Value> = numbered.map(|(at, entry)| said(&format!("entry {at}"), entry_words(entry))).collect();
    all.extend(card.entries_fill.iter().map(|record| said("fill", value(record))));
    all
}

fn entry_words(entry: &Entry) -> String {
    let class = class(entry.tag).map_or("unknown entry", |(_, several)| several);
    let inside = match &entry.inside {
        Inside::Path(path, _) => format!("in directory file {}", hex(path)),
        Inside::Objects(_) => "here".to_string(),
        Inside::Sealed(element) => hex(element),
    };
    format!("{:02X}, {class}, {inside}", entry.tag)
}

fn fill(name: &str, holding: &Holding) -> Option<Value> {
    holding.fill.as_ref().map(|record| said(name, value(record)))
}

fn element((at, element): (usize, &Element)) -> Part {
    let values = match element {
        Element::Template(records) => values(records),
        Element::Other(record) => values(std::slice::from_ref(record)),
    };
    part(&format!("EF.DIR, element {at}"), values)
}

/// An object as a part; it is found again by what `pairs` says.
pub fn object(card: &Card, object: &Object) -> Part {
    let file = card.files.get(object.file.wrapping_sub(1));
    let stands = file.map_or_else(|| "EF.OD".to_string(), |file| format!("directory file {}", hex(file.path)));
    let mut all = vec![said("stands in", stands), said("object tag", format!("{:02X}", object.object_tag))];
    all.extend(values(&object.records));
    Part { key: String::new(), title: capital(&object_name(card, object.number)), values: all }
}
