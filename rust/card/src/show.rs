//! A card in words.

use crate::book::Record;
use crate::card::{Element, Entry, File, Held, Holding, Inside, Object};
use crate::escape::{hex, quoted};
use crate::fields::{fields, Field};
use crate::files::Kind;
use crate::links::{object_name, reason, sentence, AUTH, CERT, CONDITION};
use crate::table::{class, name};
use crate::view::View;
use crate::words::{octets, value};
use std::collections::{BTreeSet, HashSet};

/// Lines of text, each with its depth.
#[derive(Default)]
struct Page {
    text: String,
}

impl Page {
    fn line(&mut self, depth: usize, words: &str) {
        self.text += &format!("{}{words}\n", "    ".repeat(depth));
    }

    /// A heading, with an empty line before it.
    fn heading(&mut self, words: &str) {
        self.text += &format!("\n{words}\n");
    }
}

/// The whole card.
pub fn show(view: &View) -> String {
    let mut page = Page::default();
    page.line(0, &title(view));
    page.heading("CIAInfo");
    plain_fields(&mut page, 1, &view.card.info);
    page.heading("EF.OD, file 0");
    view.card.entries.iter().for_each(|entry| put_entry(&mut page, view, entry));
    put_fill(&mut page, 1, &view.card.entries_fill);
    view.card.files.iter().for_each(|file| put_file(&mut page, view, file));
    put_dir(&mut page, view);
    if !view.card.others.is_empty() {
        page.heading("Records that were not expected");
        plain_fields(&mut page, 1, &view.card.others);
    }
    put_missing(&mut page, view);
    page.heading(&counts(view));
    page.text
}

fn title(view: &View) -> String {
    let (dump, book) = (view.opened.dump.len(), view.opened.book.len());
    match view.opened.kind {
        Kind::Dump => format!("{}: a dump of {dump} bytes; its book has {book}", view.opened.name),
        Kind::Book => format!("{}: a book of {book} bytes; its dump has {dump}", view.opened.name),
    }
}

fn pair(field: &Field) -> String {
    match field.value.as_str() {
        "" => field.name.clone(),
        value => format!("{}: {value}", field.name),
    }
}

fn plain_fields(page: &mut Page, depth: usize, records: &[Record]) {
    fields(records).iter().for_each(|field| page.line(depth, &pair(field)));
}

fn put_fill(page: &mut Page, depth: usize, fill: &Option<Record>) {
    if let Some(record) = fill {
        page.line(depth, &format!("{}: {}", name(record.kind), value(record)));
    }
}

/// What the objects of an entry are.
fn class_words(tag: u8) -> &'static str {
    class(tag).map_or("unknown entry", |(_, several)| several)
}

fn put_entry(page: &mut Page, view: &View, entry: &Entry) {
    let start = format!("{:02X}, {}", entry.tag, class_words(entry.tag));
    match &entry.inside {
        Inside::Path(path, number) => page.line(1, &format!("{start}: in directory file {}, file {number}", hex(path))),
        Inside::Objects(all) if all.is_empty() => page.line(1, &format!("{start}: here, none")),
        Inside::Objects(all) => {
            page.line(1, &format!("{start}: here"));
            all.iter().for_each(|number| put_object(page, view, 2, *number));
        }
        Inside::Sealed(_) => page.line(1, &format!("{start}: {}", value(&entry.record))),
    }
}

fn put_file(page: &mut Page, view: &View, file: &File) {
    let (path, number, class) = (hex(file.path), file.number, class_words(file.entry_tag));
    let form = name(file.record.kind);
    page.heading(&format!("Directory file {path}, file {number}, {form}: {class}"));
    match &file.holds {
        Held::Transparent(holding) => put_holding(page, view, 1, holding),
        Held::Records(all) => {
            for (number, (_, holding)) in all.iter().enumerate() {
                page.line(1, &format!("record {number}{}", if is_bare(holding) { ": no bytes" } else { "" }));
                put_holding(page, view, 2, holding);
            }
        }
    }
}

fn is_bare(holding: &Holding) -> bool {
    holding.objects.is_empty() && holding.fill.is_none()
}

fn put_holding(page: &mut Page, view: &View, depth: usize, holding: &Holding) {
    holding.objects.iter().for_each(|number| put_object(page, view, depth, *number));
    put_fill(page, depth, &holding.fill);
}

fn put_object(page: &mut Page, view: &View, depth: usize, number: usize) {
    let Some(object) = view.card.objects.get(number) else {
        return;
    };
    page.line(depth, &object_line(object));
    for field in fields(&object.records) {
        if field.records[0].kind == 0x0121 {
            continue;
        }
        page.line(depth + 1, &pair(&field));
        notes(view, object, &field).iter().for_each(|note| page.line(depth + 2, note));
    }
}

/// Number, class, label and place.
fn object_line(object: &Object) -> String {
    let class = class(object.entry_tag).map_or("object of an unknown class", |(one, _)| one);
    let label = object.label().map_or_else(|| "without a label".to_string(), quoted);
    let tag = match object.object_tag {
        0x30 => String::new(),
        tag => format!(", tag {tag:02X}"),
    };
    format!("Object {}, {class}{tag}, {label}, at offset {} of the file", object.number, object.file_offset)
}

/// What a field's links are: the links that it states, and those that its identifier answers.
fn notes(view: &View, object: &Object, field: &Field) -> Vec<String> {
    let (mut found, mut known) = (Vec::new(), HashSet::new());
    for link in field.records.iter().flat_map(|record| view.stated(record.offset)) {
        let asked = match link.link {
            CONDITION => format!("{} is ", octets(&link.identifier)),
            CERT => "certificate: ".to_string(),
            _ => "guard: ".to_string(),
        };
        let words = match (link.answer, &link.missing) {
            (Some(answer), _) => object_name(&view.card, answer),
            (None, Some(why)) => format!("MISSING, {}", reason(&view.card, link, why)),
            (None, None) => "MISSING".to_string(),
        };
        let words = format!("{asked}{words}");
        if known.insert(words.clone()) {
            found.push(words);
        }
    }
    if matches!(field.records[0].kind, 0x0140 | 0x0150) {
        found.extend(served(view, object));
    }
    found
}

/// Whom an object guards, or whose certificate it is.
fn served(view: &View, object: &Object) -> Vec<String> {
    let names = |link: u32| {
        let links = view.answered(object.number).filter(|other| other.link == link);
        let objects: BTreeSet<usize> = links.map(|link| link.object).collect();
        let names = objects.iter().map(|number| object_name(&view.card, *number));
        names.collect::<Vec<_>>().join(", ")
    };
    let lines = [("guards ", names(AUTH)), ("in a condition of ", names(CONDITION)), ("certificate of ", names(CERT))];
    lines.iter().filter(|(_, names)| !names.is_empty()).map(|(words, names)| format!("{words}{names}")).collect()
}

fn put_dir(page: &mut Page, view: &View) {
    let Some(dir) = &view.card.dir else {
        return;
    };
    page.heading("EF.DIR");
    for (number, element) in dir.elements.iter().enumerate() {
        match element {
            Element::Other(record) => page.line(1, &format!("{}: {}", name(record.kind), value(record))),
            Element::Template(records) => {
                let ours = records.first().is_some_and(|record| record.payload == [1]);
                let whose = if ours { "ours" } else { "not ours" };
                page.line(1, &format!("Element {number}, application template, {whose}"));
                plain_fields(page, 2, records.get(1..).unwrap_or(&[]));
            }
        }
    }
    put_fill(page, 1, &dir.fill);
}

fn put_missing(page: &mut Page, view: &View) {
    if view.status() == 0 {
        return;
    }
    page.heading("Missing");
    view.missing().for_each(|link| page.line(1, &format!("Row {}: {}", link.row, sentence(&view.card, link))));
}

/// A count with its noun.
pub fn counted(count: usize, one: &str, several: &str) -> String {
    match count {
        1 => format!("1 {one}"),
        _ => format!("{count} {several}"),
    }
}

/// The last line: how many objects of each class, files, templates, links, missing ones.
pub fn counts(view: &View) -> String {
    let classes: Vec<String> = view.card.counts().iter().map(|(tag, count)| class_count(*tag, *count)).collect();
    let classes = if classes.is_empty() { String::new() } else { format!(" ({})", classes.join(", ")) };
    let objects = counted(view.card.objects.len(), "object", "objects");
    let files = counted(view.card.files.len(), "directory file", "directory files");
    let is_template = |element: &&Element| matches!(element, Element::Template(_));
    let dir = view.card.dir.as_ref().map_or_else(String::new, |dir| {
        let count = dir.elements.iter().filter(is_template).count();
        format!(", {} in EF.DIR", counted(count, "template", "templates"))
    });
    let links = counted(view.links.len(), "link", "links");
    format!("{objects}{classes}, {files}{dir}, {links}, {} missing", view.missing().count())
}

fn class_count(tag: u8, count: usize) -> String {
    let (one, several) = class(tag).unwrap_or(("unknown object", "unknown objects"));
    counted(count, one, several)
}
