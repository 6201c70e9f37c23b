//! A card as JSON, as docs/JSON.md sets it down.

use crate::card::{Card, Element, Entry, File, Held, Holding, Inside, Object};
use crate::escape::hex;
use crate::fields::fields;
use crate::files::Kind;
use crate::json::Json;
use crate::links::{link_name, sentence, Link};
use crate::record_json::{record, records};
use crate::refusal::{Excerpt, FilePlace, Told};
use crate::table::class;
use crate::view::View;
use adarbukoi::Why;

/// The number of this format.
pub const FORMAT: i64 = 1;

/// The whole card.
pub fn show(view: &View) -> String {
    let card = &view.card;
    let kind = match view.opened.kind {
        Kind::Dump => "dump",
        Kind::Book => "book",
    };
    let all = vec![
        ("format", Json::Number(FORMAT)),
        ("accepted", Json::Bool(true)),
        ("input", Json::text(kind)),
        ("dumpLength", Json::count(view.opened.dump.len())),
        ("bookLength", Json::count(view.opened.book.len())),
        ("info", records(&card.info)),
        ("entries", list(&card.entries, entry)),
        ("entriesFill", Json::or_null(card.entries_fill.as_ref(), record)),
        ("files", list(&card.files, file)),
        ("objects", list(&card.objects, |object| self::object(card, object))),
        ("dir", dir(card)),
        ("others", records(&card.others)),
        ("links", list(&view.links, |link| self::link(card, link))),
        ("counts", counts(view)),
    ];
    Json::Object(all).page()
}

fn list<T>(all: &[T], form: impl Fn(&T) -> Json) -> Json {
    Json::List(all.iter().map(form).collect())
}

fn tag(tag: u8) -> Json {
    Json::Text(format!("{tag:02X}"))
}

fn class_of(entry_tag: u8) -> Json {
    Json::or_null(class(entry_tag), |(one, _)| Json::text(one))
}

fn numbers(all: &[usize]) -> Json {
    list(all, |number| Json::count(*number))
}

fn entry(entry: &Entry) -> Json {
    let inside = match &entry.inside {
        Inside::Path(path, number) => vec![("path", Json::Text(hex(path))), ("file", Json::count(*number))],
        Inside::Objects(all) => vec![("objects", numbers(all))],
        Inside::Sealed(element) => vec![("element", Json::Text(hex(element)))],
    };
    let start = vec![("tag", tag(entry.tag)), ("class", class_of(entry.tag)), ("record", record(&entry.record))];
    Json::Object(start.into_iter().chain(inside).collect())
}

fn holding(holding: &Holding) -> Vec<(&'static str, Json)> {
    vec![("objects", numbers(&holding.objects)), ("fill", Json::or_null(holding.fill.as_ref(), record))]
}

fn file(file: &File) -> Json {
    let start = vec![
        ("number", Json::count(file.number)),
        ("path", Json::Text(hex(file.path))),
        ("class", class_of(file.entry_tag)),
        ("record", record(&file.record)),
    ];
    let inside = match &file.holds {
        Held::Transparent(held) => holding(held),
        Held::Records(all) => vec![("records", list(all, card_record))],
    };
    Json::Object(start.into_iter().chain(inside).collect())
}

fn card_record((opening, held): &(crate::book::Record, Holding)) -> Json {
    Json::Object(std::iter::once(("record", record(opening))).chain(holding(held)).collect())
}

fn object(card: &Card, object: &Object) -> Json {
    let file = card.files.get(object.file.wrapping_sub(1));
    let label = object.label().and_then(|label| std::str::from_utf8(label).ok());
    let is_rule = |name: &str| name.starts_with("rule ") && name != "rule rest";
    let rules = fields(&object.records).into_iter().filter(|field| is_rule(&field.name));
    Json::Object(vec![
        ("number", Json::count(object.number)),
        ("class", class_of(object.entry_tag)),
        ("label", Json::or_null(label, Json::text)),
        ("entryTag", tag(object.entry_tag)),
        ("objectTag", tag(object.object_tag)),
        ("file", Json::count(object.file)),
        ("path", Json::or_null(file, |file| Json::Text(hex(file.path)))),
        ("fileOffset", Json::count(object.file_offset)),
        ("record", record(&object.opening)),
        ("rules", Json::List(rules.map(|field| Json::Text(field.value)).collect())),
        ("records", records(&object.records)),
    ])
}

fn dir(card: &Card) -> Json {
    Json::or_null(card.dir.as_ref(), |dir| {
        let element = |element: &Element| match element {
            Element::Template(all) => Json::Object(vec![("template", records(all))]),
            Element::Other(other) => Json::Object(vec![("other", record(other))]),
        };
        Json::Object(vec![
            ("record", record(&dir.record)),
            ("elements", list(&dir.elements, element)),
            ("fill", Json::or_null(dir.fill.as_ref(), record)),
        ])
    })
}

fn link(card: &Card, link: &Link) -> Json {
    Json::Object(vec![
        ("row", Json::count(link.row)),
        ("link", Json::Text(link_name(link.link))),
        ("number", Json::Number(i64::from(link.link))),
        ("object", Json::count(link.object)),
        ("offset", Json::count(link.offset)),
        ("identifier", Json::Text(hex(&link.identifier))),
        ("answer", Json::or_null(link.answer, Json::count)),
        ("why", Json::or_null(link.missing.as_ref(), why)),
        ("sentence", Json::Text(sentence(card, link))),
    ])
}

/// Why a link is missing; a record is told by its book offset and kind.
fn why(why: &Why) -> Json {
    let (answer, place) = match why {
        Why::Met(offset, kind) => ("met", Some((offset, kind))),
        Why::NoObject => ("no object of the class", None),
        Why::Elsewhere(offset, kind) => ("elsewhere", Some((offset, kind))),
        Why::Nowhere => ("nowhere", None),
    };
    let mut parts = vec![("answer", Json::text(answer))];
    if let Some((offset, kind)) = place {
        parts.extend([("offset", Json::count(*offset)), ("kind", Json::Text(format!("{kind:04X}")))]);
    }
    Json::Object(parts)
}

fn counts(view: &View) -> Json {
    Json::Object(vec![
        ("objects", Json::count(view.card.objects.len())),
        ("files", Json::count(view.card.files.len())),
        ("links", Json::count(view.links.len())),
        ("missing", Json::count(view.missing().count())),
    ])
}

/// A refusal.
pub fn refused(told: &Told) -> String {
    let refusal = vec![
        ("number", Json::Number(i64::from(told.refusal.number))),
        ("name", Json::text(told.refusal.name())),
        ("meaning", Json::text(told.refusal.meaning())),
        ("place", Json::Number(told.refusal.place as i64)),
        ("file", Json::or_null(told.place.as_ref(), file_place)),
        ("excerpt", Json::or_null(told.excerpt.as_ref(), excerpt)),
        ("more", Json::or_null(told.more.as_deref(), Json::text)),
    ];
    let all = vec![
        ("format", Json::Number(FORMAT)),
        ("accepted", Json::Bool(false)),
        ("name", Json::text(&told.input)),
        ("refusal", Json::Object(refusal)),
    ];
    Json::Object(all).page()
}

fn file_place(place: &FilePlace) -> Json {
    Json::Object(vec![("name", Json::text(&place.file)), ("offset", Json::count(place.offset))])
}

fn excerpt(excerpt: &Excerpt) -> Json {
    Json::Object(vec![
        ("from", Json::count(excerpt.from)),
        ("before", Json::Text(hex(&excerpt.before))),
        ("byte", Json::or_null(excerpt.byte, tag)),
        ("behind", Json::Text(hex(&excerpt.behind))),
    ])
}
