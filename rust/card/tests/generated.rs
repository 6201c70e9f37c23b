//! Generated cards: nothing panics, JSON tells the library's links and every record, changes and their inverses restore
//! the bytes, every refusal shows its place.

mod common;

use card::book::records;
use card::card::card as tree;
use card::edit::edited;
use card::element::header;
use card::error::Error;
use card::files::{accept, book_of, dump_of, Opened};
use card::layout::{object, renumber, Piece};
use card::refusal::Told;
use card::table::{row, Form, Row, TABLE};
use card::values::Wanted;
use card::view::view;
use card::words::value;
use card::{compare, show, show_json};
use common::json::{parse, Value};
use independent::generate::{card as cards, damaged_book, dump, Rng};

const SEED: u64 = 15;

/// How many cards each test takes; CARD_CARDS names another number.
fn count() -> u64 {
    std::env::var("CARD_CARDS").ok().and_then(|count| count.parse().ok()).unwrap_or(2_000)
}

fn valid(index: u64) -> Opened {
    let dump = cards::valid(&mut Rng::of_input(SEED, index)).encode();
    accept("a card", dump).unwrap_or_else(|error| panic!("card {index}: {error}"))
}

/// The rows that the library lists.
fn listed(book: &[u8]) -> Vec<u32> {
    let mut rows = vec![0; 1 << 20];
    let count = adarbukoi::list(book, &mut rows).unwrap();
    rows.truncate(count);
    rows
}

/// The rows that JSON tells.
fn told(page: &Value) -> Vec<u32> {
    let number = |link: &Value, name: &str| match link.get(name) {
        Value::Null => u32::MAX,
        other => other.number() as u32,
    };
    let names = ["number", "object", "offset", "answer"];
    page.get("links").list().iter().flat_map(|link| names.map(|name| number(link, name))).collect()
}

/// The offsets of all records that JSON tells: the objects with a kind and a name.
fn offsets(page: &Value) -> Vec<usize> {
    let is_record = |value: &&Value| value.has("kind") && value.has("name") && value.has("value");
    let mut found: Vec<usize> =
        page.objects().into_iter().filter(is_record).map(|value| value.get("offset").number() as usize).collect();
    found.sort_unstable();
    found
}

#[test]
fn json_tells_the_links_and_each_record() {
    for index in 0..count() {
        let opened = valid(index);
        let view = view(&opened).unwrap();
        let page = parse(&show_json::show(&view));
        assert_eq!(told(&page), listed(&opened.book), "card {index}");
        let due: Vec<usize> = records(&opened.book).iter().map(|record| record.offset).collect();
        assert_eq!(offsets(&page), due, "card {index}");
        assert!(view.card.others.is_empty());
        for link in view.missing() {
            assert_eq!(adarbukoi::why(&opened.book, link.row as u64).ok(), link.missing, "card {index}");
        }
        assert!(show::show(&view).ends_with("missing\n"));
    }
}

#[test]
fn labels_in_json_are_the_cards() {
    for index in 0..count() / 4 {
        let opened = valid(index);
        let page = parse(&show_json::show(&view(&opened).unwrap()));
        for (object, told) in tree(&opened.book).objects.iter().zip(page.get("objects").list()) {
            let label = object.label().map(|label| Value::Text(String::from_utf8(label.to_vec()).unwrap()));
            assert_eq!(told.get("label"), &label.unwrap_or(Value::Null));
        }
    }
}

#[test]
fn read_then_write_gives_the_same_bytes() {
    for index in 0..count() {
        let opened = valid(index);
        assert_eq!(dump_of(&opened.book), Ok(opened.dump.clone()));
        let again = accept("its book", opened.book.clone()).unwrap();
        assert_eq!((again.dump, again.book), (opened.dump, opened.book));
    }
}

/// Objects stand where the program says, by sizes alone.
#[test]
fn places_are_the_librarys() {
    for index in 0..count() {
        let opened = valid(index);
        let piece = |record: card::book::Record| Piece { kind: record.kind, payload: record.payload.to_vec() };
        let before: Vec<Piece> = records(&opened.book).into_iter().map(piece).collect();
        let mut after = before.clone();
        renumber(&mut after);
        assert_eq!(before, after, "card {index}");
    }
}

/// Each element of an object that a record stands for is where the layout says, and so long.
#[test]
fn elements_are_where_the_layout_says() {
    for index in 0..count() {
        let opened = valid(index);
        for it in &tree(&opened.book).objects {
            let piece = |record: &card::book::Record| Piece { kind: record.kind, payload: record.payload.to_vec() };
            let pieces: Vec<Piece> = it.records.iter().map(piece).collect();
            let start = card::commands::object_start(&opened.dump, it).unwrap();
            let spans = object(&pieces).spans(0);
            assert!(spans.len() > pieces.len(), "card {index}");
            for span in spans {
                let bytes = &opened.dump[start + span.offset..];
                let sealed = span.kind.and_then(row).is_some_and(|row| row.form == Form::Sealed);
                let told = header(bytes).map(|head| head.header + head.contents);
                assert!(sealed || told == Some(span.length), "card {index}, {} at {}", span.name, span.offset);
            }
        }
    }
}

/// What show prints for a value, set takes.
#[test]
fn words_and_back() {
    for index in 0..count() {
        let opened = valid(index);
        let all = records(&opened.book).into_iter().filter_map(|record| Some((record, row(record.kind)?)));
        for (record, row) in all.filter(|(_, row)| row.set) {
            let again = card::values::parse(row, &value(&record));
            assert_eq!(again, Ok(Wanted::Payload(record.payload.to_vec())), "{}: {}", row.name, value(&record));
        }
    }
}

/// A value for a field, in words.
fn words(rng: &mut Rng, row: &Row) -> String {
    match row.form {
        Form::Number(low, high) | Form::Signed(low, high) => {
            (low + rng.below((high - low + 1) as usize) as i64).to_string()
        }
        Form::Flags(names) if rng.chance(80) => rng.pick(names).to_string(),
        Form::Flags(_) => "none".to_string(),
        Form::Choice(names) => rng.pick(names).to_string(),
        Form::Boolean => rng.pick(&["true", "false"]).to_string(),
        Form::Octets(low, high) => {
            let count = rng.between(low as usize, (high as usize).min(200));
            card::words::octets(&rng.bytes(count))
        }
        Form::Time => "2026-11-18 09:30:00 UTC".to_string(),
        _ => "é\u{202E}<b>".repeat(rng.below(20)),
    }
}

/// Changes one field of a card and changes it back. Whether the change was accepted, and did something.
fn there_and_back(rng: &mut Rng, opened: &Opened) -> bool {
    let card = tree(&opened.book);
    let object = (!card.objects.is_empty() && rng.chance(90)).then(|| rng.below(card.objects.len()));
    let (name, records) = match object {
        Some(number) => (number.to_string(), &card.objects[number].records),
        None => ("CIAInfo".to_string(), &card.info),
    };
    let fields: Vec<&Row> = TABLE.iter().filter(|row| row.set).collect();
    let present: Vec<&Row> = records.iter().filter_map(|record| row(record.kind)).filter(|row| row.set).collect();
    let field = if rng.chance(60) && !present.is_empty() { rng.pick(&present) } else { rng.pick(&fields) };
    // by its name: a certificate's iD and a key's have one
    let old = records.iter().find(|record| row(record.kind).is_some_and(|row| row.name == field.name));
    let new = if old.is_some() && rng.chance(15) { "absent".to_string() } else { words(rng, field) };
    let Ok(book) = edited(&opened.book, &[format!("{name}.{}={new}", field.name)]) else {
        return false;
    };
    let Ok(changed) = accept("the changed card", book) else {
        return false;
    };
    // a text that show prints stands in quotes, so that `absent` is the word alone
    let back = old.map_or_else(|| "absent".to_string(), value);
    let again = edited(&changed.book, &[format!("{name}.{}={back}", field.name)]).unwrap();
    assert_eq!(again, opened.book, "{name}.{} was {back} and became {new}", field.name);
    let lines = compare::differences(&card, &tree(&changed.book));
    assert_eq!(lines.is_empty(), changed.book == opened.book, "{name}.{}={new}: {lines:?}", field.name);
    changed.book != opened.book
}

#[test]
fn a_change_and_its_inverse() {
    let mut done = 0;
    for index in 0..count() {
        let opened = valid(index);
        let mut rng = Rng::of_input(SEED + 1, index);
        done += (0..6).filter(|_| there_and_back(&mut rng, &opened)).count();
    }
    assert!(done as u64 > count() * 3 / 2, "{done} changes were accepted");
}

/// What is told of a refusal names its place, and shows the byte there.
fn refused(told: &Told, dump: &[u8]) {
    let page = parse(&show_json::refused(told));
    let refusal = page.get("refusal");
    assert_eq!(refusal.get("number").number(), i64::from(told.refusal.number));
    let text = told.to_string();
    assert!(text.contains(told.refusal.name()));
    if matches!(told.refusal.number, 1 | 14 | 15 | 16) {
        return;
    }
    let excerpt = told.excerpt.as_ref().expect("a refusal with a place has an excerpt");
    let at = told.refusal.place as usize;
    assert_eq!((excerpt.from + excerpt.before.len(), excerpt.byte), (at, dump.get(at).copied()));
    assert!(text.contains('['));
    assert!(told.place.is_some());
}

#[test]
fn every_refusal_shows_its_excerpt() {
    let mut seen = 0;
    for index in 0..count() {
        let bytes = dump(&mut Rng::of_input(SEED, index));
        match accept("a card", bytes.clone()) {
            Err(Error::Refused(told)) => {
                seen += 1;
                refused(&told, &bytes);
            }
            Err(other) => panic!("{other}"),
            Ok(opened) => assert_eq!(book_of(&bytes), Ok(opened.book)),
        }
    }
    assert!(seen > count() / 4);
}

/// The tree takes any bytes, also of books that no dump has.
#[test]
fn nothing_panics_on_damaged_books() {
    for index in 0..count() {
        let opened = valid(index);
        let damaged = damaged_book(&mut Rng::of_input(SEED + 2, index), &opened.book);
        let card = tree(&damaged);
        let objects = card.objects.iter().map(|object| card::fields::fields(&object.records).len());
        assert!(objects.sum::<usize>() <= records(&damaged).len());
        compare::differences(&tree(&opened.book), &card);
        let _ = edited(&damaged, &["0.label=x".to_string()]);
    }
}
