//! The generator: EF.DIR of every sort, each of its refusals, two refusals at once, and the books that have it.

use independent::book::{records, Record};
use independent::generate::{card, damaged_book, dump, Rng};
use independent::{links, read, write};
use std::collections::BTreeMap;

/// Where the first record ends, if it is EF.DIR and whole, whatever is behind it.
fn end_of_templates(dump: &[u8]) -> Option<usize> {
    let head = dump.get(..4)?;
    let end = 2 + usize::from(u16::from_le_bytes([head[0], head[1]]));
    if head[2..] == [5, 0] && (4..=dump.len()).contains(&end) {
        Some(end)
    } else {
        None
    }
}

/// The records of each template of a book, without 0201.
fn templates<'a>(all: &[Record<'a>]) -> Vec<Vec<Record<'a>>> {
    let mut found: Vec<Vec<Record>> = Vec::new();
    for record in all {
        match record.kind {
            0x0201 => found.push(vec![]),
            0x0202..=0x0210 => found.last_mut().unwrap().push(*record),
            _ => {}
        }
    }
    found
}

/// The books of whole cards with an EF.DIR, among so many cards.
fn books(seed: u64, count: u64) -> Vec<Vec<u8>> {
    let cards = (0..count).map(|index| card::valid(&mut Rng::of_input(seed, index)));
    cards.filter(|card| card.templates.is_some()).map(|card| read(&card.encode()).unwrap()).collect()
}

#[test]
fn a_third_of_the_cards_have_it() {
    let books = books(11, 3000);
    assert!((900..=1100).contains(&books.len()), "{} of 3000 cards have it", books.len());
    let mut counts = BTreeMap::new();
    for book in &books {
        let all = records(book).unwrap();
        let own = all.iter().filter(|record| record.kind >= 0x0200).count();
        *counts.entry((templates(&all).len().min(5), own == 1)).or_insert(0) += 1;
    }
    println!("templates, alone: {counts:?}");
    // no bytes; no template but another element or fill; one to four; more
    let due = (0..=5).map(|count| (count, false)).chain([(0, true)]);
    assert!(due.into_iter().all(|sort| counts.get(&sort).is_some_and(|count| *count >= 5)), "{counts:?}");
}

#[test]
fn identifiers_of_every_sort_are_seen() {
    let ours = [0xE8, 0x28, 0xBD, 0x08, 0x0F];
    // by what 0201 says and by length, and those that have just the first four
    let mut lengths = BTreeMap::new();
    let mut four = [0; 2];
    for book in books(12, 3000) {
        let all = records(&book).unwrap();
        for pair in all.windows(2).filter(|pair| pair[0].kind == 0x0201) {
            let (said, identifier) = (pair[0].payload, pair[1].payload);
            assert_eq!(said, [u8::from(identifier.starts_with(&ours))]);
            *lengths.entry((said[0], identifier.len())).or_insert(0) += 1;
            if said == [0] && identifier.starts_with(&ours[..4]) {
                four[usize::from(identifier.len() > 4)] += 1;
            }
        }
    }
    println!("{lengths:?}, four equal bytes, alone and not: {four:?}");
    let due = (1..=16).map(|length| (0, length)).chain((5..=16).map(|length| (1, length)));
    assert!(lengths.keys().copied().eq(due), "{lengths:?}");
    assert!(four.iter().all(|count| *count >= 10), "{four:?}");
}

#[test]
fn components_of_every_sort_are_seen() {
    let mut sets = BTreeMap::new();
    let mut seen = BTreeMap::new();
    for book in books(13, 6000) {
        let all = records(&book).unwrap();
        for template in templates(&all) {
            let has = |kind: u16| template.iter().any(|record| record.kind == kind);
            if has(0x0205) {
                *sets.entry([0x0206, 0x0207, 0x020A, 0x020D, 0x020E].map(has)).or_insert(0) += 1;
            }
        }
        for record in all {
            for sort in sorts(&record) {
                *seen.entry(sort).or_insert(0) += 1;
            }
        }
    }
    println!("{seen:?}");
    assert_eq!(sets.len(), 32, "{sets:?}");
    assert_eq!(seen.len(), 15, "{seen:?}");
    assert!(seen.values().all(|count| *count >= 3), "{seen:?}");
}

/// What is rare about a record.
fn sorts(record: &Record) -> Vec<&'static str> {
    let length = record.payload.len();
    let first = record.payload.first().copied().unwrap_or_default();
    let tests = [
        (0x0203, length == 0, "empty label"),
        (0x0203, length > 255, "label of more than 255 bytes"),
        (0x0204, length == 0, "empty path"),
        (0x0204, length == 64, "path of 64 bytes"),
        (0x0207, length == 0, "empty odfPath"),
        (0x020A, length == 64, "ciaInfoPath of 64 bytes"),
        (0x020D, length == 16, "aid of 16 bytes"),
        (0x020E, length > 2, "SET with elements"),
        (0x020F, true, "rest of 73"),
        (0x0210, first == 0x4F, "rest with a second 4F"),
        (0x0210, first == 0x61, "rest with a template"),
        (0x0211, first & 0x1F == 0x1F, "element with a tag of some bytes"),
        (0x0211, first == 0x73, "element 73"),
        (0x0212, first == 0x00, "fill 00"),
        (0x0212, first == 0xFF, "fill FF"),
    ];
    tests.iter().filter(|(kind, is, _)| *kind == record.kind && *is).map(|(_, _, name)| *name).collect()
}

#[test]
fn each_refusal_is_seen() {
    // by number, and for some by the byte at the place
    let mut seen: BTreeMap<(u32, u8), usize> = BTreeMap::new();
    let mut elsewhere = 0;
    for index in 0..12_000 {
        let dump = dump(&mut Rng::of_input(14, index));
        let Err((number, place)) = read(&dump) else {
            continue;
        };
        if number == 2 && place > 0 && dump.get(place + 2..place + 4) == Some(&[5, 0]) {
            elsewhere += 1;
        }
        match end_of_templates(&dump) {
            Some(end) if number != 1 && (place < end || place == end && number == 5) => {
                let byte = if matches!(number, 7 | 8) { dump[place] } else { 0 };
                *seen.entry((number, byte)).or_default() += 1;
            }
            _ => {}
        }
    }
    println!("{seen:?}, 0005 elsewhere {elsewhere}");
    let bounds = [0x02, 0x04, 0x4F, 0x50, 0x51, 0x80].map(|tag| (7, tag));
    let due = [2, 3, 4, 5, 9, 11, 62, 65].map(|number| (number, 0));
    for sort in bounds.into_iter().chain(due).chain([(8, 0x30), (8, 0xA0)]) {
        assert!(seen.get(&sort).is_some_and(|count| *count >= 3), "{sort:?}: {seen:?}");
    }
    assert_eq!(seen.len(), 16, "{seen:?}");
    assert!(elsewhere >= 50, "{elsewhere}");
}

#[test]
fn two_refusals_at_once_are_seen() {
    // EF.DIR is refused, and what is behind it would be; a frame behind it is, and EF.DIR would be
    let (mut behind, mut frames) = (0, 0);
    for index in 0..12_000 {
        let dump = dump(&mut Rng::of_input(15, index));
        let (Some(end), Err((number, place))) = (end_of_templates(&dump), read(&dump)) else {
            continue;
        };
        let right = [&dump[..end], &[0x0A, 0, 1, 0, 0x30, 6, 2, 1, 1, 3, 1, 0, 2, 0, 2, 0]].concat();
        match number {
            1 => {}
            2 => frames += usize::from(place >= end && read(&right).is_err()),
            _ => behind += usize::from(place <= end && read(&right).is_err() && read(&dump[end..]).is_err()),
        }
    }
    println!("behind {behind}, frames {frames}");
    assert!(behind >= 20 && frames >= 20, "{behind} {frames}");
}

#[test]
fn without_it_the_rest_is_the_same() {
    for index in 0..400 {
        let dump = card::valid_with_templates(&mut Rng::of_input(16, index)).encode();
        let book = read(&dump).unwrap();
        let without = read(&dump[end_of_templates(&dump).unwrap()..]).unwrap();
        assert!(book.starts_with(&without));
        assert_eq!(records(&book[without.len()..]).unwrap()[0].kind, 0x0200);
        assert_eq!(links(&book), links(&without));
    }
}

#[test]
fn damaged_books_are_of_both_sorts() {
    // refused and accepted, without and with EF.DIR
    let mut seen = [[0; 2]; 2];
    for index in 0..1500 {
        let mut rng = Rng::of_input(17, index);
        let book = read(&card::valid(&mut rng).encode()).unwrap();
        let damaged = damaged_book(&mut rng, &book);
        let has = records(&damaged).unwrap_or_default().iter().any(|record| record.kind == 0x0200);
        let dump = write(&damaged);
        if let Ok(dump) = &dump {
            assert_eq!(read(dump).as_ref(), Ok(&damaged));
            assert_eq!(end_of_templates(dump).is_some(), has);
        }
        seen[usize::from(dump.is_ok())][usize::from(has)] += 1;
    }
    println!("{seen:?}");
    assert!(seen.concat().iter().all(|count| *count >= 50), "{seen:?}");
}
