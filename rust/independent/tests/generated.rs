//! The generator: whole cards are accepted and written back, each refusal of the reader is seen, and record files and
//! labels of every sort.

use independent::book::{records, Record};
use independent::generate::{card, damaged_book, dump, Rng};
use independent::{read, write};
use std::collections::BTreeMap;

#[test]
fn whole_cards_are_accepted() {
    for index in 0..600 {
        let dump = card::valid(&mut Rng::of_input(1, index)).encode();
        let book = read(&dump).unwrap_or_else(|refusal| panic!("card {index}: {refusal:?}"));
        assert_eq!(write(&book).as_ref(), Ok(&dump), "card {index}");
    }
}

#[test]
fn each_refusal_is_seen() {
    let mut seen: BTreeMap<u32, usize> = BTreeMap::new();
    for index in 0..4000 {
        let mut rng = Rng::of_input(2, index);
        match read(&dump(&mut rng)) {
            Err((number, _)) => *seen.entry(number).or_default() += 1,
            Ok(book) => {
                *seen.entry(0).or_default() += 1;
                let damaged = damaged_book(&mut rng, &book);
                if write(&damaged).is_err() {
                    *seen.entry(15).or_default() += 1;
                }
            }
        }
    }
    println!("{seen:?}");
    let due: Vec<u32> = (0..=5).chain(7..=13).chain([15, 17]).chain(61..=68).collect();
    assert!(seen.keys().eq(&due), "{seen:?}");
    assert!(seen.values().all(|count| *count >= 3), "{seen:?}");
}

/// The refusals 61 to 68, each with the tags of the components that can be wrong in that way.
const FAULTS: [(u32, &[u8]); 8] = [
    (61, &[0x01]),
    (62, &[0x02, 0x0A, 0x80]),
    (63, &[0x03]),
    (64, &[0x03]),
    (65, &[0x0C, 0x50, 0x80]),
    (66, &[0x18, 0x80]),
    (67, &[0x05]),
    (68, &[0x01, 0x80]),
];

#[test]
fn each_fault_of_a_value_is_seen() {
    let mut seen: BTreeMap<(u32, u8), usize> = BTreeMap::new();
    for index in 0..12_000 {
        let dump = dump(&mut Rng::of_input(5, index));
        if let Err((number @ (6 | 61..), place)) = read(&dump) {
            *seen.entry((number, dump[place])).or_default() += 1;
        }
    }
    println!("{seen:?}");
    let due = FAULTS.iter().flat_map(|(number, tags)| tags.iter().map(move |tag| (*number, *tag)));
    assert!(seen.keys().copied().eq(due), "{seen:?}");
    for (number, _) in FAULTS {
        let count: usize = seen.iter().filter(|(fault, _)| fault.0 == number).map(|(_, count)| count).sum();
        assert!(count >= 40, "{number} was seen {count} times: {seen:?}");
    }
}

/// The records of each record file of a book, each as the kinds of its book records.
fn linear_files(book: &[u8]) -> Vec<Vec<Vec<Record<'_>>>> {
    let mut files: Vec<Vec<Vec<Record>>> = Vec::new();
    let mut inside = false;
    for record in records(book).unwrap() {
        match record.kind {
            0x0118 | 0x0200 => inside = false,
            0x0119 => {
                inside = true;
                files.push(vec![]);
            }
            0x011A => files.last_mut().unwrap().push(vec![]),
            _ if inside => files.last_mut().unwrap().last_mut().unwrap().push(record),
            _ => {}
        }
    }
    files
}

#[test]
fn record_files_of_every_sort_are_seen() {
    let (mut cards, mut mixed, mut empty, mut long) = (0, 0, 0, 0);
    // without and with an object: no fill, 00, FF
    let mut sorts = [[0; 3]; 2];
    for index in 0..1000 {
        let book = read(&card::valid(&mut Rng::of_input(3, index)).encode()).unwrap();
        let files = linear_files(&book);
        cards += usize::from(!files.is_empty());
        mixed += usize::from(!files.is_empty() && records(&book).unwrap().iter().any(|record| record.kind == 0x0118));
        empty += files.iter().filter(|file| file.is_empty()).count();
        long += files.iter().filter(|file| file.len() > 20).count();
        for record in files.concat() {
            let object = usize::from(record.iter().any(|part| part.kind == 0x0120));
            let fill = record.iter().find(|part| part.kind == 0x0107).map(|fill| fill.payload[0]);
            sorts[object][fill.map_or(0, |byte| if byte == 0 { 1 } else { 2 })] += 1;
        }
    }
    println!("{cards} cards, {mixed} mixed, {empty} empty and {long} long files, records {sorts:?}");
    assert!((250..=400).contains(&cards), "{cards} of 1000 cards have a record file");
    assert!(mixed >= 20 && empty >= 3 && long >= 3, "{mixed} {empty} {long}");
    assert!(sorts.concat().iter().all(|count| *count >= 20), "{sorts:?}");
}

/// The kinds of records that hold texts.
const LABELS: [u16; 4] = [0x0103, 0x0104, 0x0121, 0x0203];

#[test]
fn labels_of_every_width_are_seen() {
    let (mut labels, mut long, mut mixed) = (0, 0, 0);
    // 255 characters of one, two, three and four bytes each
    let mut most = [0; 4];
    for index in 0..3000 {
        let book = read(&card::valid(&mut Rng::of_input(4, index)).encode()).unwrap();
        for label in records(&book).unwrap().iter().filter(|record| LABELS.contains(&record.kind)) {
            let bytes = label.payload.len();
            let characters = std::str::from_utf8(label.payload).unwrap().chars().count();
            labels += 1;
            long += usize::from(bytes > 255);
            match bytes % 255 {
                _ if characters < 255 => {}
                0 => most[bytes / 255 - 1] += 1,
                _ => mixed += 1,
            }
        }
    }
    println!("{labels} labels, {long} of more than 255 bytes, of 255 characters {most:?}, mixed {mixed}");
    assert!((30..=60).contains(&(long * 1000 / labels)), "{long} of {labels} labels have more than 255 bytes");
    assert!(mixed >= 3 && most.iter().all(|count| *count >= 3), "{most:?} {mixed}");
}
