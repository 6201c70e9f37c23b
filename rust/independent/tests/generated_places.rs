//! The generator: objects stand in every sort of place, and a book that tells another place is refused.

use independent::book::records;
use independent::generate::node::{join, split};
use independent::generate::{card, damaged_book, Rng};
use independent::{read, write};
use std::collections::BTreeMap;

/// The place that a 0120 tells: file number and offset.
fn told(payload: &[u8]) -> (usize, usize) {
    (usize::from(payload[2]) + 256 * usize::from(payload[3]), usize::from(payload[4]) + 256 * usize::from(payload[5]))
}

/// The files of a dump in order, EF.OD first: whether it is a record file, and its bytes.
fn files(dump: &[u8]) -> Vec<(bool, &[u8])> {
    let all = records(dump).unwrap();
    let numbered = all.iter().filter(|record| (2..=4).contains(&record.kind));
    numbered
        .map(|record| match record.kind {
            2 => (false, record.payload),
            kind => (kind == 4, &record.payload[1 + usize::from(record.payload[0])..]),
        })
        .collect()
}

#[test]
fn an_operator_finds_the_object() {
    let mut seen: BTreeMap<&str, usize> = BTreeMap::new();
    for index in 0..4000 {
        let dump = card::valid(&mut Rng::of_input(41, index)).encode();
        let book = read(&dump).unwrap();
        let files = files(&dump);
        for object in records(&book).unwrap().iter().filter(|record| record.kind == 0x0120) {
            let (file, offset) = told(object.payload);
            // there stands an element with the object's tag
            assert_eq!(files[file].1[offset], object.payload[1], "card {index}");
            let sort = match (file, files[file].0) {
                (0, _) => "inside EF.OD",
                (_, false) => "in a transparent file",
                (_, true) => "in a record file",
            };
            *seen.entry(sort).or_default() += 1;
            if file > 255 {
                *seen.entry("numbers of two bytes").or_default() += 1;
            }
            if offset > 255 {
                *seen.entry("offsets of two bytes").or_default() += 1;
            }
        }
    }
    println!("{seen:?}");
    assert!(seen.len() == 5 && seen.values().all(|count| *count >= 15), "{seen:?}");
}

#[test]
fn another_place_is_refused() {
    let mut refused = 0;
    for index in 0..4000 {
        let mut rng = Rng::of_input(42, index);
        let book = read(&card::valid(&mut rng).encode()).unwrap();
        let damaged = damaged_book(&mut rng, &book);
        // copies that differ from the book in nothing but what a 0120 tells
        let (mut own, mut other) = (split(&book), split(&damaged));
        if own.len() != other.len() || book == damaged {
            continue;
        }
        let tags_only = |all: &mut [independent::generate::node::Record]| {
            all.iter_mut().filter(|record| record.kind == 0x0120).for_each(|record| record.payload.truncate(2));
        };
        tags_only(&mut own);
        tags_only(&mut other);
        if join(&own) == join(&other) {
            assert_eq!(write(&damaged), Err((15, 0)), "card {index}");
            refused += 1;
        }
    }
    println!("{refused}");
    assert!(refused >= 200, "{refused}");
}
