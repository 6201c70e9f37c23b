//! The generator: key references over their whole range, each way in which a number is refused, at every component that
//! is one, and books whose numbers are changed.

mod common;

use common::components::{KEY_REFERENCE, OTHERS};
use independent::book::{add, records, Record};
use independent::generate::{card, damaged_book, dump, Rng};
use independent::read::element::element;
use independent::read::values;
use independent::write::element as encode;
use independent::{read, write};
use std::collections::BTreeMap;

/// The number of a record, if it has four bytes.
fn number(record: &Record) -> Option<i32> {
    record.payload.try_into().ok().map(i32::from_le_bytes)
}

#[test]
fn key_references_of_every_value_are_seen() {
    let mut values: BTreeMap<i32, usize> = BTreeMap::new();
    // the negative ones, by entry
    let mut negative: BTreeMap<u8, usize> = BTreeMap::new();
    for index in 0..12_000 {
        let book = read(&card::valid(&mut Rng::of_input(21, index)).encode()).unwrap();
        let mut entry = 0;
        for record in records(&book).unwrap() {
            match record.kind {
                0x0120 => entry = record.payload[0],
                KEY_REFERENCE => {
                    let value = number(&record).unwrap();
                    *values.entry(value).or_default() += 1;
                    *negative.entry(entry).or_default() += usize::from(value < 0);
                }
                _ => {}
            }
        }
    }
    println!("{values:?}, negative {negative:?}");
    assert!(values.keys().copied().eq(-128..=255), "{values:?}");
    assert!([-128, -127, -1, 0, 127, 128, 129, 255].iter().all(|edge| values[edge] >= 100), "{values:?}");
    assert!(negative.keys().copied().eq(0xA0..=0xA3), "{negative:?}");
    assert!(negative.values().all(|count| *count >= 100), "{negative:?}");
}

/// The elements from `from` to `end`, with other contents in the one at `place` and all lengths around it repaired, and
/// what is no element behind them.
fn repaired(dump: &[u8], from: usize, end: usize, place: usize, contents: &[u8]) -> Vec<u8> {
    let mut out = Vec::new();
    let mut at = from;
    while at < end {
        let Ok(it) = element(dump, at, end) else {
            break;
        };
        if it.at == place {
            out.extend(encode::element(it.tag, contents));
        } else if (it.at..it.end).contains(&place) {
            out.extend(encode::element(it.tag, &repaired(dump, it.from, it.end, place, contents)));
        } else {
            out.extend(it.whole(dump));
        }
        at = it.end;
    }
    [&out, &dump[at..end]].concat()
}

/// The dump with other contents in the element at `place`; none if that is in a record file.
fn with_contents(dump: &[u8], place: usize, contents: &[u8]) -> Option<Vec<u8>> {
    let mut out = Vec::new();
    for record in records(dump)? {
        let from = record.at + 4;
        let end = from + record.payload.len();
        if !(from..end).contains(&place) {
            add(&mut out, record.kind, record.payload);
            continue;
        }
        let path = match record.kind {
            3 => 1 + usize::from(record.payload[0]),
            4 => return None,
            _ => 0,
        };
        let file = repaired(dump, from + path, end, place, contents);
        add(&mut out, record.kind, &[&record.payload[..path], &file].concat());
    }
    Some(out)
}

/// Which number stands at this place of a dump in which nothing else is wrong: the record in which the books with 4 and
/// with another number there differ. All may be 4 and 5, but an ENUMERATED only up to 4.
fn kind_at(dump: &[u8], place: usize) -> Option<u16> {
    let other = if dump[place] == 0x0A { 3 } else { 5 };
    let four = read(&with_contents(dump, place, &[4])?).ok()?;
    let other = read(&with_contents(dump, place, &[other])?).ok()?;
    changed(&four, &other).map(|record| record.kind)
}

/// The one record of the second book that differs from the first's, if it is a number and all kinds are the same.
fn changed<'a>(book: &[u8], other: &'a [u8]) -> Option<Record<'a>> {
    let (old, new) = (records(book)?, records(other)?);
    if !old.iter().map(|record| record.kind).eq(new.iter().map(|record| record.kind)) {
        return None;
    }
    let mut differ = new.iter().zip(&old).filter(|(new, old)| new.payload != old.payload).map(|(new, _)| *new);
    let number = differ.next().filter(|record| record.kind == KEY_REFERENCE || OTHERS.contains(&record.kind));
    number.filter(|_| differ.next().is_none())
}

/// What is wrong with these contents.
fn fault(contents: &[u8]) -> &'static str {
    let right = |value: i64| (-128..=255).contains(&value);
    match (values::integer(contents, i64::MIN, i64::MAX), contents) {
        (Err(_), []) => "no byte",
        (Err(_), [0xFF, ..]) => "bad form of a negative one",
        (Err(_), _) => "bad form",
        (Ok(-1), _) => "minus 1",
        (Ok(-129), _) => "minus 129",
        (Ok(256), _) => "256",
        (Ok(value), [first, _, _, _, _]) if right((value as i32).into()) => match first {
            0x00 => "right one of four bytes behind 00",
            0xFF => "right one of four bytes behind FF",
            _ => "right one of four bytes behind another",
        },
        (Ok(_), [_, last @ ..]) if last.try_into().is_ok_and(|last| right(i64::from_be_bytes(last))) => {
            "right one of eight bytes"
        }
        (Ok(..0), _) => "negative",
        _ => "too large",
    }
}

/// What a keyReference is refused for.
const FAULTS: [(u32, &str); 11] = [
    (7, "minus 129"),
    (7, "256"),
    (7, "right one of four bytes behind 00"),
    (7, "right one of four bytes behind FF"),
    (7, "right one of four bytes behind another"),
    (7, "right one of eight bytes"),
    (7, "negative"),
    (7, "too large"),
    (62, "no byte"),
    (62, "bad form"),
    (62, "bad form of a negative one"),
];

#[test]
fn each_fault_of_a_number_is_seen() {
    let mut seen: BTreeMap<(u16, u32, &str), usize> = BTreeMap::new();
    for index in 0..60_000 {
        let dump = dump(&mut Rng::of_input(22, index));
        let Err((no @ (7 | 62), place)) = read(&dump) else {
            continue;
        };
        if let Some(kind) = kind_at(&dump, place) {
            let it = element(&dump, place, dump.len()).unwrap();
            *seen.entry((kind, no, fault(it.contents(&dump)))).or_default() += 1;
        }
    }
    println!("{seen:X?}");
    let of_keys = FAULTS.map(|(no, fault)| (KEY_REFERENCE, no, fault));
    let of_others = OTHERS.map(|kind| (kind, 7, "minus 1"));
    for sort in of_keys.into_iter().chain(of_others) {
        assert!(seen.get(&sort).is_some_and(|count| *count >= 3), "{sort:X?}: {seen:X?}");
    }
    // minus 1 is a keyReference like any other
    assert!(!seen.contains_key(&(KEY_REFERENCE, 7, "minus 1")), "{seen:X?}");
}

#[test]
fn changed_numbers_of_books_are_seen() {
    let mut numbers: BTreeMap<(u16, i32), usize> = BTreeMap::new();
    // of the others, and of keyReference
    let mut lengths: [BTreeMap<usize, usize>; 2] = Default::default();
    for index in 0..4000 {
        let mut rng = Rng::of_input(23, index);
        let book = read(&card::valid(&mut rng).encode()).unwrap();
        for _ in 0..12 {
            let damaged = damaged_book(&mut rng, &book);
            let Some(record) = changed(&book, &damaged) else {
                continue;
            };
            let key = record.kind == KEY_REFERENCE;
            match number(&record) {
                Some(value) => *numbers.entry((record.kind, value)).or_default() += 1,
                None => *lengths[usize::from(key)].entry(record.payload.len()).or_default() += 1,
            }
            let most = if key { -128..=255 } else { 0..=65_535 };
            if !number(&record).is_some_and(|value| most.contains(&value)) {
                assert_eq!(write(&damaged), Err((15, 0)));
            }
        }
    }
    println!("{numbers:X?}, lengths {lengths:?}");
    // in the bounds and out of them
    let of_keys = [-128, -127, -1, 0, 127, 128, 129, 255, -129, 256, 384, i32::MAX, i32::MIN];
    let due = of_keys.map(|value| (KEY_REFERENCE, value)).into_iter().chain(OTHERS.map(|kind| (kind, -1)));
    for sort in due {
        assert!(numbers.get(&sort).is_some_and(|count| *count >= 3), "{sort:X?}: {numbers:X?}");
    }
    for of_kind in lengths {
        assert!([0, 1, 2, 3, 5, 8].iter().all(|length| of_kind.contains_key(length)), "{of_kind:?}");
    }
}
