//! The generator: for each link each of the four answers of item 7 is seen, and each kind that can be shown; and readers
//! with one slip would be found out.

use independent::book::records;
use independent::generate::{card, Rng};
use independent::links::{self, MISSING};
use independent::read;
use independent::why::{of_rows, Why};
use std::collections::{BTreeMap, BTreeSet};

/// The books of whole cards.
fn books(seed: u64, count: u64) -> impl Iterator<Item = Vec<u8>> {
    (0..count).map(move |index| read(&card::valid(&mut Rng::of_input(seed, index)).encode()).unwrap())
}

fn name(why: Why) -> &'static str {
    match why {
        Why::Met(..) => "met",
        Why::NoObject => "no object",
        Why::Elsewhere(..) => "elsewhere",
        Why::Nowhere => "nowhere",
    }
}

/// What can be shown elsewhere, by link: all but what states that link, and that in which it would be met.
const SHOWN: [(u32, u16); 10] = [
    (1, 0x0127),
    (1, 0x0130),
    (1, 0x0140),
    (2, 0x0123),
    (2, 0x0130),
    (2, 0x0140),
    (3, 0x0123),
    (3, 0x0127),
    (3, 0x0130),
    (3, 0x0150),
];

#[test]
fn each_answer_is_seen() {
    let mut seen: BTreeMap<(u32, &str), usize> = BTreeMap::new();
    let mut shown: BTreeMap<(u32, u16), usize> = BTreeMap::new();
    for book in books(31, 4000) {
        for (row, why) in links::of_accepted(&book).iter().zip(of_rows(&book)) {
            *seen.entry((row[0], name(why))).or_default() += 1;
            if let Why::Elsewhere(_, kind) = why {
                *shown.entry((row[0], kind)).or_default() += 1;
            }
        }
    }
    println!("{seen:?}, elsewhere {shown:X?}");
    assert!(seen.len() == 12 && seen.values().all(|count| *count >= 100), "{seen:?}");
    assert!(shown.keys().eq(&SHOWN), "{shown:X?}");
    assert!(shown.values().all(|count| *count >= 20), "{shown:X?}");
}

/// What a reader may get wrong.
#[derive(Clone, Copy, Debug, PartialEq, Eq, PartialOrd, Ord)]
enum Slip {
    /// met shows the first answering object's record, whatever object the row names
    AnotherMet,
    /// an authentication object without 0150 is no object
    ObjectsThatBear,
    /// certificates are those of A4 alone
    OnlyA4,
    /// the class is asked for last
    ClassLast,
    /// another record that states the same link is shown
    SameLink,
    /// the iD of every key states link 3
    EveryKey,
    /// the highest offset is shown
    Highest,
    /// only what stands before the stating record, or only what stands behind it, is looked at
    OnlyBefore,
    OnlyBehind,
    /// the object that asks is not looked at
    NotItself,
}

struct Identifier<'a> {
    at: usize,
    kind: u16,
    object: u32,
    states: u32,
    value: &'a [u8],
}

/// The identifiers of a book, and the entry tags of its objects.
fn contents(book: &[u8]) -> (Vec<Identifier<'_>>, Vec<u8>) {
    let mut found = Vec::new();
    let mut entries = Vec::new();
    for record in records(book).unwrap() {
        let states = match record.kind {
            0x0120 => {
                entries.push(record.payload[0]);
                continue;
            }
            0x0123 => 1,
            0x0127 => 2,
            0x0130 if entries.last() == Some(&0xA0) => 3,
            0x0130 | 0x0140 | 0x0150 => 0,
            _ => continue,
        };
        let object = entries.len() as u32 - 1;
        found.push(Identifier { at: record.at, kind: record.kind, object, states, value: record.payload });
    }
    (found, entries)
}

/// The answer for a row of a reader that has this slip, or none.
fn answer(all: &[Identifier], entries: &[u8], row: [u32; 4], slip: Option<Slip>) -> Why {
    let [link, object, offset, answering] = row;
    let slips = |one: Slip| slip == Some(one);
    let kind = if link == 3 { 0x0140 } else { 0x0150 };
    let at = offset as usize;
    let value = all.iter().find(|it| it.at == at).unwrap().value;
    let mut others = all.iter().filter(|it| it.value == value && it.at != at);
    if answering != MISSING {
        let own = others.find(|it| it.kind == kind && (it.object == answering || slips(Slip::AnotherMet)));
        return Why::Met(own.unwrap().at, kind);
    }
    let mut shown = others.filter(|it| match slip {
        Some(Slip::SameLink) => true,
        Some(Slip::EveryKey) if it.kind == 0x0130 => link != 3,
        Some(Slip::OnlyBefore) if it.at > at => false,
        Some(Slip::OnlyBehind) if it.at < at => false,
        Some(Slip::NotItself) if it.object == object => false,
        _ => it.states != link,
    });
    let none = match slip {
        Some(Slip::ObjectsThatBear) => all.iter().all(|it| it.kind != kind),
        Some(Slip::OnlyA4) if link == 3 => !entries.contains(&0xA4),
        _ if link == 3 => !entries.iter().any(|entry| (0xA4..=0xA6).contains(entry)),
        _ => !entries.contains(&0xA8),
    };
    let shown = if slips(Slip::Highest) { shown.next_back() } else { shown.next() };
    match shown {
        Some(it) if !none || slips(Slip::ClassLast) => Why::Elsewhere(it.at, it.kind),
        _ if none => Why::NoObject,
        _ => Why::Nowhere,
    }
}

/// Each slip, with the links at which it shows: own authIds are all different, and every certificate bears a 0140.
const SLIPS: [(Slip, &[u32]); 10] = [
    (Slip::AnotherMet, &[3]),
    (Slip::ObjectsThatBear, &[1, 2]),
    (Slip::OnlyA4, &[3]),
    (Slip::ClassLast, &[1, 2, 3]),
    (Slip::SameLink, &[1, 2, 3]),
    (Slip::EveryKey, &[3]),
    (Slip::Highest, &[1, 2, 3]),
    (Slip::OnlyBefore, &[1, 2, 3]),
    (Slip::OnlyBehind, &[1, 2, 3]),
    (Slip::NotItself, &[1, 2, 3]),
];

#[test]
fn each_slip_is_found_out() {
    // on how many cards
    let mut seen: BTreeMap<(Slip, u32), usize> = BTreeMap::new();
    for book in books(32, 4000) {
        let (all, entries) = contents(&book);
        let rows = links::of_accepted(&book);
        let right = of_rows(&book);
        assert!(rows.iter().map(|row| answer(&all, &entries, *row, None)).eq(right.iter().copied()));
        for (slip, _) in SLIPS {
            let answers = rows.iter().map(|row| (row[0], answer(&all, &entries, *row, Some(slip))));
            let wrong = answers.zip(&right).filter(|((_, why), right)| why != *right);
            for link in wrong.map(|((link, _), _)| link).collect::<BTreeSet<u32>>() {
                *seen.entry((slip, link)).or_default() += 1;
            }
        }
    }
    println!("{seen:?}");
    let due = SLIPS.iter().flat_map(|(slip, links)| links.iter().map(|link| (*slip, *link)));
    assert!(seen.keys().copied().eq(due), "{seen:?}");
    assert!(seen.values().all(|count| *count >= 15), "{seen:?}");
}
