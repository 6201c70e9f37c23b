//! Damage to the records of EF.DIR in a book, which are its last.

use super::node::{places, Record};
use super::rng::Rng;
use super::text;
use crate::read::templates::OURS;

/// Opens EF.DIR.
const OPENING: u16 = 0x0200;
/// Ours or not.
const OURS_OR_NOT: u16 = 0x0201;
const IDENTIFIER: u16 = 0x0202;
/// Opens a 73.
const DISCRETIONARY: u16 = 0x0205;
const FILL: u16 = 0x0212;

/// How many of a hundred damaged copies of this book are damaged here.
pub fn percent(all: &[Record]) -> usize {
    if all.iter().any(|record| record.kind == OPENING) {
        55
    } else {
        5
    }
}

/// Damages the records of EF.DIR, or adds some to a book without.
pub fn damage(rng: &mut Rng, all: &mut Vec<Record>) {
    let Some(from) = all.iter().position(|record| record.kind == OPENING) else {
        return add(rng, all);
    };
    match rng.below(5) {
        0 | 1 => damage_marks(rng, all, from),
        2 => damage_order(rng, all, from),
        3 => damage_list(rng, all, from),
        _ => damage_payload(rng, all, from),
    }
}

/// Adds an EF.DIR without bytes, or with an element, a template or fill; at the end, where it may be, or elsewhere.
fn add(rng: &mut Rng, all: &mut Vec<Record>) {
    let record = |kind: u16, payload: &[u8]| Record { kind, payload: payload.to_vec() };
    let mut own = vec![record(OPENING, &[])];
    match rng.below(5) {
        0 => own.push(record(0x0211, &[0x05, 0x00])),
        1 => own.push(record(FILL, &[0xFF, 2, 0])),
        2 => own.extend([record(OURS_OR_NOT, &[0]), record(IDENTIFIER, &[1])]),
        3 => own.extend([record(OURS_OR_NOT, &[1]), record(IDENTIFIER, &OURS), record(DISCRETIONARY, &[])]),
        _ => {}
    }
    let at = if rng.chance(80) { all.len() } else { rng.below(all.len() + 1) };
    all.splice(at..at, own);
}

/// Flips, drops, adds or doubles what only says that something is there, or which of two it is.
fn damage_marks(rng: &mut Rng, all: &mut Vec<Record>, from: usize) {
    let said = places(all, &[OURS_OR_NOT]);
    let opened = places(all, &[DISCRETIONARY]);
    let behind = rng.between(from + 1, all.len());
    match rng.below(9) {
        0..=2 if !said.is_empty() => all[rng.pick(&said)].payload[0] ^= 1,
        3 => {
            all.remove(from);
        }
        4 => all.insert(rng.pick(&[from, behind]), Record { kind: OPENING, payload: vec![] }),
        5 if !opened.is_empty() => {
            all.remove(rng.pick(&opened));
        }
        6 | 7 => all.insert(behind, Record { kind: DISCRETIONARY, payload: vec![] }),
        _ => {
            let at = rng.pick(&places(all, &[OPENING, OURS_OR_NOT, DISCRETIONARY]));
            all[at].payload = rng.pick(&[vec![], vec![0], vec![1], vec![2], vec![0, 0], vec![1, 0, 0, 0]]);
        }
    }
}

/// Moves EF.DIR, its 0200 or one of its records in front of others, or what is before it behind.
fn damage_order(rng: &mut Rng, all: &mut Vec<Record>, from: usize) {
    let before = rng.below(from + 1);
    let own = rng.between(from, all.len() - 1);
    match rng.below(5) {
        0 => {
            let moved = all.split_off(from);
            let at = rng.pick(&[0, before, before]);
            all.splice(at..at, moved);
        }
        1 => {
            let moved = all.remove(from);
            all.insert(rng.pick(&[before, own]), moved);
        }
        2 => {
            let moved = all.remove(own);
            all.insert(before, moved);
        }
        3 => {
            let moved = all.remove(own);
            all.insert(rng.between(from, all.len()), moved);
        }
        _ => {
            let moved = all.remove(before);
            all.insert(rng.between(from, all.len()), moved);
        }
    }
}

/// Drops, doubles or swaps records, drops all from one on, or gives one another kind of EF.DIR's.
fn damage_list(rng: &mut Rng, all: &mut Vec<Record>, from: usize) {
    let at = rng.between(from, all.len() - 1);
    let other = rng.between(from, all.len() - 1);
    let paths = places(all, &[0x0207, 0x0208, 0x0209, 0x020A, 0x020B, 0x020C]);
    match rng.below(8) {
        0 | 1 => {
            all.remove(at);
        }
        2 => all.insert(other, all[at].clone()),
        3 => all.swap(at, other),
        4 => all.truncate(rng.pick(&[from, at])),
        5 if !paths.is_empty() => {
            let at = rng.pick(&paths);
            let one = all[at].kind < 0x020A;
            all[at].kind = if one { all[at].kind + 3 } else { all[at].kind - 3 };
        }
        6 => {
            let payload = rng.pick(&[[0x00, 1, 0], [0xFF, 2, 0], [0x00, 0, 0]]).to_vec();
            all.insert(other, Record { kind: FILL, payload });
        }
        _ => all[at].kind = rng.between(0x0200, 0x0213) as u16,
    }
}

/// Gives a record another payload of its sort: at, below or over a bound, or an element that is not due there.
fn damage_payload(rng: &mut Rng, all: &mut [Record], from: usize) {
    let at = rng.between(from, all.len() - 1);
    let long = [&OURS[..], &[0; 11]].concat();
    let identifiers =
        [vec![], vec![1], OURS[..4].to_vec(), OURS.to_vec(), long.clone(), [long, vec![0]].concat(), vec![7; 16]];
    let numbers = [0u32, 127, 128, 65_535, 65_536, u32::MAX];
    let elements: [&[u8]; 9] = [
        b"",
        b"\x05\x00",
        b"\x61\x03\x4F\x01\x01",
        b"\x50\x00",
        b"\x4F\x01\x01",
        b"\x06\x01\x2A",
        b"\x31\x00",
        b"\x05\x00\x05\x00",
        b"\x5F\x50\x00",
    ];
    all[at].payload = match all[at].kind {
        IDENTIFIER | 0x020D => rng.pick(&identifiers),
        0x0203 => text::at_the_bound(rng),
        0x0204 | 0x0207 | 0x020A => rng.pick(&[vec![], vec![0x3F; 64], vec![0x3F; 65]]),
        0x0208 | 0x0209 | 0x020B | 0x020C => rng.pick(&numbers).to_le_bytes().to_vec(),
        0x0206 | 0x020E..=0x0211 => rng.pick(&elements).to_vec(),
        FILL => rng.pick(&[vec![0, 0, 0], vec![0, 1, 0], vec![0xFF, 0, 1], vec![1, 1, 0], vec![0xFF; 3], vec![0]]),
        _ => vec![rng.byte()],
    };
}
