//! Damage to bytes and to records, without any repair of what encloses them or with that of the record's length only.

use super::node::{join, split, Record};
use super::rng::Rng;
use crate::book::records;
use crate::read::element::element;
use crate::read::linear;

/// Flips, cuts, adds or takes bytes somewhere.
pub fn damage(rng: &mut Rng, bytes: &mut Vec<u8>) {
    let at = rng.below(bytes.len().max(1));
    match rng.below(7) {
        _ if bytes.is_empty() => bytes.push(rng.byte()),
        0 | 1 => bytes[at] ^= 1 << rng.below(8),
        2 => bytes[at] = rng.byte(),
        3 => bytes.truncate(at),
        4 => {
            let count = rng.between(1, 4);
            bytes.extend(rng.bytes(count));
        }
        5 => bytes.insert(at, rng.byte()),
        _ => {
            bytes.remove(at);
        }
    }
}

/// Changes a length byte of one element and nothing else.
pub fn change_length(rng: &mut Rng, dump: &mut [u8]) {
    let mut places = Vec::new();
    let all = records(dump).unwrap_or_default();
    for record in all {
        let path = if matches!(record.kind, 3 | 4) { 1 + record.payload[0] as usize } else { 0 };
        let file = (record.at + 4 + path, record.at + 4 + record.payload.len());
        let parts =
            if record.kind == 4 { linear::records(dump, file.0, file.1).unwrap_or_default() } else { vec![file] };
        for (from, end) in parts {
            lengths(dump, from, end, &mut places);
        }
    }
    if places.is_empty() {
        return;
    }
    let at = rng.pick(&places);
    dump[at] = match rng.below(4) {
        0 => dump[at].wrapping_add(1),
        1 => dump[at].wrapping_sub(1),
        2 => rng.pick(&[0x00, 0x7F, 0x80, 0x81, 0x82, 0x83, 0x84, 0xFF]),
        _ => dump[at] ^ 1 << rng.below(8),
    };
}

/// The places of the length bytes of all elements here.
fn lengths(dump: &[u8], from: usize, end: usize, places: &mut Vec<usize>) {
    let mut at = from;
    while at < end {
        let Ok(it) = element(dump, at, end) else {
            return;
        };
        let first = if it.tag & 0x1F == 0x1F { it.from - 1 } else { at + 1 };
        places.extend(first..it.from);
        if it.constructed() {
            lengths(dump, it.from, it.end, places);
        }
        at = it.end;
    }
}

/// Drops, doubles, swaps or changes a whole record; the lengths of records are right afterwards, except in one case.
pub fn damage_records(rng: &mut Rng, bytes: &[u8]) -> Vec<u8> {
    let mut all = split(bytes);
    if all.is_empty() {
        return rng.bytes(3);
    }
    let at = choose(rng, &all);
    let other = rng.below(all.len());
    match rng.below(12) {
        0 => {
            all.remove(at);
        }
        1 => all.insert(at, all[at].clone()),
        2 => all.insert(other, all[at].clone()),
        3 => all.swap(at, other),
        4 => {
            let moved = all.remove(at);
            all.insert(other.min(all.len()), moved);
        }
        5 => all[at].kind = other_kind(rng, all[at].kind),
        6 => all[at].kind = all[other].kind,
        7 => all[at].payload = all[other].payload.clone(),
        8 | 9 => {
            let kind = all[at].kind;
            other_payload(rng, kind, &mut all[at].payload);
        }
        10 => damage(rng, &mut all[at].payload),
        _ => return wrong_record_length(rng, &all, at),
    }
    join(&all)
}

/// A record of a kind chosen first, so that rare kinds have their turn.
fn choose(rng: &mut Rng, all: &[Record]) -> usize {
    let mut kinds: Vec<u16> = all.iter().map(|record| record.kind).collect();
    kinds.sort();
    kinds.dedup();
    let kind = rng.pick(&kinds);
    let places: Vec<usize> = (0..all.len()).filter(|at| all[*at].kind == kind).collect();
    rng.pick(&places)
}

/// Gives a record another number, if it has one, and otherwise damages its bytes.
fn other_payload(rng: &mut Rng, kind: u16, payload: &mut Vec<u8>) {
    let edges = [0, 1, 3, 4, 5, 8, 9, 64, 65, 0x80, 0xC0, 255, 256, 32_767, 32_768, 65_535, 65_536, 1 << 31, u32::MAX];
    match payload.len() {
        0..=2 if matches!(kind, 3 | 4) => damage(rng, payload),
        _ if matches!(kind, 3 | 4) => payload[0] = rng.pick(&[0, 1, 2, 3, 64, 65, 255]),
        4 if rng.chance(80) => *payload = rng.pick(&edges).to_le_bytes().to_vec(),
        1 => payload[0] = rng.pick(&[0, 1, 2, 0xFF]),
        _ => damage(rng, payload),
    }
}

fn other_kind(rng: &mut Rng, old: u16) -> u16 {
    match rng.below(3) {
        0 => old ^ 1 << rng.below(16),
        1 => old.wrapping_add(1),
        _ => rng.pick(&[
            0x0107, 0x0108, 0x0110, 0x0118, 0x0119, 0x011A, 0x0120, 0x0126, 0x012F, 0x0160, 0x01A0, 0x0200, 0x0205,
            0x0212, 1, 2, 3, 4, 5,
        ]),
    }
}

fn wrong_record_length(rng: &mut Rng, all: &[Record], at: usize) -> Vec<u8> {
    let mut bytes = join(all);
    let place = join(&all[..at]).len();
    bytes[place] = match rng.below(3) {
        0 => bytes[place].wrapping_add(1),
        1 => bytes[place].wrapping_sub(1),
        _ => rng.byte(),
    };
    bytes
}
