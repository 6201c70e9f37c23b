//! Damage to EF.DIR's tree and to its dump record.

use super::card::{LARGEST_DUMP, LARGEST_FILE};
use super::maker::spare_maker;
use super::node::{Card, Record};
use super::rng::Rng;
use super::{bytes, card, tree};

/// A card with elements of its EF.DIR dropped, doubled, swapped or changed, all enclosing lengths repaired.
pub fn damaged_tree(rng: &mut Rng) -> Card {
    let mut card = card::valid_with_templates(rng);
    let file = card.templates.as_mut().expect("the card was made with it");
    let times = if rng.chance(80) { 1 } else { rng.between(2, 4) };
    for _ in 0..times {
        if !file.nodes.is_empty() {
            tree::damage_file(&mut spare_maker(rng), file);
        }
    }
    card
}

/// The records of a dump whose EF.DIR is not where it may be, is there twice, or is too long; or another record has its
/// kind.
pub fn damaged_frames(rng: &mut Rng) -> Vec<Record> {
    let mut dump = card::valid_with_templates(rng).records();
    let later = rng.between(1, dump.len() - 1);
    match rng.below(12) {
        0 | 1 => {
            let moved = dump.remove(0);
            dump.insert(later, moved);
        }
        2 => dump.swap(0, later),
        3 => dump.insert(later, dump[0].clone()),
        4 => dump.push(dump[0].clone()),
        5 => {
            let at = rng.pick(&[0, 1, later, dump.len()]);
            dump.insert(at, Record { kind: 5, payload: vec![] });
        }
        6 => dump[0].kind = rng.pick(&[0, 1, 2, 3, 4, 6, 0x0105, 0x0200, 0x0500]),
        7 => dump[later].kind = 5,
        8 | 9 => {
            let over = rng.pick(&[0, 1, 1, 2, 20_000]);
            dump[0].payload.resize(LARGEST_FILE + over, 0xFF);
        }
        10 => dump.truncate(rng.between(1, 2)),
        _ => bytes::damage(rng, &mut dump[0].payload),
    }
    dump
}

/// Puts a record that is broken or not due behind the last, or so many bytes that the dump is too long.
pub fn damage_end(rng: &mut Rng, dump: &mut Vec<u8>) {
    match rng.below(6) {
        0 => dump.push(rng.byte()),
        1 => dump.extend([0x03, 0x00, 0x03, 0x00, 0x00]),
        2 => dump.extend([0x02, 0x00, 0x05, 0x00]),
        3 => dump.extend([0x01, 0x00, 0x03, 0x00]),
        4 => dump.extend([0xFF, 0x00, 0x04, 0x00, 0x01, 0x44]),
        _ => dump.resize(dump.len().max(LARGEST_DUMP + 1), 0),
    }
}
