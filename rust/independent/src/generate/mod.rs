//! Generates dumps and books: whole ones with every component and option, and damaged ones.

mod alike;
pub mod bytes;
pub mod card;
mod crowd;
mod fat;
mod flaw;
mod forms;
mod full;
mod linear;
mod linear_damage;
mod linked;
mod maker;
pub mod node;
mod numbers;
mod object;
pub mod object_places;
mod openings;
pub mod rng;
mod sealed;
mod template_flaws;
mod template_records;
mod templates;
mod templates_damage;
mod text;
mod tree;
mod walk;

use maker::{spare_maker, Maker};
use node::{Card, Record};
pub use rng::Rng;

/// A dump, whole in a third of the cases and otherwise damaged.
pub fn dump(rng: &mut Rng) -> Vec<u8> {
    if rng.chance(33) {
        return card::valid(rng).encode();
    }
    match rng.below(73) {
        0..=11 => damaged_tree(rng),
        12..=28 => card::flawed(rng).encode(),
        29..=34 => damaged_bytes(rng),
        35..=40 => damaged_frames(rng),
        41 => damaged_fill(rng),
        42..=47 => damaged_records(rng),
        48..=51 => damaged_value(rng, tree::damage_value),
        52..=57 => damaged_value(rng, tree::damage_number),
        58..=61 => card::flawed_numbers(rng).encode(),
        62..=69 => damaged_templates(rng),
        70..=71 => alike::card(rng).encode(),
        _ => full::full(rng).encode(),
    }
}

/// A card with elements dropped, doubled, swapped or changed, all enclosing lengths repaired.
fn damaged_tree(rng: &mut Rng) -> Vec<u8> {
    let mut card = card::valid(rng);
    let times = if rng.chance(80) { 1 } else { rng.between(2, 4) };
    for _ in 0..times {
        damage_tree(rng, &mut card);
    }
    card.encode()
}

fn damage_tree(rng: &mut Rng, card: &mut Card) {
    if card.all_parts().iter().all(|file| file.nodes.is_empty()) {
        return;
    }
    tree::damage(&mut spare_maker(rng), card);
}

/// A card with one value damaged in this way, all enclosing lengths repaired.
fn damaged_value(rng: &mut Rng, damage: fn(&mut Maker, &mut Card)) -> Vec<u8> {
    let mut card = card::valid(rng);
    damage(&mut spare_maker(rng), &mut card);
    card.encode()
}

/// A card with bytes flipped, cut, added, taken, or a length changed; nothing is repaired.
fn damaged_bytes(rng: &mut Rng) -> Vec<u8> {
    let mut dump = card::valid(rng).encode();
    if rng.chance(40) {
        bytes::change_length(rng, &mut dump);
        return dump;
    }
    let times = rng.between(1, 3);
    for _ in 0..times {
        bytes::damage(rng, &mut dump);
    }
    dump
}

/// A card with whole records damaged, or with a file's bytes damaged and its record's length repaired.
fn damaged_frames(rng: &mut Rng) -> Vec<u8> {
    let dump = card::valid(rng).encode();
    bytes::damage_records(rng, &dump)
}

/// A card with records of its record files damaged, or their lengths; sometimes CIAInfo too, which is read after them.
fn damaged_records(rng: &mut Rng) -> Vec<u8> {
    let mut records = card::valid_with_records(rng).records();
    let times = if rng.chance(85) { 1 } else { 2 };
    for _ in 0..times {
        linear_damage::damage(rng, &mut records);
    }
    if rng.chance(10) {
        damage_info(rng, &mut records);
    }
    node::join(&records)
}

/// Damages the bytes of CIAInfo, if it is there.
fn damage_info(rng: &mut Rng, records: &mut [Record]) {
    if let Some(info) = records.iter_mut().find(|record| record.kind == 1) {
        bytes::damage(rng, &mut info.payload);
    }
}

/// A card with a flaw in its EF.DIR, or with the tree or the dump record of that damaged; sometimes CIAInfo too, which
/// is read after it, or a frame behind it or the dump's size, which are looked at before.
fn damaged_templates(rng: &mut Rng) -> Vec<u8> {
    let mut records = match rng.below(10) {
        0..=4 => card::flawed_templates(rng).records(),
        5 | 6 => templates_damage::damaged_tree(rng).records(),
        _ => templates_damage::damaged_frames(rng),
    };
    if rng.chance(15) {
        damage_info(rng, &mut records);
    }
    let mut dump = node::join(&records);
    if rng.chance(12) {
        templates_damage::damage_end(rng, &mut dump);
    }
    dump
}

/// A card with fill in which one byte differs; the last element of that file or record may be lacking, too.
fn damaged_fill(rng: &mut Rng) -> Vec<u8> {
    let mut card = card::valid(rng);
    let mut files = card.all_parts();
    let at = rng.below(files.len());
    let file = &mut files[at];
    if rng.chance(20) {
        file.nodes.pop();
    }
    let mut fill = vec![rng.pick(&[0x00, 0xFF]); rng.between(1, 12)];
    let at = rng.below(fill.len());
    fill[at] = rng.pick(&[0x00, 0x01, 0x30, 0xFE, 0xFF]);
    file.nodes.push(node::raw(fill));
    file.fill = (0, 0);
    card.encode()
}

/// A damaged copy of an accepted book: in the numbers that tell where its objects stand, or elsewhere, and then those
/// numbers are mostly repaired.
pub fn damaged_book(rng: &mut Rng, book: &[u8]) -> Vec<u8> {
    let mut all = node::split(book);
    if rng.chance(object_places::percent(&all)) {
        object_places::damage(rng, book, &mut all);
        return node::join(&all);
    }
    let copy = damaged_elsewhere(rng, book);
    if rng.chance(85) {
        object_places::repaired(copy)
    } else {
        copy
    }
}

/// A copy of a book that is damaged in anything, whatever that does to the numbers of its objects.
fn damaged_elsewhere(rng: &mut Rng, book: &[u8]) -> Vec<u8> {
    let mut all = node::split(book);
    if rng.chance(openings::percent(&all)) {
        openings::damage(rng, &mut all);
        return node::join(&all);
    }
    if rng.chance(template_records::percent(&all)) {
        template_records::damage(rng, &mut all);
        return node::join(&all);
    }
    let texts = node::places(&all, &text::KINDS);
    if !texts.is_empty() && rng.chance(6) {
        all[rng.pick(&texts)].payload = text::at_the_bound(rng);
        return node::join(&all);
    }
    if rng.chance(12) {
        numbers::damage(rng, &mut all);
        return node::join(&all);
    }
    if rng.chance(70) {
        return bytes::damage_records(rng, book);
    }
    let mut copy = book.to_vec();
    bytes::damage(rng, &mut copy);
    copy
}
