//! Cards whose paths, or whose identifiers, are many and alike: of one length, and different at one or two places.

use super::maker::spare_maker;
use super::node::{group, leaf, Card, DirectoryFile, File, Node};
use super::object::sealed_object;
use super::rng::Rng;

/// So many byte strings that are alike.
fn alike(rng: &mut Rng, count: usize, length: usize) -> Vec<Vec<u8>> {
    let place = rng.below(length - 1);
    let numbered = |number: usize| {
        let mut bytes = vec![0x44; length];
        bytes[place] = number as u8;
        bytes[place + 1] = (number >> 8) as u8;
        bytes
    };
    (0..count).map(numbered).collect()
}

/// EF.OD names many paths, one of them perhaps twice, perhaps behind unknown entries; the files are empty.
pub fn paths(rng: &mut Rng) -> Card {
    let length = rng.pick(&[2, 3, 8, 9, 16, 63, 64]);
    let count = rng.between(40, 160);
    let mut paths = alike(rng, count, length);
    if rng.chance(50) {
        let (from, to) = (rng.below(count), rng.below(count + 1));
        let path = paths[from].clone();
        paths.insert(to, path);
    }
    let mut card = spare_maker(rng).empty_card();
    for path in paths {
        if rng.chance(5) {
            card.directory.nodes.push(leaf(0x80, vec![]));
        }
        card.directory.nodes.push(group(0xA0, vec![group(0x30, vec![leaf(0x04, path.clone())])]));
        card.files.push((path, DirectoryFile::Transparent(File { nodes: vec![], fill: (0, 0) })));
    }
    card
}

/// Many guards and certificates, and keys with lists of conditions; some identifiers are no object's, an own one may be
/// borne twice.
pub fn identifiers(rng: &mut Rng) -> Card {
    let length = rng.pick(&[2, 3, 8, 9, 24, 40]);
    let count = rng.between(20, 60);
    let all = alike(rng, count + 5, length);
    let mut own = all[..count].to_vec();
    if rng.chance(20) {
        own[count - 1] = rng.pick(&own);
    }
    let mut card = spare_maker(rng).empty_card();
    let guards = own.iter().map(|own| sealed_object(0xA0, vec![], vec![leaf(0x04, own.clone())])).collect();
    let certificates = (0..rng.between(1, 30)).map(|_| certificate(rng, &all)).collect();
    let keys = (0..rng.between(1, 20)).map(|_| key(rng, &all)).collect();
    let mut entries: Vec<(u8, Vec<Node>)> = vec![(0xA8, guards), (0xA4, certificates), (0xA0, keys)];
    while let Some(at) = entries.len().checked_sub(1).map(|last| rng.between(0, last)) {
        let (tag, objects) = entries.swap_remove(at);
        spare_maker(rng).place(&mut card, tag, objects);
    }
    card
}

fn certificate(rng: &mut Rng, all: &[Vec<u8>]) -> Node {
    sealed_object(0xA0, vec![], vec![leaf(0x04, rng.pick(all))])
}

fn key(rng: &mut Rng, all: &[Vec<u8>]) -> Node {
    let count = rng.between(2, 12);
    let conditions = (0..count).map(|_| leaf(0x04, rng.pick(all))).collect();
    let rule = vec![leaf(0x03, vec![0]), group(rng.pick(&[0xA1, 0xA2]), conditions)];
    let class = vec![leaf(0x04, rng.pick(all)), leaf(0x03, vec![0])];
    sealed_object(0xA0, vec![leaf(0x04, rng.pick(all)), group(0x30, vec![group(0x30, rule)])], class)
}

/// One of the two.
pub fn card(rng: &mut Rng) -> Card {
    if rng.chance(50) {
        paths(rng)
    } else {
        identifiers(rng)
    }
}
