//! Damage to the tree of a card. All enclosing lengths are right afterwards.

use super::maker::Maker;
use super::node::{group, Body, Card, File, Node};
use super::text;
use crate::read::templates::OURS;
use crate::write::element::{flag_contents, integer_contents};

/// The tags that tell what a value may be.
const VALUES: [u8; 9] = [0x01, 0x02, 0x03, 0x05, 0x0A, 0x0C, 0x18, 0x50, 0x80];
/// Those that a number has; a context tag may be something else, too.
const NUMBERS: [u8; 3] = [0x02, 0x0A, 0x80];

/// Damages one element of the card.
pub fn damage(maker: &mut Maker, card: &mut Card) {
    let mut files: Vec<&mut File> = card.all_parts().into_iter().filter(|file| !file.nodes.is_empty()).collect();
    let count = files.len();
    let file = files.swap_remove(maker.rng.below(count));
    damage_file(maker, file);
}

/// Damages one element of a file that has one.
pub fn damage_file(maker: &mut Maker, file: &mut File) {
    let (list, at) = choose(maker, &mut file.nodes);
    match maker.rng.below(15) {
        0 | 1 => {
            list.remove(at);
        }
        2 | 3 => list.insert(at, list[at].clone()),
        4 | 5 => {
            let other = maker.rng.below(list.len());
            list.swap(at, other);
        }
        6 => list[at].tag = other_tag(maker, &list[at].tag),
        7 | 8 => resize(maker, &mut list[at]),
        12..=14 => other_value(maker, &mut list[at]),
        9 => list[at].length = Some(odd_length(maker, list[at].contents().len())),
        10 => {
            let more = maker.sealed_element(&[], 16);
            list.insert(at, more);
        }
        _ => {
            let inner = list.remove(at);
            let tag = maker.rng.pick(&[0x30, 0xA0, 0xA1, 0x61, 0x73]);
            list.insert(at, group(tag, vec![inner]));
        }
    }
}

/// Goes down from the top at random to an element and tells the list that it stands in.
fn choose<'n>(maker: &mut Maker, nodes: &'n mut Vec<Node>) -> (&'n mut Vec<Node>, usize) {
    let mut list = nodes;
    loop {
        let at = maker.rng.below(list.len());
        let deeper = matches!(&list[at].body, Body::Parts(parts) if !parts.is_empty());
        if !deeper || maker.rng.chance(15) {
            return (list, at);
        }
        list = match &mut list[at].body {
            Body::Parts(parts) => parts,
            Body::Bytes(_) => unreachable!("only parts are gone into"),
        };
    }
}

fn other_tag(maker: &mut Maker, old: &[u8]) -> Vec<u8> {
    match maker.rng.below(5) {
        0 => vec![old[0] ^ 1 << maker.rng.below(8)],
        1 => vec![maker.rng.between(0xA0, 0xA8) as u8],
        2 => vec![maker.rng.pick(&[0x00, 0xFF, 0x1F, 0x9F, 0xBF])],
        3 => maker.bad_tag(),
        _ => maker.tag(&[]),
    }
}

/// Gives a leaf a value at or over an edge, if its tag tells what it may be.
fn other_value(maker: &mut Maker, node: &mut Node) {
    let numbers = [-129, -128, -127, -1, 0, 3, 5, 9, 65, 256, 32_768, 65_536];
    let contents = match node.tag[0] {
        0x01 => vec![maker.rng.pick(&[0x00, 0x01, 0xFF])],
        0x02 | 0x0A | 0x80 => integer_contents(maker.rng.pick(&numbers)),
        0x03 => flag_contents(maker.flag_word()),
        0x04 | 0x51 => {
            maker.rng.pick(&[vec![], vec![1], vec![1, 2], vec![3; 64], vec![3; 65], vec![9; 255], vec![9; 256]])
        }
        0x4F => maker.rng.pick(&[vec![], OURS[..4].to_vec(), OURS.to_vec(), vec![7; 16], vec![7; 17]]),
        0x0C | 0x50 => text::at_the_bound(maker.rng),
        _ => return resize(maker, node),
    };
    node.body = Body::Bytes(contents);
}

/// Gives the element a longer or shorter contents.
fn resize(maker: &mut Maker, node: &mut Node) {
    let mut contents = node.contents();
    match maker.rng.below(4) {
        0 => contents.clear(),
        1 => contents.truncate(maker.rng.below(contents.len() + 1)),
        2 => {
            let count = maker.rng.between(1, 3);
            let more = maker.rng.bytes(count);
            contents.extend(more);
        }
        _ => {
            let count = maker.rng.pick(&[2, 65, 128, 256]);
            contents.resize(count, 0x41);
        }
    }
    node.body = Body::Bytes(contents);
}

/// Another form of this length than the shortest, or another length.
fn odd_length(maker: &mut Maker, length: usize) -> Vec<u8> {
    let low = length as u8;
    let high = (length >> 8) as u8;
    match maker.rng.below(8) {
        0 => vec![0x81, low],
        1 => vec![0x82, high, low],
        2 => vec![0x83, 0, high, low],
        3 => vec![0x80],
        4 => vec![low.wrapping_add(1) & 0x7F],
        5 => vec![low.wrapping_sub(1) & 0x7F],
        6 => vec![0x84, 0, 0, high, low],
        _ => vec![maker.rng.byte()],
    }
}

/// Gives one value of the card a bad form.
pub fn damage_value(maker: &mut Maker, card: &mut Card) {
    replace(maker, card, &VALUES, bad_value);
}

/// Gives one number of the card another value, mostly one that it may not have.
pub fn damage_number(maker: &mut Maker, card: &mut Card) {
    replace(maker, card, &NUMBERS, |maker, _| maker.other_number());
}

/// Gives one value with one of these tags other contents; its tag is chosen first, so that rare ones have their turn.
fn replace(maker: &mut Maker, card: &mut Card, wanted: &[u8], contents: fn(&mut Maker, u8) -> Vec<u8>) {
    let mut found = Vec::new();
    for file in card.all_parts() {
        file.nodes.iter_mut().for_each(|node| values(node, wanted, &mut found));
    }
    let mut tags: Vec<u8> = found.iter().map(|node| node.tag[0]).collect();
    tags.sort();
    tags.dedup();
    let tag = maker.rng.pick(&tags);
    found.retain(|node| node.tag[0] == tag);
    let at = maker.rng.below(found.len());
    found[at].body = Body::Bytes(contents(maker, tag));
}

/// The values in this element, or itself if it is one; some are in sealed parts, where no form is looked at.
fn values<'n>(node: &'n mut Node, wanted: &[u8], found: &mut Vec<&'n mut Node>) {
    match node.body {
        Body::Bytes(_) if wanted.contains(&node.tag[0]) => found.push(node),
        Body::Bytes(_) => {}
        Body::Parts(ref mut parts) => parts.iter_mut().for_each(|part| values(part, wanted, found)),
    }
}

/// A value in a bad form, or what may be a default.
fn bad_value(maker: &mut Maker, tag: u8) -> Vec<u8> {
    let number = maker.rng.pick(&[0, 1, 4, 127, 255, 65_536, -1, -127, -128, -129]);
    match (tag, maker.rng.below(4)) {
        (0x01, 0) => vec![maker.rng.pick(&[0x00, 0xFF])],
        (0x01, _) => maker.bad_boolean(),
        (0x80, 0) => vec![0],
        (0x02 | 0x0A, _) | (0x80, 1) => maker.bad_integer(number),
        (0x03, 0 | 1) => maker.bad_bits(),
        (0x03, _) => maker.trailing_bits(),
        (0x05, _) => maker.bad_null(),
        (0x0C | 0x50, _) | (0x80, 2) => maker.bad_text(),
        _ => maker.bad_time(),
    }
}
