//! A card of 128 objects, the last in a record, and what may stand behind it: in the same record, or in one more.

use super::node::{group, leaf, raw, Card, DirectoryFile, File, Node};
use super::rng::Rng;

const MOST_OBJECTS: usize = 128;

pub fn full(rng: &mut Rng) -> Card {
    let before = rng.pick(&[0, 1, 64, 127]);
    let inline = group(0xA7, vec![group(0xA0, vec![container(); before])]);
    let named = group(0xA7, vec![group(0x30, vec![leaf(0x04, vec![0x44])])]);
    let mut records = vec![record(vec![container()]); MOST_OBJECTS - before];
    let more = behind(rng);
    if rng.chance(50) {
        records.push(record(more));
    } else {
        let last = records.len() - 1;
        records[last].nodes.extend(more);
    }
    Card {
        templates: None,
        info: record(vec![group(0x30, vec![leaf(0x02, vec![1]), leaf(0x03, vec![0])])]),
        directory: record(vec![inline, named]),
        files: vec![(vec![0x44], DirectoryFile::Linear(records))],
    }
}

/// An object, bytes that begin none, fill, or nothing.
fn behind(rng: &mut Rng) -> Vec<Node> {
    let any = rng.byte();
    match rng.below(6) {
        0 => vec![],
        1 => vec![container()],
        2 => vec![raw(rng.pick(&[vec![0x1F], vec![0x30], vec![0x30, 0x80], vec![0x01, 0x00]]))],
        3 => vec![raw(vec![any])],
        4 => vec![raw(vec![rng.pick(&[0x00, 0xFF]); 3])],
        _ => vec![raw(vec![rng.pick(&[0x00, 0xFF])]), container()],
    }
}

fn record(nodes: Vec<Node>) -> File {
    File { nodes, fill: (0, 0) }
}

/// A data container as short as it can be.
fn container() -> Node {
    group(0x30, vec![group(0x30, vec![]), group(0x30, vec![]), group(0xA1, vec![leaf(0x05, vec![])])])
}
