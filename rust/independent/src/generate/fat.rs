//! A card whose book is as long as a book can be, some of them over 65,536 bytes: the most objects with the most
//! numbers, and for the rest of the dump lists of conditions, which take two bytes each and have records of four; or as
//! many records as fit into the files, of one byte, which take three and have eleven in the book, or of none. In place
//! of one of the two files there may be an EF.DIR of elements of two bytes, which have six in the book, or of short
//! templates.

use super::node::{group, leaf, Card, DirectoryFile, File, Node};
use super::rng::Rng;

/// All files together with their records have 32,768 bytes at most.
const FILE: usize = 16_363;

pub fn fat(rng: &mut Rng) -> Card {
    let bound = FILE - rng.pick(&[0, 1, 200, 300]);
    let templates = if rng.chance(30) { Some(templates(rng, bound)) } else { None };
    let paths = if templates.is_some() { vec![vec![1]] } else { vec![vec![1], vec![2]] };
    let files = if rng.chance(60) { [file(bound), file(bound)] } else { [records(rng, bound), records(rng, bound)] };
    let entry = |path: &Vec<u8>| group(0xA8, vec![group(0x30, vec![leaf(0x04, path.clone())])]);
    Card {
        templates,
        info: File { nodes: vec![group(0x30, vec![leaf(0x02, vec![1]), leaf(0x03, vec![0])])], fill: (0, 0) },
        directory: File { nodes: paths.iter().map(entry).collect(), fill: (0, 0) },
        files: paths.into_iter().zip(files).collect(),
    }
}

/// Short elements of one sort up to the bound.
fn templates(rng: &mut Rng, bound: usize) -> File {
    let template = group(0x61, vec![leaf(0x4F, vec![rng.byte()])]);
    let element = rng.pick(&[leaf(0x05, vec![]), template]);
    let count = bound / element.encode().len();
    File { nodes: vec![element; count], fill: (0, 0) }
}

/// Records of one byte of fill, or of nothing, up to the bound.
fn records(rng: &mut Rng, bound: usize) -> DirectoryFile {
    let count = rng.pick(&[0, 1, 1]);
    let record = File { nodes: vec![], fill: (rng.pick(&[0x00, 0xFF]), count) };
    DirectoryFile::Linear(vec![record; bound / (2 + count)])
}

/// Sixty-four passwords, the last of which has as many conditions as the bound allows.
fn file(bound: usize) -> DirectoryFile {
    let mut rules = Vec::new();
    let mut nodes = vec![password(vec![]); 64];
    // a rule of 255 conditions has 4 + 3 + 4 + 510 bytes, and the headers around grow by less than 20
    let left = bound - 64 * password(vec![]).encode().len() - 20;
    for _ in 0..left / 521 {
        rules.push(rule(255));
    }
    rules.push(rule((left % 521).saturating_sub(12).max(4) / 2));
    nodes[63] = password(vec![group(0x30, rules)]);
    DirectoryFile::Transparent(File { nodes, fill: (0, 0) })
}

fn rule(count: usize) -> Node {
    group(0x30, vec![leaf(0x03, vec![0]), group(0xA1, vec![leaf(0x05, vec![]); count])])
}

fn password(rules: Vec<Node>) -> Node {
    let mut common = vec![leaf(0x03, vec![0]), leaf(0x02, vec![1])];
    common.extend(rules);
    let class = vec![leaf(0x02, vec![1]), leaf(0x80, vec![1])];
    let numbers = [(0x03, 0), (0x0A, 0), (0x02, 4), (0x02, 0), (0x02, 0), (0x80, 1)];
    let sequence = numbers.iter().map(|(tag, value)| leaf(*tag, vec![*value])).collect();
    group(0x30, vec![group(0x30, common), group(0x30, class), group(0xA1, vec![group(0x30, sequence)])])
}
