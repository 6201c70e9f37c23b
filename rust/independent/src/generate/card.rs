//! Whole cards.

use super::fat::fat;
use super::flaw::{Flaw, FLAWS, TEMPLATE_FLAWS};
use super::maker::{spare_maker, Maker};
use super::node::{group, leaf, Card, File, Node};
use super::rng::Rng;

pub const LARGEST_DUMP: usize = 32_768;
pub const LARGEST_FILE: usize = 16_383;
/// How many of a hundred cards may have record files, so that about a third of all have one.
const LINEAR: usize = 52;
/// How many of a hundred cards without a flaw are about links.
const LINKED: usize = 12;

/// A card that is accepted.
pub fn valid(rng: &mut Rng) -> Card {
    loop {
        let card = if rng.below(200) == 0 { fat(rng) } else { made(rng, vec![]) };
        if fits(&card) {
            return card;
        }
    }
}

/// A card that is accepted and has a record file.
pub fn valid_with_records(rng: &mut Rng) -> Card {
    valid_with(rng, Card::has_linear)
}

/// A card that is accepted and has an EF.DIR.
pub fn valid_with_templates(rng: &mut Rng) -> Card {
    valid_with(rng, |card| card.templates.is_some())
}

fn valid_with(rng: &mut Rng, wanted: fn(&Card) -> bool) -> Card {
    loop {
        let card = valid(rng);
        if wanted(&card) {
            return card;
        }
    }
}

/// A card with an EF.DIR that may have one or two of the flaws; all else is right.
pub fn flawed_templates(rng: &mut Rng) -> Card {
    let mut card = valid(rng);
    let mut flaws = vec![rng.pick(&TEMPLATE_FLAWS)];
    if rng.chance(20) {
        flaws.push(rng.pick(&TEMPLATE_FLAWS));
    }
    let mut maker = spare_maker(rng);
    (maker.flaws, maker.often) = (flaws, true);
    card.templates = Some(maker.template_file());
    card
}

/// A card with one more object, a key whose keyReference may be wrong or another whose numbers may; all else is right.
pub fn flawed_numbers(rng: &mut Rng) -> Card {
    let mut card = valid(rng);
    let key = rng.between(0xA0, 0xA3) as u8;
    let other = rng.pick(&[0xA0, 0xA4, 0xA8, 0xA8, 0xA8]);
    let (tag, flaw) = rng.pick(&[(key, Flaw::KeyReference), (other, Flaw::Integer)]);
    let mut maker = spare_maker(rng);
    (maker.flaws, maker.small) = (vec![flaw], true);
    let object = maker.object(tag);
    card.directory.nodes.push(group(tag, vec![group(0xA0, vec![object])]));
    card
}

/// A card that may have one or two of the flaws.
pub fn flawed(rng: &mut Rng) -> Card {
    let mut flaws = vec![rng.pick(&FLAWS)];
    if rng.chance(20) {
        flaws.push(rng.pick(&FLAWS));
    }
    made(rng, flaws)
}

fn fits(card: &Card) -> bool {
    let short = |bytes: Vec<u8>| bytes.len() <= LARGEST_FILE;
    let files_fit = card.files.iter().all(|(_, file)| short(file.encode()));
    let first_fit = card.templates.iter().chain([&card.info, &card.directory]).all(|file| short(file.encode()));
    first_fit && files_fit && card.encode().len() <= LARGEST_DUMP
}

fn made(rng: &mut Rng, flaws: Vec<Flaw>) -> Card {
    let pool = pool(rng);
    let own = if rng.chance(95) { pool.clone() } else { (0..128).map(|n| vec![n]).collect() };
    // "At most 128 objects", or, as a flaw, up to two more
    let left = if flaws.contains(&Flaw::Many) { 130 } else { 128 };
    let about_cards = flaws.iter().any(|flaw| matches!(flaw, Flaw::Many | Flaw::Size | Flaw::Twice | Flaw::Path));
    let small = !about_cards && rng.chance(if flaws.is_empty() { 30 } else { 70 });
    let linear = flaws.contains(&Flaw::Second) || rng.chance(LINEAR);
    let about_links = flaws.is_empty() && rng.chance(LINKED);
    let about_files = flaws.is_empty() && rng.below(200) == 0;
    let mut maker = Maker { rng, flaws, often: false, pool, own, taken: vec![], left, small, linear };
    if about_files {
        maker.crowd_of_files()
    } else if about_links {
        maker.linked_card()
    } else if small {
        maker.small_card()
    } else {
        maker.card()
    }
}

/// A few identifiers, among them the empty one, prefixes of each other, and the longest.
fn pool(rng: &mut Rng) -> Vec<Vec<u8>> {
    let long = rng.between(126, 254);
    let all =
        [vec![], vec![0], vec![1], vec![2], vec![1, 2], vec![1, 2, 3], b"ADM".to_vec(), vec![9; long], vec![9; 255]];
    let short = rng.between(2, 7);
    let mut pool = all[..short].to_vec();
    if rng.chance(10) {
        pool.extend_from_slice(&all[7..]);
    }
    pool
}

impl Maker<'_> {
    /// A card of one entry with one or two objects.
    fn small_card(&mut self) -> Card {
        let mut card = self.empty_card();
        self.left = self.rng.between(1, 2);
        self.entry(&mut card, false);
        card
    }

    /// A card with the shortest CIAInfo and without entries, which may have an EF.DIR.
    pub fn empty_card(&mut self) -> Card {
        let parts = vec![leaf(0x02, vec![1]), leaf(0x03, vec![0])];
        let info = File { nodes: vec![group(0x30, parts)], fill: (0, 0) };
        let directory = File { nodes: vec![], fill: (0, 0) };
        Card { templates: self.templates(), info, directory, files: vec![] }
    }

    fn card(&mut self) -> Card {
        let directory = File { nodes: vec![], fill: (0, 0) };
        let mut card = Card { templates: self.templates(), info: self.info(), directory, files: vec![] };
        let most = if self.rng.chance(15) { 9 } else { 3 };
        let fewest = usize::from(self.rng.chance(90));
        let entries = self.rng.between(fewest, most);
        for _ in 0..entries {
            self.entry(&mut card, false);
        }
        if self.option(1, &[Flaw::Many]) {
            self.entry(&mut card, true);
        }
        card.directory.fill = self.fill();
        if self.option(2, &[Flaw::Size]) {
            self.lengthen(&mut card);
        }
        card
    }

    fn info(&mut self) -> File {
        let mut parts = vec![self.integer(0x02, 0, 255)];
        if self.option(30, &[Flaw::Octets]) {
            parts.push(self.octets(0x04, 0, 255));
        }
        if self.option(30, &[Flaw::Text]) {
            parts.push(self.text(0x0C));
        }
        if self.option(30, &[Flaw::Text]) {
            parts.push(self.text(0x80));
        }
        parts.push(self.flags(0x03));
        parts.extend(self.rest(&[0x04, 0x0C, 0x80]));
        File { nodes: vec![group(0x30, parts)], fill: self.fill() }
    }

    pub fn fill(&mut self) -> (u8, usize) {
        if self.rng.chance(80) {
            return (0, 0);
        }
        (self.rng.pick(&[0x00, 0xFF]), self.rng.between(1, 9))
    }

    /// Adds an EF.OD entry: unknown, inline, or naming a file, which is added too.
    fn entry(&mut self, card: &mut Card, crowd: bool) {
        let tag = self.entry_tag();
        if !crowd && self.rng.chance(8) {
            let node = self.unknown_entry();
            card.directory.nodes.push(node);
            return;
        }
        let objects = self.objects(tag, crowd);
        self.place(card, tag, objects);
    }

    /// Adds an EF.OD entry with these objects, inline or in a file.
    pub fn place(&mut self, card: &mut Card, tag: u8, objects: Vec<Node>) {
        let inline = if self.flaws.contains(&Flaw::Second) { 10 } else { 40 };
        if self.rng.chance(inline) {
            card.directory.nodes.push(group(tag, vec![group(0xA0, objects)]));
            return;
        }
        let path = self.file_path(card);
        let mut named = path.clone();
        if self.flaw(Flaw::Path) {
            let count = self.rng.pick(&[0, 65, path.len()]);
            named.resize(count, 0x44);
        }
        card.directory.nodes.push(group(tag, vec![group(0x30, vec![leaf(0x04, named)])]));
        let file = self.directory_file(objects);
        card.files.push((path, file));
    }

    /// All nine, those that links are about more often, and on small cards the one with the most components.
    fn entry_tag(&mut self) -> u8 {
        match self.rng.below(10) {
            0..=2 if self.small => 0xA8,
            0..=5 => self.rng.pick(&[0xA0, 0xA4, 0xA8]),
            _ => self.rng.between(0xA0, 0xA8) as u8,
        }
    }

    /// A few objects, or a crowd of short ones that leaves room for none or for one more.
    fn objects(&mut self, tag: u8, crowd: bool) -> Vec<Node> {
        let count = match self.rng.below(10) {
            _ if crowd => self.left.saturating_sub(self.rng.below(2)),
            0..=7 => self.rng.between(1, 3),
            _ => self.rng.below(6),
        };
        let count = count.min(self.left);
        self.left -= count;
        (0..count).map(|_| if crowd { self.short_object(tag) } else { self.object(tag) }).collect()
    }

    fn unknown_entry(&mut self) -> Node {
        let mut node = self.sealed_element(&[], 16);
        while !(0x80..=0xBF).contains(&node.tag[0]) || (0xA0..=0xA8).contains(&node.tag[0]) {
            let constructed = node.tag[0] & 0x20;
            node.tag = self.tag(&[]);
            node.tag[0] = node.tag[0] & !0x20 | constructed;
        }
        node
    }

    /// A path that no other file has.
    fn file_path(&mut self, card: &Card) -> Vec<u8> {
        if self.flaw(Flaw::Path) {
            return self.wrong_path(card);
        }
        loop {
            let path = match self.rng.below(12) {
                0 => vec![0x3F; 64],
                1 => {
                    let count = self.rng.between(1, 64);
                    self.rng.bytes(count)
                }
                2 => vec![0x44],
                _ => vec![0x44, self.rng.below(12) as u8],
            };
            if !card.files.iter().any(|(other, _)| *other == path) {
                return path;
            }
        }
    }

    /// A path that another file has, or one that is too short or too long.
    fn wrong_path(&mut self, card: &Card) -> Vec<u8> {
        let mut paths = vec![vec![], vec![0x3F; 65]];
        for (path, _) in &card.files {
            paths.extend([path.clone(), path.clone(), path.clone()]);
        }
        self.rng.pick(&paths)
    }

    /// Gives one file, or all in turn, more fill, up to a bound or, as a flaw, over it.
    fn lengthen(&mut self, card: &mut Card) {
        let over = usize::from(self.flaw(Flaw::Size));
        let all = self.rng.chance(50);
        let chosen = self.rng.below(card.lengths().len());
        let mut left = LARGEST_DUMP.saturating_sub(card.encode().len()) + over;
        for (index, (length, part)) in card.lengths().into_iter().enumerate() {
            let bound = if all { LARGEST_FILE } else { LARGEST_FILE + over };
            let room = bound.saturating_sub(length).min(left);
            if let Some(part) = part.filter(|_| all || index == chosen) {
                part.fill.1 += room;
                left -= room;
            }
        }
    }
}
